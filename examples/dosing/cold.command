run dosing.st --plant plant.csv --store dosing.retain --start cold
