run pumps.st --plant plant.csv --store pumps.retain --start cold
