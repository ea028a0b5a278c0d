run line.st --plant plant.csv --store line.retain --start cold
