run level.st --plant plant.csv --store level.retain --start cold
