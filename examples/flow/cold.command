run flow.st --plant plant.csv --store flow.retain --start cold
