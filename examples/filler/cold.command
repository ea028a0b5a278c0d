run filler.st --plant plant.csv --store filler.retain --start cold
