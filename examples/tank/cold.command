run tank.st --plant plant.csv --store tank.retain --start cold
