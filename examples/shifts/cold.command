run shifts.st --plant plant.csv --store shifts.retain --start cold
