run strokes.st --plant plant.csv --store strokes.retain --start cold
