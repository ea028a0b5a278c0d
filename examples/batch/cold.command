run batch.st --plant plant.csv --store batch.retain --start cold
