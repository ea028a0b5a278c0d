run batch.st --plant next.csv --store batch.retain --start warm
