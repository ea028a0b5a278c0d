run filler.st --plant next.csv --store filler.retain --start warm
