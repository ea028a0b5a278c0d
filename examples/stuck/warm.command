run stuck.st --plant next.csv --store stuck.retain --start warm
