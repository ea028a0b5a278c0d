run dosing.st --plant next.csv --store dosing.retain --start warm
