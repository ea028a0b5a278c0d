run mqtt.st --plant next.csv --store mqtt.retain --start warm
