run mqtt.st --plant plant.csv --store mqtt.retain --start cold
