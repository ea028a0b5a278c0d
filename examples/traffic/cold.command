run traffic.st --plant plant.csv --store traffic.retain --start cold
