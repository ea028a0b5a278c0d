run stuck.st --plant plant.csv --store stuck.retain --start cold
