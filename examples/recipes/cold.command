run recipes.st --plant plant.csv --store recipes.retain --start cold
