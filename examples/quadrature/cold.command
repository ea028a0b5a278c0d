run quadrature.st --plant plant.csv --store quadrature.retain --start cold
