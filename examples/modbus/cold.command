run modbus.st --plant plant.csv --store modbus.retain --start cold
