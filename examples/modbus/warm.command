run modbus.st --plant next.csv --store modbus.retain --start warm
