#!/usr/bin/python3
"""A Modbus TCP device to try bridge.py with, on this machine: a sump with a switch, a level, a pump and an alarm.

Lines on its standard input change its inputs: `enabled 0|1` (discrete input 0), `level N` (input register 0). It prints what is written to it
and differs from before: `pump 0|1` and `alarm 0|1` (coils 0 and 1), `starts N` (holding register 0). It ends with its input.

usage: device.py PORT     needs Debian's packages python3-pymodbus and python3-serial-asyncio, so the system's own Python runs it
"""
import asyncio
import os
import sys
import threading

from pymodbus.datastore import ModbusSequentialDataBlock, ModbusServerContext, ModbusSlaveContext
from pymodbus.server import StartAsyncTcpServer


class Shown(ModbusSequentialDataBlock):
    """Values that are printed when they change."""

    def __init__(self, *names):
        super().__init__(0, [0] * len(names))
        self.names = names

    def setValues(self, address, values):
        before = list(self.values)
        super().setValues(address, values)
        for name, old, new in zip(self.names, before, self.values):
            if old != new:
                print(name, int(new), flush=True)


def take_lines(enabled, level):
    for line in sys.stdin:
        name, value = line.split()
        {"enabled": enabled, "level": level}[name].setValues(0, [int(value)])
    os._exit(0)


def main():
    enabled, level = ModbusSequentialDataBlock(0, [0]), ModbusSequentialDataBlock(0, [0])
    threading.Thread(target=take_lines, args=(enabled, level), daemon=True).start()
    device = ModbusSlaveContext(di=enabled, ir=level, co=Shown("pump", "alarm"), hr=Shown("starts"), zero_mode=True)
    context = ModbusServerContext(slaves=device, single=True)
    asyncio.run(StartAsyncTcpServer(context=context, address=("127.0.0.1", int(sys.argv[1]))))


main()
