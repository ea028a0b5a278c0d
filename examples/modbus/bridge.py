#!/usr/bin/python3
"""Joins `plant live` to a Modbus TCP device: every 100 ms it reads the device's inputs, sends them as a row, and writes the outputs of the
answer to the device. When no outputs come for 500 ms, when plant ends or when the device fails, it puts the coils into their safe state (off),
says why and ends with 1. When the bridge itself dies, only a time limit in the device does that: real devices have one.

usage: bridge.py HOST PORT PLANT live modbus.st --store F --start warm|cold
       PLANT is the built program. Needs Debian 12's packages python3-pymodbus (3.0.0) and python3-serial-asyncio, so the system's own
       Python runs it
"""
import os
import select
import signal
import subprocess
import sys
import time

from pymodbus.client import ModbusTcpClient
from pymodbus.exceptions import ModbusException

PERIOD, LIMIT, BEGIN = 0.1, 0.5, 10.0
SAFE = [False, False]  # the pump and the alarm


def checked(reply):
    """A reply of the device, if it is one."""
    if reply.isError():
        raise OSError(f"the device answers {reply}")
    return reply


def answer(plant, line, seconds):
    """Sends a line, and gives the answer. It comes in one piece, and none after it before the next line is sent."""
    try:
        plant.stdin.write(f"{line}\n".encode())
    except BrokenPipeError:
        raise OSError("plant has ended") from None
    if not select.select([plant.stdout], [], [], max(0, seconds))[0]:
        raise OSError(f"no outputs for {LIMIT * 1000:.0f} ms")
    came = os.read(plant.stdout.fileno(), 65536).decode()
    if not came:
        raise OSError("plant has ended")
    return came.strip()


def drive(device, plant):
    """Serves the device until something fails."""
    answer(plant, "t,enabled,level", BEGIN)
    moment, last = 0, time.monotonic()
    while True:
        begun = time.monotonic()
        enabled = checked(device.read_discrete_inputs(0)).bits[0]
        level = checked(device.read_input_registers(0)).registers[0]
        moment = max(moment + 1, int(time.time() * 1000))
        line = answer(plant, f"{moment},{enabled:d},{level}", last + LIMIT - time.monotonic())
        if "refused" in line:
            print(f"bridge.py: {line}", file=sys.stderr)
        else:
            _, pump, alarm, starts = map(int, line.split(","))
            checked(device.write_coils(0, [pump == 1, alarm == 1]))
            checked(device.write_registers(0, [starts]))
            last = time.monotonic()
        time.sleep(max(0, begun + PERIOD - time.monotonic()))


def made_safe(device):
    """Writes the safe state over a new connection, since a reply may be on its way over the old one, and says whether the device took it."""
    device.close()
    try:
        checked(device.write_coils(0, SAFE))
    except (OSError, ModbusException) as fault:
        return f"bridge.py: the device takes no safe state: {fault}"
    return "bridge.py: the coils are in their safe state"


def main():
    signal.signal(signal.SIGTERM, lambda *_: sys.exit("bridge.py: stopped"))
    device = ModbusTcpClient(sys.argv[1], int(sys.argv[2]), timeout=1, retries=0)
    print(made_safe(device), file=sys.stderr)
    plant = subprocess.Popen(sys.argv[3:], bufsize=0, stdin=subprocess.PIPE, stdout=subprocess.PIPE)
    try:
        drive(device, plant)
    except (OSError, ModbusException) as fault:
        sys.exit(f"bridge.py: {fault}")
    finally:
        print(made_safe(device), file=sys.stderr)
        plant.stdin.close()


main()
