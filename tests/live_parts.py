#!/usr/bin/env python3
"""The bridges of examples/mqtt and examples/modbus with real parts: Mosquitto as the broker, and pymodbus for the device and its client. As
root it installs what is missing by apt-get; without them it skips.

usage: tests/live_parts.py PLANT     PLANT is the built program
"""
import contextlib
import os
import pathlib
import re
import select
import shutil
import signal
import socket
import subprocess
import sys
import tempfile
import time

EXAMPLES = pathlib.Path(__file__).resolve().parent.parent / "examples"
# the system's own Python, for which Debian has pymodbus
PYTHON = "/usr/bin/python3"
PATIENCE = 20
SAFE = "bridge.py: the coils are in their safe state\n"
MQTT = ("mosquitto", "mosquitto-clients")
MODBUS = ("python3-pymodbus", "python3-serial-asyncio")
PATH = f"{os.environ.get('PATH', '')}:/usr/sbin"


def fail(text):
    sys.exit(f"live_parts.py: {text}")


def has_mqtt():
    return all(shutil.which(it, path=PATH) for it in ("mosquitto", "mosquitto_sub", "mosquitto_pub"))


def has_modbus():
    words = [PYTHON, "-c", "import pymodbus.client, pymodbus.server; from pymodbus.datastore import ModbusSlaveContext"]
    return os.access(PYTHON, os.X_OK) and subprocess.run(words, capture_output=True, check=False).returncode == 0


def can_install(packages):
    """Installs packages if this process may."""
    if os.geteuid() != 0 or not shutil.which("apt-get"):
        return False
    env = {**os.environ, "DEBIAN_FRONTEND": "noninteractive"}
    for words in (["update"], ["install", "-y", "--no-install-recommends", *packages]):
        words = ["apt-get", "-q", "-o", "Acquire::Retries=0", "-o", "Acquire::http::Timeout=15", *words]
        try:
            ended = subprocess.run(words, env=env, stdin=subprocess.DEVNULL, capture_output=True, timeout=300, check=False)
        except subprocess.TimeoutExpired:
            return False
        if ended.returncode:
            return False
    return True


def free_port():
    with socket.create_server(("127.0.0.1", 0)) as server:
        return server.getsockname()[1]


def until(is_so, what, seconds=PATIENCE):
    """Waits until it is so, and gives the seconds that took."""
    begun = time.monotonic()
    while not is_so():
        if time.monotonic() - begun > seconds:
            fail(f"{what} within {seconds} seconds")
        time.sleep(0.02)
    return time.monotonic() - begun


def is_open(port):
    with contextlib.suppress(OSError), socket.create_connection(("127.0.0.1", port), timeout=1):
        return True
    return False


class Part:
    """A process that is a part of a scene; its output comes line by line, its errors go to a file."""

    def __init__(self, words, errors, **how):
        self.errors = errors
        with errors.open("ab") as file:
            how = {"stdin": subprocess.PIPE, **how, "stdout": subprocess.PIPE, "stderr": file}
            self.running = subprocess.Popen([str(it) for it in words], bufsize=0, env={**os.environ, "PATH": PATH}, **how)
        self.kept = b""

    def __enter__(self):
        return self

    def __exit__(self, *_):
        """Ends it, and what it has started."""
        if self.running.poll() is None:
            for pid in [*descendants(self.running.pid), self.running.pid]:
                with contextlib.suppress(ProcessLookupError):
                    os.kill(pid, signal.SIGKILL)
        self.running.wait()

    def send(self, text):
        self.running.stdin.write(text.encode())

    def line(self, seconds=PATIENCE):
        """Its next line without its LF; none if it doesn't come in time, or the output has ended."""
        deadline = time.monotonic() + seconds
        while b"\n" not in self.kept:
            if not select.select([self.running.stdout], [], [], max(0, deadline - time.monotonic()))[0]:
                return None
            more = os.read(self.running.stdout.fileno(), 4096)
            if not more:
                return None
            self.kept += more
        line, _, self.kept = self.kept.partition(b"\n")
        return line.decode()

    def said(self):
        return self.errors.read_text()

    def plant(self):
        """The process `plant live` that it has started."""
        for child in children(self.running.pid):
            if b"\0live\0" in pathlib.Path(f"/proc/{child}/cmdline").read_bytes():
                return child
        return None

    def kill_plant(self):
        os.kill(self.plant(), signal.SIGKILL)


def children(pid):
    return [int(it) for it in pathlib.Path(f"/proc/{pid}/task/{pid}/children").read_text().split()]


def descendants(pid):
    found = []
    with contextlib.suppress(FileNotFoundError):
        for child in children(pid):
            found += [*descendants(child), child]
    return found


def rows_of(path):
    return path.read_text().split()[1:]


# The answers to the rows of examples/mqtt, by hand: on below 195, off above 205; each switching counts.
COLD_ROOM = ["0,0,0", "1000,1,1", "2000,1,1", "3000,0,2", "4000,0,2", "5000,1,3"]
WARM_ROOM = ["6000,0,3", "7000,1,4", "8000,0,5", "9000,0,5"]


def publish(port, message):
    words = ["mosquitto_pub", "-h", "127.0.0.1", "-p", str(port), "-q", "1", "-t", "plant/in", "-m", message]
    subprocess.run(words, env={**os.environ, "PATH": PATH}, timeout=PATIENCE, check=True)


def asked(port, answers, rows, wanted):
    """Publishes each row, and waits for its answer."""
    for row, answer in zip(rows, wanted, strict=True):
        publish(port, row)
        line = answers.line()
        if line != answer:
            fail(f"mqtt: {row} is answered with {line}, not {answer}")


def begun(port, answers):
    """Waits until the bridge answers. A message that is no row changes nothing."""
    for _ in range(PATIENCE):
        publish(port, "hello")
        while line := answers.line(1):
            if line == ",refused I2":
                # Answers of earlier turns.
                while answers.line(0.5):
                    pass
                return
            if line != "t,HEATER,SWITCHINGS":
                fail(f"mqtt: a bridge begins with {line}")
    fail("mqtt: the bridge doesn't answer")


def mqtt(plant, folder):
    """Messages that come back have the outputs; after a kill the kept counter goes on."""
    port = free_port()
    user = "user root\n" if os.geteuid() == 0 else ""
    (folder / "broker.conf").write_text(f"listener {port} 127.0.0.1\nallow_anonymous true\npersistence false\n{user}")
    example, store = EXAMPLES / "mqtt", folder / "mqtt.retain"
    bridge = lambda start: Part([example / "bridge.sh", plant, store, start, port], folder / "bridge.errors")
    with contextlib.ExitStack() as parts:
        parts.enter_context(Part(["mosquitto", "-c", folder / "broker.conf"], folder / "broker.errors"))
        until(lambda: is_open(port), "no broker")
        words = ["mosquitto_sub", "-h", "127.0.0.1", "-p", port, "-q", "1", "-t", "plant/out"]
        answers = parts.enter_context(Part(words, folder / "answers.errors"))
        with bridge("cold") as cold:
            begun(port, answers)
            rows = rows_of(example / "plant.csv")
            asked(port, answers, rows, COLD_ROOM)
            # Sent again, it was saved before; a message may have several lines.
            asked(port, answers, [rows[-1], "x\n5000,1"], ["5000,refused K4", ",refused I2"])
            if answers.line() != "5000,refused K4":
                fail("mqtt: the second line of a message has no answer")
            cold.kill_plant()
            if cold.running.wait(PATIENCE) != 137:
                fail(f"mqtt: the bridge of a killed plant ends with {cold.running.returncode}")
        with bridge("warm") as warm:
            begun(port, answers)
            asked(port, answers, [rows[-1], *rows_of(example / "next.csv")], ["5000,refused K4", *WARM_ROOM])
            warm.running.terminate()
            warm.running.wait(PATIENCE)
            until(lambda: "SWITCHED = 5\n" in warm.said(), "mqtt: no report after the bridge was stopped")
        report = warm.said()
        for line in ("rows 4", "done 4", "faults 0", "acked 8", "HEATER = FALSE"):
            if f"{line}\n" not in report:
                fail(f"mqtt: no {line} in {report}")


def changes(device, *wanted):
    """Waits for these lines of the device, in any order, and no others; gives the seconds that took."""
    begun, left = time.monotonic(), list(wanted)
    while left:
        line = device.line()
        if line not in left:
            fail(f"modbus: the device says {line}, not one of {left}")
        left.remove(line)
    return time.monotonic() - begun


def stays(device, seconds=0.5):
    line = device.line(seconds)
    if line is not None:
        fail(f"modbus: the device says {line}, and nothing has changed")


def modbus(plant, folder):
    """The coils follow the inputs, and are off within a second when plant is killed or stopped; the kept counter goes on."""
    port, example, store = free_port(), EXAMPLES / "modbus", folder / "modbus.retain"
    words = [PYTHON, example / "bridge.py", "127.0.0.1", port, plant, "live", example / "modbus.st", "--store", store, "--start"]
    bridge = lambda start: Part([*words, start], folder / f"{start}.errors")
    with Part([PYTHON, example / "device.py", port], folder / "device.errors") as device:
        until(lambda: is_open(port), "no device")

        def ends(part, reason, count=2):
            if part.running.wait(PATIENCE) != 1 or f"bridge.py: {reason}" not in part.said() or part.said().count(SAFE) != count:
                fail(f"modbus: status {part.running.returncode}, {part.said()}")

        with bridge("cold") as cold:
            device.send("enabled 1\nlevel 500\n")
            stays(device, 1)
            for level, wanted in ((800, ("pump 1", "starts 1")), (500, ()), (200, ("pump 0",)), (300, ()), (960, ("pump 1", "alarm 1", "starts 2"))):
                device.send(f"level {level}\n")
                changes(device, *wanted) if wanted else stays(device)
            device.send("enabled 0\n")
            changes(device, "pump 0")
            device.send("enabled 1\n")
            changes(device, "pump 1", "starts 3")
            cold.kill_plant()
            seconds = changes(device, "pump 0", "alarm 0")
            if seconds > 1:
                fail(f"modbus: the coils of a killed plant were off after {seconds:.1f} seconds")
            ends(cold, "plant has ended")
        with bridge("warm") as warm:
            # 960 is above both levels: a start more than the last that was answered.
            changes(device, "pump 1", "alarm 1", "starts 4")
            stopped = warm.plant()
            os.kill(stopped, signal.SIGSTOP)
            try:
                seconds = changes(device, "pump 0", "alarm 0")
                if seconds > 1:
                    fail(f"modbus: the coils of a stopped plant were off after {seconds:.1f} seconds")
                ends(warm, "no outputs for 500 ms")
            finally:
                os.kill(stopped, signal.SIGKILL)
        device.send("level 150\n")
        (folder / "warm.errors").unlink()
        with bridge("warm") as last:
            stays(device, 1)
            device.send("level 900\n")
            changes(device, "pump 1", "starts 5")
            last.running.terminate()
            changes(device, "pump 0")
            ends(last, "stopped")
            until(lambda: re.search(r"^STARTED = 5$", last.said(), re.M), "modbus: no report after the bridge was stopped")
        (folder / "warm.errors").unlink()
        with bridge("warm") as alone:
            changes(device, "pump 1", "starts 6")
            device.running.kill()
            ends(alone, "the device takes no safe state", 1)


def main():
    plant = pathlib.Path(sys.argv[1]).resolve()
    # A slow disk would be a late answer.
    memory = "/dev/shm" if os.access("/dev/shm", os.W_OK) else None
    results = []
    for name, scene, is_there, packages in (("mqtt", mqtt, has_mqtt, MQTT), ("modbus", modbus, has_modbus, MODBUS)):
        if not (is_there() or (can_install(packages) and is_there())):
            results.append(f"{name} skipped (no package)")
            continue
        with tempfile.TemporaryDirectory(dir=memory) as folder:
            scene(plant, pathlib.Path(folder))
        results.append(f"{name} right")
    print(f"live_parts.py: {', '.join(results)}")


main()
