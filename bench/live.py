#!/usr/bin/env python3
"""Measures `plant live`: the latency of a line, from its write to its answer, when each line waits for the answer of the one before, and rows a
second when none waits; each with 1, 64 and 1,000 inputs, on a disk and in memory. Beside it the device calls of a save alone: its three writes,
each with a sync, of the same sizes at the same places of a file of the same size. All are measured in turn, since a disk's speed drifts.

usage: bench/live.py PLANT [ROWS] [FOLDER]     PLANT is the built program; ROWS is the number of rows of each measurement in each turn, 300 by
                                               default; FOLDER is on the disk to be measured
"""
import os
import pathlib
import re
import subprocess
import sys
import tempfile
import threading
import time

INPUTS = (1, 64, 1000)
TURNS = 5
FILE_BYTES, AREA_BYTES, HEADER_BYTES = 262_144, 131_072, 12


def text_of(inputs):
    """A text that adds up its inputs: numbers for a quarter of them and at least one, otherwise BOOLs."""
    words = max(1, inputs // 4)
    kinds = {f"w{k}": f"AT %IW{k} : INT" for k in range(words)} | {f"b{k}": f"AT %IX{k} : BOOL" for k in range(inputs - words)}
    named = "".join(f"    {name} : {kind.split()[-1]};\n" for name, kind in kinds.items())
    located = "".join(f"    {name} {kind};\n" for name, kind in kinds.items())
    statements = "".join(f"  n := n + INT_TO_DINT({it});\n" if it[0] == "w" else f"  IF {it} THEN n := n + 1; END_IF;\n" for it in kinds)
    text = f"""PROGRAM Sum
  VAR_EXTERNAL n : DINT; low : INT; END_VAR
  VAR_EXTERNAL CONSTANT
{named}  END_VAR
{statements}  low := DINT_TO_INT(n MOD 10000);
END_PROGRAM
CONFIGURATION Sums
  VAR_GLOBAL RETAIN n : DINT; END_VAR
  VAR_GLOBAL
{located}    low AT %QW0 : INT;
  END_VAR
  RESOURCE R ON CPU TASK T (INTERVAL := T#1ms, PRIORITY := 0); PROGRAM P WITH T : Sum; END_RESOURCE
END_CONFIGURATION
"""
    values = ",".join(str(9 * (it[0] == "w") or 1) for it in kinds)
    return text, f"t,{','.join(kinds)}\n".encode(), f",{values}\n".encode()


class Life:
    """A cold life of `plant live` over a text."""

    def __init__(self, plant, folder, inputs):
        text, header, self.values = text_of(inputs)
        (folder / "text.st").write_text(text)
        words = [plant, "live", "text.st", "--store", "store", "--start", "cold"]
        pipes = {"stdin": subprocess.PIPE, "stdout": subprocess.PIPE, "stderr": subprocess.PIPE}
        self.running = subprocess.Popen(words, cwd=folder, bufsize=0, **pipes)
        self.answers = self.running.stdout
        self.send(header)
        self.take(b"t,LOW\n")
        self.moment = 0

    def send(self, data):
        rest = memoryview(data)
        while rest:
            rest = rest[self.running.stdin.write(rest) :]

    def take(self, wanted=None):
        """A line. No other one is there yet."""
        line = b""
        while not line.endswith(b"\n"):
            more = self.answers.read(65_536)
            if not more:
                sys.exit(f"live.py: the program ended: {self.running.stderr.read().decode()}")
            line += more
        if b"refused" in line or wanted not in (None, line):
            sys.exit(f"live.py: an answer {line}")

    def rows(self, count):
        self.moment += count
        return [b"%d%s" % (it, self.values) for it in range(self.moment - count, self.moment)]

    def latencies(self, count):
        """Seconds from a row to its answer, for each of these rows."""
        found = []
        for row in self.rows(count):
            begun = time.perf_counter()
            self.send(row)
            self.take()
            found.append(time.perf_counter() - begun)
        return found

    def rate(self, count):
        """Rows a second, if no row waits for the answer of the one before."""
        data, begun = b"".join(self.rows(count)), time.perf_counter()
        sender = threading.Thread(target=self.send, args=(data,))
        sender.start()
        answered = 0
        while answered < count:
            more = self.answers.read(65_536)
            if not more:
                sys.exit(f"live.py: the program ended: {self.running.stderr.read().decode()}")
            answered += more.count(b"\n")
        took = time.perf_counter() - begun
        sender.join()
        return count / took

    def end(self):
        """What it reports of its latencies: the median and the 99th percentile in microseconds."""
        self.running.stdin.close()
        report = self.running.stderr.read().decode()
        if self.running.wait() or f"rows {self.moment}\n" not in report:
            sys.exit(f"live.py: {report}")
        return [int(re.search(rf"^{it} (\d+) us$", report, re.M)[1]) for it in ("p50", "p99")]


def device_calls(path, size, count):
    """Seconds that the calls of a save take, for each of these saves: a gate is closed, a record of this size is written, the gate is opened."""
    file = os.open(path, os.O_RDWR | os.O_CREAT)
    os.ftruncate(file, FILE_BYTES)
    os.pwrite(file, bytes(FILE_BYTES), 0)
    os.fdatasync(file)
    found, record = [], os.urandom(size)
    for save in range(count):
        area, begun = AREA_BYTES * (save % 2), time.perf_counter()
        for data, at in ((b"\0", 0), (record, 1), (b"\xa5", 0)):
            os.pwrite(file, data, area + at)
            os.fdatasync(file)
        found.append(time.perf_counter() - begun)
    os.close(file)
    return found


def part(seconds, of):
    """A percentile, in microseconds."""
    least_first = sorted(seconds)
    return 1e6 * least_first[min(len(least_first) - 1, int(len(least_first) * of))]


def record_bytes(path):
    """The bytes of a record with its generation and length."""
    return HEADER_BYTES + int.from_bytes(path.read_bytes()[9:13], "big")


def measured(plant, folder, rows):
    """A line of the table for each number of inputs, with the store in this folder."""
    lives, folders = {}, {}
    for inputs in INPUTS:
        folders[inputs] = folder / str(inputs)
        folders[inputs].mkdir()
        lives[inputs] = Life(plant, folders[inputs], inputs)
    size = record_bytes(folders[1] / "store")
    lines, rates, calls = ({it: [] for it in INPUTS} for _ in range(3))
    for _ in range(TURNS):
        for inputs, life in lives.items():
            lines[inputs] += life.latencies(rows)
            calls[inputs] += device_calls(folder / "alone", size, rows)
            rates[inputs].append(life.rate(rows))
    for inputs, life in lives.items():
        line, alone, rate = part(lines[inputs], 0.5), part(calls[inputs], 0.5), sorted(rates[inputs])[TURNS // 2]
        own = life.end()
        cells = [f"{inputs:,}", f"{rate:,.0f}", f"{line:,.0f}", f"{part(lines[inputs], 0.99):,.0f}", *(f"{it:,}" for it in own)]
        yield [*cells, f"{alone:,.0f}", f"{part(calls[inputs], 0.99):,.0f}", f"{line / alone:.2f}"]


def main():
    plant, rows = str(pathlib.Path(sys.argv[1]).resolve()), int(sys.argv[2]) if len(sys.argv) > 2 else 300
    print("Microseconds; a line is timed from outside, and by the program itself from its reading to its answer.\n")
    print("| Store | Inputs | Rows a second | Line, p50 | Line, p99 | By itself, p50 | By itself, p99 | Device calls, p50 | p99 | Ratio of p50 |")
    print("|---|---|---|---|---|---|---|---|---|---|")
    for name, place in (("a disk", sys.argv[3] if len(sys.argv) > 3 else None), ("memory", "/dev/shm")):
        with tempfile.TemporaryDirectory(dir=place) as folder:
            for cells in measured(plant, pathlib.Path(folder), rows):
                print(f"| {name} | {' | '.join(cells)} |", flush=True)


main()
