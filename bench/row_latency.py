#!/usr/bin/env python3
"""Measures how long a row takes at pace `settle`, from one acknowledgement to the next, and how much of that its device calls take: the row
is latched, its program runs and is committed, and the save is acknowledged. `strace` times the calls, which costs a few microseconds each.

usage: row_latency.py PLANT [ROWS] [FOLDER]     PLANT is the built program; ROWS is the number of rows, 1,000 by default;
                                               FOLDER is on the disk to be measured
"""
import pathlib
import re
import subprocess
import sys
import tempfile

TEXT = """PROGRAM Count VAR_EXTERNAL n : DINT; END_VAR n := n + 1; END_PROGRAM
CONFIGURATION C VAR_GLOBAL RETAIN n : DINT; END_VAR
RESOURCE R ON CPU TASK T (INTERVAL := T#10ms, PRIORITY := 0); PROGRAM P WITH T : Count; END_RESOURCE END_CONFIGURATION
"""
# a save is three writes, each with a sync of the file after it
CALLS = 6
LINE = re.compile(r"(\d+) +([\d.]+) (?:<\.\.\. )?(\w+)(.*)")


def calls(path):
    """Each device call: when it began and when it ended, in seconds."""
    begun = {}
    for line in path.read_text().splitlines():
        found = LINE.match(line)
        if found is None or found[3] not in ("pwrite64", "fdatasync"):
            continue
        thread, moment, _, rest = found.groups()
        if "resumed>" not in rest:
            begun[thread] = float(moment)
        if "<unfinished" not in rest:
            spent = re.search(r"<([\d.]+)>$", rest)
            first = begun.pop(thread)
            yield first, first + float(spent.group(1))


def print_line(name, seconds):
    """Prints the line of these durations."""
    least_first = sorted(seconds)
    of = lambda part: 1e6 * least_first[min(len(least_first) - 1, int(len(least_first) * part))]
    print(f"{name:28} p50 {of(0.5):8.0f}   p99 {of(0.99):8.0f}   most {of(1):8.0f}")


def main():
    plant, rows = sys.argv[1], int(sys.argv[2]) if len(sys.argv) > 2 else 1000
    with tempfile.TemporaryDirectory(dir=sys.argv[3] if len(sys.argv) > 3 else None) as folder:
        folder = pathlib.Path(folder)
        (folder / "text.st").write_text(TEXT)
        (folder / "rows.csv").write_text("t\n" + "".join(f"{10 * k}\n" for k in range(rows)))
        words = ["strace", "-f", "--seccomp-bpf", "-ttt", "-T", "-e", "trace=pwrite64,fdatasync", "-o", folder / "calls"]
        words += [pathlib.Path(plant).resolve(), "run", "text.st", "--plant", "rows.csv", "--store", "store", "--start", "cold"]
        subprocess.run(words, cwd=folder, check=True, capture_output=True)
        device = list(calls(folder / "calls"))
    saves = [device[at : at + CALLS] for at in range(len(device) - rows * CALLS, len(device), CALLS)]
    ends = [save[-1][1] for save in saves]
    print(f"{rows} rows, microseconds")
    print_line("a row", [after - before for before, after in zip(ends, ends[1:])])
    print_line("its device calls alone", [sum(end - begin for begin, end in save) for save in saves[1:]])


main()
