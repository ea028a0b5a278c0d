#!/usr/bin/env python3
"""Compares the commits per second of `plant run` at pace settle with SQLite's WAL (synchronous=FULL), in turn.

A disk's speed drifts from minute to minute, so each is measured for about half a second directly after the other: eight resources and
eight writers, then one resource and one writer. Each line has the commits and the transactions per second, and their ratio; the last line
has the median of the ratios.

usage: bench/threads_in_turn.py PLANT FOLDER [TURNS]     PLANT is the built program; FOLDER is on the disk to be measured; 9 turns by default
"""
import os
import pathlib
import statistics
import subprocess
import sys
import tempfile
import time

WRITERS = pathlib.Path(__file__).resolve().parent / "sqlite_writers.py"
ROWS = 1000


def text(resources):
    """A configuration of resources with one program each, which counts in a retained variable of its own."""
    units = "".join(f"PROGRAM Unit{k} VAR_EXTERNAL n{k} : DINT; END_VAR n{k} := n{k} + 1; END_PROGRAM\n" for k in range(resources))
    names = "".join(f"n{k} : DINT;\n" for k in range(resources))
    cores = "".join(
        f"RESOURCE R{k} ON CPU TASK T (INTERVAL := T#10ms, PRIORITY := 0); PROGRAM P WITH T : Unit{k}; END_RESOURCE\n" for k in range(resources)
    )
    return f"{units}CONFIGURATION C VAR_GLOBAL RETAIN\n{names}END_VAR\n{cores}END_CONFIGURATION\n"


def commits(plant, resources):
    """The commits per second of a run."""
    pathlib.Path("store").unlink(missing_ok=True)
    words = ["run", f"{resources}.st", "--plant", "rows.csv", "--store", "store", "--start", "cold", "--pace", "settle"]
    start = time.monotonic()
    subprocess.run([plant, *words], check=True, stdout=subprocess.DEVNULL)
    return ROWS * resources / (time.monotonic() - start)


def transactions(writers):
    """The transactions per second of SQLite's writers."""
    done = subprocess.run([WRITERS, "WAL", str(writers), "250"], check=True, capture_output=True, text=True)
    return float(done.stdout.split()[-1])


def main():
    plant, turns = str(pathlib.Path(sys.argv[1]).resolve()), int(sys.argv[3]) if len(sys.argv) > 3 else 9
    ratios = {8: [], 1: []}
    with tempfile.TemporaryDirectory(dir=sys.argv[2]) as folder:
        os.chdir(folder)
        pathlib.Path("rows.csv").write_text("t\n" + "".join(f"{row * 10}\n" for row in range(ROWS)))
        for count in ratios:
            pathlib.Path(f"{count}.st").write_text(text(count))
        for _ in range(turns):
            for count, seen in ratios.items():
                ours, theirs = commits(plant, count), transactions(count)
                seen.append(ours / theirs)
                print(f"{count} resources {ours:.0f}, {count} writers {theirs:.0f}: {seen[-1]:.2f} times", flush=True)
        os.chdir("/")
    for count, seen in ratios.items():
        print(f"{count}: median {statistics.median(seen):.2f} times, from {min(seen):.2f} to {max(seen):.2f}")


if __name__ == "__main__":
    main()
