#!/usr/bin/env python3
"""Checks that an execution costs only for the variables that its program names: with 4,000 other variables it takes not
much longer than with ten.

Each of the two texts runs with rows and without any, to subtract the time of the start. The script compares the least
CPU time of several turns, since other work on the machine adds to it. The retain file is in memory if the system has a
folder for that.

usage: tests/flat.py PLANT [ROWS]     PLANT is the built program; ROWS is the number of rows, 1,000 by default. For a
                                      barely optimised program twenty are enough
"""
import os
import pathlib
import resource
import subprocess
import sys
import tempfile

FEW, MANY = 10, 4000
# programs that run at each row, so that the save of a row matters little; 1,000 rows and their executions fit in the
# 65,536 entries of a log
PROGRAMS = 64
TURNS = 5
# how many times as long an execution may take with MANY other variables as with FEW
MOST = 3


def fail(text):
    sys.exit(f"flat.py: {text}")


def text_of(others):
    """A text of programs that name one variable, which is declared after this many others."""
    instances = "".join(f"    PROGRAM P{k} WITH T : Count;\n" for k in range(PROGRAMS))
    return f"""PROGRAM Count
  VAR_EXTERNAL n : DINT; END_VAR
  n := n + 1;
END_PROGRAM
CONFIGURATION Flat
  VAR_GLOBAL beside : ARRAY [1..{others}] OF DINT; n : DINT; END_VAR
  RESOURCE R ON CPU
    TASK T (INTERVAL := T#10ms, PRIORITY := 0);
{instances}  END_RESOURCE
END_CONFIGURATION
"""


def seconds(plant, folder, others, rows):
    """The CPU seconds that a run takes."""
    before = resource.getrusage(resource.RUSAGE_CHILDREN)
    words = [plant, "run", f"{others}.st", "--plant", f"{rows}.csv", "--store", "flat.retain", "--start", "cold"]
    ran = subprocess.run(words, cwd=folder, capture_output=True, text=True, check=False)
    after = resource.getrusage(resource.RUSAGE_CHILDREN)
    executions = rows * PROGRAMS
    if ran.returncode or f"done {executions}\nfaults 0\n" not in ran.stdout or f"N = {executions}\n" not in ran.stdout:
        fail(f"{others} other variables, {rows} rows: status {ran.returncode}, {ran.stdout}{ran.stderr}")
    return after.ru_utime + after.ru_stime - before.ru_utime - before.ru_stime


def main():
    plant = str(pathlib.Path(sys.argv[1]).resolve())
    rows = int(sys.argv[2]) if len(sys.argv) > 2 else 1000
    memory = "/dev/shm" if os.access("/dev/shm", os.W_OK) else None
    least = {}
    with tempfile.TemporaryDirectory(dir=memory) as folder:
        for count in (rows, 0):
            pathlib.Path(folder, f"{count}.csv").write_text("t\n" + "".join(f"{10 * k}\n" for k in range(count)))
        for others in (FEW, MANY):
            pathlib.Path(folder, f"{others}.st").write_text(text_of(others))
        for _ in range(TURNS):
            for run in ((others, count) for others in (FEW, MANY) for count in (rows, 0)):
                least[run] = min(least.get(run, float("inf")), seconds(plant, folder, *run))
    few, many = (1e6 * (least[others, rows] - least[others, 0]) / (rows * PROGRAMS) for others in (FEW, MANY))
    measured = f"CPU microseconds per execution: {few:.1f} with {FEW} other variables, {many:.1f} with {MANY}"
    if many > MOST * few:
        fail(measured)
    print(f"flat.py: {measured}")


main()
