#!/usr/bin/env python3
"""Compares the pictures of README.md with the output of the program, or updates them.

In README.md a line `<!-- picture: NAME -->` precedes each block that is a picture; docs/plot.svg is one too.

usage: tests/pictures.py PLANT [--write]     PLANT is the built program
"""
import pathlib
import re
import shlex
import shutil
import subprocess
import sys
import tempfile

ROOT = pathlib.Path(__file__).resolve().parent.parent
README = ROOT / "README.md"
PLOT = ROOT / "docs" / "plot.svg"

# a text with a fault, as README.md shows it
TANK = """PROGRAM Fill
  VAR_EXTERNAL CONSTANT
    raw : INT;
  END_VAR
  VAR_EXTERNAL
    level : DINT;
  END_VAR
  level := raw * 2;
END_PROGRAM

CONFIGURATION Tank
  VAR_GLOBAL
    raw AT %IW0 : INT;
  END_VAR
  VAR_GLOBAL RETAIN
    level : DINT;
  END_VAR
  RESOURCE Main ON CPU
    TASK Cycle (INTERVAL := T#100ms, PRIORITY := 0);
    PROGRAM Filler WITH Cycle : Fill;
  END_RESOURCE
END_CONFIGURATION
"""


class Pictures:
    """Copies of the examples of the dosing pump and of the flow meter, in which the program runs."""

    def __init__(self, plant, work):
        self.plant = plant
        self.work = work
        for example in ("dosing", "flow"):
            shutil.copytree(ROOT / "examples" / example, work / example)
        (work / "tank.st").write_text(TANK)

    def output(self, words, folder=".", status=0):
        """Returns the command line, and the output of the program after it."""
        done = subprocess.run([self.plant, *shlex.split(words)], cwd=self.work / folder, capture_output=True, text=True)
        if done.returncode != status:
            sys.exit(f"pictures.py: `plant {words}` ended with {done.returncode}: {done.stderr}")
        return f"$ plant {words}\n{done.stdout}{done.stderr}"

    def run(self):
        cold = self.output("run dosing.st --plant plant.csv --store dosing.retain --start cold", "dosing")
        warm = self.output("run dosing.st --plant next.csv --store dosing.retain --start warm", "dosing")
        # the number of saves in a run, and so the generation, depends on its threads
        shown = self.output("show dosing.retain", "dosing").splitlines(keepends=True)
        return cold + warm + "$ plant show dosing.retain | tail -n 3\n" + "".join(shown[-3:])

    def fault(self):
        return self.output("check tank.st --explain", status=2)

    def plot(self):
        self.output("run flow.st --plant plant.csv --store flow.retain --start cold --trace flow.trace", "flow")
        self.output("plot flow.st --plant plant.csv --trace flow.trace --out flow.svg", "flow")
        return (self.work / "flow" / "flow.svg").read_text()


def block(name):
    """Matches the block of README.md after the mark of that name."""
    return re.compile(rf"(<!-- picture: {name} -->\n```\n)(.*?)(```\n)", re.DOTALL)


def main():
    plant, *words = sys.argv[1:]
    readme, differ = README.read_text(), []
    with tempfile.TemporaryDirectory() as folder:
        pictures = Pictures(str(pathlib.Path(plant).resolve()), pathlib.Path(folder))
        for name, text in (("run", pictures.run()), ("fault", pictures.fault())):
            found = block(name).search(readme)
            if not found:
                sys.exit(f"pictures.py: README.md has no picture {name}")
            if found[2] != text:
                differ.append(name)
            readme = block(name).sub(lambda m: m[1] + text + m[3], readme)
        plot = pictures.plot()
    if not PLOT.exists() or PLOT.read_text() != plot:
        differ.append("plot")
    if words == ["--write"]:
        README.write_text(readme)
        PLOT.write_text(plot)
    elif differ:
        sys.exit(f"pictures.py: not what the program prints today: {', '.join(differ)}; tests/pictures.py PLANT --write updates them")
    print("pictures.py: 3 pictures match the output of the program")


main()
