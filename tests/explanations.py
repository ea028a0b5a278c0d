#!/usr/bin/env python3
"""Tries `plant explain` for each code of docs/CODES.md: the titles agree, each wrong example gives the code, and each right one is
accepted.

The title of a code is the second cell of its row, up to the first colon or semicolon. If memory has to run out for a code, only its right
example is tried.

usage: tests/explanations.py PLANT     PLANT is the built program
"""
import os
import pathlib
import re
import subprocess
import sys
import tempfile

ROOT = pathlib.Path(__file__).resolve().parent.parent
COUNTER = (ROOT / "tests/texts/counter.st").read_text()
MAIN = "PROGRAM Main VAR n : INT; END_VAR n := n + 1; END_PROGRAM\n"
RAN_OUT = "on the command line, if memory runs out just then"
LOG_ROWS = "t\n" + "".join(f"{moment}\n" for moment in range(10000))


def fail(text):
    sys.exit(f"explanations.py: {text}")


def configuration(globals_="", programs="PROGRAM P WITH Cycle : Main;"):
    task = "TASK Cycle (INTERVAL := T#10ms, PRIORITY := 0);"
    return f"CONFIGURATION C\n{globals_}\nRESOURCE R ON CPU\n{task}\n{programs}\nEND_RESOURCE\nEND_CONFIGURATION\n"


def units(lines):
    main = "" if "PROGRAM Main" in lines else MAIN
    return f"{lines}\n{main}{configuration()}"


# whole texts, by the place where they have the lines of the example
TEXTS = {
    "as a whole source": lambda lines: lines,
    "before a configuration that runs the program Main": units,
    "in the program Main, where n is an INT": lambda lines: units(f"PROGRAM Main VAR n : INT; END_VAR\n{lines}\nEND_PROGRAM"),
    "in a configuration, before its resources": lambda lines: MAIN + configuration(globals_=lines),
    "in a resource with the task Cycle, for the program Main": lambda lines: MAIN + configuration(programs=lines),
}


class Explanation:
    """The explanation of a code, split into its parts."""

    def __init__(self, code, printed):
        form = rf"{code}: (.+)\n((?:.+\n)+?)(?:This gives {code}, (.+):\n((?:    .*\n)+)This is right:\n((?:    .*\n)+))?Exit status (\d): .+\.\n"
        parts = re.fullmatch(form, printed)
        if not parts:
            fail(f"{code}: an explanation has another form:\n{printed}")
        self.code, self.title, self.frame, self.status = code, parts[1], parts[3], int(parts[6])
        self.wrong, self.right = ("\n".join(line[4:] for line in (lines or "").splitlines()) for lines in (parts[4], parts[5]))


class Program:
    """The built program, in a folder of its own for each try."""

    def __init__(self, program):
        self.program, self.tried = program, 0

    def run(self, *words):
        return subprocess.run([self.program, *words], capture_output=True, text=True, check=False, timeout=60)

    def explanation(self, code):
        ended = self.run("explain", code)
        if ended.returncode or ended.stderr:
            fail(f"{code}: explain ended with {ended.returncode}, {ended.stderr}")
        if self.run("explain", code.lower()).stdout != ended.stdout:
            fail(f"{code}: it has another explanation in lower case")
        return Explanation(code, ended.stdout)

    def shell(self, lines, files):
        """Runs command lines in a folder with these files."""
        with tempfile.TemporaryDirectory(dir="/dev/shm" if os.path.isdir("/dev/shm") else None) as folder:
            for name, text in files.items():
                pathlib.Path(folder, name).write_text(text)
            os.symlink(self.program, pathlib.Path(folder, "plant"))
            path = f"{folder}:{os.environ['PATH']}"
            self.tried += 1
            return subprocess.run(["bash", "-c", lines], cwd=folder, env=os.environ | {"PATH": path}, capture_output=True, text=True, check=False, timeout=600)


def commands(program, example, lines):
    """Runs the commands that try these lines of an example. They print the trace if its outcomes matter."""
    files = {"own.st": COUNTER, "own.csv": "t\n0\n", "later.csv": "t\n10\n"}
    run = "plant run own.st --plant own.csv --store own.retain --start cold"
    if example.frame in ("on the command line", RAN_OUT):
        return program.shell(f"plant run own.st --plant own.csv --store traced --start cold --trace own.trace > first\n{lines}", files)
    if example.frame == "as the plant of a source without inputs":
        return program.shell(run, files | {"own.csv": f"{lines}\n"})
    if example.frame == "in the trace of one program over rows at 0, 10 and 20":
        change = f"[ $(grep -cx '{example.right}' own.trace) = 1 ] && sed -i 's#^{example.right}$#{lines}#' own.trace"
        replay = "plant replay own.st --plant own.csv --trace own.trace"
        return program.shell(f"{run} --trace own.trace > first && {change} && {replay}", files | {"own.csv": "t\n0\n10\n20\n"})
    if example.frame not in TEXTS:
        fail(f"{example.code}: no text has a place for an example {example.frame}")
    files["own.st"] = TEXTS[example.frame](lines)
    if example.status == 2:
        return program.shell("plant check own.st", files)
    if example.status == 5:
        return program.shell(run, files | {"own.csv": LOG_ROWS})
    return program.shell(f"{run} --trace own.trace && cat own.trace >&2", files)


def try_example(program, example):
    """Checks that the wrong example gives the code, and the right one none."""
    if example.frame is None:
        return
    right = commands(program, example, example.right)
    if right.returncode or re.search(r"^fault [A-Z]|\bF\d$", right.stderr, re.MULTILINE):
        fail(f"{example.code}: the right example ended with {right.returncode}, {right.stderr[-300:]}\n{example.right}")
    if example.frame == RAN_OUT:
        return
    wrong = commands(program, example, example.wrong)
    wanted = rf"done .* {example.code}" if example.status == 0 else rf"fault {example.code}( at \d+)?"
    if wrong.returncode != example.status or not re.search(rf"^{wanted}$", wrong.stderr, re.MULTILINE):
        fail(f"{example.code}: the wrong example ended with {wrong.returncode}, {wrong.stderr[-300:]}\n{example.wrong}")


def titles(page):
    """The title of each code in the tables of the page."""
    rows = [[cell.strip() for cell in line.strip("|").split(" | ")] for line in page.splitlines() if line.startswith("| ")]
    return {row[0]: re.split("[:;]", row[1])[0].replace("`", "") for row in rows if re.fullmatch(r"[A-Z]\d+", row[0])}


def main():
    program = Program(os.path.abspath(sys.argv[1]))
    wanted = titles((ROOT / "docs/CODES.md").read_text())
    table = re.findall(r'codes "([A-Z]\d+)"', (ROOT / "crates/source_run/specs/ListedCodes.antt").read_text())
    if sorted(table) != sorted(wanted):
        fail(f"docs/CODES.md and the table differ in {sorted(set(table) ^ set(wanted))}")
    for code, title in wanted.items():
        example = program.explanation(code)
        if example.title != title:
            fail(f"{code}: its title is {example.title!r}, but {title!r} in docs/CODES.md")
        try_example(program, example)
    # N1 used to be a code.
    for code in ("Z9", "N1"):
        unknown = program.run("explain", code)
        if (unknown.returncode, unknown.stdout, unknown.stderr) != (1, "", "error: there is no such code\n"):
            fail(f"{code}: explain ended with {unknown.returncode}, {unknown.stdout}{unknown.stderr}")
    print(f"explanations.py: {len(wanted)} codes and {program.tried} examples as expected")


main()
