#!/usr/bin/env python3
"""Tries each example of docs/CODES.md on the built program, which has to answer with the code of the example's row.

An example in backticks is taken literally. One in words is looked up, by these words, in the tables below.

usage: tests/codes.py PLANT     PLANT is the built program
"""
import os
import pathlib
import re
import shlex
import subprocess
import sys
import tempfile

ROOT = pathlib.Path(__file__).resolve().parent.parent
COUNTER = (ROOT / "tests/texts/counter.st").read_text()
FILE_BYTES = 262144
LAST_GENERATION = 2**64 - 1


def fail(text):
    sys.exit(f"codes.py: {text}")


def changed(new, old):
    if COUNTER.count(old) != 1:
        fail(f"`{old}` occurs {COUNTER.count(old)} times in the counter's text")
    return COUNTER.replace(old, new)


def more_globals(names):
    return changed("RETAIN n : INT; " + "".join(f"{name};\n" for name in names), "RETAIN n : INT;")


def nine_resources():
    start, end = COUNTER.index("RESOURCE R"), COUNTER.index("END_CONFIGURATION")
    block = COUNTER[start:end]
    blocks = "".join(block.replace("RESOURCE R", f"RESOURCE R{k}", 1) for k in range(9))
    return COUNTER[:start] + blocks + COUNTER[end:]


# sources in words
SOURCES = {
    "1,048,577 blanks": lambda: " " * 1048577,
    "an assignment of `1` in 63 parentheses": lambda: changed("(" * 63 + "1" + ")" * 63, "n + 1"),
    "nine resources": nine_resources,
    "a type with 257 names of 3 letters": lambda: f"TYPE t : ({','.join([*(f'n{k:02x}' for k in range(256)), 'x00'])}); END_TYPE",
    "1,772 DINT more, with names of 64 letters": lambda: more_globals(f"v{k:063d} : DINT" for k in range(1772)),
    "4,096 globals more": lambda: more_globals(f"v{k} : INT" for k in range(4096)),
    "20,000 statements `n := n + 1;`": lambda: changed("n := n + 1;" * 20000, "n := n + 1;"),
}

# plants in words
PLANTS = {
    "an empty file, or `t,flow`": ["", "t,flow\n"],
    "`t` and `05`": ["t\n05\n"],
    "`t`, `5` and `5`": ["t\n5\n5\n"],
    "`(echo t; seq 0 10000)`": ["t\n" + "".join(f"{k}\n" for k in range(10001))],
    "a name that isn't there, or a folder": [None],
}


def whole(first):
    """A retain file that begins with these bytes."""
    return first + bytes(FILE_BYTES - len(first))


def record(generation, layout, values):
    """A retain file with one record, without a moment."""
    body = bytes(8) + len(layout).to_bytes(4, "big") + layout + values
    return whole(b"\xa5" + generation.to_bytes(8, "big") + len(body).to_bytes(4, "big") + body)


# the rows of the run whose trace is changed
TRACED = "t\n0\n10\n20\n"

# retain files in words, each with the kind of start that reads it
STORES = {
    "`head -c 262145 /dev/zero > f`": (bytes(FILE_BYTES + 1), "warm"),
    "262,144 zero bytes, but 0xA5 at 0": (whole(b"\xa5"), "warm"),
    "a record of the generation 18,446,744,073,709,551,615": (record(LAST_GENERATION, b"N INT\n", bytes(2)), "cold"),
}


class Program:
    """The built program in a folder of its own."""

    def __init__(self, program):
        self.program = program
        self.tried = 0

    def answers(self, code, status, words):
        ended = subprocess.run([self.program, *words], capture_output=True, text=True, timeout=60)
        answer = (ended.returncode, ended.stdout, ended.stderr)
        wanted = rf"fault {code}( at \d+)?\n" if " at " not in code else rf"fault {code}\n"
        if ended.returncode != status or ended.stdout or not re.fullmatch(wanted, ended.stderr):
            fail(f"{code}, {shlex.join(words)[:200]}: the answer is {str(answer)[:300]}")
        self.tried += 1

    def run(self, plant="rows.csv", store="store", start="cold"):
        return ["run", "s.st", "--plant", plant, "--store", store, "--start", start]

    def source(self, example, answer):
        for store in ("store", "again"):
            if os.path.exists(store):
                os.remove(store)
        command = re.fullmatch(r"`plant (.*)`", example)
        if command:
            words = shlex.split(command[1])
            if ".." in words:
                words = [*self.run(), *words[words.index("..") + 1 :]]
            return self.answers(answer, 2, words)
        exchange = re.fullmatch(r"`(.*)` for `(.*)`", example)
        alone = re.fullmatch(r"`([^`]*)`", example)
        if exchange:
            text = changed(exchange[1], exchange[2])
        elif alone:
            text = alone[1]
        elif example in SOURCES:
            text = SOURCES[example]()
        else:
            return fail(f"{answer}: no table has the example: {example}")
        pathlib.Path("source.st").write_text(text)
        return self.answers(answer, 2, ["check", "source.st"])

    def plant(self, example, answer):
        command = re.fullmatch(r"`plant (.*)`", example)
        if command:
            return self.answers(answer, 3, shlex.split(command[1]))
        for rows in PLANTS.get(example) or fail(f"{answer}: no table has the example: {example}"):
            if rows is None:
                self.answers(answer, 3, self.run(plant="nowhere.csv"))
                self.answers(answer, 3, self.run(plant="."))
            else:
                pathlib.Path("plant.csv").write_text(rows)
                self.answers(answer, 3, self.run(plant="plant.csv"))

    def trace(self, example, answer):
        command = re.fullmatch(r"`plant (.*)`", example)
        if command:
            return self.answers(answer, 3, shlex.split(command[1]))
        if example == "a segment of the folder was removed":
            return self.segment_missing(answer)
        new, old = re.fullmatch(r"`(.*)` for `(.*)`", example).groups()
        pathlib.Path("traced.csv").write_text(TRACED)
        words = [*self.run(plant="traced.csv", store="traced"), "--trace", "trace.txt"]
        subprocess.run([self.program, *words], check=True, capture_output=True, timeout=60)
        lines = pathlib.Path("trace.txt").read_text().splitlines(keepends=True)
        if lines.count(f"{old}\n") != 1:
            fail(f"`{old}` occurs {lines.count(old)} times in the trace")
        pathlib.Path("changed.txt").write_text("".join(lines).replace(f"{old}\n", f"{new}\n"))
        self.answers(answer, 3, ["replay", "s.st", "--plant", "traced.csv", "--trace", "changed.txt"])

    def segment_missing(self, answer):
        """A folder whose second segment is the third one of the life."""
        words = [self.program, "live", "s.st", "--store", "lived", "--start", "cold", "--trace", "segments"]
        subprocess.run(words, input=TRACED, text=True, check=True, capture_output=True, timeout=60)
        (first,) = pathlib.Path("segments").iterdir()
        (pathlib.Path("segments") / "9.trace").write_text(first.read_text().replace("segment 0\n", "segment 2\n"))
        self.answers(answer, 3, ["replay", "s.st", "--trace", "segments"])

    def store(self, example, answer):
        stores = re.findall(r"`--store (\S+)`", example)
        for store in stores:
            self.answers(answer, 4, self.run(store=store))
        if not stores:
            file, start = STORES.get(example) or fail(f"{answer}: no table has the example: {example}")
            pathlib.Path("kept").write_bytes(file)
            self.answers(answer, 4, self.run(store="kept", start=start))


def rows_of(page, title):
    """The rows of all tables under a title of the page, by their cells."""
    part = page.split(f"\n## {title}\n")[1].split("\n## ")[0]
    cells = [[cell.strip() for cell in line.strip("|").split(" | ")] for line in part.splitlines() if line.startswith("| ")]
    return [row for row in cells if re.fullmatch(r"[A-Z]\d+", row[0])] or fail(f"no code under {title}")


def main():
    page = (ROOT / "docs/CODES.md").read_text()
    program = Program(os.path.abspath(sys.argv[1]))
    with tempfile.TemporaryDirectory() as folder:
        os.chdir(folder)
        pathlib.Path("s.st").write_text(COUNTER)
        pathlib.Path("rows.csv").write_text("t\n0\n")
        pathlib.Path("p.csv").write_text("t\n")
        for _code, _meaning, example, answer in rows_of(page, "The text: status 2"):
            program.source(example, answer.strip("`"))
        for code, _meaning, example in rows_of(page, "The plant: status 3"):
            program.plant(example, code)
        for code, _meaning, example in rows_of(page, "The trace: status 3"):
            program.trace(example, code)
        for code, _meaning, example in rows_of(page, "The start: status 4"):
            program.store(example, code)
        os.chdir(ROOT)
    print(f"codes.py: {program.tried} examples as expected")


main()
