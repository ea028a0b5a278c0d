#!/usr/bin/env python3
"""Feeds the built program broken texts, plants and retain files.

Each is accepted, or refused with one fault line and the status of its kind. A place is inside the text, and an existing retain file stays
unchanged. Nothing crashes. With `--explain` views follow that line: they have only printable characters, the line and the column of a place,
and a caret under its byte. `plant show` refuses exactly the retain files that a start refuses, and leaves them unchanged.

Most of the texts use the whole language; none takes more than a second of CPU time.

usage: tests/broken.py PLANT [TEXTS [PLANTS [STORES]]]     PLANT is the built program; the others are numbers, 4000, 500 and 500 by default
"""
import os
import pathlib
import random
import re
import resource
import subprocess
import sys
import tempfile

TOKEN = re.compile(r"\(\*.*?\*\)|[A-Za-z0-9_#%]+|:=|=>|\.\.|<=|>=|<>|\S", re.DOTALL)
FAULT = re.compile(r"fault ([A-Z])([0-9]+)(?: at ([0-9]+))?\n")
# the report of a warm start about a record of another layout
OTHER = re.compile(r"the retain file has a different layout: \d+ carried, \d+ new, \d+ retyped, \d+ dropped\n")
ROOT = pathlib.Path(__file__).resolve().parent.parent
# texts of the whole language; three of four broken texts are made from them
WHOLE = ("conveyor.st", "recipe.st")


def fail(name, answer):
    sys.exit(f"broken.py: {name}: {answer}")


def spent():
    """CPU seconds of all programs that have ended so far."""
    used = resource.getrusage(resource.RUSAGE_CHILDREN)
    return used.ru_utime + used.ru_stime


class Plant:
    """The built program in a folder of its own."""

    def __init__(self, program):
        self.program = program

    def run(self, *words):
        before = spent()
        done = subprocess.run([self.program, *words], capture_output=True, text=True, timeout=60)
        if spent() - before > 1:
            fail(words, "more than a second of CPU time")
        return done.returncode, done.stdout, done.stderr

    def look(self, name, answer, status, codes):
        """The fault if it was refused, with one line of one of these codes; None if it was accepted, perhaps over a record of another layout."""
        found, out, err = answer
        if found == 0:
            if err and not OTHER.fullmatch(err) or not out:
                fail(name, answer)
            return None
        fault = FAULT.fullmatch(err)
        if found != status or out or not fault or fault[1] not in codes:
            fail(name, answer)
        return fault


def change(pick, tokens, pool):
    """One token dropped, doubled, swapped with the next, or changed into another."""
    changed = list(tokens)
    at = pick.randrange(len(tokens))
    kind = pick.randrange(4)
    if kind == 0:
        del changed[at]
    elif kind == 1:
        changed.insert(at, changed[at])
    elif kind == 2 and at + 1 < len(changed):
        changed[at], changed[at + 1] = changed[at + 1], changed[at]
    else:
        changed[at] = pick.choice(pool)
    return changed


def place_of(text, view):
    """The place that a view shows, with a caret under its byte."""
    found = re.search(r"--> broken\.st:(\d+):(\d+)\n", view)
    if not found:
        fail(text, view)
    starts = [0, *(at + 1 for at, byte in enumerate(text) if byte == "\n")]
    place = starts[int(found[1]) - 1] + int(found[2]) - 1
    lines = view.split("\n")
    carets = next(at for at, shown in enumerate(lines) if re.fullmatch(r" *\|\s*\^~*", shown))
    under = (lines[carets - 1] + "\n")[lines[carets].index("^")]
    if under != (text + "\n")[place]:
        fail(text, (under, view))
    return place


def look_at_views(text, fault, answer):
    """Checks that views follow the line of the fault, each with its place, in the order of the text; one of them is of the fault."""
    if answer[:2] != (2, "") or not answer[2].startswith(fault[0]):
        fail(text, answer)
    shown = answer[2][len(fault[0]) :]
    front, *views = re.split(r"^(?=error\[)", shown, flags=re.MULTILINE)
    code = f"{fault[1]}{fault[2]}"
    if front or not views or not re.fullmatch(r"[\t\n -~]+\n", shown):
        fail(text, answer)
    if fault[3] is None:
        if not shown.startswith(f"error[{code}]: "):
            fail(text, answer)
        return
    places = [place_of(text, view) for view in views]
    own = [view for view, place in zip(views, places) if place == int(fault[3]) and view.startswith(f"error[{code}]: ")]
    if places != sorted(places) or len(own) != 1:
        fail(text, (places, answer))


def texts(plant, pick, count):
    whole, plain = [], []
    for source in sorted(ROOT.glob("examples/*/*.st")) + sorted(ROOT.glob("tests/texts/*.st")):
        (whole if source.name in WHOLE else plain).append(TOKEN.findall(source.read_text()))
    pool = sorted({token for each in whole + plain for token in each})
    store = pathlib.Path("store")
    store.write_bytes(b"kept")
    pathlib.Path("plant.csv").write_text("t\n")
    accepted = 0
    for number in range(count):
        tokens = whole[number % 2] if number % 4 else plain[number // 4 % len(plain)]
        text = " ".join(change(pick, tokens, pool))
        pathlib.Path("broken.st").write_text(text)
        fault = plant.look(text, plant.run("check", "broken.st"), 2, "LPCGMX")
        if fault is None:
            accepted += 1
            continue
        if fault[3] is not None and int(fault[3]) > len(text):
            fail(text, fault[0])
        again = plant.run("run", "broken.st", "--plant", "plant.csv", "--store", "store", "--start", "cold")
        if again != (2, "", fault[0]) or store.read_bytes() != b"kept":
            fail(text, again)
        look_at_views(text, fault, plant.run("check", "broken.st", "--explain"))
    return accepted


def spoiled(pick, data, places):
    """The data with one byte at one of the places changed, dropped or doubled, or with the end cut off there."""
    at = pick.choice(places)
    kind = pick.randrange(4)
    if kind == 0:
        return data[:at] + bytes([pick.randrange(256)]) + data[at + 1 :]
    if kind == 1:
        return data[:at] + data[at + 1 :]
    if kind == 2:
        return data[:at] + data[at : at + 1] + data[at:]
    return data[:at]


def plants(plant, pick, count):
    source = str(ROOT / "examples/flow/flow.st")
    rows = (ROOT / "examples/flow/plant.csv").read_bytes()
    accepted = 0
    store = pathlib.Path("plants")
    for number in range(count):
        broken = spoiled(pick, rows, range(len(rows)))
        pathlib.Path("broken.csv").write_bytes(broken)
        store.write_bytes(b"kept")
        words = ("run", source, "--plant", "broken.csv", "--store", "plants", "--start", "cold")
        if plant.look(broken, plant.run(*words), 3, "I") is None:
            accepted += 1
        elif store.read_bytes() != b"kept":
            fail(broken, "the retain file was changed")
    return accepted


def stores(plant, pick, count):
    folder = ROOT / "examples/dosing"
    source = str(folder / "dosing.st")
    plant.run("run", source, "--plant", str(folder / "plant.csv"), "--store", "good", "--start", "cold")
    good = pathlib.Path("good").read_bytes()
    if len(good) != 262144:
        fail("a good run", f"a retain file of {len(good)} bytes")
    places = [area + at for area in (0, 131072) for at in range(64)] + [262143]
    pathlib.Path("none.csv").write_text("t\n")
    store = pathlib.Path("broken")
    accepted = 0
    for number in range(count):
        broken = spoiled(pick, good, places)
        store.write_bytes(broken)
        start = ("warm", "cold")[number % 2]
        words = ("run", source, "--plant", "none.csv", "--store", "broken", "--start", start)
        shown = plant.run("show", "broken")
        if store.read_bytes() != broken:
            fail(broken[:64], "plant show changed the retain file")
        fault = plant.look(broken[:64], plant.run(*words), 4, "S")
        refused = fault[0] if fault else None
        if (shown[2].splitlines(keepends=True) or [None])[0] != refused or (shown[0] == 0) != (refused is None):
            fail(broken[:64], (shown, fault))
        if fault is None:
            accepted += 1
        elif store.read_bytes() != broken:
            fail(broken[:64], "a refused retain file was changed")
    return accepted


def main():
    plant = Plant(str(pathlib.Path(sys.argv[1]).resolve()))
    counts = [4000, 500, 500]
    for place, word in enumerate(sys.argv[2:5]):
        counts[place] = int(word)
    pick = random.Random(1)
    with tempfile.TemporaryDirectory() as folder:
        os.chdir(folder)
        results = []
        for name, kind, count in zip(("texts", "plants", "retain files"), (texts, plants, stores), counts):
            accepted = kind(plant, pick, count)
            if accepted in (0, count):
                fail(name, f"{accepted} of {count} accepted")
            results.append(f"{count} {name}, {accepted} of them accepted")
        os.chdir("/")
    print(f"broken.py: {'; '.join(results)}")


main()
