#!/usr/bin/env python3
"""Reads pictures of runs back: `plant plot` has to draw the values, executions, faults and overruns that the texts
mean.

This script computes them from the meaning of the texts. It reads the drawn ones from the picture alone, by the labels
of its scales.

usage: tests/plots.py PLANT     PLANT is the built program
"""
import bisect
import os
import pathlib
import re
import subprocess
import sys
import tempfile
import xml.etree.ElementTree as tree

SVG = "{http://www.w3.org/2000/svg}"

# how many pixels apart two equal places of a picture may be
NEAR = 0.011


def fail(text):
    sys.exit(f"plots.py: {text}")


def expect(name, seen, wanted):
    if seen != wanted:
        fail(f"{name}: seen {str(seen)[:400]}, expected {str(wanted)[:400]}")


def shift(element):
    """How far a group is moved: to the right and down."""
    x, y = re.fullmatch(r"translate\((\S+) (\S+)\)", element.get("transform")).groups()
    return float(x), float(y)


def parts(element, name):
    return [part for part in element.iter() if part.get("class") == name]


def part(element, name):
    found = parts(element, name)
    if len(found) != 1:
        fail(f"{len(found)} parts of class {name} in a {element.get('class')}")
    return found[0]


class Picture:
    """A picture of a run over these rows, as a reader sees it."""

    def __init__(self, file, moments):
        self.bytes = pathlib.Path(file).stat().st_size
        self.root = tree.parse(file).getroot()
        self.moments = moments
        self.title = part(self.root, "title").text
        self.note = part(self.root, "note").text
        self.lines = {part(line, "label").text: line for line in parts(self.root, "line")}
        self.lanes = {part(lanes, "label").text: lanes for lanes in parts(self.root, "lanes")}
        self.labelled = [(shift(mark)[0], int(mark.find(f"{SVG}text").text)) for mark in parts(self.root, "moment")]

    def is_round(self):
        """Whether the labels of the axis are multiples of 1, 2 or 5 times a power of ten, without gaps."""
        if len(self.labelled) < 2:
            return True
        steps = {b[1] - a[1] for a, b in zip(self.labelled, self.labelled[1:])}
        step = steps.pop()
        return not steps and bool(re.fullmatch("[125]0*", str(step))) and all(t % step == 0 for _x, t in self.labelled)

    def moment(self, x):
        """The moment of the run at this place, by the labels of the axis."""
        (low, first), (high, last) = self.labelled[0], self.labelled[-1]
        place = bisect.bisect_left(self.moments, first + (last - first) * (x - low) / (high - low))
        beside = self.moments[max(place - 1, 0) : place + 1]
        distance, moment = min((abs(low + (high - low) * (t - first) / (last - first) - x), t) for t in beside)
        if distance > 2 * NEAR:
            fail(f"no moment of the run is at {x}")
        return moment

    def course(self, label):
        """The values of a strip: pairs of a moment and the value from it on, as far as its labels distinguish values."""
        drawing = part(self.lines[label], "drawing")
        levels = [(shift(level)[1], level.find(f"{SVG}text").text) for level in parts(drawing, "level")]
        names = not all(re.fullmatch(r"-?\d+(ms)?", text) for _y, text in levels)

        def value(y):
            if names or len(levels) == 1:
                return next(text for at, text in levels if abs(at - y) <= NEAR)
            numbers = [(at, int(text.removesuffix("ms"))) for at, text in levels]
            (low, least), (high, greatest) = numbers[0], numbers[-1]
            return round(least + (greatest - least) * (y - low) / (high - low))

        way = re.findall(r"([MHV])([\d.]+)(?: ([\d.]+))?", part(drawing, "steps").get("d"))
        x, y = float(way[0][1]), float(way[0][2])
        course = [(self.moment(x), value(y))]
        for letter, place, _ in way[1:-1]:
            if letter == "H":
                x = float(place)
            else:
                course.append((self.moment(x), value(float(place))))
        return course

    def ticks(self, resource, program):
        """The moments of the complete executions, as far as the picture distinguishes them."""
        way = part(self.lane(resource, program), "ticks").get("d")
        return [self.moment(float(x)) for x in re.findall(r"M([\d.]+) 3v10", way)]

    def marks(self, resource, program, name):
        """The marks of this class: pairs of a moment and the text at it."""
        marks = parts(self.lane(resource, program), name)
        return [(self.moment(shift(mark)[0]), mark.find(f"{SVG}title").text) for mark in marks]

    def lane(self, resource, program):
        lanes = [lane for lane in parts(self.lanes[resource], "lane") if part(lane, "name").text == program]
        if len(lanes) != 1:
            fail(f"{len(lanes)} lanes of {resource}/{program}")
        return lanes[0]


def due(moments, interval):
    """The rows at which a task is due: the first one, and then the first at or after each further interval."""
    turns = [(t - moments[0]) // interval for t in moments]
    return [t for n, t in enumerate(moments) if n == 0 or turns[n] > turns[n - 1]]


def rows_of(moments):
    return "t\n" + "".join(f"{t}\n" for t in moments)


class Scene:
    """A folder in which runs are made and drawn."""

    def __init__(self, program):
        self.program = program
        self.drawn = 0

    def plant(self, *words):
        return subprocess.run([self.program, *words], capture_output=True, text=True, timeout=300)

    def done(self, *words):
        ended = self.plant(*words)
        if ended.returncode != 0:
            fail(f"{' '.join(words)}: status {ended.returncode}, {ended.stderr.strip()}")

    def run(self, source, moments, start="cold"):
        pathlib.Path("rows.csv").write_text(rows_of(moments))
        self.done("run", source, "--plant", "rows.csv", "--store", "store", "--start", start, "--trace", "trace")

    def plot(self, source, moments, *paths):
        self.done("plot", source, "--plant", "rows.csv", "--trace", "trace", "--out", "plot.svg", *paths)
        self.drawn += 1
        picture = Picture("plot.svg", moments)
        expect("the title", picture.title, source)
        if not picture.is_round():
            fail(f"{source}: the axis has the labels {picture.labelled}")
        return picture


PHASES = """
TYPE Phases : (Idle, Heating, Cooling); END_TYPE
PROGRAM Step
  VAR_EXTERNAL n : DINT; hot : BOOL; phase : Phases; pause : TIME; END_VAR
  n := n - 7;
  hot := n MOD 2 <> 0;
  pause := T#2s;
  IF n MOD 3 = 0 THEN phase := Idle; END_IF;
  IF n MOD 3 = -1 THEN phase := Heating; END_IF;
  IF n MOD 3 = -2 THEN phase := Cooling; END_IF;
END_PROGRAM
CONFIGURATION Oven
  VAR_GLOBAL RETAIN n : DINT; END_VAR
  VAR_GLOBAL hot : BOOL; phase : Phases; pause : TIME; END_VAR
  RESOURCE R ON CPU
    TASK T (INTERVAL := T#10ms, PRIORITY := 0);
    PROGRAM P WITH T : Step;
  END_RESOURCE
END_CONFIGURATION
"""


def changes(values, moments, first):
    """The course of a variable that was `first` and takes these values at these moments: only the changes."""
    seen, last = [(moments[0], first)], first
    for moment, value in zip(moments, values):
        if value != last:
            seen.append((moment, value))
            last = value
    return seen


def phases(scene):
    """Negative numbers, BOOL, enumerated values and durations, at rows off the multiples of the interval; a file name
    with special characters."""
    source = "a&b<c>'d'.st"
    pathlib.Path(source).write_text(PHASES)
    moments = [3, 8, 13, 20, 23, 60, 61, 62, 70, 103, 104, 1003]
    scene.run(source, moments)
    picture = scene.plot(source, moments, "hot", "N", "Phase", "pause")
    expect("strips", (list(picture.lines), list(picture.lanes)), (["HOT", "N", "PHASE", "PAUSE"], ["R"]))
    active = due(moments, 10)
    numbers = [-7 * (k + 1) for k in range(len(active))]
    expect("N", picture.course("N"), changes(numbers, active, 0))
    expect("HOT", picture.course("HOT"), changes([("FALSE", "TRUE")[n % 2] for n in numbers], active, "FALSE"))
    names = [("IDLE", "HEATING", "COOLING")[-n % 3] for n in numbers]
    expect("PHASE", picture.course("PHASE"), changes(names, active, "IDLE"))
    expect("PAUSE", picture.course("PAUSE"), changes([2000] * len(active), active, 0))
    expect("executions", picture.ticks("R", "P"), active)
    expect("faults", picture.marks("R", "P", "cross"), [])
    expect("overruns", picture.marks("R", "P", "triangle"), [])

    # A warm start goes on from the kept values, at the moment of the last row.
    later = [1100, 1110, 1125]
    scene.run(source, later, start="warm")
    picture = scene.plot(source, [moments[-1], *later], "n")
    expect("strips", (list(picture.lines), list(picture.lanes)), (["N"], ["R"]))
    kept = numbers[-1]
    wanted = [(moments[-1], kept), (1100, kept - 7), (1110, kept - 14), (1125, kept - 21)]
    expect("N after a restart", picture.course("N"), wanted)
    expect("executions after a restart", picture.ticks("R", "P"), later)


FAULTS = """
PROGRAM Add VAR_EXTERNAL n : INT; m : INT; END_VAR n := n + 1; m := m + 20000; END_PROGRAM
CONFIGURATION C
VAR_GLOBAL n : INT; m : INT; END_VAR
RESOURCE R ON CPU
TASK T (INTERVAL := T#10ms, PRIORITY := 0);
PROGRAM P WITH T : Add;
END_RESOURCE
END_CONFIGURATION
"""


def faults(scene):
    """The second and the third execution end with F1, and change nothing."""
    pathlib.Path("faults.st").write_text(FAULTS)
    moments = [0, 400, 1000]
    scene.run("faults.st", moments)
    picture = scene.plot("faults.st", moments)
    expect("strips", (list(picture.lines), list(picture.lanes)), (["N", "M"], ["R"]))
    expect("N", picture.course("N"), [(0, 0), (0, 1)])
    expect("M", picture.course("M"), [(0, 0), (0, 20000)])
    expect("executions", picture.ticks("R", "P"), [0])
    expect("faults", picture.marks("R", "P", "cross"), [(400, "F1 at 400 ms"), (1000, "F1 at 1000 ms")])
    return picture


def overruns(scene):
    """A trace in which three rows come before the first execution: at two of them the program is due while it waits."""
    pathlib.Path("counter.st").write_text((TEXTS / "counter.st").read_text())
    moments = [0, 10, 20, 30]
    pathlib.Path("rows.csv").write_text(rows_of(moments))
    head = ["trace 1", "budget 10000", "start cold", "moment none", "keep N 0"]
    log = ["row 0", "row 10", "row 20", "done R/P 0 ok", "row 30", "done R/P 3 ok"]
    pathlib.Path("trace").write_text("\n".join([*head, *log, "end 6", ""]))
    picture = scene.plot("counter.st", moments, "N")
    expect("N", picture.course("N"), [(0, 0), (20, 1), (30, 2)])
    expect("executions", picture.ticks("R", "P"), [20, 30])
    expect("overruns", picture.marks("R", "P", "triangle"), [(10, "overrun at 10 ms"), (20, "overrun at 20 ms")])


EXTREMES = """
PROGRAM Swing
  VAR_EXTERNAL low : LINT; high : ULINT; END_VAR
  IF low < 0 THEN low := 9223372036854775807; high := 0;
  ELSE low := -9223372036854775807 - 1; high := 18446744073709551615; END_IF;
END_PROGRAM
CONFIGURATION C
VAR_GLOBAL low : LINT; high : ULINT; END_VAR
RESOURCE R ON CPU
TASK T (INTERVAL := T#10ms, PRIORITY := 0);
PROGRAM P WITH T : Swing;
END_RESOURCE
END_CONFIGURATION
"""


def extremes(scene):
    """The smallest and the largest numbers at the first and the last moments that a plant may have."""
    pathlib.Path("extremes.st").write_text(EXTREMES)
    moments = [0, 2**61, 2**62 - 1]
    scene.run("extremes.st", moments)
    picture = scene.plot("extremes.st", moments)
    for name, wanted in (("LOW", [0, -(2**63), 2**63 - 1, -(2**63)]), ("HIGH", [0, 2**64 - 1, 0, 2**64 - 1])):
        course = picture.course(name)
        expect(f"the moments of {name}", [t for t, _value in course], [0, *moments])
        if any(abs(seen - value) > 2**52 for (_t, seen), value in zip(course, wanted)):
            fail(f"{name} is {course}")


def many(scene):
    """Of 16 variables the first 12 are shown, and the picture says so; others are shown if they are asked for."""
    names = [f"v{k}" for k in range(15)]
    more = f"VAR_GLOBAL {', '.join(names)} : INT; END_VAR VAR_GLOBAL RETAIN"
    pathlib.Path("many.st").write_text((TEXTS / "counter.st").read_text().replace("VAR_GLOBAL RETAIN", more))
    moments = [0, 10]
    scene.run("many.st", moments)
    picture = scene.plot("many.st", moments)
    expect("strips", list(picture.lines), [f"V{k}" for k in range(12)])
    if not re.search(r"\b4 of the variables are not shown", picture.note):
        fail(f"the note is {picture.note}")
    expect("strips", list(scene.plot("many.st", moments, "n", "v14").lines), ["N", "V14"])
    ended = scene.plant("plot", "many.st", "--plant", "rows.csv", "--trace", "trace", "--out", "none.svg", "nowhere")
    if ended.returncode == 0 or pathlib.Path("none.svg").exists():
        fail("a path that doesn't exist is drawn")


def long(scene):
    """A counter over 10,000 rows: only a few bytes per step, and one line for what doesn't change."""
    text = (TEXTS / "counter.st").read_text().replace("n := n + 1", "n := n + 1; m := m")
    pathlib.Path("long.st").write_text(text.replace("n : INT;", "n : INT; m : INT;"))
    moments = [10 * k for k in range(10000)]
    scene.run("long.st", moments)
    picture = scene.plot("long.st", moments, "m", "n")
    expect("M", picture.course("M"), [(0, "0")])
    course = picture.course("N")
    # a pixel has many rows here, and steps are drawn only to the hundredth of a pixel
    for moment, value in course:
        if abs(moment / 10 + 1 - value) > 3:
            fail(f"N is {value} at {moment}")
    expect("N in the end", course[-1][1], 10000)
    if picture.bytes > 400_000:
        fail(f"the picture of 10,000 rows has {picture.bytes} bytes")


TEXTS = pathlib.Path(__file__).resolve().parent / "texts"


def main():
    scene = Scene(os.path.abspath(sys.argv[1]))
    with tempfile.TemporaryDirectory() as folder:
        os.chdir(folder)
        for look in (phases, faults, overruns, extremes, many, long):
            look(scene)
            if os.path.exists("store"):
                os.remove("store")
        os.chdir(TEXTS)
    print(f"plots.py: {scene.drawn} pictures as expected")


main()
