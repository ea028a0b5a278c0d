#!/usr/bin/env python3
"""The trace of a live run, in segments: `plant live --trace DIR`, and `plant replay` of a segment or of all of a folder.

usage: tests/segments.py PLANT     PLANT is the built program
"""
import os
import pathlib
import re
import resource
import shutil
import signal
import subprocess
import sys
import tempfile
import time
import xml.etree.ElementTree as tree

SECONDS = 300
# so many BOOL inputs that a row has 2 KiB, and a segment some 500 rows
INPUTS, ROWS = 1024, 1300

# Two resources with tasks of their own, SINGLE beside an interval, faults now and then, and a kept counter.
TEXT = """PROGRAM Count
  VAR_EXTERNAL n : DINT; low, high : UINT; END_VAR
  n := n + 1;
  low := DINT_TO_UINT(n MOD 65536);
  high := DINT_TO_UINT(n / 65536);
END_PROGRAM
PROGRAM Fault
  VAR_EXTERNAL n : DINT; quotient : DINT; END_VAR
  quotient := 100 / (n MOD 7);
END_PROGRAM
PROGRAM Rise
  VAR_EXTERNAL rises : UINT; END_VAR
  VAR e : BOOL; t : TON; END_VAR
  rises := rises + 1;
  t(IN := rises > 3, PT := T#1s);
  e := NOT e;
END_PROGRAM
CONFIGURATION Wide
  VAR_GLOBAL RETAIN n : DINT; END_VAR
  VAR_GLOBAL
    {inputs}
    low AT %QW0 : UINT; high AT %QW1 : UINT; rises AT %QW2 : UINT; quotient : DINT;
  END_VAR
  RESOURCE R ON CPU
    TASK T (INTERVAL := T#1ms, PRIORITY := 0);
    PROGRAM P WITH T : Count;
  END_RESOURCE
  RESOURCE S ON CPU
    TASK Slow (INTERVAL := T#37ms, PRIORITY := 1);
    TASK Rising (SINGLE := i3, PRIORITY := 0);
    PROGRAM F WITH Slow : Fault;
    PROGRAM E WITH Rising : Rise;
  END_RESOURCE
END_CONFIGURATION
"""

# No inputs; arrays, structures and enumerated types, kept and not kept. Programs with names of 64 letters make the lines of a row so
# long that a segment has some 115 rows.
TYPES = """TYPE
  Colour : (Red, Amber, Green);
  Lamp : STRUCT colour : Colour; turns : ARRAY [1..2] OF INT; END_STRUCT;
  LampRow : ARRAY [0..2] OF Lamp;
  Colours : ARRAY [5..6] OF Colour;
END_TYPE
PROGRAM Turn
  VAR_EXTERNAL lamps : LampRow; seen : Colours; place : UINT; since : TIME; END_VAR
  place := (place + 1) MOD 3;
  seen[5] := seen[6];
  seen[6] := lamps[place].colour;
  CASE lamps[place].colour OF
    Red: lamps[place].colour := Amber;
    Amber: lamps[place].colour := Green;
    Green: lamps[place].colour := Red;
  END_CASE;
  lamps[place].turns[2] := lamps[place].turns[2] - 1;
  since := since + T#1ms;
END_PROGRAM
PROGRAM Idle VAR b : BOOL; END_VAR b := NOT b; END_PROGRAM
CONFIGURATION Typed
  VAR_GLOBAL RETAIN lamps : LampRow; END_VAR
  VAR_GLOBAL seen : Colours; place : UINT; since : TIME; END_VAR
  RESOURCE {resource} ON CPU
    TASK T (INTERVAL := T#1ms, PRIORITY := 0);
    PROGRAM P WITH T : Turn;
    {idle}
  END_RESOURCE
END_CONFIGURATION
"""


class Failure(Exception):
    """A scene went wrong."""


def check(is_right, text):
    if not is_right:
        raise Failure(text)


def header():
    return ",".join(["t", *(f"i{k}" for k in range(INPUTS))]) + "\n"


def row(moment):
    return ",".join([str(moment), *("01"[moment * (k + 3) // 8 % 2] for k in range(INPUTS))]) + "\n"


def limited(size):
    """What makes writes after this many bytes of a file fail, instead of ending the process."""
    def limit():
        signal.signal(signal.SIGXFSZ, signal.SIG_IGN)
        resource.setrlimit(resource.RLIMIT_FSIZE, (size, size))

    return {"preexec_fn": limit, "restore_signals": False}


class Folder:
    """A folder in which the program runs."""

    def __init__(self, plant, folder):
        self.plant, self.folder = plant, folder
        inputs = " ".join(f"i{k} AT %IX{k} : BOOL;" for k in range(INPUTS))
        self.text = TEXT.replace("{inputs}", inputs)
        self.path("text.st").write_text(self.text)

    def path(self, name):
        return self.folder / name

    def words(self, start, trace, *more, text="text.st", store="store"):
        words = [self.plant, "live", self.path(text), "--store", self.path(store), "--start", start, *more]
        return [*words, "--trace", self.path(trace)] if trace else words

    def life(self, start, data, trace, *more, **names):
        """The report of a life over this input."""
        words = self.words(start, trace, *more, **names)
        ended = subprocess.run(words, input=data, capture_output=True, text=True, timeout=SECONDS, check=False)
        check(ended.returncode == 0, f"status {ended.returncode}: {ended.stderr}")
        return ended.stderr

    def live(self, start, rows, trace, *more, **names):
        """The report of a life over these rows."""
        return self.life(start, header() + "".join(rows), trace, *more, **names)

    def begun(self, start, trace, *more, first=header(), **names):
        """A life that waits for its first row after this header."""
        words = self.words(start, trace, *more, **names)
        running = subprocess.Popen(words, stdin=subprocess.PIPE, stdout=subprocess.PIPE, stderr=subprocess.PIPE, text=True)
        answers(running, [first])
        return running

    def run(self, *words):
        return subprocess.run([self.plant, *words], capture_output=True, text=True, timeout=SECONDS, check=False)

    def replay(self, trace, *more, text="text.st"):
        """The status of a replay, and what it says."""
        ended = self.run("replay", self.path(text), "--trace", self.path(trace), *more)
        return ended.returncode, ended.stdout + ended.stderr

    def copy(self, trace, other):
        shutil.copytree(self.path(trace), self.path(other))
        return sorted(self.path(other).iterdir())


def number(report, name):
    return int(re.search(rf"^{name} (\d+)$", report, re.M)[1])


def variables(report):
    return re.findall(r"^\S+ = .*$", report, re.M)


def same(replayed, life):
    """A replay has the counts and the values that the life reported."""
    for counted in ("rows", "done", "faults", "overruns"):
        check(number(replayed, counted) == number(life, counted), f"{counted}: {replayed} {life}")
    check(variables(replayed) == variables(life) and len(variables(life)) > 5, f"{replayed} {life}")


def answers(running, lines):
    """The answers of a life to lines that are written at once."""
    running.stdin.write("".join(lines))
    running.stdin.flush()
    return [running.stdout.readline() for _ in lines]


def whole_life(folder):
    """A life in segments, each of which is run again alone and all in a row, with the values that the life reported."""
    life = folder.live("cold", [row(3 * k) for k in range(ROWS)], "all")
    names = sorted(folder.path("all").iterdir())
    check(len(names) == 3, f"{names}")
    check(names[0].name == "0" * 19 + ".trace", f"{names}")
    for name in names:
        check(name.stat().st_size < (1 << 20) + 300_000, f"{name} is too long")
    status, report = folder.replay("all")
    check(status == 0, report)
    same(report, life)
    check(number(report, "segments") == 3 and number(report, "lives") == 1, report)
    alone = [folder.replay(name) for name in names]
    check([status for status, _ in alone] == [0] * 3, f"{alone}")
    check(sum(number(text, "rows") for _, text in alone) == ROWS, f"{alone}")
    check(variables(alone[2][1]) == variables(life), f"{alone[2]}")
    return names


def damaged(folder, names):
    """What is missing or changed is refused."""
    folder.copy("all", "missing")[1].unlink()
    check(folder.replay("missing") == (3, "fault V7\n"), "a segment is missing")
    # the rest of a folder can be run again without its first segments
    folder.copy("all", "later")[0].unlink()
    status, report = folder.replay("later")
    check(status == 0 and number(report, "lives") == 1 and number(report, "segments") == 2, report)
    changes = [
        (1, "segment 1\n", "segment 2\n", "V7"),
        (1, "segment 1\n", "segment 0\n", "V1"),
        (1, "moment none\n", "moment 5\n", "V7"),
        (1, "keep N ", "keep N 1", "V7"),
        (1, "\nsingle ", "\nsingle 1 ", "V7"),
        (1, "overruns S/F 0\n", "overruns S/F 1\n", "V7"),
        (1, "\nlast ", "\nlast 1", "V7"),
        (0, "trace 2\n", "trace 3\n", "V1"),
        (0, "budget 10000\n", "budget 0\n", "V1"),
        (0, "budget 10000\n", "budget 010000\n", "V1"),
        (0, "rows 0\n", "rows 1\n", "V1"),
        (0, "last none\n", "last 0\n", "V1"),
        (0, "single 0 0 0\n", "single 0 0\n", "V1"),
        (0, "overruns R/P 0\n", "", "V1"),
        (0, "keep N 0\n", "keep N 00\n", "V1"),
        (0, "keep N 0\n", "keep N 2147483648\n", "V1"),
        (0, "row 3,", "row 03,", "V2"),
        (0, "row 3,", "row 0,", "V2"),
        (0, "done R/P 2 ok\n", "done R/P 1 ok\n", "V3"),
        (0, "done R/P 2 ok\n", "done R/Q 2 ok\n", "V1"),
        (0, "done R/P 2 ok\n", "done R/P 2 F1\n", "V4"),
        (2, "\nend ", "\nend 1", "V1"),
        (2, "\nend ", "\n\nend ", "V1"),
    ]
    for at, old, new, code in changes:
        shutil.rmtree(folder.path("changed"), ignore_errors=True)
        name = folder.copy("all", "changed")[at]
        text = name.read_text()
        check(old in text, f"segment {at} has no {old!r}")
        name.write_text(text.replace(old, new, 1))
        got = folder.replay("changed")
        check(got == (3, f"fault {code}\n"), f"{old!r} -> {new!r}: {got}")
    # what a head says of executions before it is no part of what the segment counts
    name = folder.copy("all", "overruns")[1]
    name.write_text(name.read_text().replace("overruns S/F 0\n", "overruns S/F 3\n", 1))
    status, report = folder.replay(name)
    check(status == 0 and number(report, "overruns") == 0 and number(report, "lives") == 1, report)
    status, text = folder.replay("text.st")
    check(status == 1 and text.startswith("error: "), f"a source as a trace: {text}")
    folder.path("empty").mkdir()
    check(folder.replay("empty") == (3, "fault V6\n"), "an empty folder")
    check(folder.replay("nowhere") == (3, "fault V6\n"), "no folder")
    check(folder.replay("nowhere", "--plant", folder.path("text.st")) == (3, "fault V6\n"), "no trace")
    status, text = folder.replay("all", "--plant", folder.path("text.st"))
    check(status == 1 and text.startswith("error: "), text)


def drawn(folder):
    """A picture of segments, and why there is none."""
    folder.path("picture.svg").unlink(missing_ok=True)
    words = ["plot", folder.path("text.st"), "--trace", folder.path("all"), "--out", folder.path("picture.svg")]
    ended = folder.run(*words, "N", "QUOTIENT")
    check((ended.returncode, ended.stdout, ended.stderr) == (0, "", ""), f"{ended}")
    picture = folder.path("picture.svg").read_text()
    check(picture.startswith("<svg") and ">N<" in picture and ">QUOTIENT<" in picture, picture[:500])
    _, report = folder.replay("all")
    counts = ", ".join(f"{name} {number(report, name)}" for name in ("rows", "done", "faults", "overruns"))
    check(counts in picture and number(report, "faults") > 0, f"{counts}: {picture[-3000:]}")
    for more in (["NO"], ["--plant", folder.path("text.st"), "N"]):
        ended = folder.run(*words, *more)
        check(ended.returncode == 1 and ended.stderr.startswith("error: "), f"{more}: {ended}")
    segment = sorted(folder.path("all").iterdir())[1]
    before = segment.read_bytes()
    ended = folder.run(*words[:4], "--out", f"{segment.parent}/../all/{segment.name}", "N")
    check(ended.returncode == 1 and "is the source, the plant or the trace" in ended.stderr and segment.read_bytes() == before, f"{ended}")
    ended = folder.run("plot", folder.path("text.st"), "--trace", folder.path("text.st"), "--out", folder.path("picture.svg"))
    check(ended.returncode == 1 and ended.stderr.startswith("error: "), f"{ended}")


def cut(folder):
    """A segment that was cut off at any byte is run again as far as it goes, if it is the last one of a life."""
    name = folder.copy("all", "cut")[2]
    whole = name.read_bytes()
    head = whole.index(b"\nrow ") + 1
    for length in [*range(head, head + 2200, 97), len(whole) - 9, len(whole) - 1]:
        name.write_bytes(whole[:length])
        status, report = folder.replay(name)
        check(status == 0 and "the last segment is cut off\n" in report, f"{length} bytes: {report}")
    status, report = folder.replay("cut")
    check(status == 0 and "the last segment is cut off\n" in report and number(report, "segments") == 3, report)
    # within the head there are no entries
    for length in (0, 5, head - 1, head):
        name.write_bytes(whole[:length])
        status, report = folder.replay("cut")
        check(status == 0 and "the last segment is cut off\n" in report and number(report, "segments") == 3, report)
    name.write_bytes(b"trace 2\nbudget 1\n")
    check(folder.replay("cut") == (3, "fault V7\n"), "another budget")
    name.write_bytes(whole)
    name = sorted(folder.path("cut").iterdir())[1]
    name.write_bytes(name.read_bytes()[:-5])
    check(folder.replay("cut") == (3, "fault V7\n"), "the second of three is cut off")


def killed(folder):
    """A life that is killed, and one that goes on warm in the same folder."""
    running = subprocess.Popen(folder.words("cold", "two"), stdin=subprocess.PIPE, stdout=subprocess.PIPE, stderr=subprocess.PIPE, text=True)
    last = answers(running, [header(), *(row(3 * k) for k in range(700))])[-1]
    running.send_signal(signal.SIGKILL)
    running.communicate()
    status, report = folder.replay("two")
    check(status == 0 and "the last segment is cut off\n" in report, report)
    check(number(report, "rows") >= 699 and int(last.split(",")[1]) == 700, f"{report} {last}")
    life = folder.live("warm", [row(10_000 + 3 * k) for k in range(700)], "two")
    status, report = folder.replay("two")
    check(status == 0 and variables(report) == variables(life), f"{report} {life}")
    check(number(report, "lives") == 2 and number(report, "segments") == 4, report)
    # the last segment of the first life ends within its head
    name = sorted(folder.path("two").iterdir())[1]
    name.write_bytes(name.read_bytes()[:50])
    status, cut_off = folder.replay("two")
    check(status == 0 and variables(cut_off) == variables(life) and number(cut_off, "segments") == 4, cut_off)
    check(700 < number(cut_off, "rows") < number(report, "rows") and "is cut off" not in cut_off, f"{cut_off} {report}")


def failing(folder):
    """A folder that can't be made is refused; one that goes away ends the trace, and not the life."""
    folder.path("file").write_text("")
    ended = subprocess.run(folder.words("cold", "file"), input=header(), capture_output=True, text=True, timeout=SECONDS, check=False)
    check((ended.returncode, ended.stdout) == (1, "") and ended.stderr.startswith("error: "), ended.stderr)
    running = subprocess.Popen(folder.words("cold", "gone"), stdin=subprocess.PIPE, stdout=subprocess.PIPE, stderr=subprocess.PIPE, text=True)
    running.stdin.write(header())
    running.stdin.flush()
    running.stdout.readline()
    deadline = time.monotonic() + 20
    while not folder.path("gone").is_dir() and time.monotonic() < deadline:
        time.sleep(0.01)
    folder.path("gone").rmdir()
    running.stdin.write("".join(row(3 * k) for k in range(5)))
    out, errors = running.communicate()
    check(running.returncode == 0 and out.count("\n") == 5, f"{running.returncode} {out} {errors}")
    check(errors.startswith("the trace ends: V6, a segment can't be written\n") and number(errors, "rows") == 5, errors)
    # no room for a line: the segment ends within it, and a later life goes on in the folder
    data = header() + "".join(row(3 * k) for k in range(200))
    words = folder.words("cold", "full")
    ended = subprocess.run(words, input=data, capture_output=True, text=True, timeout=SECONDS, check=False, **limited(300_000))
    check(ended.returncode == 0 and "\nthe trace ends: V6, a segment can't be written\n" in f"\n{ended.stderr}", ended.stderr)
    check(number(ended.stderr, "rows") == 200 and next(folder.path("full").iterdir()).stat().st_size == 300_000, ended.stderr)
    status, report = folder.replay("full")
    check(status == 0 and "the last segment is cut off\n" in report and 100 < number(report, "rows") < 200, report)
    life = folder.live("warm", [row(1000)], "full")
    status, report = folder.replay("full")
    check(status == 0 and number(report, "lives") == 2 and "cut off" not in report, report)
    check(variables(report) == variables(life), f"{report} {life}")
    # no life writes over a segment, nor before one
    names = {name: name.read_bytes() for name in folder.path("all").iterdir()}
    for rows in ([row(0)], [row(5)]):
        errors = folder.live("cold", rows, "all")
        check(errors.startswith("the trace ends: V6, the folder has a segment of this moment or a later one\n"), errors)
        check({name: name.read_bytes() for name in folder.path("all").iterdir()} == names, "a segment was changed")


def stamped(folder):
    """Rows whose moments come from the clock, as they are read or at its ticks: their replay reports what the life did."""
    lines = [header(), *(row(3 * k) for k in range(600))]
    begun = time.time_ns() // 1_000_000
    life = folder.life("cold", "".join(line.partition(",")[2] for line in lines), "stamped", "--stamp")
    names = sorted(folder.path("stamped").iterdir())
    moments = [int(name.name.removesuffix(".trace")) for name in names]
    check(len(moments) == 2 and begun - 5_000 < moments[0] < moments[1] < time.time_ns() // 1_000_000 + 5_000, f"{begun}: {moments}")
    status, report = folder.replay("stamped")
    check(status == 0 and number(report, "segments") == 2 and number(report, "lives") == 1, report)
    same(report, life)
    # each tick is a row with the inputs of the newest line
    running = folder.begun("cold", "ticks", "--every", "2ms", first=lines[0].partition(",")[2])
    answered = 0
    for line in lines[1:3]:
        answers(running, [line.partition(",")[2]])
        answered, until = answered + 1, time.monotonic() + 0.5
        while time.monotonic() < until:
            running.stdout.readline()
            answered += 1
    out, life = running.communicate()
    check(running.returncode == 0, life)
    status, report = folder.replay("ticks")
    check(status == 0, report)
    same(report, life)
    rows = re.findall(r"^row \d+,(.*)$", next(folder.path("ticks").iterdir()).read_text(), re.M)
    check(len(rows) == number(life, "rows") == out.count("\n") + answered, f"{len(rows)} rows: {life}")
    # on a busy machine the input may end before a tick comes after the second line
    seen, wanted = [f"{line}\n" for line in dict.fromkeys(rows)], [line.partition(",")[2] for line in lines[1:3]]
    check(seen in (wanted, wanted[:1]), "rows with other inputs")


def typed(folder):
    """Arrays, structures and enumerated types, and no inputs: each segment has their values, and is run again alone."""
    resource, names = "R" * 64, [f"{k:02}".translate(str.maketrans("0123456789", "abcdefghij")) * 32 for k in range(63)]
    idle = " ".join(f"PROGRAM {name} WITH T : Idle;" for name in names)
    folder.path("types.st").write_text(TYPES.replace("{resource}", resource).replace("{idle}", idle))
    rows = 300
    life = folder.life("cold", "t\n" + "".join(f"{k}\n" for k in range(rows)), "types", text="types.st", store="types.store")
    segments = sorted(folder.path("types").iterdir())
    check(len(segments) == 3, f"{segments}")
    status, report = folder.replay("types", text="types.st")
    check(status == 0 and number(report, "rows") == rows and number(report, "done") == 64 * rows, report)
    same(report, life)
    # by hand: a lamp takes its next colour at each third row
    colours, turns, seen = ["Red"] * 3, [0] * 3, ["Red"] * 2
    for k in range(rows):
        at = (k + 1) % 3
        seen = [seen[1], colours[at]]
        colours[at] = {"Red": "Amber", "Amber": "Green", "Green": "Red"}[colours[at]]
        turns[at] -= 1
    wanted = [f"LAMPS[{k}].COLOUR = {colours[k].upper()}" for k in range(3)] + [f"LAMPS[{k}].TURNS[2] = {turns[k]}" for k in range(3)]
    wanted += [f"SEEN[{5 + k}] = {seen[k].upper()}" for k in range(2)]
    check(not {*wanted} - {*variables(life)}, f"{wanted}: {life}")
    alone = [folder.replay(name, text="types.st") for name in segments]
    check([status for status, _ in alone] == [0] * 3 and variables(alone[2][1]) == variables(life), f"{alone}")
    for old, new in (("AMBER", "AMBRE"), ("AMBER", "1"), ("AMBER", "Amber"), ("[1]", "[3]"), ("LAMPS", "LAMP")):
        changed = segments[1].read_text()
        line = re.search(r"^keep LAMPS\[1\]\.COLOUR .*$", changed, re.M)[0]
        folder.path("changed.trace").write_text(changed.replace(line, re.sub("RED|AMBER|GREEN", "AMBER", line).replace(old, new), 1))
        got = folder.replay("changed.trace", text="types.st")
        check(got == (3, "fault V1\n"), f"{line} with {new} for {old}: {got}")


def unsaved(folder):
    """A row that can't be saved is in no segment, and one that is saved is, also without an answer."""
    # the start saves into the first half of the retain file, and each row into the other half; there is no room for the second half
    for saved in (0, 1):
        trace, store = f"unsaved{saved}", f"store{saved}"
        before = folder.live("cold", [row(3 * k) for k in range(saved)], None, store=store)
        data, words = header() + "".join(row(3 * k) for k in range(10, 14)), folder.words("warm", trace, store=store)
        ended = subprocess.run(words, input=data, capture_output=True, text=True, timeout=SECONDS, check=False, **limited(131_072))
        check((ended.returncode, ended.stdout.count("\n"), ended.stderr) == (5, 1 + saved, "fault K5\n"), f"{ended}")
        status, report = folder.replay(trace)
        if saved == 0:
            check((status, report) == (3, "fault V6\n") and not [*folder.path(trace).iterdir()], f"no row is saved: {report}")
            continue
        check(status == 0 and "the last segment is cut off\n" in report and number(report, "rows") == saved, report)
        check(next(folder.path(trace).iterdir()).read_text().endswith(" ok\n"), "a part of a row that isn't saved")
        check(f"N = {saved + number(before, 'rows')}" in variables(report), f"{report} {before}")
        life = folder.live("warm", [row(3 * k) for k in range(20, 25)], trace, store=store)
        status, report = folder.replay(trace)
        check(status == 0 and number(report, "lives") == 2 and number(report, "rows") == 6, report)
        check(variables(report) == variables(life) and "is cut off" not in report, f"{report} {life}")
    running = folder.begun("cold", "closed")
    answers(running, [row(0)])
    running.stdout.close()
    running.stdin.write(row(3))
    running.stdin.close()
    check((running.wait(SECONDS), running.stderr.read()) == (5, ""), "a closed output")
    running.stderr.close()
    status, report = folder.replay("closed")
    kept = folder.run("show", folder.path("store")).stdout
    check(status == 0 and number(report, "rows") == 2 and "is cut off" not in report, report)
    check("N = 2" in variables(report) and "N DINT = 2\n" in kept, f"{report} {kept}")


def mixed(folder):
    """One folder has the segments of one budget and one text; with another life's, each segment is still run again alone."""
    folder.path("more.st").write_text(folder.text.replace("quotient : DINT;\n  END_VAR", "quotient : DINT; one_more : BOOL;\n  END_VAR"))
    folder.path("other.st").write_text(folder.text.replace("n MOD 7", "n MOD 8"))
    rows = [row(3 * k) for k in range(100)]
    later = [row(1000 + 3 * k) for k in range(100)]
    for trace, text, more, code, own in (
        ("budgets", "text.st", ["--budget", "9999"], "V1", "V1"),
        ("more", "more.st", [], "V1", "V1"),
        ("other", "other.st", [], "V4", "V4"),
    ):
        check(folder.text != folder.path(text).read_text() or more, f"{text} is the same text")
        lives = [folder.live("cold", rows, trace), folder.live("cold", later, trace, *more, text=text)]
        check(not any("trace ends" in it for it in lives), f"{trace}: {lives}")
        check(folder.replay(trace) == (3, f"fault {code}\n"), f"{trace}: {folder.replay(trace)}")
        check(folder.replay(trace, text=text) == (3, f"fault {own}\n"), f"{trace}: {folder.replay(trace, text=text)}")
        names = sorted(folder.path(trace).iterdir())
        for name, source, life in zip(names, ("text.st", text), lives, strict=True):
            status, report = folder.replay(name, text=source)
            check(status == 0, f"{trace}: {report}")
            same(report, life)
        if text != "text.st":
            got = folder.replay(names[1])
            check(got == (3, f"fault {code}\n"), f"{trace}, the second alone by the first text: {got}")


def at_once(folder):
    """Two lives at once with one folder: neither writes over a segment of the other."""
    rows = [row(3 * k) for k in range(700)]
    one, two = folder.begun("cold", "shared"), folder.begun("cold", "shared", store="second")
    answers(one, rows[:1])
    answers(two, rows[:20])
    answers(one, rows[1:])
    ends = [running.communicate()[1] for running in (one, two)]
    check([one.returncode, two.returncode] == [0, 0] and "trace ends" not in ends[0], f"{ends}")
    check(ends[1].count("the trace ends: V6, the folder has a segment of this moment or a later one\n") == 1, ends[1])
    check(number(ends[1], "rows") == 20, ends[1])
    status, report = folder.replay("shared")
    check(status == 0 and number(report, "segments") == 2, report)
    same(report, ends[0])
    shared, single = ([(it.name, it.read_bytes()) for it in sorted(folder.path(name).iterdir())] for name in ("shared", "all"))
    check(shared[0] == single[0] and shared[1][0] == single[1][0], "a life beside another one has another segment than alone")
    check(single[1][1].startswith(shared[1][1][: shared[1][1].rindex(b"end ")]), "a life beside another one has other rows than alone")
    # lives whose rows have other moments
    later = [row(3 * k) for k in range(10_000, 10_700)]
    one, two = folder.begun("cold", "both"), folder.begun("cold", "both", store="second")
    for at in (0, 350):
        answers(one, rows[at : at + 350])
        answers(two, later[at : at + 350])
    ends = [running.communicate()[1] for running in (one, two)]
    check([one.returncode, two.returncode] == [0, 0] and not any("trace ends" in it for it in ends), f"{ends}")
    for name, is_late, life in (("early", False, ends[0]), ("late", True, ends[1])):
        folder.path(name).mkdir()
        for segment in folder.path("both").iterdir():
            if (int(segment.stem) >= 30_000) == is_late:
                shutil.copy(segment, folder.path(name))
        status, report = folder.replay(name)
        check(status == 0 and number(report, "segments") == 2 and number(report, "rows") == 700, f"{name}: {report}")
        same(report, life)


def drawn_again(folder):
    """A second cold life is drawn after the first: the picture is XML, and no line of it goes back."""
    for name in folder.copy("all", "cold")[:2]:
        name.unlink()
    life = folder.live("cold", [row(6000 + 3 * k) for k in range(200)], "cold")
    status, report = folder.replay("cold")
    check(status == 0 and number(report, "lives") == 2 and variables(report) == variables(life), f"{report} {life}")
    words = ["plot", folder.path("text.st"), "--trace", folder.path("cold"), "--out", folder.path("cold.svg"), "N", "I3", "QUOTIENT"]
    ended = folder.run(*words)
    check((ended.returncode, ended.stdout, ended.stderr) == (0, "", ""), f"{ended}")
    root = tree.parse(folder.path("cold.svg")).getroot()
    ways = [it.get("d") for it in root.iter() if it.get("class") in ("steps", "ticks")]
    check(len(ways) == 6, f"{len(ways)} lines")
    for way in ways:
        places = [float(it) for it in re.findall(r"[MH]([\d.]+)", way)]
        check(places == sorted(places) and len(places) > 20, f"a line goes back: {way[:300]}")
    moments = [int("".join(it.itertext())) for it in root.iter() if it.get("class") == "moment"]
    check(moments == sorted({*moments}) and moments[0] > 3000 and moments[-1] > 6000, f"{moments}")


def others(folder):
    """Other files in a folder of segments, names that aren't UTF-8 too, are neither read nor changed."""
    names = [b"notes", b"\xff\xfe.trace", b"z\xc3.trace", b"segment.trace~", b"0.trace.gz", b".tracer", b"trace"]
    folder.path("others").mkdir()
    files = [pathlib.Path(os.fsdecode(os.fsencode(folder.path("others")) + b"/" + name)) for name in names]
    for file in files:
        file.write_bytes(b"not a segment")
    folder.path("others/old").mkdir()
    check(folder.replay("others") == (3, "fault V6\n"), "no segment among other files")
    lives = [folder.live("cold", [row(3 * k) for k in range(40)], "others"), folder.live("warm", [row(900)], "others/old/..")]
    check(not any("trace ends" in it for it in lives), f"{lives}")
    for trace in ("others", "others/", "others//old/..//"):
        ended = folder.run("replay", folder.path("text.st"), "--trace", f"{folder.folder}/{trace}")
        report = ended.stdout
        check(ended.returncode == 0 and number(report, "segments") == 2 and number(report, "rows") == 41, f"{trace}: {ended}")
        check(variables(report) == variables(lives[1]), f"{trace}: {report} {lives}")
    check([file.read_bytes() for file in files] == [b"not a segment"] * len(files), "another file was changed")


def main():
    plant = str(pathlib.Path(sys.argv[1]).resolve())
    memory = "/dev/shm" if os.access("/dev/shm", os.W_OK) else None
    with tempfile.TemporaryDirectory(dir=memory) as name:
        folder = Folder(plant, pathlib.Path(name))
        try:
            names = whole_life(folder)
            damaged(folder, names)
            drawn(folder)
            cut(folder)
            killed(folder)
            failing(folder)
            stamped(folder)
            typed(folder)
            unsaved(folder)
            mixed(folder)
            at_once(folder)
            drawn_again(folder)
            others(folder)
        except Failure as fault:
            sys.exit(f"segments.py: {fault}")
    print(f"segments.py: {ROWS} rows in 3 segments, each run again alone and in a row; what is missing, changed or cut off is told apart")


main()
