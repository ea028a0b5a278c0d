#!/usr/bin/env python3
"""Tries `plant show` on retain files that are made byte by byte, as docs/RETAIN-FILE.md describes them, alone and against texts.

usage: tests/shows.py PLANT     PLANT is the built program
"""
import fcntl
import os
import pathlib
import subprocess
import sys
import tempfile

AREA = 131072
WHOLE = 2 * AREA

# each elementary type: its keyword, its bytes, values as numbers and as they are shown
ELEMENTARY = [
    ("SINT", 1, [(-128, "-128"), (127, "127")]),
    ("INT", 2, [(-32768, "-32768"), (-1, "-1"), (32767, "32767")]),
    ("DINT", 4, [(-2147483648, "-2147483648"), (2147483647, "2147483647")]),
    ("LINT", 8, [(-(2**63), "-9223372036854775808"), (2**63 - 1, "9223372036854775807")]),
    ("USINT", 1, [(0, "0"), (255, "255")]),
    ("UINT", 2, [(65535, "65535")]),
    ("UDINT", 4, [(4294967295, "4294967295")]),
    ("ULINT", 8, [(2**64 - 1, "18446744073709551615")]),
    ("BYTE", 1, [(0, "16#00"), (0xAF, "16#AF")]),
    ("WORD", 2, [(0x00FF, "16#00FF")]),
    ("DWORD", 4, [(0xDEADBEEF, "16#DEADBEEF")]),
    ("LWORD", 8, [(2**64 - 1, "16#FFFFFFFFFFFFFFFF")]),
    ("TIME", 8, [(150, "150ms"), (0, "0ms")]),
    ("BOOL", 1, [(0, "FALSE"), (1, "TRUE")]),
    ("(STOPPED,RUNNING,FAULT)", 1, [(0, "STOPPED"), (2, "FAULT")]),
    ("(ONLY)", 1, [(0, "ONLY")]),
]

COUNT = 0


def fail(text):
    sys.exit(f"shows.py: {text}")


def number(value, width):
    return (value % 2 ** (8 * width)).to_bytes(width, "big")


def area(generation, moment, variables, gate=0xA5):
    """An area with a record: (path, type, bytes of the value) for each variable."""
    layout = "".join(f"{path} {kind}\n" for path, kind, _ in variables).encode()
    body = number(0 if moment is None else moment + 1, 8) + number(len(layout), 4) + layout + b"".join(v for _, _, v in variables)
    content = bytes([gate]) + number(generation, 8) + number(len(body), 4) + body
    return content + bytes(AREA - len(content))


def record(generation, moment, lines):
    """The output for a record."""
    shown_moment = "none" if moment is None else f"{moment}ms"
    return f"generation {generation}\nmoment {shown_moment}\n" + "".join(f"{line}\n" for line in lines)


CLOSED = bytes(AREA)
DAMAGED = bytes([0xA5]) + bytes(AREA - 1)
N1 = [("N", "INT", number(7, 2))]
N2 = [("N", "INT", number(8, 2))]
SHOWN1 = record(3, 950, ["N INT = 7"])
SHOWN2 = record(4, None, ["N INT = 8"])
ALL = [(f"MAIN/P.V{k}[{i}].X", kind, number(value, width), shown)
       for k, (kind, width, values) in enumerate(ELEMENTARY) for i, (value, shown) in enumerate(values)]


def scenes():
    """Each scene: its name, the file, and the output without and with --both, or the code."""
    one = area(3, 950, N1)
    two = area(4, None, N2)
    every = area(1, 0, [(path, kind, value) for path, kind, value, _ in ALL])
    every_shown = record(1, 0, [f"{path} {kind} = {shown}" for path, kind, _, shown in ALL])
    yield "a file without bytes", b"", "no record\n", "no areas\n"
    yield "a file that is one byte too short", bytes(WHOLE - 1), "no record\n", "no areas\n"
    yield "a file that is one byte too long", bytes(WHOLE + 1), "S1", "S1"
    yield "both gates closed", CLOSED + CLOSED, "no record\n", "area 0\nclosed\narea 1\nclosed\n"
    yield "a record in the first area", one + CLOSED, SHOWN1, f"area 0\n{SHOWN1}area 1\nclosed\n"
    yield "a record in the second area", CLOSED + one, SHOWN1, f"area 0\nclosed\narea 1\n{SHOWN1}"
    yield "the newer record in the second area", one + two, SHOWN2, f"area 0\n{SHOWN1}area 1\n{SHOWN2}"
    yield "the newer record in the first area", two + one, SHOWN2, f"area 0\n{SHOWN2}area 1\n{SHOWN1}"
    yield "a closed gate over a record", area(9, 1, N2, gate=0) + one, SHOWN1, f"area 0\nclosed\narea 1\n{SHOWN1}"
    yield "a damaged area beside a record", DAMAGED + one, "S2", f"area 0\ndamaged\narea 1\n{SHOWN1}"
    yield "a record beside a damaged area", one + DAMAGED, "S2", f"area 0\n{SHOWN1}area 1\ndamaged\n"
    yield "two records of one generation", one + one, "S2", f"area 0\n{SHOWN1}area 1\n{SHOWN1}"
    yield "a record without variables", area(1, None, []) + CLOSED, record(1, None, []), f"area 0\n{record(1, None, [])}area 1\nclosed\n"
    yield "the greatest generation and moment", area(2**64 - 1, 2**62 - 1, N1) + CLOSED, record(2**64 - 1, 2**62 - 1, ["N INT = 7"]), None
    yield "a value of each type", every + CLOSED, every_shown, f"area 0\n{every_shown}area 1\nclosed\n"
    yield "a name out of its type", area(1, 0, [("M", "(A,B)", bytes([2]))]) + CLOSED, "S2", "area 0\ndamaged\narea 1\nclosed\n"


def text(retained, types=""):
    """A text with these RETAIN globals and these types."""
    block = f"  VAR_GLOBAL RETAIN {retained} END_VAR\n" if retained else ""
    return f"""{types}PROGRAM Count
  VAR x : INT; END_VAR
  x := 1;
END_PROGRAM
CONFIGURATION Plant
{block}  RESOURCE R ON CPU
    TASK T (INTERVAL := T#10ms, PRIORITY := 0);
    PROGRAM P WITH T : Count;
  END_RESOURCE
END_CONFIGURATION
"""


def against(head, lines, counts, saved):
    """The output of --against: the lines, and how many variables are carried, new, retyped and dropped."""
    counted = "{} carried, {} new, {} retyped, {} dropped".format(*counts)
    return head + "".join(f"{line}\n" for line in [*lines, counted, saved])


MODES = "TYPE Gate : (SHUT, OPEN); Mode : (STOPPED, RUNNING, FAULT); END_TYPE\n"
FOUR = "TYPE Mode : (STOPPED, RUNNING, FAULT, OPEN); END_TYPE\n"
HEAD = "generation 13\nmoment 1000ms\n"
LAST = 2**64 - 1


def migrations():
    """Each scene: its name, the variables of the record or None, its generation, the text, and the output."""
    dint = [(path, "DINT", number(value, 4)) for path, value in [("TOTAL_ML", 275), ("STROKES", 11), ("OLD_SUM", 4)]]
    mode = [("M", "(STOPPED,RUNNING,FAULT)", b"\2"), ("LIT", "BOOL", b"\1")]
    array = [(f"A[{i}]", "WORD", number(255 + i, 2)) for i in (1, 2)]
    yield ("one of each", dint, 13, text("total_ml : DINT; preset : INT := 7; strokes : LINT;"), against(
        HEAD, ["carried TOTAL_ML DINT = 275", "new PRESET INT = 7", "retyped STROKES LINT = 0, was DINT = 11", "dropped OLD_SUM DINT = 4"],
        (1, 1, 1, 1), "saves generation 14"))
    yield ("the same variables", N1, 13, text("n : INT := 5;"), against(HEAD, ["carried N INT = 7"], (1, 0, 0, 0), "saves nothing"))
    yield ("the same variables in another order", dint, 13, text("old_sum, strokes, total_ml : DINT := 1;"), against(
        HEAD, ["carried OLD_SUM DINT = 4", "carried STROKES DINT = 11", "carried TOTAL_ML DINT = 275"], (3, 0, 0, 0), "saves generation 14"))
    yield ("no variable", dint[:2], 13, text(""), against(
        HEAD, ["dropped TOTAL_ML DINT = 275", "dropped STROKES DINT = 11"], (0, 0, 0, 2), "saves generation 14"))
    yield ("a record without variables", [], 13, text("n : INT := -5;"), against(HEAD, ["new N INT = -5"], (0, 1, 0, 0), "saves generation 14"))
    yield ("no variable on either side", [], 13, text(""), against(HEAD, [], (0, 0, 0, 0), "saves nothing"))
    yield ("no record", None, 0, text("n : INT := 5; lit : BOOL;"), against(
        "no record\n", ["new N INT = 5", "new LIT BOOL = FALSE"], (0, 2, 0, 0), "saves nothing"))
    yield ("the last generation, and the same variables", N1, LAST, text("n : INT;"), against(
        f"generation {LAST}\nmoment 1000ms\n", ["carried N INT = 7"], (1, 0, 0, 0), "saves nothing"))
    yield ("the last generation", N1, LAST, text("n : DINT;"), against(
        f"generation {LAST}\nmoment 1000ms\n", ["retyped N DINT = 0, was INT = 7"], (0, 0, 1, 0), "fault S4"))
    yield ("the generation before the last", N1, LAST - 1, text("n : DINT;"), against(
        f"generation {LAST - 1}\nmoment 1000ms\n", ["retyped N DINT = 0, was INT = 7"], (0, 0, 1, 0), f"saves generation {LAST}"))
    yield ("the names of a type", mode, 13, text("lit : BOOL; m : Mode; g : Gate := OPEN;", MODES), against(
        HEAD, ["carried LIT BOOL = TRUE", "carried M (STOPPED,RUNNING,FAULT) = FAULT", "new G (SHUT,OPEN) = OPEN"], (2, 1, 0, 0), "saves generation 14"))
    yield ("a fourth name", mode, 13, text("m : Mode := RUNNING;", FOUR), against(
        HEAD, ["retyped M (STOPPED,RUNNING,FAULT,OPEN) = RUNNING, was (STOPPED,RUNNING,FAULT) = FAULT", "dropped LIT BOOL = TRUE"],
        (0, 0, 1, 1), "saves generation 14"))
    yield ("names that are dropped", mode, 13, text("lit : BOOL;"), against(
        HEAD, ["carried LIT BOOL = TRUE", "dropped M (STOPPED,RUNNING,FAULT) = FAULT"], (1, 0, 0, 1), "saves generation 14"))
    yield ("an element more", array, 13, text("a : ARRAY [1..3] OF WORD;"), against(
        HEAD, ["carried A[1] WORD = 16#0100", "carried A[2] WORD = 16#0101", "new A[3] WORD = 16#0000"], (2, 1, 0, 0), "saves generation 14"))
    yield ("an element less", array, 13, text("a : ARRAY [2..2] OF WORD;"), against(
        HEAD, ["carried A[2] WORD = 16#0101", "dropped A[1] WORD = 16#0100"], (1, 0, 0, 1), "saves generation 14"))


def migrated(plant, folder):
    """Shows files against texts; each file stays unchanged."""
    path, source = folder / "old.retain", folder / "next.st"
    words = [str(path), "--against", str(source)]
    for scene, variables, generation, next_text, output in migrations():
        content = CLOSED + CLOSED if variables is None else area(generation, 1000, variables) + CLOSED
        path.write_bytes(content)
        source.write_text(next_text)
        shown(plant, words, output, scene)
        if path.read_bytes() != content:
            fail(f"{scene}: the file was written")
    path.write_bytes(b"")
    shown(plant, words, against("no record\n", ["new A[2] WORD = 16#0000"], (0, 1, 0, 0), "saves nothing"), "a file without bytes, against a text")
    if path.read_bytes() != b"":
        fail("a file without bytes, against a text: it was written")
    for scene, content, code in [("damaged", DAMAGED + CLOSED, "S2"), ("too long", bytes(WHOLE + 1), "S1")]:
        path.write_bytes(content)
        shown(plant, words, code, f"{scene}, against a text")
    path.unlink()
    shown(plant, words, "S3", "no file, against a text")
    source.write_text(text("n : Nothing;"))
    refused(plant, words, (2, "fault C1"), "a text that is refused")
    source.unlink()
    refused(plant, words, (2, "fault X1"), "no text")
    refused(plant, [*words, "--both"], (1, "error:"), "both and against")


def refused(plant, words, status_and_start, scene):
    global COUNT
    done = subprocess.run([plant, "show", *words], capture_output=True, text=True)
    status, start = status_and_start
    if (done.returncode, done.stdout) != (status, "") or not done.stderr.startswith(start):
        fail(f"{scene}: {done}")
    COUNT += 1


def shown(plant, words, code_or_text, scene):
    global COUNT
    done = subprocess.run([plant, "show", *words], capture_output=True, text=True)
    if len(code_or_text) == 2:
        first = done.stderr.split("\n")[0]
        if (done.returncode, done.stdout, first) != (4, "", f"fault {code_or_text}"):
            fail(f"{scene}: {done}")
        title = subprocess.run([plant, "explain", code_or_text], capture_output=True, text=True).stdout.split("\n")[0]
        if title not in done.stderr:
            fail(f"{scene}: the reason of the refusal is missing: {done.stderr}")
    elif (done.returncode, done.stdout, done.stderr) != (0, code_or_text, ""):
        fail(f"{scene}: {done}")
    COUNT += 1


def main():
    plant = str(pathlib.Path(sys.argv[1]).resolve())
    with tempfile.TemporaryDirectory() as folder:
        path = pathlib.Path(folder) / "f.retain"
        for scene, content, last, both in scenes():
            path.write_bytes(content)
            before = os.stat(path)
            shown(plant, [str(path)], last, scene)
            if both is not None:
                shown(plant, [str(path), "--both"], both, scene)
            after = os.stat(path)
            if path.read_bytes() != content or (before.st_mtime_ns, before.st_size) != (after.st_mtime_ns, after.st_size):
                fail(f"{scene}: the file was written")
        shown(plant, [str(path.with_name("nowhere"))], "S3", "no file")
        if path.with_name("nowhere").exists():
            fail("no file: one was made")
        shown(plant, [folder], "S3", "a folder")
        path.write_bytes(area(3, 950, N1) + CLOSED)
        path.chmod(0o400)
        shown(plant, [str(path)], SHOWN1, "a file that may be read alone")
        with open(path, "rb") as held:
            fcntl.flock(held, fcntl.LOCK_EX)
            shown(plant, [str(path)], SHOWN1, "a file that a run holds")
        migrated(plant, pathlib.Path(folder))
    print(f"shows.py: {COUNT} outputs as expected")


main()
