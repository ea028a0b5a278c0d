#!/usr/bin/env python3
"""Refuses each request for memory of the built program in turn, and checks its answer and the files it leaves.

It refuses each request alone, and each with all later ones. The program has to report the code of the stage it was at, and to leave files
unchanged; a retain file may also be as a stop within the run leaves it. If the program can do without a request, which is rare, it has to give
the whole answer. The same command with memory has to give the right answer afterwards. The script also tries files that can't be opened or
read because memory runs out, smaller and smaller address spaces, and the number of requests between the device steps of runs.

usage: tests/refusals.py PLANT [--all | --few]     PLANT is the built program. In large scenes the script refuses each of the first requests
                                                   and some of the others; with --all each one, with --few some in all scenes
"""
import concurrent.futures
import dataclasses
import functools
import itertools
import pathlib
import re
import resource
import subprocess
import sys
import tempfile

HERE = pathlib.Path(__file__).resolve().parent
TEXTS = HERE / "texts"
DOSING = HERE.parent / "examples" / "dosing"

# how many scenes are tried in parallel, and the seconds after which a program counts as hanging
WORKERS = 2
HANGS = 60
# in a large scene: up to which request each one is refused, and about how many of the later ones
EACH = 2000
MORE = 150
# with --few: the least step between refused requests
FEW = 13
# of the address space, in KiB: its steps, the largest one, and how many whole answers in a row show that it is enough
KIB = 1024
SMALL, LARGE, MOST_ROOM = 50, 1000, 200_000
ENOUGH = 3
# a scene stops after this many findings
MOST_FINDINGS = 5
# the sweep ends after this many starts without a refusal; the number of requests varies with the timing of threads
IDLE = 2
IDLE_OF_THREADS = 20

# the codes for out of memory, and the one for a thread that could not be started, each with its status
STATUS = {"L6": 2, "P3": 2, "C12": 2, "M3": 2, "G9": 2, "I6": 3, "V5": 3, "N2": 4, "S5": 4, "K6": 5, "H1": 5}
# the codes of a run that had started
OF_RUNS = {"K6", "H1", "V5"}
# a status from here on isn't the program's: it was not loaded
NOT_LOADED = 126
# the device that guards the numbers of closed streams: a program whose streams are open can do without
GUARD = "/dev/null"
# the calls that are device steps, and the numbers of rows of the runs whose requests are counted
DEVICE = {"pread", "pwrite", "fdatasync", "ftruncate"}
MANY = [0, 100, 1000]
GROWING = ["counter.st", "wide.st", "idle.st"]
# how much is tried, if not the same as in the gate
ALL, SOME = "--all", "--few"
# the answer is as with memory, or is neither right nor a refusal
SAME, WRONG = "same", "wrong"

# The answers from the first request to the last, by the stages of a job; the answers of one stage come in any order.
WORDS = ("K6", SAME, "K6")
BUILD = ("G9", "L6", "P3", "G9", "C12", "M3", "G9")
# a refusal during the check of the configuration is deferred, so a broken rule is reported first
WRONG_TEXT = (*WORDS, "G9", "L6", "P3", SAME, "C12")
RUN = (*WORDS, *BUILD, "I6", "N2 S5", "K6 H1")
TRACED = (*RUN, "V5")
# if threads may interleave, the last request of one run is a request of the report or the trace in another run
OPEN_TRACED = (*RUN[:-1], "K6 H1 V5")
REPLAY = (*WORDS, "V5", *BUILD, "I6", "V5", "K6")
PLOT = (*WORDS, "V5", *BUILD, "I6", "K6", "V5", "K6")
# how many requests of the arguments' stage the program can do without: they reserve room in advance
SPARED = 2


class Failure(Exception):
    """A wrong answer with memory."""


# Starting the program.


@dataclasses.dataclass(frozen=True)
class Ended:
    """How a program ended; how many requests it made, if that is known, and how many were refused."""

    status: int | None
    out: str
    err: str
    asked: int | None
    refused: int

    def __str__(self):
        return f"status {self.status}, {self.out[:80]!r}, {self.err[:160]!r}"


@dataclasses.dataclass(frozen=True)
class Call:
    """A call on a file: the requests before it, those of its own thread, the thread, the call, its bytes, and the file's name."""

    asked: int
    mine: int
    thread: int
    what: str
    bytes: int
    name: str


def calls_of(log):
    names, calls = {"0": "input", "1": "output", "2": "error"}, []
    for line in log.splitlines():
        asked, mine, thread, what, fd, size, name = line.split(" ")
        if what == "open":
            names[fd] = name
        calls.append(Call(int(asked), int(mine), int(thread), what, int(size), names.get(fd, "-")))
    return calls


class Program:
    """The built program in a folder, with the allocator preloaded before that of the C library."""

    def __init__(self, plant, allocator, folder):
        self.plant, self.allocator, self.folder, self.starts = plant, allocator, folder, 0
        self.counts, self.log = folder / ".counts", folder / ".log"

    def start(self, words, **options):
        self.starts += 1
        try:
            done = subprocess.run([self.plant, *words], cwd=self.folder, capture_output=True, timeout=HANGS, **options)
        except subprocess.TimeoutExpired:
            return None, "", "the program hangs"
        return done.returncode, done.stdout.decode(errors="replace"), done.stderr.decode(errors="replace")

    def run(self, words, **how):
        self.counts.write_bytes(b"")
        environment = {"LD_PRELOAD": self.allocator, "REFUSE_TOLD": str(self.counts)}
        environment |= {f"REFUSE_{name.upper()}": str(value) for name, value in how.items()}
        ended = self.start(words, env=environment)
        asked, refused, *_ = [*map(int, self.counts.read_text().split()), None, None]
        return Ended(*ended, asked, refused or 0)

    def with_room(self, words, room):
        """Runs with this many KiB of address space, and the C library's own allocator; None if the program didn't begin."""
        try:
            ended = self.start(words, env={}, preexec_fn=lambda: resource.setrlimit(resource.RLIMIT_AS, (room * KIB, room * KIB)))
        except (OSError, subprocess.SubprocessError):
            return None
        return Ended(*ended, 0, 0)

    def well(self, words, **how):
        """Runs a job that has to succeed."""
        ended = self.run(words, **how)
        if ended.status:
            raise Failure(f"{' '.join(words)}: {ended}")
        return ended

    def calls(self, words, **how):
        """Runs a job, and returns the calls on files that it made."""
        self.log.write_bytes(b"")
        return self.run(words, log=self.log, **how), calls_of(self.log.read_text())


# Files of a folder. The names of this script's own files begin with a dot.


def left(folder):
    return {path.name: path.read_bytes() for path in folder.iterdir() if not path.name.startswith(".")}


def fill(folder, files):
    """Makes the folder have these files and no others."""
    there = left(folder)
    for name in there.keys() - files.keys():
        (folder / name).unlink()
    for name, content in files.items():
        if there.get(name) != content:
            (folder / name).write_bytes(content)


# Scenes.


@dataclasses.dataclass(frozen=True)
class Scene:
    """A job: its words, the files before it, and the stages of its answers when memory is refused.

    With memory it prints `report`, if there is one, or is refused with the line `refusal`. It writes `store`, a retain file, and `written`.
    The timing of its threads may change its report, unless the scene is fixed.
    """

    words: tuple[str, ...]
    files: dict[str, bytes]
    stages: tuple[str, ...]
    report: str | None = None
    refusal: str | None = None
    store: str | None = None
    written: str | None = None
    is_fixed: bool = True
    is_large: bool = False

    def __str__(self):
        return " ".join(self.words) or "no words"

    def option(self, name):
        return self.words[self.words.index(name) + 1] if name in self.words else None

    def with_option(self, name, value):
        """The words with this value of an option."""
        if name not in self.words:
            return (*self.words, name, value)
        at = self.words.index(name) + 1
        return (*self.words[:at], value, *self.words[at + 1 :])

    def without_rows(self):
        """The words of a warm start without rows."""
        return dataclasses.replace(self, words=self.with_option("--plant", "none.csv")).with_option("--start", "warm")


def rows(*lines):
    return "".join(f"{line}\n" for line in lines).encode()


def changed(text, *changes):
    """The text with one piece replaced, for each change."""
    for old, new in changes:
        if text.count(old) != 1:
            raise Failure(f"{old!r} occurs in the text {text.count(old)} times")
        text = text.replace(old, new)
    return text.encode()


COUNTER = (TEXTS / "counter.st").read_text()
SECOND = "END_RESOURCE\nRESOURCE S ON CPU\nTASK T (INTERVAL := T#10ms, PRIORITY := 0);\nPROGRAM Q WITH T : Add;\nEND_RESOURCE"
SOURCES = {
    "counter.st": COUNTER.encode(),
    "wrong.st": changed(COUNTER, ("n + 1", "TRUE")),
    "two.st": changed(COUNTER, ("END_RESOURCE", SECOND)),
    "wide.st": changed(COUNTER, ("RESOURCE R", "VAR_GLOBAL wide : ARRAY [1..250] OF INT; END_VAR\nRESOURCE R")),
    "idle.st": changed(COUNTER, ("T#10ms", "T#0s")),
    "old.st": changed(COUNTER, ("RETAIN n : INT;", "RETAIN n, m : INT; gone : DINT := 5;")),
    "next.st": changed(COUNTER, ("RETAIN n : INT;", "RETAIN fresh : BOOL; m : DINT; n : INT;")),
}
ROWS = {"rows.csv": rows("t", 0, 10, 20), "later.csv": rows("t", 30, 40), "none.csv": rows("t")}


def made(program, words, files, *names):
    """The files that a job leaves with memory."""
    fill(program.folder, files)
    program.well(words.split())
    return {name: (program.folder / name).read_bytes() for name in names}


def words_and_looks(program):
    """Jobs that read no plant."""
    counter, old, wrong = ({name: SOURCES[name]} for name in ("counter.st", "old.st", "wrong.st"))
    record = made(program, "run old.st --plant rows.csv --store s --start cold", old | ROWS, "s")
    next_text = {"next.st": SOURCES["next.st"]}
    yield "--help", {}, WORDS, {}
    yield "", {}, WORDS, {"refusal": "error: "}
    yield "run s --plant p --store f --start cold --budget x", {}, WORDS, {"refusal": "error: "}
    yield "explain C3", {}, WORDS, {}
    yield "check counter.st", counter, (*WORDS, *BUILD, "K6"), {}
    yield "check wrong.st", wrong, (*WRONG_TEXT, SAME), {"refusal": "fault C3 at 47\n"}
    yield "check wrong.st --explain", wrong, (*WRONG_TEXT, SAME), {"refusal": "fault C3 at 47\n"}
    yield "show s", record, (*WORDS, "S5", "K6"), {}
    yield "show s --both", record, (*WORDS, "S5", "K6"), {}
    yield "show s --against next.st", record | next_text, (*WORDS, *BUILD, "S5", "K6"), {}


def runs(program):
    """Runs of small texts."""
    traced = made(program, "run counter.st --plant rows.csv --store s --start cold --trace t", SOURCES | ROWS, "s", "t")
    record = {"s": traced["s"]}
    old = made(program, "run old.st --plant rows.csv --store s --start cold", SOURCES | ROWS, "s")
    before = {"t": b"an old trace\n"}
    store, trace = {"store": "s"}, {"store": "s", "written": "t"}

    def run(source, plant, start, more="", files=None, **options):
        words = f"run {source} --plant {plant} --store s --start {start} {more}"
        stages = RUN if "written" not in options else TRACED if options.get("is_fixed", True) else OPEN_TRACED
        return words, {source: SOURCES[source]} | ROWS | (files or {}), stages, options

    yield run("counter.st", "rows.csv", "cold", **store)
    yield run("counter.st", "rows.csv", "cold", "--trace t", before, **trace)
    yield run("counter.st", "rows.csv", "cold", "--pace free --trace t", is_fixed=False, **trace)
    yield run("counter.st", "rows.csv", "cold", "", record, **store)
    yield run("counter.st", "later.csv", "warm", "--trace t", record | before, **trace)
    yield run("counter.st", "later.csv", "warm", "--pace free", record, is_fixed=False, **store)
    yield run("next.st", "later.csv", "warm", "--trace t", old | before, **trace)
    yield run("next.st", "later.csv", "warm", "--pace free", old, is_fixed=False, **store)
    yield run("two.st", "later.csv", "cold", is_fixed=False, **store)
    yield run("two.st", "later.csv", "warm", "--pace free --trace t", before, is_fixed=False, **trace)


def dosings(program):
    """The runs of the dosing pump, as the examples have them."""
    files = {path.name: path.read_bytes() for path in DOSING.iterdir()} | {"none.csv": rows("t")}
    cold, warm = ((DOSING / f"{start}.command").read_text().strip() for start in ("cold", "warm"))
    record = made(program, cold, files, "dosing.retain")
    for words, start, more in (cold, "cold", {}), (warm, "warm", record):
        yield words, files | more, RUN, {"store": "dosing.retain", "report": (DOSING / f"{start}.report").read_text()}


def replays(program):
    """Jobs that read a trace."""
    run = "run counter.st --plant rows.csv --store s --start cold --trace t"
    files = {"counter.st": SOURCES["counter.st"], "rows.csv": ROWS["rows.csv"]}
    traced = files | made(program, run, files, "t")
    of_trace = "counter.st --plant rows.csv --trace t"
    yield f"replay {of_trace}", traced, REPLAY, {}
    yield f"plot {of_trace}", traced, PLOT, {}
    yield f"plot {of_trace} --out p", traced | {"p": b"an old picture\n"}, PLOT, {"written": "p"}
    yield f"plot {of_trace} --out p N", traced, PLOT, {"written": "p"}


def large(program):
    """Jobs of large texts."""
    recipe = {path.name: path.read_bytes() for path in [TEXTS / "recipe.st", TEXTS / "conveyor.st"]}
    plant = {"rows.csv": rows("t,start,weight", "0,0,0", "1000,1,600", "2000,0,600"), "none.csv": rows("t,start,weight")}
    hall = {"rows.csv": rows("t,start", "0,0", "10,1"), "none.csv": rows("t,start")}
    run = "run recipe.st --plant rows.csv --store s --start cold --trace t"
    traced = made(program, run, recipe | plant, "t")
    wide = {"wide.st": SOURCES["wide.st"]} | ROWS
    yield "run wide.st --plant rows.csv --store s --start cold", wide, RUN, {"store": "s"}
    yield "check conveyor.st", recipe, (*WORDS, *BUILD, "K6"), {}
    yield run, recipe | plant, TRACED, {"store": "s", "written": "t"}
    yield "run conveyor.st --plant rows.csv --store s --start cold", recipe | hall, RUN, {"store": "s"}
    yield "replay recipe.st --plant rows.csv --trace t", recipe | plant | traced, REPLAY, {}
    yield "plot recipe.st --plant rows.csv --trace t --out p", recipe | plant | traced, PLOT, {"written": "p"}


def scenes_of(program):
    for group in words_and_looks, runs, dosings, replays, large:
        for words, files, stages, options in group(program):
            yield Scene(tuple(words.split()), files, stages, is_large=group is large, **options)


# The possible reports and retained values of a run.


@dataclasses.dataclass(frozen=True)
class State:
    """The contents of a retain file: the moment and the values, as `show` prints them."""

    moment: str
    values: frozenset

    def is_before(self, row):
        return self.moment == "none" or int(self.moment.removesuffix("ms")) < row


NO_RECORD = State("none", frozenset())


def values_of(report):
    return dict(line.split(" = ") for line in report.splitlines() if " = " in line)


def state_of(shown):
    moment = next((line.split()[1] for line in shown.splitlines() if line.startswith("moment ")), "none")
    return State(moment, frozenset((place.split()[0], value) for place, value in values_of(shown).items()))


def without_acked(report):
    return "".join(line for line in report.splitlines(keepends=True) if not line.startswith("acked "))


class Reach:
    """All states that the run of a scene may go through, and all its possible reports: those that `replay` gives for each possible trace of
    these rows and programs, and for each beginning of one."""

    def __init__(self, program, scene):
        self.program, self.is_free = program, scene.option("--pace") == "free"
        self.replay = ["replay", scene.words[1], "--plant", scene.option("--plant"), "--trace", ".cut"]
        program.well(scene.with_option("--trace", ".trace"))
        self.last = state_of(program.well(["show", scene.store]).out)
        lines = (program.folder / ".trace").read_text().splitlines()
        entries = [line.split() for line in lines]
        self.head = [line for line, words in zip(lines, entries) if words[0] not in ("row", "done", "end")]
        self.rows = [line for line in lines if line.startswith("row ")]
        done = sorted({(words[1], words[3]) for words in entries if words[0] == "done"})
        self.dones = [f"done {path} {row} {how}" for (path, how), row in itertools.product(done, range(len(self.rows)))]
        self.begun = next(words[1] for words in entries if words[0] == "moment")
        self.states, self.reports = set(), set()
        self.go([])

    def first_row(self):
        return int(self.rows[0].split()[1])

    def go(self, entries):
        """Goes on from entries in each possible way; returns whether they are the beginning of a trace."""
        trace = [*self.head, *entries, f"end {len(entries)}"]
        (self.program.folder / ".cut").write_text("".join(f"{line}\n" for line in trace))
        ended = self.program.run(self.replay)
        if ended.status:
            return False
        latched = [entry for entry in entries if entry.startswith("row ")]
        self.states.add(self.state(latched, values_of(ended.out)))
        is_waiting = any([self.go([*entries, done]) for done in self.dones if done not in entries])
        if len(latched) < len(self.rows) and (self.is_free or not is_waiting):
            self.go([*entries, self.rows[len(latched)]])
        if len(latched) == len(self.rows) and not is_waiting:
            self.reports.add(ended.out)
        return True

    def state(self, latched, values):
        moment = latched[-1].split()[1] if latched else self.begun
        return State(moment if moment == "none" else f"{moment}ms", frozenset((path, values[path]) for path, _ in self.last.values))


# The answer of one start, and the files it leaves.


class Judge:
    """Knows the answer of a scene with memory, and decides whether an answer without it is allowed."""

    def __init__(self, program, scene):
        self.program, self.scene, self.folder = program, scene, program.folder
        self.reach, self.looked = None, {}
        fill(self.folder, scene.files)
        if scene.store:
            self.reach = Reach(program, scene)
            fill(self.folder, scene.files)
            if scene.store in scene.files:
                self.reach.states.add(state_of(program.well(["show", scene.store]).out))
            elif scene.option("--start") == "warm":
                self.reach.states.add(NO_RECORD)
        self.want = program.run(scene.words)
        self.wanted = left(self.folder)
        if self.want.asked is None or not self.is_wanted() or not self.is_right(self.want):
            raise Failure(f"{scene}: with memory {self.want}")

    def is_wanted(self):
        """Whether the answer with memory is the expected one."""
        want, scene = self.want, self.scene
        if scene.refusal is not None:
            return want.err.startswith(scene.refusal) and not want.out and want.status
        return want.status == 0 and scene.report in (None, want.out)

    def is_right(self, ended):
        """Whether this is the job's answer with memory. The explanation after the line of a fault may be shorter."""
        if self.scene.refusal is not None and "--explain" in self.scene.words:
            return (ended.status, ended.out) == (self.want.status, "") and ended.err.startswith(self.scene.refusal)
        return ended.err == self.want.err and self.is_report(ended)

    def is_report(self, ended):
        if ended.status != self.want.status or self.scene.is_fixed and ended.out != self.want.out:
            return False
        return self.reach is None or without_acked(ended.out) in self.reach.reports

    def answer(self, ended):
        """The code of an out-of-memory refusal, or SAME for the answer with memory, if all is as expected; otherwise WRONG."""
        after = left(self.folder)
        if ended.asked is None:
            return WRONG
        if self.is_right(ended):
            return SAME if self.is_whole(ended, after) else WRONG
        code = self.code_of(ended)
        return code if code and self.are_spared(code, after) else WRONG

    def code_of(self, ended):
        """The out-of-memory code, reported in one line; None if there is none. A started run may report before it which values it carries
        over; `show` explains the fault in more lines."""
        said = self.want.err if self.scene.store and ended.err.startswith(self.want.err) else ""
        found = re.fullmatch(r"fault ([A-Z]\d+)\n((?s:.*))", ended.err.removeprefix(said))
        if not found or STATUS.get(found.group(1)) != ended.status or ended.out:
            return None
        code, more = found.groups()
        if said and code not in OF_RUNS or more and not {"show", "--explain"} & {*self.scene.words}:
            return None
        return code

    def is_whole(self, ended, after):
        """Whether the files are those that the job leaves with memory; a retain file is compared by its values, a trace by its replay."""
        scene = self.scene
        free = {scene.store, scene.written} if scene.store else set()
        if any(after.get(name) != self.wanted.get(name) for name in (after.keys() | self.wanted.keys()) - free):
            return False
        if scene.store and scene.written:
            again = self.program.run(["replay", scene.words[1], "--plant", scene.option("--plant"), "--trace", scene.written])
            if again.out != without_acked(ended.out):
                return False
        return not scene.store or self.is_last(state_of(self.program.run(["show", scene.store]).out))

    def is_last(self, state):
        return state == self.reach.last if self.scene.is_fixed else state in self.reach.states and state.moment == self.reach.last.moment

    def are_spared(self, code, after):
        """Whether a refused job left all files unchanged, or a retain file as a stop would, and whether later jobs work as expected."""
        files, store = self.scene.files, self.scene.store
        if any(after.get(name) != files.get(name) for name in (after.keys() | files.keys()) - {store}):
            return False
        if store is None:
            return True
        now = after.get(store)
        is_kept = now == files.get(store) or (store not in files and now == b"")
        if now not in self.looked:
            self.looked[now] = self.goes_on(now, is_kept)
        return self.looked[now] and (is_kept or code in OF_RUNS)

    def goes_on(self, now, is_kept):
        """Whether the same job with memory answers as expected over the retain file that a refused run left. If that has a record of the run,
        it must be one that a stop may leave, and a warm start must have its values."""
        scene, state = self.scene, None
        if not is_kept:
            state = state_of(self.program.run(["show", scene.store]).out)
            warm = self.program.run(scene.without_rows())
            if state not in self.reach.states or warm.status or not state.values <= values_of(warm.out).items():
                return False
            (self.folder / scene.store).write_bytes(now)
        again = self.program.run(scene.words)
        if state is None:
            return self.is_right(again)
        if scene.option("--start") == "warm" and not state.is_before(self.reach.first_row()):
            return (again.status, again.out, again.err) == (5, "", "fault K4\n")
        return again.err == "" and self.is_report(again)


# The requests of a scene, refused in turn.


@dataclasses.dataclass
class Result:
    """The result of a part: the starts, how many ended out of memory, the answers in order, and what isn't as expected."""

    starts: int = 0
    refused: int = 0
    spans: list = dataclasses.field(default_factory=list)
    findings: list = dataclasses.field(default_factory=list)

    def add(self, other):
        self.starts += other.starts
        self.refused += other.refused
        self.findings += other.findings

    def answered(self, answer):
        self.refused += 1
        if self.spans and self.spans[-1][0] == answer:
            self.spans[-1][1] += 1
        else:
            self.spans.append([answer, 1])


def are_all(scene, depth):
    """Whether the script refuses each request of the scene."""
    return depth == ALL or depth is None and not scene.is_large


def numbers(scene, asked, how, depth):
    """The requests to refuse: each, or some of a large scene. Only requests that are refused alone include each of the first ones."""
    if are_all(scene, depth):
        return itertools.count(1)
    each, step = (1, FEW) if depth else (EACH, 1) if how == "nth" else (1, 1)
    return itertools.chain(range(1, each), itertools.count(each, max(step, (asked - each) // MORE)))


def swept(judge, how, depth):
    """Refuses one request after another, alone or with all later ones."""
    scene, program, result, idle = judge.scene, judge.program, Result(), 0
    for number in numbers(scene, judge.want.asked, how, depth):
        fill(program.folder, scene.files)
        ended = program.run(scene.words, **{how: number})
        answer = judge.answer(ended)
        if answer == WRONG:
            result.findings.append(f"{scene}: request {number} {how}: {ended}")
        if ended.asked is not None and not ended.refused:
            idle += 1
            if idle == (IDLE if scene.is_fixed else IDLE_OF_THREADS):
                break
        else:
            result.answered(answer)
        if len(result.findings) >= MOST_FINDINGS:
            break
    return result


def out_of_order(scene, spans, depth):
    """What is wrong with the order of the answers, or missing in them; None if nothing is."""
    of_words = itertools.takewhile(lambda span: span[0] in WORDS, spans)
    if sum(count for answer, count in of_words if answer == SAME) > SPARED:
        return "too many requests for the words are not needed"
    at = 0
    for answer in (it for it, _ in spans if it != WRONG):
        while at < len(scene.stages) and answer not in scene.stages[at].split():
            at += 1
        if at == len(scene.stages):
            return f"{answer} at the wrong stage"
    missing = {it for stage in scene.stages for it in stage.split()} - {answer for answer, _ in spans} - {SAME}
    return f"no {', '.join(missing)}" if missing and scene.is_fixed and are_all(scene, depth) else None


# Files that can't be opened or read because memory runs out.


def numbers_of(scene, name):
    """The expected answers; None for a file that the job writes, since it reports that file's own fault."""
    if name == GUARD:
        return {SAME}
    if name == scene.written or name == scene.store and scene.words[0] == "run":
        return None
    if name.endswith(".st"):
        return {"G9", SAME} if "--explain" in scene.words else {"G9"}
    if name.endswith(".csv"):
        return {"I6"}
    return {"V5"} if name == scene.option("--trace") else {"S5"}


def failed_files(judge):
    scene, program, result = judge.scene, judge.program, Result()
    for call in itertools.count(1):
        fill(program.folder, scene.files)
        ended, calls = program.calls(scene.words, call=call)
        names = [it.name for it in calls if it.what in ("open", "read")]
        if len(names) < call:
            return result
        wanted = numbers_of(scene, names[call - 1])
        if wanted is not None:
            result.refused += 1
            if judge.answer(ended) not in wanted:
                result.findings.append(f"{scene}: {names[call - 1]} fails out of memory, call {call}: {ended}")


# Smaller and smaller address spaces.


def least_room(program):
    """The room with which the program can be loaded."""
    for room in range(SMALL, MOST_ROOM, SMALL):
        ended = program.with_room(["explain", "C3"], room)
        if ended is not None and ended.status is not None and 0 <= ended.status < NOT_LOADED:
            return room + SMALL
    raise Failure(f"the program is not loaded with room for {MOST_ROOM} KiB")


def rooms(least, depth):
    """Rooms from the least one on: in small steps while one thread does the job, then in large ones, since the stack of a thread is large."""
    small, large = (SMALL // 4, LARGE // 8) if depth == ALL else (SMALL, LARGE)
    return [*range(least, least + LARGE, small), *range(least + LARGE, MOST_ROOM, large)]


def with_less_room(judge, tried_rooms):
    scene, program, result, enough = judge.scene, judge.program, Result(), 0
    for room in tried_rooms:
        fill(program.folder, scene.files)
        ended = program.with_room(scene.words, room)
        answer = WRONG if ended is None else judge.answer(ended)
        if answer == WRONG:
            result.findings.append(f"{scene}: with room for {room} KiB: {ended}")
        result.refused += answer != SAME
        enough = enough + 1 if answer == SAME else 0
        if enough == ENOUGH or len(result.findings) >= MOST_FINDINGS:
            return result
    result.findings.append(f"{scene}: room for {MOST_ROOM} KiB is not enough")
    return result


# Requests between the device steps of runs.


@dataclasses.dataclass(frozen=True)
class Counts:
    """The requests of a run, as counted at its calls on the retain file: how many different counts there are from the first step of the start
    to its last, how many requests another thread has made by its last save, how many the first thread makes between the start and the report,
    and how many all others make."""

    at_start: int
    by_savers: int
    by_first: int
    by_others: int


def counted(program, words):
    ended, calls = program.calls(words.split())
    if ended.status:
        raise Failure(f"{words}: {ended}")
    first, report = calls[0].thread, next(it for it in calls if it.name == "output")
    steps = [it for it in calls if it.name == "s" and it.what in DEVICE]
    # a start begins with a sync; before that a warm run only reads
    start = itertools.dropwhile(lambda it: it.what == "pread", (it for it in steps if it.thread == first))
    by_savers = max((it.mine for it in steps if it.thread != first), default=0)
    seen = [it.mine for it in start]
    return Counts(len({*seen}), by_savers, report.mine - seen[-1], ended.asked - report.mine)


def growths(program):
    """Checks the requests of starts, and those of runs with more and more rows."""
    result = Result()
    files = SOURCES | {f"rows{count}.csv": rows("t", *range(0, 10 * count, 10)) for count in MANY}
    for source in GROWING:
        fill(program.folder, files)
        cold = [counted(program, f"run {source} --plant rows{count}.csv --store s --start cold") for count in MANY]
        warm = [counted(program, f"run {text} --plant rows0.csv --store s --start warm") for text in (source, "next.st")]
        none, some, most = (it.by_others for it in cold)
        found = {
            "a start requests memory after its first step": any(it.at_start != 1 for it in [*cold, *warm]),
            "a save requests memory": any(it.by_savers for it in cold),
            "the first thread requests more memory if there are more rows": len({it.by_first for it in cold}) > 1,
            "rows request memory although nothing runs": source == "idle.st" and most != none,
            "executions request more and more memory": (most - none) * MANY[1] != (some - none) * MANY[2],
        }
        result.findings += [f"{source}: {finding}: {cold}, {warm}" for finding, is_so in found.items() if is_so]
    return result


# All of it.


def tried(scene, least, depth, program):
    """Tries everything on a scene."""
    judge, total = Judge(program, scene), Result()
    for how in "nth", "from":
        result = swept(judge, how, depth)
        order = out_of_order(scene, result.spans, depth)
        if order:
            result.findings.append(f"{scene}: {order}, {how}: {result.spans}")
        total.add(result)
    total.add(failed_files(judge))
    # a barely optimised program takes more stack than it has at first, and the system kills it if there is no room for more
    if depth != SOME:
        total.add(with_less_room(judge, rooms(least, depth)))
    return total


def in_folder(plant, allocator, work):
    """Does a part of the work in its own folder."""
    with tempfile.TemporaryDirectory() as folder:
        program = Program(plant, allocator, pathlib.Path(folder))
        try:
            result = work(program)
        except Failure as failure:
            result = Result(findings=[str(failure)])
        result.starts = program.starts
    return result


def all_of_it(plant, allocator, folder, depth):
    """Tries all scenes, the large ones first, and then `growths`."""
    program = Program(plant, allocator, folder)
    scenes, least = sorted(scenes_of(program), key=lambda it: not it.is_large), least_room(program)
    parts = [functools.partial(tried, scene, least, depth) for scene in scenes]
    total = Result(program.starts)
    with concurrent.futures.ProcessPoolExecutor(WORKERS) as pool:
        for result in pool.map(functools.partial(in_folder, plant, allocator), [*parts, growths]):
            total.add(result)
    return len(scenes), total


def main():
    plant, depth = str(pathlib.Path(sys.argv[1]).resolve()), sys.argv[2] if len(sys.argv) > 2 else None
    if depth not in (None, ALL, SOME):
        sys.exit(f"refusals.py: {depth} is neither {ALL} nor {SOME}")
    with tempfile.TemporaryDirectory() as folder:
        folder = pathlib.Path(folder)
        allocator = str(folder / "refuse.so")
        subprocess.run(["gcc", "-O2", "-fPIC", "-shared", "-o", allocator, str(HERE / "refuse.c")], check=True)
        (folder / "files").mkdir()
        try:
            scenes, total = all_of_it(plant, allocator, folder / "files", depth)
        except Failure as failure:
            sys.exit(f"refusals.py: {failure}")
    for finding in total.findings:
        print(f"refusals.py: {finding}", file=sys.stderr)
    if total.findings:
        sys.exit(1)
    print(f"refusals.py: {total.refused} refusals in {scenes} scenes reported by their codes, with nothing lost, in {total.starts} starts")


if __name__ == "__main__":
    main()
