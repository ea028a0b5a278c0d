#!/usr/bin/env python3
"""Rows that come as lines: `plant live` of the built program, in scenes. Each scene works in a folder of its own.

usage: tests/live.py PLANT [ROWS]     PLANT is the built program. ROWS is the number of rows of the longest life, 100,000 by default
"""
import os
import pathlib
import random
import re
import resource
import select
import shutil
import signal
import subprocess
import sys
import tempfile
import threading
import time

EXAMPLES = pathlib.Path(__file__).resolve().parent.parent / "examples"
# the longest line, and the seconds that anything may take
LONGEST, PATIENCE = 65_536, 60
KILLS, MOST_SECONDS = 300, 50
# the bytes that the peak memory of a life may grow after its first rows
GROWTH = 1 << 20

# A kept counter of the rows, and outputs: the counter in two words, the inputs, and a sum that may overflow.
TEXT = """PROGRAM Echo
  VAR_EXTERNAL n : DINT; low, high, number : UINT; flag : BOOL; sum : INT; mirror : WORD; END_VAR
  VAR_EXTERNAL CONSTANT b : BOOL; i : INT; u : UINT; w : WORD; END_VAR
  n := n + 1;
  low := DINT_TO_UINT(n MOD 65536);
  high := DINT_TO_UINT(n / 65536);
  flag := b;
  sum := sum + i;
  number := u;
  mirror := w;
END_PROGRAM
CONFIGURATION Live
  VAR_GLOBAL RETAIN n : DINT; END_VAR
  VAR_GLOBAL
    b AT %IX0 : BOOL; low AT %QW0 : UINT; i AT %IW0 : INT; high AT %QW9 : UINT; u AT %IW1 : UINT; flag AT %QX7 : BOOL;
    w AT %IW2 : WORD; sum AT %QW1 : INT; number AT %QW3 : UINT; mirror AT %QW2 : WORD;
  END_VAR
  RESOURCE R ON CPU
    TASK T (INTERVAL := T#1ms, PRIORITY := 0);
    PROGRAM P WITH T : Echo;
  END_RESOURCE
END_CONFIGURATION
"""
HEADER, ANSWERED = b"t,b,i,u,w\n", b"t,LOW,HIGH,FLAG,SUM,NUMBER,MIRROR\n"

# A kept counter without inputs.
COUNT = """PROGRAM Count
  VAR_EXTERNAL n : DINT; low, high : UINT; END_VAR
  n := n + 1;
  low := DINT_TO_UINT(n MOD 65536);
  high := DINT_TO_UINT(n / 65536);
END_PROGRAM
CONFIGURATION Counter
  VAR_GLOBAL RETAIN n : DINT; END_VAR
  VAR_GLOBAL low AT %QW0 : UINT; high AT %QW1 : UINT; END_VAR
  RESOURCE R ON CPU
    TASK T (INTERVAL := T#1ms, PRIORITY := 0);
    PROGRAM P WITH T : Count;
  END_RESOURCE
END_CONFIGURATION
"""

# Two resources, whose order decides the kept value.
ORDER = """PROGRAM Add VAR_EXTERNAL n : DINT; END_VAR n := n + 1; END_PROGRAM
PROGRAM Double VAR_EXTERNAL n : DINT; out : UINT; END_VAR n := n * 2 MOD 65521; out := DINT_TO_UINT(n); END_PROGRAM
CONFIGURATION Ordered
  VAR_GLOBAL RETAIN n : DINT; END_VAR
  VAR_GLOBAL out AT %QW0 : UINT; END_VAR
  RESOURCE R ON CPU TASK T (INTERVAL := T#1ms, PRIORITY := 0); PROGRAM P WITH T : Add; END_RESOURCE
  RESOURCE S ON CPU TASK T (INTERVAL := T#3ms, PRIORITY := 0); PROGRAM P WITH T : Double; END_RESOURCE
END_CONFIGURATION
"""


class Failure(Exception):
    """A scene went wrong."""


def check(is_right, text):
    if not is_right:
        raise Failure(text)


def shown(data):
    """Bytes for a message."""
    return repr(data) if len(data) < 400 else f"{data[:300]!r} .. {data[-60:]!r} ({len(data)} bytes)"


class Life:
    """A life of `plant live`, fed line by line."""

    def __init__(self, words, **how):
        self.running = subprocess.Popen(words, bufsize=0, stdin=subprocess.PIPE, stdout=subprocess.PIPE, stderr=subprocess.PIPE, **how)
        self.kept = b""
        self.errors = b""
        self.listener = threading.Thread(target=self.listen, daemon=True)
        self.listener.start()

    def __enter__(self):
        return self

    def __exit__(self, *_):
        if self.running.poll() is None:
            self.running.kill()
        self.running.wait()

    def listen(self):
        self.errors = self.running.stderr.read()

    def send(self, data):
        """Writes all of it; it must be taken in time."""
        rest = memoryview(data)
        while rest:
            check(select.select([], [self.running.stdin], [], PATIENCE)[1], "the program doesn't read")
            rest = rest[os.write(self.running.stdin.fileno(), rest[:4096]) :]

    def line(self, seconds=PATIENCE):
        """The next line, with its LF; empty at the end, none if it doesn't come in time."""
        deadline = time.monotonic() + seconds
        while b"\n" not in self.kept:
            if not select.select([self.running.stdout], [], [], max(0, deadline - time.monotonic()))[0]:
                return None
            more = os.read(self.running.stdout.fileno(), 65_536)
            if not more:
                check(not self.kept, f"the output ends within a line: {shown(self.kept)}")
                return b""
            self.kept += more
        line, _, self.kept = self.kept.partition(b"\n")
        return line + b"\n"

    def row(self):
        """The next line, which has to come."""
        line = self.line()
        check(line, f"no line came: {line}")
        return line

    def expect(self, *lines):
        for wanted in lines:
            line = self.line()
            check(line == wanted, f"{shown(wanted)} was to come, not {line if line is None else shown(line)}")

    def peak(self):
        """The peak of its memory so far, in bytes."""
        status = pathlib.Path(f"/proc/{self.running.pid}/status").read_text()
        return 1024 * int(re.search(r"VmHWM:\s+(\d+) kB", status)[1])

    def end(self):
        """Ends its input, and gives the status."""
        self.running.stdin.close()
        status = self.running.wait(PATIENCE)
        self.listener.join(PATIENCE)
        return status


class Scene:
    """A folder, in which the program runs."""

    def __init__(self, plant, folder, text=TEXT):
        self.plant, self.folder = plant, folder
        (folder / "text.st").write_text(text)

    def path(self, name):
        return self.folder / name

    def words(self, store, start, text="text.st"):
        return [self.plant, "live", str(self.path(text)), "--store", str(self.path(store)), "--start", start]

    def life(self, store, start, **how):
        return Life(self.words(store, start), **how)

    def live(self, data, store="store", start="cold", more=(), **how):
        """A whole life over this input: its status, its output and its errors."""
        words = [*self.words(store, start), *more]
        ended = subprocess.run(words, input=data, capture_output=True, timeout=PATIENCE, check=False, **how)
        return ended.returncode, ended.stdout, ended.stderr.decode()

    def well(self, data, **how):
        """The output and the report of a life that has to end well."""
        status, out, errors = self.live(data, **how)
        check(status == 0, f"status {status} for {shown(data)}: {errors}")
        return out, errors

    def show(self, store="store"):
        """What `plant show` says of a retain file: names and values, with the generation and the moment."""
        ended = subprocess.run([self.plant, "show", str(self.path(store))], capture_output=True, text=True, timeout=PATIENCE, check=False)
        check(ended.returncode == 0, f"plant show: {ended.stderr}")
        values = dict(re.findall(r"^(\S+) .*= (.*)$", ended.stdout, re.M))
        values.update(re.findall(r"^(generation|moment) (\w+?)(?:ms)?$", ended.stdout, re.M))
        return values

    def kept(self, store="store"):
        """The kept counter."""
        return int(self.show(store).get("N", 0))

    def content(self, store="store"):
        return self.path(store).read_bytes()


def value_of(errors, name):
    """A count or a variable of a report."""
    found = re.search(rf"^{re.escape(name)}(?: =)? (.*)$", errors, re.M)
    check(found, f"no {name} in {errors}")
    return found[1]


def refused_lines(errors):
    return re.findall(r"^line (\d+): refused (\w+)$", errors, re.M)


def report_of(errors):
    """The part of a live report that `plant run` prints too."""
    lines = [it for it in errors.splitlines() if not re.match(r"line \d+: |lines |refused |missed |p50 |p99 |max ", it)]
    return "".join(f"{it}\n" for it in lines)


def output_names(text):
    """The globals AT %Q of a text, in declaration order."""
    text = re.sub(r"\(\*.*?\*\)", " ", text, flags=re.S)
    return [it.upper() for it in re.findall(r"(\w+)\s+AT\s+%Q[XW]\d+\s*:", text, re.I)]


def number_of(value):
    """A value of a report as an answer has it."""
    if value in ("FALSE", "TRUE"):
        return str(int(value == "TRUE"))
    return str(int(value[3:], 16)) if value.startswith("16#") else value


def examples(scene):
    """Each example's rows by `live` give the report of `run`, the same retain file, and its outputs in the last line."""
    count = 0
    for example in sorted(EXAMPLES.glob("*/cold.command")):
        recorded, fed = scene.path(f"{example.parent.name}.run"), scene.path(f"{example.parent.name}.live")
        for folder in (recorded, fed):
            shutil.copytree(example.parent, folder)
        for command in ("cold.command", "warm.command"):
            if not (recorded / command).exists():
                continue
            words = (recorded / command).read_text().split()
            source, rows, store, start = words[1], *(words[words.index(it) + 1] for it in ("--plant", "--store", "--start"))
            ran = subprocess.run([scene.plant, *words], cwd=recorded, capture_output=True, text=True, timeout=PATIENCE, check=True)
            lives = [scene.plant, "live", source, "--store", store, "--start", start]
            lived = subprocess.run(lives, cwd=fed, input=(fed / rows).read_bytes(), capture_output=True, timeout=PATIENCE, check=False)
            name, report = f"{example.parent.name}/{command}", report_of(lived.stderr.decode())
            check(lived.returncode == 0 and report == ran.stdout, f"{name}: {lived.returncode}, {report} for {ran.stdout}")
            check((recorded / store).read_bytes() == (fed / store).read_bytes(), f"{name}: another retain file")
            outputs, lines = output_names((fed / source).read_text()), lived.stdout.decode().splitlines()
            moments = [it.partition(",")[0] for it in (fed / rows).read_text().split()[1:]]
            check([it.partition(",")[0] for it in lines] == ["t", *moments], f"{name}: other moments: {lines}")
            check(lines[0] == ",".join(["t", *outputs]), f"{name}: the header {lines[0]}")
            wanted = [moments[-1], *(number_of(value_of(report, it)) for it in outputs)]
            check(lines[-1] == ",".join(wanted), f"{name}: {lines[-1]}, not {','.join(wanted)}")
            count += 1
    check(count >= 18, f"only {count} runs")


# Lines that spell no row, and the moment that the answer has.
NO_ROWS = [
    *((b"abc", b""), (b"x,1,2,3,4", b""), (b"t,b,i,u,w", b""), (b"+25,1,2,3,4", b""), (b"025,1,2,3,4", b""), (b"-25,1,2,3,4", b"")),
    *((b"25,1,x,3,4", b"25"), (b"25,1,+2,3,4", b"25"), (b"25,1,02,3,4", b"25"), (b"25,1,-0,3,4", b"25"), (b"25,1,--2,3,4", b"25")),
    *((b"25", b"25"), (b"25,1,2,3", b"25"), (b"25,1,2,3,4,5", b"25"), (b"25,1,2,3,4,", b"25"), (b"25,,2,3,4", b"25"), (b",1,2,3,4", b"")),
    *((b"25,2,2,3,4", b"25"), (b"25,-1,2,3,4", b"25"), (b"25,TRUE,2,3,4", b"25"), (b"25,00,2,3,4", b"25")),
    *((b"25,1,32768,3,4", b"25"), (b"25,1,-32769,3,4", b"25"), (b"25,1,2,65536,4", b"25"), (b"25,1,2,-1,4", b"25")),
    *((b"25,1,2,3,65536", b"25"), (b"25,1,2,3,-1", b"25"), (b"25,1,2,3,16#4", b"25"), (b"25,1,2.0,3,4", b"25"), (b"25,1,2e0,3,4", b"25")),
    *((b"", b""), (b"\r", b""), (b",", b""), (b",,,,", b""), (b",,,,,", b""), (b"25,1,2,3,4\r\r", b"25"), (b"25\r,1,2,3,4", b"")),
    *((b'"25",1,2,3,4', b""), (b'25,"1",2,3,4', b"25"), (b'25,1,2,3,"4"', b"25"), (b"25,1,2,3,'4'", b"25"), (b"25;1;2;3;4", b"")),
    *((b"2\x005,1,2,3,4", b""), (b"25,1,2,3,4\x00", b"25"), (b"\x00", b""), (b"25,1,\x002,3,4", b"25"), (b"\x0025,1,2,3,4", b"")),
    *((b"\xef\xbb\xbf25,1,2,3,4", b""), (b"25,1,2,3,\xd9\xa4", b"25"), (b"\xff\xfe", b""), (b"25\xa0,1,2,3,4", b""), (b"\x80" * 99, b"")),
    *((b" 25,1,2,3,4", b""), (b"25 ,1,2,3,4", b""), (b"25, 1,2,3,4", b"25"), (b"25,1,2,3,4 ", b"25"), (b"25,1,2,3,4\t", b"25"), (b" ", b"")),
    *((b"4611686018427387904,1,2,3,4", b""), (b"18446744073709551641,1,2,3,4", b""), (b"9" * 400 + b",1,2,3,4", b"")),
    *((b"25,1,18446744073709551618,3,4", b"25"), (b"25,1,2,3," + b"4" * 999, b"25"), (b"25" + b",1" * 2000, b"25")),
]


def bad_lines(scene):
    """Lines that spell no row, and rows that aren't later, change nothing; each is answered and named. CR LF is LF."""
    good = [b"%d,%d,%d,%d,%d" % (20 + 10 * k, k % 2, k - 40, 7 * k, 65535 - k) for k in range(len(NO_ROWS) + 1)]
    out, errors = scene.well(HEADER + b"\n".join(good) + b"\n", store="good")
    check(refused_lines(errors) == [] and value_of(errors, "refused") == "0", errors)
    answers = out.splitlines()
    check(answers[0] + b"\n" == ANSWERED and len(answers) == len(good) + 1, shown(out))
    total = 0
    for k, line in enumerate(good):
        _, flag, more, number, mirror = line.split(b",")
        total += int(more)
        wanted = b"%d,%d,0,%s,%d,%s,%s" % (20 + 10 * k, k + 1, flag, total, number, mirror)
        check(answers[k + 1] == wanted, f"{answers[k + 1]} for {line}, not {wanted}")

    # One bad line after each good row, and a row of the same moment and of an earlier one.
    lines, wanted, named = [], [], []
    for k, (bad, moment) in enumerate(NO_ROWS):
        lines += [good[k], bad, good[k], b"19,1,2,3,4"]
        same = good[k].partition(b",")[0]
        wanted += [answers[k + 1], moment + b",refused I2", same + b",refused K4", b"19,refused K4"]
        named += [(str(4 * k + 3), "I2"), (str(4 * k + 4), "K4"), (str(4 * k + 5), "K4")]
    for store, end in (("lf", b"\n"), ("crlf", b"\r\n")):
        mixed, errors = scene.well((b"t,b,i,u,w\n" + b"\n".join([*lines, good[-1]]) + b"\n").replace(b"\n", end), store=store)
        got = mixed.splitlines()
        for line, one, other in zip([b"t,b,i,u,w", *lines, good[-1]], got, [answers[0], *wanted, answers[-1]]):
            check(one == other, f"{shown(line)} is answered with {one}, not {other}")
        check(len(got) == len(wanted) + 2, f"{len(got)} answers")
        check(refused_lines(errors) == named, f"other lines are named: {errors[:2000]}")
        counts = [value_of(errors, it) for it in ("lines", "refused", "rows", "done", "faults", "acked")]
        rows = len(good)
        check(counts == [str(it) for it in (len(wanted) + 1, len(named), rows, rows, 0, 2 * rows)], f"counts {counts}")
        check(value_of(errors, "N") == str(rows), errors)
        check(scene.content(store) == scene.content("good"), "bad lines changed the retain file")

    # The form is looked at before the moment, and the last moment of all is one.
    most = b"4611686018427387903"
    out, errors = scene.well(HEADER + most + b",0,0,0,0\n" + most + b",0,x,0,0\n" + most + b",0,0,0,0\n5,0,0,0,0\n")
    after = [most + b",1,0,0,0,0,0", most + b",refused I2", most + b",refused K4", b"5,refused K4"]
    check(out == ANSWERED + b"\n".join(after) + b"\n", shown(out))
    # A warm life begins after the last kept moment.
    out, errors = scene.well(HEADER + most + b",0,0,0,0\n", start="warm")
    check(out == ANSWERED + most + b",refused K4\n" and value_of(errors, "N") == "1", shown(out))


def meant(line):
    """The moment that a whole line begins with, and the numbers of its row, by the rules; none if there are none."""
    fields = line.removesuffix(b"\r").split(b",")
    numbers = [int(it) if re.fullmatch(rb"0|-?[1-9][0-9]*", it) else None for it in fields]
    moment = numbers[0] if numbers[0] is not None and 0 <= numbers[0] < 1 << 62 else None
    ranges = ((0, (1 << 62) - 1), (0, 1), (-32768, 32767), (0, 65535), (0, 65535))
    is_row = len(fields) == 5 and all(it is not None and low <= it <= high for it, (low, high) in zip(numbers, ranges))
    return moment, numbers if is_row else None


def random_lines(scene):
    """Lines that differ from rows in a byte or a field are answered by the rules."""
    seed = time.time_ns()
    chance = random.Random(seed)
    odd = [b"", b"0", b"-0", b"00", b"1", b"2", b"-1", b"+1", b" 1", b"1 ", b"32767", b"32768", b"-32768", b"-32769", b"65535", b"65536", b"1\r"]
    odd += [b"4611686018427387903", b"4611686018427387904", b"9" * 30, b"1.5", b"1e3", b"0x1", b'"1"', b"TRUE", b"\0", b"\xb2", b"\xd9\xa1"]
    lines, wanted, last, rows, done, total, outputs = [], [ANSWERED], -1, 0, 0, 0, b"0,0,0,0,0,0"
    for _ in range(6000):
        fields = [b"%d" % (last + chance.choice((1, 1, 1, 2, 50, 0, -1))), b"%d" % chance.randrange(2)]
        fields += [b"%d" % it for it in (chance.randrange(-9, 10), chance.randrange(65_536), chance.randrange(65_536))]
        line = bytearray()
        if chance.random() < 0.3:
            fields[chance.randrange(1, 5)] = chance.choice(odd)
        if chance.random() < 0.1:
            fields[0] = chance.choice([it for it in odd if len(it) != 19])
        line += b",".join(fields)
        for _ in range(chance.choice((0, 0, 0, 1, 2))):
            at = chance.randrange(len(line) + 1)
            line[at : at + chance.randrange(2)] = bytes([chance.choice((*b"0123456789,,--+ \r\0\"", chance.randrange(256)))]) * chance.randrange(2)
        line = bytes(line).replace(b"\n", b"") + b"\r" * (chance.random() < 0.05)
        moment, row = meant(line)
        # A moment far away would end the scene.
        if row and row[0] > last + 1_000_000:
            continue
        lines.append(line)
        if row is None:
            wanted.append(b"%s,refused I2\n" % (b"" if moment is None else b"%d" % moment))
        elif row[0] <= last:
            wanted.append(b"%d,refused K4\n" % row[0])
        else:
            last, rows = row[0], rows + 1
            # A sum out of range is a fault, which leaves every output as it was.
            if -32768 <= total + row[2] <= 32767:
                done, total = done + 1, total + row[2]
                outputs = b"%d,0,%d,%d,%d,%d" % (done, row[1], total, row[3], row[4])
            wanted.append(b"%d,%s\n" % (last, outputs))
    out, errors = scene.well(HEADER + b"".join(it + b"\n" for it in lines))
    for line, one, other in zip([HEADER, *lines], out.splitlines(keepends=True), wanted):
        check(one == other, f"seed {seed}: {shown(line)} is answered with {one}, not {other}")
    check(out == b"".join(wanted) and value_of(errors, "rows") == str(rows), f"seed {seed}: other answers")
    check(rows > 500 and len(lines) - rows > 500, f"seed {seed}: {rows} rows of {len(lines)} lines")


def widest(scene):
    """A row of all the inputs that there may be, and an answer of all the outputs."""
    bits, words = range(1024), range(256)
    inputs = "".join(f"b{k} AT %IX{k} : BOOL; " for k in bits) + "".join(f"w{k} AT %IW{k} : UINT; " for k in words)
    outputs = "".join(f"c{k} AT %QX{k} : BOOL; " for k in bits) + "".join(f"v{k} AT %QW{k} : UINT; " for k in words)
    copies = "".join(f"c{k} := b{k}; " for k in bits) + "".join(f"v{k} := w{k}; " for k in words)
    external = lambda block: re.sub(r" AT %\w+", "", block)
    scene.path("text.st").write_text(f"""PROGRAM Copy
  VAR_EXTERNAL {external(outputs)} END_VAR
  VAR_EXTERNAL CONSTANT {external(inputs)} END_VAR
  {copies}
END_PROGRAM
CONFIGURATION Wide
  VAR_GLOBAL {outputs} {inputs} END_VAR
  RESOURCE R ON CPU TASK T (INTERVAL := T#1ms, PRIORITY := 0); PROGRAM P WITH T : Copy; END_RESOURCE
END_CONFIGURATION
""")
    header = ",".join(["t", *(f"b{k}" for k in bits), *(f"w{k}" for k in words)])
    rows = [",".join(map(str, [t, *((k * t) % 3 % 2 for k in bits), *((k * 257 + t) % 65_536 for k in words)])) for t in range(1, 50)]
    out, _ = scene.well("".join(f"{it}\n" for it in [header, *rows]).encode())
    names = header.upper().replace("B", "C").replace("W", "V").replace("T", "t", 1)
    check(out.decode().splitlines() == [names, *rows], "other outputs than inputs")


def faults(scene):
    """An execution with a fault writes nothing: the answer has the values before, and the report counts it."""
    out, errors = scene.well(HEADER + b"1,1,30000,5,6\n2,0,30000,7,8\n3,0,-30000,9,10\n")
    check(out == ANSWERED + b"1,1,0,1,30000,5,6\n2,1,0,1,30000,5,6\n3,2,0,0,0,9,10\n", shown(out))
    counts = [value_of(errors, it) for it in ("lines", "refused", "rows", "done", "faults", "acked", "N")]
    check(counts == ["3", "0", "3", "3", "1", "6", "2"], errors)
    out, errors = scene.well(HEADER + b"1,1,2,3,4\n", more=("--budget", "3"))
    check(out == ANSWERED + b"1,0,0,0,0,0,0\n" and value_of(errors, "faults") == "1", f"a budget: {shown(out)}, {errors}")


def newest(scene):
    """With --newest only the last of the lines that were read together is latched, and each line has its answer."""
    out, errors = scene.well(HEADER + b"1,1,2,3,4\n2,0,2,3,4\nx\n3,1,5,6,7\n", more=("--newest",))
    check(out == ANSWERED + b"1,missed\n2,missed\n,refused I2\n3,1,0,1,5,6,7\n", shown(out))
    counts = [value_of(errors, it) for it in ("lines", "refused", "missed", "rows", "acked", "N")]
    check(counts == ["4", "1", "2", "1", "2", "1"], errors)


def moments_of(out):
    """The moments of the answers after the header."""
    return [int(it.partition(b",")[0]) for it in out.splitlines()[1:]]


def stamps(scene):
    """With --stamp lines have no moments, and the clock gives each a later one than the last."""
    begun = time.time_ns() // 1_000_000
    out, errors = scene.well(b"b,i,u,w\r\n" + b"1,2,3,4\n" * 200 + b"0,0,9,8\r\n", more=("--stamp",))
    moments, lines = moments_of(out), out.splitlines()
    check(lines[0] + b"\n" == ANSWERED and moments == sorted({*moments}) and len(moments) == 201, shown(out))
    check(begun - 5_000 < moments[0] and moments[-1] < time.time_ns() // 1_000_000 + 5_000, f"moments {moments[0]} to {moments[-1]}")
    check(lines[200] == b"%d,200,0,1,400,3,4" % moments[199] and lines[201] == b"%d,201,0,0,400,9,8" % moments[200], shown(out))
    check([value_of(errors, it) for it in ("lines", "refused", "rows", "N")] == ["201", "0", "201", "201"], errors)

    # What is no row has the moment at which it came, if it is a whole line.
    bad = [b"10,1,2,3,4", b"x,2,3,4", b"", b"1,2,3", b"1,2,3,4,5", b",1,2,3,4", b"1,2,3,65536", b"\r", b"1,2,3,4\r\r"]
    out, errors = scene.well(b"b,i,u,w\n" + b"".join(it + b"\n" for it in bad) + b"1,2,3,4\n1,2,3,4", more=("--stamp",))
    wanted = [rb"\d{13},refused I2"] * len(bad) + [rb"\d{13},1,0,1,2,3,4", rb",refused I2"]
    for line, answer, form in zip([*bad, b"1,2,3,4", b"1,2,3,4 without LF"], out.splitlines()[1:], wanted, strict=True):
        check(re.fullmatch(form, answer), f"{line} is answered with {answer}")
    check([it for it, _ in refused_lines(errors)] == [str(2 + k) for k in range(len(bad))] + [str(3 + len(bad))], errors)
    for header in (HEADER, b"t\n", b"\n", b"i,b,u,w\n", b",b,i,u,w\n"):
        got = scene.live(header, more=("--stamp",))
        check(got == (3, b"", "fault I1\n"), f"the header {header} with --stamp: {got}")

    # Moments go on from a kept one that is ahead of the clock, and without a moment K4 can't come.
    ahead = 4_000_000_000_000_000
    scene.well(HEADER + b"%d,0,0,0,0\n" % ahead)
    out, _ = scene.well(b"b,i,u,w\n" + b"0,0,0,0\n" * 3, start="warm", more=("--stamp",))
    check(moments_of(out) == [ahead + 1, ahead + 2, ahead + 3], shown(out))
    last = (1 << 62) - 1
    scene.well(HEADER + b"%d,0,0,0,0\n" % (last - 1))
    out, _ = scene.well(b"b,i,u,w\n" + b"0,0,0,0\n" * 3, start="warm", more=("--stamp",))
    wanted = [b"%d,2,0,0,0,0,0" % last, b",refused I2", b",refused I2"]
    check(out.splitlines()[1:] == wanted, f"after the last moment of all: {shown(out)}")

    # Moments go with the clock, and `missed` lines have theirs.
    with Life([*scene.words("store", "cold"), "--stamp"]) as life:
        life.send(b"b,i,u,w\n0,0,0,0\n")
        life.expect(ANSWERED)
        first = int(life.row().partition(b",")[0])
        time.sleep(0.3)
        life.send(b"0,0,0,0\n")
        second = int(life.row().partition(b",")[0])
        check(290 <= second - first < 30_000 and life.end() == 0, f"{first} and then {second}")
    out, _ = scene.well(b"b,i,u,w\n" + b"1,1,1,1\n" * 3 + b"1,2,3,4\n", more=("--stamp", "--newest"))
    forms = [rb"\d{13},missed"] * 3 + [rb"\d{13},1,0,1,2,3,4"]
    for form, line in zip(forms, out.splitlines()[1:], strict=True):
        check(re.fullmatch(form, line), shown(out))
    longest = b"5" * (LONGEST - 8)
    out, _ = scene.well(b"b,i,u,w\n1,2,3,4%s\n1,2,3,%s\n1,2,3,4\n" % (longest, longest + b"55"), more=("--stamp",))
    check(re.search(rb"\n\d{13},refused I2\n\d{13},refused I2\n\d{13},1,0,1,2,3,4\n$", out), shown(out))

    # A text without inputs has an empty header and empty rows.
    scene.path("text.st").write_text(COUNT)
    out, errors = scene.well(b"\n" * 4, more=("--stamp",))
    check([it.partition(b",")[2] for it in out.splitlines()] == [b"LOW,HIGH", b"1,0", b"2,0", b"3,0"], shown(out))


def ticks(scene):
    """With --every a row comes by the clock with the newest inputs, from the first line to the end of the input."""
    with Life([*scene.words("store", "cold"), "--every", "20ms"]) as life:
        life.send(b"b,i,u,w\n")
        life.expect(ANSWERED)
        check(life.line(0.2) is None, "a row before the first line")
        begun = time.monotonic()
        life.send(b"1,1,7,4\n")
        answers = [life.row() for _ in range(30)]
        took = 1000 * (time.monotonic() - begun)
        moments = [int(it.partition(b",")[0]) for it in answers]
        check(answers == [b"%d,%d,0,1,%d,7,4\n" % (t, k + 1, k + 1) for k, t in enumerate(moments)], f"{answers}")
        check(moments == sorted({*moments}), f"moments {moments}")
        # No row is early; on a slow machine ticks are left out.
        check(28 * 20 < moments[-1] - moments[0] + 20 and abs(moments[-1] - moments[0] - took) < 500 + took / 2, f"{moments} in {took} ms")
        life.send(b"1,x,7,4\n")
        count = 30
        for _ in range(5):
            count += 1
            answer = life.row()
            check(answer.endswith(b",%d,0,1,%d,7,4\n" % (count, count)), f"row {count} after a bad line: {answer}")
        life.send(b"".join(b"0,0,%d,5\n" % k for k in range(40)))
        while b",39,5\n" not in answer:
            answer = life.row()
            count += 1
            check(answer.split(b",")[1] == b"%d" % count and count < 500, f"row {count}: {answer}")
        life.send(b"1,0,8,5")
        check(life.end() == 0, life.errors.decode())
        while answer := life.line():
            count += 1
            check(answer.split(b",")[1] == b"%d" % count and answer.endswith(b",39,5\n"), f"row {count}: {answer}")
    errors = life.errors.decode()
    lines, refused, missed, rows = (int(value_of(errors, it)) for it in ("lines", "refused", "missed", "rows"))
    check((lines, refused, rows) == (43, 2, count) and 1 <= missed <= 39, errors)
    check(refused_lines(errors) == [("3", "I2"), ("44", "I2")] and scene.kept() == count, errors)

    # Of lines that are there at once the last counts in the end; no line makes no row.
    out, errors = scene.well(b"b,i,u,w\n" + b"1,1,1,1\n" * 9 + b"1,2,3,4\n", more=("--every", "50ms"))
    counts = int(value_of(errors, "missed")), int(value_of(errors, "rows"))
    check(out.splitlines()[-1].endswith(b",3,4") and sum(counts) >= 10, f"{out} {errors}")
    out, errors = scene.well(b"b,i,u,w\n", more=("--every", "3ms"))
    check(out == ANSWERED and value_of(errors, "rows") == "0", f"{out} {errors}")
    # The end of the input doesn't wait for a tick, and the last line still counts.
    begun = time.monotonic()
    out, errors = scene.well(b"b,i,u,w\n1,30000,0,0\n", more=("--every", "3600s", "--stamp", "--newest"))
    check(out.endswith(b",1,0,1,30000,0,0\n") and out.count(b"\n") == 2, shown(out))
    check(time.monotonic() - begun < 20, "the end of the input came late")
    got = scene.live(HEADER, more=("--every", "5ms"))
    check(got == (3, b"", "fault I1\n"), f"a header with t: {got}")
    for text in ("", "0ms", "10", "ms", "s", "-1ms", "+1ms", "1.5s", "1h", "3601s", "3600001ms", "99999999999ms", "10 ms", "1s500ms"):
        status, out, errors = scene.live(HEADER, more=(f"--every={text}",))
        check((status, out) == (1, b"") and errors.startswith("error: "), f"--every {text}: {status}, {errors}")

    # A fault names its row.
    with Life([*scene.words("faults", "cold"), "--every", "2ms"]) as life:
        life.send(b"b,i,u,w\n1,20000,0,0\n")
        life.expect(ANSWERED)
        answers = [life.row() for _ in range(5)]
        check([it.partition(b",")[2] for it in answers] == [b"1,0,1,20000,0,0\n"] * 5, f"{answers}")
        check(life.end() == 0 and life.errors.startswith(b"row 2: 1 faults\nrow 3: 1 faults\n"), life.errors[:200].decode())

    # Killed between its ticks, it has kept all that it answered.
    known = scene.kept()
    for turn in range(10):
        with Life([*scene.words("store", "warm"), "--every", "2ms"]) as life:
            life.send(b"b,i,u,w\n0,0,0,0\n")
            life.expect(ANSWERED)
            for _ in range(3 + turn):
                last = words_of(life.row())
            life.running.kill()
            life.running.wait(PATIENCE)
            while line := tail(life):
                last = words_of(line)
        known, before = scene.kept(), known
        check(last <= known <= last + 1 and last > before, f"{known} is kept, the last answer had {last}")
    # The thread that waits for a line doesn't hold a life that ends.
    with Life([*scene.words("store", "warm"), "--every", "2ms"]) as life:
        life.send(b"b,i,u,w\n0,0,0,0\n")
        life.expect(ANSWERED)
        life.running.stdout.close()
        check(life.running.wait(PATIENCE) == 5, f"status {life.running.returncode} for a closed output")
    scene.well(HEADER + b"1,0,0,0,0\n", store="small")
    with Life([*scene.words("small", "warm"), "--every", "2ms"], **limited(131_072)) as life:
        life.send(b"b,i,u,w\n0,0,0,0\n")
        check(life.running.wait(PATIENCE) == 5, f"status {life.running.returncode} for a full store")
        life.listener.join(PATIENCE)
        check(life.errors == b"fault K5\n", life.errors.decode())

    # A text without inputs needs no line.
    scene.path("text.st").write_text(COUNT)
    with Life([*scene.words("count", "cold"), "--every", "2ms"]) as life:
        life.send(b"\n")
        life.expect(b"t,LOW,HIGH\n")
        check([words_of(life.row()) for _ in range(9)] == [*range(1, 10)], "rows without inputs")
        check(life.end() == 0, life.errors.decode())


def torn(scene):
    """A last line without its LF is refused, wherever it was cut, and so is a whole one."""
    last = b"20,1,2,3,42"
    for cut in range(len(last) + 1):
        out, errors = scene.well(HEADER + b"10,1,2,3,4\n" + last[:cut])
        wanted = b",refused I2\n" if cut else b""
        check(out == ANSWERED + b"10,1,0,1,2,3,4\n" + wanted, f"{last[:cut]} as a last line: {shown(out)}")
        check(refused_lines(errors) == [("3", "I2")] * (cut > 0), errors)
        shows = scene.show()
        check((shows["N"], shows["moment"]) == ("1", "10"), f"{last[:cut]} was latched: {shows}")
    out, _ = scene.well(HEADER + b"10,1,2,3,4\n" + last + b"\r")
    check(out.endswith(b"\n,refused I2\n") and scene.kept() == 1, f"a CR doesn't end a line: {shown(out)}")


def long_lines(scene):
    """A line of up to 65,536 bytes has its moment; a longer one is skipped, in the same memory."""
    with scene.life("store", "cold") as life:
        life.send(HEADER)
        life.expect(ANSWERED)
        count, before = 0, None
        for size in (LONGEST - 1, LONGEST, LONGEST + 1, LONGEST + 2, 2 * LONGEST, 2 * LONGEST + 1, 3 * LONGEST, 10_000_000, LONGEST, 10_000_001):
            for begins, ends in ((b"25,", b""), (b"25,1,2,3,", b""), (b"25,", b"\r"), (b"", b"\r")):
                life.send(begins + b"5" * (size - len(begins) - len(ends)) + ends + b"\n")
                life.expect((b"25" if size <= LONGEST and begins else b"") + b",refused I2\n")
                count += 1
                life.send(b"%d,1,0,3,4\n" % (30 + count))
                life.expect(b"%d,%d,0,1,0,3,4\n" % (30 + count, count))
                before = before or life.peak()
        # A long line that never ends.
        life.send(b"9" * 3_000_000)
        grown = life.peak() - before
        check(life.end() == 0, f"status {life.running.returncode}: {life.errors.decode()}")
        life.expect(b",refused I2\n", b"")
        check(value_of(life.errors.decode(), "N") == str(count), life.errors.decode()[-300:])
        check(grown < 300_000, f"long lines took {grown} bytes")


def headers(scene):
    """A missing or wrong header is I1 with status 3, before the retain file is opened."""
    scene.well(HEADER + b"10,1,2,3,4\n20,1,2,3,4\n")
    path, before = scene.path("store"), (scene.content(), scene.path("store").stat().st_mtime_ns)
    wrong = [b"", b"\n", b"t\n", b"t,b,i,u\n", b"t,b,i,u,w,x\n", b"t,i,b,u,w\n", b"t,b,i,u,w ", b"t,b,i,u,w \n", b" t,b,i,u,w\n"]
    wrong += [b"t, b,i,u,w\n", b"t,b,i,u,w,\n", b"b,i,u,w\n", b"10,1,2,3,4\n", b"\xef\xbb\xbft,b,i,u,w\n", b'"t","b","i","u","w"\n']
    wrong += [b"t,b,i,u,w", b"t,b,i,u,w\r", b"t,b,i,u,w\r\r\n", b"t;b;i;u;w\n", b"\nt,b,i,u,w\n", b"t,LOW\n", b"t,b,i,u,w\0\n", b"\0" * 9]
    wrong += [b"t,b,i,u,w" + b" " * LONGEST + b"\n", b"t,b,i,u,w" * 1_000_000, b"x" * LONGEST]
    for start in ("warm", "cold"):
        for header in wrong:
            data = header + b"30,1,2,3,4\n" * header.endswith(b"\n")
            status, out, errors = scene.live(data, start=start)
            check((status, out, errors) == (3, b"", "fault I1\n"), f"{shown(header)}: {status}, {out}, {errors}")
            check((scene.content(), path.stat().st_mtime_ns) == before, f"{shown(header)} changed the retain file")
        status, _, errors = scene.live(b"t\n", store="none", start=start)
        check(status == 3 and not scene.path("none").exists(), f"a retain file of a life that didn't begin: {errors}")
    for right in (b"t,b,i,u,w\n", b"T,B,I,U,W\n", b"t,B,i,U,w\r\n"):
        out, errors = scene.well(right, start="warm")
        check(out == ANSWERED and value_of(errors, "N") == "2" and value_of(errors, "lines") == "0", f"{shown(right)}: {out}, {errors}")
    check(scene.content() == before[0], "lives without a row changed the retain file")


def closed_output(scene):
    """Nobody reads on after three lines: status 5, and the rows of all lines that were read are kept."""
    for count in (0, 1, 3, 50):
        with scene.life("store", "cold") as life:
            life.send(HEADER)
            life.expect(ANSWERED)
            for k in range(count):
                life.send(b"%d,1,0,3,4\n" % (10 * k))
                life.expect(b"%d,%d,0,1,0,3,4\n" % (10 * k, k + 1))
            life.running.stdout.close()
            try:
                for k in range(count, count + 20_000):
                    life.send(b"%d,1,0,3,4\n" % (10 * k))
            except BrokenPipeError:
                pass
            try:
                status = life.end()
            except BrokenPipeError:
                status = life.running.wait(PATIENCE)
            check((status, life.errors) == (5, b""), f"closed after {count} answers: status {status}, {life.errors.decode()}")
        kept = scene.kept()
        check(count <= kept <= count + 1, f"closed after {count} answers: {kept} rows are kept")
        out, errors = scene.well(HEADER + b"%d,0,0,0,0\n" % (10 * count + 10), start="warm")
        check(out == ANSWERED + b"%d,%d,0,0,0,0,0\n" % (10 * count + 10, kept + 1), f"{shown(out)} {errors}")


def one_at_a_time(scene):
    """Each answer is there before the next line is written, and none before its LF."""
    with scene.life("store", "cold") as life:
        check(life.line(0.1) is None, "a line before the header")
        life.send(HEADER[:4])
        check(life.line(0.1) is None, "a line within the header")
        life.send(HEADER[4:])
        life.expect(ANSWERED)
        for k in range(300):
            life.send(b"%d,0,0,0,0\n" % k)
            line = life.line(10)
            check(line == b"%d,%d,0,0,0,0,0\n" % (k, k + 1), f"row {k} alone gives {line}")
            check(scene.kept() == k + 1 if k % 30 == 0 else True, f"the answer of row {k} came before its save")
        for byte in b"1000,1,0,65535,7":
            life.send(bytes([byte]))
            check(life.line(0.01) is None, "a line before a LF")
        life.send(b"\n")
        life.expect(b"1000,301,0,1,0,65535,7\n")
        life.send(b"x\n1001,0,0,")
        life.expect(b",refused I2\n")
        check(life.line(0.1) is None, "a line before a LF")
        life.send(b"0,0\n1002,0,0,0,0\n1003,0,0,0,0\n1")
        life.expect(*(b"%d,%d,0,0,0,0,0\n" % (k, k - 699) for k in (1001, 1002, 1003)))
        check(life.end() == 0 and life.line() == b",refused I2\n" and life.line() == b"", "the end of the input")


def slow_reader(scene):
    """A reader that waits gets each answer later, in order; the program waits for it."""
    rows = 30_000
    with scene.life("store", "cold") as life:
        sender = threading.Thread(target=life.send, args=(HEADER + b"".join(b"%d,0,0,%d,0\n" % (k, k % 65536) for k in range(rows)),))
        sender.start()
        time.sleep(1)
        check(sender.is_alive() and life.running.poll() is None, "all rows were taken although nobody read an answer")
        life.expect(ANSWERED, *(b"%d,%d,0,0,0,%d,0\n" % (k, k + 1, k) for k in range(rows)))
        sender.join()
        check(life.end() == 0, life.errors.decode())


def same_again(scene):
    """The same input gives the same bytes, also with two resources, in whatever pieces it comes."""
    chance = random.Random(1)
    scene.path("text.st").write_text(ORDER)
    lines = [b"t\n", *(b"%d\n" % (2 * k) if k % 17 else b"bad%d\n" % k for k in range(1, 2000))]
    outs = set()
    for turn in range(5):
        store = f"store{turn}"
        if turn < 3:
            out, errors = scene.well(b"".join(lines), store=store)
        else:
            with scene.life(store, "cold") as life:
                data, answers = b"".join(lines), []
                sender = threading.Thread(target=lambda: [life.send(it) for it in pieces(chance, data)])
                sender.start()
                answers = [life.line() for _ in lines]
                sender.join()
                check(life.end() == 0, life.errors.decode())
                out, errors = b"".join(answers), life.errors.decode()
        outs.add((out, scene.content(store), re.sub(r"(?m)^(p50|p99|max) .*$", "", errors)))
    check(len(outs) == 1, f"{len(outs)} different results of five lives")
    # By hand: R adds at each row, then S doubles at the first row of each 3 ms.
    value, due, wanted = 0, 2, []
    for line in lines[1:]:
        if line.startswith(b"bad"):
            wanted.append(b",refused I2")
            continue
        value += 1
        if int(line) >= due:
            value, due = value * 2 % 65521, due + 3 * ((int(line) - due) // 3 + 1)
            last = value
        wanted.append(line.strip() + b",%d" % last)
    check(out == b"t,OUT\n" + b"\n".join(wanted) + b"\n", f"two resources: {shown(out)} for {shown(wanted[0])}")


def pieces(chance, data):
    """The data in pieces of random sizes."""
    at = 0
    while at < len(data):
        size = chance.choice((1, 2, 5, 30, 400, 3000))
        yield data[at : at + size]
        at += size


def two_lives(scene):
    """While a life has the retain file, another is refused with S3, after its header and before any answer."""
    with scene.life("store", "cold") as life:
        life.send(HEADER + b"1,0,0,0,0\n")
        life.expect(ANSWERED, b"1,1,0,0,0,0,0\n")
        for start in ("warm", "cold"):
            status, out, errors = scene.live(HEADER + b"2,0,0,0,0\n", start=start)
            check((status, out, errors) == (4, b"", "fault S3\n"), f"a second life: {status}, {out}, {errors}")
        life.send(b"2,0,0,0,0\n")
        life.expect(b"2,2,0,0,0,0,0\n")
        check(life.end() == 0, life.errors.decode())


def refused_starts(scene):
    """Refused words, texts and retain files: no line goes out."""
    before = scene.path("text.st").read_bytes()
    (scene.path("bad.st")).write_text("PROGRAM P $ END_PROGRAM")
    os.link(scene.path("text.st"), scene.path("same"))
    scene.path("rows.csv").write_bytes(HEADER)
    with scene.path("rows.csv").open("r+b") as rows:
        for stream in ("stdin", "stderr"):
            # The message goes after the header.
            rows.seek(0, os.SEEK_END if stream == "stderr" else os.SEEK_SET)
            pipes = {"stdin": subprocess.DEVNULL, "stdout": subprocess.PIPE, "stderr": subprocess.PIPE, stream: rows}
            ended = subprocess.run(scene.words("rows.csv", "cold"), timeout=PATIENCE, check=False, **pipes)
            check(ended.returncode == 1 and scene.path("rows.csv").read_bytes().startswith(HEADER), f"a retain file that is {stream}: {ended}")
    for words, status, error in (
        ([*scene.words("text.st", "cold")], 1, "error: "),
        ([*scene.words("same", "cold")], 1, "error: "),
        (scene.words("store", "cold")[:-2], 1, "error: "),
        ([*scene.words("store", "cold"), "--budget", "0"], 2, "fault G7\n"),
        (scene.words("store", "cold", text="bad.st"), 2, "fault L1 at 10\n"),
        (scene.words("store", "cold", text="nowhere.st"), 2, "fault X1\n"),
        ([*scene.words("store", "cold", text="bad.st"), "--explain"], 2, "fault L1 at 10\nerror[L1]"),
        (scene.words(".", "cold"), 4, "fault S3\n"),
        (scene.words("nofolder/store", "cold"), 4, "fault S3\n"),
    ):
        ended = subprocess.run(words, input=HEADER, capture_output=True, timeout=PATIENCE, check=False)
        got = (ended.returncode, ended.stdout, ended.stderr.decode())
        is_as_wanted = got[:2] == (status, b"") and (got[2] == error if error.endswith("\n") else got[2].startswith(error))
        check(is_as_wanted, f"{words[2:]}: {got}")
    check(scene.path("text.st").read_bytes() == before, "the text was written over")
    scene.path("long").write_bytes(bytes(262_145))
    scene.path("damaged").write_bytes(b"\xa5" + bytes(262_143))
    for store, code in (("long", "S1"), ("damaged", "S2")):
        got = scene.live(HEADER, store=store)
        check(got == (4, b"", f"fault {code}\n"), f"{store}: {got}")


def another_layout(scene):
    """A warm life takes values over from the record of another text, and says so before its first row."""
    scene.well(HEADER + b"1,0,0,0,0\n2,0,0,0,0\n")
    scene.path("text.st").write_text(TEXT.replace("RETAIN n : DINT;", "RETAIN k : INT := 7; n : DINT;"))
    out, errors = scene.well(HEADER + b"3,0,0,0,0\n", start="warm")
    check(out == ANSWERED + b"3,3,0,0,0,0,0\n", shown(out))
    check("1 carried, 1 new, 0 retyped, 0 dropped" in errors and value_of(errors, "K") == "7", errors)


def limited(size):
    """What makes writes after this many bytes of a file fail, instead of ending the process."""
    def limit():
        signal.signal(signal.SIGXFSZ, signal.SIG_IGN)
        resource.setrlimit(resource.RLIMIT_FSIZE, (size, size))

    return {"preexec_fn": limit, "restore_signals": False}


def failing_store(scene):
    """A store that takes no more: S3 at the start, K5 at a row. Nothing is answered that isn't kept."""
    got = scene.live(HEADER + b"1,0,0,0,0\n", store="new", **limited(100_000))
    check(got == (4, b"", "fault S3\n"), f"no room for a new file: {got}")
    scene.well(HEADER + b"1,0,0,0,0\n", store="new")
    # The first record is in the first half; each row takes the other half than the one before.
    for rows in (0, 1, 2, 3):
        data = HEADER + b"".join(b"%d,0,0,0,0\n" % k for k in range(1, rows + 1))
        scene.well(data)
        more = b"".join(b"%d,0,0,0,0\n" % k for k in range(10, 20))
        status, out, errors = scene.live(HEADER + more, start="warm", **limited(131_072))
        wanted = b"10,%d,0,0,0,0,0\n" % (rows + 1) * (rows % 2)
        check((status, out, errors) == (5, ANSWERED + wanted, "fault K5\n"), f"after {rows} rows: {status}, {shown(out)}, {errors}")
        check(scene.kept() == rows + rows % 2, f"after {rows} rows and K5 {scene.kept()} are kept")
        out, _ = scene.well(HEADER + b"30,0,0,0,0\n", start="warm")
        check(out == ANSWERED + b"30,%d,0,0,0,0,0\n" % (rows + rows % 2 + 1), f"after K5: {shown(out)}")


def closed_streams(scene):
    """A life without a standard input, output or error never writes anything but records into its retain file."""
    bad = HEADER + b"x\n" * 3
    for closed in ((0,), (1,), (2,), (1, 2), (0, 1, 2)):
        for rows in (1, 2):
            scene.well(HEADER + b"".join(b"%d,0,0,0,0\n" % k for k in range(rows)))
            before = scene.content()
            def close():
                for it in closed:
                    os.close(it)
            ended = subprocess.Popen(scene.words("store", "warm"), stdin=subprocess.PIPE, preexec_fn=close, stdout=subprocess.PIPE, stderr=subprocess.PIPE)
            ended.communicate(bad, timeout=PATIENCE)
            names = " and ".join(str(it) for it in closed)
            check(scene.content() == before, f"with {names} closed a life without a row changed the retain file, of {rows} rows; {scene.show()}")


def words_of(row):
    """The counter that an answer has."""
    _, low, high = row.split(b",")[:3]
    return int(low) + 65_536 * int(high)


def killed(scene):
    """Kills at random moments, between lines and within them: all that was answered is kept, and no more than was written."""
    chance, began = random.Random(time.time_ns()), time.monotonic()
    scene.path("text.st").write_text(COUNT)
    known, moment, lives, kills, begun = 0, 0, 0, 0, 0
    scene.well(b"t\n")
    while kills < KILLS:
        check(time.monotonic() - began < MOST_SECONDS or kills >= KILLS // 6, f"only {kills} kills in {MOST_SECONDS} seconds")
        if time.monotonic() - began > MOST_SECONDS:
            break
        lives += 1
        last, written = known, 0
        with scene.life("store", "warm") as life:
            one_by_one = chance.random() < 0.5
            os.set_blocking(life.running.stdin.fileno(), False)
            pending, waiting = b"t\n", False
            if chance.random() < 0.75:
                # Not within the start.
                life.send(pending)
                last, pending, written = counted(life.line(), last, known), b"", 1
            deadline = time.monotonic() + chance.random() * 0.04
            while time.monotonic() < deadline:
                if not pending:
                    if one_by_one and waiting:
                        line = life.line(max(0, deadline - time.monotonic()))
                        if line is None:
                            break
                        last, waiting = counted(line, last, known), False
                        continue
                    moment += 1
                    pending = b"%d\n" % moment
                size = len(pending) if chance.random() < 0.7 else chance.randrange(1, len(pending) + 1)
                try:
                    size = os.write(life.running.stdin.fileno(), pending[:size])
                except BlockingIOError:
                    time.sleep(0.0005)
                    continue
                pending = pending[size:]
                if not pending:
                    waiting, written = True, written + 1
            check(life.running.poll() is None, f"a life ended by itself: {life.errors.decode()}")
            life.running.send_signal(signal.SIGTERM if chance.random() < 0.1 else signal.SIGKILL)
            life.running.wait(PATIENCE)
            while line := tail(life):
                last = counted(line, last, known)
        kills += 1
        begun += last > known
        kept = scene.kept()
        # The header is a written line too, but no row.
        rows = max(0, written - 1)
        check(kept >= last, f"life {lives}: {kept} is kept, but the last answer had {last}")
        check(kept <= known + rows, f"life {lives}: {kept} is kept of {known} and {rows} rows that were written")
        check(kept <= last + 1, f"life {lives}: {kept} is kept, but the last line that went out had {last}")
        known = kept
    check(begun * 5 > kills, f"only {begun} of {kills} kills came after an answer")
    return f"{kills} kills, {begun} after an answer, {known} rows"


def tail(life):
    """The next line that a killed life left in its pipe; none at the end, or for a part of a line."""
    try:
        return life.line()
    except Failure:
        return b""


def counted(line, last, known):
    """The counter after this answer, which has to be one more; the header doesn't change it."""
    if line.startswith(b"t"):
        check(line == b"t,LOW,HIGH\n" and last == known, f"the line {shown(line)} after {last}")
        return last
    check(re.fullmatch(rb"\d+,\d+,\d+\n", line) and words_of(line) == last + 1, f"the answer {shown(line)} after {last}")
    return last + 1


def many_rows(scene, rows):
    """As many rows as are asked for, in the memory of the first thousand."""
    scene.path("text.st").write_text(COUNT)
    first = 1000
    with scene.life("store", "cold") as life:
        life.send(b"t\n" + b"".join(b"%d\n" % k for k in range(first)))
        life.expect(b"t,LOW,HIGH\n", *(b"%d,%d,0\n" % (k, k + 1) for k in range(first)))
        before, begun = life.peak(), time.monotonic()

        def feed():
            for k in range(first, rows, 500):
                life.send(b"".join(b"%d\n" % it for it in range(k, min(rows, k + 500))))

        sender = threading.Thread(target=feed, daemon=True)
        sender.start()
        for k in range(first, rows):
            line = life.line()
            check(line == b"%d,%d,%d\n" % (k, (k + 1) % 65_536, (k + 1) // 65_536), f"row {k} gives {line}")
        sender.join()
        took, grown = time.monotonic() - begun, life.peak() - before
        check(grown < GROWTH, f"{rows} rows took {grown} bytes more than {first}")
        check(life.end() == 0 and value_of(life.errors.decode(), "rows") == str(rows), life.errors.decode())
    check(scene.kept() == rows, f"{scene.kept()} of {rows} rows are kept")
    return f"{rows} rows, {(rows - first) / took:.0f} a second, {grown // 1024} KiB more memory"


def main():
    plant = str(pathlib.Path(sys.argv[1]).resolve())
    rows = int(sys.argv[2]) if len(sys.argv) > 2 else 100_000
    memory = "/dev/shm" if os.access("/dev/shm", os.W_OK) else None
    scenes = [examples, bad_lines, random_lines, widest, faults, newest, stamps, ticks, torn, long_lines, headers, closed_output, one_at_a_time, slow_reader, same_again, two_lives]
    scenes += [refused_starts, another_layout, failing_store, closed_streams, killed, many_rows]
    long_ones = (random_lines, slow_reader, many_rows)
    wrong, notes = [], []
    for scene in scenes:
        with tempfile.TemporaryDirectory(dir=memory if scene in long_ones else None) as folder:
            more = (rows,) if scene is many_rows else ()
            try:
                note = scene(Scene(plant, pathlib.Path(folder)), *more)
                notes += [note] if note else []
            except (Failure, OSError, subprocess.SubprocessError) as fault:
                wrong.append(f"live.py: {scene.__name__}: {fault}")
    if wrong:
        sys.exit("\n".join(wrong))
    print(f"live.py: {len(scenes)} scenes right; {'; '.join(notes)}")


main()
