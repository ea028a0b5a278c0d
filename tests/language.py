#!/usr/bin/env python3
"""Runs texts of the whole language on the built program, by quick code and by the machine on values, and compares the final value
of each variable.

This script computes the expected values of operators, functions and blocks from the formulas of the language, on unbounded numbers; the other
scenes list their expected values.

usage: tests/language.py PLANT     PLANT is the built program
"""
import itertools
import pathlib
import random
import subprocess
import sys
import tempfile

# the beginning of an error message
NAME = pathlib.Path(sys.argv[0]).name

# the whole-number types and the bit strings, with their bits
SIGNED = {"SINT": 8, "INT": 16, "DINT": 32, "LINT": 64}
UNSIGNED = {"USINT": 8, "UINT": 16, "UDINT": 32, "ULINT": 64}
BITS = {"BYTE": 8, "WORD": 16, "DWORD": 32, "LWORD": 64}
NUMBERS = SIGNED | UNSIGNED
ALL = NUMBERS | BITS | {"BOOL": 1}


def least(kind):
    return -(2 ** (SIGNED[kind] - 1)) if kind in SIGNED else 0


def greatest(kind):
    return 2 ** (SIGNED[kind] - 1) - 1 if kind in SIGNED else 2 ** ALL[kind] - 1


def holds(kind, number):
    return least(kind) <= number <= greatest(kind)


def edges(kind):
    """Numbers around the limits of a type, and around 0."""
    low, high = least(kind), greatest(kind)
    return sorted({n for n in (low, low + 1, -7, -2, -1, 0, 1, 2, 3, 7, high // 2 + 1, high - 1, high) if holds(kind, n)})


def spelled(kind, number):
    """A value as a report prints it."""
    if kind == "BOOL":
        return "TRUE" if number else "FALSE"
    if kind in BITS:
        return f"16#{number:0{BITS[kind] // 4}X}"
    return f"{number}ms" if kind == "TIME" else str(number)


def initial(kind, number):
    """A value as a text writes an initial value."""
    if kind == "TIME":
        return f"T#{number}ms"
    return spelled(kind, number) if kind == "BOOL" else str(number)


class Plant:
    """The built program in a folder of its own."""

    def __init__(self, program, folder):
        self.program, self.folder, self.scenes = program, folder, 0

    def run(self, text, rows="t\n0\n", budget=10000, start="cold", store="store", pace="settle", trace=False, machine="quick"):
        (self.folder / "text.st").write_text(text)
        (self.folder / "plant.csv").write_text(rows)
        words = [self.program, "run", "text.st", "--plant", "plant.csv", "--store", store, "--start", start, "--budget", str(budget)]
        words += ["--pace", pace, "--machine", machine, "--stats"] + (["--trace", "trace"] if trace else [])
        return subprocess.run(words, cwd=self.folder, capture_output=True, text=True, check=False, timeout=60)

    def check(self, text):
        """The sizes of a text, split into words."""
        (self.folder / "text.st").write_text(text)
        return subprocess.run([self.program, "check", "text.st"], cwd=self.folder, capture_output=True, text=True, check=True).stdout.split()

    def replay(self, text):
        """Runs the last trace again."""
        (self.folder / "text.st").write_text(text)
        words = [self.program, "replay", "text.st", "--plant", "plant.csv", "--trace", "trace"]
        return subprocess.run(words, cwd=self.folder, capture_output=True, text=True, check=False, timeout=60)

    def report(self, name, text, **given):
        """The counts and the values of a run that succeeds; they have to be the same by either machine."""
        ran = self.run(text, **given)
        if ran.returncode:
            sys.exit(f"{NAME}: {name}: status {ran.returncode}, {ran.stderr.strip()}\n{text}")
        if given.get("pace") != "free":
            self.same_by_values(name, text, ran.stdout, given)
        self.scenes += 1
        lines = ran.stdout.splitlines()
        return dict(line.split(" ", 1) for line in lines[:5]), dict(line.split(" = ", 1) for line in lines[5:])

    def same_by_values(self, name, text, report, given):
        """Checks that the same run by the machine on values, over a store of its own, has this report."""
        other = self.run(text, **(given | {"store": given.get("store", "store") + "-values", "trace": False, "machine": "values"}))
        if other.returncode or other.stdout != report or "program runs: quick 0," not in other.stderr:
            sys.exit(f"{NAME}: {name}: by the machine on values status {other.returncode}\n{other.stdout}{other.stderr}\nby quick code\n{report}\n{text}")

    def scene(self, name, text, wanted, **given):
        """Checks the values that a text leaves, and its counts if some are expected."""
        counts, values = self.report(name, text, **given)
        for path, value in wanted.items():
            found = counts.get(path) if path in counts else values.get(path)
            if found != str(value):
                sys.exit(f"{NAME}: {name}: {path} is {found}, not {value}\n{text}")


def configured(body, variables="", globals_="", before="", tasks="TASK T (INTERVAL := T#1ms, PRIORITY := 0);", external=""):
    """A text with one program, which runs at each row."""
    return f"""{before}
PROGRAM Main
{variables}
{external}
{body}
END_PROGRAM
CONFIGURATION C
{globals_}
RESOURCE R ON CPU
{tasks}
PROGRAM P WITH T : Main;
END_RESOURCE
END_CONFIGURATION
"""


class Table:
    """Expressions over values, each with its result or its fault."""

    def __init__(self):
        self.given, self.faults = [], []

    def add(self, kind, number, expression, operands):
        """The expression has `@` in place of each operand; a `number` that is a string is the name of a fault."""
        (self.faults if isinstance(number, str) else self.given).append((kind, number, expression, operands))

    def check(self, plant, name):
        for part in itertools.batched(self.given, 150) if hasattr(itertools, "batched") else batches(self.given, 150):
            self.check_values(plant, name, part)
        for part in batches(self.faults, 8):
            self.check_faults(plant, name, part)

    def check_values(self, plant, name, rows):
        variables, body, wanted = [], [], {}
        for k, (kind, number, expression, operands) in enumerate(rows):
            for j, (type_, value) in enumerate(operands):
                variables.append(f"a{k}_{j} : {type_} := {initial(type_, value)};")
                expression = expression.replace("@", f"a{k}_{j}", 1)
            variables.append(f"r{k} : {kind};")
            body.append(f"r{k} := {expression};")
            wanted[f"R/P.R{k}"] = spelled(kind, number)
        plant.scene(name, configured("\n".join(body), "VAR " + "\n".join(variables) + " END_VAR"), wanted)

    def check_faults(self, plant, name, rows):
        """Runs each expression in a program of its own, whose values have to stay initial."""
        units, instances, wanted = [], [], {"faults": len(rows), "done": len(rows)}
        for k, (kind, fault, expression, operands) in enumerate(rows):
            variables = []
            for j, (type_, value) in enumerate(operands):
                variables.append(f"a{j} : {type_} := {initial(type_, value)};")
                expression = expression.replace("@", f"a{j}", 1)
            units.append(f"PROGRAM U{k} VAR {' '.join(variables)} x : INT; r : {kind}; END_VAR x := 5; r := {expression}; END_PROGRAM")
            instances.append(f"PROGRAM P{k} WITH T : U{k};")
            wanted[f"R/P{k}.X"] = "0"
        text = "\n".join(units) + f"""
CONFIGURATION C RESOURCE R ON CPU TASK T (INTERVAL := T#1ms, PRIORITY := 0);
{' '.join(instances)} END_RESOURCE END_CONFIGURATION"""
        plant.scene(name, text, wanted)
        trace = self.trace(plant, text)
        found = [line.split()[-1] for line in trace if line.startswith("done ")]
        if found != [fault for _, fault, _, _ in rows]:
            sys.exit(f"{NAME}: {name}: faults {found}\n{text}")

    def trace(self, plant, text):
        (plant.folder / "text.st").write_text(text)
        (plant.folder / "plant.csv").write_text("t\n0\n")
        words = [plant.program, "run", "text.st", "--plant", "plant.csv", "--store", "store", "--start", "cold", "--trace", "trace"]
        subprocess.run(words, cwd=plant.folder, capture_output=True, check=True, timeout=60)
        return (plant.folder / "trace").read_text().splitlines()


def batches(items, size):
    items = list(items)
    return [items[k:k + size] for k in range(0, len(items), size)]


def quotient(a, b):
    """The quotient, rounded toward zero."""
    return abs(a) // abs(b) * (1 if (a < 0) == (b < 0) else -1)


def in_type(kind, number):
    return number if holds(kind, number) else "F1"


def arithmetic(plant):
    for kind in NUMBERS:
        table = Table()
        for a, b in itertools.product(edges(kind), repeat=2):
            operands = [(kind, a), (kind, b)]
            table.add(kind, in_type(kind, a + b), "@ + @", operands)
            table.add(kind, in_type(kind, a - b), "@ - @", operands)
            table.add(kind, in_type(kind, a * b), "@ * @", operands)
            table.add(kind, in_type(kind, quotient(a, b)) if b else "F2", "@ / @", operands)
            table.add(kind, a - quotient(a, b) * b if b else 0, "@ MOD @", operands)
        for a in edges(kind):
            table.add(kind, in_type(kind, abs(a)), "ABS(@)", [(kind, a)])
            if kind in SIGNED:
                table.add(kind, in_type(kind, -a), "-@", [(kind, a)])
        table.check(plant, f"arithmetic of {kind}")


def durations(plant):
    table, top = Table(), 2**63 - 1
    for a, b in itertools.product((0, 1, 999, 86_400_000, top - 1, top), repeat=2):
        operands = [("TIME", a), ("TIME", b)]
        table.add("TIME", a + b if a + b <= top else "F1", "@ + @", operands)
        table.add("TIME", a - b, "@ - @", operands)
        table.add("TIME", min(a, b), "MIN(@, @)", operands)
        table.add("TIME", max(a, b), "MAX(@, @)", operands)
        for mark, holds_ in COMPARISONS:
            table.add("BOOL", holds_(a, b), f"@ {mark} @", operands)
    table.add("TIME", "F1", "T#0ms - @ - T#2ms", [("TIME", top)])
    table.check(plant, "durations")


COMPARISONS = (
    ("<", lambda a, b: a < b), ("<=", lambda a, b: a <= b), (">", lambda a, b: a > b), (">=", lambda a, b: a >= b),
    ("=", lambda a, b: a == b), ("<>", lambda a, b: a != b),
)


def comparisons(plant):
    for kind in ALL:
        table = Table()
        marks = COMPARISONS[4:] if kind == "BOOL" else COMPARISONS
        for a, b in itertools.product(edges(kind), repeat=2):
            for mark, holds_ in marks:
                table.add("BOOL", holds_(a, b), f"@ {mark} @", [(kind, a), (kind, b)])
        table.check(plant, f"comparisons of {kind}")


def bits(plant):
    for kind in BITS | {"BOOL": 1}:
        table, top = Table(), greatest(kind)
        for a, b in itertools.product(edges(kind), repeat=2):
            operands = [(kind, a), (kind, b)]
            table.add(kind, a & b, "@ AND @", operands)
            table.add(kind, a & b, "@ & @", operands)
            table.add(kind, a | b, "@ OR @", operands)
            table.add(kind, a ^ b, "@ XOR @", operands)
        for a in edges(kind):
            table.add(kind, top - a, "NOT @", [(kind, a)])
        table.check(plant, f"bits of {kind}")


def shifts(plant):
    for kind, width in BITS.items():
        table, top = Table(), greatest(kind)
        for a, n in itertools.product(edges(kind), (0, 1, 3, width - 1, width, width + 1, 3 * width + 2, 32767)):
            operands, turn = [(kind, a), ("INT", n)], n % width
            table.add(kind, (a << n) & top if n < width else 0, "SHL(@, @)", operands)
            table.add(kind, a >> n if n < width else 0, "SHR(@, @)", operands)
            table.add(kind, ((a << turn) | (a >> (width - turn))) & top, "ROL(@, @)", operands)
            table.add(kind, ((a >> turn) | (a << (width - turn))) & top, "ROR(@, @)", operands)
        for name, type_ in itertools.product(("SHL", "SHR", "ROL", "ROR"), SIGNED):
            table.add(kind, "F1", f"{name}(@, @)", [(kind, 1), (type_, -1)])
        for type_ in UNSIGNED:
            table.add(kind, 0, "SHL(@, @)", [(kind, 1), (type_, greatest(type_))])
        table.check(plant, f"shifts of {kind}")


def selections(plant):
    for kind in NUMBERS:
        table = Table()
        for a, b in itertools.product(edges(kind), repeat=2):
            operands = [(kind, a), (kind, b)]
            table.add(kind, min(a, b), "MIN(@, @)", operands)
            table.add(kind, max(a, b), "MAX(@, @)", operands)
            table.add(kind, min(max(a, b), 1), "LIMIT(@, @, 1)", operands)
            table.add(kind, min(max(1, b), a), "LIMIT(@, 1, @)", [(kind, b), (kind, a)])
        table.check(plant, f"selections of {kind}")
    table = Table()
    for kind in ALL:
        for g, (a, b) in itertools.product((0, 1), itertools.product(edges(kind)[:3], repeat=2)):
            table.add(kind, b if g else a, "SEL(@, @, @)", [("BOOL", g), (kind, a), (kind, b)])
    table.check(plant, "SEL")


def conversions(plant):
    for source in ALL:
        table = Table()
        for target in ALL:
            if source != target:
                for a in edges(source):
                    table.add(target, a if holds(target, a) else "F4", f"{source}_TO_{target}(@)", [(source, a)])
        table.check(plant, f"conversions of {source}")


# ---- standard blocks: their outputs, call by call

def latch(reset_first):
    q = 0

    def step(a, b):
        nonlocal q
        q = (not b and (a or q)) if reset_first else (a or (not b and q))
        return {"Q1": bool(q)}
    return step


def edge(falling):
    m = False

    def step(clk):
        nonlocal m
        clk = not clk if falling else bool(clk)
        q, m = clk and not m, clk
        return {"Q": q}
    return step


def timer(name, period):
    run, start, q, et = False, 0, False, 0

    def step(in_, now):
        nonlocal run, start, q, et
        pt = max(0, period)
        if name == "TON":
            if not in_:
                q, et, run = False, 0, False
            else:
                if not run:
                    run, start = True, now
                e = max(0, now - start)
                et, q = min(e, pt), e >= pt
        elif name == "TOF":
            if in_:
                q, et, run = True, 0, False
            else:
                if q and not run:
                    run, start = True, now
                if run:
                    e = max(0, now - start)
                    et, q = min(e, pt), e < pt
        else:
            if in_ and not run:
                run, start = True, now
            if run:
                e = max(0, now - start)
                et, q = min(e, pt), e < pt
                if e >= pt and not in_:
                    run, et = False, 0
        return {"Q": q, "ET": et}
    return step


def counter(name, preset):
    cv, up_before, down_before = 0, False, False

    def step(up, down, reset, load):
        nonlocal cv, up_before, down_before
        up_edge, down_edge = up and not up_before, down and not down_before
        up_before, down_before = up, down
        if name != "CTD" and reset:
            cv = 0
        elif name != "CTU" and load:
            cv = preset
        elif name == "CTUD" and up_edge and down_edge:
            pass
        elif name != "CTD" and up_edge:
            cv = min(cv + 1, 32767)
        elif name != "CTU" and down_edge:
            cv = max(cv - 1, -32768)
        if name == "CTU":
            return {"Q": cv >= preset, "CV": cv}
        if name == "CTD":
            return {"Q": cv <= 0, "CV": cv}
        return {"QU": cv >= preset, "QD": cv <= 0, "CV": cv}
    return step


KINDS = {"Q": "BOOL", "Q1": "BOOL", "QU": "BOOL", "QD": "BOOL", "CV": "INT", "ET": "TIME"}


def block(plant, name, block_name, inputs, steps, step, times=None, preset=""):
    """Calls an instance once a row with inputs of the plant, keeps its outputs in arrays, and compares these."""
    n = len(steps)
    times = times or range(0, n)
    gives = [step(*given, *([at] if block_name in ("TON", "TOF", "TP") else [])) for given, at in zip(steps, times)]
    outputs = list(gives[0])
    variables = "VAR b : " + block_name + "; i : INT; " + " ".join(f"k{o} : ARRAY [0..{n - 1}] OF {KINDS[o]};" for o in outputs) + " END_VAR"
    external = "VAR_EXTERNAL CONSTANT " + " ".join(f"x{k} : BOOL;" for k in range(len(inputs))) + " END_VAR"
    globals_ = "VAR_GLOBAL " + " ".join(f"x{k} AT %IX{k} : BOOL;" for k in range(len(inputs))) + " END_VAR"
    arguments = ", ".join([f"{x} := x{k}" for k, x in enumerate(inputs)] + ([preset] if preset else []))
    body = f"b({arguments});\n" + "\n".join(f"k{o}[i] := b.{o};" for o in outputs) + "\ni := i + 1;"
    header = "t" + "".join(f",x{k}" for k in range(len(inputs)))
    rows = "\n".join(",".join([str(at)] + [str(int(x)) for x in given]) for given, at in zip(steps, times))
    wanted = {f"R/P.K{o}[{k}]": spelled(KINDS[o], value) for k, found in enumerate(gives) for o, value in found.items()}
    wanted["rows"] = wanted["done"] = n
    plant.scene(name, configured(body, variables, globals_, external=external), wanted, rows=f"{header}\n{rows}\n")


def blocks(plant):
    pairs = list(itertools.product((0, 1), repeat=2)) * 2 + [(1, 0), (0, 0), (0, 1), (0, 0), (1, 1), (0, 0)]
    block(plant, "SR", "SR", ["S1", "R"], pairs, latch(False))
    block(plant, "RS", "RS", ["S", "R1"], pairs, latch(True))
    marks = [(x,) for x in (0, 0, 1, 1, 0, 1, 0, 0, 1)]
    block(plant, "R_TRIG", "R_TRIG", ["CLK"], marks, edge(False))
    block(plant, "F_TRIG", "F_TRIG", ["CLK"], marks, edge(True))
    for period in (100, 0, 1):
        for name in ("TON", "TOF", "TP"):
            for code in range(32):
                steps = [((code >> k) & 1,) for k in range(5)] + [(0,), (1,), (0,)]
                block(plant, f"{name} of {period} ms", name, ["IN"], steps, timer(name, period),
                      times=[0, 50, 100, 150, 151, 250, 300, 500], preset=f"PT := T#{period}ms")
    for preset in (2, 0, -1):
        up = [(x, y) for x, y in ((1, 0), (1, 0), (0, 0), (1, 0), (1, 1), (0, 0), (1, 0), (0, 0), (1, 0))]
        block(plant, f"CTU to {preset}", "CTU", ["CU", "R"], up, lambda u, r, s=counter("CTU", preset): s(u, 0, r, 0), preset=f"PV := {preset}")
        block(plant, f"CTD from {preset}", "CTD", ["CD", "LD"], up, lambda d, l, s=counter("CTD", preset): s(0, d, 0, l), preset=f"PV := {preset}")
        all_four = [tuple((code >> k) & 1 for k in range(4)) for code in (0, 1, 0, 1, 0, 2, 0, 3, 0, 8, 1, 9, 0, 4, 0, 12, 2, 0, 1, 0, 3, 2, 1)]
        block(plant, f"CTUD about {preset}", "CTUD", ["CU", "CD", "R", "LD"], all_four, counter("CTUD", preset), preset=f"PV := {preset}")
    # the limits of INT
    for name, first, edge_input, preset, cv in (("CTU", "R", "CU", 32767, 32767), ("CTD", "LD", "CD", -32768, -32768)):
        body = f"b({'LD := TRUE, ' if name == 'CTD' else ''}PV := {preset});\nFOR i := 1 TO 3 DO b({edge_input} := FALSE{', LD := FALSE' if name == 'CTD' else ''}); b({edge_input} := TRUE); END_FOR;\nc := b.CV;"
        if name == "CTU":
            body = f"b(PV := {preset});\nFOR i := 1 TO 32767 DO b(CU := FALSE); b(CU := TRUE); END_FOR; b(CU := FALSE); b(CU := TRUE);\nc := b.CV;"
        plant.scene(f"{name} at the end of INT", configured(body, f"VAR b : {name}; i, c : INT; END_VAR"), {"R/P.C": cv}, budget=1000000)


# ---- statements, ticks, types, units

def faulted(plant, name, body, variables, fault, before="", budget=10000):
    """Checks that the body meets this fault."""
    plant.scene(name, configured(body, variables, before=before), {"faults": 1, "done": 1}, budget=budget, trace=True)
    found = [line.split()[-1] for line in (plant.folder / "trace").read_text().splitlines() if line.startswith("done ")]
    if found != [fault]:
        sys.exit(f"{NAME}: {name}: {found}, not {fault}")


def ticked(plant, name, body, ticks, variables, wanted, before=""):
    """Checks that the body takes exactly this many ticks: with one fewer it faults with F5."""
    plant.scene(name, configured(body, variables, before=before), wanted | {"faults": 0}, budget=ticks)
    if ticks > 1:
        faulted(plant, f"{name}, a tick short", body, variables, "F5", before, budget=ticks - 1)


def statements(plant):
    ticked(plant, "a WHILE loop", "i := 0; WHILE i < 3 DO i := i + 1; END_WHILE;", 8, "VAR i : INT; END_VAR", {"R/P.I": 3})
    ticked(plant, "a FOR loop to the end of its type", "FOR i := 32760 TO 32767 DO k := k + 1; END_FOR;", 17,
           "VAR i, k : INT; END_VAR", {"R/P.I": 32767, "R/P.K": 8})
    ticked(plant, "a FOR loop over nothing", "FOR i := 1 TO 3 DO ; END_FOR;", 7, "VAR i : INT; END_VAR", {"R/P.I": 4})
    ticked(plant, "a FOR loop that isn't entered", "FOR i := 3 TO 1 DO k := 1; END_FOR;", 1, "VAR i, k : INT; END_VAR", {"R/P.I": 3, "R/P.K": 0})
    ticked(plant, "a FOR loop backwards", "FOR i := 3 TO 1 BY -1 DO k := k + i; END_FOR;", 7, "VAR i, k : INT; END_VAR", {"R/P.I": 0, "R/P.K": 6})
    ticked(plant, "a FOR loop down to the end of its type", "FOR i := -127 TO -128 BY -1 DO k := k + 1; END_FOR;", 5,
           "VAR i : SINT; k : INT; END_VAR", {"R/P.I": -128, "R/P.K": 2})
    ticked(plant, "a REPEAT loop", "REPEAT i := i + 1; UNTIL i >= 3 END_REPEAT;", 6, "VAR i : INT; END_VAR", {"R/P.I": 3})
    ticked(plant, "EXIT leaves the innermost loop", "FOR i := 1 TO 2 DO WHILE TRUE DO k := k + 1; EXIT; END_WHILE; END_FOR;", 9,
           "VAR i, k : INT; END_VAR", {"R/P.I": 3, "R/P.K": 2})
    ticked(plant, "RETURN leaves the program", "k := 1; RETURN; k := 2;", 2, "VAR k : INT; END_VAR", {"R/P.K": 1})
    ticked(plant, "RETURN out of two loops", "WHILE TRUE DO REPEAT k := k + 1; IF k = 3 THEN RETURN; END_IF; UNTIL FALSE END_REPEAT; END_WHILE; k := 9;", 11,
           "VAR k : INT; END_VAR", {"R/P.K": 3})
    ticked(plant, "ELSIF", "IF k = 1 THEN k := 10; ELSIF k = 0 THEN k := 20; ELSE k := 30; END_IF;", 2, "VAR k : INT; END_VAR", {"R/P.K": 20})
    ticked(plant, "the empty statement", ";;;", 3, "VAR k : INT; END_VAR", {"R/P.K": 0})
    for selector, given in ((1, 10), (3, 20), (5, 20), (-7, 30), (9, 40), (32767, 40)):
        ticked(plant, f"CASE {selector}", "CASE s OF 1: k := 10; 2, 3..5: k := 20; -7: k := 30; ELSE k := 40; END_CASE;", 2,
               f"VAR s : INT := {selector}; k : INT; END_VAR", {"R/P.K": given})
    ticked(plant, "CASE without a label and without ELSE", "CASE s OF 1: k := 10; END_CASE;", 1, "VAR s, k : INT; END_VAR", {"R/P.K": 0})
    double = "FUNCTION Twice : INT VAR_INPUT x : INT; END_VAR VAR y : INT; END_VAR y := y + x; Twice := 2 * y; END_FUNCTION"
    ticked(plant, "a function starts anew at each call", "k := Twice(3); k := k + Twice(4);", 6, "VAR k : INT; END_VAR", {"R/P.K": 14}, before=double)
    count = "FUNCTION_BLOCK Count VAR_INPUT d : INT := 1; END_VAR VAR_OUTPUT n : INT; END_VAR n := n + d; END_FUNCTION_BLOCK"
    ticked(plant, "an instance keeps its values and its inputs", "c(); c(d := 5, n => k); c(n => m);", 6,
           "VAR c : Count; k, m : INT; END_VAR", {"R/P.C.N": 11, "R/P.K": 6, "R/P.M": 11}, before=count)
    for name, body, variables, fault in (
        ("a step of 0", "FOR i := 1 TO 3 BY 0 DO ; END_FOR;", "i : INT;", "F6"),
        ("a divisor of 0", "x := 5 / z;", "x, z : INT;", "F2"),
        ("a sum outside its type", "x := 5; y := y + 1;", "x : INT; y : INT := 32767;", "F1"),
        ("a subscript above", "a[i] := 1;", "a : ARRAY [1..2] OF INT; i : INT := 3;", "F3"),
        ("a subscript below", "x := a[i];", "a : ARRAY [1..2] OF INT; i, x : INT;", "F3"),
        ("no end of ticks", "WHILE TRUE DO ; END_WHILE;", "x : INT;", "F5"),
        ("AND evaluates both operands", "b := FALSE AND (1 / z = 1);", "b : BOOL; z : INT;", "F2"),
        ("OR evaluates both operands", "b := TRUE OR (1 / z = 1);", "b : BOOL; z : INT;", "F2"),
        ("MOD evaluates its left operand", "x := (1 / z) MOD 0;", "x, z : INT;", "F2"),
        ("SEL evaluates all of its arguments", "x := SEL(FALSE, 1, 2 / z);", "x, z : INT;", "F2"),
        ("a step of 0 is found after a fault in the limit", "FOR i := 1 TO 1 / z BY z DO ; END_FOR;", "i, z : INT;", "F2"),
        ("a fault in a loop after some turns", "FOR i := 3 TO 0 BY -1 DO x := 6 / i; END_FOR;", "i, x : INT;", "F2"),
    ):
        faulted(plant, name, body, f"VAR {variables} END_VAR", fault)
    plant.scene("what a faulted run wrote is not kept", configured("x := 5; y := y + 1;", "VAR x : INT; y : INT := 32767; END_VAR"),
                {"R/P.X": 0, "R/P.Y": 32767, "done": 1, "faults": 1})
    plant.scene("quotients and remainders", configured("a := -7 / 3; b := -7 MOD 3; c := 5 MOD 0;", "VAR a, b, c : INT; END_VAR"),
                {"R/P.A": -2, "R/P.B": -1, "R/P.C": 0})


UNITS = """FUNCTION Sum : INT VAR_INPUT n : INT; END_VAR VAR i : INT; END_VAR FOR i := 1 TO n DO Sum := Sum + i; END_FOR; END_FUNCTION
FUNCTION Digits : INT VAR_INPUT n : INT; END_VAR VAR m : INT; END_VAR
m := n; WHILE m > 0 DO m := m / 10; Digits := Digits + 1; END_WHILE; END_FUNCTION
FUNCTION Halves : INT VAR_INPUT n : INT; END_VAR VAR m : INT; END_VAR
m := n; REPEAT m := m / 2; Halves := Halves + 1; UNTIL m = 0 END_REPEAT; END_FUNCTION
FUNCTION Least : INT VAR_INPUT n : INT; END_VAR VAR i : INT; END_VAR
FOR i := 1 TO 10 DO IF i * i > n THEN Least := i; RETURN; END_IF; END_FOR; Least := -1; END_FUNCTION
FUNCTION Less : BOOL VAR_INPUT a, b : INT; END_VAR Less := a < b; END_FUNCTION
FUNCTION One : INT One := 1; END_FUNCTION
FUNCTION_BLOCK Ramp VAR_INPUT n : INT; END_VAR VAR_OUTPUT s : INT; END_VAR VAR i : INT; END_VAR
FOR i := 1 TO n DO s := s + 1; END_FOR; END_FUNCTION_BLOCK
FUNCTION_BLOCK Wait VAR_OUTPUT s : INT; END_VAR
WHILE s < 3 DO s := s + 1; IF s = 2 THEN RETURN; END_IF; END_WHILE; END_FUNCTION_BLOCK
FUNCTION_BLOCK Outer VAR r : Ramp; END_VAR VAR_OUTPUT s : INT; END_VAR r(n := 2); s := r.s; END_FUNCTION_BLOCK
"""


def ticks(plant):
    """Loops of each kind, alone, nested, and in functions and blocks, each with the ticks that it takes."""
    for name, body, count, variables, wanted in (
        # FOR 1, and each of 3 turns: FOR 1, 2 turns of 2, the turn back
        ("a FOR in a FOR", "FOR i := 1 TO 3 DO FOR j := 1 TO 2 DO k := k + 1; END_FOR; END_FOR;", 19, "i, j, k : INT;", {"I": 4, "J": 3, "K": 6}),
        # REPEAT 1, turn t: 2 statements, WHILE 1, t turns of 3; and 2 turns back
        ("a WHILE in a REPEAT",
         "REPEAT i := i + 1; j := 0; WHILE j < i DO j := j + 1; k := k + 1; END_WHILE; UNTIL i >= 3 END_REPEAT;", 30, "i, j, k : INT;",
         {"I": 3, "J": 3, "K": 6}),
        # WHILE 1, and each of 2 turns: REPEAT 1, 3 statements, 2 turns back, the turn back
        ("a REPEAT in a WHILE", "WHILE k < 6 DO REPEAT k := k + 1; UNTIL k MOD 3 = 0 END_REPEAT; END_WHILE;", 15, "k : INT;", {"K": 6}),
        ("a WHILE that isn't entered", "WHILE k > 0 DO k := k - 1; END_WHILE;", 1, "k : INT;", {"K": 0}),
        ("a REPEAT of one turn", "REPEAT k := 1; UNTIL TRUE END_REPEAT;", 2, "k : INT;", {"K": 1}),
        # REPEAT 1, k 1, IF 1, back 1, k 1, IF 1, EXIT 1
        ("EXIT out of a REPEAT", "REPEAT k := k + 1; IF k = 2 THEN EXIT; END_IF; UNTIL FALSE END_REPEAT;", 7, "k : INT;", {"K": 2}),
        ("EXIT out of a WHILE", "WHILE TRUE DO k := k + 1; IF k = 2 THEN EXIT; END_IF; END_WHILE;", 7, "k : INT;", {"K": 2}),
        ("EXIT out of a FOR", "FOR i := 1 TO 5 DO IF i = 3 THEN EXIT; END_IF; k := k + 1; END_FOR;", 9, "i, k : INT;", {"I": 3, "K": 2}),
        # FOR 1, each turn CASE 1 and the turn back, and of the arms 1, 2, 2 and 1
        ("a CASE in a FOR", "FOR i := 0 TO 3 DO CASE i OF 0: ; 1, 2: k := k + i; k := k + 1; ELSE k := k * 2; END_CASE; END_FOR;", 15, "i, k : INT;",
         {"I": 4, "K": 10}),
        # the assignment 1, FOR 1, 4 turns of 2
        ("a FOR in a function", "k := Sum(4);", 10, "k : INT;", {"K": 10}),
        ("a FOR in a function that isn't entered", "k := Sum(0);", 2, "k : INT;", {"K": 0}),
        ("a WHILE in a function", "k := Digits(907);", 12, "k : INT;", {"K": 3}),
        ("a REPEAT in a function", "k := Halves(5);", 11, "k : INT;", {"K": 3}),
        # the assignment 1, FOR 1, 3 turns of 2, IF 1, the result 1, RETURN 1
        ("RETURN out of a function's loop", "k := Least(10);", 11, "k : INT;", {"K": 4}),
        # WHILE 1, 4 tests of 1, 3 turns of 2
        ("a function in the condition of a WHILE", "WHILE Less(k, 3) DO k := k + 1; END_WHILE;", 11, "k : INT;", {"K": 3}),
        # REPEAT 1, 3 statements, 3 tests of 1, 2 turns back
        ("a function in the condition of a REPEAT", "REPEAT k := k + 1; UNTIL NOT Less(k, 3) END_REPEAT;", 9, "k : INT;", {"K": 3}),
        # FOR 1, start, limit and step 3, 2 turns of 2
        ("functions in a FOR are called once", "FOR i := One() TO One() + 1 BY One() DO k := k + 1; END_FOR;", 8, "i, k : INT;", {"I": 3, "K": 2}),
        ("a function in a function's argument", "k := Sum(Sum(2));", 13, "k : INT;", {"K": 6}),
        # two calls 2, FOR 1 and 2 turns of 2, FOR 1 and 3 turns of 2
        ("a FOR in a block", "r(n := 2); r(n := 3, s => k);", 14, "r : Ramp; k : INT;", {"K": 5, "R.S": 5, "R.I": 4}),
        # the call 1, WHILE 1, s 1, IF 1, back 1, s 1, IF 1, RETURN 1; the call 1, WHILE 1, s 1, IF 1, back 1
        ("RETURN out of a block's loop", "w(); w(s => k);", 13, "w : Wait; k : INT;", {"K": 3}),
        # each call 1, and within it the call 1, FOR 5 and the output 1
        ("a block in a block", "o(s => k); o();", 16, "o : Outer; k : INT;", {"K": 2, "O.S": 4}),
        ("standard functions and blocks take none", "t(IN := TRUE, PT := T#1s); c(CU := TRUE, PV := MAX(ABS(k), 1)); k := LIMIT(1, c.CV, 5);", 3,
         "t : TON; c : CTU; k : INT;", {"K": 1}),
        # the loop 1, its turns 4999 of 2, one statement more
        ("ten thousand ticks", "WHILE k < 4999 DO k := k + 1; END_WHILE; ;", 10000, "k : INT;", {"K": 4999}),
        # 1, and 249,999 turns of 4: 2 statements, the turn back, and the function's own; then 3 more
        ("a million ticks", "FOR i := 1 TO 249999 DO b := Less(1, 2); k := i; END_FOR; ; ; ;", 1000000, "i, k : DINT; b : BOOL;", {"K": 249999}),
    ):
        ticked(plant, name, body, count, f"VAR {variables} END_VAR", {f"R/P.{path}": value for path, value in wanted.items()}, before=UNITS)


def worked(plant):
    """The worked tables of statements, functions and blocks, with their values."""
    square = "FUNCTION Sq : DINT VAR_INPUT x : DINT; END_VAR Sq := x * x; END_FUNCTION"
    ticked(plant, "a square", "y := Sq(46340);", 2, "VAR y : DINT; END_VAR", {"R/P.Y": 2147395600}, before=square)
    faulted(plant, "a square outside its type", "y := Sq(46341);", "VAR y : DINT; END_VAR", "F1", before=square)
    for expression, kind, variables, fault in (
        ("ABS(x)", "SINT", "x : SINT := -128;", "F1"), ("INT_TO_USINT(256)", "USINT", "", "F4"), ("BYTE_TO_SINT(BYTE#16#80)", "SINT", "", "F4"),
        ("ROL(BYTE#16#81, -1)", "BYTE", "", "F1"),
    ):
        faulted(plant, expression, f"y := {expression};", f"VAR {variables} y : {kind}; END_VAR", fault)
    for expression, value in (("SHL(BYTE#16#81, 1)", "16#02"), ("ROL(BYTE#16#81, 1)", "16#03"), ("ROR(BYTE#16#81, 9)", "16#C0"),
                              ("SHR(BYTE#16#81, 8)", "16#00")):
        plant.scene(expression, configured(f"y := {expression};", "VAR y : BYTE; END_VAR"), {"R/P.Y": value})

    def listed(*values):
        each = iter(values)
        return lambda *_: next(each)

    def timed(*values):
        return listed(*({"Q": q, "ET": et} for q, et in values))
    times, period = (0, 50, 100, 150), "PT := T#100ms"
    on, off = [(1,)] * 4, [(1,), (0,), (0,), (0,)]
    block(plant, "the worked TON", "TON", ["IN"], on, timed((0, 0), (0, 50), (1, 100), (1, 100)), times, period)
    block(plant, "the worked TOF", "TOF", ["IN"], off, timed((1, 0), (1, 0), (1, 50), (0, 100)), times, period)
    block(plant, "the worked TP", "TP", ["IN"], off, timed((1, 0), (1, 50), (0, 0), (0, 0)), times, period)
    for name, q in (("TON", 1), ("TOF", 1), ("TP", 0)):
        block(plant, f"a {name} of no time", name, ["IN"], [(1,)], timed((q, 0)), [0], "PT := T#0ms")
    block(plant, "the worked F_TRIG", "F_TRIG", ["CLK"], [(0,), (0,)], listed({"Q": 1}, {"Q": 0}))
    block(plant, "the worked CTUD", "CTUD", ["CU", "CD"], [(1, 1), (0, 0), (1, 0)],
          listed({"CV": 0, "QD": 1}, {"CV": 0, "QD": 1}, {"CV": 1, "QD": 0}), preset="PV := 3")
    block(plant, "the worked CTU", "CTU", ["CU", "R"], [(1, 1), (1, 0)], listed({"CV": 0}, {"CV": 0}), preset="PV := 1")


def types(plant):
    shapes = """TYPE Pair : STRUCT a : INT := 1; b : BOOL; END_STRUCT; Pairs : ARRAY [-1..1] OF Pair;
Deep : STRUCT p : Pairs := [(a := 7), 2((b := TRUE))]; t : TIME := T#5s; END_STRUCT; END_TYPE"""
    plant.scene("initial values of structures and arrays", configured("d.p[0].a := d.p[-1].a + 1; x := d.p[1].a;",
                "VAR d : Deep; x : INT; e : Pairs := [2()]; END_VAR", before=shapes),
                {"R/P.D.P[-1].A": 7, "R/P.D.P[0].A": 8, "R/P.D.P[1].A": 1, "R/P.D.P[1].B": "TRUE", "R/P.D.P[-1].B": "FALSE", "R/P.D.T": "5000ms",
                 "R/P.X": 1, "R/P.E[1].A": 1})
    lists = "VAR a : ARRAY [1..5] OF INT := [1, 3(7)]; b : ARRAY [0..2] OF BYTE := [2(16#FF)]; c : ARRAY [0..1] OF TIME; END_VAR"
    plant.scene("lists shorter than their arrays", configured(";", lists),
                {"R/P.A[1]": 1, "R/P.A[4]": 7, "R/P.A[5]": 0, "R/P.B[1]": "16#FF", "R/P.B[2]": "16#00", "R/P.C[0]": "0ms"})
    step = """TYPE Mode : (Stopped, Running, Fault); END_TYPE
PROGRAM Step VAR_EXTERNAL m : Mode; END_VAR CASE m OF Stopped : m := Running; Running : m := Mode#Fault; END_CASE; END_PROGRAM
CONFIGURATION C VAR_GLOBAL RETAIN m : Mode; END_VAR RESOURCE R ON CPU
TASK T (INTERVAL := T#10ms, PRIORITY := 0); PROGRAM P WITH T : Step; END_RESOURCE END_CONFIGURATION"""
    for rows, mode in (("t\n", "STOPPED"), ("t\n0\n", "RUNNING"), ("t\n0\n10\n", "FAULT"), ("t\n0\n10\n20\n", "FAULT")):
        plant.scene("an enumerated step", step, {"M": mode}, rows=rows, store="step")
    body = (plant.folder / "step").read_bytes()
    area = body[131072:] if int.from_bytes(body[131073:131081]) > int.from_bytes(body[1:9]) else body
    record = area[13:13 + int.from_bytes(area[9:13])]
    if len(record) != 39 or record[12:38] != b"M (STOPPED,RUNNING,FAULT)\n" or record[38] != 2:
        sys.exit(f"{NAME}: the record of an enumerated step: {record}")
    plant.scene("a warm restart of an enumerated step", step, {"M": "FAULT"}, rows="t\n", start="warm", store="step")


def layouts(plant):
    text = """FUNCTION_BLOCK Fb VAR_INPUT a : INT; END_VAR VAR_OUTPUT RETAIN b : INT; END_VAR VAR NON_RETAIN c : INT; END_VAR END_FUNCTION_BLOCK
PROGRAM Pr VAR RETAIN f : Fb; t : TON; END_VAR VAR k : Fb; END_VAR END_PROGRAM
CONFIGURATION C RESOURCE R ON CPU TASK T (INTERVAL := T#10ms, PRIORITY := 0); PROGRAM P WITH T : Pr; END_RESOURCE END_CONFIGURATION"""
    _, values = plant.report("the paths of blocks", text)
    wanted = [f"R/P.{x}" for x in ("F.A", "F.B", "F.C", "T.IN", "T.PT", "T.Q", "T.ET", "T.RUN", "T.START", "K.A", "K.B", "K.C")]
    if list(values) != wanted:
        sys.exit(f"{NAME}: the paths of blocks: {list(values)}")
    sizes = plant.check(text)
    if sizes != "resources 1 tasks 1 programs 1 slots 12 retained 9".split():
        sys.exit(f"{NAME}: the sizes of blocks: {sizes}")


def tasks(plant):
    # row 0: P1, P2; row 1: P3, which comes first, and P1; row 2: none, since SINGLE stays; row 3: P1, P2
    text = """PROGRAM One VAR_EXTERNAL n, a : INT; END_VAR n := n + 1; a := a * 10 + n; END_PROGRAM
PROGRAM Two VAR_EXTERNAL n, b : INT; END_VAR n := n + 1; b := b * 10 + n; END_PROGRAM
PROGRAM Three VAR_EXTERNAL n, d : INT; END_VAR n := n + 1; d := d * 10 + n; END_PROGRAM
CONFIGURATION C VAR_GLOBAL n, a, b, d : INT; s AT %IX0 : BOOL; END_VAR RESOURCE R ON CPU
TASK T1 (SINGLE := s, INTERVAL := T#10ms, PRIORITY := 1); TASK T2 (INTERVAL := T#20ms, PRIORITY := 1); TASK T3 (SINGLE := s, PRIORITY := 0);
PROGRAM P1 WITH T1 : One; PROGRAM P2 WITH T2 : Two; PROGRAM P3 WITH T3 : Three; END_RESOURCE END_CONFIGURATION"""
    plant.scene("three tasks, row by row", text, {"A": 145, "B": 26, "D": 3, "done": 6, "overruns": 0}, rows="t,s\n0,0\n5,1\n10,1\n20,0\n")
    once = """PROGRAM A VAR_EXTERNAL n : INT; END_VAR n := n + 1; END_PROGRAM
CONFIGURATION C VAR_GLOBAL n : INT; END_VAR RESOURCE R ON CPU TASK T (INTERVAL := T#{}ms, PRIORITY := 0);
PROGRAM P WITH T : A; END_RESOURCE END_CONFIGURATION"""
    plant.scene("an INTERVAL of 10 ms from 5", once.format(10), {"N": 3}, rows="t\n5\n14\n15\n40\n")
    plant.scene("an INTERVAL of 10 ms from 0", once.format(10), {"N": 4}, rows="t\n0\n9\n10\n25\n29\n30\n")
    plant.scene("an INTERVAL of 0 ms", once.format(0), {"N": 0}, rows="t\n0\n9\n10\n")
    shared = """PROGRAM A VAR n : INT; END_VAR n := n + 1; END_PROGRAM
CONFIGURATION C RESOURCE R ON CPU TASK T (INTERVAL := T#10ms, PRIORITY := 3); TASK U (PRIORITY := 0); TASK V (INTERVAL := T#10ms, PRIORITY := 0);
PROGRAM P WITH T : A; PROGRAM Q WITH T : A; PROGRAM N WITH U : A; END_RESOURCE END_CONFIGURATION"""
    plant.scene("a task of two programs, one without a program, and one that never comes", shared,
                {"R/P.N": 2, "R/Q.N": 2, "R/N.N": 0, "done": 4}, rows="t\n0\n10\n")
    single = """PROGRAM A VAR_EXTERNAL g : BOOL; END_VAR g := NOT g; END_PROGRAM PROGRAM B VAR n : INT; END_VAR n := n + 1; END_PROGRAM
CONFIGURATION C VAR_GLOBAL g : BOOL; END_VAR RESOURCE R ON CPU TASK T (INTERVAL := T#10ms, PRIORITY := 0); TASK U (SINGLE := g, PRIORITY := 1);
PROGRAM P WITH T : A; PROGRAM Q WITH U : B; END_RESOURCE END_CONFIGURATION"""
    plant.scene("a SINGLE that is a global", single, {"R/Q.N": 2}, rows="t\n0\n10\n20\n30\n40\n")
    inputs = """PROGRAM A VAR_EXTERNAL CONSTANT i : INT; u : UINT; w : WORD; b : BOOL; END_VAR VAR_EXTERNAL s : DINT; END_VAR
s := INT_TO_DINT(i) + UINT_TO_DINT(u) + WORD_TO_DINT(w) + BOOL_TO_DINT(b); END_PROGRAM
CONFIGURATION C VAR_GLOBAL i AT %IW0 : INT; s : DINT; u AT %IW1 : UINT; w AT %IW2 : WORD; b AT %IX3 : BOOL; END_VAR RESOURCE R ON CPU
TASK T (INTERVAL := T#10ms, PRIORITY := 0); PROGRAM P WITH T : A; END_RESOURCE END_CONFIGURATION"""
    plant.scene("inputs of each type", inputs, {"S": -32768 + 65535 + 65535 + 1}, rows="t,I,u,w,b\n0,-32768,65535,65535,1\n")


# the text of each of 64 programs; @ is the number of its type
WORK = """PROGRAM Work@
VAR RETAIN n : DINT; m : Mode; p : Point; END_VAR
VAR flow : Meter; late : TON; edge : R_TRIG; i, rises, lates : INT; END_VAR
VAR_EXTERNAL shared : LINT; END_VAR
VAR_EXTERNAL CONSTANT level : INT; go : BOOL; END_VAR
n := n + @ + 1;
shared := shared + @ + 1;
CASE m OF Idle: IF go THEN m := Fill; END_IF; Fill: m := Mode#Drain; ELSE m := Idle; END_CASE;
FOR i := 0 TO 2 DO p.y[i] := p.y[i] + INT_TO_DINT(level) * INT_TO_DINT(i); END_FOR;
p.x := level;
flow(step := Rest(n, 5));
late(IN := go, PT := T#@0ms + T#20ms);
IF late.Q THEN lates := lates + 1; END_IF;
edge(CLK := go);
IF edge.Q THEN rises := rises + 1; END_IF;
WHILE i < 10 + @ DO i := i + 1; END_WHILE;
REPEAT i := i - 1; UNTIL i <= @ END_REPEAT;
END_PROGRAM
"""


def working(number, rows):
    """The values of a program of this number after rows of (moment, level, go)."""
    n = x = rises = lates = total = counted = 0
    mode, y, on, before, cu = "IDLE", [0, 0, 0], False, False, False
    step = timer("TON", 10 * number + 20)
    for now, level, go in rows:
        n += number + 1
        mode = {"IDLE": "FILL" if go else "IDLE", "FILL": "DRAIN", "DRAIN": "IDLE"}[mode]
        y = [old + level * k for k, old in enumerate(y)]
        x = level
        total += n % 5
        on = not on
        counted += on and not cu
        cu = on
        lates += step(go, now)["Q"]
        rises += bool(go and not before)
        before = go
    kept = {"N": n, "M": mode, "P.X": x, **{f"P.Y[{k}]": v for k, v in enumerate(y)}}
    own = {"FLOW.TOTAL": total, "FLOW.FULL": spelled("BOOL", counted >= 3), "FLOW.C.CV": counted, "I": number, "RISES": rises, "LATES": lates}
    return kept, own


def many(plant, count=30):
    """64 programs on 8 resources, each over most of the language, and their kept values."""
    pick = random.Random(3)
    rows = [(10 * k, pick.choice((-32768, -7, 0, 1, 32767)), int(pick.random() < 0.7)) for k in range(count)]
    table = "t,level,go\n" + "".join(f"{t},{level},{go}\n" for t, level, go in rows)
    units = "".join(WORK.replace("@", str(k)) for k in range(8))
    tasks_ = " ".join(f"TASK T{k} (INTERVAL := T#10ms, PRIORITY := {7 - k});" for k in range(8))
    programs = " ".join(f"PROGRAM P{k} WITH T{k} : Work{k};" for k in range(8))
    text = f"""TYPE Mode : (Idle, Fill, Drain); Point : STRUCT x : INT; y : ARRAY [0..2] OF DINT; END_STRUCT; END_TYPE
FUNCTION Rest : DINT VAR_INPUT v, d : DINT; END_VAR Rest := v MOD d; END_FUNCTION
FUNCTION_BLOCK Meter VAR_INPUT step : DINT := 1; END_VAR VAR_OUTPUT total : DINT; full : BOOL; END_VAR VAR c : CTU; high : BOOL; END_VAR
total := total + step; high := NOT high; c(CU := high, PV := 3); full := c.Q; END_FUNCTION_BLOCK
{units}CONFIGURATION C
VAR_GLOBAL RETAIN shared : LINT; END_VAR VAR_GLOBAL level AT %IW0 : INT; go AT %IX0 : BOOL; END_VAR
{' '.join(f'RESOURCE R{r} ON CPU {tasks_} {programs} END_RESOURCE' for r in range(8))}
END_CONFIGURATION"""
    wanted, again = {"SHARED": len(rows) * 8 * 36}, {"SHARED": len(rows) * 8 * 36}
    for r, k in itertools.product(range(8), repeat=2):
        kept, own = working(k, rows)
        wanted |= {f"R{r}/P{k}.{path}": value for path, value in (kept | own).items()}
        again |= {f"R{r}/P{k}.{path}": value for path, value in kept.items()} | {f"R{r}/P{k}.RISES": 0, f"R{r}/P{k}.FLOW.TOTAL": 0}
    done = {"rows": len(rows), "done": 64 * len(rows), "faults": 0, "overruns": 0, "acked": 65 * len(rows)}
    plant.scene("64 programs on 8 resources", text, wanted | done, rows=table, trace=True)
    replayed(plant, "the trace of 64 programs", text, wanted)
    plant.scene("64 programs warm again", text, again | {"rows": 0}, rows="t,level,go\n", start="warm")
    counts, values = plant.report("64 programs at pace free", text, rows=table, pace="free", trace=True)
    if int(counts["done"]) + int(counts["overruns"]) != 64 * len(rows) or int(counts["acked"]) != len(rows) + int(counts["done"]):
        sys.exit(f"{NAME}: 64 programs at pace free: {counts}")
    if sum(int(values[f"R{r}/P{k}.N"]) for r in range(8) for k in range(8)) != int(values["SHARED"]):
        sys.exit(f"{NAME}: 64 programs at pace free: {values['SHARED']} shared")
    replayed(plant, "the trace of 64 programs at pace free", text, values)
    sizes = plant.check(text)
    if sizes != "resources 8 tasks 64 programs 64 slots 1793 retained 385".split():
        sys.exit(f"{NAME}: the sizes of 64 programs: {sizes}")


def replayed(plant, name, text, wanted):
    """Checks that the last trace, replayed over the last plant in one thread, has these values."""
    ran = plant.replay(text)
    lines = dict(line.split(" = ", 1) for line in ran.stdout.splitlines()[4:])
    wrong = {path: lines.get(path) for path, value in wanted.items() if lines.get(path) != str(value)}
    if ran.returncode or wrong:
        sys.exit(f"{NAME}: {name}: status {ran.returncode}, {ran.stderr.strip()} {wrong}")
    plant.scenes += 1


def all_globals(plant):
    """The most globals that a text may have, each of them added to, and kept."""
    half = 2048
    units = []
    for unit, first in (("A", 1), ("B", half + 1)):
        numbers = range(first, first + half)
        external, body = (" ".join(form.format(k) for k in numbers) for form in ("g{0} : INT;", "g{0} := g{0} + {0};"))
        units.append(f"PROGRAM {unit} VAR_EXTERNAL {external} END_VAR {body} END_PROGRAM")
    declared = " ".join(f"g{k} : INT;" for k in range(1, 2 * half + 1))
    text = "\n".join(units) + f"""
CONFIGURATION C VAR_GLOBAL RETAIN {declared} END_VAR RESOURCE R ON CPU TASK T (INTERVAL := T#10ms, PRIORITY := 0);
PROGRAM P WITH T : A; PROGRAM Q WITH T : B; END_RESOURCE END_CONFIGURATION"""
    wanted = {f"G{k}": 3 * k for k in range(1, 2 * half + 1)}
    plant.scene("4,096 globals", text, wanted | {"done": 6, "faults": 0}, rows="t\n0\n10\n20\n", trace=True)
    replayed(plant, "the trace of 4,096 globals", text, wanted)
    plant.scene("4,096 globals warm again", text, wanted | {"rows": 0}, rows="t\n", start="warm")
    sizes = plant.check(text)
    if sizes != "resources 1 tasks 1 programs 2 slots 4096 retained 4096".split():
        sys.exit(f"{NAME}: the sizes of 4,096 globals: {sizes}")


def main():
    with tempfile.TemporaryDirectory() as folder:
        plant = Plant(str(pathlib.Path(sys.argv[1]).resolve()), pathlib.Path(folder))
        for part in (statements, ticks, worked, types, layouts, tasks, many, all_globals, blocks, arithmetic, durations, comparisons, bits, shifts, selections, conversions):
            part(plant)
        print(f"language.py: {plant.scenes} scenes")


if __name__ == "__main__":
    main()
