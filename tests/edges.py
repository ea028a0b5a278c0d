#!/usr/bin/env python3
"""Runs operators, loops, labels, subscripts, conversions and standard blocks at the limits of each type, on the built program.

This script computes the expected values from the formulas of the language, on unbounded numbers. Hundreds of rows go into one text; each row
that faults has a program of its own, and the trace has its fault.

usage: tests/edges.py PLANT     PLANT is the built program
"""
import itertools
import pathlib
import random
import subprocess
import sys
import tempfile

sys.dont_write_bytecode = True
import language  # noqa: E402
from language import ALL, BITS, COMPARISONS, NUMBERS, SIGNED, UNSIGNED, batches, edges, greatest, holds, in_type, least, quotient, spelled

TIME_TOP = 2**63 - 1
DURATIONS = (-TIME_TOP - 1, -TIME_TOP, -1, 0, 1, 86_400_000, TIME_TOP)
# enumerated types, and their declarations
NAMED = {"Hue": ("Red", "Green", "Blue"), "One": ("Alone",), "Wide": tuple(f"W{k}" for k in range(256))}
ENUMERATIONS = "TYPE " + " ".join(f"{name} : ({', '.join(names)});" for name, names in NAMED.items()) + " END_TYPE\n"
MOST_ROWS = 400
MOST_FAULTS = 64


def fail(name, answer):
    sys.exit(f"edges.py: {name}: {answer}")


def shown(kind, number):
    """A value as a report prints it."""
    return NAMED[kind][number].upper() if kind in NAMED else spelled(kind, number)


def literal(kind, number):
    """A value as an expression writes it in a place of its type."""
    if kind == "TIME":
        return f"T#{number}ms"
    if kind in NAMED:
        return f"{kind}#{NAMED[kind][number]}"
    return spelled(kind, number) if kind == "BOOL" else str(number)


def is_literal(kind, number):
    return kind != "TIME" or number >= 0


class Rows:
    """Statements over variables, each with the values that it leaves, or with its fault.

    In variables and statements `~` means the number of the row.
    """

    def __init__(self, before=""):
        self.before, self.given, self.faults = before, [], []

    def add(self, variables, body, wanted):
        """Variables are (name, type, number or text of an initial value); `wanted` is a fault, or numbers by name."""
        (self.faults if isinstance(wanted, str) else self.given).append((variables, body, wanted))

    def value(self, kind, number, expression, operands):
        """An expression with `@` in place of each operand, which are (type, number)."""
        variables = [(f"a~_{j}", *operand) for j, operand in enumerate(operands)]
        for name, _, _ in variables:
            expression = expression.replace("@", name, 1)
        self.add([*variables, ("r~", kind, None)], f"r~ := {expression};", number if isinstance(number, str) else {"r~": number})

    def check(self, plant, name):
        for rows in batches(self.given, MOST_ROWS):
            self.check_values(plant, name, rows)
        for rows in batches(self.faults, MOST_FAULTS):
            self.check_faults(plant, name, rows)

    @staticmethod
    def declared(variables, number):
        """The declarations of a row, and assignments of values that no literal can write."""
        declarations, assigned = [], []
        for name, kind, initial in variables:
            name = name.replace("~", str(number))
            if initial is None:
                declarations.append(f"{name} : {kind};")
            elif isinstance(initial, str):
                declarations.append(f"{name} : {kind} := {initial};")
            elif is_literal(kind, initial):
                declarations.append(f"{name} : {kind} := {literal(kind, initial)};")
            else:
                declarations.append(f"{name} : {kind};")
                assigned.append(f"{name} := T#0ms - T#{-1 - initial}ms - T#1ms;")
        return declarations, assigned

    def check_values(self, plant, name, rows):
        declarations, body, wanted = [], [], {}
        for number, (variables, statements, numbers) in enumerate(rows):
            kinds = {each: kind for each, kind, _ in variables}
            declared, assigned = self.declared(variables, number)
            declarations += declared
            body += [*assigned, statements.replace("~", str(number))]
            for each, value in numbers.items():
                at = each.replace("~", str(number)).upper()
                wanted[f"R/P.{at}"] = shown(kinds.get(each, numbers_kind(each, kinds)), value)
        text = language.configured("\n".join(body), "VAR " + "\n".join(declarations) + " END_VAR", before=self.before)
        plant.scene(name, text, wanted | {"faults": 0, "done": 1}, budget=1_000_000)

    def check_faults(self, plant, name, rows):
        """Runs each row in a program of its own, whose values have to stay initial."""
        units, instances, wanted = [], [], {"faults": len(rows), "done": len(rows)}
        for number, (variables, statements, _) in enumerate(rows):
            declared, assigned = self.declared(variables, number)
            body = " ".join(assigned) + " x := 5; " + statements.replace("~", str(number))
            units.append(f"PROGRAM U{number} VAR {' '.join(declared)} x : INT; END_VAR {body} END_PROGRAM")
            instances.append(f"PROGRAM P{number} WITH T : U{number};")
            wanted[f"R/P{number}.X"] = "0"
        text = self.before + "\n".join(units) + f"""
CONFIGURATION C RESOURCE R ON CPU TASK T (INTERVAL := T#1ms, PRIORITY := 0);
{' '.join(instances)} END_RESOURCE END_CONFIGURATION"""
        plant.scene(name, text, wanted, trace=True)
        found = [line.split()[-1] for line in (plant.folder / "trace").read_text().splitlines() if line.startswith("done ")]
        if found != [fault for _, _, fault in rows]:
            fail(name, f"faults {found}\n{text}")


def numbers_kind(path, kinds):
    """The type of an element of an array, whose variable is declared `ARRAY [..] OF TYPE`."""
    return kinds[path.split("[")[0]].split(" OF ")[-1]


# ---- literal and computed operands

def plain(kind, number):
    """The forms of an operand: a variable, a literal, and an operation, each with the operands that it names."""
    same = {"BOOL": "NOT (NOT @)", "TIME": "(@ + T#0ms)"}.get(kind, "(@ OR 0)" if kind in BITS else "(@ + 0)")
    forms = [("@", [(kind, number)]), (same, [(kind, number)])]
    if is_literal(kind, number):
        forms.append((f"({literal(kind, number)})" if number < 0 else literal(kind, number), []))
    return forms


def over(rows, result, kind, a, b, number, mark):
    """Adds an operation over its operands in every form, except over two literals, which have no type."""
    for (left, named), (right, more) in itertools.product(plain(kind, a), plain(kind, b)):
        if named or more:
            rows.value(result, number, f"{left} {mark} {right}", named + more)


def few(kind):
    """The limits of a type, and numbers around 0."""
    return sorted({n for n in (least(kind), -1, 0, 1, 2, greatest(kind)) if holds(kind, n)})


def operands(plant):
    for kind in NUMBERS:
        rows = Rows()
        for a, b in itertools.product(few(kind), repeat=2):
            over(rows, kind, kind, a, b, in_type(kind, a + b), "+")
            over(rows, kind, kind, a, b, in_type(kind, a - b), "-")
            over(rows, kind, kind, a, b, in_type(kind, a * b), "*")
            over(rows, kind, kind, a, b, in_type(kind, quotient(a, b)) if b else "F2", "/")
            over(rows, kind, kind, a, b, a - quotient(a, b) * b if b else 0, "MOD")
        for a in edges(kind):
            rows.value(kind, a, literal(kind, a), [])
            rows.value(kind, in_type(kind, abs(a)), "ABS(@ + 0)", [(kind, a)])
            if kind in SIGNED:
                rows.value(kind, in_type(kind, -a), "-(@ + 0)", [(kind, a)])
        rows.check(plant, f"operands of {kind}")
    for kind in [*BITS, "BOOL"]:
        rows, top = Rows(), greatest(kind)
        for a, b in itertools.product(few(kind), repeat=2):
            for mark, number in (("AND", a & b), ("&", a & b), ("OR", a | b), ("XOR", a ^ b)):
                over(rows, kind, kind, a, b, number, mark)
        for a in edges(kind):
            rows.value(kind, a, literal(kind, a), [])
            for form, named in plain(kind, a)[:2]:
                rows.value(kind, top - a, f"NOT {form}" if not form.startswith("NOT") else f"NOT ({form})", named)
        rows.check(plant, f"operands of {kind}")


def groups(plant):
    """Operators without parentheses, which group by precedence and from the left."""
    rows = Rows()
    names = [("DINT", n) for n in (7, -3, 2, 5)]
    a, b, c, d = (n for _, n in names)
    for expression, number in (
        ("@ - @ - @", a - b - c), ("@ - @ * @", a - b * c), ("@ * @ - @", a * b - c), ("@ / @ * @", quotient(a, b) * c),
        ("@ MOD @ * @", (a - quotient(a, b) * b) * c), ("@ / @ / @", quotient(quotient(a, b), c)), ("-@ * @ + @", -a * b + c),
        ("@ - (@ - @)", a - (b - c)),
    ):
        rows.value("DINT", number, expression, names[:3])
    for expression, number in (
        ("@ + @ * @ - @", a + b * c - d), ("(@ + @) * (@ - @)", (a + b) * (c - d)), ("@ - @ MOD @ + @", a - (b - quotient(b, c) * c) + d),
        ("MAX(@ + @, @) * @", max(a + b, c) * d), ("@ * MIN(@, @ - @)", a * min(b, c - d)),
    ):
        rows.value("DINT", number, expression, names)
    for p, q, r in itertools.product((0, 1), repeat=3):
        truths = [("BOOL", p), ("BOOL", q), ("BOOL", r)]
        rows.value("BOOL", p or (q and r), "@ OR @ AND @", truths)
        rows.value("BOOL", (p and q) or r, "@ AND @ OR @", truths)
        rows.value("BOOL", p ^ (q and r), "@ XOR @ & @", truths)
        rows.value("BOOL", p or (q ^ r), "@ OR @ XOR @", truths)
        rows.value("BOOL", (p == q) == r, "@ = @ = @", truths)
        rows.value("BOOL", p and (q != r), "@ AND @ <> @", truths)
        rows.value("BOOL", (1 - p) and q or r, "NOT @ AND @ OR @", truths)
        rows.value("BOOL", (1 + p < 2 + q) == bool(r), "1 + BOOL_TO_INT(@) < 2 + BOOL_TO_INT(@) = @", truths)
    rows.check(plant, "levels of operators")


def spellings(plant):
    """Literals in each of their forms, and expressions of only literals, which take the type of their place."""
    rows = Rows()
    for kind, expression, number in (
        ("INT", "3 -5", -2), ("INT", "3 - -5", 8), ("INT", "-(5)", -5), ("INT", "-5 * -3", 15), ("INT", "-7 / 2", -3),
        ("INT", "-7 MOD 4", -3),
        ("INT", "16#7F", 127), ("INT", "2#1111_0000", 240), ("INT", "8#777", 511), ("INT", "1_000", 1000), ("INT", "007", 7),
        ("INT", "INT#16#10", 16), ("INT", "-16#8000", -32768), ("SINT", "-2#1000_0000", -128), ("SINT", "-SINT#128", -128),
        ("UINT", "UINT#65535", 65535), ("LINT", "-9223372036854775808", -2**63), ("ULINT", "16#FFFF_FFFF_FFFF_FFFF", 2**64 - 1),
        ("WORD", "NOT 0", 65535), ("WORD", "1 OR 6", 7), ("WORD", "16#F0F0 AND 16#FF00", 0xF000), ("WORD", "NOT 16#00FF XOR 1", 0xFF01),
        ("BYTE", "BYTE#2#1010 XOR 16#0F", 5), ("BYTE", "NOT BYTE#16#0F", 0xF0), ("BYTE", "-BYTE#0", 0),
        ("LWORD", "NOT LWORD#0", 2**64 - 1), ("BOOL", "BOOL#1", 1), ("BOOL", "BOOL#0", 0), ("BOOL", "NOT TRUE OR FALSE", 0),
        ("BOOL", "1 = 1", 1), ("BOOL", "2 < 1", 0),
        ("BOOL", "9223372036854775807 > -9223372036854775808", 1), ("BOOL", "T#1s = T#1000ms", 1), ("BOOL", "TRUE <> FALSE", 1),
        ("TIME", "T#1d", 86_400_000), ("TIME", "TIME#1h_30m", 5_400_000), ("TIME", "t#90s", 90_000), ("TIME", "T#1m30s500ms", 90_500),
        ("TIME", "T#25h_15m", 90_900_000), ("TIME", "T#0ms - T#1s", -1000),
        ("LINT", "SEL(TRUE, 1, 2)", 2), ("LINT", "MAX(1, 2)", 2), ("LINT", "MIN(-1, 2)", -1), ("LINT", "ABS(-3)", 3),
        ("LINT", "LIMIT(1, 7, 5)", 5),
        ("LINT", "LIMIT(5, 3, 1)", 1), ("DINT", "INT_TO_DINT(-5)", -5), ("BYTE", "SHL(BYTE#1, 7)", 128), ("INT", "BOOL_TO_INT(TRUE)", 1),
        ("SINT", "100 + 28", "F1"), ("SINT", "-(-128)", "F1"), ("USINT", "0 - 1", "F1"), ("INT", "1 / (2 - 2)", "F2"),
        ("INT", "7 MOD (2 - 2)", 0),
        ("LINT", "ABS(-9223372036854775808)", "F1"), ("USINT", "INT_TO_USINT(-1)", "F4"),
    ):
        rows.value(kind, number, expression, [])
    for expression, number in (("@ -5", 2), ("@ - -5", 12), ("@-5", 2), ("-@", -7), ("- @ - - @", 0), ("(@) * (((2)))", 14),
                               ("-(@ + 1)", -8)):
        rows.value("INT", number, expression, [("INT", 7)] * expression.count("@"))
    rows.check(plant, "spellings of literals")


def outputs(plant):
    """A block's inputs are evaluated before its body, and its outputs copied in order; each target is evaluated when it is reached."""
    rows = Rows("""FUNCTION_BLOCK Two VAR_INPUT x, y : INT; END_VAR VAR_OUTPUT n, m : INT; END_VAR
n := x + 1; m := x * 10 + y; END_FUNCTION_BLOCK
""")
    names = [("b~", "Two", None), ("i~", "INT", 0), ("a~", "ARRAY [0..3] OF INT", None)]
    rows.add(names, "b~(x := 1, y := 4, n => i~, m => a~[i~]);", {"i~": 2, "a~[0]": 0, "a~[2]": 14})
    rows.add(names, "b~(x := 1, m => a~[i~], n => i~);", {"i~": 2, "a~[0]": 10, "a~[2]": 0})
    rows.add(names, "b~(x := 1, y := 2); b~(y := b~.n, x := b~.m); i~ := b~.m;", {"i~": 122})
    rows.add(names, "b~(x := 1); b~(x := b~.n); b~(x := b~.n, n => i~);", {"i~": 4})
    rows.add(names, "b~(x := i~ + 1, n => i~, y := i~); a~[1] := b~.m;", {"i~": 2, "a~[1]": 10})
    rows.add(names, "b~(x := 8, n => a~[i~ + 4]);", "F3")
    rows.add(names, "b~(x := 8, n => i~, m => a~[i~]);", "F3")
    rows.add(names, "b~(x := 1 / i~, y := 1);", "F2")
    rows.check(plant, "inputs and outputs of a block")


def comparisons(plant):
    """Comparisons in every form, as values and as conditions."""
    for kind in [*ALL, "TIME", "Hue"]:
        rows = Rows(ENUMERATIONS if kind in NAMED else "")
        numbers = DURATIONS if kind == "TIME" else range(3) if kind in NAMED else few(kind)
        marks = COMPARISONS[4:] if kind == "BOOL" or kind in NAMED else COMPARISONS
        for a, b in itertools.product(numbers, repeat=2):
            for mark, holds_ in marks:
                true = int(holds_(a, b))
                if kind in NAMED:
                    for left, right, named in (("@", "@", [(kind, a), (kind, b)]), ("@", literal(kind, b), [(kind, a)]),
                                               (literal(kind, a), "@", [(kind, b)])):
                        rows.value("BOOL", true, f"{left} {mark} {right}", named)
                else:
                    over(rows, "BOOL", kind, a, b, true, mark)
                names = [("a~", kind, a), ("b~", kind, b), ("r~", "INT", None), ("s~", "INT", None), ("t~", "INT", None)]
                rows.add(names, f"IF a~ {mark} b~ THEN r~ := 1; ELSE r~ := 2; END_IF; "
                         f"IF NOT (a~ {mark} b~) THEN s~ := 1; ELSIF a~ {mark} b~ THEN s~ := 2; END_IF; "
                         f"WHILE a~ {mark} b~ DO t~ := t~ + 1; EXIT; END_WHILE;",
                         {"r~": 1 if true else 2, "s~": 2 if true else 1, "t~": true})
                rows.add([*names[:3], ("n~", "INT", None)], f"REPEAT n~ := n~ + 1; UNTIL a~ {mark} b~ OR n~ = 3 END_REPEAT;",
                         {"n~": 1 if true else 3})
        rows.check(plant, f"comparisons of {kind}")


def durations(plant):
    rows = Rows()
    for a, b in itertools.product(DURATIONS, repeat=2):
        total, less = a + b, a - b
        over(rows, "TIME", "TIME", a, b, total if -TIME_TOP - 1 <= total <= TIME_TOP else "F1", "+")
        over(rows, "TIME", "TIME", a, b, less if -TIME_TOP - 1 <= less <= TIME_TOP else "F1", "-")
        both = [("TIME", a), ("TIME", b)]
        rows.value("TIME", min(a, b), "MIN(@, @)", both)
        rows.value("TIME", max(a, b), "MAX(@, @)", both)
        rows.value("TIME", b, "SEL(TRUE, @, @)", both)
        rows.value("TIME", a, "SEL(FALSE, @, @)", both)
        for c in DURATIONS:
            rows.value("TIME", min(max(b, a), c), "LIMIT(@, @, @)", [*both, ("TIME", c)])
    rows.check(plant, "durations of either sign")


def selections(plant):
    for kind in NUMBERS:
        rows = Rows()
        for a, b, c in itertools.product(few(kind), repeat=3):
            rows.value(kind, min(max(b, a), c), "LIMIT(@, @, @)", [(kind, a), (kind, b), (kind, c)])
        for a, b in itertools.product(few(kind), repeat=2):
            for name, number in (("MIN", min(a, b)), ("MAX", max(a, b))):
                rows.value(kind, number, f"{name}(@, {literal(kind, b)})", [(kind, a)])
                rows.value(kind, number, f"{name}({literal(kind, a)}, @)", [(kind, b)])
                rows.value(kind, number, f"{name}(@ + 0, @ + 0)", [(kind, a), (kind, b)])
        rows.check(plant, f"selections of {kind}")
    rows = Rows(ENUMERATIONS)
    for kind in [*ALL, *NAMED]:
        numbers = range(0, len(NAMED[kind]), 255) if kind == "Wide" else range(len(NAMED[kind])) if kind in NAMED else few(kind)
        for a, b in itertools.product(numbers, repeat=2):
            for g, form in itertools.product((0, 1), ("@", "@ = TRUE", "NOT (NOT @)")):
                rows.value(kind, b if g else a, f"SEL({form}, @, @)", [("BOOL", g), (kind, a), (kind, b)])
    rows.check(plant, "SEL of each type")


def conversions(plant):
    """Each conversion at the limits of both types, and one past them."""
    for source in ALL:
        rows = Rows()
        for target in ALL:
            if source == target:
                continue
            ends = (least(target), greatest(target), least(target) - 1, greatest(target) + 1, *few(source))
            for a in sorted({n for n in ends if holds(source, n)}):
                number = a if holds(target, a) else "F4"
                rows.value(target, number, f"{source}_TO_{target}(@)", [(source, a)])
                rows.value(target, number, f"{source}_TO_{target}({literal(source, a)})", [])
        rows.check(plant, f"conversions of {source}")


def shifts(plant):
    for kind, width in BITS.items():
        rows, top = Rows(), greatest(kind)
        for count in NUMBERS:
            turns = edges(count) + [n for n in (width - 1, width, width + 1) if holds(count, n)]
            for a, n in itertools.product((0, 1, 5, top // 2 + 1, top), turns):
                turn = n % width
                given = {
                    "SHL": (a << n) & top if 0 <= n < width else 0,
                    "SHR": a >> n if 0 <= n < width else 0,
                    "ROL": ((a << turn) | (a >> (width - turn))) & top,
                    "ROR": ((a >> turn) | (a << (width - turn))) & top,
                }
                for name, number in given.items():
                    if n >= 0 or a in (1, top):
                        rows.value(kind, number if n >= 0 else "F1", f"{name}(@, @)", [(kind, a), (count, n)])
        for n in (0, 1, width - 1, width, 2**63 - 1):
            a, turn = 5, n % width
            rows.value(kind, (a << n) & top if n < width else 0, f"SHL(@, {n})", [(kind, a)])
            rows.value(kind, ((a >> turn) | (a << (width - turn))) & top, f"ROR(@, {n})", [(kind, a)])
        rows.value(kind, "F1", "SHR(@, -1)", [(kind, 1)])
        rows.check(plant, f"shifts of {kind}")


# ---- statements

def counted(kind, start, limit, step, most):
    """The control variable after a FOR, and the number of turns; None if they are more than `most`."""
    i, turns = start, 0
    while (i <= limit) if step > 0 else (i >= limit):
        turns += 1
        if turns > most:
            return None
        if not holds(kind, i + step):
            break
        i += step
    return i, turns


def loops(plant):
    for kind in NUMBERS:
        rows = Rows()
        steps = [n for n in (1, 2, 3, -1, -2, -3, greatest(kind), least(kind)) if holds(kind, n) and n]
        for start, limit in itertools.product(edges(kind), repeat=2):
            names = [("i~", kind, None), ("a~", kind, start), ("b~", kind, limit), ("k~", "INT", None)]
            for step in steps:
                given = counted(kind, start, limit, step, 5)
                if given:
                    wanted = {"i~": given[0], "k~": given[1]}
                    rows.add([*names, ("c~", kind, step)], "FOR i~ := a~ TO b~ BY c~ DO k~ := k~ + 1; END_FOR;", wanted)
                    rows.add([names[0], names[3]], f"FOR i~ := {start} TO {limit} BY {step} DO k~ := k~ + 1; END_FOR;", wanted)
            given = counted(kind, start, limit, 1, 5)
            if given:
                rows.add(names, "FOR i~ := a~ TO b~ DO k~ := k~ + 1; END_FOR;", {"i~": given[0], "k~": given[1]})
        rows.add([("i~", kind, None), ("z~", kind, 0)], "FOR i~ := 1 TO 2 BY z~ DO ; END_FOR;", "F6")
        rows.check(plant, f"FOR over {kind}")


def labels(plant):
    for kind in NUMBERS:
        rows, low, high = Rows(), least(kind), greatest(kind)
        body = (f"CASE s~ OF {low}: r~ := 1; {low + 1}..{low + 3}: r~ := 2; {high - 3}..{high - 1}: r~ := 3; {high}: r~ := 4; "
                "ELSE r~ := 5; END_CASE;")
        middle = (low + high) // 2
        for s in sorted({low, low + 1, low + 2, low + 3, low + 4, middle, high - 4, high - 3, high - 2, high - 1, high}):
            place = 1 if s == low else 2 if s <= low + 3 else 4 if s == high else 3 if s >= high - 3 else 5
            names = [("s~", kind, s), ("r~", "INT", 9)]
            rows.add(names, body, {"r~": place})
            rows.add(names, body.replace("CASE s~ OF", "CASE s~ + 0 OF"), {"r~": place})
            rows.add(names, f"CASE s~ OF {low}..{high}: r~ := 1; ELSE r~ := 2; END_CASE;", {"r~": 1})
            rows.add(names, f"CASE s~ OF {kind}#{high}, {low}: r~ := 1; END_CASE;", {"r~": 1 if s in (low, high) else 9})
        rows.check(plant, f"CASE over {kind}")
    rows = Rows(ENUMERATIONS)
    for s, (name, number) in itertools.product(range(3), zip(("Red", "Hue#Green", "Blue"), range(3))):
        names = [("s~", "Hue", s), ("r~", "INT", 9)]
        rows.add(names, f"CASE s~ OF {name}: r~ := 1; END_CASE;", {"r~": 1 if s == number else 9})
        rows.add(names, f"CASE s~ OF {name}: r~ := 1; ELSE r~ := 2; END_CASE;", {"r~": 1 if s == number else 2})
    for s in (0, 1, 127, 128, 254, 255):
        rows.add([("s~", "Wide", s), ("r~", "INT", 9)], "CASE s~ OF W0: r~ := 1; W127, W254: r~ := 2; Wide#W255: r~ := 3; END_CASE;",
                 {"r~": {0: 1, 127: 2, 254: 2, 255: 3}.get(s, 9)})
    rows.add([("s~", "One", 0), ("r~", "INT", 9)], "CASE s~ OF Alone: r~ := 1; ELSE r~ := 2; END_CASE;", {"r~": 1})
    rows.check(plant, "CASE over names")


def subscripts(plant):
    for kind in NUMBERS:
        rows, low, high = Rows(), least(kind), greatest(kind)
        for first in sorted({low, 0 if low < 0 else 1, high - 2}):
            typed = f"{kind}#" if first >= 0 else ""
            bounds = f"ARRAY [{typed}{first}..{typed}{first + 2}] OF DINT"
            for i in sorted({n for n in (low, first - 1, first, first + 1, first + 2, first + 3, high) if holds(kind, n)}):
                names = [("a~", bounds, "[11, 22, 33]"), ("i~", kind, i), ("r~", "DINT", None)]
                inside = first <= i <= first + 2
                rows.add(names, "r~ := a~[i~];", {"r~": 11 * (i - first + 1)} if inside else "F3")
                rows.add(names, "a~[i~] := 44;", {f"a~[{i}]": 44} if inside else "F3")
                rows.add(names, "r~ := a~[i~ + 0] + 1;", {"r~": 11 * (i - first + 1) + 1} if inside else "F3")
        rows.check(plant, f"subscripts of {kind}")
    rows = Rows("TYPE Line : ARRAY [-1..1] OF INT; Face : ARRAY [5..6] OF Line; Body : STRUCT f : Face; n : INT; END_STRUCT; END_TYPE\n")
    for i, j in itertools.product(range(4, 8), range(-2, 3)):
        inside = 5 <= i <= 6 and -1 <= j <= 1
        names = [("b~", "Body", None), ("i~", "INT", i), ("j~", "SINT", j), ("r~", "INT", None)]
        rows.add(names, "b~.f[i~][j~] := 7; r~ := b~.f[i~][j~];", {"r~": 7} if inside else "F3")
    for i in (1, 2, 3):
        rows.add([("a~", "ARRAY [1..3] OF INT", "[3, 1, 2]"), ("i~", "INT", i), ("r~", "INT", None)], "r~ := a~[a~[a~[i~]]];",
                 {"r~": (None, 3, 1, 2)[(None, 3, 1, 2)[(None, 3, 1, 2)[i]]]})
    # a subscript is checked before the next one is evaluated, and an expression before the subscripts of its target
    flat = [("a~", "Face", None), ("i~", "INT", 9), ("z~", "INT", 0), ("r~", "INT", None)]
    rows.add(flat, "r~ := a~[i~][1 / z~];", "F3")
    rows.add(flat, "a~[i~][1 / z~] := 1;", "F3")
    rows.add(flat, "r~ := a~[1 / z~][i~];", "F2")
    rows.add(flat, "a~[i~][0] := 1 / z~;", "F2")
    rows.check(plant, "subscripts of several arrays")


def passed(plant):
    """A value of each type through a function, an instance, a field and an element."""
    for kind in [*ALL, "TIME", *NAMED]:
        before = (ENUMERATIONS if kind in NAMED else "") + f"""
TYPE Held : STRUCT v : {kind}; w : ARRAY [0..1] OF {kind}; END_STRUCT; END_TYPE
FUNCTION Same : {kind} VAR_INPUT x : {kind}; END_VAR VAR y : {kind}; END_VAR y := x; Same := y; END_FUNCTION
FUNCTION Second : {kind} VAR_INPUT x, y : {kind}; END_VAR Second := Same(y); END_FUNCTION
FUNCTION_BLOCK Keep VAR_INPUT x : {kind}; END_VAR VAR_OUTPUT y, z : {kind}; END_VAR z := y; y := Same(x); END_FUNCTION_BLOCK
"""
        rows = Rows(before)
        numbers = DURATIONS if kind == "TIME" else (0, len(NAMED[kind]) - 1) if kind in NAMED else edges(kind)
        first = numbers[0]
        for number in numbers:
            names = [("a~", kind, number), ("o~", kind, first), *((name, kind, None) for name in ("r~", "s~", "t~", "u~"))]
            rows.add([*names, ("h~", "Held", None), ("k~", "Keep", None), ("i~", "INT", 1)],
                     "r~ := Second(o~, a~); k~(x := a~, y => s~); k~(x := o~, y => h~.w[i~], z => t~); h~.v := a~; h~.w[i~ - 1] := h~.v; "
                     "u~ := h~.w[0];", {"r~": number, "s~": number, "t~": number, "u~": number})
        rows.check(plant, f"values of {kind} passed on")


# ---- standard blocks over long runs

def runs(plant):
    """Each block over two hundred calls with random inputs, the timers at random moments too."""
    pick = random.Random(2)
    drawn = [tuple(pick.randrange(2) for _ in range(4)) for _ in range(200)]
    first = [given[:1] for given in drawn]
    two = [given[:2] for given in drawn]
    language.block(plant, "SR, random inputs", "SR", ["S1", "R"], two, language.latch(False))
    language.block(plant, "RS, random inputs", "RS", ["S", "R1"], two, language.latch(True))
    language.block(plant, "R_TRIG, random inputs", "R_TRIG", ["CLK"], first, language.edge(False))
    language.block(plant, "F_TRIG, random inputs", "F_TRIG", ["CLK"], first, language.edge(True))
    seldom = [(u, d, int(pick.random() < 0.1), int(pick.random() < 0.1)) for u, d, _, _ in drawn]
    for preset in (-32768, -1, 0, 1, 5, 32767):
        given = f"PV := {preset}"
        language.block(plant, f"CTU to {preset}, random inputs", "CTU", ["CU", "R"], [(u, r) for u, _, r, _ in seldom],
                       lambda u, r, s=language.counter("CTU", preset): s(u, 0, r, 0), preset=given)
        language.block(plant, f"CTD from {preset}, random inputs", "CTD", ["CD", "LD"], [(d, n) for _, d, _, n in seldom],
                       lambda d, n, s=language.counter("CTD", preset): s(0, d, 0, n), preset=given)
        language.block(plant, f"CTUD about {preset}, random inputs", "CTUD", ["CU", "CD", "R", "LD"], seldom, language.counter("CTUD", preset),
                       preset=given)
    for period in (0, 1, 70, 1000):
        times = list(itertools.accumulate(pick.choice((1, 10, 69, 70, 71, 500)) for _ in drawn))
        for name in ("TON", "TOF", "TP"):
            language.block(plant, f"{name} of {period} ms, random inputs", name, ["IN"], first, language.timer(name, period), times=times,
                           preset=f"PT := T#{period}ms")
    # the limits of moments and of TIME
    last = 2**62 - 1
    for period, given in ((TIME_TOP, f"T#{TIME_TOP}ms"), (last, f"T#{last}ms"), (last - 1, f"T#{last - 1}ms"), (-5, "T#0ms - T#5ms")):
        for name, steps in itertools.product(("TON", "TOF", "TP"), ([(1,)] * 4, [(1,), (0,), (0,), (0,)], [(0,), (1,), (1,), (0,)])):
            language.block(plant, f"{name} of {period} ms at the ends of moments", name, ["IN"], steps, language.timer(name, period),
                           times=[0, 1, last - 1, last], preset=f"PT := {given}")


def main():
    with tempfile.TemporaryDirectory() as folder:
        plant = language.Plant(str(pathlib.Path(sys.argv[1]).resolve()), pathlib.Path(folder))
        for part in (operands, groups, spellings, outputs, comparisons, durations, selections, conversions, shifts, loops, labels,
                     subscripts, passed, runs):
            part(plant)
        print(f"edges.py: {plant.scenes} scenes")


main()
