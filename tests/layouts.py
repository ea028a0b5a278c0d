#!/usr/bin/env python3
"""Starts two texts in turn over one retain file, on the built program; their retained variables differ.

The first text runs some rows, which change values; then the second starts without a row, and then the first one again. This script computes
the expected value of each variable: it is kept if the text before retained the same path with the same type, and otherwise is initial.

Then it tries a start over the largest layout.

usage: tests/layouts.py PLANT [SECONDS]     PLANT is the built program; SECONDS is the CPU time allowed for that start, 4 by default
"""
import dataclasses
import pathlib
import random
import resource
import subprocess
import sys
import tempfile

sys.dont_write_bytecode = True
from language import ALL, edges, initial, spelled  # noqa: E402

PAIRS = 200
SEED = 61131
ELEMENTARY = [*ALL, "TIME"]
# the names of variables, types, enumerated values, programs and instances; few, so that dropped and new ones often coincide
GLOBALS, OWN, INNER = ([f"{letter}{k}" for k in range(8)] for letter in "gpb")
TYPES = ["Mode", "Phase", "Hue"]
NAMES = ["Stopped", "Running", "Fault", "Open", "Closed", "Idle"]
PROGRAMS = ["P", "Q", "Main2"]
INSTANCES = ["box", "crate"]
LAST_MOMENT = 20


# CPU seconds; other work on the machine adds to them
MOST = int(sys.argv[2]) if len(sys.argv) > 2 else 4


def fail(name, answer):
    sys.exit(f"layouts.py: {name}: {answer}")


@dataclasses.dataclass(frozen=True)
class Variable:
    """A variable as a text declares it; at each row the text assigns it a value, unless `assigned` is None."""

    name: str
    kind: str
    is_retained: bool
    first: int
    assigned: int | None
    bounds: tuple[int, int] | None


@dataclasses.dataclass(frozen=True)
class Text:
    """A text: its enumerated types with their values, its variables by the unit that declares them, and the names in their paths."""

    types: dict
    globals: tuple
    program: tuple
    block: tuple
    programs: tuple
    instance: str
    is_instance_retained: bool


# Writing a text.


def type_of(variable):
    if variable.bounds is None:
        return variable.kind
    return f"ARRAY [{variable.bounds[0]}..{variable.bounds[1]}] OF {variable.kind}"


def literal(text, kind, number):
    return f"{kind}#{text.types[kind][number]}" if kind in text.types else initial(kind, number)


def declared(text, variable):
    first = literal(text, variable.kind, variable.first)
    if variable.bounds is not None:
        count = variable.bounds[1] - variable.bounds[0] + 1
        first = f"[{count}({first})]"
    return f"{variable.name} : {type_of(variable)} := {first};"


def section(opening, lines):
    return f"{opening} {' '.join(lines)} END_VAR\n" if lines else ""


def sections(text, opening, variables):
    """The variables, each in a section of its own, so that retained ones and others keep their order."""
    return "".join(section(f"{opening} RETAIN" if it.is_retained else opening, [declared(text, it)]) for it in variables)


def statements(text, variables):
    lines = []
    for it in variables:
        if it.assigned is not None:
            value = literal(text, it.kind, it.assigned)
            places = [it.name] if it.bounds is None else [f"{it.name}[{k}]" for k in range(it.bounds[0], it.bounds[1] + 1)]
            lines += [f"{place} := {value};" for place in places]
    return "\n".join(lines)


def written(text):
    types = " ".join(f"{name} : ({', '.join(names)});" for name, names in text.types.items())
    block = section("VAR", [declared(text, it) for it in text.block])
    instance = section("VAR RETAIN" if text.is_instance_retained else "VAR", [f"{text.instance} : Part;"])
    external = section("VAR_EXTERNAL", [f"{it.name} : {type_of(it)};" for it in text.globals])
    programs = " ".join(f"PROGRAM {name} WITH T : Unit;" for name in text.programs)
    return (
        f"TYPE {types} END_TYPE\n"
        f"FUNCTION_BLOCK Part\n{block}{statements(text, text.block)};\nEND_FUNCTION_BLOCK\n"
        f"PROGRAM Unit\n{sections(text, 'VAR', text.program)}{instance}{external}"
        f"{statements(text, text.program + text.globals)}\n{text.instance}();\nEND_PROGRAM\n"
        f"CONFIGURATION C\n{sections(text, 'VAR_GLOBAL', text.globals)}"
        f"RESOURCE R ON CPU TASK T (INTERVAL := T#10ms, PRIORITY := 0); {programs} END_RESOURCE\nEND_CONFIGURATION\n"
    )


# The expected values, by path.


@dataclasses.dataclass(frozen=True)
class Slot:
    """The variable at a path: its type as a record writes it, how its values are shown, and the values before and after rows."""

    spelling: str
    shown: tuple | None
    is_retained: bool
    first: int
    ran: int

    def spell(self, number):
        return spelled(self.spelling, number) if self.shown is None else self.shown[number]


def slot_of(text, variable, is_retained):
    names = tuple(it.upper() for it in text.types[variable.kind]) if variable.kind in text.types else None
    ran = variable.first if variable.assigned is None else variable.assigned
    return Slot(variable.kind if names is None else f"({','.join(names)})", names, is_retained, variable.first, ran)


def placed(text, before, variables, is_retained=None):
    """The slots of variables by their paths. Inside an instance, that instance decides whether they are retained."""
    slots = {}
    for it in variables:
        slot = slot_of(text, it, it.is_retained if is_retained is None else is_retained)
        path = f"{before}{it.name}".upper()
        if it.bounds is None:
            slots[path] = slot
        else:
            slots |= {f"{path}[{k}]": slot for k in range(it.bounds[0], it.bounds[1] + 1)}
    return slots


def slots_of(text):
    slots = placed(text, "", text.globals)
    for name in text.programs:
        slots |= placed(text, f"R/{name}.", text.program)
        slots |= placed(text, f"R/{name}.{text.instance}.", text.block, text.is_instance_retained)
    return slots


def kept(slots, values):
    """The lines of a record: values by path and type."""
    return {(path, slot.spelling): values[path] for path, slot in slots.items() if slot.is_retained}


def started(slots, lines):
    """The values of a warm start over a record of these lines."""
    return {path: lines.get((path, slot.spelling), slot.first) if slot.is_retained else slot.first for path, slot in slots.items()}


def retained(slots):
    return {path: slot.spelling for path, slot in slots.items() if slot.is_retained}


def changes(old, new):
    """The report of a warm start by the new text over a record of the old one; empty if their layouts are the same."""
    old, new = retained(old), retained(new)
    if list(old.items()) == list(new.items()):
        return ""
    both = old.keys() & new.keys()
    carried = sum(old[path] == new[path] for path in both)
    return changes_line(carried, len(new) - len(both), len(both) - carried, len(old) - len(both))


def changes_line(carried, added, retyped, dropped):
    return f"the retain file has a different layout: {carried} carried, {added} new, {retyped} retyped, {dropped} dropped\n"


# Random texts.


def new_value(chance, types, kind):
    if kind in types:
        return chance.randrange(len(types[kind]))
    return chance.choice([0, 1, 150, 86_400_000]) if kind == "TIME" else chance.choice(edges(kind))


def kind_of(chance, types):
    return chance.choice(list(types)) if chance.random() < 0.4 else chance.choice(ELEMENTARY)


def valued(chance, types, variable, kind):
    """The variable with this type, and with other values."""
    assigned = new_value(chance, types, kind) if chance.random() < 0.8 else None
    return dataclasses.replace(variable, kind=kind, first=new_value(chance, types, kind), assigned=assigned)


def new_bounds(chance):
    low = chance.randrange(-1, 3)
    return (low, low + chance.randrange(3)) if chance.random() < 0.2 else None


def new_variable(chance, types, name):
    new = Variable(name, "", chance.random() < 0.7, 0, None, new_bounds(chance))
    return valued(chance, types, new, kind_of(chance, types))


def new_variables(chance, types, called, most):
    return tuple(new_variable(chance, types, name) for name in chance.sample(called, chance.randrange(most + 1)))


def new_names(chance):
    return tuple(chance.sample(NAMES, chance.randrange(1, 5)))


def first_text(chance):
    types = {name: new_names(chance) for name in chance.sample(TYPES, 2)}
    return Text(
        types,
        new_variables(chance, types, GLOBALS, 6),
        new_variables(chance, types, OWN, 4),
        new_variables(chance, types, INNER, 3),
        tuple(chance.sample(PROGRAMS, chance.randrange(1, 3))),
        chance.choice(INSTANCES),
        chance.random() < 0.7,
    )


def other_names(chance, old):
    """Often the same names; otherwise one more, one fewer, another order, or others."""
    more = [name for name in NAMES if name not in old]
    return chance.choice([old, old, old, (*old, more[0]), old[:-1] or old, tuple(reversed(old)), new_names(chance)])


def other_types(chance, old):
    """Types with the same values or others, and the new name of each old type: a record doesn't have the names of types."""
    retyped = dict(zip(old, chance.sample(TYPES, len(old)) if chance.random() < 0.3 else old))
    return {retyped[name]: other_names(chance, names) for name, names in old.items()}, retyped


def other_variable(chance, types, old):
    """The variable with other values and perhaps one more change; None if it is dropped."""
    change = chance.choice(["none"] * 4 + ["dropped", "type", "retained", "bounds", "case"])
    if change == "dropped":
        return None
    if change == "retained":
        old = dataclasses.replace(old, is_retained=not old.is_retained)
    if change == "bounds":
        old = dataclasses.replace(old, bounds=new_bounds(chance))
    if change == "case":
        old = dataclasses.replace(old, name=old.name.upper())
    return valued(chance, types, old, kind_of(chance, types) if change == "type" else old.kind)


def free_of(old, called):
    taken = {it.name.lower() for it in old}
    return [name for name in called if name not in taken]


def renamed(chance, old, called):
    """The variables, some of them perhaps with new names, or with each other's names."""
    if not old or chance.random() < 0.6:
        return old
    free = free_of(old, called)
    to = chance.sample([it.name for it in old], len(old)) if chance.random() < 0.5 else [free[0], *(it.name for it in old[1:])]
    return [dataclasses.replace(it, name=name) for it, name in zip(old, to)]


def other_variables(chance, types, retyped, called, old):
    """The variables of the other text, with the new names of their types."""
    typed = [dataclasses.replace(it, kind=retyped.get(it.kind, it.kind)) for it in old]
    changed = [other_variable(chance, types, it) for it in typed]
    left = renamed(chance, [it for it in changed if it is not None], called)
    new = chance.sample(free_of(left, called), chance.randrange(3))
    left = [*left, *(new_variable(chance, types, name) for name in new)]
    return tuple(chance.sample(left, len(left)) if chance.random() < 0.5 else left)


def in_other_order(chance, old):
    """The text with its variables in a random order, and its globals with other values."""
    revalued = (valued(chance, old.types, it, it.kind) for it in chance.sample(old.globals, len(old.globals)))
    return dataclasses.replace(old, globals=tuple(revalued), program=tuple(chance.sample(old.program, len(old.program))))


def other_text(chance, old):
    if chance.random() < 0.1:
        return in_other_order(chance, old)
    types, retyped = other_types(chance, old.types)
    return Text(
        types,
        other_variables(chance, types, retyped, GLOBALS, old.globals),
        other_variables(chance, types, retyped, OWN, old.program),
        other_variables(chance, types, retyped, INNER, old.block),
        old.programs if chance.random() < 0.7 else tuple(chance.sample(PROGRAMS, chance.randrange(1, 3))),
        old.instance if chance.random() < 0.7 else chance.choice(INSTANCES),
        old.is_instance_retained if chance.random() < 0.8 else not old.is_instance_retained,
    )


# Pairs of texts, on the built program.


class Pair:
    """Two texts in a folder of their own, with a retain file."""

    def __init__(self, plant, number, folder):
        self.plant, self.name, self.folder = plant, f"pair {number} of seed {SEED}", folder

    def output(self, *words, aside=""):
        """The lines that these words print; on the standard error they have to print `aside`."""
        ended = subprocess.run([self.plant, *words], capture_output=True, text=True, timeout=60, cwd=self.folder)
        if ended.returncode or ended.stderr != aside:
            fail(self.name, f"{' '.join(words)}: status {ended.returncode}, {ended.stderr}")
        return ended.stdout.splitlines()

    def starts(self, source, rows, mode, slots, values, aside=""):
        """Checks that a run of the text reports these values, and prints `aside` on the standard error."""
        lines = self.output("run", source, "--plant", rows, "--store", "store", "--start", mode, aside=aside)
        found = dict(line.split(" = ") for line in lines if " = " in line)
        wanted = {path: slot.spell(values[path]) for path, slot in slots.items()}
        if found != wanted:
            differ = sorted(path for path in found.keys() | wanted.keys() if found.get(path) != wanted.get(path))
            fail(self.name, f"{source}, {mode}: " + ", ".join(f"{it} is {found.get(it)}, not {wanted.get(it)}" for it in differ))

    def shows(self, slots, values):
        """Checks that the file's last record has the retained values and the moment of the last row."""
        _, moment, *lines = self.output("show", "store")
        wanted = sorted(f"{path} {slot.spelling} = {slot.spell(values[path])}" for path, slot in slots.items() if slot.is_retained)
        if moment != f"moment {LAST_MOMENT}ms" or sorted(lines) != wanted:
            fail(self.name, f"the record has {moment}, {lines}, not {wanted}")

    def go(self, first, second):
        (self.folder / "first.st").write_text(written(first))
        (self.folder / "second.st").write_text(written(second))
        ours, theirs = slots_of(first), slots_of(second)
        ran = {path: slot.ran for path, slot in ours.items()}
        self.starts("first.st", "rows.csv", "cold", ours, ran)
        over = started(theirs, kept(ours, ran))
        self.starts("second.st", "none.csv", "warm", theirs, over, changes(ours, theirs))
        self.shows(theirs, over)
        back = started(ours, kept(theirs, over))
        self.starts("first.st", "none.csv", "warm", ours, back, changes(theirs, ours))
        return len(theirs) + len(ours)


def try_pairs(plant):
    """Tries all pairs; returns how many values were compared after a warm start of the other text."""
    chance, count = random.Random(SEED), 0
    for number in range(PAIRS):
        first = first_text(chance)
        second = other_text(chance, first)
        with tempfile.TemporaryDirectory() as folder:
            folder = pathlib.Path(folder)
            (folder / "none.csv").write_text("t\n")
            (folder / "rows.csv").write_text("".join(f"{line}\n" for line in ["t", *range(0, LAST_MOMENT + 1, 10)]))
            count += Pair(plant, number, folder).go(first, second)
    return count


# The largest layout: 4,096 paths, and a record whose body has 131,059 bytes.


PATHS = 4096
BODY = 131_059


def long_names():
    """Names of INT variables whose record has the largest body: 12 bytes, and for each variable a line `NAME INT` with LF and two bytes."""
    left = BODY - 12 - PATHS * (len(" INT\n") + 2)
    short, rest = divmod(left, PATHS)
    return [f"V{number:04}".ljust(short + (number < rest), "X") for number in range(PATHS)]


def counters(names, first):
    """A text that retains an INT of each name with this initial value, and changes none of them."""
    variables = " ".join(f"{name} : INT := {first};" for name in names)
    return (
        f"PROGRAM Idle VAR_EXTERNAL {names[0]} : INT; END_VAR {names[0]} := {names[0]}; END_PROGRAM CONFIGURATION C "
        f"VAR_GLOBAL RETAIN {variables} END_VAR RESOURCE R ON CPU TASK T (INTERVAL := T#10ms, PRIORITY := 0); "
        "PROGRAM P WITH T : Idle; END_RESOURCE END_CONFIGURATION"
    )


def limit():
    resource.setrlimit(resource.RLIMIT_CPU, (MOST, MOST))


def try_limits(plant):
    """Starts over a record of the largest layout, in another order and with one name changed; returns the CPU seconds of that start."""
    names = long_names()
    others = [*reversed(names)]
    others[PATHS // 2] = "W" + others[PATHS // 2][1:]
    with tempfile.TemporaryDirectory() as folder:
        folder = pathlib.Path(folder)
        (folder / "none.csv").write_text("t\n")
        moved = changes_line(PATHS - 1, 1, 0, 1)
        for source, listed, first, mode, aside in ("first.st", names, 1, "cold", ""), ("second.st", others, 2, "warm", moved):
            (folder / source).write_text(counters(listed, first))
            words = [plant, "run", source, "--plant", "none.csv", "--store", "store", "--start", mode]
            before = resource.getrusage(resource.RUSAGE_CHILDREN)
            ended = subprocess.run(words, capture_output=True, text=True, cwd=folder, preexec_fn=limit)
            after = resource.getrusage(resource.RUSAGE_CHILDREN)
            if ended.returncode or ended.stderr != aside:
                fail("the limits", f"{source}: status {ended.returncode}, {ended.stderr}")
        if int.from_bytes((folder / "store").read_bytes()[9:13], "big") != BODY:
            fail("the limits", "the record isn't the largest")
        wanted = [f"{name} = {2 if name[0] == 'W' else 1}" for name in others]
        if ended.stdout.splitlines()[5:] != wanted:
            fail("the limits", "the values aren't the kept ones")
    return after.ru_utime + after.ru_stime - before.ru_utime - before.ru_stime


def main():
    plant = str(pathlib.Path(sys.argv[1]).resolve())
    count, took = try_pairs(plant), try_limits(plant)
    print(
        f"layouts.py: {PAIRS} pairs of texts, with {count} values as expected after a warm start of the other one; "
        f"a start over the largest layout took {took:.2f} s of CPU time"
    )


main()
