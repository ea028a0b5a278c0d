#!/usr/bin/env python3
"""Checks that `plant check --explain` shows every rule that a text breaks, in the order of the text, on the built program.

Programs of the rows of tests/rules/checked.rows that have the same types and units before them are joined to one text. It breaks the rules
that its rows break, each at the place of its row, and no others but those that one of its programs breaks alone. Then texts whose errors
are planted: 40 of each kind, and 24,000 in one MiB, of which the first hundred are shown in a second.

usage: tests/all_faults.py PLANT [SECONDS]     PLANT is the built program; SECONDS of processor time, 1 by default, are allowed for one MiB
"""
import collections
import concurrent.futures
import os
import pathlib
import re
import resource
import subprocess
import sys
import tempfile

import rules

# The program shows no more errors than these.
MOST_SHOWN = 100
# If a type or unit contains itself, no other depth is checked.
SAMPLED = ("C6",)
# statements and the code of the error at each `^`, in a program with the variables below
PLANTED = (
    ("^x := 1; ", "C1"),
    ("n := ^x; ", "C1"),
    ("n := ^TRUE; ", "C3"),
    ("IF ^n THEN END_IF; ", "C3"),
    ("n := ^40000; ", "C4"),
    ("^c := 1; ", "C5"),
    ("CASE n OF ^3..1: ; END_CASE; ", "C7"),
    ("CASE n OF ^1..9: ; ^5: ; END_CASE; ", "C7"),
    ("^EXIT; ", "C9"),
    ("n := ^MIN(n); ", "C10"),
    ("^n(); ", "C3"),
    ("n := n + 1; ", None),
    ("WHILE b DO EXIT; END_WHILE; ", None),
)
HEAD = "PROGRAM p VAR n : INT; b : BOOL; END_VAR VAR CONSTANT c : INT := 1; END_VAR "
TAIL = "END_PROGRAM"


def fail(text):
    sys.exit(f"all_faults.py: {text}")


def shown(plant, text, folder, name):
    """The errors of a text as they are shown, each its code and its place; the line that counts them; the processor time in seconds."""
    path = os.path.join(folder, f"{name}.st")
    with open(path, "w", encoding="ascii") as file:
        file.write(text)
    before = resource.getrusage(resource.RUSAGE_CHILDREN)
    done = subprocess.run([plant, "check", path, "--explain"], capture_output=True, text=True, timeout=60)
    after = resource.getrusage(resource.RUSAGE_CHILDREN)
    took = after.ru_utime + after.ru_stime - before.ru_utime - before.ru_stime
    if done.returncode not in (0, 2) or done.stdout and done.returncode:
        fail(f"{text[:200]} ends with {done.returncode}: {done.stderr[:200]}")
    lines = done.stderr.splitlines()
    errors = []
    for at, line in enumerate(lines):
        found = re.match(r"error\[(\w+)\]: ", line)
        # a text without a configuration breaks no rule of the language
        if found and found[1] != "G2":
            place = re.search(r"--> .*:(\d+):(\d+)$", lines[at + 1])
            if not place or place[1] != "1":
                fail(f"{text[:200]}: no place after {line!r}")
            errors.append((found[1], int(place[2]) - 1))
    if len(set(errors)) < len(errors):
        fail(f"{text[:200]} shows a rule twice at a place: {done.stderr}")
    count = [line for line in lines if re.fullmatch(r"\d+ errors.*", line)]
    return errors, count, took


class Row:
    """A row whose text is some types and units and one program."""

    def __init__(self, text, answer):
        self.head, mark, rest = text.rpartition("PROGRAM ")
        while mark and self.head.endswith("END_"):
            # the end of the program, not its beginning
            self.head, mark, more = self.head[: -len("END_")].rpartition("PROGRAM ")
            rest = f"{more}END_PROGRAM {rest}"
        self.name, _, self.body = rest.partition(" ")
        code, _, place = answer.partition(" at ")
        self.wanted = (code, int(place)) if place else None
        self.is_joined = (
            mark
            and text.endswith("END_PROGRAM")
            and "CONFIGURATION" not in text
            and "\n" not in text
            and len(text) < 5000
            and "PROGRAM" not in self.head
            and (answer == "none" or code.startswith("C") and int(place) > len(self.head) + len(f"PROGRAM {self.name} "))
        )

    def text(self):
        return f"{self.head}PROGRAM {self.name} {self.body}"


def joined(rows):
    """The text of the programs of rows, and how far each is moved in it."""
    text, moves = rows[0].head, []
    for number, row in enumerate(rows):
        front = f"PROGRAM program_{number} "
        moves.append(len(text) + len(front) - len(row.head) - len(f"PROGRAM {row.name} "))
        text += f"{front}{row.body} "
    return text, moves


def groups_of(rows):
    """Rows with the same types and units before them, some twenty together."""
    by_head = collections.defaultdict(list)
    for row in rows:
        by_head[row.head].append(row)
    for same in by_head.values():
        for at in range(0, len(same), 20):
            yield same[at : at + 20]


def check_joined(plant, folder, number, rows):
    """What is wrong with the errors of the joined text of rows; how many errors it has."""
    text, moves = joined(rows)
    told, count, _ = shown(plant, text, folder, f"joined{number}")
    wanted, alone = set(), set()
    for at, (row, move) in enumerate(zip(rows, moves)):
        if row.wanted:
            wanted.add((row.wanted[0], row.wanted[1] + move))
        for code, place in shown(plant, row.text(), folder, f"joined{number}_{at}")[0]:
            alone.add((code, place + move))
    if len(told) >= MOST_SHOWN:
        fail(f"{text[:200]} has too many errors for this script")
    lost = {it for it in wanted | alone if it not in told and (it in wanted or it[0] not in SAMPLED)}
    extra = set(told) - wanted - alone
    if lost or extra:
        fail(f"{text} lacks {sorted(lost)} and has {sorted(extra)} too many among {told}")
    if [place for _, place in told] != sorted(place for _, place in told):
        fail(f"{text[:200]} shows its errors in another order than the text's: {told}")
    if count != ([f"{len(told)} errors"] if len(told) > 1 else []):
        fail(f"{text[:200]} shows {len(told)} errors, and the count is {count}")
    return len(told)


def planted(statements):
    """A text with these statements, and its errors."""
    text, errors = HEAD, []
    for written, code in statements:
        first, *others = written.split("^")
        text += first
        for part in others:
            errors.append((code, len(text)))
            text += part
    return text + TAIL, errors


def check_planted(plant, folder, seconds):
    """Texts whose errors are planted."""
    for number, (written, code) in enumerate(PLANTED):
        text, errors = planted([(written, code), PLANTED[-1]] * 40)
        told, _, _ = shown(plant, text, folder, f"planted{number}")
        if told != errors:
            fail(f"40 times {written!r}: {told} are shown, not {errors}")
    text, errors = planted(list(PLANTED) * 8)
    told, count, _ = shown(plant, text, folder, "planted")
    if told != errors or count != [f"{len(errors)} errors"]:
        fail(f"{len(errors)} errors of eleven kinds: {told}, {count}")
    text, errors = planted(list(PLANTED) * 2000)
    text += " " * (2**20 - len(text))
    told, count, took = shown(plant, text, folder, "many")
    if len(told) != MOST_SHOWN or not set(told) <= set(errors) or count != ["100 errors are shown; there may be more"]:
        fail(f"of {len(errors)} errors {len(told)} are shown, and {count}")
    if took > seconds:
        fail(f"{len(errors)} errors in one MiB take {took:.2f} s, more than {seconds} s")
    return len(errors), took


def check_surplus(plant, folder):
    """If an enumerated type has too many names, no name is looked up, but the rules on declarations alone are checked."""
    names = ", ".join(f"n{at}" for at in range(257))
    head = f"TYPE e : ({names}); END_TYPE PROGRAM p VAR a, "
    text = f"{head}a : INT; END_VAR x := 1; END_PROGRAM"
    told, _, _ = shown(plant, text, folder, "surplus")
    if told != [("C13", head.index("n256")), ("C2", len(head))]:
        fail(f"257 names: {told}")


def main():
    plant, seconds = str(pathlib.Path(sys.argv[1]).resolve()), float(sys.argv[2]) if len(sys.argv) > 2 else 1
    every = [Row(text, answer) for _, text, answer in rules.rows_of(rules.ROWS / "checked.rows")]
    groups = [it for it in groups_of([row for row in every if row.is_joined]) if len(it) > 1]
    with tempfile.TemporaryDirectory() as folder, concurrent.futures.ThreadPoolExecutor(os.cpu_count()) as pool:
        told = sum(pool.map(lambda it: check_joined(plant, folder, *it), enumerate(groups)))
        check_surplus(plant, folder)
        many, took = check_planted(plant, folder, seconds)
    if told < 300:
        fail(f"the joined texts have only {told} errors")
    print(f"all_faults.py: {told} errors of {sum(map(len, groups))} rows in {len(groups)} texts, and the first of {many} in {took:.2f} s")


if __name__ == "__main__":
    main()
