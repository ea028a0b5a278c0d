#!/usr/bin/env python3
"""Refuses in turn each request for memory that the calls of a layer make, within one process: the built program of calls.

The program runs over an allocator that refuses requests on demand (refuse.c), and prints a line per call: how many times in a row it answered
each fault, and then its answer with memory. These lines have to match refused_calls.txt. A line says WRONG, AGAIN-WRONG or OTHERWISE if the
call gave a wrong answer with memory, or requested memory when it should request none.

usage: tests/refused_calls.py PROGRAM     PROGRAM is the built program of calls, tests/refused_calls; tests/programs.sh builds it and calls this
"""
import os
import pathlib
import resource
import subprocess
import sys
import tempfile

TESTS = pathlib.Path(__file__).resolve().parent
SECONDS = 300
# the end of a call's name if the first device step fails
FAILING = ", device fails"
# the bytes of a thread's stack: the stacks of ended threads are kept for new ones only if they are small
STACK = 8 << 20


def fail(text):
    sys.exit(f"refused_calls.py: {text}")


def small_stacks():
    _, most = resource.getrlimit(resource.RLIMIT_STACK)
    resource.setrlimit(resource.RLIMIT_STACK, (STACK, most))


def lines_of(words, **more):
    ended = subprocess.run(
        words, capture_output=True, text=True, timeout=SECONDS, preexec_fn=small_stacks, env={"PATH": os.environ["PATH"], **more}
    )
    if ended.returncode or ended.stderr:
        fail(f"status {ended.returncode}, {ended.stderr}")
    return ended.stdout.splitlines()


def faults_of(lines):
    """The answers of each call while a request was refused, by the call's name."""
    named = [line.split(": ", 1) for line in lines if ": " in line]
    return {name: text.split("; ")[0] for name, text in named}


def compare(lines, wanted):
    if len(lines) != len(wanted):
        fail(f"{len(lines)} lines, not {len(wanted)}")
    differ = [f"\n  printed  {line}\n  expected {right}" for line, right in zip(lines, wanted) if line != right]
    if differ:
        fail(f"{len(differ)} lines differ:{''.join(differ)}")


def compare_failing(lines):
    """Checks that a call makes as many requests whether its first device step fails or not: it makes all of them before that step."""
    faults, pairs = faults_of(lines), 0
    for name, text in faults.items():
        if name.endswith(FAILING):
            pairs += 1
            working = faults[name.removesuffix(FAILING)]
            if text != working:
                fail(f"{name}: {text}, not {working}")
    return pairs


def requests_of(lines):
    """How many requests were refused in turn."""
    spells = [spell for text in faults_of(lines).values() for spell in text.split(", ")]
    numbers = [spell.rsplit(" ", 1)[-1] for spell in spells if not spell.startswith("asks")]
    return sum(int(number) for number in numbers if number.isdigit())


def main():
    calls = pathlib.Path(sys.argv[1]).resolve()
    if not calls.exists():
        fail(f"there is no {calls}")
    if lines_of([calls]) != ["no allocator refuses"]:
        fail("it tries calls without the allocator")
    with tempfile.TemporaryDirectory() as folder:
        allocator = f"{folder}/refuse.so"
        subprocess.run(["gcc", "-O2", "-fPIC", "-shared", "-o", allocator, TESTS / "refuse.c"], check=True)
        lines = lines_of([calls], LD_PRELOAD=allocator)
    compare(lines, (TESTS / "refused_calls.txt").read_text().splitlines())
    pairs = compare_failing(lines)
    print(
        f"refused_calls.py: {lines[-1]}; {requests_of(lines)} requests refused in turn, and {pairs} of the calls make theirs before the "
        "first device step"
    )


main()
