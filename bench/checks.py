#!/usr/bin/env python3
"""Reports how long `plant check` takes on the hardest texts of up to 1 MiB.

usage: bench/checks.py PLANT     PLANT is the built program

Each text is checked five times, and the shortest time counts, including the start of the program and the reading of the text. The script also
reports the shortest CPU time, which other work on the machine changes less.
"""
import pathlib
import resource
import subprocess
import sys
import tempfile
import time

LIMIT = 1048576
DIGITS = "0123456789abcdefghijklmnopqrstuvwxyz"


def each(count, part):
    return "".join(part(k) for k in range(count))


def variables(count):
    return f"PROGRAM p VAR x{each(count, lambda k: f',n{k}')} : INT; END_VAR END_PROGRAM"


def short(k):
    """A name of four characters; its last one is a digit, so it isn't a word of the language."""
    return "abcdefghijklmnopqrstuvwxyz"[k % 26] + DIGITS[k // 26 % 36] + DIGITS[k // 936 % 36] + DIGITS[k // 33696]


def used_variables(count, uses, terms):
    names = f"PROGRAM p VAR x{each(count, lambda k: f',{short(k)}')} : INT; END_VAR "
    sums = []
    for first in range(0, uses, terms):
        sums.append("x:=" + "+".join(short((first + k) * 7919 % count) for k in range(min(terms, uses - first))) + ";")
    return names + "".join(sums) + "END_PROGRAM"


def lists(count):
    return f"PROGRAM p VAR {each(count, lambda k: f'n{k} : ARRAY [0..9] OF INT := [9(1), {k % 99}]; ')}END_VAR END_PROGRAM"


def types(count):
    first = "TYPE t0 : ARRAY [0..1] OF INT; "
    return first + each(count - 1, lambda k: f"t{k + 1} : STRUCT n : INT; x : t{k}; END_STRUCT; ") + "END_TYPE"


def functions(count):
    first = "FUNCTION f0 : BOOL f0 := TRUE; END_FUNCTION "
    return first + each(count - 1, lambda k: f"FUNCTION f{k + 1} : BOOL f{k + 1} := f{k}(); END_FUNCTION ")


def fields(count):
    structure = each(count, lambda k: f"f{k} : INT := {k % 9}; ")
    values = ",".join(f"f{k} := {k % 9}" for k in range(count))
    return f"TYPE s : STRUCT {structure}END_STRUCT; END_TYPE PROGRAM p VAR x : s := ({values}); END_VAR END_PROGRAM"


def labels(count):
    numbers = ",".join(str(k * 7919 % count) for k in range(count))
    return f"PROGRAM p VAR x : LINT; END_VAR CASE x OF {numbers}: x := 1; END_CASE; END_PROGRAM"


def nested(count, depth):
    part = "IF b THEN " * depth + "b := NOT b; " + "END_IF; " * depth
    return f"PROGRAM p VAR b : BOOL; END_VAR {part * (count // (depth + 1))}END_PROGRAM"


def enumerations(count):
    declared = each(count, lambda k: f"e{k} : (a{k}, b{k}, c{k}); ")
    uses = each(count, lambda k: f"x{k} := b{k}; ")
    held = each(count, lambda k: f"x{k} : e{k}; ")
    return f"TYPE {declared}END_TYPE PROGRAM p VAR {held}END_VAR {uses}END_PROGRAM"


def names_of_one_type(count):
    return f"TYPE e : ({','.join(f'a{k}' for k in range(count))}); END_TYPE"


def arguments(count):
    inputs = each(count, lambda k: f"i{k} : INT; ")
    given = ",".join(f"i{k} := {k % 9}" for k in reversed(range(count)))
    return (
        f"FUNCTION_BLOCK b VAR_INPUT {inputs}END_VAR END_FUNCTION_BLOCK "
        f"PROGRAM p VAR x : b; END_VAR x({given}); END_PROGRAM"
    )


def calls(count):
    return (
        "FUNCTION_BLOCK b VAR_INPUT i : INT; END_VAR VAR_OUTPUT o : INT; END_VAR o := i; END_FUNCTION_BLOCK PROGRAM p VAR x : b; "
        f"n : INT; END_VAR {'x(i := n, o => n);' * count}END_PROGRAM"
    )


def instances(count):
    return (
        "FUNCTION_BLOCK b END_FUNCTION_BLOCK PROGRAM p VAR "
        f"{each(count, lambda k: f'x{k} : b; ')}END_VAR {each(count, lambda k: f'x{k}(); ')}END_PROGRAM"
    )


def parentheses(count):
    return f"PROGRAM p VAR x : INT; END_VAR {('x := ' + '(' * 60 + '1' + ')' * 60 + ';') * count}END_PROGRAM"


def configured(units, instances):
    """A text with an instance of each of these programs, by their names."""
    named = each(len(instances), lambda k: f"PROGRAM i{k} WITH t : {instances[k]}; ")
    return f"{units}CONFIGURATION c RESOURCE r ON cpu TASK t (INTERVAL := T#1s, PRIORITY := 0); {named}END_RESOURCE END_CONFIGURATION"


def programs(count, statements):
    """This many programs in 64 instances, each with its own code."""
    units = each(count, lambda k: f"PROGRAM p{k} VAR n : INT; END_VAR {'n := n + 1; ' * statements}END_PROGRAM ")
    return configured(units, [f"p{k % count}" for k in range(64)])


def doubled(count):
    """Functions that each call the one before twice; calls are inlined."""
    first = "FUNCTION f0 : INT f0 := 1; END_FUNCTION "
    units = first + each(count, lambda k: f"FUNCTION f{k + 1} : INT f{k + 1} := f{k}() + f{k}(); END_FUNCTION ")
    return configured(f"{units}PROGRAM p VAR n : INT; END_VAR n := f{count}(); END_PROGRAM ", ["p"])


def library(count):
    """Functions, only one of which is called."""
    units = each(count, lambda k: f"FUNCTION f{k} : INT VAR_INPUT x : INT; END_VAR f{k} := x + {k % 9}; END_FUNCTION ")
    return configured(f"{units}PROGRAM p VAR n : INT; END_VAR n := f7(n); END_PROGRAM ", ["p"])


def wide(count, called):
    """Functions with as many values as a program has room for; a program calls `called` of them."""
    units = each(count, lambda k: f"FUNCTION f{k} : INT VAR a : ARRAY [0..4094] OF INT; END_VAR f{k} := a[0]; END_FUNCTION ")
    uses = each(called, lambda k: f"n:=f{k}();")
    return configured(f"{units}PROGRAM p VAR n : INT; END_VAR {uses}END_PROGRAM ", ["p"])


def shared(count, programs):
    """Functions with as many values as a program has room for; each program calls another one."""
    units = each(count, lambda k: f"FUNCTION f{k} : INT VAR a : ARRAY [0..4094] OF INT; END_VAR f{k} := a[0]; END_FUNCTION ")
    units += each(programs, lambda k: f"PROGRAM p{k} VAR n : INT; END_VAR n := f{k}(); END_PROGRAM ")
    return configured(units, [f"p{k}" for k in range(programs)])


def trees(count):
    """Functions with a structure of 2,047 parts, whose halves differ, that a program calls."""
    types = "TYPE t0 : STRUCT a : INT; END_STRUCT; "
    types += each(10, lambda k: f"t{k + 1} : STRUCT x : t{k}; y : t{k}; z : INT := {k}; END_STRUCT; ")
    units = each(count, lambda k: f"FUNCTION f{k} : INT VAR a : t10; END_VAR f{k} := a.z; END_FUNCTION ")
    uses = each(count, lambda k: f"n:=f{k}();")
    return configured(f"{types}END_TYPE {units}PROGRAM p VAR n : INT; END_VAR {uses}END_PROGRAM ", ["p"])


# the name of each text, the text, and its fault, if any
TEXTS = [
    ("95,000 variables in one list", variables(95000), "G2"),
    ("40,000 variables, used 28,000 times", used_variables(40000, 28000, 1), "G2"),
    ("20,000 variables, used 180,000 times in sums of 62", used_variables(20000, 180000, 62), "G2"),
    ("20,000 arrays with lists", lists(20000), "G2"),
    ("10,000 types in a chain", types(10000), "C6"),
    ("18,000 functions in a chain", functions(18000), "C6"),
    ("20,000 fields, each with a value", fields(20000), "G2"),
    ("a CASE of 150,000 labels", labels(150000), "G2"),
    ("10,000 statements, 60 deep", nested(10000, 60), "G2"),
    ("14,000 enumerated types, each used", enumerations(14000), "G2"),
    ("140,000 names of one enumerated type", names_of_one_type(140000), "C13"),
    ("a call with 30,000 named arguments", arguments(30000), "G2"),
    ("50,000 calls of an instance", calls(50000), "G2"),
    ("40,000 instances, each called", instances(40000), "G2"),
    ("8,000 numbers in 60 parentheses", parentheses(8000), "G2"),
    ("27 programs of 3,200 statements in 64 instances", programs(27, 3200), None),
    ("11,000 functions, one of them called", library(11000), None),
    ("60 functions that each call the one before twice", doubled(60), "M2"),
    ("9,500 functions of 4,096 values, one of them called", wide(9500, 1), None),
    ("8,500 functions of 4,096 values, each called", wide(8500, 8500), "M2"),
    ("9,000 functions of 4,096 values, and 64 programs that call one each", shared(9000, 64), None),
    ("12,000 functions of a structure of 2,047 parts, each called", trees(12000), "M2"),
]


def processor():
    """CPU seconds of all programs that have ended so far."""
    used = resource.getrusage(resource.RUSAGE_CHILDREN)
    return used.ru_utime + used.ru_stime


def main():
    plant = str(pathlib.Path(sys.argv[1]).resolve())
    with tempfile.TemporaryDirectory() as folder:
        source = pathlib.Path(folder) / "text.st"
        for name, text, _ in TEXTS:
            if len(text) > LIMIT:
                sys.exit(f"checks.py: {name}: {len(text)} bytes")
            source.write_text(text)
            times, spent = [], []
            for _ in range(5):
                start, before = time.monotonic(), processor()
                done = subprocess.run([plant, "check", str(source)], capture_output=True, text=True, timeout=600)
                times.append(time.monotonic() - start)
                spent.append(processor() - before)
            answer = done.stderr.strip() or "accepted"
            print(f"{name}, {len(text):,} bytes: {min(times) * 1000:.0f} ms, {min(spent) * 1000:.0f} ms of CPU time, {answer}", flush=True)


if __name__ == "__main__":
    main()
