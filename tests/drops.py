#!/usr/bin/env python3
"""Checks that each hand-written drop releases everything that its value holds, and does nothing else.

No contract says so: a drop that forgets a field can be proved, and leaks the field's memory.

usage: tests/drops.py
"""
import pathlib
import re
import sys

ROOT = pathlib.Path(__file__).resolve().parent.parent

IMPL = re.compile(r"^impl\b[^\n]*\bDrop for (\w+)[^\n]*\{\n(.*?)^\}", re.M | re.S)
FIELDS = r"(?:\((?:_,?)+\)|\{(?:\w+:_,?)*\})?"
BODY = re.compile(rf"(?:#\[cycle\(\w+\)\])?fndrop\(self\)\{{(?:letSelf{FIELDS}=self;|matchself\{{Self::\w+{FIELDS}(?:\|Self::\w+{FIELDS})*=>\{{\}}\}})\}}")


def main():
    count, odd = 0, []
    for path in sorted(ROOT.glob("crates/*/src/**/*.rt")):
        for name, body in IMPL.findall(path.read_text()):
            count += 1
            if not BODY.fullmatch(re.sub(r"\s", "", body)):
                odd.append(f"{path.relative_to(ROOT)}: the drop of {name} releases less than its value holds, or does more")
    for line in odd:
        print(f"drops.py: {line}", file=sys.stderr)
    if odd or not count:
        sys.exit(1)
    print(f"drops.py: {count} drops release all that their values hold")


if __name__ == "__main__":
    main()
