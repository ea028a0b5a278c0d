#!/usr/bin/env python3
"""Checks that each edit of crates/*/must-fail, strength/ and tests/wrong still applies: each of its `old:` texts occurs exactly once in the file
that it names.

usage: tests/edits.py                  checks all of them
       tests/edits.py EDIT FOLDER      applies one of tests/wrong to a copy of the repository
"""
import pathlib
import sys

ROOT = pathlib.Path(__file__).resolve().parent.parent


class Misfit(Exception):
    """Why an edit doesn't apply."""


def edited(edit, crate):
    """The files of a crate that an edit changes, with their new texts."""
    texts, path, old = {}, None, None
    for line in edit.read_text().split("\n"):
        word, _, rest = line.partition(": ")
        if word == "file":
            path = crate / rest.strip()
            if path not in texts:
                if not path.is_file():
                    raise Misfit(f"there is no {rest.strip()}")
                texts[path] = path.read_text()
        elif word == "old":
            old = rest
        elif line.startswith("new:"):
            if old is None:
                raise Misfit("a 'new:' without an 'old:'")
            found = texts[path].count(old)
            if found != 1:
                raise Misfit(f"an 'old:' text occurs in {path.relative_to(crate)} {found} times")
            texts[path] = texts[path].replace(old, line[len("new:") :].removeprefix(" "))
            old = None
    if not texts:
        raise Misfit("it names no file")
    return texts


def check_all():
    """Checks all edits; returns how many there are, and how many don't apply."""
    edits = [(it, it.parent.parent.name) for it in ROOT.glob("crates/*/must-fail/*.edit")]
    edits += [(it, it.parent.name) for it in [*ROOT.glob("strength/*/*.edit"), *ROOT.glob("tests/wrong/*/*.edit")]]
    bad = 0
    for edit, crate in sorted(edits):
        try:
            edited(edit, ROOT / "crates" / crate)
        except Misfit as why:
            print(f"edits.py: {edit.relative_to(ROOT)}: {why}", file=sys.stderr)
            bad += 1
    return len(edits), bad


def main():
    if len(sys.argv) > 1:
        edit, folder = (pathlib.Path(word) for word in sys.argv[1:])
        for path, text in edited(edit, folder / "crates" / edit.parent.name).items():
            path.write_text(text)
        return
    count, bad = check_all()
    if bad or not count:
        sys.exit(1)
    print(f"edits.py: {count} edits apply")


main()
