#!/usr/bin/env python3
"""Checks which rule a text breaks, and where, on the built program, for each row of tests/rules/*.rows.

A line with the name of a scene is followed by its rows, `TEXT ==> CODE at PLACE`, or `TEXT ==> none` for a text that breaks no rule of its
file: declared.rows has the rules on declarations, which come first, checked.rows all rules of the language, configured.rows those on
configurations. A text `\\^N A|B|C|D|E` repeats its second and its fourth part N times, as `A B..B C D..D E`.

usage: tests/rules.py PLANT     PLANT is the built program
"""
import concurrent.futures
import os
import pathlib
import subprocess
import sys
import tempfile

ROWS = pathlib.Path(__file__).resolve().parent / "rules"
# a text that breaks no rule of the file isn't refused with any of these codes; a letter alone means all codes that begin with it
OTHERS = {
    "declared.rows": ("L", "P", "C2", "C6", "C8", "C11"),
    "checked.rows": ("L", "P", "C"),
    "configured.rows": ("L", "P", "C", "G2", "G3", "G4", "G5", "G8"),
}


def fail(text):
    sys.exit(f"rules.py: {text}")


def rows_of(path):
    """Each row of a file: its scene, its text and its answer."""
    scene = None
    for line in path.read_text().splitlines():
        written, mark, answer = line.partition(" ==> ")
        if mark:
            yield scene, spelled(written), answer
        else:
            scene = line


def spelled(written):
    if not written.startswith("\\^"):
        return written
    times, parts = written[2:].split(" ", 1)
    return "".join(part * (int(times) if at % 2 else 1) for at, part in enumerate(parts.split("|")))


def is_of(code, codes):
    """Whether a code is one of these, or begins with a letter that is one of them."""
    return any(code == it or len(it) == 1 and code.startswith(it) for it in codes)


class Asked:
    """The built program, which checks texts in a folder."""

    def __init__(self, plant, folder):
        self.plant, self.folder = plant, folder

    def answer(self, number, text):
        """The code of a text with its place, or None."""
        path = os.path.join(self.folder, f"{number}.st")
        with open(path, "w", encoding="ascii") as file:
            file.write(text)
        done = subprocess.run([self.plant, "check", path], capture_output=True, text=True, timeout=60)
        os.remove(path)
        if done.returncode == 0 and not done.stderr:
            return None
        if done.returncode != 2 or not done.stderr.startswith("fault ") or done.stderr.count("\n") != 1:
            return f"status {done.returncode}, {done.stderr[:200]!r}"
        return done.stderr.removeprefix("fault ").rstrip("\n")


def wrong(path, row, found):
    """What is wrong with the answer to a row; None if it is right."""
    scene, text, wanted = row
    if wanted == "none" and (found is None or not is_of(found.split()[0], (*OTHERS[path.name], "status"))):
        return None
    return None if found == wanted else f"{path.name}, {scene}: {text[:300]} ==> {found}, not {wanted}"


def main():
    plant = str(pathlib.Path(sys.argv[1]).resolve())
    rows = [(path, row) for path in sorted(ROWS.glob("*.rows")) for row in rows_of(path)]
    if {path.name for path, _ in rows} != set(OTHERS):
        fail("tests/rules has other files than the script knows")
    with tempfile.TemporaryDirectory() as folder, concurrent.futures.ThreadPoolExecutor(os.cpu_count()) as pool:
        asked = Asked(plant, folder)
        answers = pool.map(lambda it: asked.answer(it[0], it[1][1][1]), enumerate(rows))
        odd = [it for it in (wrong(path, row, found) for (path, row), found in zip(rows, answers)) if it]
    if odd:
        fail(f"{len(odd)} of {len(rows)} rows have another answer:\n" + "\n".join(odd))
    print(f"rules.py: {len(rows)} texts break exactly the expected rules, at the expected places")


if __name__ == "__main__":
    main()
