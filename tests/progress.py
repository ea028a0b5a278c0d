#!/usr/bin/env python3
"""Checks that a run reports its progress on a terminal, and nowhere else.

If the system has no terminal, or one that isn't a Linux device, only the second part is checked.

usage: tests/progress.py PLANT     PLANT is the built program
"""
import os
import pathlib
import pty
import re
import subprocess
import sys
import tempfile

ROOT = pathlib.Path(__file__).resolve().parent.parent
ROWS = 500


def fail(text):
    sys.exit(f"progress.py: {text}")


def has_terminal():
    """Whether the system has a terminal that `plant` recognizes as one."""
    try:
        terminal, end = pty.openpty()
    except OSError:
        return False
    major = os.major(os.fstat(end).st_rdev)
    os.close(terminal)
    os.close(end)
    return os.path.exists("/dev/stderr") and (major in (4, 5) or 136 <= major <= 143)


def on_terminal(words, folder):
    """Returns the exit status, the standard output, and the output of a terminal as the standard error."""
    terminal, end = pty.openpty()
    with subprocess.Popen(words, cwd=folder, stdout=subprocess.PIPE, stderr=end) as running:
        os.close(end)
        out, shown = b"", b""
        while True:
            try:
                part = os.read(terminal, 65536)
            except OSError:
                break
            if not part:
                break
            shown += part
        out = running.stdout.read()
    os.close(terminal)
    return running.returncode, out.decode(), shown.decode()


def main():
    plant = str(pathlib.Path(sys.argv[1]).resolve())
    with tempfile.TemporaryDirectory() as folder:
        path = pathlib.Path(folder)
        path.joinpath("own.st").write_text((ROOT / "tests/texts/counter.st").read_text().replace(": INT;", ": DINT;"))
        path.joinpath("own.csv").write_text("t\n" + "".join(f"{10 * k}\n" for k in range(ROWS)))
        words = [plant, "run", "own.st", "--plant", "own.csv", "--store", "own.retain", "--start", "cold"]
        done = subprocess.run(words, cwd=folder, capture_output=True, text=True, check=False)
        if done.returncode or done.stderr:
            fail(f"no terminal: {done.stderr!r}")
        if not has_terminal():
            print("progress.py: no progress is reported without a terminal; the system has no terminal to try")
            return
        status, out, shown = on_terminal(words, folder)
        if (status, re.sub("acked .*", "", out)) != (0, re.sub("acked .*", "", done.stdout)):
            fail(f"on a terminal the report differs: {out}")
        numbers = [int(n) for n in re.findall(rf"\r(\d+) of {ROWS} rows", shown)]
        if not numbers or numbers[-1] != ROWS or numbers != sorted(numbers) or len(numbers) > 2 * 100 + 2:
            fail(f"on a terminal: {shown[:300]!r}")
        if not shown.endswith("\r\x1b[K"):
            fail(f"the progress stays on the terminal: {shown[-40:]!r}")
        status, out, shown = on_terminal([plant, "check", "nowhere.st"], folder)
        if (status, out, shown) != (2, "", "fault X1\r\n"):
            fail(f"a refused source on a terminal: {status} {out!r} {shown!r}")
    print(f"progress.py: progress is reported {len(numbers)} times on a terminal, and nowhere else")


main()
