#!/usr/bin/env python3
"""Checks the hardest texts of up to 1 MiB on the built program.

Each gets the expected answer, and none takes as long as a check whose time grows faster than its text. The texts are those that
bench/checks.py measures; on an idle machine each takes less than a second.

usage: tests/hostile.py PLANT [SECONDS]     PLANT is the built program; SECONDS is the CPU time allowed per text, 4 by default
"""
import pathlib
import resource
import subprocess
import sys
import tempfile

sys.dont_write_bytecode = True
sys.path.insert(0, str(pathlib.Path(__file__).resolve().parent.parent / "bench"))
import checks  # noqa: E402

# CPU seconds; other work on the machine adds to them
MOST = int(sys.argv[2]) if len(sys.argv) > 2 else 4


def fail(name, answer):
    sys.exit(f"hostile.py: {name}: {answer}")


def limit():
    resource.setrlimit(resource.RLIMIT_CPU, (MOST, MOST))


def main():
    plant = str(pathlib.Path(sys.argv[1]).resolve())
    with tempfile.TemporaryDirectory() as folder:
        source = pathlib.Path(folder) / "text.st"
        for name, text, fault in checks.TEXTS:
            if len(text) > checks.LIMIT:
                fail(name, f"{len(text)} bytes")
            source.write_text(text)
            done = subprocess.run([plant, "check", str(source)], capture_output=True, text=True, preexec_fn=limit)
            code = done.stderr.split()[1] if done.stderr.startswith("fault ") else None
            if code != fault or done.returncode != (2 if fault else 0) or done.stderr.count("\n") != (1 if fault else 0):
                fail(name, f"status {done.returncode}, {done.stderr[:200]!r}")
    print(f"hostile.py: {len(checks.TEXTS)} texts answered as expected, each within {MOST} s of CPU time")


main()
