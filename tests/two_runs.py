#!/usr/bin/env python3
"""Two runs of the built program on one retain file: while one has it, the other is refused with S3 and changes nothing.

usage: tests/two_runs.py PLANT     PLANT is the built program
"""
import fcntl
import os
import shutil
import signal
import subprocess
import sys
import tempfile
import time

FILE_BYTES = 262144
ROWS = 10000
TRIES = 20


def fail(text):
    sys.exit(f"two_runs.py: {text}")


class Scene:
    """A folder with the counter's text, a plant, and a retain file."""

    def __init__(self, plant, folder):
        self.plant = plant
        self.store = os.path.join(folder, "store")
        self.text = os.path.join(folder, "s.st")
        self.rows = os.path.join(folder, "rows.csv")
        self.none = os.path.join(folder, "none.csv")
        texts = os.path.join(os.path.dirname(os.path.abspath(__file__)), "texts")
        shutil.copy(os.path.join(texts, "counter.st"), self.text)
        with open(self.rows, "w") as f:
            f.write("t\n" + "".join(f"{10 * k}\n" for k in range(ROWS)))
        with open(self.none, "w") as f:
            f.write("t\n")

    def words(self, rows, start):
        return [self.plant, "run", self.text, "--plant", rows, "--store", self.store, "--start", start]

    def run(self, start):
        """A run without rows: its status and its outputs."""
        ended = subprocess.run(self.words(self.none, start), capture_output=True, text=True, timeout=60)
        return ended.returncode, ended.stdout, ended.stderr

    def begin(self):
        """A cold run over all rows, paused once it has its retain file; None if it was too quick."""
        if os.path.exists(self.store):
            os.remove(self.store)
        running = subprocess.Popen(self.words(self.rows, "cold"), stdout=subprocess.PIPE, stderr=subprocess.PIPE)
        while running.poll() is None:
            if os.path.exists(self.store) and os.path.getsize(self.store) == FILE_BYTES:
                running.send_signal(signal.SIGSTOP)
                time.sleep(0.05)
                return running if running.poll() is None else None
        return None


def content(name):
    with open(name, "rb") as f:
        return f.read()


def refused(scene, start, who):
    before = content(scene.store)
    status, out, err = scene.run(start)
    if (status, out, err) != (4, "", "fault S3\n"):
        fail(f"a {start} run during {who}: status {status}, {out!r}, {err!r}")
    if content(scene.store) != before:
        fail(f"a {start} run during {who} changed the retain file")


def during_a_run(scene):
    """While a run has the file, others are refused; once it is killed, the next one goes on."""
    for _ in range(TRIES):
        running = scene.begin()
        if running:
            break
    else:
        fail("no run could be paused")
    try:
        refused(scene, "warm", "a run")
        refused(scene, "cold", "a run")
    finally:
        running.kill()
        running.communicate()
    status, out, err = scene.run("warm")
    if status != 0 or err:
        fail(f"after the killed run: status {status}, {err!r}")


def during_another_lock(scene):
    """Another program that has locked the file counts as a run."""
    with open(scene.store, "rb") as f:
        fcntl.flock(f, fcntl.LOCK_EX)
        refused(scene, "warm", "a lock")
    if scene.run("warm")[0] != 0:
        fail("after the lock was given up")


def all_at_once(scene):
    """Of many runs that start at once, each succeeds or is refused, and at least one succeeds."""
    running = [
        subprocess.Popen(scene.words(scene.none, "cold"), stdout=subprocess.PIPE, stderr=subprocess.PIPE, text=True)
        for _ in range(16)
    ]
    ended = [(*p.communicate(timeout=60), p.returncode) for p in running]
    for out, err, status in ended:
        if status == 0 and out and not err:
            continue
        if (status, out, err) != (4, "", "fault S3\n"):
            fail(f"one of many: status {status}, {out!r}, {err!r}")
    if all(status for _, _, status in ended):
        fail("none of many has run")


def main():
    folder = tempfile.mkdtemp()
    try:
        scene = Scene(os.path.abspath(sys.argv[1]), folder)
        during_a_run(scene)
        during_another_lock(scene)
        all_at_once(scene)
    finally:
        shutil.rmtree(folder)
    print("two_runs.py: 3 scenes as expected")


main()
