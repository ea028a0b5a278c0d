#!/usr/bin/env python3
"""Starts WRITERS processes that each change a row of their own in one SQLite database in the current folder, each transaction on the disk
before the next of that process, with synchronous=FULL. It prints the transactions per second of all processes together.

usage: sqlite_writers.py MODE WRITERS COUNT     MODE is DELETE or WAL; each writer makes COUNT transactions
"""
import multiprocessing
import pathlib
import sqlite3
import sys
import time


def opened(path):
    db = sqlite3.connect(path, isolation_level=None, timeout=60)
    db.execute("PRAGMA synchronous=FULL")
    return db


def write(path, number, count, start, times):
    db = opened(path)
    start.wait()
    begun = time.monotonic()
    for _ in range(count):
        db.execute("BEGIN IMMEDIATE")
        db.execute("UPDATE kept SET value = value + 1 WHERE name = ?", (f"N{number}",))
        db.execute("COMMIT")
    times.put((begun, time.monotonic()))


def main():
    mode, writers, count = sys.argv[1], int(sys.argv[2]), int(sys.argv[3])
    path = f"writers_{mode}.db"
    for end in ("", "-wal", "-shm", "-journal"):
        pathlib.Path(path + end).unlink(missing_ok=True)
    db = opened(path)
    db.execute(f"PRAGMA journal_mode={mode}")
    db.execute("CREATE TABLE kept (name TEXT PRIMARY KEY, value INTEGER)")
    db.executemany("INSERT INTO kept VALUES (?, 0)", [(f"N{number}",) for number in range(writers)])
    start, times = multiprocessing.Barrier(writers), multiprocessing.Queue()
    processes = [multiprocessing.Process(target=write, args=(path, number, count, start, times)) for number in range(writers)]
    for process in processes:
        process.start()
    spans = [times.get() for _ in processes]
    for process in processes:
        process.join()
    took = max(end for _, end in spans) - min(begun for begun, _ in spans)
    print(round(writers * count / took))


main()
