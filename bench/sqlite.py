#!/usr/bin/env python3
"""Changes one row of an SQLite database in the current folder, in COUNT transactions, each on the disk before the next.

usage: sqlite.py MODE COUNT     MODE is DELETE or WAL
"""
import sqlite3
import sys

mode, count = sys.argv[1], int(sys.argv[2])
db = sqlite3.connect(f"{mode}.db", isolation_level=None)
db.execute(f"PRAGMA journal_mode={mode}")
db.execute("PRAGMA synchronous=FULL")
db.execute("CREATE TABLE kept (name TEXT PRIMARY KEY, value INTEGER)")
db.execute("INSERT INTO kept VALUES ('N', 0)")
for _ in range(count):
    db.execute("BEGIN IMMEDIATE")
    db.execute("UPDATE kept SET value = value + 1 WHERE name = 'N'")
    db.execute("COMMIT")
