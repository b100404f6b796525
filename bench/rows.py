#!/usr/bin/env python3
"""rows.py FILE COMMITS COUNT: stores so many rows of 256 octets and a key in each of so many transactions of SQLite, in WAL
mode with synchronous FULL. Prints the time in nanoseconds."""
import sqlite3
import sys
import time

path, commits, count = sys.argv[1], int(sys.argv[2]), int(sys.argv[3])
base = sqlite3.connect(path, isolation_level=None)
base.execute("pragma journal_mode = wal")
base.execute("pragma synchronous = full")
base.execute("create table entries (number integer primary key, key blob, payload blob)")
payload, number = b"\7" * 256, 0
start = time.perf_counter_ns()
for commit in range(commits):
    base.execute("begin immediate")
    base.executemany("insert into entries values (?, ?, ?)", ((number + n, bytes([n % 16]) * 16, payload) for n in range(count)))
    base.execute("commit")
    number += count
print(time.perf_counter_ns() - start)
