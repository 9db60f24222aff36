#!/usr/bin/env python3
"""What SQLite takes to keep the same records: rows of 128 bytes, one transaction for each group, each synced.

    sqlite.py FILE GROUP GROUPS     a new file, with the log beside it (WAL) and synchronous=FULL

Prints what one row took.
"""
import pathlib
import sqlite3
import sys
import time


def main(path, group, groups):
    if pathlib.Path(path).exists():
        sys.exit(f"{path}: there is something already")
    connection = sqlite3.connect(path, isolation_level=None)
    connection.execute("PRAGMA journal_mode=WAL")
    connection.execute("PRAGMA synchronous=FULL")
    connection.execute("CREATE TABLE orders (place INTEGER PRIMARY KEY, record BLOB NOT NULL)")
    record = b"0" * 128
    begun = time.monotonic_ns()
    for number in range(groups):
        connection.execute("BEGIN")
        rows = ((number * group + place, record) for place in range(group))
        connection.executemany("INSERT INTO orders VALUES (?, ?)", rows)
        connection.execute("COMMIT")
    each = (time.monotonic_ns() - begun) / (group * groups)
    connection.close()
    print(f"sqlite group={group} nanoseconds={each:.0f} orders_per_second={1e9 / each:.0f}")


if __name__ == "__main__":
    if len(sys.argv) != 4:
        sys.exit(__doc__)
    main(sys.argv[1], int(sys.argv[2]), int(sys.argv[3]))
