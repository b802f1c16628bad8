"""Submissions per second on the disk of the current folder, beside as many synchronous commits of SQLite there, and beside
the floor: what an entry writes, with its two syncs and nothing else.

Each round makes all of them, one after the other, in fresh folders. What is told is the median of the rounds, and of each
round's ratio, with the middle half of the ratios: a busy machine changes both sides of a ratio alike, if the rounds are short.
"""
import os
import sqlite3
import sys

from common import INIT, SUBMIT, cdnode, folder, machine, median, timed

ENTRY = 173
BODY = bytes(168)


def submissions(count):
    home = folder()
    cdnode(home, INIT)
    out = []
    seconds = timed(lambda: out.append(cdnode(home, SUBMIT * count)))
    if out[0].count(b"SUBMITTED\n") != count:
        raise SystemExit("a submission is missing")
    return seconds


def commits(count, mode):
    base = sqlite3.connect(os.path.join(folder(), "base"), isolation_level=None)
    base.execute(f"PRAGMA journal_mode={mode}")
    base.execute("PRAGMA synchronous=FULL")
    base.execute("CREATE TABLE entries (number INTEGER PRIMARY KEY, body BLOB)")

    def insert():
        for _ in range(count):
            base.execute("INSERT INTO entries (body) VALUES (?)", (BODY,))

    seconds = timed(insert)
    base.close()
    return seconds


def floor(count):
    file = os.open(os.path.join(folder(), "floor"), os.O_RDWR | os.O_CREAT)
    os.pwrite(file, bytes(29), 0)
    os.fsync(file)

    def sync_twice():
        for at in range(28, 28 + count * ENTRY, ENTRY):
            os.pwrite(file, bytes(ENTRY), at + 1)
            os.fsync(file)
            os.pwrite(file, b"\1", at)
            os.fsync(file)

    seconds = timed(sync_twice)
    os.close(file)
    return seconds


def quarters(values):
    """The first quarter's end, the median, and the last quarter's begin."""
    ordered = sorted(values)
    return ordered[len(ordered) // 4], median(values), ordered[-1 - len(ordered) // 4]


def main():
    count = int(sys.argv[1]) if len(sys.argv) > 1 else 200
    rounds = int(sys.argv[2]) if len(sys.argv) > 2 else 21
    print(machine())
    calls = {
        "the floor": lambda: floor(count),
        "cdnode": lambda: submissions(count),
        "SQLite, rollback journal": lambda: commits(count, "DELETE"),
        "SQLite, write-ahead log": lambda: commits(count, "WAL"),
    }
    took = {name: [] for name in calls}
    for _ in range(rounds):
        for name, call in calls.items():
            took[name].append(call())
    for name, seconds in took.items():
        ratios = [ours / theirs for ours, theirs in zip(took["cdnode"], seconds)]
        low, middle, high = quarters(ratios)
        print(f"{name}: {count / median(seconds):.0f} a second; cdnode takes {middle:.2f} times as long ({low:.2f} to {high:.2f})")
    print(f"{rounds} rounds of {count}")


main()
