"""How long it takes to open a home of 4,000 entries, beside a run in a folder without a journal."""
import os
import sys

from common import INIT, SUBMIT, cdnode, folder, machine, median, timed


def main():
    rounds = int(sys.argv[1]) if len(sys.argv) > 1 else 31
    print(machine())
    home, empty = folder(), folder()
    cdnode(home, INIT + SUBMIT * 3999)
    opened, nothing = [], []
    for _ in range(rounds):
        opened.append(timed(lambda: cdnode(home, b"stop;")))
        nothing.append(timed(lambda: cdnode(empty, b"stop;")))
    length = os.path.getsize(os.path.join(home, "journal"))
    print(f"a home of 4,000 entries, {length} bytes: {median(opened) * 1000:.1f} ms; without a journal: {median(nothing) * 1000:.1f} ms")


main()
