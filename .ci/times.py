#!/usr/bin/env python3
"""Runs the command that follows (as `rt ci`), and writes the processor time of each crate's proof, tests and must-fail
edits as a table: `.ci/times.py TABLE rt ci`. The gate's log tells no times, so the prover's processes are looked at
every half second, with what each has used by then; of the last half second nothing is seen."""
import collections, os, subprocess, sys, threading

TICK = os.sysconf("SC_CLK_TCK")


def provers():
    """Yields what each prover is at: its process, its crate, the kind of its work, and its seconds of processor."""
    for pid in filter(str.isdigit, os.listdir("/proc")):
        try:
            words = open(f"/proc/{pid}/cmdline").read().split("\0")
            if not words[0].endswith("/bin/rattle") or "--crate-name" not in words:
                continue
            fields = open(f"/proc/{pid}/stat").read().rsplit(")", 1)[1].split()
            folder = os.readlink(f"/proc/{pid}/cwd")
        except OSError:
            continue
        crate = words[words.index("--crate-name") + 1]
        kind = "edits" if "/rt-edit" in folder else "tests" if "--test" in words else "proof"
        yield (pid, fields[19]), crate, kind, (int(fields[11]) + int(fields[12])) / TICK


def table(used):
    sums = collections.defaultdict(lambda: collections.Counter())
    for crate, kind, seconds in used.values():
        sums[crate][kind] += seconds
    yield "| Crate | Proof | Tests | Edits |\n|---|---|---|---|\n"
    for crate, kinds in sorted(sums.items(), key=lambda item: -sum(item[1].values())):
        yield f"| {crate} | " + " | ".join(f"{kinds[kind]:.0f} s" for kind in ("proof", "tests", "edits")) + " |\n"
    total = [sum(kinds[kind] for kinds in sums.values()) / 60 for kind in ("proof", "tests", "edits")]
    yield "| all | " + " | ".join(f"{minutes:.0f} min" for minutes in total) + " |\n"


def main():
    used = {}
    child = subprocess.Popen(sys.argv[2:])
    done = threading.Event()

    def look():
        while not done.wait(0.5):
            for process, crate, kind, seconds in provers():
                used[process] = (crate, kind, seconds)

    watcher = threading.Thread(target=look)
    watcher.start()
    status = child.wait()
    done.set()
    watcher.join()
    with open(sys.argv[1], "w") as out:
        out.writelines(table(used))
    sys.exit(status)


main()
