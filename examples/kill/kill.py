"""Kills cdnode while it submits, and opens its home again each time.

A round gives the program many submissions, ends it by SIGKILL after a random time, and reads what it printed: each
whole line PROCESS n SUBMITTED acknowledges n. The next round's first reply tells how many submissions the journal
has kept. None that was acknowledged may be missing, and at most one more than that may be there.
"""
import os
import random
import re
import subprocess
import sys
import tempfile
import time

PROGRAM = os.path.join(os.path.dirname(os.path.abspath(__file__)), "..", "..", "crates", "cd_prog", "out", "cd_prog")
SUBMIT = b"submit P1 PROCESS SNODE=BETA S1 COPY FROM (FILE=a.txt) TO (FILE=b.txt) PEND;\n"


def kept(home):
    """How many submissions the home has: one more is submitted, and its number told."""
    done = subprocess.run([PROGRAM], input=SUBMIT, stdout=subprocess.PIPE, cwd=home)
    found = re.fullmatch(rb"PROCESS (\d+) SUBMITTED\n", done.stdout)
    if done.returncode != 0 or not found:
        raise SystemExit(f"the home did not open: status {done.returncode}, {done.stdout!r}")
    return int(found.group(1)) - 1


def main():
    rounds = int(sys.argv[1]) if len(sys.argv) > 1 else 300
    random.seed(int(sys.argv[2]) if len(sys.argv) > 2 else 1)
    acknowledged = whole = beyond = homes = 0
    home, have = None, 0
    for _ in range(rounds):
        if home is None or have > 3500:
            home, have, homes = tempfile.mkdtemp(prefix="cdnode-kill-"), 0, homes + 1
            subprocess.run([PROGRAM], input=b"init name=ALPHA home=17;\n", stdout=subprocess.DEVNULL, cwd=home, check=True)
        run = subprocess.Popen([PROGRAM], stdin=subprocess.PIPE, stdout=subprocess.PIPE, cwd=home)
        run.stdin.write(SUBMIT * 200)
        run.stdin.flush()
        time.sleep(random.uniform(0, 0.05))
        run.kill()
        out = run.stdout.read()
        run.wait()
        told = [int(n) for n in re.findall(rb"PROCESS (\d+) SUBMITTED\n", out)]
        last = told[-1] if told else have
        now = kept(home)
        if told != list(range(have + 1, have + 1 + len(told))):
            raise SystemExit(f"numbers out of order: {told}")
        if not last <= now <= last + 1:
            raise SystemExit(f"acknowledged up to {last}, but the journal has {now}")
        acknowledged += len(told)
        whole += 1
        beyond += now - last
        have = now + 1
    print(f"rounds {whole}, homes {homes}, acknowledged {acknowledged}, kept and not acknowledged {beyond}, lost 0")


main()
