"""What the measurements share: where the programs are, how a run is timed, and what machine this is."""
import os
import platform
import re
import subprocess
import tempfile
import time

TOP = os.path.join(os.path.dirname(os.path.abspath(__file__)), "..")
CDNODE = os.path.join(TOP, "crates", "cd_prog", "out", "cd_prog")
SPEED = os.path.join(TOP, "crates", "bench_tokens", "out", "bench_tokens")
TEXTS = os.path.join(TOP, "crates", "test_parser", "out", "test_parser")
INIT = b"init name=ALPHA home=17;\n"
SUBMIT = b"submit P1 PROCESS SNODE=BETA S1 COPY FROM (FILE=a.txt) TO (FILE=b.txt) PEND;\n"


def timed(call):
    """How many seconds a call takes."""
    start = time.perf_counter()
    call()
    return time.perf_counter() - start


def median(values):
    return sorted(values)[len(values) // 2]


def folder():
    """A fresh folder on the disk of the current folder."""
    return tempfile.mkdtemp(prefix="bench-", dir=".")


def cdnode(home, commands):
    """Runs the node in a home, and gives what it wrote."""
    done = subprocess.run([CDNODE], input=commands, stdout=subprocess.PIPE, cwd=home)
    if done.returncode != 0:
        raise SystemExit(f"cdnode ended with {done.returncode}: {done.stdout[-200:]!r}")
    return done.stdout


def machine():
    """A line on the machine, and how busy it is."""
    with open("/proc/cpuinfo", encoding="utf-8") as it:
        model = re.search(r"model name\s*: (.*)", it.read()).group(1)
    kind = subprocess.run(["stat", "-f", "-c", "%T", "."], stdout=subprocess.PIPE, check=True).stdout.decode().strip()
    load = ", ".join(f"{it:.1f}" for it in os.getloadavg())
    return f"{model}, {os.cpu_count()} processors, Linux {platform.release()}, disk {kind}, load {load}"
