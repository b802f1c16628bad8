"""Runs cdnode under strace, and tells the calls that it makes on its home and on the standard streams."""
import collections
import os
import re
import subprocess
import tempfile

ROOT = os.path.join(os.path.dirname(os.path.abspath(__file__)), "..", "..")
INIT = b"init name=ALPHA home=17;\n"
SUBMIT = b"submit P1 PROCESS SNODE=BETA S1 COPY FROM (FILE=a.txt) TO (FILE=b.txt) PEND;\n"

# One call: its name, its arguments, what it gave, its error, and the how manyth of its name it is in the process.
Call = collections.namedtuple("Call", "name args gave error nth")
# What a call does: a word, the file (or a stream), a place, bytes, the error, and the call itself.
Deed = collections.namedtuple("Deed", "what file at data error call")
LINE = re.compile(r"(\w+)\((.*)\)\s+= (-?\d+|\?)(?: (E[A-Z0-9]+))?")
STREAMS = {0: "input", 1: "output", 2: "errors"}
OPENED = {"pread64": "read", "pwrite64": "write", "fsync": "sync", "flock": "lock", "ftruncate": "cut", "close": "close"}


def program(words):
    """The program to look at: the first word, or the one that the gate builds."""
    default = os.path.join(ROOT, "crates", "cd_prog", "out", "cd_prog")
    return os.path.abspath(words[0] if words else default)


def text(word):
    """The bytes of a string as strace -xx writes it."""
    return bytes(int(it, 16) for it in re.findall(r"\\x([0-9a-f]{2})", word))


def run(path, home, data, inject=()):
    """Runs the program on these commands in this home: what it called, printed and told, and its status."""
    with tempfile.NamedTemporaryFile("r", prefix="cdnode-trace-") as log:
        words = ["strace", "-o", log.name, "-xx", "-s", "2000000", "-e", "signal=none"]
        for it in inject:
            words += ["-e", "inject=" + it]
        done = subprocess.run([*words, path], input=data, stdout=subprocess.PIPE, stderr=subprocess.PIPE, cwd=home)
        lines = log.read().splitlines()
    counts = collections.Counter()
    calls = []
    for line in lines:
        found = LINE.match(line)
        if found:
            counts[found[1]] += 1
            gave = None if found[3] == "?" else int(found[3])
            calls.append(Call(found[1], found[2].split(", "), gave, found[4], counts[found[1]]))
    return calls, done.stdout, done.stderr, done.returncode


def place(home, name):
    """A name as it is told: below the home, or none where it isn't the home's."""
    whole = os.path.normpath(os.path.join(os.path.realpath(home), os.fsdecode(name)))
    if whole == "/":
        return "/"
    inside = os.path.relpath(whole, os.path.realpath(home))
    return None if inside.startswith("..") else inside


def opening(call):
    """The word for an openat."""
    flags = call.args[2].split("|")
    if "O_CREAT" in flags:
        return "make " + call.args[3] if "O_EXCL" in flags else "open or make " + call.args[3]
    return "open to write" if "O_RDWR" in flags else "open"


def deeds(calls, home):
    """The calls on the home and the standard streams, in their order, from the node's first call on."""
    open_files, told = dict(STREAMS), []
    for call in calls:
        fd = int(call.args[0]) if re.fullmatch(r"\d+", call.args[0]) else None
        deed = None
        if call.name == "openat":
            file = place(home, text(call.args[1]))
            if file is not None:
                deed = Deed(opening(call), file, None, b"", call.error, call)
            if call.gave is not None and call.gave >= 0:
                open_files[call.gave] = file
        elif call.name == "statx":
            file = open_files.get(fd) if fd is not None else place(home, text(call.args[1]))
            if file is not None and file not in STREAMS.values():
                deed = Deed("look at opened" if fd is not None else "look at", file, None, b"", call.error, call)
        elif call.name in ("unlink", "unlinkat", "rename", "mkdir"):
            deed = Deed(call.name, ", ".join(call.args), None, b"", call.error, call)
        elif open_files.get(fd) is not None:
            deed = deed_on(call, open_files[fd])
            if call.name == "close":
                open_files[fd] = None
        if deed:
            told.append(deed)
    return told


def deed_on(call, file):
    """What a call on an opened file or a stream does."""
    if call.name in ("pread64", "pwrite64"):
        return Deed(OPENED[call.name], file, int(call.args[3]), text(call.args[1]), call.error, call)
    if call.name in ("read", "write"):
        return Deed("take" if call.name == "read" else "give", file, None, text(call.args[1]), call.error, call)
    if call.name == "ftruncate":
        return Deed("cut", file, int(call.args[1]), b"", call.error, call)
    if call.name in OPENED or file not in STREAMS.values():
        return Deed(OPENED.get(call.name, call.name), file, None, b"", call.error, call)
    return None


def shown(deed, hide=lambda data: data):
    """A deed as a line of text."""
    line = f"{deed.what} {'the home' if deed.file == '.' else deed.file}"
    if deed.at is not None:
        line += f" at {deed.at}"
    if deed.data:
        line += ' "' + "".join(chr(b) if 32 <= b < 127 and b != 92 else f"\\{b:02x}" for b in hide(deed.data)) + '"'
    return line + (f": {deed.error}" if deed.error else "")
