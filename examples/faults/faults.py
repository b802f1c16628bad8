"""Lets each call of the system fail in a run of cdnode, one after the other: once by an error, and once by a signal that
interrupts it. Looks at the status, the line on standard error, and what the next opening finds and writes."""
import fcntl
import os
import re
import shutil
import subprocess
import sys
import tempfile

sys.path.insert(0, os.path.join(os.path.dirname(os.path.abspath(__file__)), "..", "syscalls"))
import recorder

REASON = b"Input/output error (os error 5)\n"
TWO = recorder.SUBMIT * 2


def wanted(deed):
    """The status, the last line and the line on standard error where this call fails."""
    if deed.what == "close":
        return 0, None, b""
    if deed.file == "/":
        return 14, b"NO MEMORY\n", b""
    if deed.file == "input":
        return 9, b"INPUT FAULT\n", b"input stdin: " + REASON
    if deed.file == "output":
        return 10, None, b"output stdout: " + REASON
    return 7, b"DISK FAULT\n", b"disk journal: " + REASON


def acknowledged(out):
    """The greatest number that was acknowledged."""
    return max([int(it) for it in re.findall(rb"PROCESS (\d+) SUBMITTED\n", out)], default=0)


def last_gate(home):
    """Where the last entry's gate stands in the journal, and where the file ends."""
    with open(os.path.join(home, "journal"), "rb") as file:
        data = file.read()
    gate, last = 8, 8
    while gate < len(data) and data[gate] == 1:
        last, gate = gate, gate + 5 + int.from_bytes(data[gate + 1:gate + 5], "big")
    return last, len(data)


def settles(deeds, first, end):
    """An opening writes all from the last gate on again, syncs it, and syncs the folder, before it answers."""
    lacking, synced, folder = set(range(first, end)), False, False
    for deed in deeds:
        if deed.error:
            continue
        if deed.file == "journal" and deed.what == "write" and not synced:
            lacking -= set(range(deed.at, deed.at + len(deed.data)))
        elif deed.file == "journal" and deed.what == "sync":
            synced = True
        elif deed.file == "." and deed.what == "sync":
            folder = True
        elif deed.what == "give" and deed.file == "output":
            break
    return not lacking and synced and folder


def next_opening(program, home, out):
    """What is wrong with the next opening, if anything: it has to have each acknowledged number."""
    path = os.path.join(home, "journal")
    had_home = b"HOME ALPHA 17\n" in out or acknowledged(out)
    first, end = last_gate(home) if os.path.exists(path) and os.path.getsize(path) else (0, 0)
    calls, said, _, status = recorder.run(program, home, recorder.SUBMIT)
    if status == 2 and said == b"REFUSED NOTHOME\n" and not had_home:
        calls, said, _, status = recorder.run(program, home, recorder.INIT + recorder.SUBMIT)
    elif end and not settles(recorder.deeds(calls, home), first, end):
        return "the next opening answers before the last entry and the folder are on the disk"
    number = acknowledged(said)
    if status != 0 or not acknowledged(out) <= number - 1 <= acknowledged(out) + 1:
        return f"the next opening: status {status}, {said!r}, after {acknowledged(out)} were acknowledged"
    return None


def fail(program, deed, error, prepared, data):
    """What is wrong where this call gives this error, if anything."""
    with tempfile.TemporaryDirectory(prefix="cdnode-faults-") as folder:
        home = os.path.join(folder, "home")
        shutil.copytree(prepared, home)
        inject = [f"{deed.call.name}:error={error}:when={deed.call.nth}"]
        _, out, errors, status = recorder.run(program, home, data, inject)
        if error == "EINTR":
            wants, last, line = 0, None, b""
        else:
            wants, last, line = wanted(deed)
        if status != wants or (last and not out.endswith(last)):
            return f"status {status} and not {wants}, {out[-60:]!r}"
        if errors != line:
            return f"standard error has {errors!r} and not {line!r}"
        if status == 0 and acknowledged(out) != 2:
            return f"it went on, but {out[-60:]!r}"
        return next_opening(program, home, out)


def each_call(program, prepared, data):
    """Lets each call fail; gives how many were tried, and tells what is wrong."""
    with tempfile.TemporaryDirectory(prefix="cdnode-faults-") as folder:
        home = os.path.join(folder, "home")
        shutil.copytree(prepared, home)
        calls, _, _, _ = recorder.run(program, home, data)
        deeds = recorder.deeds(calls, home)
    tried = wrong = 0
    for deed in [it for it in deeds if not it.error]:
        for error in ("EIO", "EINTR"):
            why = fail(program, deed, error, prepared, data)
            tried += 1
            if why:
                wrong += 1
                print(f"{error} at {recorder.shown(deed)[:60]}: {why}")
    return tried, wrong


def plain(program, home, command, data=b""):
    """Runs the program by a shell's command."""
    done = subprocess.run(["sh", "-c", command, program], input=data, stdout=subprocess.PIPE, stderr=subprocess.PIPE, cwd=home)
    return done.returncode, done.stdout, done.stderr


def around(program, prepared):
    """A second program, closed streams, and words that aren't text. What is wrong is told."""
    rows = [
        ("a word that isn't text", "exec \"$0\" \"$(printf '\\377')\"", 1, b"USAGE cdnode [--echo] [--max-turns N]\n", b""),
        ("an input that is closed", 'exec "$0" <&-', 9, b"INPUT FAULT\n", b"input stdin: "),
        ("an input that is a folder", 'exec "$0" </', 9, b"INPUT FAULT\n", b"input stdin: Is a directory (os error 21)\n"),
        ("an output that is closed", 'exec "$0" >&-', 10, b"", b"output stdout: Bad file descriptor (os error 9)\n"),
        ("an output that is full", 'exec "$0" >/dev/full', 10, b"", b"output stdout: No space left on device (os error 28)\n"),
        ("errors that are closed", 'exec "$0" </ 2>&-', 9, b"INPUT FAULT\n", b""),
        ("a lock that is held", 'exec "$0"', 7, b"DISK FAULT\n", b"disk journal: another program has locked it\n"),
    ]
    wrong = 0
    for name, command, status, out, errors in rows:
        with tempfile.TemporaryDirectory(prefix="cdnode-faults-") as folder:
            home = os.path.join(folder, "home")
            shutil.copytree(prepared, home)
            held = open(os.path.join(home, "journal"), "rb")
            if status == 7:
                fcntl.flock(held, fcntl.LOCK_SH)
            before = held.read()
            got = plain(program, home, command, recorder.SUBMIT)
            fcntl.flock(held, fcntl.LOCK_UN)
            held.seek(0)
            after = held.read()
            unharmed = after == before if status in (1, 7, 9) else after.startswith(b"CDNODE01\1")
            if got[:2] != (status, out) or not got[2].startswith(errors) or not unharmed:
                wrong += 1
                print(f"{name}: status {got[0]}, {got[1]!r}, {got[2]!r}" + ("" if unharmed else ", and the journal is harmed"))
    return len(rows), wrong


def main():
    program = recorder.program(sys.argv[1:])
    tried = wrong = 0
    with tempfile.TemporaryDirectory(prefix="cdnode-faults-") as folder:
        new, old = os.path.join(folder, "new"), os.path.join(folder, "old")
        os.mkdir(new)
        os.mkdir(old)
        subprocess.run([program], input=recorder.INIT, stdout=subprocess.DEVNULL, cwd=old, check=True)
        for prepared, data in ((new, recorder.INIT + TWO), (old, TWO)):
            more, bad = each_call(program, prepared, data)
            tried, wrong = tried + more, wrong + bad
        rows, bad = around(program, old)
    print(f"calls that failed {tried // 2}, that were interrupted {tried // 2}, rows on streams, words and locks {rows}; wrong {wrong + bad}")
    return 1 if wrong or bad else 0


sys.exit(main())
