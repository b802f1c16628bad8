"""Holds the system's calls of cdnode against the lists beside this file: which bytes are written where, what is synced
before what is written, and which folder is synced. A call more or less fails."""
import os
import struct
import sys
import tempfile
import time

import recorder

HERE = os.path.dirname(os.path.abspath(__file__))


def hidden(since):
    """Hides the moments of the run, which are eight bytes each."""
    def hide(data):
        for second in range(since - 1, int(time.time()) + 2):
            data = data.replace(struct.pack(">Q", second), b"<MOMENT>")
        return data
    return hide


def main():
    words = [it for it in sys.argv[1:] if it != "--write"]
    program = recorder.program(words)
    compared = wrong = 0
    with tempfile.TemporaryDirectory(prefix="cdnode-syscalls-") as home:
        for name, data in (("init", recorder.INIT), ("submission", recorder.SUBMIT), ("opening", b""), ("refused", b"foo;\n")):
            since = int(time.time())
            calls, _, _, _ = recorder.run(program, home, data)
            lines = [recorder.shown(it, hidden(since)) for it in recorder.deeds(calls, home)]
            path = os.path.join(HERE, name + ".calls")
            if "--write" in sys.argv:
                with open(path, "w") as out:
                    out.write("\n".join(lines) + "\n")
            with open(path) as wanted:
                wanted = wanted.read().splitlines()
            compared += len(wanted)
            for i in range(max(len(lines), len(wanted))):
                here = lines[i] if i < len(lines) else "nothing"
                there = wanted[i] if i < len(wanted) else "nothing"
                if here != there:
                    wrong += 1
                    print(f"{name}, call {i + 1}: wanted {there}\n{' ' * len(name)}  but it is {here}")
    print(f"calls compared {compared}, other than wanted {wrong}")
    return 1 if wrong else 0


sys.exit(main())
