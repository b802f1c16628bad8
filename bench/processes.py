"""How long a byte of a Process text of 64 KiB and 1,024 statements takes to be read and printed, beside a byte of one of
1 KiB and 16 statements; and whether what is printed of the long one is read back as itself."""
import os
import subprocess
import sys

from common import TEXTS, folder, machine, median, timed

FRONT, BACK, BETWEEN = b"P1 PROCESS SNODE=BETA\n", b"PEND", b"\n%%\n"


def text_of(size):
    """A Process text of that size in bytes, with a statement for each 64 of them."""
    count = size // 64
    room = size - len(FRONT) - len(BACK)
    lines = []
    for place in range(count):
        line = b"S%d COPY FROM (FILE=a) TO (FILE=b DISP=NEW)" % place
        width = room * (place + 1) // count - room * place // count
        lines.append(line.ljust(width - 1)[: width - 1] + b"\n")
    return FRONT + b"".join(lines) + BACK


def said(texts):
    return subprocess.run([TEXTS], input=texts, stdout=subprocess.PIPE, check=True).stdout


def run(given):
    with open(given, "rb") as it:
        return timed(lambda: subprocess.run([TEXTS], stdin=it, stdout=subprocess.DEVNULL, check=True))


def byte_time(home, size, times, rounds):
    """Seconds for a byte: what `times` more texts take."""
    text = text_of(size)
    assert len(text) == size
    seconds = []
    for count in (1, 1 + times):
        given = os.path.join(home, f"process{size}x{count}")
        with open(given, "wb") as it:
            it.write(BETWEEN.join([text] * count))
        seconds.append(median([run(given) for _ in range(rounds)]))
    return (seconds[1] - seconds[0]) / (times * size)


def main():
    rounds = int(sys.argv[1]) if len(sys.argv) > 1 else 7
    print(machine())
    printed = said(text_of(65_536))
    canonical = printed[: -len(b"\n%%\n")]
    print(f"{printed.count(b' COPY ')} statements in {len(canonical)} bytes; read back as itself: {said(canonical) == printed}")
    home = folder()
    long = byte_time(home, 65_536, 20, rounds)
    short = byte_time(home, 1_024, 1280, rounds)
    print(f"a byte of 64 KiB: {long * 1e9:.0f} ns; of 1 KiB: {short * 1e9:.0f} ns; it takes {long / short:.2f} times as long")


main()
