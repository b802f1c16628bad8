"""How fast a Process text of 64 KiB is cut into tokens, beside `wc -w` on as many bytes of the same text; and how long a byte
of 16 KiB takes beside one of 64 KiB."""
import os
import subprocess
import sys

from common import SPEED, folder, machine, median, timed

LINE = b"STEP1 COPY FROM (FILE=in/a.txt PNODE) TO (FILE=out/b.txt SNODE DISP=RPL) CKPT=64K /* one of many */ -\n"


def text_of(size):
    """A Process text of about that size, in bytes."""
    front, back = b"P1 PROCESS SNODE=BETA\n", b"PEND\n"
    return front + LINE * ((size - len(front) - len(back)) // len(LINE)) + back


def run(words, given):
    with open(given, "rb") as it:
        return timed(lambda: subprocess.run(words, stdin=it, stdout=subprocess.DEVNULL, check=True))


def byte_time(home, size, times, rounds):
    """Seconds for a byte: what `times` more passes take."""
    text = text_of(size)
    given = os.path.join(home, f"text{size}")
    with open(given, "wb") as it:
        it.write(text)
    once = median([run([SPEED, "1"], given) for _ in range(rounds)])
    often = median([run([SPEED, str(1 + times)], given) for _ in range(rounds)])
    return (often - once) / (times * len(text))


def counted(home, size, times, rounds):
    """Seconds for a byte of `wc -w`."""
    given = os.path.join(home, "repeated")
    with open(given, "wb") as it:
        it.write(text_of(size) * times)
    return median([run(["wc", "-w"], given) for _ in range(rounds)]) / os.path.getsize(given)


def main():
    rounds = int(sys.argv[1]) if len(sys.argv) > 1 else 7
    print(machine())
    home = folder()
    long = byte_time(home, 65_536, 200, rounds)
    short = byte_time(home, 16_384, 800, rounds)
    words = counted(home, 65_536, 1000, rounds)
    print(f"tokens of 64 KiB: {1e-6 / long:.1f} MB/s; wc -w: {1e-6 / words:.1f} MB/s; tokens take {long / words:.2f} times as long")
    print(f"a byte of 64 KiB takes {long / short:.2f} times as long as one of 16 KiB")


main()
