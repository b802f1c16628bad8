"""Builds what a crash may leave of the journal at each moment of some runs of cdnode, and opens it with the program.

The runs are recorded with strace, and the disk is played again. A sync that succeeds puts on the disk what was written
before it. Without one a written byte may be any byte, and the length any between the least and the greatest since. A sync
that fails leaves what was written in doubt, whatever later syncs do, until it is written again. What is written again just as
it is read is the byte from before or the byte that is read. A name that was made is there or not until its folder is
synced."""
import os
import random
import re
import subprocess
import sys
import tempfile

sys.path.insert(0, os.path.join(os.path.dirname(os.path.abspath(__file__)), "..", "syscalls"))
import recorder

CLEAN, DIRTY, AGAIN, LOST = range(4)
DRAWN = 6


def entries(data):
    """The bodies of a journal's bytes, or none where they are no journal."""
    if not data:
        return []
    at, bodies = 8, []
    if data[:8] != b"CDNODE01":
        return None
    while at < len(data):
        if data[at] != 1:
            return bodies
        length = int.from_bytes(data[at + 1:at + 5], "big")
        if not 1 <= length <= 262144 or at + 5 + length > len(data):
            return None
        bodies.append(data[at + 5:at + 5 + length])
        at += 5 + length
    return None


class Disk:
    """The journal's file: what a read gives, what is on the disk, and how each byte stands between the two."""

    def __init__(self):
        self.seen, self.base, self.state = bytearray(), bytearray(), bytearray()
        self.least = self.greatest = 0
        self.is_made, self.has_name = False, True

    def grow(self, length):
        for it in (self.seen, self.base, self.state):
            it.extend(bytes(max(0, length - len(it))))

    def write(self, at, data):
        again = data == bytes(self.seen[at:at + len(data)])
        self.grow(at + len(data))
        for i, byte in enumerate(data, at):
            if again and self.state[i] == LOST:
                self.state[i] = AGAIN
            elif not again:
                self.state[i] = DIRTY
            self.seen[i] = byte
        self.greatest = max(self.greatest, len(self.seen))

    def cut(self, length):
        self.grow(length)
        del self.seen[length:], self.base[length:], self.state[length:]
        self.least, self.greatest = min(self.least, length), max(self.greatest, length)

    def sync(self, is_done):
        for i, state in enumerate(self.state):
            if is_done and state in (DIRTY, AGAIN):
                self.base[i], self.state[i] = self.seen[i], CLEAN
            elif not is_done and state in (DIRTY, AGAIN):
                self.state[i] = LOST
        if is_done:
            self.least = self.greatest = len(self.seen)

    def doubt(self):
        return [i for i, state in enumerate(self.state) if state != CLEAN]

    def fill(self, image, i, how, rng):
        """Puts into the image one of the bytes that may stand at a place in doubt."""
        old = self.base[i]
        new = self.seen[i]
        image[i] = rng.randrange(256) if how == "any" and self.state[i] == DIRTY else old if how == "old" else new

    def images(self, rng):
        """What a crash now may leave: all of it where few bytes are in doubt, and drawn ones else."""
        found = {bytes(self.seen)}
        if self.is_made and not self.has_name:
            found.add(None)
        doubt = self.doubt()
        for length in self.lengths(rng):
            for image in self.fillings([i for i in doubt if i < length], rng):
                found.add(bytes(image[:length]))
        return found

    def lengths(self, rng):
        if self.greatest - self.least <= 9:
            return range(self.least, self.greatest + 1)
        return sorted({self.least, self.greatest, *(rng.randint(self.least, self.greatest) for _ in range(DRAWN))})

    def fillings(self, doubt, rng):
        if len(doubt) == 1 and self.state[doubt[0]] == DIRTY:
            for byte in range(256):
                image = bytearray(self.seen)
                image[doubt[0]] = byte
                yield image
            return
        mixes = range(1 << len(doubt)) if len(doubt) <= 4 else [rng.getrandbits(len(doubt)) for _ in range(DRAWN)] + [0, -1]
        for mix in mixes:
            image = bytearray(self.seen)
            for k, i in enumerate(doubt):
                self.fill(image, i, "new" if mix >> k & 1 else "old", rng)
            yield image
        for _ in range(DRAWN if doubt else 0):
            image = bytearray(self.seen)
            for i in doubt:
                self.fill(image, i, rng.choice(("any", "old", "new")), rng)
            yield image


class Played:
    """The runs, played again up to some moment."""

    def __init__(self):
        self.disk, self.printed, self.before = Disk(), b"", []

    def play(self, deed):
        """Plays one call; false where it changes nothing of what a crash may leave or of what was printed."""
        disk = self.disk
        if deed.file == "output" and deed.what == "give":
            self.printed += deed.data
        elif deed.file == "." and deed.what == "sync" and not deed.error:
            disk.has_name = True
        elif deed.file != "journal" or (deed.error and deed.what != "sync"):
            return False
        elif deed.what == "write":
            disk.write(deed.at, deed.data)
        elif deed.what == "cut":
            disk.cut(deed.at)
        elif deed.what == "sync":
            disk.sync(not deed.error)
            if not disk.doubt():
                self.before = entries(bytes(disk.seen)) or []
        elif deed.what.startswith(("make", "open or make")):
            disk.is_made, disk.has_name = True, False
        else:
            return False
        return True


def judge(program, played, image, home):
    """What is wrong with the program's opening of what a crash left, if anything."""
    path = os.path.join(home, "journal")
    if image is not None:
        with open(path, "wb") as file:
            file.write(image)
    done = subprocess.run([program], input=recorder.SUBMIT, stdout=subprocess.PIPE, stderr=subprocess.PIPE, cwd=home)
    numbers = [int(it) for it in re.findall(rb"PROCESS (\d+) SUBMITTED\n", played.printed)]
    if b"HOME ALPHA 17\n" not in played.printed and done.returncode in (2, 6):
        return None
    if done.returncode != 0:
        return f"status {done.returncode}, {done.stdout!r}"
    with open(path, "rb") as file:
        kept = entries(file.read())
    after = entries(bytes(played.disk.seen)) or []
    if kept is None or kept[:-1] not in (played.before, after):
        return f"{len(kept or []) - 1} entries, neither the list before nor the list after"
    if len(kept) - 2 < max(numbers, default=0):
        return f"{len(kept) - 2} submissions, after {max(numbers)} were acknowledged"
    return None


def recorded(program, runs):
    """The deeds of these runs on one home."""
    deeds = []
    with tempfile.TemporaryDirectory(prefix="cdnode-torn-") as home:
        for data, inject in runs:
            calls, _, _, _ = recorder.run(program, home, data, inject)
            deeds += recorder.deeds(calls, home)
    return deeds


def syncs(program, data, at):
    """Which sync of a run on a home it is, counted from the end by `at`, by its number among all of that run."""
    deeds = recorded(program, [(recorder.INIT, ()), (data, ())])
    first = [i for i, it in enumerate(deeds) if it.what == "close" and it.file == "journal"][0]
    return [it.call.nth for it in deeds[first:] if it.what == "sync"][at]


def syncs_of_making(program):
    """The number of the first sync of a journal that was just made, in the run of an init."""
    deeds = recorded(program, [(recorder.INIT, ())])
    made = [i for i, it in enumerate(deeds) if it.what.startswith(("make", "open or make"))][0]
    return [it.call.nth for it in deeds[made:] if it.what == "sync"][0]


def main():
    program = recorder.program(sys.argv[1:])
    rng = random.Random(int(sys.argv[2]) if len(sys.argv) > 2 else 1)
    one, two = recorder.SUBMIT, recorder.SUBMIT * 2
    gate, block = syncs(program, one, -1), syncs(program, one, -2)
    stories = [
        [(recorder.INIT + two, ()), (two, ())],
        [(recorder.INIT, ["fsync:signal=KILL:when=%d" % syncs_of_making(program)]), (recorder.INIT + one, ()), (one, ())],
        [(recorder.INIT + one, ()), (one, [f"fsync:error=EIO:when={gate}"]), (two, ())],
        [(recorder.INIT + one, ()), (one, [f"fsync:error=EIO:when={block}"]), (two, ())],
    ]
    states = wrong = 0
    for number, runs in enumerate(stories, 1):
        played, seen = Played(), set()
        for deed in recorded(program, runs):
            if not played.play(deed):
                continue
            for image in played.disk.images(rng):
                if (image, played.printed) in seen:
                    continue
                seen.add((image, played.printed))
                with tempfile.TemporaryDirectory(prefix="cdnode-torn-") as home:
                    why = judge(program, played, image, home)
                states += 1
                if why:
                    wrong += 1
                    if wrong <= 20:
                        print(f"runs {number}, after {recorder.shown(deed)[:60]}: {why}")
    print(f"states {states}, opened as the list before or after with each number that was printed {states - wrong}, wrong {wrong}")
    return 1 if wrong else 0


sys.exit(main())
