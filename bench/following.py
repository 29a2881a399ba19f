#!/usr/bin/env python3
"""Times `read --follow` over a log that grows, and `follow` over one that is there.

    bench/following.py FOLDER [BYTES]

makes the shop's log of so many bytes (1,000,000,000 where none are given) in FOLDER with bench/make_log.py, but for its last 200
transactions, and prints

    the processor time of the first look, of the second, and of a look that finds nothing new;
    that of a look which finds one new transaction;
    how long it takes from a transaction's last byte to its lines, with a look every 10 ms.

Behind that it times `follow --once` beside `read`, over the shop's log of 200 MB: seconds of processor time, the best of three.
"""

import argparse
import os
import pathlib
import random
import resource
import statistics
import struct
import subprocess
import sys
import tempfile
import threading
import time

TOP = pathlib.Path(__file__).resolve().parent.parent
PROGRAM = TOP / "crates" / "program" / "out" / "program"
GTID, HEADER, MAGIC = 33, 19, 4
HELD_BACK, LOOKS, PAUSE, RUNS = 200, 1_000, 0.01, 3


class Follower:
    """A run that follows one file."""

    def __init__(self, path):
        self._process = subprocess.Popen([PROGRAM, "read", "--follow", path], stdin=subprocess.PIPE, stdout=subprocess.PIPE)

    def ask(self):
        """Asks for a look."""
        self._process.stdin.write(b"\n")
        self._process.stdin.flush()

    def took(self):
        """The milliseconds of processor time so far."""
        return int(pathlib.Path(f"/proc/{self._process.pid}/schedstat").read_text().split()[0]) / 1e6

    def block(self):
        """What it writes next."""
        return os.read(self._process.stdout.fileno(), 1 << 20)

    def answer(self):
        """Passes over what it writes before the next empty line."""
        last = self.block()[-2:]
        while last not in (b"\n", b"\n\n"):
            last = (last + self.block())[-2:]

    def look(self):
        """The milliseconds of processor time of a look."""
        before = self.took()
        self.ask()
        self.answer()
        return self.took() - before

    def end(self):
        """Ends its input, and passes over the rest."""
        self._process.communicate()


def parts_of(path):
    """The log up to its last transactions, and each of these."""
    content = path.read_bytes()
    place, starts = MAGIC, []
    while place < len(content):
        if content[place + 4] == GTID:
            starts = [*starts[-HELD_BACK + 1 :], place]
        place += struct.unpack_from("<I", content, place + 9)[0]
    ends = [*starts[1:], len(content)]
    return content[: starts[0]], [content[start:end] for start, end in zip(starts, ends)]


def append(path, part):
    """Appends a transaction."""
    with open(path, "ab") as log:
        log.write(part)


def time_looks(path, parts):
    """Prints the processor time of looks."""
    follower = Follower(path)
    before = follower.took()
    follower.answer()
    print(f"first look: {follower.took() - before:.1f} ms")
    print(f"second look: {follower.look():.1f} ms")
    print(f"a look with nothing new: {statistics.mean(follower.look() for _ in range(LOOKS)):.3f} ms")
    times = []
    for part in parts:
        append(path, part)
        times.append(follower.look())
    print(f"a look with one new transaction: {statistics.median(times):.3f} ms, at most {max(times):.3f}")
    follower.end()


def time_lines(path, parts):
    """Prints how long it takes from a transaction's last byte to its lines."""
    follower, ended, times = Follower(path), threading.Event(), []
    follower.answer()
    follower.look()

    def ask():
        while not ended.wait(PAUSE):
            follower.ask()

    asking = threading.Thread(target=ask)
    asking.start()
    for part in parts:
        time.sleep(random.uniform(PAUSE / 2, 3 * PAUSE))
        append(path, part)
        written = time.monotonic()
        while not follower.block().strip(b"\n"):
            pass
        times.append((time.monotonic() - written) * 1_000)
    ended.set()
    asking.join()
    follower.end()
    print(f"from a transaction to its lines: {statistics.median(times):.1f} ms in the middle, at most {max(times):.1f}")


def processor(words, folder):
    """The seconds of processor time of a command and of what it starts. Its state is a new one."""
    with tempfile.TemporaryDirectory(dir=folder) as state:
        before = resource.getrusage(resource.RUSAGE_CHILDREN)
        subprocess.run([word.replace("STATE", f"{state}/state") for word in words], stdout=subprocess.DEVNULL, check=True)
        after = resource.getrusage(resource.RUSAGE_CHILDREN)
    return after.ru_utime + after.ru_stime - before.ru_utime - before.ru_stime


def time_once(log, folder):
    """Prints the times of `read` and of `follow --once`."""
    (log.parent / "binlog.index").write_text(f"./{log.name}\n")
    os.environ["PYTHONPATH"] = str(TOP / "python")
    read = [str(PROGRAM), "read", str(log)]
    once = [sys.executable, "-m", "binlogfeed", "follow", "--program", str(PROGRAM), "--once", "--state", "STATE", str(log.parent)]
    best = [min(processor(words, folder) for _ in range(RUNS)) for words in (read, once)]
    print(f"read: {best[0]:.2f} s; follow --once: {best[1]:.2f} s, {best[1] / best[0]:.2f} times")


def made(folder, name, size):
    """A log of so many bytes."""
    (folder / name).mkdir(parents=True, exist_ok=True)
    log = folder / name / "binlog.000001"
    subprocess.run([TOP / "bench" / "make_log.py", log, str(size)], stdout=subprocess.DEVNULL, check=True)
    return log


def main():
    parser = argparse.ArgumentParser(description=__doc__.split("\n", maxsplit=1)[0])
    parser.add_argument("folder", type=pathlib.Path)
    parser.add_argument("bytes", type=int, nargs="?", default=1_000_000_000)
    given = parser.parse_args()
    log = made(given.folder, "growing", given.bytes)
    content, parts = parts_of(log)
    log.write_bytes(content)
    del content
    time_looks(log, parts[: HELD_BACK // 2])
    time_lines(log, parts[HELD_BACK // 2 :])
    time_once(made(given.folder, "once", 200_000_000), given.folder)


if __name__ == "__main__":
    main()
