"""Logs that grow as a server writes them, and a driver of `read --follow` that knows nothing of the package."""
from __future__ import annotations

import json
import os
import select
import subprocess
import time
from collections.abc import Iterable
from pathlib import Path
from random import Random

from built.check import SECONDS, Outcome, Wanted, command, differs, run

# In its format event, a server's flag says that the log is in use. It is cleared when the log is closed.
FLAGS = slice(21, 23)
IN_USE, CLOSED = b"\x01\x00", b"\x00\x00"


class Server:
    """Writes logs into a folder, one step after the other, with an index that is away for a while at each rotation and purge."""

    def __init__(self, folder: Path, logs: Iterable[Path], chance: Random, away: float = 0.0) -> None:
        """A server of these logs. The steps are by chance."""
        self.folder = folder
        self._left = [(path.name, path.read_bytes()) for path in logs]
        self._chance = chance
        self._away = away
        self._names: list[str] = []
        self._content, self._length = b"", 0
        self._rotate()

    @property
    def paths(self) -> list[Path]:
        """The logs that are there."""
        return [self.folder / name for name in self._names]

    def step(self) -> bool:
        """Writes some bytes more, or begins the next log where one is whole. Answers whether there was a step left."""
        if self._length < len(self._content):
            self._grow()
        elif self._left:
            self._close()
            self._rotate()
        else:
            self._close()
            return False
        return True

    def purge(self, first: str) -> None:
        """Takes the logs before this one away, if it is there."""
        gone = self._names[: self._names.index(first)] if first in self._names else []
        if gone:
            self._names = self._names[len(gone) :]
            self._put_index()
            for name in gone:
                (self.folder / name).unlink()

    def _grow(self) -> None:
        """Writes some bytes of the log."""
        many = self._chance.choice((1, 19, 200, 2_000, 8_000))
        end = min(len(self._content), self._length + self._chance.randint(1, many))
        more = bytearray(self._content[self._length : end])
        for place in range(max(FLAGS.start, self._length), min(FLAGS.stop, end)):
            more[place - self._length] = IN_USE[place - FLAGS.start]
        with open(self.folder / self._names[-1], "ab") as log:
            log.write(more)
        self._length = end

    def _close(self) -> None:
        """Clears the log's flag, in its place."""
        with open(self.folder / self._names[-1], "r+b") as log:
            log.seek(FLAGS.start)
            log.write(CLOSED)

    def _rotate(self) -> None:
        """Begins the next log."""
        name, self._content = self._left.pop(0)
        self._length = 0
        (self.folder / name).write_bytes(b"")
        self._names.append(name)
        self._put_index()

    def _put_index(self) -> None:
        """Takes the index away, and puts another in its place."""
        index, new = self.folder / "binlog.index", self.folder / "binlog.~rec~"
        index.unlink(missing_ok=True)
        time.sleep(self._away)
        new.write_text("".join(f"./{name}\n" for name in self._names))
        new.rename(index)


class Driver:
    """Runs `read --follow`, and asks it for one look after the other."""

    def __init__(self, program: str | Path, *words: str) -> None:
        """Starts the program."""
        self.process = subprocess.Popen(
            command(["read", "--follow", *words]),
            executable=program,
            stdin=subprocess.PIPE,
            stdout=subprocess.PIPE,
            stderr=subprocess.PIPE,
        )

    def tell(self, *paths: Path) -> None:
        """Gives it a list of files, or an empty list."""
        self.process.stdin.write(b"".join(os.fsencode(path) + b"\n" for path in paths) + b"\n")
        self.process.stdin.flush()

    def look(self, *paths: Path) -> bytes:
        """The lines that it answers to a list of files, or to an empty list."""
        self.tell(*paths)
        return self.answer()

    def answer(self) -> bytes:
        """What it writes before the next empty line."""
        text = b""
        while text != b"\n" and not text.endswith(b"\n\n"):
            if not select.select([self.process.stdout], [], [], SECONDS)[0]:
                raise TimeoutError(f"no empty line came behind {text!r}")
            block = os.read(self.process.stdout.fileno(), 1 << 16)
            if not block:
                raise EOFError(f"it ended behind {text!r}")
            text += block
        return text[:-1]

    def killed(self, after: float) -> bytes:
        """Kills it after so many seconds. Answers what it wrote until then, and wasn't taken yet."""
        time.sleep(after)
        self.process.kill()
        return self.process.communicate(timeout=SECONDS)[0]

    def ended(self) -> tuple[int, bytes, bytes]:
        """Ends its input. Answers its status, and what else it wrote."""
        out, said = self.process.communicate(timeout=SECONDS)
        return self.process.returncode, out, said


def judge_from_each_token(words: tuple[str, ...], path: str, program: Path, folder: Path) -> list[str]:
    """Behind each token of a run over a log stand the lines behind it."""
    lines = run(program, ["read", *words, path], folder).stdout.splitlines(keepends=True)
    reasons = [] if lines else ["there are no lines"]
    for number, line in enumerate(lines, 1):
        token = json.loads(line)["token"]
        came = run(program, ["read", *words, "--from", token, path], folder)
        reasons += [f"from {token}: {reason}" for reason in differs(came, Wanted(0, b"".join(lines[number:])))]
    return reasons


def judge_followed(words: tuple[str, ...], path: str, count: int, program: Path, folder: Path) -> list[str]:
    """A run that follows a log while it grows gives at each look what is new, which is what a run over so much of it gives: so many lines."""
    content, log = Path(path).read_bytes(), folder / Path(path).name
    driver, came, reasons = Driver(program, *words), b"", []
    for length in [*range(0, len(content), 97), len(content)]:
        log.write_bytes(content[:length])
        came += driver.look(log)
        wanted = run(program, ["read", *words, str(log)], folder)
        reasons += [f"cut to {length}: {reason}" for reason in differs(wanted, Wanted(0, came))]
    reasons += differs(Outcome(*driver.ended()), Wanted(0))
    return reasons + ([] if came.count(b"\n") == count else [f"the lines are {came!r}"])
