"""Runs of the program: one that ends, line by line, and one that goes on, look after look."""
from __future__ import annotations

import contextlib
import fcntl
import os
import subprocess
import tempfile
import threading
from collections.abc import Generator, Iterator, Sequence
from pathlib import Path

from binlogfeed.faults import FileFault, ProgramFailed, ProgramMissing, told

# The place of the program, and of others that are run, in a package that has it: the wheel.
LIBEXEC = Path(__file__).resolve().parent / "libexec"
# Asks the program for hints below an error's line, where there is no terminal.
HINTS = "BINLOGFEED_HINTS"
BUFFER = 1 << 16
# A pipe of so many bytes has room for several blocks of lines, which the program writes meanwhile.
PIPE = 1 << 18

# The program's name, and where it is looked for before PATH.
NAME = "binlogfeed"
_own = [LIBEXEC / NAME]


def found(program: str | os.PathLike[str]) -> str:
    """The program's path. One that is named without a folder is that of the command that runs, or of this package, or else PATH's."""
    name = os.fspath(program)
    if name != NAME:
        return name
    return next((str(own) for own in _own if os.access(own, os.X_OK)), name)


def use(program: Path) -> None:
    """Has a program be the one that is found: that of the command `binlogfeed`."""
    _own.insert(0, program)


class Program:
    """The program as it runs. Only what stands between it and the caller is held in memory."""

    def __init__(self, command: Sequence[str | os.PathLike[str]], stdin: int) -> None:
        """Starts the program."""
        self._ended = False
        self._ending = threading.RLock()
        # A file takes what the program says on standard error, so that it never waits for a reader.
        self._said = tempfile.TemporaryFile()
        command = [found(command[0]), *command[1:]]
        try:
            self._process = subprocess.Popen(
                command, bufsize=BUFFER, stdin=stdin, stdout=subprocess.PIPE, stderr=self._said, env={**os.environ, HINTS: "1"}
            )
        except OSError as error:
            self._said.close()
            # One that is there may be barred, or its words too many.
            is_missing = isinstance(error, FileNotFoundError) and not os.path.dirname(command[0])
            missing = "it isn't on PATH: name it by --program, or in Python by `program`" if is_missing else None
            raise ProgramMissing(f"binlogfeed: the program can't be started: {command[0]}: {error.strerror}").hinted(missing) from error
        assert self._process.stdout is not None
        self._output = self._process.stdout
        # Where the system doesn't know it, or refuses it, the pipe is as it was.
        with contextlib.suppress(AttributeError, OSError):
            fcntl.fcntl(self._output, fcntl.F_SETPIPE_SZ, PIPE)

    def _blocks(self) -> Generator[bytes, None, bytes]:
        """What the program writes, in blocks of whole lines. Answers what it has left of a line when it ends, or is ended."""
        cut: list[bytes] = []
        while True:
            block = self._read()
            if not block:
                return b"".join(cut)
            whole = block.rfind(b"\n") + 1
            if whole:
                yield b"".join((*cut, memoryview(block)[:whole]))
                cut = [block[whole:]]
            else:
                cut.append(block)

    def _read(self) -> bytes:
        """What the program wrote by now; nothing where it ended."""
        try:
            return self._output.read1(BUFFER)
        except ValueError:  # `end` closed it meanwhile
            return b""

    def _outcome(self) -> tuple[int, str] | None:
        """The status that the program ended with, and what it said on standard error; None where `end` ended it."""
        status = self._process.wait()
        try:
            self._said.seek(0)
            said = self._said.read().decode("utf-8", "surrogateescape").rstrip("\n")
        except ValueError:  # `end` closed it meanwhile
            return None
        if self._ended:
            return None
        self.end()
        return status, said

    def end(self) -> None:
        """Ends the program, if it still runs, and waits for it. Several threads may call it at once."""
        self._ended = True
        with self._ending:
            if self._process.poll() is None:
                self._process.kill()
            self._process.wait()
            for pipe in (self._process.stdin, self._process.stdout):
                # What an ended program didn't take is lost with it.
                with contextlib.suppress(BrokenPipeError):
                    if pipe is not None:
                        pipe.close()
            self._said.close()


class Run(Program):
    """A run that ends."""

    def __init__(self, command: Sequence[str | os.PathLike[str]]) -> None:
        """Starts the program."""
        super().__init__(command, subprocess.DEVNULL)

    def blocks(self) -> Iterator[bytes]:
        """The lines in blocks of whole ones, then the error where the program ended with one. After `end` there are no more."""
        rest = yield from self._blocks()
        outcome = self._outcome()
        if outcome is None:
            return
        status, said = outcome
        if status:
            raise told(said, status)
        if rest:
            raise ProgramFailed("binlogfeed: the program's last line is cut")


class LookingRun(Program):
    """A run that goes on, of `read --follow`. It answers a list of files with the lines that are new in them, and an empty line."""

    def __init__(self, command: Sequence[str | os.PathLike[str]]) -> None:
        """Starts the program."""
        super().__init__(command, subprocess.PIPE)

    def look(self, paths: Sequence[Path]) -> Generator[bytes, None, bool]:
        """The lines that are new in these files, in blocks of whole lines. Without a path the files are those of the look before.

        Then the error where the program ended with one. Answers whether the look came to its end: after `end` it didn't.
        """
        self._ask(paths)
        for lines in self._blocks():
            # No line is empty but the one that ends a look, and nothing follows that one until the program is asked again.
            ended = lines == b"\n" or lines.endswith(b"\n\n")
            if ended:
                lines = lines[:-1]
            if lines:
                yield lines
            if ended:
                return True
        self._judge()
        return False

    def check(self) -> None:
        """Raises the error that the program ended with, where it isn't there any more: it may have been killed between two looks."""
        if self._process.poll() is not None:
            self._judge()

    def _judge(self) -> None:
        """Raises the error that the program ended with. It had no reason to end before its input does."""
        outcome = self._outcome()
        if outcome is not None:
            status, said = outcome
            raise told(said, status) if status else ProgramFailed("binlogfeed: the program ended before its input")

    def _ask(self, paths: Sequence[Path]) -> None:
        """Gives the program its list, which an empty line ends."""
        names = [os.fsencode(path) for path in paths]
        for name in names:
            if b"\n" in name:
                raise FileFault(f"binlogfeed: a path with a line feed can't be followed: {os.fsdecode(name)!r}")
        pipe = self._process.stdin
        assert pipe is not None
        try:
            pipe.write(b"".join(name + b"\n" for name in names) + b"\n")
            pipe.flush()
        except (BrokenPipeError, ValueError):
            # The program ended, which the reading tells; or `end` closed the pipe.
            pass
