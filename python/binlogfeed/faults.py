"""What ends a reading early: an exception for each exit status of the program, and those of this package."""
from __future__ import annotations

import re
from collections.abc import Iterable
from pathlib import Path
from typing import Optional, Tuple

# What the program says of a log that it can't take in. A file's name may have any character but a slash.
LOG_FAULT = re.compile(r"^binlogfeed: log fault at (.*):(\d+): (\w+(?:\(\d+\))?)\Z", re.DOTALL | re.MULTILINE)
TOKEN_REFUSED = re.compile(r"^binlogfeed: token refused: (\w+)\Z", re.MULTILINE)
LOG_LOST = re.compile(r"^binlogfeed: file (?:gone|shorter): (.*)\Z", re.DOTALL | re.MULTILINE)
# What it says below that, where it is asked to: hints, and what is wrong with its words.
HINT = re.compile(r"^(?:hint|error): (.*)$", re.MULTILINE)


class BinlogfeedError(Exception):
    """A reading ended early. `line` says why, and `status` is the exit status that stands for it.

    `hints` say what it mostly comes from, and what to do. Their words may change.
    """

    status = 70

    def __init__(self, line: str, status: int | None = None) -> None:
        """An error with its line."""
        super().__init__(line)
        self.line = line
        self.hints: Tuple[str, ...] = ()
        if status is not None:
            self.status = status

    def hinted(self, *hints: str | None) -> BinlogfeedError:
        """The same, with these hints."""
        self.hints = tuple(hint for hint in hints if hint)
        return self


class LogFault(BinlogfeedError):
    """Something in a file can't be taken in: `what`, at `position` of `file`. All changes before it were given."""

    status = 1

    def __init__(self, line: str, file: str, position: int, what: str) -> None:
        """A fault with its place."""
        super().__init__(line)
        self.file = file
        self.position = position
        self.what = what
        # Where the file is, if that is known.
        self.path: Optional[Path] = None

    def among(self, paths: Iterable[Path]) -> LogFault:
        """The same, which knows where its file is among these."""
        self.path = next((path for path in paths if path.name == self.file), None)
        return self


class WordsRefused(BinlogfeedError):
    """The program refused its words (no file, say) or an option's value, or two of the files have one name."""

    status = 2


class TokenRefused(BinlogfeedError):
    """The token is none, or fits no place of the files. `name` is BadToken, TokenNoFile, TokenNoTransaction or TokenNoChange."""

    status = 3

    def __init__(self, line: str, name: str) -> None:
        """A refusal with its name."""
        super().__init__(line)
        self.name = name


class LogLost(BinlogfeedError):
    """The log that was read last is shorter than what was read of it, or it isn't among the files any more. `file` is its name."""

    status = 3

    def __init__(self, line: str, file: str) -> None:
        """A loss with the log's name."""
        super().__init__(line)
        self.file = file


class FileFault(BinlogfeedError):
    """A file can't be opened, read or written, logs can't be listed, or another process uses the kept place."""

    status = 4


class OutOfMemory(BinlogfeedError):
    """The program found no memory."""

    status = 5


class LogsGone(BinlogfeedError):
    """Files that were still to be read aren't there any more, or others stand under their names."""

    status = 6


class ColumnsMismatch(BinlogfeedError):
    """What a log says of a table doesn't fit the columns that were given for it: `in_log` against `given`, of `column` of `table`.

    `column` is None where there are more or fewer columns. `token` is that of the change where it was met.
    """

    status = 7

    def __init__(self, table: str, column: str | None, in_log: str, given: str, token: str = "") -> None:
        """A mismatch, with both sides."""
        where = f"{table if column is None else f'{table}.{column}'}{token and f' at {token}'}"
        super().__init__(f"binlogfeed: {where}: {in_log} in the log, {given} in the columns that were given")
        self.table = table
        self.column = column
        self.in_log = in_log
        self.given = given
        self.token = token

    def at(self, token: str) -> ColumnsMismatch:
        """The same, with a token."""
        return ColumnsMismatch(self.table, self.column, self.in_log, self.given, token)


class ProgramMissing(BinlogfeedError):
    """The program can't be started."""


class ProgramFailed(BinlogfeedError):
    """The program ended in a way of its own: by a signal (a status below 0), say, or its wrapper couldn't build it."""


class ConversionFailed(BinlogfeedError):
    """A converter refused a value. Its own exception is the cause."""


def told(said: str, status: int) -> BinlogfeedError:
    """The error that an exit status stands for, with what the program said on standard error, and its wrapper before it."""
    hint = HINT.search(said)
    if hint is None:
        return _told(said, status)
    return _told(said[: hint.start()].rstrip("\n"), status).hinted(*HINT.findall(said))


def _told(said: str, status: int) -> BinlogfeedError:
    """The error that an exit status stands for, with the line that the program said, and what its wrapper said before it."""
    fault = LOG_FAULT.search(said)
    if status == 1 and fault:
        return LogFault(fault[0], fault[1], int(fault[2]), fault[3])
    refusal = TOKEN_REFUSED.search(said)
    if status == 3 and refusal:
        return TokenRefused(refusal[0], refusal[1])
    loss = LOG_LOST.search(said)
    if status == 3 and loss:
        return LogLost(loss[0], loss[1])
    line = said.rpartition("\n")[2]
    for kind in (WordsRefused, FileFault, OutOfMemory):
        if kind.status == status:
            return kind(line)
    return ProgramFailed(line or f"binlogfeed: the program ended with status {status}", status)
