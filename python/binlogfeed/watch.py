"""Watches logs that grow: gives the lines that are new, look after look, by a run of the program that goes on."""
from __future__ import annotations

import os
import threading
import time
from collections.abc import Generator, Iterator, Sequence
from pathlib import Path
from typing import NamedTuple, Optional, Union

from binlogfeed.begin import FIRST, LOG, NOW, check_is_there, place_of, told_beginning
from binlogfeed.faults import BinlogfeedError, FileFault, LogFault, LogLost, TokenRefused
from binlogfeed.filters import gives_statements
from binlogfeed.lag import Lag
from binlogfeed.lines import last_members
from binlogfeed.logs import Log, beginning, is_pattern, listed
from binlogfeed.place import Place
from binlogfeed.program import LookingRun, Run
from binlogfeed.settling import settled
from binlogfeed.tokens import token_parts

# At a rotation or a purge a server takes its index away, and puts another in its place some milliseconds later. For so many
# seconds logs that aren't there are looked for again, each time after such a pause, before anything is said of them.
PATIENCE = 1.0
PAUSE = 0.01
# Where the logs are quiet, a program that was killed is noticed within so many seconds.
CHECK = 1.0

Logs = Union[str, "os.PathLike[str]", Sequence[Path]]


class Mark(NamedTuple):
    """What the system says of a file. Where it is the same, the file is the same, and as long."""

    device: int
    inode: int
    size: int
    changed: int


class Seen(NamedTuple):
    """A file as it was looked at."""

    mark: Mark
    begins: Optional[str]


class Watch:
    """The lines of logs that grow, behind a place, each once.

    The logs are a server's, by an index, a folder or a pattern, or files that are named.
    """

    def __init__(
        self,
        logs: Logs,
        command: Sequence[str | os.PathLike[str]],
        place: Place,
        begin: str = FIRST,
        kept_in: str = "",
        lag: float = 0.0,
        is_of_change: bool = False,
    ) -> None:
        """A watch of logs from a place on. The command, `read --follow` with its options, is run with the first look.

        Where the place is none, `begin` says where that is (binlogfeed.begin). `kept_in` tells people where the place was kept.
        No line is given earlier than `lag` seconds behind the moment at which the last byte of its transaction was seen.
        `is_of_change` says that the place's token is that of a change, though the place hasn't the log's beginning.
        """
        self._logs = logs
        self._command = list(command)
        self._begin, self._kept_in = begin, kept_in
        self._is_kept = place.file is not None
        self._place = place
        # Whether the place may be in front of a statement that is still to be given: nothing was read up to it.
        self._gives_statements = gives_statements([os.fspath(word) for word in command])
        self._is_unsettled = self._gives_statements and place.begins is None and not is_of_change
        # Whether the logs' end was looked for, and whether it was said where the watch begins.
        self._skipped = self._is_kept or begin != NOW
        self.begun = False
        self._run: Optional[LookingRun] = None
        # The run that looks for the logs' end, or for the last change before the place.
        self._skipping: Optional[Run] = None
        self._closed = False
        self._lag = Lag(lag)
        self._said_cut = False
        # The logs that the run was told last, and how all logs were when they were looked at.
        self._told: list[Log] = []
        self._seen: dict[Path, Seen] = {}
        self._finished: dict[Path, Mark] = {}
        # The last lines that were given, and whether the place is behind them.
        self._last: Optional[bytes] = None
        self._placed = True
        # Whether a look has found no log.
        self.is_empty = False
        # The log that the last whole look came to, and how long it was then.
        self.reached: tuple[Optional[str], int] = (None, 0)
        # When that look began, by `time.monotonic`: all that was in the logs by then was given.
        self.caught_up: Optional[float] = None

    @property
    def place(self) -> Place:
        """The place behind all lines that were given."""
        if self._last is not None and not self._placed:
            self._place = self._place.behind(last_members(self._last)["token"], self._told)
            self._placed = True
        return self._place

    @property
    def told(self) -> list[Log]:
        """The logs of the last look in which something had changed. All lines that it gave are of these."""
        return list(self._told)

    @property
    def last_time(self) -> int | None:
        """The time in the log of the last line that was given; None before the first."""
        return None if self._last is None else last_members(self._last)["timestamp"]

    def look(self) -> Generator[bytes, None, None]:
        """The lines that are new by now, in blocks of whole lines. Raises what ended the reading early behind the lines before it."""
        self.begin()
        began = time.monotonic()
        logs = self._found()
        if self._is_cut(logs):
            self._say_cut()
            return
        try:
            yield from self._look(logs, began)
        except LogFault as fault:
            raise fault.among(log.path for log in logs)
        except (LogLost, TokenRefused) as error:
            if not self._may_grow(logs, error):
                raise
            # Nothing is asked again before the log has changed.
            self._finished = {log.path: self._seen[log.path].mark for log in logs}
            self._say_cut()
            return
        except FileFault:
            # The server takes a log off its index before it purges it. The new index says whether that one was still needed.
            yield from self._look(self._found(), began)

    def begin(self) -> bool:
        """Finds the place where the first look begins, if that is the logs' end by now. Answers whether it is found now."""
        if self._skipped:
            return False
        self.skip()
        self._skipped = True
        return self._place.file is not None

    def wait(self, seconds: float, ending: threading.Event) -> bool:
        """Waits for so long, or until the event comes, and answers whether it came. Raises what the program ended with meanwhile."""
        until = time.monotonic() + seconds
        while not ending.is_set():
            self._check()
            left = until - time.monotonic()
            if left <= 0:
                return False
            ending.wait(min(left, CHECK))
        return True

    def _is_last(self, logs: Sequence[Log]) -> bool:
        """Whether the place is in the last of all logs, and says which log that is."""
        return len(logs) == 1 and logs[0].name == self.place.file and self.place.begins is not None

    def _is_cut(self, logs: Sequence[Log]) -> bool:
        """Whether the last log has a beginning of what was read of it. Where another log stands behind it, it won't grow any more."""
        if not self._is_last(logs):
            return False
        (log,), resume = logs, self.place.resume
        if log.begins is None or resume is None:
            return log.begins is None
        # A change stands behind its position, and the end of a transaction at it.
        at = token_parts(resume)
        return self._seen[log.path].mark.size < at.position + (at.count > 0)

    def _may_grow(self, logs: Sequence[Log], error: LogLost | TokenRefused) -> bool:
        """Whether the program said of the last log that it hasn't what was read of it. It is the same one by its first event."""
        if isinstance(error, TokenRefused):
            return self._is_last(logs) and error.name in ("TokenNoTransaction", "TokenNoChange")
        return self._is_last(logs) and error.file == self.place.file

    def _say_cut(self) -> None:
        """Says once that the last log is shorter than it was."""
        if not self._said_cut:
            self._said_cut = True
            LOG.warning(f"{self.place.file} is shorter than what was read of it: waiting until it is as long again, as a new copy will be")

    def end(self) -> None:
        """Ends the watch, and a look that goes on, at any time and from any thread. No line is given any more."""
        self._closed = True
        self._lag.end()
        for run in (self._skipping, self._run):
            if run is not None:
                run.end()

    def skip(self) -> None:
        """Passes over what is whole in the logs by now: the looks give what comes later alone."""
        for last in self._found(only_last=True):
            end = _last_end(self._blocks("transactions", "--", last.path))
            self._place = Place(last.name, last.begins, None if end is None else f"{end}.0@{last.name}")
            if self._gives_statements:
                self._settle(last)

    def _settle(self, log: Log) -> None:
        """Has a statement that begins at the place, which is one of this log, stand behind it."""
        place = settled(self._place, log.path, self._seen[log.path].mark.size, self._blocks)
        if not self._closed:
            self._place, self._is_unsettled = place, False

    def _blocks(self, word: str, *more: str | os.PathLike[str]) -> Generator[bytes, None, None]:
        """What another run of the program writes, by the same profile."""
        profile = [one for one in self._command if os.fspath(one).startswith("--profile=")]
        self._skipping = run = Run([self._command[0], word, *profile, *more])
        if self._closed:  # by another thread, which saw no run yet
            run.end()
        try:
            yield from run.blocks()
        finally:
            run.end()

    def _look(self, logs: list[Log], began: float) -> Iterator[bytes]:
        """The lines that are new in these logs, where one of them has changed. The look began at that moment."""
        marks = {log.path: self._seen[log.path].mark for log in logs}
        self.is_empty = not logs
        if logs and not self.begun:
            self.begun = True
            LOG.info(told_beginning(self.place, logs[0].name, self._begin, self._is_kept, self._kept_in))
        if not logs or self._closed or marks.items() <= self._finished.items():
            self._check()
            # Where the last log is to grow again, nothing more of it was given.
            if logs and not self._closed and not self._said_cut:
                self.caught_up = began
            return
        whole = False
        try:
            whole = yield from self._asked(logs)
        finally:
            # What is left of an answer belongs to no later look.
            if not whole:
                self._forget_run()
        if whole:
            self._place = self.place.at_end(logs)
            self._finished = marks
            self._said_cut = False
            self.reached = logs[-1].name, marks[logs[-1].path].size
            self.caught_up = began

    def _asked(self, logs: list[Log]) -> Generator[bytes, None, bool]:
        """What the run answers to these logs. A new run begins behind the place. Answers whether the look came to its end."""
        paths, told = [log.path for log in logs], [log.path for log in self._told]
        if self._run is None:
            if self._is_unsettled:
                self._settle(logs[0])
            resume = [f"--from={self.place.resume}"] if self.place.resume else []
            self._run, told = LookingRun([*self._command, *resume]), []
            if self._closed:  # by another thread, which saw no run yet
                self._run.end()
        self._told = logs
        sizes = {log.name: self._seen[log.path].mark.size for log in logs}
        lines = self._lag.held(self._run.look([] if paths == told else paths), sizes)
        while True:
            try:
                block = next(lines)
            except StopIteration as ended:
                return bool(ended.value)
            before = self._last, self._placed
            self._last, self._placed = block, False
            try:
                yield block
            except GeneratorExit:
                # Nobody took these, unless the place was asked for behind them. They come again.
                if not self._placed:
                    self._last, self._placed = before
                raise

    def _check(self) -> None:
        """Raises what the program ended with, where it isn't there any more. The next look begins another behind the place."""
        if self._run is not None:
            try:
                self._run.check()
            except BinlogfeedError:
                self._forget_run()
                raise

    def _forget_run(self) -> None:
        """Ends the run. The next look begins another behind the place."""
        if self._run is not None:
            self._run.end()
            self._run = None

    def _found(self, only_last: bool = False) -> list[Log]:
        """The logs that are still to be read, or the last of them, as they are by now."""
        until = time.monotonic() + PATIENCE
        while True:
            is_late = self._closed or time.monotonic() >= until
            try:
                paths = self._listed()
                if paths or is_late or self._may_be_empty():
                    return self._rest(paths[-1:] if only_last else paths)
            except FileFault:
                if is_late:
                    raise
            time.sleep(PAUSE)

    def _listed(self) -> list[Path]:
        """The logs that are there."""
        return listed(self._logs) if isinstance(self._logs, (str, os.PathLike)) else list(self._logs)

    def _may_be_empty(self) -> bool:
        """Whether it means something that there is no log."""
        return not isinstance(self._logs, (str, os.PathLike)) or is_pattern(self._logs)

    def _rest(self, paths: list[Path]) -> list[Log]:
        """The logs of these that are still to be read."""
        before, self._seen = self._seen, {}
        if paths and self._place.file is None and self._begin not in (FIRST, NOW):
            named = place_of(self._begin)
            check_is_there(named, paths)
            self._place = named

        def begins(path: Path) -> str | None:
            """The digest of a log's first event, which is read again only where the log has changed."""
            mark = marked(path)
            known = before.get(path)
            seen = known if known and known.mark == mark else Seen(mark, beginning(path))
            self._seen[path] = seen
            return seen.begins

        if isinstance(self._logs, (str, os.PathLike)):
            return self.place.rest(paths, begins)
        names = [path.name for path in paths]
        start = names.index(self.place.file) if self.place.file in names else 0
        logs = [Log(path, begins(path)) for path in paths[start:]]
        self.place.check(logs)
        return logs


def marked(path: Path) -> Mark:
    """What the system says of a file."""
    try:
        found = path.stat()
    except OSError as error:
        raise FileFault(f"binlogfeed: cannot open {path}").hinted(error.strerror) from error
    return Mark(found.st_dev, found.st_ino, found.st_size, found.st_mtime_ns)


def _last_end(blocks: Iterator[bytes]) -> int | None:
    """Where the last transaction or statement of these lines ends, which `transactions` gave; None where there is none."""
    last = b""
    for last in blocks:
        pass
    return int(last.splitlines()[-1].split(b"\t")[1]) if last else None
