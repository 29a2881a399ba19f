"""Copies a server's logs, byte for byte, and goes on where the copies end."""
from __future__ import annotations

import time
from typing import NamedTuple

from binlogfeed.begin import LOG
from binlogfeed.copy.events import (
    FORMAT,
    HEARTBEATS,
    PLACES,
    ROTATE,
    Header,
    as_sent_again,
    has_checksums,
    header_of,
    is_sound,
    rotation,
    without_flags,
)
from binlogfeed.copy.folder import Folder
from binlogfeed.copy.packets import Lost
from binlogfeed.copy.server import Connection, Server, Unsent
from binlogfeed.copy.stopping import Stopping
from binlogfeed.faults import FileFault, LogFault, LogLost, LogsGone, WordsRefused
from binlogfeed.logs import HEADER_LENGTH, MAGIC, NAME, successor

# A connection that is lost is tried again after so many seconds, then after twice as many, up to the most.
FIRST_WAIT, MOST_WAIT = 1.0, 30.0
# After so many seconds without an event the server is asked whether it still has the log.
QUIET = 60.0
# A fault that comes again at its place isn't the network's.
TRIES = 2


class Start(NamedTuple):
    """Where the server is asked to begin."""

    name: str
    at: int
    # Whether it has to be waited for more. Where the server's log is shorter than its copy, nothing is waited for.
    waits: bool


class Taking:
    """What one connection gives: compares the events that are copied already, and writes those behind them."""

    def __init__(self, folder: Folder, start: Start) -> None:
        """Takes events from a start on."""
        self._folder = folder
        self._asked = start
        self._name = ""
        self.place = start.at
        self._checked = False
        self._waiting: list[bytes] = []

    @property
    def is_behind(self) -> bool:
        """Whether the copy has more than what came by now."""
        return self._folder.name == self._asked.name == self._name and self.place < self._folder.end

    def take(self, events: list[bytes]) -> None:
        """Takes events that came together. Those before a fault are written."""
        try:
            for event in events:
                if len(event) < HEADER_LENGTH:
                    raise self._fault("OutOfPlace")
                self._take(event, header_of(event))
        finally:
            self._write()

    def end(self) -> None:
        """Judges the end of what the server has."""
        if self.is_behind:
            name = self._name
            raise LogLost(f"binlogfeed: file shorter: the server has {self.place} bytes of {name}, and its copy {self._folder.end}", name)

    def _take(self, event: bytes, header: Header) -> None:
        """Takes an event."""
        if header.kind in HEARTBEATS:
            self.end()
        elif header.kind == ROTATE and header.is_in_no_file:
            self._turn(event)
        elif header.kind == FORMAT and header.is_in_no_file:
            self._compare_format(event)
        else:
            self._check(event, header)
            if self.is_behind:
                self._compare(event, header)
            elif self.place == len(MAGIC):
                self._folder.begin(self._name, event)
            else:
                self._waiting.append(event)
            self.place += len(event)

    def _turn(self, event: bytes) -> None:
        """Turns to the log that the server names before it sends its events."""
        name, place = rotation(event, is_sound(event))
        if not NAME.fullmatch(name) or "/" in name or "\0" in name:
            raise LogFault(f"binlogfeed: log fault at {self._name}:{self.place}: BadName", self._name, self.place, "BadName")
        self._write()
        self.end()
        wanted = successor(self._name) if self._name else self._asked.name
        if name != wanted:
            raise LogsGone(f"binlogfeed: {wanted} is gone: the server sends {name} in its place")
        self._name, self.place = name, place

    def _compare_format(self, event: bytes) -> None:
        """Compares the first event of a log, as it comes again where it isn't read from its beginning."""
        if self._folder.name != self._name:
            raise self._fault("OutOfPlace")
        kept = self._folder.whole.format
        if as_sent_again(event) != as_sent_again(kept):
            raise self._other()
        self._checked = has_checksums(kept)

    def _compare(self, event: bytes, header: Header) -> None:
        """Compares an event with what was copied of it."""
        kept = self._folder.read(self.place, len(event))
        same = without_flags(kept) == without_flags(event) if header.kind == FORMAT else kept == event
        if not same:
            raise self._other()

    def _check(self, event: bytes, header: Header) -> None:
        """Checks that an event is whole, stands where it says, and has the checksum of its bytes."""
        if header.kind == FORMAT:
            self._checked = has_checksums(event)
        behind = self.place + len(event)
        if header.length != len(event) or header.next != behind % PLACES or (self.place == len(MAGIC)) != (header.kind == FORMAT):
            raise self._fault("OutOfPlace")
        if self._checked and not is_sound(event):
            raise self._fault("BadChecksum")

    def _write(self) -> None:
        """Writes the events that wait for it."""
        if self._waiting:
            events, self._waiting = self._waiting, []
            self._folder.append(events)

    def _other(self) -> LogsGone:
        """The error of a log that isn't the one which was copied."""
        return LogsGone(f"binlogfeed: {self._name} is gone: another log has its name")

    def _fault(self, what: str) -> LogFault:
        """The error of an event that can't be taken."""
        return LogFault(f"binlogfeed: log fault at {self._name}:{self.place}: {what}", self._name, self.place, what)


class Copier:
    """Copies a server's logs into a folder, over as many connections as it takes."""

    def __init__(self, server: Server, folder: Folder, stopping: Stopping, begin: str | None, once: bool) -> None:
        """A copier. Into an empty folder it copies from the log `begin` on, or the server's first."""
        self._server = server
        self._folder = folder
        self._stopping = stopping
        self._begin = begin
        self._once = once
        self._is_lost = False
        self._said_where = False
        # What the last connection ended with, and where, and how often in a row.
        self._last_fault: tuple[str, int] = ("", 0)
        self._times = 0
        self._wait = FIRST_WAIT

    def run(self) -> None:
        """Copies until the end is asked for by `Stopped`; or, once, to the end of the logs."""
        while True:
            try:
                self._connect()
                return
            except Lost as lost:
                if self._once:
                    raise FileFault(f"binlogfeed: {lost}") from lost
                if not self._is_lost:
                    LOG.warning(f"{lost}: trying again until it goes on")
                self._is_lost = True
            self._stopping.sleep(self._wait)
            self._wait = min(2 * self._wait, MOST_WAIT)
            with self._stopping.waiting():
                self._folder.reopen()

    def _connect(self) -> None:
        """Copies over one connection, to its end."""
        with self._server.connected() as connection:
            self._folder.claim(connection.identity())
            start = self._start(connection.logs())
            self._say(start)
            taking = Taking(self._folder, start)
            try:
                self._take(connection, start, taking)
            except LogFault as fault:
                self._fail(fault.line, taking.place, fault)
            except Unsent as unsent:
                what = f"binlogfeed: the server can't send {start.name} from byte {start.at} on: {unsent}"
                self._fail(what, taking.place, WordsRefused(what, 1))

    def _take(self, connection: Connection, start: Start, taking: Taking) -> None:
        """Takes what a connection gives."""
        asked = time.monotonic()
        for events in connection.dump(start.name, start.at, start.waits and not self._once):
            taking.take(events)
            now = time.monotonic()
            if not all(header_of(event).is_in_no_file for event in events):
                self._found()
                asked = now
            elif header_of(events[-1]).kind in HEARTBEATS and now - asked >= QUIET:
                self._check_log()
                asked = now
        taking.end()
        if not self._once:
            raise Lost("the server ended the dump")

    def _found(self) -> None:
        """Notes that the connection is good."""
        self._wait, self._is_lost = FIRST_WAIT, False

    def _fail(self, what: str, place: int, error: Exception) -> None:
        """Raises an error that came again at its place. The first time it may have been the network's, or the server's logs are others by now."""
        self._times = self._times + 1 if self._last_fault == (what, place) else 1
        self._last_fault = what, place
        if self._times >= TRIES or self._once:
            raise error
        raise Lost(what.partition(": ")[2]) from error

    def _start(self, logs: dict[str, int]) -> Start:
        """Where the server is asked to begin."""
        name = self._folder.name
        if name is None:
            return Start(self._first(list(logs)), len(MAGIC), True)
        whole = self._folder.whole
        if name in logs:
            # It may be another log, or the same that has lost its end: all of it is compared.
            is_shorter = logs[name] < whole.end
            return Start(name, len(MAGIC) if is_shorter or whole.ask >= PLACES else whole.ask, not is_shorter)
        if whole.following in logs:
            return Start(whole.following or "", len(MAGIC), True)
        left = f"the first that is left is {next(iter(logs))}" if logs else "none is left"
        raise LogsGone(f"binlogfeed: the server has no {whole.following or name} any more, and it wasn't copied to its end: {left}")

    def _first(self, names: list[str]) -> str:
        """The log to begin with."""
        if not names:
            raise LogsGone("binlogfeed: the server has no logs")
        if self._begin is not None and self._begin not in names:
            raise WordsRefused(f"binlogfeed: can't begin with {self._begin}: the logs are {names[0]} to {names[-1]}")
        return self._begin or names[0]

    def _check_log(self) -> None:
        """Looks whether the server still has the log that is copied. RESET BINARY LOGS makes another one under its name."""
        with self._server.connected() as connection:
            length = connection.logs().get(self._folder.name or "", 0)
        if length < self._folder.end:
            raise Lost(f"the server's {self._folder.name} is another one, or shorter than its copy")

    def _say(self, start: Start) -> None:
        """Says where it begins, or goes on after there was no connection."""
        if not self._said_where or self._is_lost:
            self._said_where = True
            is_new = self._folder.name is None
            LOG.info(f"begins with {start.name}" if is_new else f"goes on behind byte {self._folder.end} of {self._folder.name}")
