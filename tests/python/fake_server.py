"""A stand-in for PyMySQL and a server behind it, which sends what a real one sent (tests/copies/session.json), or other logs by its rules."""
from __future__ import annotations

import json
import zlib

from support import TOP

SESSION = json.loads((TOP / "tests/copies/session.json").read_text(encoding="utf-8"))
LOGS = {name: bytes.fromhex(text) for name, text in SESSION["logs"].items()}
HEARTBEAT = bytes.fromhex(SESSION["heartbeat"])
FORMAT, GTID, ROTATE = 15, 33, 4
# Where the flag stands that a server has the log open. It sends the log without it.
IN_USE = 4 + 17
# Who makes more connections than so many doesn't end.
MOST_CONNECTIONS = 100


def events_of(log):
    """The events of a log with their places, as a server sends them."""
    log, at = log[:IN_USE] + b"\0" + log[IN_USE + 1 :], 4
    while at < len(log):
        length = int.from_bytes(log[at + 9 : at + 13], "little")
        yield at, log[at : at + length]
        at += length


def sent(log):
    """A log with the bytes that a server sends of it."""
    return log[:4] + b"".join(event for _, event in events_of(log))


def with_checksum(event):
    """An event whose last four bytes are the checksum of the others."""
    return event[:-4] + zlib.crc32(event[:-4]).to_bytes(4, "little")


def turn(name, at, first):
    """The event that names a log before it is sent. The time, the place behind it and the flags are those of no file."""
    length = 19 + 8 + len(name) + 4
    head = bytes(4) + bytes([ROTATE]) + first[5:9] + length.to_bytes(4, "little") + bytes(4) + b"\x20\0"
    return with_checksum(head + at.to_bytes(8, "little") + name.encode() + bytes(4))


def again(first):
    """A log's first event as it is sent where the log isn't read from its beginning."""
    return with_checksum(first[:13] + bytes(4) + first[17:71] + bytes(4) + first[75:])


def numbered(packets, longest=0xFFFFFF):
    """Packets as they go over the network."""
    number, out = 1, bytearray()
    for packet in packets:
        while True:
            part, packet = packet[:longest], packet[longest:]
            out += len(part).to_bytes(3, "little") + bytes([number]) + part
            number = (number + 1) % 256
            if len(part) < longest:
                break
    return bytes(out)


def error(name):
    """The packet of an error."""
    return bytes.fromhex(SESSION["errors"][name])


class FakeError(Exception):
    """What PyMySQL raises: a number, and a text."""


class FakeServer:
    """A server's logs, and what is to go wrong."""

    MySQLError = FakeError

    def __init__(self, logs=None, uuid=SESSION["uuid"]):
        """A server of these logs."""
        self.logs = dict(LOGS if logs is None else logs)
        self.uuid = uuid
        # How many bytes come at a time; and by connection, what is done with its packets, and what is said in place of the rows of SHOW.
        self.piece = 1 << 18
        self.changes = {}
        self.refusals = {}
        # What was asked: the words of connections, the questions, and the dumps with their flags.
        self.words, self.questions, self.dumps = [], [], []
        # How long a connection's reads wait, as it was told.
        self.patience = []
        # Called with a connection's number where it has given all.
        self.at_end = lambda number: None

    def connect(self, **words):
        """A connection."""
        self.words.append(words)
        if len(self.words) > MOST_CONNECTIONS:
            raise AssertionError("one connection after the other")
        if len(self.words) in self.refusals:
            raise self.refusals[len(self.words)]
        return FakeConnection(self, len(self.words))

    def packets(self, name, at, waits):
        """What a dump is answered with."""
        if name not in self.logs:
            return [error("purged")]
        if at > len(self.logs[name]):
            return [error("beyond")]
        found = []
        for log in list(self.logs)[list(self.logs).index(name) :]:
            events = dict(events_of(self.logs[log]))
            found.append(turn(log, at, events[4]))
            if at > 4:
                found.append(again(events[4]))
                if at not in events and at < len(self.logs[log]):
                    return [b"\0" + event for event in found] + [error("within")]
            found += [event for place, event in events.items() if place >= at]
            at = 4
        return [b"\0" + event for event in found] + ([] if waits else [b"\xfe\0\0\0\0"])


class FakeConnection:
    """A connection, and all of PyMySQL's that is used of one."""

    def __init__(self, server, number):
        """The connection of a server that has this number."""
        self._server, self._number = server, number
        self._sock = self._rfile = self
        self._left = b""
        self._rows = []
        self.is_closed = False

    def cursor(self):
        """Itself."""
        return self

    def execute(self, question):
        """Asks."""
        self._server.questions.append(question)
        logs = [(name, len(log), "No") for name, log in self._server.logs.items()]
        self._rows = {"SHOW": logs, "SELE": [(self._server.uuid,)]}.get(question[:4], [])

    def fetchall(self):
        """Answers."""
        return self._rows

    def settimeout(self, seconds):
        """Notes it."""
        self._server.patience.append(seconds)

    def _execute_command(self, command, words):
        """Begins a dump."""
        if command == 0x12:
            name, at, flags = words[10:].decode(), int.from_bytes(words[:4], "little"), int.from_bytes(words[4:6], "little")
            self._server.dumps.append((name, at, flags))
            packets = self._server.packets(name, at, flags == 0)
            self._left = numbered(self._server.changes.get(self._number, list)(packets))

    def _read_packet(self):
        """The answer to a registration."""

    def read1(self, size):
        """Some bytes of the dump; none where it is closed."""
        size = min(size, self._server.piece)
        found, self._left = self._left[:size], self._left[size:]
        if not found:
            self._server.at_end(self._number)
        return found

    def _force_close(self):
        """Ends it."""
        self.is_closed = True
