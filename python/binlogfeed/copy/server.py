"""A MySQL server's logs over the network: a connection by PyMySQL, and what it is asked."""
from __future__ import annotations

import socket
import struct
from collections.abc import Iterator
from contextlib import contextmanager
from typing import Any

from binlogfeed.access import Settings, connected, driver
from binlogfeed.copy.packets import Lost, Packets
from binlogfeed.copy.stopping import Stopping
from binlogfeed.faults import WordsRefused

# A silent server says every so many seconds that it is there. One that doesn't is lost.
HEARTBEAT, SILENCE, CONNECTING = 10, 30, 10
REGISTER, DUMP = 0x15, 0x12
# With this flag a dump ends where the logs end by now.
ENDS = 1
END, ERROR = 0xFE, 0xFF
LONGEST_END = 9
ERROR_HEAD = struct.Struct("<xH")
# Too many connections, a shutdown, a network's fault, a killed connection, idle for too long: all these go by.
GO_BY = {1040, 1053, 1158, 1159, 1160, 1161, 1203, 1226, 1317, 1927, 2002, 2003, 2006, 2013, 2055, 3168, 4031}
UNSENT = 1236
DENIED = {1044, 1045, 1142, 1227}
RIGHTS = "it takes the user's password, and the rights REPLICATION SLAVE and REPLICATION CLIENT"
SAME_ID = "same server_uuid/server_id"
UNKNOWN_SIGNER = "CERTIFICATE_VERIFY_FAILED"


class Unsent(Exception):
    """The server doesn't send its logs from where it was asked. What it has by now says why."""


class Server:
    """A server, which a connection is made to as often as it is needed."""

    def __init__(self, settings: Settings, server_id: int, stopping: Stopping) -> None:
        """A server, for a copier that has this server id."""
        self._driver = driver()
        self._settings = settings
        self._id = server_id
        self._stopping = stopping

    @contextmanager
    def connected(self) -> Iterator[Connection]:
        """A connection. Raises `Lost` where there is none, and where it is lost meanwhile."""
        with self.judged(), self._stopping.waiting():
            connection = self._connected()
        try:
            yield Connection(self, connection)
        finally:
            with self.judged():
                # A close that says farewell waits for a server that may not listen any more.
                connection._force_close()

    @contextmanager
    def waiting(self) -> Iterator[None]:
        """A wait for the server."""
        with self.judged(), self._stopping.waiting():
            yield

    @contextmanager
    def judged(self) -> Iterator[None]:
        """Raises what an error of PyMySQL or of the system means here."""
        try:
            yield
        except self._driver.MySQLError as error:
            raise judged(error.args) from error
        except socket.timeout as error:
            raise Lost(f"the server said nothing for {SILENCE} seconds") from error
        except OSError as error:
            raise Lost(str(error)) from error

    def registration(self) -> bytes:
        """What names this copier to the server: its id, and this machine as the server lists its replicas."""
        host = socket.gethostname().encode()[:60]
        return struct.pack("<IB", self._id, len(host)) + host + b"\0\0" + struct.pack("<HII", 0, 0, 0)

    def dump_from(self, name: str, at: int, waits: bool) -> bytes:
        """What asks for the events of a log and of those behind it."""
        return struct.pack("<IHI", at, 0 if waits else ENDS, self._id) + name.encode("utf-8", "surrogateescape")

    def _connected(self) -> Any:
        """A connection of PyMySQL."""
        return connected(self._driver, self._settings, connect_timeout=CONNECTING, read_timeout=SILENCE, write_timeout=SILENCE)


class Connection:
    """A connection to a server."""

    def __init__(self, server: Server, connection: Any) -> None:
        """A connection that PyMySQL has made."""
        self._server = server
        self._connection = connection

    def identity(self) -> str:
        """The server's UUID."""
        return str(self._asked("SELECT @@global.server_uuid")[0][0])

    def logs(self) -> dict[str, int]:
        """The server's logs by their names, in their order, with their lengths."""
        return {str(row[0]): int(row[1]) for row in self._asked("SHOW BINARY LOGS")}

    def dump(self, name: str, at: int, waits: bool) -> Iterator[list[bytes]]:
        """The events of a log from a place on, and of those behind it, as many as are there by now at a time.

        It waits for more, or ends where the logs end. Without a checksum of its own for the session a server refuses logs with checksums.
        """
        pause = HEARTBEAT * 10**9
        for prefix in ("source", "master"):  # servers before 8.0.26 know the second alone
            self._asked(f"SET @{prefix}_binlog_checksum = @@global.binlog_checksum, @{prefix}_heartbeat_period = {pause}")
        with self._server.waiting():
            self._connection._execute_command(REGISTER, self._server.registration())
            self._connection._read_packet()
            self._connection._execute_command(DUMP, self._server.dump_from(name, at, waits))
            # Nothing is left of earlier answers, so all that comes now is the dump's.
            self._connection._sock.settimeout(SILENCE)
        packets = Packets(self._connection._rfile.read1)
        while True:
            with self._server.waiting():
                found = packets.batch()
            events = [packet[1:] for packet in found if packet[:1] == b"\0"]
            if events:
                yield events
            if len(events) < len(found):
                _check_end(found[len(events)])
                return

    def _asked(self, question: str) -> list[Any]:
        """The rows of an answer."""
        with self._server.waiting():
            cursor = self._connection.cursor()
            cursor.execute(question)
            return list(cursor.fetchall())


def _check_end(packet: bytes) -> None:
    """Raises what the packet says that ended a dump, unless it says that the logs end there."""
    if packet[:1] == bytes([ERROR]):
        code: int = ERROR_HEAD.unpack_from(packet)[0]
        # Behind the code a mark and five letters stand for it once more.
        raise judged((code, packet[9:].decode("utf-8", "replace")))
    if packet[:1] != bytes([END]) or len(packet) >= LONGEST_END:
        raise Lost("what came is no packet of a dump")


def judged(said: tuple[Any, ...]) -> Exception:
    """What a server's error means: its number and its text."""
    code, text = (said[0], str(said[-1])) if said and isinstance(said[0], int) else (0, " ".join(map(str, said)))
    if code == UNSENT and SAME_ID not in text:
        return Unsent(text)
    if UNKNOWN_SIGNER in text:
        return WordsRefused(f"binlogfeed: the server's certificate isn't signed by the authority of --ssl-ca: {text}")
    if code in GO_BY or not code:
        return Lost(text or "the connection is closed")
    if code == UNSENT:
        text = "another copier or replica has this server id, and came later: give one of them another by --server-id"
    elif code in DENIED:
        text = f"{text}: {RIGHTS}"
    return WordsRefused(f"binlogfeed: the server refuses ({code}): {text}")
