"""Connections to a server, by PyMySQL, and the moment at which they all see its tables."""
from __future__ import annotations

import contextlib
import math
import time
from collections.abc import Callable, Iterator, Sequence
from typing import Any, NamedTuple

from binlogfeed.access import Settings, connected, driver
from binlogfeed.counts import counted
from binlogfeed.faults import BinlogfeedError
from binlogfeed.place import Place

# So many rows are asked of PyMySQL at once.
ROWS = 1000
# How many seconds the lock on all tables is waited for. Meanwhile the server's other sessions can't write.
LOCK_WAIT = 10
# Who takes the lines may stop for so many seconds.
WRITE_WAIT = 86400
# The server's lock of this name is held by who reads a snapshot. It keeps nobody from writing, and ends with the connection.
READING = "binlogfeed.snapshot"
# How many seconds another one that reads is waited for, if nobody says how many, and for how many the server is asked to wait at once.
READING_WAIT, READING_STEP = 86400, 10
# Values come as they are stored, in the character sets of their columns, and moments as they are in UTC.
SETTINGS = f"""SET SESSION character_set_results = NULL, time_zone = '+00:00', sql_mode = '', transaction_isolation = 'REPEATABLE-READ',
lock_wait_timeout = {LOCK_WAIT}, net_write_timeout = {WRITE_WAIT}, wait_timeout = {WRITE_WAIT}, max_execution_time = 0,
sql_select_limit = 18446744073709551615 /*!80030 , show_gipk_in_create_table_and_information_schema = ON */"""
# MySQL's error for a statement that it doesn't know, as servers before 8.2 don't know the first of these.
NO_STATEMENT = 1064
STATUS, OLD_STATUS = "SHOW BINARY LOG STATUS", "SHOW MASTER STATUS"
# Needs the same right as the lock on all tables, and does nothing else: there is no such table, and the log doesn't get it.
FLUSH = "FLUSH LOCAL TABLES `binlogfeed`.`snapshot`"
# Why a statement is refused, by MySQL's number, and what to do.
HINTS = {
    1044: "the user needs the right SELECT",
    1045: "the password is that of MYSQL_PWD, or of the file that --defaults-file names",
    1142: "the user needs the right SELECT",
    1205: f"another session kept the tables for {LOCK_WAIT} seconds: try again",
    1227: "the user needs the rights RELOAD and REPLICATION CLIENT",
    1412: "a table was altered since the snapshot began: try again",
}

# In a packet of a row: the byte that stands for NULL, and how many bytes of a length follow these.
NULL = 251
WIDTHS = {252: 2, 253: 3, 254: 8}

Row = tuple[Any, ...]


class ServerFault(BinlogfeedError):
    """The server can't be reached, or refuses a statement. `number` is that of MySQL's error."""

    status = 4

    def __init__(self, line: str, number: int) -> None:
        """An error with its number."""
        super().__init__(line)
        self.number = number


class Moment(NamedTuple):
    """When all tables are read, by the server's log and its clock."""

    file: str
    position: int
    timestamp: int
    # How many seconds nobody could write.
    held: float

    @property
    def token(self) -> str:
        """The token behind all that the tables have."""
        return f"{self.position}.0@{self.file}"

    @property
    def place(self) -> Place:
        """The place that `follow` goes on from. It finds out itself which log has the file's name."""
        return Place(self.file, None, self.token)


class Connection:
    """A connection. Its answers are rows of bytes, with None for NULL."""

    def __init__(self, settings: Settings) -> None:
        """Connects."""
        self._client = driver()
        with self._judged():
            self._connection = connected(self._client, settings, charset="utf8mb4", use_unicode=False, conv={}, autocommit=True)
        self.ask(SETTINGS)

    def ask(self, statement: str) -> Sequence[Row]:
        """What the server answers to a statement."""
        with self._judged(), self._connection.cursor() as cursor:
            cursor.execute(statement)
            rows: Sequence[Row] = cursor.fetchall()
            return rows

    def stream(self, statement: str) -> Iterator[Sequence[Row]]:
        """The rows that the server answers, some at a time. Where they aren't taken to their end, the connection ends."""
        with self._judged():
            cursor = self._connection.cursor(self._client.cursors.SSCursor)
            cursor.execute(statement)
            # PyMySQL takes most of the time for this. Where it has another form, it does it itself.
            if hasattr(getattr(cursor, "_result", None), "_read_row_from_packet"):
                cursor._result._read_row_from_packet = row_of
            try:
                while True:
                    rows: Sequence[Row] = cursor.fetchmany(ROWS)
                    if not rows:
                        break
                    yield rows
            except BaseException:
                # Else PyMySQL would read the rows that are left, however many.
                if getattr(cursor, "_result", None) is not None:
                    cursor._result.unbuffered_active = False
                self.close()
                raise
            cursor.close()

    def close(self) -> None:
        """Ends the connection."""
        with contextlib.suppress(self._client.Error, OSError):
            self._connection.close()

    @contextlib.contextmanager
    def _judged(self) -> Iterator[None]:
        """Says what the server has refused."""
        try:
            yield
        except self._client.Error as error:
            number, said = (*error.args, "")[:2] if error.args else (0, "")
            raise ServerFault(f"binlogfeed: the server: {said or error} ({number})", number).hinted(HINTS.get(number)) from error


def row_of(packet: Any) -> Row:
    """The values of a packet of a row: the length of each and its bytes, or a byte that stands for NULL."""
    data: bytes = packet.get_all_data()
    row: list[Any] = []
    at, end = 0, len(data)
    while at < end:
        size = data[at]
        at += 1
        if size == NULL:
            row.append(None)
            continue
        if size > NULL:
            width = WIDTHS[size]
            size = int.from_bytes(data[at : at + width], "little")
            at += width
        row.append(data[at : at + size])
        at += size
    return tuple(row)


def check_can_freeze(connection: Connection) -> None:
    """Raises an error where `frozen` would end with one: the user lacks a right, or the server writes no log. It keeps nobody waiting."""
    connection.ask(FLUSH)
    status_of(connection)


def wait_for_others(connection: Connection, say: Callable[[str], None], wait: float = READING_WAIT) -> None:
    """Waits while another snapshot reads its rows, for so many seconds at most, and then has the next one wait for this connection.

    `frozen` would have who writes wait, too, since the lock on all tables comes behind the statements that read.
    """

    def is_free(seconds: int) -> bool:
        """Whether nobody reads any more, or ends it within so many seconds."""
        ((answer,),) = connection.ask(f"SELECT GET_LOCK('{READING}', {seconds})")
        return bool(answer == b"1")

    left = math.ceil(wait)
    if is_free(0):
        return
    if left:
        say(f"another snapshot reads its rows: waiting for its end, for {counted(left, 'second')} at most")
    while left:
        step = min(left, READING_STEP)
        if is_free(step):
            return
        left -= step
    raise ServerFault("binlogfeed: another snapshot reads its rows", 0).hinted("begin this one behind it, or take all schemas by one")


def frozen(connections: Sequence[Connection]) -> Moment:
    """Has all these connections see the tables as they are at one moment, and answers which it is.

    All that is committed is in the log and in the tables while the lock is held, and nothing else is.
    """
    first = connections[0]
    status = status_of(first)
    first.ask("FLUSH TABLES WITH READ LOCK")
    locked = time.monotonic()
    try:
        for connection in connections:
            connection.ask("START TRANSACTION WITH CONSISTENT SNAPSHOT, READ ONLY")
        file, position = place_by(first, status)
        ((now,),) = first.ask("SELECT UNIX_TIMESTAMP()")
    finally:
        first.ask("UNLOCK TABLES")
    held = time.monotonic() - locked
    return Moment(file, position, int(now), held)


def status_of(connection: Connection) -> str:
    """The statement by which this server says where its log is."""
    try:
        place_by(connection, STATUS)
    except ServerFault as fault:
        if fault.number != NO_STATEMENT:
            raise
        place_by(connection, OLD_STATUS)
        return OLD_STATUS
    return STATUS


def place_by(connection: Connection, statement: str) -> tuple[str, int]:
    """Where the server's log is, by this statement: its file, and the position in it. A server that writes no log is an error."""
    answer = connection.ask(statement)
    if not answer:
        raise ServerFault("binlogfeed: the server writes no binary log (log_bin is OFF)", 0)
    return answer[0][0].decode(), int(answer[0][1])
