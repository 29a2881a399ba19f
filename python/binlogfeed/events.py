"""The events that a reader gives, and transactions of them."""
from __future__ import annotations

import datetime
import sys
from collections.abc import Iterator
from typing import Any, NamedTuple, Optional, TextIO, Union

from binlogfeed.as_json import json_of
from binlogfeed.debezium import NAME, Names, Record, records_of
from binlogfeed.lines import Image, Parts, Said
from binlogfeed.tokens import are_of_one_transaction, token_parts
from binlogfeed.values import Column

Values = dict[str, Any]
# An event has so many rows at most. A server's rows event ends behind 8 KiB (`binlog_row_event_max_size`).
MOST_ROWS = 1000


class Packet(NamedTuple):
    """Where an event stands: in `log_file`, in the transaction that begins at `log_pos`."""

    log_file: str
    log_pos: int


class Event:
    """Something of a committed transaction."""

    __slots__ = ("timestamp", "gtid", "token", "committed")

    # The server's number of the event's type.
    event_type = 0

    def __init__(self, timestamp: int, gtid: Optional[str], token: str, committed: Optional[int] = None) -> None:
        """An event of a transaction."""
        # The time in the log, in seconds since 1970.
        self.timestamp = timestamp
        self.gtid = gtid
        # The place: a reader with `resume=token` goes on behind it.
        self.token = token
        # When the transaction was committed, in microseconds since 1970; None where the log doesn't say it.
        self.committed = committed

    @property
    def file(self) -> str:
        """The log's name."""
        return token_parts(self.token).file

    @property
    def position(self) -> int:
        """Where the transaction begins in the log."""
        return token_parts(self.token).position

    @property
    def number(self) -> int:
        """The number of the change in its transaction, from 1: that of the last one of several rows. A statement has 0."""
        return token_parts(self.token).count

    def to_json(self) -> str:
        """The event as a line of JSON. Values that JSON hasn't are told as binlogfeed.as_json says."""
        return json_of(self._members())

    def to_debezium(self, name: str = NAME) -> list[Record]:
        """The event as Debezium tells it, by the name of its source: the values of its records. There is none but of rows."""
        return []

    def _members(self) -> dict[str, Any]:
        """What `to_json` tells of this kind of event."""
        return {
            "event": type(self).__name__,
            "timestamp": self.timestamp,
            "committed": self.committed,
            "gtid": self.gtid,
            "token": self.token,
        }

    @property
    def packet(self) -> Packet:
        """Where the event stands. A reader from there gives its whole transaction again; only a token goes on within one."""
        parts = token_parts(self.token)
        return Packet(parts.file, parts.position)

    def dump(self, out: TextIO | None = None) -> None:
        """Prints the event for a person."""
        date = datetime.datetime.fromtimestamp(self.timestamp, datetime.timezone.utc).isoformat()
        lines = [f"=== {type(self).__name__} ===", f"Date: {date}", f"Log position: {self.packet.log_pos}", *self._told(), ""]
        print("\n".join(lines), file=out or sys.stdout)

    def _told(self) -> list[str]:
        """What `dump` prints of this kind of event."""
        return [f"GTID: {self.gtid}"]

    def __repr__(self) -> str:
        """The event's class and token."""
        return f"<{type(self).__name__} {self.token}>"


class RowsEvent(Event):
    """Changes of one or more rows of a table, of one kind and of one transaction, which stand together."""

    __slots__ = ("rows", "lines", "_form")

    # As the lines have it, and what `dump` calls the rows.
    kind = ""
    _rows_are = ""

    def __init__(self, change: Parts) -> None:
        """The event of a change."""
        self._form, before, after, self.timestamp, self.gtid, self.token, self.committed, line = change
        self.rows: list[dict[str, Any]] = [self._row(before, after)]
        # The full line of each row, where the reader keeps them.
        self.lines: Optional[list[bytes]] = None if line is None else [line]

    @staticmethod
    def _row(before: Image, after: Image) -> dict[str, Any]:
        """The row of a change."""
        raise NotImplementedError

    def takes(self, change: Parts) -> bool:
        """Takes a change that stands behind those of the event, where it is one more row of the same. Answers whether it is."""
        form, before, after, timestamp, _, token, _, line = change
        if (
            form is not self._form
            or timestamp != self.timestamp
            or len(self.rows) >= MOST_ROWS
            or not are_of_one_transaction(token, self.token)
        ):
            return False
        self.rows.append(self._row(before, after))
        if self.lines is not None and line is not None:
            self.lines.append(line)
        self.token = token
        return True

    @property
    def schema(self) -> str:
        """The table's schema."""
        return self._form.schema

    @property
    def table(self) -> str:
        """The table's name."""
        return self._form.table

    @property
    def columns(self) -> tuple[Column, ...]:
        """The table's columns, in its order, each with its name and type."""
        return self._form.columns

    @property
    def key(self) -> tuple[str, ...]:
        """The names of the primary key's columns, in the order of the key."""
        return self._form.key

    @property
    def primary_key(self) -> Union[str, tuple[str, ...]]:
        """The key as python-mysql-replication has it: a name, a tuple of several, or `""` where there is none."""
        key = self._form.key
        return key if len(key) > 1 else "".join(key)

    @property
    def before(self) -> Values | None:
        """The only row as it was; None of an insert."""
        return self._only_row().get("before_values")

    @property
    def after(self) -> Values | None:
        """The only row as it is then; None of a delete."""
        return self._only_row().get("after_values")

    def _only_row(self) -> dict[str, Any]:
        """The row of an event that has one."""
        if len(self.rows) != 1:
            raise ValueError(f"the event has {len(self.rows)} rows: take them from `rows`, or have the reader give one by one (`together=False`)")
        return self.rows[0]

    def to_debezium(self, name: str = NAME) -> list[Record]:
        """The event as Debezium tells it, by the name of its source: a record for each row, two where an update changes the key.

        The values are those of the lines, whatever the reader was asked to make of them.
        """
        if self.lines is None:
            raise ValueError("to_debezium needs the event's lines: give the reader keep_lines=True")
        form = self._form
        names = Names(form.names, form.words, form.key) if form.names else None
        return [record for line in self.lines for record in records_of(line, name, names)]

    def _members(self) -> dict[str, Any]:
        """The table, and each row as it was and as it is then, too."""
        rows = [dict(zip(("before", "after"), self._images(row))) for row in self.rows]
        told = {"kind": self.kind, "schema": self.schema, "table": self.table, "key": list(self.key), "rows": rows}
        return {**told, **super()._members()}

    @staticmethod
    def _images(row: dict[str, Any]) -> tuple[Image, Image]:
        """A row as it was and as it is then."""
        raise NotImplementedError

    def _told(self) -> list[str]:
        """The table, and each row's values."""
        told = [f"Table: {self.schema}.{self.table}", f"Changed rows: {len(self.rows)}", f"{self._rows_are}:"]
        for row in self.rows:
            told += ["--", *self._told_row(row)]
        return told

    def _told_row(self, row: dict[str, Any]) -> list[str]:
        """A row's values."""
        return [f"* {name} : {value}" for name, value in row["values"].items()]

    def __repr__(self) -> str:
        """The event's class, table and token."""
        return f"<{type(self).__name__} {self.schema}.{self.table} {self.token}>"


class WriteRowsEvent(RowsEvent):
    """Inserts. Each row has `values`."""

    __slots__ = ()
    kind = "insert"
    event_type = 30
    _rows_are = "Values"

    @staticmethod
    def _row(before: Image, after: Image) -> dict[str, Any]:
        """The new row."""
        return {"values": after}

    @staticmethod
    def _images(row: dict[str, Any]) -> tuple[Image, Image]:
        """The new row."""
        return None, row["values"]

    @property
    def before(self) -> None:
        """Nothing was there."""
        self._only_row()

    @property
    def after(self) -> Values:
        """The only row."""
        values: Values = self._only_row()["values"]
        return values


class UpdateRowsEvent(RowsEvent):
    """Updates. Each row has `before_values` and `after_values`."""

    __slots__ = ()
    kind = "update"
    event_type = 31
    _rows_are = "Changed values"

    @staticmethod
    def _row(before: Image, after: Image) -> dict[str, Any]:
        """The row as it was and as it is then."""
        return {"before_values": before, "after_values": after}

    @staticmethod
    def _images(row: dict[str, Any]) -> tuple[Image, Image]:
        """Both."""
        return row["before_values"], row["after_values"]

    def _told_row(self, row: dict[str, Any]) -> list[str]:
        """A row's values as they were and as they are then."""
        before, after = row["before_values"], row["after_values"]
        return [f"* {name} : {before.get(name)} => {after.get(name)}" for name in {**before, **after}]


class DeleteRowsEvent(RowsEvent):
    """Deletes. Each row has `values`."""

    __slots__ = ()
    kind = "delete"
    event_type = 32
    _rows_are = "Values"

    @staticmethod
    def _row(before: Image, after: Image) -> dict[str, Any]:
        """The row that is gone."""
        return {"values": before}

    @staticmethod
    def _images(row: dict[str, Any]) -> tuple[Image, Image]:
        """The row that is gone."""
        return row["values"], None

    @property
    def before(self) -> Values:
        """The only row."""
        values: Values = self._only_row()["values"]
        return values

    @property
    def after(self) -> None:
        """Nothing is there."""
        self._only_row()


class GtidEvent(Event):
    """The GTID of a transaction, before its changes that pass."""

    __slots__ = ()
    event_type = 33


class XidEvent(Event):
    """The commit of a transaction, behind its changes that pass. Its number isn't told."""

    __slots__ = ()
    event_type = 16


class RotateEvent(Event):
    """The file of the changes that follow: before the first change, and wherever it is another file."""

    __slots__ = ()
    event_type = 4

    @property
    def next_binlog(self) -> str:
        """The file's name."""
        return token_parts(self.token).file

    @property
    def position(self) -> int:
        """Where the file's events begin."""
        return 4

    def _told(self) -> list[str]:
        """The file, and where its events begin."""
        return [f"Position: {self.position}", f"Next binlog file: {self.next_binlog}"]


class QueryEvent(Event):
    """A statement that stands by itself in the log, such as TRUNCATE TABLE or ALTER TABLE.

    `schema` has the bytes of the session's default schema, as in python-mysql-replication. `query` is a str: bytes that aren't UTF-8
    are in it as Python's `surrogateescape` has them.
    """

    __slots__ = ("schema", "query")
    event_type = 2

    def __init__(self, said: Said) -> None:
        """The event of a statement's line."""
        super().__init__(said.timestamp, said.gtid, said.token)
        self.schema = said.schema
        self.query = said.text.decode("utf-8", "surrogateescape")

    def _members(self) -> dict[str, Any]:
        """The schema and the text, too."""
        told = {"schema": _text_or_bytes(self.schema), "query": _text_or_bytes(self.query.encode("utf-8", "surrogateescape"))}
        return {**told, **super()._members()}

    def _told(self) -> list[str]:
        """The schema and the text."""
        text = self.query.encode("utf-8", "surrogateescape")
        return [f"Schema: {self.schema.decode('utf-8', 'backslashreplace')}", f"Query: {text.decode('utf-8', 'backslashreplace')}"]


def _text_or_bytes(raw: bytes) -> Union[str, bytes]:
    """The text that bytes are in UTF-8; bytes that are none stay as they are."""
    try:
        return raw.decode()
    except UnicodeDecodeError:
        return raw


# The class of the event of a change, by the kind that its form has.
ROWS_EVENTS: dict[str, type[RowsEvent]] = {kind.kind: kind for kind in (WriteRowsEvent, UpdateRowsEvent, DeleteRowsEvent)}


class Transaction:
    """The changes of one transaction that passed the filters, in their order: at least one.

    A statement by itself, where these are asked for, is one without changes of rows.
    """

    def __init__(self, events: list[RowsEvent], statement: Optional[QueryEvent] = None) -> None:
        """A transaction of these changes, or of a statement."""
        self.events = events
        # The statement that it is; None for a transaction of rows.
        self.statement = statement

    @property
    def gtid(self) -> Optional[str]:
        """The transaction's GTID."""
        return self._last.gtid

    @property
    def committed(self) -> Optional[int]:
        """When it was committed, in microseconds since 1970; None where the log doesn't say it."""
        return self._last.committed

    @property
    def token(self) -> str:
        """The token of the last change: a reader with `resume=token` goes on behind the transaction."""
        return self._last.token

    @property
    def _last(self) -> Event:
        """The statement, or the last change."""
        return self.events[-1] if self.statement is None else self.statement

    def __iter__(self) -> Iterator[RowsEvent]:
        """The changes."""
        return iter(self.events)

    def __len__(self) -> int:
        """How many events."""
        return len(self.events)

    def __repr__(self) -> str:
        """The GTID, and how many events."""
        return f"<Transaction {self.gtid}, {len(self)} events, {self.token}>"
