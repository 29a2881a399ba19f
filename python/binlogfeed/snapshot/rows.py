"""The rows of a table as full lines."""
from __future__ import annotations

import json
from collections.abc import Iterator, Sequence
from typing import NamedTuple, Optional

from binlogfeed.snapshot import texts
from binlogfeed.snapshot.server import Connection, Moment, Row
from binlogfeed.snapshot.tables import BINARY, INTEGERS, TIMES, Table, Told, quoted
from binlogfeed.snapshot.texts import Characters, Convert

NULL = b"null"


class Range(NamedTuple):
    """A part of a table: the values of its key's first column from one number on, and below another one."""

    least: Optional[int] = None
    end: Optional[int] = None


WHOLE = Range()


class Reading(NamedTuple):
    """How a column is read."""

    # What is asked of the server.
    asked: str
    # What makes JSON of the answer. It stands as it is where there is nothing.
    convert: Optional[Convert] = None
    # Whether JSON has quotes round it.
    is_quoted: bool = False


def reading_of(column: Told, characters: Characters) -> Reading:
    """How a column is read."""
    name, word = quoted(column.name), column.word
    if word in INTEGERS:
        return Reading(f"CAST({name} AS UNSIGNED)" if column.padded else name)
    if word == "decimal":
        return Reading(f"CAST({name} AS {column.type.partition(' ')[0]})" if column.padded else name, None, True)
    if word in ("float", "double"):
        # The server would round a FLOAT to six digits. A product has all of them, and keeps the sign of -0.0.
        return Reading(f"{name} * 1e0", texts.real if word == "float" else texts.double)
    if word == "bit":
        return Reading(name, texts.bits)
    if word in ("year", "date") or word in TIMES:
        return Reading(f"UNIX_TIMESTAMP({name})" if word == "timestamp" else name, None, True)
    if word == "json":
        return Reading(name, texts.json_document)
    if word == "geometry":
        return Reading(name, texts.in_raw)
    if word == "vector":
        return Reading(name, texts.vector)
    if word in BINARY:
        return Reading(name, texts.in_base64)
    return Reading(name, (texts.names if word == "set" else texts.text)(column.charset, characters))


class Lines:
    """Makes lines of a table's rows."""

    def __init__(self, table: Table, moment: Moment, characters: Characters) -> None:
        """What all lines of a table have, at one moment."""
        self._table = table
        # In a line, columns stand in the order of their names' bytes.
        columns = sorted(table.columns, key=lambda column: column.name.encode())
        self._names = [column.name for column in columns]
        self._readings = [reading_of(column, characters) for column in columns]
        self._steps = [(at, reading.convert) for at, reading in enumerate(self._readings) if reading.convert is not None]
        self._documents = [at for at, column in enumerate(columns) if column.word == "json"]
        members = {
            "key": table.key,
            "types": {column.name: column.type for column in table.columns},
            "kind": "insert",
            "schema": table.schema,
            "snapshot": True,
            "table": table.name,
            "timestamp": moment.timestamp,
            "token": moment.token,
        }
        self._behind = json_of(members)[1:].replace(b"%", b"%%") + b"\n"
        # The line of a row without NULL; of others, by which columns have it.
        self._form = self._form_of((False,) * len(columns))
        self._forms: dict[tuple[bool, ...], bytes] = {}

    def statement(self, part: Range = WHOLE) -> str:
        """The statement that asks for the rows, in the order of their key."""
        table, key = self._table, [quoted(name) for name in self._table.key]
        asked = ", ".join(reading.asked for reading in self._readings)
        bounds = [*([] if part.least is None else [f"{key[0]} >= {part.least}"]), *([] if part.end is None else [f"{key[0]} < {part.end}"])]
        return " ".join([
            f"SELECT {asked} FROM {quoted(table.schema)}.{quoted(table.name)}",
            *(["FORCE INDEX (PRIMARY)"] if key else []),
            *([f"WHERE {' AND '.join(bounds)}"] if bounds else []),
            *([f"ORDER BY {', '.join(key)}"] if key and not table.by_beginnings else []),
        ])  # fmt: skip

    def of(self, rows: Sequence[Row]) -> bytes:
        """The lines of some rows."""
        form, steps = self._form, self._steps
        if self._documents:
            return b"".join([self._with_documents(row) for row in rows])
        lines = []
        for row in rows:
            if None in row:
                lines.append(self._with_nulls(row))
            elif steps:
                values = [*row]
                for at, convert in steps:
                    values[at] = convert(values[at])
                lines.append(form % (*values,))
            else:
                lines.append(form % row)
        return b"".join(lines)

    def _with_nulls(self, row: Row, nulls: bytes = b"") -> bytes:
        """The line of a row that may have NULL."""
        which = (*[value is None for value in row],)
        form = self._forms.get(which)
        if form is None:
            form = self._forms[which] = self._form_of(which)
        values = [*row]
        for at, convert in self._steps:
            if values[at] is not None:
                values[at] = convert(values[at])
        told = [value for value in values if value is not None]
        return form % (*told, *([nulls] if self._documents else []))

    def _with_documents(self, row: Row) -> bytes:
        """The line of a row that has documents. Those that are the document null are named."""
        nulls = [f"after.{self._names[at]}" for at in self._documents if row[at] == NULL]
        return self._with_nulls(row, b'"json_null":%b,' % json_of(nulls) if nulls else b"")

    def _form_of(self, which: Sequence[bool]) -> bytes:
        """The form of the line of a row with NULL in some columns."""
        members = []
        for name, reading, is_null in zip(self._names, self._readings, which):
            value = NULL if is_null else b'"%b"' if reading.is_quoted else b"%b"
            members.append(json_of(name).replace(b"%", b"%%") + b":" + value)
        nulls = b"%b" if self._documents else b""
        return b'{"after":{' + b",".join(members) + b'},"before":null,"gtid":null,' + nulls + self._behind


def json_of(value: object) -> bytes:
    """A value as a line has it."""
    return json.dumps(value, ensure_ascii=False, separators=(",", ":")).encode()


def characters_of(connection: Connection, tables: Sequence[Table]) -> Characters:
    """The characters of each set of one byte a character that a column of these tables has."""
    wanted = texts.BYTES.intersection(column.charset or "" for table in tables for column in table.columns)
    every = bytes(range(256)).hex()
    found = {}
    for charset in sorted(wanted):
        ((told,),) = connection.ask(f"SELECT CONVERT(_{charset} X'{every}' USING utf8mb4)")
        found[charset] = texts.told_characters(told)
    return found


def parts_of(connection: Connection, table: Table, count: int) -> list[Range]:
    """About so many parts of a table, by its key's first column where that is a whole number. Else it is one part."""
    first = next((column for column in table.columns if table.key and column.name == table.key[0]), None)
    if count < 2 or first is None or first.word not in INTEGERS:
        return [WHOLE]
    name = quoted(first.name)
    ((least, greatest),) = connection.ask(f"SELECT MIN({name}), MAX({name}) FROM {quoted(table.schema)}.{quoted(table.name)}")
    if least is None:
        return [WHOLE]
    width = max(1, -(-(int(greatest) - int(least) + 1) // count))
    starts = list(range(int(least), int(greatest) + 1, width))
    return [Range(None if at == 0 else start, starts[at + 1] if at + 1 < len(starts) else None) for at, start in enumerate(starts)]


def lines_of(connection: Connection, lines: Lines, part: Range = WHOLE) -> Iterator[tuple[bytes, int]]:
    """The lines of a part of a table in blocks, each with how many they are."""
    for rows in connection.stream(lines.statement(part)):
        yield lines.of(rows), len(rows)
