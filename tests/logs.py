"""Logs for the tests, with what `transactions` and `read` write for them: small ones by their names (logs.jsonl), and those that are made,
of the pieces of tests/unproved/cases/data/pieces.cases."""
from __future__ import annotations

import json
import struct
from collections.abc import Callable, Iterable
from pathlib import Path
from typing import NamedTuple

from pieces import TIME, Pieces, event

HERE = Path(__file__).resolve().parent


def small_logs() -> Pieces:
    """The logs of logs.jsonl. Their names begin with a capital letter. The parts of one may name those above it."""
    logs = Pieces()
    for line in (HERE / "logs.jsonl").read_text(encoding="utf-8").splitlines():
        fields = json.loads(line)
        if not fields["log"][0].isupper():
            raise ValueError(f"a log's name begins with a capital letter: {fields['log']}")
        logs.add(fields["log"], logs.bytes_of(fields["parts"]))
    return logs


SMALL = small_logs()
# The log A, and what each log without checksums begins with: 153 bytes.
A, FRONT = SMALL.bytes_of("A"), SMALL.bytes_of("Front")

# The bytes of parts, which may name the pieces.
parts = Pieces().read(HERE / "unproved/cases/data/pieces.cases").bytes_of

SOURCE_ID = "3e11fa47-71ca-11e1-9e33-c80aa9429562"
MAGIC = parts("magic")
GTID, QUERY, ROTATE, TABLE_MAP, WRITE_ROWS, XID = 33, 2, 4, 19, 30, 16
# The flag of events that a reader passes over where it doesn't know them.
IGNORABLE = 0x0080

# Where an event's header has its length, and its next position.
LENGTH, NEXT = 9, 13
NUMBER = struct.Struct("<I")


# ---- logs of events


def placed(events: bytes, place: int) -> bytes:
    """Events as they stand at a place of a log: each says where it ends. The pieces leave that 0."""
    found, at = bytearray(events), 0
    while at < len(found):
        begin, at = at, at + NUMBER.unpack_from(found, at + LENGTH)[0]
        NUMBER.pack_into(found, begin + NEXT, (place + at) % 2**32)
    return bytes(found)


def appended(log: bytes, *events: bytes) -> bytes:
    """A log with more events."""
    return log + placed(b"".join(events), len(log))


def log_of(units: Iterable[bytes]) -> bytes:
    """A log of these transactions, or of other events."""
    return appended(FRONT, *units)


GTID_HEAD, GTID_TAIL, BEGIN, END = parts("cut:36:gtid1"), parts("repeat:17:00"), parts("begin"), parts("xid")


def query(text: str) -> bytes:
    """A statement."""
    return event(QUERY, parts("in-s") + text.encode())


def rotate(name: str) -> bytes:
    """The event that names the next log."""
    return event(ROTATE, parts("u64:4") + name.encode())


def transaction(number: int, *inside: bytes) -> bytes:
    """A transaction with this number in its GTID, and these events inside: 127 bytes, and theirs."""
    return b"".join((GTID_HEAD, number.to_bytes(8, "little"), GTID_TAIL, BEGIN, *inside, END))


ONE_ROW = parts("map-t insert-1-a")


def insert(number: int) -> bytes:
    """A transaction that inserts one row: 218 bytes. The log A has the one with the number 1."""
    return transaction(number, ONE_ROW)


def worked_log(count: int) -> bytes:
    """A log of so many transactions, each of which inserts one row."""
    return log_of(map(insert, range(1, count + 1)))


# ---- tables and rows

# Types of columns, by the number that a table map has.
TINY, LONG, FLOAT, DOUBLE, VARCHAR, BLOB, STRING, ENUM = 1, 3, 4, 5, 15, 0xFC, 0xFE, 0xF7
NUMERIC = {TINY, LONG, FLOAT, DOUBLE}
# The optional fields of a table map.
SIGNS, USUAL_CHARSET, CHARSETS, NAMES, ENUM_VALUES, KEY, KEY_WITH_PREFIX = 1, 2, 3, 4, 6, 8, 9


class Column(NamedTuple):
    """A column of a table map. The bytes of a BLOB's length are its metadata."""

    name: str
    kind: int
    metadata: bytes = b""


def packed(number: int) -> bytes:
    """A number, packed as shortly as it can be."""
    if number < 251:
        return bytes([number])
    first, width = next((first, width) for first, width in ((0xFC, 2), (0xFD, 3), (0xFE, 8)) if number < 256**width)
    return bytes([first]) + number.to_bytes(width, "little")


def counted(content: bytes) -> bytes:
    """Bytes behind their number."""
    return packed(len(content)) + content


def field(kind: int, value: bytes) -> bytes:
    """An optional field of a table map."""
    return bytes([kind]) + counted(value)


def bits(numbers: Iterable[int], count: int) -> bytes:
    """A bitmap of so many bits, those of these numbers set, and those behind the last one."""
    size = (count + 7) // 8
    return sum(1 << number for number in {*numbers, *range(count, 8 * size)}).to_bytes(size, "little")


def signs_of(columns: list[Column]) -> bytes:
    """The field that says which columns are unsigned: none."""
    return field(SIGNS, bytes((sum(column.kind in NUMERIC for column in columns) + 7) // 8))


def names_of(columns: list[Column]) -> bytes:
    """The field of the columns' names."""
    return field(NAMES, b"".join(counted(column.name.encode()) for column in columns))


def table_map(columns: list[Column], *fields: bytes, table: str = "s.t", table_id: int = 100, nullable: bool = False) -> bytes:
    """The map of a table, whose columns are all nullable, or none is."""
    schema, _, name = table.partition(".")
    metadata = b"".join(column.metadata for column in columns)
    return event(TABLE_MAP, b"".join((
        parts(f"u48:{table_id} u16:1"), counted(schema.encode()), b"\0", counted(name.encode()), b"\0",
        packed(len(columns)), bytes(column.kind for column in columns), counted(metadata),
        (b"\xff" if nullable else b"\0") * ((len(columns) + 7) // 8), *fields,
    )))  # fmt: skip


def table_of(columns: list[Column], *fields: bytes, table: str = "s.t", table_id: int = 100) -> bytes:
    """The map of a table of nullable columns, with their signs and names, and more fields behind those."""
    return table_map(columns, signs_of(columns), names_of(columns), *fields, table=table, table_id=table_id, nullable=True)


def map_as_t(name: str, table_id: int = 100, more: bytes = b"") -> bytes:
    """The map of a table of s that has the columns of `s.t`, with more fields."""
    return event(TABLE_MAP, parts(f"u48:{table_id} u16:1 01 text:s 00") + counted(name.encode()) + parts("past:32:map-t") + more)


def rows(count: int, *images: bytes, present: list[int] | None = None, table_id: int = 100, nulls: bytes | None = None) -> bytes:
    """An event that inserts rows without a NULL, of the present columns of a table of so many, or of all. The bits of `nulls` that belong
    to no column are set where nothing else is said."""
    there = list(range(count)) if present is None else present
    no_nulls = bits((), len(there)) if nulls is None else nulls
    head = parts(f"u48:{table_id} u16:1 u16:2") + packed(count) + bits(there, count)
    return event(WRITE_ROWS, head + b"".join(no_nulls + image for image in images))


def many_tables(count: int, name: str, line: Callable[[int, int, str, str], str] | None = None) -> tuple[bytes, bytes]:
    """A log of so many transactions, each of which inserts one row into a table of its own, and what `read` writes for it."""
    units, lines, place = [], [], len(FRONT)
    for number in range(1, count + 1):
        insert_into = parts(f"u48:{number} u16:1 u16:2 02 ff image-1-a")
        units.append(transaction(number, map_as_t(f"t{number}", number), event(WRITE_ROWS, insert_into)))
        lines.append((line or change_line)(place, number, name, f"t{number}"))
        place += len(units[-1])
    return log_of(units), "".join(lines).encode()


def wide_tables(count: int) -> bytes:
    """A log of so many transactions, each with the map of a table of its own, which has 4,000 columns, and with no row."""
    columns = [Column(f"{column:04}", LONG) for column in range(4_000)]
    fields = (signs_of(columns), names_of(columns))
    return log_of(transaction(number, table_map(columns, *fields, table_id=number)) for number in range(1, count + 1))


# ---- what is written for them


def unit_line(place: int, number: int, name: str) -> str:
    """The line of `transactions` for one of these transactions."""
    return f"{place}\t{place + 218}\t{SOURCE_ID}:{number}\txid\t{name}\n"


def lines_of(line: Callable[[int, int, str], str], count: int, name: str) -> bytes:
    """The lines for a worked log, by the line for one of its transactions."""
    return "".join(line(153 + 218 * number, number + 1, name) for number in range(count)).encode()


def unit_lines(count: int, name: str) -> bytes:
    """The lines of `transactions` for a worked log."""
    return lines_of(unit_line, count, name)


def row_line(value: str, declared: str, place: int, number: int, name: str, table: str) -> str:
    """The line of a row for one of these transactions: the value of `v`, and what is said of the table's columns."""
    return (
        f'{{"after":{{"id":1,"v":{value}}},"before":null,'
        f'"gtid":"{SOURCE_ID}:{number}",{declared}"kind":"insert","schema":"s","table":"{table}",'
        f'"timestamp":{TIME},"token":"{place}.1@{name}"}}\n'
    )


def change_line(place: int, number: int, name: str, table: str = "t") -> str:
    """The line of `read` for one of these transactions."""
    return row_line('"a"', "", place, number, name, table)


def change_lines(count: int, name: str) -> bytes:
    """The lines of `read` for a worked log."""
    return lines_of(change_line, count, name)


def full_line(place: int, number: int, name: str, table: str = "t") -> str:
    """The full line of `read --full` for one of these transactions. The table map says nothing of character sets."""
    declared = '"key":["id"],"types":{"id":"int","v":"varchar"},'
    return row_line('{"base64":"YQ=="}', declared, place, number, name, table)


def full_lines(count: int, name: str) -> bytes:
    """The lines of `read --full` for a worked log."""
    return lines_of(full_line, count, name)


def put(folder: Path, names: list[str], content: bytes) -> list[str]:
    """Writes files of one content, and answers their names."""
    for name in names:
        path = folder / name
        path.parent.mkdir(parents=True, exist_ok=True)
        path.write_bytes(content)
    return names
