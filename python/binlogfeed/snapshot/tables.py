"""The tables of a server: their columns and keys, in the words of full lines."""
from __future__ import annotations

import re
from collections.abc import Callable, Collection, Iterable, Sequence
from typing import NamedTuple, Optional

from binlogfeed.columns import BYTES_OF_TEXTS, GEOMETRIES
from binlogfeed.faults import WordsRefused
from binlogfeed.snapshot.server import Connection, Row

INTEGERS = {"tinyint", "smallint", "mediumint", "int", "bigint"}
BINARY = {"binary", "varbinary", *BYTES_OF_TEXTS.values()}
CHARACTERS = {*BYTES_OF_TEXTS, "enum", "set"}
TIMES = {"time", "datetime", "timestamp"}
# The engine whose tables a transaction sees as they were when it began.
ENGINE = "InnoDB"
COLUMNS = (
    "TABLE_SCHEMA, TABLE_NAME, COLUMN_NAME, DATA_TYPE, COLUMN_TYPE, CHARACTER_OCTET_LENGTH, "
    "NUMERIC_PRECISION, NUMERIC_SCALE, DATETIME_PRECISION, CHARACTER_SET_NAME"
)


class Told(NamedTuple):
    """A column as full lines tell it: its type's word, its type, and its character set."""

    name: str
    word: str
    type: str
    charset: Optional[str] = None
    # Whether the server pads its numbers with zeros.
    padded: bool = False


class Table(NamedTuple):
    """A table, with its columns in its order and the columns of its primary key."""

    schema: str
    name: str
    columns: tuple[Told, ...]
    key: tuple[str, ...]
    # Whether the key has beginnings of values alone, by which rows can't be ordered.
    by_beginnings: bool
    # About how many rows it has.
    rows: int


def tables_of(connection: Connection, schemas: Sequence[str], chosen: Iterable[str] = (), ignored: Collection[str] = ()) -> list[Table]:
    """The tables of schemas, in the order of the schemas and of their names."""
    check_are_there(connection, schemas)
    only = set(chosen)
    found = [
        table
        for schema in dict.fromkeys(schemas)
        for table in _tables_of(connection, schema, lambda name: name not in ignored and (not only or name in only))
    ]
    missing = sorted(only - {table.name for table in found} - set(ignored))
    if missing:
        raise WordsRefused(f"binlogfeed: the server has no table {', '.join(missing)} in {', '.join(schemas)}")
    return found


def check_are_there(connection: Connection, schemas: Sequence[str]) -> None:
    """Raises an error where the server has no such schema, or doesn't show it to this user."""
    there = [row[0].decode() for row in connection.ask("SELECT SCHEMA_NAME FROM information_schema.SCHEMATA ORDER BY 1")]
    for schema in schemas:
        if schema not in there:
            raise WordsRefused(f"binlogfeed: the server has no schema {schema}: it shows {', '.join(there)}")


def _tables_of(connection: Connection, schema: str, is_chosen: Callable[[str], bool]) -> list[Table]:
    """The tables of a schema. A view is none."""
    of_schema = f"WHERE TABLE_SCHEMA = {literal(schema)}"
    base = f"FROM information_schema.TABLES {of_schema} AND TABLE_TYPE = 'BASE TABLE' ORDER BY TABLE_NAME"
    rows = connection.ask(f"SELECT TABLE_NAME, ENGINE, TABLE_ROWS {base}")
    columns = connection.ask(f"SELECT {COLUMNS} FROM information_schema.COLUMNS {of_schema} ORDER BY ORDINAL_POSITION")
    indexes = f"FROM information_schema.STATISTICS {of_schema} AND INDEX_NAME = 'PRIMARY' ORDER BY SEQ_IN_INDEX"
    keys = connection.ask(f"SELECT TABLE_NAME, COLUMN_NAME, SUB_PART {indexes}")
    tables = []
    for name, engine, count in rows:
        if not is_chosen(name.decode()):
            continue
        where = f"{schema}.{name.decode()}"
        if engine is None or engine.decode() != ENGINE:
            told = engine.decode() if engine else "none"
            raise WordsRefused(f"binlogfeed: {where} has the engine {told}, which keeps no snapshot: leave it out by --ignored-tables")
        own = [told_column(where, row) for row in columns if row[1] == name]
        key = [row for row in keys if row[0] == name]
        parts = tuple(row[1].decode() for row in key)
        tables.append(Table(schema, name.decode(), tuple(own), parts, any(row[2] for row in key), int(count or 0)))
    return tables


def told_column(table: str, row: Row) -> Told:
    """A column, by what the server says of it."""
    name, word, type_, octets, precision, scale, fraction, charset = ("" if it is None else it.decode() for it in row[2:])
    word = "geometry" if word in GEOMETRIES else word
    words = type_.split()
    sign = " unsigned" if "unsigned" in words else ""
    padded = "zerofill" in words
    if word in INTEGERS or word in ("float", "double"):
        return Told(name, word, f"{word}{sign}", None, padded)
    if word == "decimal":
        return Told(name, word, f"decimal({precision},{scale}){sign}", None, padded)
    if word == "bit":
        return Told(name, word, f"bit({precision})")
    if word in ("year", "date", "json", "geometry"):
        return Told(name, word, word)
    if word == "vector":
        return Told(name, word, type_)
    if word in TIMES:
        return Told(name, word, f"{word}({fraction})" if fraction not in ("", "0") else word)
    if word in BINARY:
        return Told(name, word, f"{word}({octets})" if word in ("binary", "varbinary") else word, "binary")
    if word in CHARACTERS:
        charset = "utf8mb3" if charset == "utf8" else charset or "binary"
        return Told(name, word, f"{word} {charset}", charset)
    raise WordsRefused(f"binlogfeed: {table}.{name} has the type {type_}, which isn't read: leave the table out by --ignored-tables")


def literal(value: str) -> str:
    """A text in a statement."""
    return f"_utf8mb4 X'{value.encode().hex()}'"


def quoted(name: str) -> str:
    """A name in a statement."""
    return "`" + re.sub("`", "``", name) + "`"
