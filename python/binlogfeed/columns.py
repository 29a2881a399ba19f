"""The names of columns that the caller gives, for tables that have none in the log (`binlog_row_metadata=MINIMAL`).

They are a mapping, or a file with what a server answers of `information_schema.columns`. What the log says of a table has to fit them.
"""
from __future__ import annotations

import os
import re
from collections.abc import Mapping, Sequence
from pathlib import Path
from typing import Any, NamedTuple, Union

from binlogfeed.counts import counted
from binlogfeed.faults import ColumnsMismatch, FileFault, WordsRefused
from binlogfeed.values import Column, Convert

GivenColumns = Union[Mapping[str, Sequence[str]], str, "os.PathLike[str]"]
# What the first line of a file has to have, and what it may have.
SCHEMA, TABLE, NAME, POSITION = NEEDED = ("TABLE_SCHEMA", "TABLE_NAME", "COLUMN_NAME", "ORDINAL_POSITION")
TYPE, KEY = "COLUMN_TYPE", "COLUMN_KEY"
# What the client writes in the place of some characters, and the server in the names of an ENUM's or a SET's values.
ESCAPED = re.compile(r"\\(.)", re.DOTALL)
ESCAPED_OR_DOUBLED = re.compile(r"''|\\(.)", re.DOTALL)
ESCAPES = {"t": "\t", "n": "\n", "r": "\r", "0": "\0"}
QUOTED = re.compile(r"'((?:[^'\\]|''|\\.)*)'", re.DOTALL)
# A type in the words of a full line or of a server: its word, what stands in parentheses, and the rest.
TYPE_PARTS = re.compile(r"(\w+)(?:\(([^)]*)\))?(?: (.*))?", re.DOTALL)
# Types with a size on both sides, and with a sign.
SIZED = {"decimal", "bit", "binary", "varbinary", "time", "datetime", "timestamp"}
SIGNED = {"tinyint", "smallint", "mediumint", "int", "bigint", "float", "double", "decimal"}
# What a text may be whose character set the log doesn't say.
BYTES_OF_TEXTS = {
    "char": "binary", "varchar": "varbinary", "tinytext": "tinyblob", "text": "blob", "mediumtext": "mediumblob",
    "longtext": "longblob",
}  # fmt: skip
GEOMETRIES = {
    "point", "linestring", "polygon", "multipoint", "multilinestring", "multipolygon", "geomcollection", "geometrycollection",
}  # fmt: skip


class Table(NamedTuple):
    """What is given of a table, by its columns in their order."""

    names: tuple[str, ...]
    # In the server's words, such as `int unsigned` or `enum('a','b')`; empty where they aren't given.
    types: tuple[str, ...] = ()
    key: tuple[str, ...] = ()


Tables = Mapping[str, Table]


class Fitted(NamedTuple):
    """A table's columns and key in the log, with the names that were given for them."""

    columns: tuple[Column, ...]
    key: tuple[str, ...]
    # Each name in the log with that which was given, in the table's order. Nothing where the log has names.
    names: Sequence[tuple[str, str]] = ()
    # What makes names of the numbers of an ENUM or a SET, by the column's name in the log.
    words: Mapping[str, Convert] = {}


def tables_of(given: GivenColumns | None) -> dict[str, Table]:
    """What is given of each table, by `schema.table`."""
    if given is None:
        return {}
    if isinstance(given, (str, os.PathLike)):
        return of_file(Path(given))
    tables = {}
    for table, names in given.items():
        if isinstance(names, (str, bytes)):
            raise TypeError(f"columns: {table}: a list of names, not the text {names!r}")
        tables[table] = Table(tuple(names))
        if "." not in table:
            raise ValueError(f"columns: {table!r} isn't the name of a table with its schema, as in shop.customer")
        if len(set(names)) < len(names):
            raise ValueError(f"columns: {table} has a name twice")
    return tables


def of_file(path: Path) -> dict[str, Table]:
    """What a file says of tables. Its first line has the names of its columns, as `mysql --batch` writes them."""
    try:
        head, *lines = path.read_text(encoding="utf-8-sig").split("\n")
    except OSError as error:
        raise FileFault(f"binlogfeed: cannot open {path}: {error.strerror}") from error
    except UnicodeDecodeError as error:
        raise WordsRefused(f"binlogfeed: {path} isn't UTF-8") from error
    heads = head.upper().split("\t")
    missing = [name for name in NEEDED if name not in heads]
    if missing:
        raise WordsRefused(f"binlogfeed: {path} has no {', '.join(missing)} in its first line")
    tables: dict[str, dict[int, dict[str, str]]] = {}
    for number, line in enumerate(lines, 2):
        if not line:
            continue
        cells = [ESCAPED.sub(_escaped, cell) for cell in line.split("\t")]
        row = dict(zip(heads, cells))
        if len(cells) != len(heads) or not row[POSITION].isdecimal():
            raise WordsRefused(f"binlogfeed: {path} has something else than a column in line {number}")
        columns = tables.setdefault(f"{row[SCHEMA]}.{row[TABLE]}", {})
        if int(row[POSITION]) in columns:
            raise WordsRefused(f"binlogfeed: {path} has a column twice in line {number}")
        columns[int(row[POSITION])] = row
    for table, columns in tables.items():
        if sorted(columns) != list(range(1, len(columns) + 1)):
            raise WordsRefused(f"binlogfeed: {path} hasn't all columns of {table}")
    return {table: _table_of([row for _, row in sorted(columns.items())]) for table, columns in tables.items()}


def _table_of(rows: Sequence[Mapping[str, str]]) -> Table:
    """A table by the rows of its columns."""
    types = tuple(row[TYPE] for row in rows if TYPE in row)
    return Table(tuple(row[NAME] for row in rows), types, tuple(row[NAME] for row in rows if row.get(KEY) == "PRI"))


def _escaped(found: re.Match[str]) -> str:
    """The character that stands behind a backslash, or is meant by it; a quote where there is no backslash."""
    return ESCAPES.get(found[1], found[1]) if found[1] else "'"


def fitted(given: Table, table: str, columns: tuple[Column, ...], key: tuple[str, ...]) -> Fitted:
    """A table of the log by what is given of it. Raises ColumnsMismatch where they don't fit."""
    if len(columns) != len(given.names):
        raise ColumnsMismatch(table, None, _counted([column.type for column in columns]), _counted(given.names))
    has_names = not are_numbered(columns)
    names = tuple(column.name for column in columns) if has_names else given.names
    for own, other in zip(sorted(names), sorted(given.names)):
        # The order may be another: the log's names are those of its own columns.
        if own != other:
            in_log = f"the columns {', '.join(names)}"
            raise ColumnsMismatch(table, min(own, other), in_log, f"the columns {', '.join(given.names)}")
    types = dict(zip(given.names, given.types))
    for name, column in zip(names, columns):
        if name in types and not is_type(column.type, types[name]):
            raise ColumnsMismatch(table, name, column.type, types[name])
    if has_names:
        return Fitted(columns, key)
    words = {
        column.name: namer(table, name, types[name])
        for name, column in zip(names, columns)
        if name in types and column.type.partition(" ")[0] in ("enum", "set")
    }
    named = tuple(Column(name, column.type) for name, column in zip(names, columns))
    return Fitted(named, given.key, [(column.name, name) for name, column in zip(names, columns)], words)


def are_numbered(columns: Sequence[Column]) -> bool:
    """Whether the log has no names for a table's columns: they are `@1`, `@2`, and so on."""
    return all(column.name == f"@{number}" for number, column in enumerate(columns, 1))


def _counted(columns: Sequence[str]) -> str:
    """How many columns these are, with what is said of each."""
    return f"{counted(len(columns), 'column')} ({', '.join(columns)})"


def is_type(log: str, given: str) -> bool:
    """Whether a column whose type the log tells may be one of a type that a server tells. A log doesn't have all of a type."""
    word, size, rest = _parts(log)
    given_word, given_size, given_rest = _parts(given.lower())
    if given_word in GEOMETRIES:
        given_word = "geometry"
    if word != given_word:
        return not rest and BYTES_OF_TEXTS.get(word) == given_word
    # A log may not tell how many numbers a VECTOR has.
    if (word in SIZED or (word == "vector" and size != "0")) and size != given_size:
        return False
    return word not in SIGNED or ("unsigned" in rest.split()) == ("unsigned" in given_rest.split())


def _parts(type_: str) -> tuple[str, str, str]:
    """A type's word, what stands in parentheses, and the rest. A time without a size has no digits of a fraction."""
    parts = TYPE_PARTS.match(type_)
    return (parts[1], parts[2] or "0", parts[3] or "") if parts else ("", "", "")


def namer(table: str, column: str, type_: str) -> Convert:
    """What makes the names of an ENUM's or a SET's number, by the type in the server's words."""
    words = [ESCAPED_OR_DOUBLED.sub(_escaped, word) for word in QUOTED.findall(type_)]
    is_set = type_.lower().startswith("set")

    def to_names(value: Any) -> Any:
        """The name, or the names with commas. 0 has the empty name. What has a name stays, and so does the number of one with a `?`:
        a server's answer has that for each character beyond utf8mb3, too.
        """
        if type(value) is not int:
            return value
        if value >> len(words) if is_set else value > len(words):
            raise ColumnsMismatch(table, column, f"the value {value}", type_)
        if is_set:
            chosen = [word for at, word in enumerate(words) if value >> at & 1]
        else:
            chosen = words[value - 1 : value] if value else []
        return value if any("?" in word for word in chosen) else ",".join(chosen)

    return to_names
