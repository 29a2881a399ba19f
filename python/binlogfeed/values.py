"""The values of full lines as Python's own, by the types of their columns.

They are those that users of python-mysql-replication know. docs/FROM_PYTHON_MYSQL_REPLICATION.md has them type by type.
"""
from __future__ import annotations

import re
import struct
from binascii import a2b_base64
from collections.abc import Callable
from dataclasses import dataclass
from decimal import Decimal
from typing import Any, NamedTuple, Optional

from binlogfeed import times
from binlogfeed.charsets import to_text

# A type in the words of a full line: `decimal(8,2) unsigned`, `varchar utf8mb4`, `time(3)`.
TYPE = re.compile(r"(\w+)(?:\((\d+)(?:,\d+)?\))?(?: (\w+))?")
BINARY = {"binary", "varbinary", "tinyblob", "blob", "mediumblob", "longblob", "geometry"}
TEXTS = {"char", "varchar", "tinytext", "text", "mediumtext", "longtext", "enum"}
# Types whose values a line may have as bytes in another form than text.
RAW = {"float", "double", "vector", "geometry", "set"}


class Column(NamedTuple):
    """A column of a table: its name, and its type in the words of a full line, such as `int unsigned`."""

    name: str
    type: str


class JsonNull:
    """The JSON null, where a reader is asked to tell it from NULL. It is false, as None is."""

    def __bool__(self) -> bool:
        """False."""
        return False

    def __repr__(self) -> str:
        """Its name in this package."""
        return "JSON_NULL"


JSON_NULL = JsonNull()
Convert = Callable[[Any], Any]
OnBadValue = Callable[[Column, Any], Any]


@dataclass(frozen=True)
class Style:
    """How values are given."""

    # Whether they stay as the line has them, but for bytes.
    raw: bool = False
    # Whether a TIMESTAMP has no time zone.
    naive_timestamps: bool = False
    # What gives a value in the place of one that Python has none for.
    on_bad_value: Optional[OnBadValue] = None
    # What stands for a document that is the JSON null. None stands for NULL, too.
    json_null: Any = None


class Reading(NamedTuple):
    """How a column's values are read."""

    # What makes Python's value. It raises ValueError where Python has none.
    convert: Convert
    # What gives a value in its place then.
    instead: Convert
    # Whether a line has values for it only where it has bytes.
    only_bytes: bool = False


def is_document(column: Column) -> bool:
    """Whether a column has JSON documents, which a line has as they are. An object there is a document, whatever its members are."""
    return column.type == "json"


def reading_of(column: Column, style: Style) -> Reading | None:
    """How a column's values are read; None where a line has them as Python has."""
    matched = TYPE.match(column.type)
    assert matched is not None
    word, size, charset = matched[1], int(matched[2] or 0), matched[3]
    if word in BINARY or (style.raw and (word in TEXTS or word in RAW)):
        return Reading(plain, plain, only_bytes=word not in RAW)
    if style.raw:
        return None
    convert = _convert_of(word, size, charset, style)
    if convert is None:
        return None
    chosen = style.on_bad_value
    if chosen is None:
        return Reading(convert, _none if word in DATES else plain, word in TEXTS)
    on_bad_value = chosen
    return Reading(convert, lambda value: on_bad_value(column, plain(value)), word in TEXTS)


def _convert_of(word: str, size: int, charset: str | None, style: Style) -> Convert | None:
    """What makes Python's values of a type's, by its word, its size and its character set."""
    if word in TEXTS:
        return _to_text
    if word == "set":
        return _set_of(charset)
    if word == "bit":
        return lambda value: f"{value:0{size}b}"
    if word == "timestamp":
        return times.timestamps(None if style.naive_timestamps else times.UTC)
    if word == "datetime":
        return times.datetimes(size)
    return CONVERTS.get(word)


def plain(value: Any) -> Any:
    """The value as the line has it, but for bytes, which a line has in base64."""
    if type(value) is dict:
        return a2b_base64(value["raw"] if "raw" in value else value["base64"])
    return value


def to_bytes(value: Any) -> bytes:
    """The bytes of a text that a line has as a string, or in base64 where they aren't UTF-8."""
    raw: bytes = value.encode() if isinstance(value, str) else plain(value)
    return raw


def _none(_value: Any) -> None:
    """What python-mysql-replication gives for a date that Python has none for."""
    return None


def _to_text(value: Any) -> Any:
    """A text. A line has it as bytes where its character set isn't one that the program reads."""
    if type(value) is dict:
        return to_text(a2b_base64(value["base64"]), value.get("charset", ""))
    return value


def _set_of(charset: str | None) -> Convert:
    """What makes a set of the names of a SET."""

    to_names = plain if charset == "binary" else _to_text

    def to_set(value: Any) -> Any:
        """The set. It stays a number where the log doesn't have the names."""
        text = to_names(value)
        if type(text) is int:
            return text
        return set(text.split(b"," if type(text) is bytes else ",")) if text else set()

    return to_set


def _float_of(code: str) -> Convert:
    """What makes the number that a FLOAT or a DOUBLE holds of the shortest one that reads back as it."""
    form = struct.Struct(code)

    def to_float(value: Any) -> float:
        """The number, exactly. A line has NaN and the infinities as bytes."""
        number: float
        (number,) = form.unpack(a2b_base64(value["raw"]) if type(value) is dict else form.pack(value))
        return number

    return to_float


def _to_vector(value: Any) -> Any:
    """The numbers that a VECTOR holds, exactly. They stay bytes where a line has them as bytes."""
    if type(value) is dict:
        return plain(value)
    form = struct.Struct(f"<{len(value)}f")
    return list(form.unpack(form.pack(*value)))


DATES = {"date", "datetime", "timestamp", "time", "year"}
# Those whose values need nothing but their word.
CONVERTS: dict[str, Convert] = {
    "date": times.to_date,
    "decimal": Decimal,
    "double": _float_of("<d"),
    "float": _float_of("<f"),
    "time": times.to_time,
    "vector": _to_vector,
    "year": times.to_year,
}
