"""Makes of a value of the log what a column of the target takes, by the types of both."""
from __future__ import annotations

import datetime
import json
from collections.abc import Callable
from typing import Any, Optional, Union

from binlogfeed import JSON_NULL, floats
from binlogfeed.charsets import CODECS, to_text

# A text of the log, bytes in a character set that the program doesn't read, or a number without a name.
Text = Union[str, int, bytes]
# What makes another value; None where the value may stay as it is. NULL is never converted.
Converter = Optional[Callable[[Any], Any]]

INTEGERS = {"tinyint", "smallint", "mediumint", "int", "bigint"}
BYTES = {"binary", "varbinary", "tinyblob", "blob", "mediumblob", "longblob", "geometry"}
# PostgreSQL's types of days and moments, which have no 0000-00-00.
MOMENTS = {"date", "timestamp without time zone", "timestamp with time zone"}
EPOCH = datetime.datetime(1970, 1, 1)
# SQLite goes by the first of these that a declared type has in it.
AFFINITIES = (
    *(("INT", "INTEGER"), ("CHAR", "TEXT"), ("CLOB", "TEXT"), ("TEXT", "TEXT"), ("BLOB", "BLOB")),
    *(("REAL", "REAL"), ("FLOA", "REAL"), ("DOUB", "REAL")),
)
# The greatest whole number of SQLite.
GREATEST = (1 << 63) - 1


class UnfitError(ValueError):
    """A value that a column of the target can't hold."""


def for_sqlite(log: str, target: str) -> Converter:
    """What a column of SQLite takes, by its declared type."""
    kind = word(log)
    affinity = affinity_of(target)
    if kind == "bit" or log == "bigint unsigned":
        return whole_or_text if affinity in ("TEXT", "BLOB") else whole
    if kind == "year" and affinity != "TEXT":
        return int
    if kind in ("float", "double") and affinity == "TEXT":
        # SQLite's own text of a number has 15 digits, and no sign of -0.0.
        return real if kind == "float" else double
    charset = charset_of(log)
    return text_or_bytes(charset) if charset in CODECS else OTHERS.get(kind)


def for_postgres(log: str, target: str) -> Converter:
    """What a column of PostgreSQL takes: a text in PostgreSQL's spelling of its type."""
    kind = word(log)
    if kind in INTEGERS or kind == "bit":
        return bits(log, target) if kind == "bit" else truth if target == "boolean" else str
    if kind in ("float", "double"):
        return real if kind == "float" else double
    if kind in ("json", "vector"):
        # PostgreSQL would take the text of a VECTOR as bytes.
        return json_text if kind == "json" else no_text if target == "bytea" else numbers
    if kind in ("date", "datetime"):
        return day if target in MOMENTS else None
    if kind == "timestamp":
        return real_moment if target in MOMENTS else moment
    if kind == "time":
        return hour if target == "time without time zone" else None
    if kind in BYTES:
        return {"bytea": hexadecimal, "uuid": uuid}.get(target, no_text)
    if kind in ("decimal", "year"):
        return None
    if target == "bytea":
        return bytes_of_text
    text = text_of(charset_of(log))
    return (lambda value: array(text(value))) if kind == "set" and target.endswith("[]") else text


def word(log: str) -> str:
    """A type of the log without its size, sign or character set."""
    return log.partition(" ")[0].partition("(")[0]


def charset_of(log: str) -> str:
    """The character set of a text's type; empty where it is unknown."""
    return log.partition(" ")[2]


def affinity_of(declared: str) -> str:
    """What SQLite makes of a declared type."""
    upper = declared.upper()
    for part, affinity in AFFINITIES:
        if part in upper:
            return affinity
    return "NUMERIC" if upper else "BLOB"


def whole(value: int) -> int:
    """A whole number that SQLite has."""
    if value > GREATEST:
        raise UnfitError
    return value


def whole_or_text(value: int) -> int | str:
    """A whole number, or its text where SQLite has no such number."""
    return value if value <= GREATEST else str(value)


def truth(value: int) -> str:
    """A BOOL, which is a TINYINT in MySQL."""
    if value not in (0, 1):
        raise UnfitError
    return "true" if value else "false"


def bits(log: str, target: str) -> Callable[[int], str]:
    """What makes a BIT."""
    width = int(log[len("bit(") : -1])
    if target == "boolean":
        return truth
    if target in ('"bit"', "bit varying"):
        return lambda value: f"{value:0{width}b}"
    if target == "bytea":
        return lambda value: hexadecimal(value.to_bytes((width + 7) // 8, "big"))
    return str


def real(raw: bytes | float) -> str:
    """A FLOAT."""
    return repr(floats.shortest(raw))


def double(raw: bytes | float) -> str:
    """A DOUBLE."""
    return repr(floats.from_raw(raw))


def numbers(value: list[float] | bytes) -> str:
    """A VECTOR, with the digits of a line."""
    if isinstance(value, bytes):
        raise UnfitError
    return f"[{','.join(map(repr, value))}]"


def day(value: str) -> str:
    """A DATE or DATETIME that is one: MySQL also has 0000-00-00, and days such as 2024-02-00."""
    try:
        datetime.date.fromisoformat(value[:10])
    except ValueError:
        raise UnfitError from None
    return value


def moment(value: str) -> str:
    """A TIMESTAMP in UTC, which the log has in seconds since 1970; 0 is the zero date."""
    seconds, point, fraction = value.partition(".")
    if is_zero(value):
        return f"0000-00-00 00:00:00{point}{fraction}"
    return f"{EPOCH + datetime.timedelta(seconds=int(seconds))}{point}{fraction}+00:00"


def real_moment(value: str) -> str:
    """A TIMESTAMP that is a moment."""
    if is_zero(value):
        raise UnfitError
    return moment(value)


def is_zero(value: str) -> bool:
    """Whether a TIMESTAMP is the zero date."""
    return not value.strip("0.")


def hour(value: str) -> str:
    """A TIME of a day: MySQL's go from -838 hours to 838."""
    if value[0] == "-" or value >= "24" or value[2] != ":":
        raise UnfitError
    return value


def hexadecimal(value: bytes) -> str:
    """Bytes."""
    return f"\\x{value.hex()}"


def uuid(value: bytes) -> str:
    """A UUID in a BINARY(16)."""
    if len(value) != 16:
        raise UnfitError
    return value.hex()


def no_text(value: object) -> str:
    """A value for a column that takes none of its kind."""
    raise UnfitError


def text_or_bytes(charset: str) -> Callable[[Text], Text]:
    """What makes a text of bytes in a character set. They stay bytes where they are none."""

    def converted(value: Text) -> Text:
        """The text."""
        try:
            return to_text(value, charset) if isinstance(value, bytes) else value
        except ValueError:
            return value

    return converted


def text_of(charset: str) -> Callable[[Text], str]:
    """What makes a text of a value: of bytes in a character set, too, and of a number without a name."""

    def converted(value: Text) -> str:
        """The text. PostgreSQL has none with a zero byte."""
        try:
            found = to_text(value, charset) if isinstance(value, bytes) else str(value)
        except ValueError:
            raise UnfitError from None
        if "\0" in found:
            raise UnfitError
        return found

    return converted


def bytes_of_text(value: Text) -> str:
    """The bytes of a text."""
    return hexadecimal(value if isinstance(value, bytes) else str(value).encode())


def array(value: str) -> str:
    """The names of a SET, as an array."""
    names = value.replace("\\", "\\\\").replace('"', '\\"')
    return "{" + ",".join(f'"{name}"' for name in names.split(",") if names) + "}"


def json_text(document: Any) -> str:
    """The text of a JSON document. A number whose digits no float holds is their text."""
    return "null" if document is JSON_NULL else json.dumps(document, ensure_ascii=False, default=str)


def or_null(convert: Callable[[Any], Any]) -> Callable[[Any], Any]:
    """A converter that makes NULL of what the column can't hold."""

    def converted(value: Any) -> Any:
        """The value that the column takes, or None."""
        try:
            return convert(value)
        except UnfitError:
            return None

    return converted


# What SQLite takes of types that the log has otherwise.
OTHERS: dict[str, Converter] = {
    "double": floats.from_raw,
    "float": floats.shortest,
    "json": json_text,
    "timestamp": moment,
    "vector": numbers,
}
