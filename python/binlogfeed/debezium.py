"""Changes in the form of Debezium's connector for MySQL: the value of its change events, without the schema part.

docs/DEBEZIUM.md says which of its settings the values follow, and what differs.
"""
from __future__ import annotations

import datetime
import json
import re
import time
from base64 import b64encode
from binascii import a2b_base64
from collections.abc import Callable, Iterator, Mapping, Sequence
from functools import lru_cache
from typing import Any, NamedTuple, Optional

from binlogfeed.charsets import CODECS, to_text
from binlogfeed.lines import TO_AFTER, TO_BEFORE, not_full, value_at
from binlogfeed.times import to_time
from binlogfeed.tokens import token_parts
from binlogfeed.values import BINARY, TEXTS, TYPE, Convert, plain
from binlogfeed.version import VERSION

Record = dict[str, Any]
# What Debezium calls the source (`topic.prefix`), unless another name is given.
NAME = "mysql"
OPERATIONS = {"insert": "c", "update": "u", "delete": "d"}
EPOCH = datetime.datetime(1970, 1, 1)
DAY, MICROSECOND = datetime.timedelta(days=1), datetime.timedelta(microseconds=1)
MICROSECONDS, NANOSECONDS = 1_000_000, 1000
# A DATETIME has milliseconds up to so many digits, and microseconds beyond.
DIGITS_OF_MILLISECONDS = 3
# Where a BIGINT UNSIGNED is as great, a long of Java is below 0.
SIGN, ALL = 1 << 63, 1 << 64
# The codecs of character sets that the program reads, for bytes that are no text in them.
READ = {
    "ucs2": "utf-16-be", "utf16": "utf-16-be", "utf16le": "utf-16-le", "utf32": "utf-32-be", "utf8mb3": "utf-8", "utf8mb4": "utf-8",
}  # fmt: skip
DIGITS_BEHIND_POINT = re.compile(r"\.(\d+)")


class Names(NamedTuple):
    """The names that were given for the columns of a table that has none in the log."""

    # Each name in the log with that which was given.
    columns: Sequence[tuple[str, str]] = ()
    # What makes names of the numbers of an ENUM or a SET, by the column's name in the log.
    words: Mapping[str, Convert] = {}
    key: Sequence[str] = ()


def records_of(line: bytes, name: str = NAME, names: Optional[Names] = None) -> list[Record]:
    """What Debezium tells of a full line's change: a record, or two where an update changes the key."""
    try:
        told: dict[str, Any] = json.loads(line)
        key: Sequence[str] = names.key if names else told["key"]
    except (ValueError, LookupError, TypeError) as error:
        raise not_full() from error
    before, after = (_row(told, image, line, key, names) for image in ("before", "after"))
    is_read = told.get("snapshot") is True
    source = _source(told, name, is_read)
    if before and after and any(before[it] != after[it] for it in key if it in before and it in after):
        return [_record(before, None, source, "d"), _record(None, after, source, "c")]
    return [_record(before, after, source, "r" if is_read else OPERATIONS[told["kind"]])]


def lines_of(lines: bytes, name: str = NAME) -> bytes:
    """The records of full lines, each as a line of JSON."""
    return b"".join(as_line(record) for line in lines.split(b"\n")[:-1] for record in records_of(line, name))


def as_line(record: Record) -> bytes:
    """A record as a line of JSON."""
    return json.dumps(record, ensure_ascii=False, separators=(",", ":")).encode() + b"\n"


def _record(before: Optional[Record], after: Optional[Record], source: Record, operation: str) -> Record:
    """A record, with the time of this machine's clock, as Debezium has it."""
    now = time.time_ns()
    times = {"ts_ms": now // NANOSECONDS**2, "ts_us": now // NANOSECONDS, "ts_ns": now}
    return {"before": before, "after": after, "source": source, "op": operation, **times, "transaction": None}


def _source(told: Mapping[str, Any], name: str, is_read: bool) -> Record:
    """Where and when the change was made."""
    place = token_parts(told["token"])
    microseconds = told.get("committed", told["timestamp"] * MICROSECONDS)
    return {
        "version": VERSION,
        "connector": "mysql",
        "name": name,
        "ts_ms": microseconds // NANOSECONDS,
        "snapshot": "true" if is_read else "false",
        "db": told["schema"],
        "sequence": None,
        "ts_us": microseconds,
        "ts_ns": microseconds * NANOSECONDS,
        "table": told["table"],
        "server_id": 0,
        "gtid": told.get("gtid"),
        "file": place.file,
        "pos": place.position,
        "row": max(0, place.count - 1),
        "thread": None,
        "query": None,
    }


def _row(told: Mapping[str, Any], image: str, line: bytes, key: Sequence[str], names: Optional[Names]) -> Optional[Record]:
    """A row as it was or as it is then, in the table's order; None where there is none."""
    row, types = told[image], told["types"]
    if not row:
        return None if row is None else {}
    texts = dict(_texts(line.decode(), image)) if "json" in types.values() else {}
    nulls, words = told.get("json_null", ()), names.words if names else {}
    found: Record = {}
    for column, given in names.columns if names else zip(types, types):
        if column not in row:
            continue
        value = words[column](row[column]) if column in words else row[column]
        if value is None:
            # The document null is a text, and NULL isn't.
            found[given] = texts[column] if f"{image}.{column}" in nulls else None
        elif types[column] == "json":
            found[given] = texts[column]
        else:
            found[given] = _converter(types[column], given in key)(value)
    return found


def _texts(line: str, image: str) -> Iterator[tuple[str, str]]:
    """The values of an image with their names, each as the line spells it."""
    at = TO_AFTER if image == "after" else value_at(line, TO_AFTER)[1] + TO_BEFORE
    # Behind the bracket, or the comma behind a value.
    while line[at] != "}":
        name, at = value_at(line, at + 1)
        _, end = value_at(line, at + 1)
        yield name, line[at + 1 : end]
        at = end


@lru_cache(maxsize=4096)
def _converter(type_text: str, in_key: bool) -> Callable[[Any], Any]:
    """What makes Debezium's values of a type's, which is in the words of a full line. The values of a key are never null."""
    matched = TYPE.match(type_text)
    assert matched is not None
    word, size = matched[1], int(matched[2] or 0)
    if type_text == "bigint unsigned":
        return lambda value: value - ALL if value >= SIGN else value
    if word == "bit":
        return _bits(size)
    if word == "datetime":
        unit = MICROSECOND if size > DIGITS_OF_MILLISECONDS else 1000 * MICROSECOND
        return _dates(lambda text: (_moment(text) - EPOCH) // unit, 0 if in_key else None)
    if word == "date":
        return _dates(lambda text: (_moment(text) - EPOCH) // DAY, 0 if in_key else None)
    if word == "timestamp":
        return _dates(_zoned, "1970-01-01T00:00:00Z" if in_key else None)
    if word == "geometry":
        return _geometry
    if word in BINARY:
        return lambda value: _in_base64(plain(value))
    if word in TEXTS or word == "set":
        return _text
    return CONVERTS.get(word, _as_it_is)


def _as_it_is(value: Any) -> Any:
    """The value as the line has it: an integer, or the text of a DECIMAL."""
    return value


def _bits(size: int) -> Convert:
    """What converts a BIT: one bit says whether it is set, and more are bytes, the lowest first."""

    def converted(value: int) -> Any:
        """The value."""
        return bool(value) if size == 1 else _in_base64(value.to_bytes((size + 7) // 8, "little"))

    return converted


def _in_base64(raw: bytes) -> str:
    """Bytes as Kafka Connect's converter for JSON writes them."""
    return b64encode(raw).decode()


def _dates(convert: Convert, zero: Any) -> Convert:
    """What converts dates, and has something in the place of those that no calendar has, the zero dates among them."""

    def converted(text: str) -> Any:
        """The value."""
        try:
            return convert(text)
        except ValueError:
            return zero

    return converted


def _moment(text: str) -> datetime.datetime:
    """A DATE or a DATETIME, with as many digits as it has."""
    return datetime.datetime.fromisoformat(DIGITS_BEHIND_POINT.sub(_six_digits, text))


def _six_digits(found: re.Match[str]) -> str:
    """A fraction with as many digits as Python wants."""
    return f".{found[1]:0<6}"


def _zoned(text: str) -> str:
    """A TIMESTAMP in UTC, with as many digits as the column has. 0 is MySQL's zero date."""
    seconds, point, fraction = text.partition(".")
    if not int(seconds) and not int(fraction or 0):
        raise ValueError("the zero date")
    moment = EPOCH + datetime.timedelta(seconds=int(seconds))
    return f"{moment.isoformat()}{point}{fraction}Z"


def _microseconds_of_time(text: str) -> int:
    """The microseconds of a TIME, which may be below 0 or beyond a day."""
    return to_time(text) // MICROSECOND


def _geometry(value: Any) -> Record:
    """A GEOMETRY. In a row the number of its system stands before its well-known binary."""
    raw = plain(value)
    return {"wkb": _in_base64(raw[4:]), "srid": int.from_bytes(raw[:4], "little") or None}


def _text(value: Any) -> Any:
    """A text. Bytes that are none in their character set are told as Java does, with U+FFFD. Without a set they stay bytes."""
    if type(value) is not dict:
        return value
    if "charset" not in value:
        return value["base64"]
    raw, charset = a2b_base64(value["base64"]), str(value["charset"])
    try:
        return to_text(raw, charset)
    except ValueError:
        return raw.decode(CODECS.get(charset, READ.get(charset, "ascii")), "replace")


def _number(value: Any) -> Any:
    """A FLOAT, a DOUBLE, or the numbers of a VECTOR. NaN and the infinities, which a server doesn't store, have no number in JSON."""
    return None if type(value) is dict else value


# Those whose values need nothing but their word.
CONVERTS: dict[str, Convert] = {"time": _microseconds_of_time, "year": int, "float": _number, "double": _number, "vector": _number}
