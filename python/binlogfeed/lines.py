"""Takes full lines apart. What a line says of its table, and of the kind of its change, is read once for all lines that say the same."""
from __future__ import annotations

import json
from collections.abc import Callable, Mapping
from decimal import Decimal
from typing import Any, NamedTuple, Optional

from binlogfeed.columns import Fitted, Tables, fitted
from binlogfeed.faults import ColumnsMismatch, ConversionFailed, ProgramFailed
from binlogfeed.values import Column, Convert, Reading, Style, is_document, plain, reading_of, to_bytes

# It takes a line apart somewhat faster.
loads: Optional[Callable[[bytes], Any]]
try:
    import orjson
except ImportError:
    loads = None
else:
    loads = orjson.loads
# The C function by which `json` itself reads a text: it answers the value that begins at a place, and the place behind it.
value_at = json.JSONDecoder().scan_once


def number(text: str) -> float | Decimal:
    """A number with a point or an exponent. One whose digits no float holds, as a DECIMAL in a document may have, is a Decimal."""
    value = float(text)
    return value if repr(value) == text or Decimal(repr(value)) == Decimal(text) else Decimal(text)


# The same, with all digits of the numbers.
exact_value_at = json.JSONDecoder(parse_float=number).scan_once


Image = Optional[dict[str, Any]]
# How long that is which stands before a line's first values, and before two that some lines have.
TO_AFTER, TO_BEFORE, TO_GTID, TO_TOKEN = map(len, ('{"after":', ',"before":', ',"gtid":', ',"token":'))
JSON_NULL = ',"json_null":'
TO_COMMITTED, TO_JSON_NULL, TO_INITIAL = map(len, (',"committed":', JSON_NULL, ',"'))
# How many members each line has, without those of its form.
ALWAYS = 5
# What stands before a line's key, and behind its table. In a text of JSON a bare quote ends the text, and behind the rows nothing but
# the key is an array. So these stand there for the last time.
KEY, TIMESTAMP = ',"key":[', ',"timestamp":'
KEY_BYTES, TIMESTAMP_BYTES = KEY.encode(), TIMESTAMP.encode()
# Bytes stand so, and texts that the program doesn't read.
BYTES = b'{"base64":'
# So many forms are known at once. Tables that are altered again and again have ever new ones.
MOST_FORMS = 10_000
# A line of a statement begins so, and one of a row with its images.
OF_STATEMENT = b'{"gtid":'


class Step(NamedTuple):
    """What is made of a column's values, and of those that this has nothing for."""

    column: str
    convert: Convert
    instead: Convert


class Form:
    """What many lines say alike: the table with its key and columns, and the kind of the change; with what makes Python's values."""

    __slots__ = ("kind", "schema", "table", "columns", "key", "names", "words", "has_documents", "always", "with_bytes")

    def __init__(self, said: str, style: Style, convert: Mapping[str, Convert], tables: Tables) -> None:
        """The form of a part of a line. `convert` has the caller's own conversions, and `tables` the columns that it gives."""
        if not said.startswith(KEY):
            raise not_full()
        members = json.loads(f"{{{said[1:]}}}")
        self.kind: str = members["kind"]
        self.schema: str = members["schema"]
        self.table: str = members["table"]
        told = Fitted(tuple(Column(name, type_) for name, type_ in members["types"].items()), tuple(members["key"]))
        where = f"{self.schema}.{self.table}"
        fit = fitted(tables[where], where, told.columns, told.key) if where in tables else told
        # In the table's order, by the names that were given where the log has none.
        self.columns = fit.columns
        self.key: tuple[str, ...] = fit.key
        # The names that a line has, each with that which was given.
        self.names = fit.names
        # What makes names of the numbers of an ENUM or a SET, by the column's name in the line.
        self.words = fit.words
        # Documents may have numbers that no float holds.
        self.has_documents = any(map(is_document, self.columns))
        chosen: dict[str, Convert] = {}
        # What is named with its schema goes before.
        for prefix in (f"{self.table}.", f"{self.schema}.{self.table}."):
            chosen.update((name[len(prefix) :], how) for name, how in convert.items() if name.startswith(prefix))
        # The steps for each line, and for one that has bytes.
        self.always: list[Step] = []
        self.with_bytes: list[Step] = []
        for name, column in zip(members["types"], self.columns):
            own = chosen.get(column.name)
            reading = reading_of(column, style) if own is None else self._own(own, column)
            if name in fit.words:
                reading = _behind(fit.words[name], reading)
            if reading is not None:
                step = Step(name, reading.convert, reading.instead)
                self.with_bytes.append(step)
                if not reading.only_bytes:
                    self.always.append(step)

    def _own(self, convert: Convert, column: Column) -> Reading:
        """The caller's conversion, which is given the value as a line has it, or bytes where the line has them."""

        def converted(value: Any) -> Any:
            """What the caller makes of it."""
            try:
                return convert(value if is_document(column) else plain(value))
            except Exception as error:
                raise _RefusedError(f"{self.schema}.{self.table}.{column.name}") from error

        return Reading(converted, plain, only_bytes=False)


# A change of a row, as its line has it, with Python's values: the form, the row before and after, the timestamp, the GTID, the
# token, the time of the commit, and the line itself where it is kept. There is one for each line, and a tuple is made five times as
# fast as an object.
Parts = tuple[Form, Image, Image, int, Optional[str], str, Optional[int], Optional[bytes]]


class Change:
    """A change's parts by their names, for who doesn't need them so fast."""

    __slots__ = ("form", "before", "after", "timestamp", "gtid", "token", "committed", "line")

    def __init__(self, parts: Parts) -> None:
        """The change of these parts."""
        self.form, self.before, self.after, self.timestamp, self.gtid, self.token, self.committed, self.line = parts


class Said(NamedTuple):
    """A statement by itself, as its line has it. The schema and the text are the bytes in the log."""

    schema: bytes
    text: bytes
    timestamp: int
    gtid: Optional[str]
    token: str


def said_by(line: bytes) -> Said:
    """The statement of a line of the kind `statement`."""
    try:
        members = json.loads(line)
        (one,) = members["statements"]
        return Said(to_bytes(one["schema"]), to_bytes(one["text"]), one["timestamp"], members["gtid"], members["token"])
    except (ValueError, LookupError, TypeError, AttributeError) as error:
        raise not_full() from error


def loads_exactly(text: bytes) -> Any:
    """The value of a JSON text, with all digits of its numbers."""
    return exact_value_at(text.decode(), 0)[0]


def exact_images(text: str) -> tuple[Image, Image]:
    """The rows of a line, after and before, with all digits of their numbers."""
    after, at = exact_value_at(text, TO_AFTER)
    before, _ = exact_value_at(text, at + TO_BEFORE)
    return after, before


def reader_of_lines(
    style: Style, convert: Mapping[str, Convert], tables: Tables | None = None, keep_lines: bool = False
) -> Callable[[bytes], Parts]:
    """What takes a line apart, with values in this style, and keeps it where it is asked to.

    `convert` has the caller's own conversions, by `table.column` or `schema.table.column`, and `tables` the columns that it gives.
    """
    forms: dict[str | bytes, Form] = {}
    json_null = style.json_null

    def new_form(said: str | bytes) -> Form:
        """The form of a part of a line that wasn't met yet."""
        if len(forms) >= MOST_FORMS:
            forms.clear()
        text = said if isinstance(said, str) else said.decode()
        form = forms[said] = Form(text, style, convert, tables or {})
        return form

    def taken_apart(line: bytes) -> Parts:
        """The parts of a line's change."""
        committed = nulls = None
        try:
            if loads is None:
                text = line.decode()
                after, at = value_at(text, TO_AFTER)
                before, at = value_at(text, at + TO_BEFORE)
                if text[at + TO_INITIAL] == "c":
                    committed, at = value_at(text, at + TO_COMMITTED)
                gtid, at = value_at(text, at + TO_GTID)
                behind = text.rindex(TIMESTAMP)
                timestamp, end = value_at(text, behind + len(TIMESTAMP))
                token = text[end + TO_TOKEN + 1 : -2]
                if "\\" in token:
                    token, _ = value_at(text, end + TO_TOKEN)
                said = text[at:behind]
                form = forms.get(said)
                if form is None:
                    if said.startswith(JSON_NULL):
                        nulls, at = value_at(text, at + TO_JSON_NULL)
                        said = text[at:behind]
                    form = forms.get(said) or new_form(said)
                if form.has_documents:
                    after, before = exact_images(text)
            else:
                behind = line.rindex(TIMESTAMP_BYTES)
                key = line.rindex(KEY_BYTES, 0, behind)
                form = forms.get(line[key:behind]) or new_form(line[key:behind])
                if form.has_documents:
                    members = loads_exactly(line[:key] + line[behind:])
                    nulls = members.get("json_null")
                else:
                    members = loads(line[:key] + line[behind:])
                after, before, gtid = members["after"], members["before"], members["gtid"]
                timestamp, token = members["timestamp"], members["token"]
                if len(members) > ALWAYS:
                    committed = members.get("committed")
        except (StopIteration, ValueError, LookupError) as error:
            raise not_full() from error
        steps = form.always if line.find(BYTES) < 0 else form.with_bytes
        if steps:
            try:
                for values in (before, after):
                    if values is not None:
                        _take_in(values, steps)
            except _RefusedError as refused:
                cause = refused.__cause__
                raise ConversionFailed(f"binlogfeed: {refused} at {token} can't be converted: {cause}") from cause
        if nulls and json_null is not None:
            for place in nulls:
                image, _, column = place.partition(".")
                (after if image == "after" else before)[column] = json_null
        return form, before, after, timestamp, gtid, token, committed, line if keep_lines else None

    return with_names(taken_apart) if tables else taken_apart


def with_names(taken_apart: Callable[[bytes], Parts]) -> Callable[[bytes], Parts]:
    """What takes a line apart as this does, and gives rows the names that were given for their columns."""

    def named(line: bytes) -> Parts:
        """The parts of a line's change. Its rows are in the table's order then."""
        try:
            form, before, after, timestamp, gtid, token, committed, kept = taken_apart(line)
        except ColumnsMismatch as mismatch:
            raise mismatch.at(last_members(line)["token"]) from None
        names = form.names
        if names:
            before = before and {name: before[own] for own, name in names if own in before}
            after = after and {name: after[own] for own, name in names if own in after}
        return form, before, after, timestamp, gtid, token, committed, kept

    return named


def last_members(lines: bytes) -> dict[str, Any]:
    """The last two members of the last of these lines, be they full or plain: `timestamp` and `token`."""
    members: dict[str, Any] = json.loads(b"{" + lines[lines.rindex(TIMESTAMP_BYTES) + 1 :])
    return members


def not_full() -> ProgramFailed:
    """The error of a line that is no full line."""
    return ProgramFailed("binlogfeed: the program gives no full lines")


def _behind(words: Convert, reading: Reading | None) -> Reading:
    """How the values of an ENUM or a SET are read that has its names given: by these, and then as a line's own names are."""
    if reading is None:
        return Reading(words, words)
    convert, instead, _ = reading
    return Reading(lambda value: convert(words(value)), lambda value: instead(words(value)))


class _RefusedError(Exception):
    """A value that the caller's conversion refused. The text is its column; the cause is the conversion's own exception."""


def _take_in(values: dict[str, Any], steps: list[Step]) -> None:
    """Puts Python's values into the place of what a line has. NULL stays None."""
    for column, convert, instead in steps:
        value = values.get(column)
        if value is not None:
            try:
                values[column] = convert(value)
            except ValueError:
                values[column] = instead(value)
