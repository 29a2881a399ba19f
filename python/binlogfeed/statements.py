"""Statements that logs have as text, within transactions, too, where no line of the program tells of them; and what they do to tables."""
from __future__ import annotations

import os
import re
import struct
from collections.abc import Iterator, Sequence
from pathlib import Path
from typing import BinaryIO, NamedTuple, Optional

from binlogfeed.copy.events import CHECKSUM, Header, has_checksums, header_of
from binlogfeed.faults import FileFault
from binlogfeed.logs import HEADER_LENGTH, MAGIC

QUERY = 2
# The events that begin a unit: with a GTID, without one, and with one that has a tag.
GTIDS = (33, 34, 42)
# What a query event has in front of its variables: thread, seconds, the schema's length, an error, the variables' length.
FRONT = struct.Struct("<IIBHH")
# A longer statement is cut here, and so is the text that a person gets.
MOST_READ, MOST_SHOWN = 1 << 16, 100

NAME = r"""(?:`(?:[^`]|``)+`|"(?:[^"]|"")+"|[\w$]+)"""
TABLE = rf"({NAME})(?:\s*\.\s*({NAME}))?"
# Names in quotes, which stay; texts; and comments, with what opens and closes one that a server carries out, which are no words.
NO_WORDS = re.compile(
    r"""("(?:[^"\\]|\\.|"")*"|`(?:[^`]|``)*`)|'(?:[^'\\]|\\.|'')*'|/\*!\d*|/\*.*?(?:\*/|\Z)|\*/|--(?:\s[^\n]*)?(?:\n|\Z)|#[^\n]*""",
    re.DOTALL,
)
# What changes a table or its columns, and the tables that it names.
OF_TABLE = re.compile(
    rf"(?P<what>TRUNCATE(?:\s+TABLE\b)?|ALTER(?:\s+(?:ONLINE|OFFLINE|IGNORE))*\s+TABLE\b|DROP\s+TABLES?\b(?:\s+IF\s+EXISTS\b)?)"
    rf"\s*(?P<tables>{TABLE}(?:\s*,\s*{TABLE})*)",
    re.IGNORECASE,
)
OF_NAMES = re.compile(rf"RENAME\s+TABLES?\b\s*(?P<pairs>{TABLE}\s+TO\s+{TABLE}(?:\s*,\s*{TABLE}\s+TO\s+{TABLE})*)", re.IGNORECASE)
PAIR = re.compile(rf"{TABLE}\s+TO\s+{TABLE}", re.IGNORECASE)
# Behind the table of an ALTER TABLE: its new name, one that it takes rows from and gives them, and what leaves rows and columns as they are.
NEW_NAME = re.compile(rf"\bRENAME\s+(?:TO\b|AS\b|=)?\s*(?!(?:COLUMN|INDEX|KEY)\b){TABLE}", re.IGNORECASE)
EXCHANGED = re.compile(rf"\bEXCHANGE\s+PARTITION\s+{NAME}\s+WITH\s+TABLE\b\s*{TABLE}", re.IGNORECASE)
KEYS_ALONE = re.compile(r"\s*(?:DISABLE|ENABLE)\s+KEYS\s*;?\s*\Z", re.IGNORECASE)
FIRST_WORD = re.compile(r"\w+")
OF_SCHEMA = re.compile(rf"DROP\s+(?:DATABASE|SCHEMA)\b(?:\s+IF\s+EXISTS\b)?\s*(?P<schema>{NAME})", re.IGNORECASE)
# What changes rows, where the server didn't write these.
OF_ROWS = re.compile(r"(?:INSERT|UPDATE|DELETE|REPLACE|LOAD\s+DATA|WITH)\b", re.IGNORECASE)
# What a statement does: it takes all rows of a table, changes it, takes it away, or gives it another name; and the others.
TRUNCATE, ALTER, DROP, RENAME, DROP_DATABASE, ROWS = "TRUNCATE", "ALTER", "DROP", "RENAME", "DROP DATABASE", "ROWS"


class Wanted(NamedTuple):
    """A schema's tables, or some of them."""

    schema: str
    # Their names, with commas; all where there is none.
    only_tables: str = ""

    def has(self, table: tuple[str, str]) -> bool:
        """Whether a table is one of them. Whether great and small letters differ in names is the server's choice, which no log tells."""
        schema, name = table
        only = [it for it in self.only_tables.lower().split(",") if it]
        return schema.lower() == self.schema.lower() and (not only or name.lower() in only)

    def has_exactly(self, table: tuple[str, str]) -> bool:
        """Whether a table is one of them, by its letters."""
        schema, name = table
        return schema == self.schema and (not self.only_tables or name in self.only_tables.split(","))


class Effect(NamedTuple):
    """What a statement does to the tables that are wanted, as far as its words tell."""

    what: str
    # Those of the tables that it is of, as it names them.
    tables: tuple[str, ...] = ()
    # Whether it brings one of them that wasn't wanted by its name before, so that no line tells of its rows.
    brings: bool = False
    # Whether it names them by the same letters.
    is_exact: bool = True


class Statement(NamedTuple):
    """A statement in a log."""

    file: str
    # Where its event begins.
    position: int
    # The default schema of its session, or an empty text.
    schema: str
    text: str
    # Where its unit begins: its GTID event, where there is one.
    unit: int = 0

    @property
    def token(self) -> str:
        """The place of its unit."""
        return f"{self.unit}.0@{self.file}"

    def shown(self, most: int = MOST_SHOWN) -> str:
        """Its text, or so many characters of it, in one line."""
        words = " ".join(self.text.split())
        return f"{words[:most]}{' ..' if len(words) > most else ''}"

    def __str__(self) -> str:
        """For people: a line."""
        return f"{self.shown()} ({self.file}, position {self.position})"

    def effect(self, wanted: Wanted) -> Effect | None:
        """What it does to the rows or columns of these tables; None where that is nothing."""
        if self.text == "BEGIN":
            return None
        text = without_comments(self.text)
        if found := OF_TABLE.match(text):
            what = found["what"].split()[0].upper()
            tables = self._tables(found["tables"])
            return self._altered(tables, text[found.end() :], wanted) if what == ALTER else effect_on(what, tables, wanted)
        if found := OF_NAMES.match(text):
            pairs = PAIR.findall(found["pairs"])
            return renamed([(self._table(*pair[:2]), self._table(*pair[2:])) for pair in pairs], wanted)
        if found := OF_SCHEMA.match(text):
            schema = plain(found["schema"])
            return Effect(DROP_DATABASE) if schema.lower() == wanted.schema.lower() else None
        return Effect(ROWS) if OF_ROWS.match(text) and self._may_change(text, wanted) else None

    def _altered(self, tables: list[tuple[str, str]], rest: str, wanted: Wanted) -> Effect | None:
        """What an ALTER TABLE does, by what stands behind its table."""
        if KEYS_ALONE.match(rest):
            return None
        if found := EXCHANGED.search(rest):
            tables = [*tables, self._table(found[1], found[2])]
        if (found := NEW_NAME.search(rest)) and not any(map(wanted.has, tables)):
            return renamed([(tables[0], self._table(found[1], found[2]))], wanted)
        return effect_on(ALTER, tables, wanted)

    def _may_change(self, text: str, wanted: Wanted) -> bool:
        """Whether a statement that changes rows has the names of a table that is wanted among its words."""
        names = set(re.findall(r"[\w$]+", text))
        only = [name for name in wanted.only_tables.split(",") if name]
        return (self.schema == wanted.schema or wanted.schema in names) and (not only or not names.isdisjoint(only))

    def _tables(self, names: str) -> list[tuple[str, str]]:
        """The tables that names stand for, with their schemas."""
        return [self._table(first, second) for first, second in re.findall(TABLE, names)]

    def _table(self, first: str, second: str | None) -> tuple[str, str]:
        """A table by its name, or by its schema's and its own, with its schema."""
        return (plain(first), plain(second)) if second else (self.schema, plain(first))


def without_comments(text: str) -> str:
    """A statement's text without comments and texts, so that it begins with its first word."""
    return NO_WORDS.sub(lambda found: found[1] or " ", text).strip()


def first_word(text: str) -> str:
    """The first word of a statement in capital letters; nothing where it has none."""
    found = FIRST_WORD.search(without_comments(text[:MOST_READ]))
    return found[0].upper() if found else ""


def effect_on(what: str, tables: Sequence[tuple[str, str]], wanted: Wanted) -> Effect | None:
    """What a statement does that names these tables."""
    found = [table for table in tables if wanted.has(table)]
    return Effect(what, tuple(name for _, name in found), is_exact=all(map(wanted.has_exactly, found))) if found else None


def renamed(pairs: Sequence[tuple[tuple[str, str], tuple[str, str]]], wanted: Wanted) -> Effect | None:
    """What a statement does that gives tables other names."""
    old = [before for before, _ in pairs if wanted.has(before)]
    brought = [after for before, after in pairs if wanted.has(after) and not wanted.has(before)]
    return Effect(RENAME, tuple(name for _, name in [*old, *brought]), bool(brought)) if old or brought else None


def plain(name: str) -> str:
    """A name without its quotes."""
    quote = name[0]
    return name[1:-1].replace(quote * 2, quote) if quote in "`\"" else name


class Statements:
    """The statements of logs that grow, each once.

    The program's lines aren't enough: they have none of those within transactions, and a run that begins where a statement does
    leaves that one out.
    """

    def __init__(self, file: str | None = None, position: int = 0, is_behind: bool = False) -> None:
        """Those from a position of a file on, or else all. Where they are to stand behind the unit at that position, not its own."""
        self._file, self._position = file, max(position, len(MAGIC))
        # Where the unit begins that an event stands in, and the one whose statement was taken.
        self._unit: int | None = None
        self._taken = position if is_behind else None

    def of(self, logs: Sequence[Path], until: tuple[str, int] | None = None) -> Iterator[Statement]:
        """The statements of these logs that are new, or those of them that end at a place at most, which is in one of the logs.

        The first log is the one that was read last, or one behind it.
        """
        names = [log.name for log in logs]
        first = names.index(self._file) if self._file in names else 0
        last, end = (names.index(until[0]), until[1]) if until else (len(logs) - 1, None)
        for number in range(first, last + 1):
            if names[number] != self._file:
                self._file, self._position, self._unit, self._taken = names[number], len(MAGIC), None, None
            yield from self._in(logs[number], end if number == last else None)

    def _in(self, log: Path, end: int | None) -> Iterator[Statement]:
        """The statements of a log behind the place, up to the last event that is whole, or ends at a position at most."""
        try:
            with open(log, "rb") as file:
                size = os.fstat(file.fileno()).st_size
                checked = _are_checked(file, size)
                size = size if end is None else min(size, end)
                while header := _header_at(file, self._position, size):
                    position, self._position = self._position, self._position + header.length
                    if header.kind in GTIDS:
                        self._unit = position
                    if header.kind == QUERY:
                        unit = position if self._unit is None else self._unit
                        length = header.length - HEADER_LENGTH
                        body = file.read(min(length, MOST_READ))
                        body = body[:-CHECKSUM] if checked and len(body) == length else body
                        if unit != self._taken:
                            yield _statement(log.name, position, body, unit)
        except OSError as error:
            raise FileFault(f"binlogfeed: cannot open {log}").hinted(error.strerror) from error


def _header_at(file: BinaryIO, position: int, size: int) -> Optional[Header]:
    """The header of the event at a position of a log with so many bytes, and the file behind it; None where the event isn't whole."""
    if position + HEADER_LENGTH > size:
        return None
    file.seek(position)
    header = header_of(file.read(HEADER_LENGTH))
    return header if HEADER_LENGTH <= header.length <= size - position else None


def _are_checked(file: BinaryIO, size: int) -> bool:
    """Whether a log's events have checksums, by its first one."""
    first = _header_at(file, len(MAGIC), size)
    if first is None or first.length > MOST_READ:
        return False
    file.seek(len(MAGIC))
    return has_checksums(file.read(first.length))


def _statement(file: str, position: int, body: bytes, unit: int) -> Statement:
    """The statement of a query event."""
    _, _, schema_length, _, variables = FRONT.unpack_from(body.ljust(FRONT.size, b"\0"))
    begin = FRONT.size + variables
    schema, text = body[begin : begin + schema_length], body[begin + schema_length + 1 :]
    return Statement(file, position, schema.decode("utf-8", "replace"), text.decode("utf-8", "replace"), unit)
