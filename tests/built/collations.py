"""The character set of each collation that a server has (tests/collations.tsv), by a table of one VARCHAR column for each: its type in
full lines, and what its bytes are there."""
from __future__ import annotations

import json
from functools import cache, partial
from pathlib import Path
from typing import NamedTuple

import logs
from built.charsets import characters
from built.check import Check, Wanted, differs, run
from logs import CHARSETS, USUAL_CHARSET, VARCHAR, field, log_of, packed, put, rows, table_map, transaction

COLLATIONS = Path(__file__).resolve().parents[1] / "collations.tsv"

# Ids that no server's collation has. Those below the last two bytes of some are a collation's: 65,544 ends in 8, latin1's.
UNKNOWN = (0, 17, 400, 65_544, 70_000, 2**24 + 8, 2**32 + 8)

# The bytes of each column, and the text that they are in the character sets whose texts are strings. In UTF-16 they are two characters.
BYTES = b"\0\0\0a"
TEXTS = {
    **dict.fromkeys(("utf8mb4", "utf8mb3", "ascii", *characters()), "\0\0\0a"),
    "utf16": "\0a", "ucs2": "\0a", "utf16le": "\0\u6100", "utf32": "a",
}  # fmt: skip
CODED = "AAAAYQ=="

VARCHAR_LENGTH, LATIN1_ID = 80, 8


class Column(NamedTuple):
    """A column: its name, its collation's id, and the character set of that, where there is one."""

    name: str
    collation: int
    charset: str | None

    def type(self) -> str:
        """The text of its type."""
        if self.charset is None:
            return "varchar"
        return f"varbinary({VARCHAR_LENGTH})" if self.charset == "binary" else f"varchar {self.charset}"

    def value(self) -> object:
        """What the bytes are in a full line."""
        if self.charset in TEXTS:
            return TEXTS[self.charset]
        named = self.charset not in (None, "binary")
        return {"base64": CODED, "charset": self.charset} if named else {"base64": CODED}


@cache
def columns() -> list[Column]:
    """A column for each collation, and one for each id that none has."""
    lines = [line.split("\t") for line in COLLATIONS.read_text(encoding="utf-8").splitlines()]
    known = [Column(name, int(number), charset) for number, charset, name in lines]
    return known + [Column(f"no collation {number}", number, None) for number in UNKNOWN]


def each() -> bytes:
    """The field that has a collation for each column."""
    return field(CHARSETS, b"".join(packed(column.collation) for column in columns()))


def usual() -> bytes:
    """The field that has a usual collation, latin1's, and those of the columns that have another one."""
    others = [(at, column.collation) for at, column in enumerate(columns()) if column.collation != LATIN1_ID]
    return field(USUAL_CHARSET, packed(LATIN1_ID) + b"".join(packed(at) + packed(collation) for at, collation in others))


def log(collations: bytes) -> bytes:
    """A log that inserts one row into the table `s.c` of these columns, whose collations a field says."""
    mapped = [logs.Column(column.name, VARCHAR, VARCHAR_LENGTH.to_bytes(2, "little")) for column in columns()]
    nulls = bytes((len(mapped) + 7) // 8)
    inserted = rows(len(mapped), logs.counted(BYTES) * len(mapped), nulls=nulls)
    return log_of([transaction(1, table_map(mapped, collations, logs.names_of(mapped), table="s.c"), inserted)])


def unlike(what: str, came: dict[str, object], wanted: dict[str, object], order: list[str]) -> list[str]:
    """Each column whose type or value isn't the one that was wanted; or the order of the columns, if it is another."""
    reasons = [f"the {what} of {name} is {came.get(name)}, wanted {text}" for name, text in wanted.items() if came.get(name) != text]
    return reasons or ([] if list(came) == order else [f"the members of {what} are {list(came)}"])


def judge(collations: bytes, program: Path, folder: Path) -> list[str]:
    """The types and values of the one line: types in the order of the columns, values in that of their names."""
    put(folder, ["log"], log(collations))
    came = run(program, ["read", "--full", "log"], folder)
    reasons = differs(came, Wanted(0, None))
    lines = [json.loads(line) for line in came.stdout.splitlines()]
    if len(lines) != 1:
        return [*reasons, f"there are {len(lines)} lines"]
    names = [column.name for column in columns()]
    reasons += unlike("type", lines[0]["types"], {column.name: column.type() for column in columns()}, names)
    values = {column.name: column.value() for column in columns()}
    return reasons + unlike("value", lines[0]["after"], values, sorted(names, key=str.encode))


def checks() -> list[Check]:
    """The checks of the collations."""
    return [
        Check("the character sets of collations, one told for each column", partial(judge, each())),
        Check("the character sets of collations, a usual one and others", partial(judge, usual())),
    ]
