"""A server's tables of all types, with what it says that they hold (tests/truth): each value of a full line is the server's, and is
read with nothing but its line."""
from __future__ import annotations

import base64
import json
import re
import struct
from collections import Counter
from collections.abc import Callable, Iterator
from decimal import Decimal
from functools import cache, partial
from pathlib import Path
from typing import NamedTuple

from built.charsets import characters
from built.check import Check, Wanted, differs, run
from built.server_logs import logs_of

TOP = Path(__file__).resolve().parents[2]
TRUTH = TOP / "tests/truth"

# How many values a check names: a program that is wrong at one value is so at many.
NAMED = 20
# How much of a value is shown.
SHOWN = 120

# The character sets whose texts are strings, and Python's codecs for those whose bytes are told.
STRINGS = ("utf8mb4", "utf8mb3", "ascii", "utf16", "utf16le", "utf32", "ucs2", *characters())
CODECS = {"big5": "big5", "euckr": "euc-kr", "gbk": "gbk", "sjis": "shift_jis"}

# The types whose texts have the size that a statement declares.
SIZED = ("decimal", "bit", "binary", "varbinary", "time", "datetime", "timestamp")
# A column of a statement: its name, its type, what stands in parentheses, its sign and its character set.
DECLARED = re.compile(
    r"`(\w+)` ([A-Z]+)(\((?:[^'()]|'(?:[^'\\]|''|\\.)*')*\))?( UNSIGNED)?(?: CHARACTER SET (\w+))?", re.DOTALL
)

Json = object
Line = dict[str, Json]


class WrongError(Exception):
    """A value that isn't in its documented form."""


class OpenError(Exception):
    """A value that can only be read by who knows more of its column than the line tells."""


class Cell(NamedTuple):
    """A value: its column's kind, its type by the line, what the line has, and what the server says."""

    kind: str
    type: str
    value: Json
    true: str | None


class Table(NamedTuple):
    """The truth about a table: the kind of each column, and of each row, by its `id`, what the server says. The `id` isn't among them."""

    kinds: dict[str, str]
    rows: dict[str, dict[str, str | None]]


Truth = dict[str, Table]


def whole(value: Json, _type: str) -> int:
    """A whole number."""
    if not isinstance(value, int) or isinstance(value, bool):
        raise WrongError
    return value


def string(value: Json, _type: str) -> str:
    """A string, as decimals, dates and times are."""
    if not isinstance(value, str):
        raise WrongError
    return value


def coded(value: Json, name: str) -> bytes:
    """The bytes of an object that has them in base64 under this name."""
    if not isinstance(value, dict) or not isinstance(value.get(name), str):
        raise WrongError
    return base64.b64decode(value[name], validate=True)


def only(value: Json, names: set[str]) -> None:
    """An object has these members, and no others. Without the character set it stays open what its bytes say."""
    if not isinstance(value, dict) or not set(value) <= names:
        raise WrongError
    if set(value) != names:
        raise OpenError


def decoded(raw: bytes, charset: str) -> str:
    """A text in a character set. MySQL's sjis has the backslash at 81 5f, where Python's has a wide one."""
    found = raw.decode(CODECS[charset])
    return found.replace("\uff3c", "\\") if charset == "sjis" else found


def text(value: Json, type_text: str) -> str:
    """A text by its character set: of a column, or of the names of an ENUM or a SET. A SET without a member is no bytes, and may be an
    empty string in any character set."""
    word, _, charset = type_text.partition(" ")
    if not charset:
        raise OpenError
    if charset in STRINGS or (value == "" and word == "set"):
        return string(value, type_text)
    only(value, {"base64", "charset"})
    if value["charset"] != charset:
        raise WrongError
    return decoded(coded(value, "base64"), charset)


def content(value: Json, type_text: str) -> bytes:
    """The bytes of a binary column."""
    if "binary" not in type_text and "blob" not in type_text:
        raise OpenError
    only(value, {"base64"})
    return coded(value, "base64")


def fraction(value: Json, type_text: str) -> float:
    """A FLOAT or a DOUBLE."""
    if not isinstance(value, float):
        raise WrongError
    code = {"float": "<f", "double": "<d"}.get(type_text.split(" ")[0])
    if code is None:
        raise OpenError
    return struct.unpack(code, struct.pack(code, value))[0]


def document(value: Json, type_text: str) -> str:
    """A JSON document, as a text that is the same for equal ones."""
    if type_text != "json":
        raise OpenError
    return json.dumps(value, sort_keys=True)


def told_text(true: str) -> str:
    """A text that the server told."""
    return bytes.fromhex(true).decode()


def told_document(true: str) -> str:
    """A JSON document that the server told."""
    return json.dumps(json.loads(true), sort_keys=True)


class Kind(NamedTuple):
    """How a line's value is read by its type, and how the server's is."""

    of_line: Callable[[Json, str], object]
    of_server: Callable[[str], object]


KINDS = {
    "int": Kind(whole, int),
    "bit": Kind(whole, int),
    "decimal": Kind(lambda value, type_text: Decimal(string(value, type_text)), Decimal),
    "float": Kind(fraction, float),
    "text": Kind(text, told_text),
    "enum": Kind(text, told_text),
    "set": Kind(text, told_text),
    "bytes": Kind(content, bytes.fromhex),
    "json": Kind(document, told_document),
    **dict.fromkeys(("year", "date", "datetime", "time", "timestamp"), Kind(string, str)),
}


def verdict(cell: Cell) -> str:
    """Whether a value is right, wrong or open."""
    kind = KINDS[cell.kind]
    if cell.true is None or (cell.value is None and cell.kind != "json"):
        return "right" if cell.value is None and cell.true is None else "wrong"
    try:
        return "right" if kind.of_line(cell.value, cell.type) == kind.of_server(cell.true) else "wrong"
    except OpenError:
        return "open"
    except (WrongError, ValueError, struct.error):
        return "wrong"


def judged_values(line: Line, table: Table, true: dict[str, str | None]) -> Iterator[tuple[str, str]]:
    """The verdict on each column of a row, with what there is to say of it. A column that isn't there is wrong."""
    row, types = line["after"], line["types"]
    for name, told in true.items():
        place = f"{line['table']}.{name} of row {row['id']}"
        if name not in row or name not in types:
            yield "wrong", f"{place} isn't there"
            continue
        how = verdict(Cell(table.kinds[name], types[name], row[name], told))
        yield how, f"{place}, {types[name]}, is {how}: {json.dumps(row[name])[:SHOWN]}, and the server says {str(told)[:SHOWN]}"


def rows_told(lines: list[Line], truth: Truth) -> list[str]:
    """Each row has one line, and each line is the insert of a row."""
    told = Counter((line["table"], str(line["after"]["id"])) for line in lines if line["kind"] == "insert")
    rows = {(name, row) for name, table in truth.items() for row in table.rows}
    reasons = [f"row {row} of {name} isn't there" for name, row in sorted(rows - set(told))]
    reasons += [f"row {row} of {name} is none of the server's" for name, row in sorted(set(told) - rows)]
    reasons += [f"row {row} of {name} is there {count} times" for (name, row), count in told.items() if count > 1]
    return reasons + [f"{line['token']} is no insert" for line in lines if line["kind"] != "insert"]


def judged_lines(lines: list[Line], truth: Truth) -> list[str]:
    """What is wrong with full lines, whose tables hold this: the rows, then values, and how many were right, wrong and open."""
    reasons = rows_told(lines, truth)
    verdicts = [
        judgement
        for line in lines
        if (table := truth.get(line["table"])) and (true := table.rows.get(str((line["after"] or {}).get("id"))))
        for judgement in judged_values(line, table, true)
    ]
    counts = Counter(how for how, _ in verdicts)
    bad = [reason for how, reason in verdicts if how != "right"]
    if bad:
        reasons += [*bad[:NAMED], f"{counts['right']} values are right, {counts['wrong']} wrong, {counts['open']} open"]
    return reasons


@cache
def server_truth() -> Truth:
    """What the server says that its tables hold."""
    tables = json.loads((TRUTH / "truth.json").read_text(encoding="utf-8"))
    return {name: Table(**table) for name, table in tables.items()}


def full_lines(program: Path, folder: Path) -> tuple[list[Line], list[str]]:
    """The full lines of the server's log, and what is wrong with the run."""
    came = run(program, ["read", "--full", *logs_of(TRUTH)], folder)
    return [json.loads(line) for line in came.stdout.splitlines()], differs(came, Wanted(0, None))


def judge_values(program: Path, folder: Path) -> list[str]:
    """Each value of each row is right."""
    lines, reasons = full_lines(program, folder)
    return reasons + judged_lines(lines, server_truth())


def declared_type(word: str, size: str, sign: str, charset: str) -> str:
    """The text of a type that a statement declares. A fraction of no digits isn't named."""
    name = word.lower()
    sized = f"{name}{size}" if name in SIZED and size != "(0)" else name
    return f"{sized}{sign.lower()}{charset and ' '}{charset}"


def declared_types() -> dict[str, dict[str, str]]:
    """The types of each table's columns, by the statement that made it."""
    statements = (TRUTH / "fill.sql").read_text(encoding="utf-8")
    found = {}
    for name, columns in re.findall(r"^CREATE TABLE (\w+) \(id INT PRIMARY KEY, (.*)$", statements, re.MULTILINE):
        found[name] = {"id": "int", **{column[0]: declared_type(*column[1:]) for column in DECLARED.findall(columns)}}
    return found


def judge_types(program: Path, folder: Path) -> list[str]:
    """The types and the key of each line are those that the statements declare."""
    lines, reasons = full_lines(program, folder)
    declared = declared_types()
    seen = {}
    for line in lines:
        if seen.setdefault(line["table"], line["types"]) != line["types"]:
            reasons.append(f"{line['token']}: other types than before")
        if line["key"] != ["id"]:
            reasons.append(f"{line['token']}: the key is {line['key']}")
    for name, types in declared.items():
        came = seen.get(name, {})
        reasons += [f"{name}.{column} is {came.get(column)}, wanted {wanted}" for column, wanted in types.items() if came.get(column) != wanted]
        reasons += [f"{name}.{column} isn't declared" for column in came if column not in types]
    return reasons + ([] if declared.keys() == server_truth().keys() else ["the statements don't make these tables"])


# Values that show that the judge can find each of them wrong or open: how one is found, and the value.
SHOWN_VALUES = (
    ("right", Cell("int", "bigint", -5, "-5")),
    ("wrong", Cell("int", "bigint", 18446744073709551611, "-5")),
    ("wrong", Cell("int", "bigint", "-5", "-5")),
    ("wrong", Cell("int", "int", None, "0")),
    ("wrong", Cell("int", "int", 0, None)),
    ("right", Cell("int", "int", None, None)),
    ("wrong", Cell("bit", "bit(1)", True, "1")),
    ("wrong", Cell("decimal", "decimal(3,2)", 3.14, "3.14")),
    ("wrong", Cell("year", "year", 2024, "2024")),
    ("wrong", Cell("time", "time", "00:00:01", "-00:00:01")),
    ("right", Cell("float", "float", 0.1, "0.10000000149011612")),
    ("wrong", Cell("float", "float", 0.1, "0.1")),
    ("wrong", Cell("float", "double", 0.1, "0.10000000149011612")),
    ("open", Cell("float", "", 0.1, "0.10000000149011612")),
    ("right", Cell("text", "varchar latin1", "é", "C3A9")),
    ("wrong", Cell("text", "text latin1", "é", "C383C2A9")),
    ("wrong", Cell("text", "varchar utf16", {"base64": "AOk=", "charset": "utf16"}, "C3A9")),
    ("right", Cell("text", "varchar gbk", {"base64": "1tA=", "charset": "gbk"}, "E4B8AD")),
    ("wrong", Cell("text", "varchar gbk", {"base64": "1tE=", "charset": "gbk"}, "E4B8AD")),
    ("wrong", Cell("text", "varchar gbk", {"base64": "1tA=", "charset": "big5"}, "E4B8AD")),
    ("wrong", Cell("text", "varchar gbk", "中", "E4B8AD")),
    ("open", Cell("text", "varchar gbk", {"base64": "1tA="}, "E4B8AD")),
    ("open", Cell("text", "varchar", {"base64": "1tA="}, "E4B8AD")),
    ("right", Cell("text", "varchar sjis", {"base64": "gV8=", "charset": "sjis"}, "5C")),
    ("right", Cell("enum", "enum utf8mb4", "é", "C3A9")),
    ("wrong", Cell("enum", "enum utf8mb4", 1, "C3A9")),
    ("wrong", Cell("set", "set utf16", "\0a,\0b", "612C62")),
    ("open", Cell("set", "set gbk", {"base64": "1tAsYg=="}, "E4B8AD2C62")),
    ("right", Cell("bytes", "binary(4)", {"base64": "AP8AAA=="}, "00FF0000")),
    ("wrong", Cell("bytes", "binary(4)", {"base64": "AP8="}, "00FF0000")),
    ("wrong", Cell("bytes", "varbinary(4)", "é", "C3A9")),
    ("open", Cell("bytes", "varchar", {"base64": "w6k="}, "C3A9")),
    ("right", Cell("json", "json", {"b": [1.0], "a": "é"}, '{"a": "\\u00e9", "b": [1.0]}')),
    ("right", Cell("json", "json", None, "null")),
    ("right", Cell("json", "json", None, None)),
    ("wrong", Cell("json", "json", None, "0")),
    ("wrong", Cell("json", "json", 0, None)),
    ("wrong", Cell("json", "json", True, "1")),
    ("wrong", Cell("json", "json", 1.0, "1")),
    ("wrong", Cell("json", "json", "1", "1")),
    ("wrong", Cell("json", "json", {"raw": "BQEA"}, "1")),
    ("open", Cell("json", "", 1, "1")),
)  # fmt: skip

# A table of two rows, and full lines of it that are right.
SMALL = {"t": Table({"c": "int"}, {"1": {"c": "7"}, "2": {"c": None}})}
SMALL_LINES: list[Line] = [
    {"after": {"c": value, "id": row}, "kind": "insert", "table": "t", "token": f"4.{row}@log", "types": {"c": "int", "id": "int"}}
    for row, value in ((1, 7), (2, None))
]
ONE, TWO = SMALL_LINES
# Other lines, with the first thing that is wrong with them.
SHOWN_LINES = (
    ([ONE], "row 2 of t isn't there"),
    ([ONE, TWO, TWO], "row 2 of t is there 2 times"),
    ([ONE, TWO, {**ONE, "after": {"c": 7, "id": 3}}], "row 3 of t is none of the server's"),
    ([ONE, TWO, {**ONE, "kind": "update"}], "4.1@log is no insert"),
    ([ONE, {**TWO, "after": {"id": 2}}], "t.c of row 2 isn't there"),
    ([{**ONE, "types": {"id": "int"}}, TWO], "t.c of row 1 isn't there"),
    ([{**ONE, "after": {"c": 8, "id": 1}}, TWO], "t.c of row 1, int, is wrong: 8, and the server says 7"),
)


def judge_verdict(wanted: str, cell: Cell, _program: Path, _folder: Path) -> list[str]:
    """The judge finds a value so."""
    how = verdict(cell)
    return [] if how == wanted else [f"{cell} is {how}, wanted {wanted}"]


def judge_lines(_program: Path, _folder: Path) -> list[str]:
    """The judge finds nothing wrong with right lines, and what is wrong with others."""
    reasons = judged_lines(SMALL_LINES, SMALL)
    for lines, wanted in SHOWN_LINES:
        found = judged_lines(lines, SMALL)
        reasons += [] if found[:1] == [wanted] else [f"found {found}, wanted {wanted}"]
    return reasons


def checks() -> list[Check]:
    """The checks of the truth, and of its judge."""
    return [
        Check("the values of all types", judge_values),
        Check("the types and keys that statements declare", judge_types),
        Check("the judge of lines", judge_lines),
        *[Check(f"the judge of values: {cell.type or 'no type'} {cell.value}", partial(judge_verdict, how, cell)) for how, cell in SHOWN_VALUES],
    ]
