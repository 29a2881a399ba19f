"""JSON documents of a server's log, with what the server says of each (tests/documents): full lines have each document, and plain lines
have its bytes.

The server shows some values otherwise than a line has them: a double in another spelling, and bytes as a string. What a line has for them
is worked out by the rules of docs/FORMAT.md.
"""
from __future__ import annotations

import base64
import json
import re
from collections.abc import Iterator
from functools import cache
from pathlib import Path
from typing import NamedTuple

from built.check import Check, Wanted, differs, run, text_differs
from built.json_binary import Number
from built.server_logs import TOP, logs_of

DOCUMENTS = TOP / "tests/documents"
# The log has so many documents at least that differ, and so many that a change in place has left with a gap.
DISTINCT, GAPS = 400, 80
# How many reasons a check gives, and how much of a value it shows.
REASONS, SHOWN = 8, 300

# The server's word for bytes: their column type, and base64 in lines of 76 characters.
CODED = re.compile(r"base64:type(\d+):([A-Za-z0-9+/=\n]*)")
# The column type of texts that functions of JSON take as bytes. The server shows these as a string of the same bytes.
VAR_STRING = 253

Json = object


class Members(NamedTuple):
    """An object of JSON: its members in their order, equal ones, too."""

    pairs: tuple[tuple[str, Json], ...]


class Told(NamedTuple):
    """What the server says of a row behind a change: its table and `id`; the document's type, its size in bytes, how many of them are free,
    and its text; the types of numbers and strings that the text alone doesn't tell, by their paths."""

    table: str
    id: int
    type: str
    size: int
    free: int
    text: str
    kinds: dict[str, str] = {}


class Line(NamedTuple):
    """What a line says of a change: the table, the row's `id`, and the document before and behind it."""

    table: str
    id: Json
    before: Json
    after: Json


def parsed(text: bytes | str) -> Json:
    """A text of JSON: numbers by their texts, and objects with the order of their members."""
    return json.loads(
        text, parse_int=Number, parse_float=Number, parse_constant=Number, object_pairs_hook=lambda pairs: Members(tuple(pairs))
    )  # fmt: skip


def coded(raw: bytes, kind: int) -> Json:
    """What a line has for bytes of a column type."""
    return Members((("base64", base64.b64encode(raw).decode()), ("type", Number(str(kind)))))


def number(text: str, kind: str | None) -> Number:
    """What a line has for a number that is shown so: all digits of an integer and of a DECIMAL, the shortest ones of a double."""
    exact = kind == "DECIMAL" or re.fullmatch("-?[0-9]+", text)
    return Number(text if exact else repr(float(text)))


def string(text: str, kind: str | None) -> Json:
    """What a line has for a string that is shown so, or for bytes."""
    if kind is None:
        return text
    found = CODED.fullmatch(text)
    if found is None:
        return coded(text.encode(errors="surrogateescape"), VAR_STRING)
    return coded(base64.b64decode(found[2].replace("\n", ""), validate=True), int(found[1]))


def wanted(value: Json, kinds: dict[str, str], path: str = "$") -> Json:
    """What a line has for a value that the server shows so, at this path."""
    if isinstance(value, Number):
        return number(value.text, kinds.get(path))
    if isinstance(value, str):
        return string(value, kinds.get(path))
    if isinstance(value, list):
        return [wanted(part, kinds, f"{path}[{at}]") for at, part in enumerate(value)]
    if isinstance(value, Members):
        named = ((name, f"{path}.{json.dumps(name, ensure_ascii=False)}", part) for name, part in value.pairs)
        return Members(tuple((name, wanted(part, kinds, place)) for name, place, part in named))
    return value


def strings(value: Json) -> Iterator[str]:
    """The strings of a document, and its keys."""
    if isinstance(value, str):
        yield value
    elif isinstance(value, list):
        for part in value:
            yield from strings(part)
    elif isinstance(value, Members):
        for name, part in value.pairs:
            yield name
            yield from strings(part)


def is_text(value: Json) -> bool:
    """Whether all strings of a document are UTF-8. Bytes that aren't stand in a string as surrogates."""
    return not any("\ud800" <= character <= "\udfff" for text in strings(value) for character in text)


def document(told: Told, raw: Json) -> Json:
    """What a full line has for a document: the bytes of the plain line where they are no document, since a string isn't UTF-8."""
    found = wanted(parsed(told.text), told.kinds)
    return found if is_text(found) else raw


def raw_reasons(told: Told, raw: Json) -> list[str]:
    """What is wrong with the bytes that a plain line has: the server says how many they are."""
    if not isinstance(raw, Members) or [name for name, _ in raw.pairs] != ["raw"]:
        return [f"the plain line has {str(raw)[:SHOWN]}"]
    size = len(base64.b64decode(str(raw.pairs[0][1]), validate=True))
    return [] if size == told.size else [f"the plain line has {size} bytes, and the server says {told.size}"]


def judged(told: list[Told], full: list[Line], plain: list[Line]) -> list[str]:
    """What is wrong with lines of changes of which the server told this."""
    if len(full) != len(told) or len(plain) != len(told):
        return [f"there are {len(full)} full lines and {len(plain)} plain ones, and the server tells of {len(told)} changes"]
    reasons = []
    stand: dict[tuple[str, int], tuple[Json, Json]] = {}
    for true, line, other in zip(told, full, plain):
        place = f"{true.table} {true.id}"
        before = stand.get((true.table, true.id), (None, None))
        after = document(true, other.after), other.after
        stand[true.table, true.id] = after
        reasons += [f"{place}: {reason}" for reason in raw_reasons(true, other.after)]
        for what, came, right in (("full", line, 0), ("plain", other, 1)):
            right_line = Line(true.table, Number(str(true.id)), before[right], after[right])
            reasons += text_differs(f"{place}, the {what} line", repr(came).encode(), repr(right_line).encode())
    return reasons[:REASONS]


@cache
def server_says() -> list[Told]:
    """What the server says, in the order of the log."""
    lines = (DOCUMENTS / "documents.jsonl").read_bytes().splitlines()
    return [Told(**json.loads(line)) for line in lines]


def line_of(text: bytes) -> Line:
    """A line of a log whose tables have the columns `id` and `doc`."""
    line = dict(parsed(text).pairs)
    before, after = (dict(line[image].pairs) if line[image] else {} for image in ("before", "after"))
    return Line(line["table"], after.get("id"), before.get("doc"), after.get("doc"))


def lines_of(program: Path, folder: Path, *options: str) -> tuple[list[Line], list[str]]:
    """The lines of the log, and what is wrong with the run."""
    came = run(program, ["read", *options, *logs_of(DOCUMENTS)], folder)
    return [line_of(line) for line in came.stdout.splitlines()], differs(came, Wanted(0, None))


def judge_documents(program: Path, folder: Path) -> list[str]:
    """Each document is the server's, in full lines, and its bytes stand in plain ones."""
    full, reasons = lines_of(program, folder, "--full")
    plain, more = lines_of(program, folder)
    return reasons + more + judged(server_says(), full, plain)


def judge_nulls(program: Path, folder: Path) -> list[str]:
    """A full line names the documents of which the server says that they are the JSON null, and no others."""
    came = run(program, ["read", "--full", *logs_of(DOCUMENTS)], folder)
    lines, told = [json.loads(line) for line in came.stdout.splitlines()], server_says()
    reasons = differs(came, Wanted(0, None)) + ([] if len(lines) == len(told) else [f"there are {len(lines)} lines"])
    types: dict[tuple[str, int], str] = {}
    for line, said in zip(lines, told):
        row = (said.table, said.id)
        sides = {"after": said.type, "before": types.get(row) if line["before"] else None}
        named = [f"{side}.doc" for side, kind in sides.items() if kind == "NULL"]
        types[row] = said.type
        if line.get("json_null", []) != named:
            reasons.append(f"{line['token']}: the JSON nulls are {line.get('json_null')}, wanted {named}")
    return reasons[:REASONS] + ([] if any("json_null" in line for line in lines) else ["no line names one"])


def judge_told(_program: Path, _folder: Path) -> list[str]:
    """The server tells of enough documents, of changes in place, and of values of each kind."""
    told = server_says()
    distinct, gaps = len({true.text for true in told}), sum(true.free > 0 for true in told)
    kinds = {kind for true in told for kind in true.kinds.values()} | {true.type for true in told}
    reasons = [] if distinct >= DISTINCT else [f"{distinct} documents differ, and {DISTINCT} have to"]
    reasons += [] if gaps >= GAPS else [f"{gaps} documents have a gap, and {GAPS} have to"]
    missing = {"ARRAY", "BIT", "BLOB", "BOOLEAN", "DECIMAL", "DOUBLE", "INTEGER", "NULL", "OBJECT", "STRING", "UNSIGNED INTEGER"} - kinds
    return reasons + ([f"no value is of the kind {', '.join(sorted(missing))}"] if missing else [])


# Texts of the server with the types that they don't tell, what a line has, and whether that is right.
SHOWN_DOCUMENTS = (
    ("[1, -0.0]", {}, "[1,-0.0]", True), ("[1]", {}, "[1.0]", False), ("1e22", {}, "1e+22", True), ("1e22", {}, "1e22", False),
    ("0.1", {}, "0.10000000000000002", False), ("0.00001", {}, "1e-05", True), ("0.00001", {"$": "DECIMAL"}, "0.00001", True),
    ("0.00001", {"$": "DECIMAL"}, "1e-05", False), ("[1.50]", {"$[0]": "DECIMAL"}, "[1.50]", True),
    ("[1.50]", {"$[0]": "DECIMAL"}, "[1.5]", False), ("[1]", {"$[0]": "DECIMAL"}, '[{"base64":"AwCAAQ==","type":246}]', False),
    ("[-1]", {"$[0]": "DECIMAL"}, '[{"base64":"SAB//////////////////////////////////////////g==","type":246}]', False),
    ("0.1234567890123456789012345678901", {"$": "DECIMAL"}, '{"base64":"IB+AB1vNFQC8YU41t7+HIsU=","type":246}', False),
    ("0.1234567890123456789012345678901", {"$": "DECIMAL"}, "0.1234567890123456789012345678901", True),
    ("0.1234567890123456789012345678901", {"$": "DECIMAL"}, "0.1234567890123456789012345678902", False),
    ('{"a": 1, "b": 2}', {}, '{"a":1,"b":2}', True), ('{"a": 1, "b": 2}', {}, '{"b":2,"a":1}', False),
    ('{"a": 1}', {}, '{"a":1,"a":1}', False), ("[]", {}, "{}", False), ("null", {}, "null", True), ("true", {}, "1", False),
    ('"é\\n"', {}, '"é\\n"', True), ('"é"', {}, '"e"', False), ('["\udce9"]', {}, '{"raw":"BQEA"}', True),
    ('["é"]', {}, '{"raw":"BQEA"}', False),
    ('["base64:type15:yv4="]', {}, '["base64:type15:yv4="]', True), ('["base64:type15:yv4="]', {}, '[{"base64":"yv4=","type":15}]', False),
    ('["base64:type15:yv4="]', {"$[0]": "BLOB"}, '[{"base64":"yv4=","type":15}]', True),
    ('["base64:type15:yv4="]', {"$[0]": "BLOB"}, '[{"base64":"yv4=","type":252}]', False),
    ('{"a": "base64:type16:\\nAQ=="}', {'$."a"': "BIT"}, '{"a":{"base64":"AQ==","type":16}}', True),
    ('["\\u0000\udce9"]', {"$[0]": "BLOB"}, '[{"base64":"AOk=","type":253}]', True),
)  # fmt: skip


def judge_judge(_program: Path, _folder: Path) -> list[str]:
    """The judge finds right documents right, and wrong ones wrong."""
    raw = parsed('{"raw":"BQEA"}')
    reasons = []
    for text, kinds, shown, right in SHOWN_DOCUMENTS:
        told = [Told("t", 1, "", 3, 0, text, kinds)]
        found = judged(told, [Line("t", Number("1"), None, parsed(shown))], [Line("t", Number("1"), None, raw)])
        if (found == []) != right:
            reasons.append(f"{text} as {shown}, with {kinds}: {found}")
    return reasons


def checks() -> list[Check]:
    """The checks of a server's documents, and of their judge."""
    return [
        Check("the documents of a server", judge_documents),
        Check("the JSON nulls of a server", judge_nulls),
        Check("what the server tells of documents", judge_told),
        Check("the judge of documents", judge_judge),
    ]
