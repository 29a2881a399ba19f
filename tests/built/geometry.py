"""A server's tables with GEOMETRY columns in front of texts, with what it says that they hold (tests/geometry): each full line has these
values, and the types and keys that the statements declare."""
from __future__ import annotations

import base64
import json
import struct
from functools import cache
from pathlib import Path

from built.check import Check, Wanted, differs, run, text_differs
from built.server_logs import TOP, logs_of

GEOMETRY = TOP / "tests/geometry"

# The types of the tables' columns, and the columns of their keys, as the statements declare them.
TYPES = {
    "g": {
        "id": "int unsigned", "shape": "geometry", "name": "varchar latin1", "spot": "geometry", "note": "varchar utf16",
        "area": "geometry", "code": "char ascii", "kind": "enum latin1", "doc": "json", "tags": "set latin1", "raw": "varbinary(12)",
        "fixed": "binary(4)", "lines_": "geometry", "last": "text koi8r", "year_": "year", "n": "bigint unsigned", "m": "int",
    },
    "h": {"p": "geometry", "a": "varchar cp1251", "q": "geometry", "b": "char latin2", "k": "int", "c": "text latin1"},
}  # fmt: skip
KEYS = {"g": "id", "h": "k"}
# The row whose document is the JSON null: the server told that as it tells NULL.
JSON_NULL = 4_000_000_000

Row = dict[str, object]


def polygon(*points: tuple[int, int]) -> str:
    """The bytes of a polygon of one ring, in hex: no reference system, the order of bytes, the kind, how many rings and points, these."""
    numbers = (float(number) for point in points for number in point)
    return struct.pack(f"<IBIII{2 * len(points)}d", 0, 1, 3, 1, len(points), *numbers).hex()


def in_line(declared: str, told: object) -> object:
    """What a line has for a value of this type that the server told so."""
    if told is None:
        return None
    if declared == "year":
        return f"{told:04}"
    if declared == "geometry" or "binary" in declared:
        name = "raw" if declared == "geometry" else "base64"
        return {name: base64.b64encode(bytes.fromhex(str(told))).decode()}
    return told


def row(table: str, told: Row) -> Row:
    """A row as a line has it."""
    return {name: in_line(declared, told[name]) for name, declared in TYPES[table].items()}


@cache
def told_rows(table: str) -> dict[object, Row]:
    """The rows of a table as the server told them, by their keys."""
    lines = (GEOMETRY / f"{table}.jsonl").read_text(encoding="utf-8").splitlines()
    rows = map(json.loads, lines)
    return {told[KEYS[table]]: told for told in rows}


def changes() -> list[Row]:
    """What the lines say: the rows that the server told, and by the statements what was another row before."""
    rows = told_rows("g")
    first = rows[1] | {"name": "Zoë", "area": polygon((0, 0), (1, 0), (1, 1), (0, 0))}
    gone = {"p": None, "a": "яяя", "q": None, "b": "ł", "k": -5, "c": "ÿ"}
    images = (
        ("g", None, first),
        ("g", None, rows[2]),
        ("g", None, rows[JSON_NULL]),
        ("g", first, rows[1]),
        ("h", None, gone),
        ("h", None, told_rows("h")[5]),
        ("h", gone, None),
    )
    return [change(table, before, after) for table, before, after in images]


def change(table: str, before: Row | None, after: Row | None) -> Row:
    """What the line of a change says of it."""
    return {
        "kind": "insert" if before is None else "delete" if after is None else "update",
        "table": f"geo.{table}",
        "before": before and row(table, before),
        "after": after and row(table, after),
        "json_null": ["after.doc"] if after and after.get("id") == JSON_NULL else [],
        "key": [KEYS[table]],
        "types": [*TYPES[table].items()],
    }


def said_of(line: Row) -> Row:
    """What a line says of its change."""
    names = ("kind", "before", "after", "key")
    others = {"table": f"{line['schema']}.{line['table']}", "json_null": line.get("json_null", []), "types": [*line["types"].items()]}
    return {**{name: line[name] for name in names}, **others}


def judge_values(program: Path, folder: Path) -> list[str]:
    """Each change has the server's values."""
    came = run(program, ["read", "--full", *logs_of(GEOMETRY)], folder)
    lines, wanted = [json.loads(line) for line in came.stdout.splitlines()], changes()
    reasons = differs(came, Wanted(0, None))
    if len(lines) != len(wanted):
        return [*reasons, f"{len(lines)} lines, wanted {len(wanted)}"]
    for line, right in zip(lines, wanted):
        texts = (json.dumps(it, sort_keys=True, ensure_ascii=False).encode() for it in (said_of(line), right))
        reasons += text_differs(str(line["token"]), *texts)
    return reasons


def judge_told(_program: Path, _folder: Path) -> list[str]:
    """The server tells of as many rows as the statements leave, and a GEOMETRY stands in front of each text."""
    reasons = [f"{name} has {len(told_rows(name))} rows" for name, count in (("g", 3), ("h", 1)) if len(told_rows(name)) != count]
    for name, types in TYPES.items():
        kinds = [*types.values()]
        texts = [at for at, kind in enumerate(kinds) if kind.startswith(("varchar", "char", "text"))]
        reasons += [f"nothing stands in front of column {at} of {name}" for at in texts if "geometry" not in kinds[:at]]
    return reasons


def checks() -> list[Check]:
    """The checks of a server's GEOMETRY columns."""
    return [Check("GEOMETRY in front of texts", judge_values), Check("what the server tells of GEOMETRY", judge_told)]
