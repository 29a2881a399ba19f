"""Full lines beside plain ones: over the logs of servers they tell the same changes, go on behind tokens, and tell the stories of keys.
What is kept of a table's map is never another one's."""
from __future__ import annotations

import base64
import json
import re
from functools import cache, partial
from itertools import cycle, islice
from pathlib import Path
from typing import NamedTuple

from built.check import Check, Wanted, differs, run
from built.floats import double_text, float_text
from built.server_logs import BANK, KEYS, SHOP, SHOP_KEYS, logs_of
from built.truth import TRUTH, declared_types
from logs import (
    FRONT, SOURCE_ID, TIME, USUAL_CHARSET, WRITE_ROWS, event, field, full_lines, log_of, map_as_t, parts, put, transaction, worked_log,
)  # fmt: skip

# The names of each table's key, in key order.
KEY_NAMES = {**{table: list(names) for table, names in SHOP_KEYS.items()}, **{table: [name] for table, name in KEYS.items()}}

# What a plain line has that a full line has as it is.
SAME = ("gtid", "kind", "schema", "table", "timestamp", "token")
# The first words of types whose values are as in plain lines, of which YEAR is one.
SAME_TYPES = ("decimal", "year", "date", "time", "datetime", "timestamp", "bit", "geometry")

# The texts of values that a plain line has as bytes, by the first words of their types.
NUMBERS = {"float": float_text, "double": double_text}

# How many reasons a check gives.
REASONS = 4

# The bytes of an event's header.
HEADER = 19

# So many tables, gone round by so many transactions. The maps of a few tables are kept, those of others are read anew.
MAPS = ((1, 25), (7, 200), (41, 500))

Line = dict[str, object]


class Charset(NamedTuple):
    """A collation, with a VARCHAR column's type in it, and the text of the byte e9."""

    collation: int
    type: str
    text: str


CHARSETS = (
    Charset(8, "varchar latin1", '"é"'),
    Charset(28, "varchar gbk", '{"base64":"6Q==","charset":"gbk"}'),
    Charset(45, "varchar utf8mb4", '{"base64":"6Q==","charset":"utf8mb4"}'),
    Charset(63, "varbinary(80)", '{"base64":"6Q=="}'),
    Charset(17, "varchar", '{"base64":"6Q=="}'),
)


def told(program: Path, folder: Path, logs: list[str], *options: str) -> tuple[list[bytes], list[str]]:
    """The lines of `read` with these options, and what is wrong with the run."""
    came = run(program, ["read", *options, *logs], folder)
    return came.stdout.splitlines(keepends=True), differs(came, Wanted(0, None))


def size(type_text: str) -> str:
    """A type without its size, sign and character set."""
    return type_text.split("(")[0].split(" ")[0]


def unlike_image(plain: Line | None, full: Line | None, types: dict[str, str]) -> list[str]:
    """What an image tells otherwise than a plain line's: its columns, values of the types that are the same, and numbers."""
    if plain is None or full is None:
        return [] if plain is full else ["an image is there in one of them only"]
    if list(plain) != list(full):
        return [f"the columns are {list(full)}"]
    # A document may be null, too. What documents are is judged beside a server's, and in json_documents.
    nulls = {name for name in full if plain[name] is None or (full[name] is None and size(types[name]) != "json")}
    same = {name: plain[name] for name in full if name in nulls or size(types[name]) in SAME_TYPES}
    for name in full.keys() - same.keys():
        if size(types[name]) in NUMBERS:
            same[name] = json.loads(NUMBERS[size(types[name])](base64.b64decode(plain[name]["raw"])))
    return [f"{name} is {full[name]}" for name in same if full[name] != same[name]]


def names_in(columns: str) -> list[str]:
    """The names of columns that a statement declares, without keys. Commas within brackets part nothing."""
    while "(" in columns:
        columns = re.sub(r"\([^()]*\)", "", columns)
    words = [column.split()[0] for column in columns.split(",")]
    return [word for word in words if word not in ("PRIMARY", "KEY")]


@cache
def columns_of(logs: Path) -> dict[str, list[str]]:
    """The columns of each table of a folder's logs, in the order in which a statement declares them."""
    if logs == TRUTH:
        return {table: list(types) for table, types in declared_types().items()}
    statements = (logs / "statements.sql").read_text(encoding="utf-8")
    return {table: names_in(columns) for table, columns in re.findall(r"^CREATE TABLE (\w+) \((.*)\);$", statements, re.MULTILINE)}


def json_nulls(plain: Line, full: Line) -> list[str]:
    """The columns whose document is null in a full line, and isn't in the plain one: those of `after` first."""
    return [
        f"{side}.{name}"
        for side in ("after", "before")
        for name in sorted(full[side] or {}, key=str.encode)
        if full[side][name] is None and plain[side][name] is not None
    ]


@cache
def commit_times(log: Path) -> dict[int, int]:
    """When the transactions of a server's log were committed, by the places of their GTID events, which say it in bytes 42 to 48."""
    content, times, place = log.read_bytes(), {}, 4
    while place + HEADER < len(content):
        if content[place + 4] in (33, 34):
            at = place + HEADER + 42
            times[place] = int.from_bytes(content[at : at + 7], "little") % 2**55
        place += int.from_bytes(content[place + 9 : place + 13], "little")
    return times


def committed(log_folder: Path, line: Line) -> int:
    """When the transaction of a line was committed, by its log."""
    place, _, file = str(line["token"]).partition("@")
    return commit_times(log_folder / file)[int(place.split(".")[0])]


def unlike(log_folder: Path, plain: Line, full: Line) -> list[str]:
    """What a full line tells otherwise than its plain one."""
    nulls, types = json_nulls(plain, full), full["types"]
    members = ["after", "before", "committed", "gtid", *(["json_null"] if nulls else []), "key", "types", *SAME[1:]]
    reasons = [] if list(full) == members else [f"the members are {list(full)}"]
    reasons += [] if full.get("committed") == committed(log_folder, full) else [f"it was committed at {full.get('committed')}"]
    reasons += [] if full.get("json_null", []) == nulls else [f"the JSON nulls are {full['json_null']}"]
    reasons += [f"{name} is {full[name]}" for name in SAME if full[name] != plain[name]]
    reasons += [] if list(types) == columns_of(log_folder)[full["table"]] else [f"the types are {types}"]
    for image in ("before", "after"):
        reasons += [f"{image}: {reason}" for reason in unlike_image(plain[image], full[image], types)]
    wanted = KEY_NAMES.get(plain["table"], ["id"])
    return reasons + ([] if full["key"] == wanted else [f"the key is {full['key']}"])


def judge_same(log_folder: Path, program: Path, folder: Path) -> list[str]:
    """Full lines tell the changes of plain ones."""
    plain, reasons = told(program, folder, logs_of(log_folder))
    full, more = told(program, folder, logs_of(log_folder), "--full")
    if len(plain) != len(full) or not full:
        return [*reasons, *more, f"there are {len(full)} full lines, and {len(plain)} plain ones"]
    pairs = [(json.loads(one), json.loads(other)) for one, other in zip(plain, full)]
    found = [f"{one['token']}: {reason}" for one, other in pairs for reason in unlike(log_folder, one, other)]
    return [*reasons, *more, *found[:REASONS]]


def judge_going_on(log_folder: Path, step: int, program: Path, folder: Path) -> list[str]:
    """Behind a full line's token the others follow. One of so many lines is gone on from, and the last."""
    lines, reasons = told(program, folder, logs_of(log_folder), "--full")
    for number in range(len(lines) - 1, -1, -step):
        token = json.loads(lines[number])["token"]
        rest, more = told(program, folder, logs_of(log_folder), "--full", "--from", token)
        reasons += more if rest == lines[number + 1 :] else [*more, f"behind {token} stand {len(rest)} lines, or others"]
    return reasons[:REASONS]


def stories_of(lines: list[bytes], table: str) -> dict[str, list[bytes]]:
    """The story of each key of a table, by the names of the key that its full lines tell."""
    stories: dict[str, list[bytes]] = {}
    for text in lines:
        line = json.loads(text)
        images = [image for image in (line["before"], line["after"]) if image] if line["table"] == table else []
        for key in sorted({json.dumps([image[name] for name in line["key"]]) for image in images}):
            stories.setdefault(key, []).append(text)
    return stories


def judge_stories(table: str, program: Path, folder: Path) -> list[str]:
    """`history --full` tells the full lines of each key."""
    lines, reasons = told(program, folder, logs_of(SHOP), "--full")
    stories = stories_of(lines, table)
    for key, story in stories.items():
        words = ["history", "--full", "--schema", "shop", "--table", table, "--key", key, *logs_of(SHOP)]
        reasons += [f"{key}: {reason}" for reason in differs(run(program, words, folder), Wanted(0, b"".join(story)))]
    return reasons if stories else [*reasons, f"no line is of the table {table}"]


def unit(place: int, number: int, table: str, charset: Charset) -> tuple[bytes, str]:
    """A transaction that inserts (1, e9) into a table whose texts are in a character set, and its line."""
    table_map = map_as_t(table, more=field(USUAL_CHARSET, bytes([charset.collation])))
    rows = event(WRITE_ROWS, parts("rows-head fc u32:1 01 e9"))
    line = (
        f'{{"after":{{"id":1,"v":{charset.text}}},"before":null,"gtid":"{SOURCE_ID}:{number}","key":["id"],'
        f'"types":{{"id":"int","v":"{charset.type}"}},"kind":"insert","schema":"s","table":"{table}",'
        f'"timestamp":{TIME},"token":"{place}.1@log"}}\n'
    )
    return transaction(number, table_map, rows), line


def judge_maps(tables: int, count: int, program: Path, folder: Path) -> list[str]:
    """So many transactions, which go round so many tables and all character sets: the maps of two may differ in one byte alone."""
    units, lines, place = [], [], len(FRONT)
    for number, charset in enumerate(islice(cycle(CHARSETS), count), 1):
        content, line = unit(place, number, f"t{number % tables}", charset)
        units.append(content)
        lines.append(line)
        place += len(content)
    put(folder, ["log"], log_of(units))
    return differs(run(program, ["read", "--full", "log"], folder), Wanted(0, "".join(lines).encode()))


def judge_long(count: int, program: Path, folder: Path) -> list[str]:
    """All full lines of a long log come out."""
    put(folder, ["log"], worked_log(count))
    return differs(run(program, ["read", "--full", "log"], folder), Wanted(0, full_lines(count, "log")))


def checks() -> list[Check]:
    """The checks of full lines. Of the truth's 720 lines, and of the bank's, some are gone on from."""
    logs = (("the shop", SHOP, 1), ("the bank", BANK, 40), ("the truth", TRUTH, 60))
    return [
        *[Check(f"{what}: full lines tell what plain ones do", partial(judge_same, folder)) for what, folder, _ in logs],
        *[Check(f"{what}: full lines go on", partial(judge_going_on, folder, step)) for what, folder, step in logs],
        *[Check(f"the shop's stories of {table} in full lines", partial(judge_stories, table)) for table in SHOP_KEYS],
        *[Check(f"full lines of {count} maps of {tables} tables", partial(judge_maps, tables, count)) for tables, count in MAPS],
        Check("a long log in full lines", partial(judge_long, 12_000)),
    ]
