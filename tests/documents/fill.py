#!/usr/bin/env python3
"""Fills tables of a MySQL server with JSON documents, and writes down what the server says of each.

usage: fill.py FOLDER COMMAND..

COMMAND is a client of the server: `mysql -N -B -u root`, say. FOLDER gets the statements that change rows (`statements.sql`), and for each
row change, in the order of the log, a line of `documents.jsonl`. The documents hang on the seed alone; the updates also on what the
server says. --many makes the documents that measuring takes, in place of the few that a check takes.
"""
from __future__ import annotations

import argparse
import json
import random
import re
import subprocess
import sys
from collections.abc import Iterator
from pathlib import Path
from typing import NamedTuple

sys.dont_write_bytecode = True
sys.path.insert(0, str(Path(__file__).resolve().parents[1]))

from documents import shapes  # noqa: E402

SEED = 20_260
# How many rows an INSERT has at most, and how many bytes.
ROWS, BYTES = 40, 200_000
# How many changes a transaction has at most.
CHANGES = 10
# The types that a number with a point and a string are taken for by themselves. A line has dates and times as the server shows them.
PLAIN = ("DOUBLE", "STRING", "DATE", "TIME", "DATETIME", "TIMESTAMP")
# A server is asked for so many types at once.
ASKED = 500


class Text(NamedTuple):
    """A number of a document, by its text."""

    text: str


class Server:
    """A client of the server, and what was sent to it."""

    def __init__(self, command: list[str]) -> None:
        """Starts the client."""
        self.client = subprocess.Popen([*command, "-n"], stdin=subprocess.PIPE, stdout=subprocess.PIPE)
        self.sent: list[str] = []

    def ask(self, statement: str) -> list[list[str]]:
        """The rows that a statement answers."""
        assert self.client.stdin and self.client.stdout
        self.client.stdin.write(f"{statement};\nSELECT 'answered';\n".encode())
        self.client.stdin.flush()
        rows = []
        for line in self.client.stdout:
            if line == b"answered\n":
                return rows
            rows.append(line.decode().rstrip("\n").split("\t"))
        raise ConnectionError(f"the client ended at {statement[:200]}")

    def change(self, statement: str) -> int:
        """Sends a statement that changes rows. Answers how many it changed."""
        self.sent.append(f"{statement};\n")
        return int(self.ask(f"{statement};\nSELECT ROW_COUNT()")[0][0])


def leaves(value: object, path: str = "$") -> Iterator[tuple[str, object]]:
    """The values without parts of a document, each with its path."""
    if isinstance(value, dict):
        for name, part in value.items():
            yield from leaves(part, f"{path}.{json.dumps(name, ensure_ascii=False)}")
    elif isinstance(value, list):
        for number, part in enumerate(value):
            yield from leaves(part, f"{path}[{number}]")
    else:
        yield path, value


def unclear(value: object) -> bool:
    """Whether a value's text leaves its type open: of a string, and of a number with a point or of more digits than an integer has."""
    return isinstance(value, str) or isinstance(value, Text) and not re.fullmatch("-?[0-9]{1,20}", value.text)


def kinds(server: Server, table: str, row: int, document: object) -> dict[str, str]:
    """The types that a document's text leaves open, but for the plain ones, by their paths."""
    paths = [path for path, value in leaves(document) if unclear(value)]
    found = {}
    for at in range(0, len(paths), ASKED):
        part = paths[at : at + ASKED]
        asked = ", ".join(f"JSON_TYPE(JSON_EXTRACT(doc, {shapes.quoted(path)}))" for path in part)
        [types] = server.ask(f"SELECT {asked} FROM {table} WHERE id = {row}")
        found.update(zip(part, types))
    return {path: kind for path, kind in found.items() if kind not in PLAIN}


def told(server: Server, table: str, first: int, last: int) -> list[dict]:
    """What the server says of rows: a record of each. Where a text isn't UTF-8, each byte that is wrong in it is a surrogate."""
    columns = "id, JSON_TYPE(doc), JSON_STORAGE_SIZE(doc), JSON_STORAGE_FREE(doc), HEX(doc)"
    rows = server.ask(f"SELECT {columns} FROM {table} WHERE id BETWEEN {first} AND {last} ORDER BY id")
    records = []
    for row, kind, size, free, text in rows:
        shown = bytes.fromhex(text).decode(errors="surrogateescape")
        record = {"table": table, "id": int(row), "type": kind, "size": int(size), "free": int(free), "text": shown}
        opened = kinds(server, table, int(row), json.loads(shown, parse_int=Text, parse_float=Text))
        records.append({**record, "kinds": opened} if opened else record)
    return records


def batches(expressions: list[str]) -> Iterator[list[str]]:
    """Expressions in groups, none of which has too many or is too long."""
    group: list[str] = []
    length = 0
    for expression in expressions:
        if group and (len(group) == ROWS or length + len(expression) > BYTES):
            yield group
            group, length = [], 0
        group.append(expression)
        length += len(expression)
    if group:
        yield group


def filled(server: Server, table: str, expressions: list[str]) -> Iterator[dict]:
    """Inserts documents into a new table."""
    server.change(f"CREATE TABLE {table} (id INT UNSIGNED PRIMARY KEY, doc JSON)")
    number = 1
    for group in batches(expressions):
        rows = ", ".join(f"({number + at}, {expression})" for at, expression in enumerate(group))
        server.change(f"INSERT INTO {table} VALUES {rows}")
        yield from told(server, table, number, number + len(group) - 1)
        number += len(group)


def selected(server: Server, table: str) -> Iterator[dict]:
    """Documents of values of the columns of another table."""
    server.change(f"CREATE TABLE {table} (id INT UNSIGNED PRIMARY KEY, doc JSON)")
    names = list(shapes.COLUMNS)
    columns = ", ".join(f"`{name}` {declared}" for name, (declared, _) in shapes.COLUMNS.items())
    server.change(f"CREATE TEMPORARY TABLE source (id INT UNSIGNED PRIMARY KEY, {columns})")
    most = max(len(values) for _, values in shapes.COLUMNS.values())
    for row in range(most):
        values = ", ".join(values[row % len(values)] for _, values in shapes.COLUMNS.values())
        server.change(f"INSERT INTO source VALUES ({row + 1}, {values})")
    number = 1
    for name in names:
        count = len(shapes.COLUMNS[name][1])
        statement = f"SELECT id + {number - 1}, JSON_OBJECT('{name}', `{name}`, 'in', JSON_ARRAY(`{name}`)) FROM source WHERE id <= {count}"
        server.change(f"INSERT INTO {table} {statement} ORDER BY id")
        yield from told(server, table, number, number + count - 1)
        number += count


def updated(server: Server, chance: random.Random, table: str, records: list[dict], count: int) -> Iterator[dict]:
    """Changes rows by functions of JSON, so often, in transactions. A change that leaves a row as it was has no record."""
    last = {record["id"]: record for record in records if record["type"] in ("OBJECT", "ARRAY") and len(record["text"]) < shapes.LONG}
    rows = sorted(last)
    for number in range(count):
        if number % CHANGES == 0:
            server.change("COMMIT")
            server.change("START TRANSACTION")
        row = chance.choice(rows)
        assignment = shapes.change(chance, json.loads(last[row]["text"]))
        if assignment and server.change(f"UPDATE {table} SET doc = {assignment} WHERE id = {row}"):
            [last[row]] = told(server, table, row, row)
            yield last[row]
    server.change("COMMIT")


def copied(server: Server, table: str, source: str) -> Iterator[dict]:
    """Documents made of parts of others, with the gaps that these have."""
    server.change(f"CREATE TABLE {table} (id INT UNSIGNED PRIMARY KEY, doc JSON)")
    number = 1
    for expression in shapes.COPIES:
        count = server.change(
            f"INSERT INTO {table} SELECT {number - 1} + ROW_NUMBER() OVER (ORDER BY id), {expression} FROM {source}"
            f" WHERE {expression} IS NOT NULL AND id % {shapes.EACH} = 0 ORDER BY id"
        )
        if count:
            yield from told(server, table, number, number + count - 1)
        number += count


def made(server: Server, many: bool) -> Iterator[dict]:
    """Makes all documents, and tells of them."""
    chance = random.Random(SEED)
    server.change("SET NAMES utf8mb4, sql_mode = 'NO_ENGINE_SUBSTITUTION', time_zone = '+00:00'")
    server.change("DROP DATABASE IF EXISTS documents")
    server.change("CREATE DATABASE documents")
    server.change("USE documents")
    groups = shapes.groups(chance, many)
    told_of: dict[str, list[dict]] = {}
    for table, (expressions, updates) in groups.items():
        told_of[table] = list(filled(server, table, expressions))
        yield from told_of[table]
        yield from updated(server, chance, table, told_of[table], updates)
    yield from selected(server, "columns")
    yield from copied(server, "copies", "application")


def main() -> None:
    """Fills the tables."""
    parser = argparse.ArgumentParser(description=__doc__.split("\n", maxsplit=1)[0])
    parser.add_argument("--many", action="store_true", help="make more documents, and longer ones")
    parser.add_argument("folder", type=Path)
    parser.add_argument("command", nargs="+")
    given = parser.parse_args()
    server = Server(given.command)
    with (given.folder / "documents.jsonl").open("w", encoding="utf-8") as out:
        for record in made(server, given.many):
            text = json.dumps(record, ensure_ascii=False, separators=(",", ":"))
            out.write(re.sub("[\ud800-\udfff]", lambda found: f"\\u{ord(found[0]):04x}", text) + "\n")
    (given.folder / "statements.sql").write_text("".join(server.sent), encoding="utf-8")


if __name__ == "__main__":
    main()
