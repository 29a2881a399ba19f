#!/usr/bin/env python3
"""Writes down what a server answers to a snapshot: answers.jsonl, which the tests play again.

usage: tests/snapshot/record.py SOCKET SCHEMA.. > answers.jsonl

A line has a statement, and the rows that the server answered. Each byte of a value is a character of the text that stands for it.
"""
import contextlib
import json
import sys
from pathlib import Path

TOP = Path(__file__).resolve().parents[2]
sys.path.insert(0, str(TOP / "python"))

from binlogfeed.access import Settings  # noqa: E402
from binlogfeed.snapshot.rows import Lines, characters_of, lines_of  # noqa: E402
from binlogfeed.snapshot.server import Connection, ServerFault, check_can_freeze, frozen, wait_for_others  # noqa: E402
from binlogfeed.snapshot.tables import tables_of  # noqa: E402


class Recorder(Connection):
    """A connection whose answers are written down."""

    def ask(self, statement):
        """Asks, and writes it down."""
        rows = super().ask(statement)
        write(statement, rows)
        return rows

    def stream(self, statement):
        """Asks, and writes it down."""
        rows = [row for some in super().stream(statement) for row in some]
        write(statement, rows)
        yield rows


def write(statement, rows):
    """Writes a line."""
    told = [[None if value is None else value.decode("latin1") for value in row] for row in rows]
    print(json.dumps({"statement": statement, "rows": told}, ensure_ascii=False))


def say(text):
    """Says something on standard error."""
    print(text, file=sys.stderr, flush=True)


def main():
    """Asks for all that a snapshot asks for."""
    socket, *schemas = sys.argv[1:]
    settings = Settings("localhost", 3306, "root", "", socket=socket)
    other = Connection(settings)
    wait_for_others(other, say)
    connection = Recorder(settings)
    # What the server says while another one reads, and then that it may read itself.
    with contextlib.suppress(ServerFault):
        wait_for_others(connection, say, 1)
    other.close()
    check_can_freeze(connection)
    wait_for_others(connection, say)
    moment = frozen([connection])
    tables = tables_of(connection, schemas)
    characters = characters_of(connection, tables)
    for table in tables:
        for _ in lines_of(connection, Lines(table, moment, characters)):
            pass


if __name__ == "__main__":
    main()
