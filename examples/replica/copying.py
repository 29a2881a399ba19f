"""The first copy of the tables: a server's rows as they are at one place of its log, and that place, in one transaction of the target."""
from __future__ import annotations

import sys
from collections.abc import Sequence
from typing import NamedTuple, Optional

from batches import Batcher
from binlogfeed import JSON_NULL
from binlogfeed.access import of_url, settings_of
from binlogfeed.counts import counted
from binlogfeed.lines import Change, reader_of_lines
from binlogfeed.snapshot.rows import Lines, characters_of, lines_of
from binlogfeed.snapshot.server import Connection, check_can_freeze, frozen, wait_for_others
from binlogfeed.snapshot.tables import Table, check_are_there, tables_of
from binlogfeed.values import Style
from changes import waits_for
from targets import MisfitError, Target, WrongWordsError


class Server(NamedTuple):
    """A server to copy from."""

    # As `mysql://user@host:port/`.
    url: str
    # A file of options with the password; else it is that of MYSQL_PWD.
    defaults_file: Optional[str] = None


def take_copy(target: Target, server: Server, schema: str, only_tables: Sequence[str]) -> None:
    """Copies a schema's tables, where the target keeps no place yet, or one before the first change alone."""
    kept = target.place()
    if kept and waits_for(kept) is None:
        return
    connection = Connection(settings_of({**of_url(server.url), "defaults_file": server.defaults_file}))
    try:
        check_are_there(connection, [schema])
        check_can_freeze(connection)
        wait_for_others(connection, say)
        moment = frozen([connection])
        tables = tables_of(connection, [schema], only_tables)
        if not tables:
            raise WrongWordsError(f"the server shows no table of the schema {schema}")
        characters = characters_of(connection, tables)
        target.begin(kept)
        count = 0
        for table in tables:
            prepare(target, table)
            count += copied(target, connection, Lines(table, moment, characters))
        target.commit(moment.place.to_text())
    finally:
        connection.close()
    told = f"copied {counted(count, 'row')} of {counted(len(tables), 'table')}, as they were at {moment.token}"
    say(f"{told}; the lock on all tables was held for {moment.held:.3f} seconds")


def say(text: str) -> None:
    """Says something on standard error."""
    print(f"replica: {text}", file=sys.stderr, flush=True)


def prepare(target: Target, table: Table) -> None:
    """Makes a table that isn't there, where the target does, and refuses one that has rows."""
    if not target.shape(table.name).types:
        if not target.creates:
            raise MisfitError(f"the target has no table {table.name}, which {table.schema} has: make it, or have --create make it")
        target.create(table.name, [(column.name, column.type) for column in table.columns], table.key)
    elif target.has_rows(table.name):
        raise MisfitError(f"the target's table {table.name} has rows already: empty it, or go on without --from")


def copied(target: Target, connection: Connection, lines: Lines) -> int:
    """Copies the rows of a table. Answers how many they are."""
    batcher = Batcher(target)
    taken_apart = reader_of_lines(Style(raw=True, json_null=JSON_NULL), {})
    count = 0
    for block, rows in lines_of(connection, lines):
        for line in block.split(b"\n")[:-1]:
            batcher.take(Change(taken_apart(line)), len(line))
        count += rows
    batcher.hand_over()
    target.flush()
    return count
