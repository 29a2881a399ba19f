"""The command `snapshot` of the command line."""
from __future__ import annotations

import argparse
import sys
from collections.abc import Sequence
from pathlib import Path
from typing import Any

from binlogfeed.access import Settings, add_access, of_url, settings_of
from binlogfeed.counts import counted
from binlogfeed.faults import WordsRefused
from binlogfeed.follow import locked, read_state, write_state
from binlogfeed.options import add_command, lag_seconds, whole_number
from binlogfeed.snapshot.rows import Lines, characters_of, parts_of
from binlogfeed.snapshot.server import READING_WAIT, Connection, Moment, check_can_freeze, frozen, wait_for_others
from binlogfeed.snapshot.tables import Table, check_are_there, tables_of
from binlogfeed.snapshot.work import Part, write_all

URL = "mysql://"
HELP = """The rows are full lines of inserts, with `"snapshot":true` and the place of the snapshot as token. All of them are as they were
at that place of the server's log. It needs PyMySQL, and a user with the rights SELECT, RELOAD and REPLICATION CLIENT.
The password is that of the option file, or of the environment's MYSQL_PWD. Tables are those of InnoDB.

Exit status: 0 where all rows are written; 2 where the words are wrong, PyMySQL is missing, or FILE keeps a place already;
4 where the server can't be reached or refuses a statement, another snapshot reads for too long, or the output or FILE can't be
written."""
# A table of more rows is read by several processes, where there are several, in so many parts for each of them.
MANY_ROWS, PARTS = 50_000, 4
MOST_PROCESSES = 64


def add_snapshot(commands: Any) -> None:
    """Gives the command line the command."""
    about = "print the rows of a server's tables as full lines, all as they are at one place of its log"
    parser = add_command(commands, "snapshot", about, HELP)
    parser.add_argument("schemas", metavar="SCHEMA", nargs="+", help=f"the schemas; before them, {URL}USER@HOST:PORT/ says where they are")
    add_access(parser)
    parser.add_argument("--only-tables", metavar="LIST", default="", help="only tables with these names, in any of the schemas")
    parser.add_argument("--ignored-tables", metavar="LIST", default="", help="no tables with these names")
    parser.add_argument("--state", metavar="FILE", type=Path, help="keep the place as that of `follow --state FILE`, once all is written")
    processes = "read by so many processes; large tables come in parts then (1)"
    parser.add_argument("--jobs", metavar="N", type=whole_number(MOST_PROCESSES), default=1, help=processes)
    waits = f"wait for so long at most while another snapshot reads this server's rows ({READING_WAIT})"
    parser.add_argument("--wait", metavar="SECONDS", type=lag_seconds, default=READING_WAIT, help=waits)
    parser.set_defaults(run=snapshot)


def snapshot(given: argparse.Namespace) -> None:
    """Writes the rows, and then keeps the place."""
    told, schemas = vars(given), given.schemas
    if schemas[0].startswith(URL):
        told, schemas = {**told, **of_url(schemas[0])}, schemas[1:]
    if not schemas:
        raise WordsRefused("binlogfeed: no schema is named")
    settings = settings_of(told)
    if given.state is None:
        write(given, settings, schemas)
        return
    with locked(given.state):
        if read_state(given.state).file is not None:
            raise WordsRefused(f"binlogfeed: {given.state} keeps a place already: take it away, and what was made of the lines before it")
        moment = write(given, settings, schemas)
        write_state(given.state, moment.place)


def write(given: argparse.Namespace, settings: Settings, schemas: Sequence[str]) -> Moment:
    """Writes the rows, and answers when they were so."""
    first = Connection(settings)
    check_are_there(first, schemas)
    check_can_freeze(first)
    wait_for_others(first, say, given.wait)
    # They are made now, since a server or a network ends those that stand idle while the first one waits.
    connections = [first, *(Connection(settings) for _ in range(given.jobs - 1))]
    moment = frozen(connections)
    say(f"the tables as they are at {moment.token}; the lock on all tables was held for {moment.held:.3f} seconds")
    tables = tables_of(first, schemas, names(given.only_tables), names(given.ignored_tables))
    count = write_all(connections, parts_for(first, tables, moment, given.jobs))
    say(f"{counted(count, 'row')} of {counted(len(tables), 'table')}")
    for connection in connections:
        connection.close()
    return moment


def parts_for(connection: Connection, tables: Sequence[Table], moment: Moment, processes: int) -> list[Part]:
    """What the processes share among them: the tables, of which large ones come in parts."""
    characters = characters_of(connection, tables)
    parts = []
    for table in tables:
        lines = Lines(table, moment, characters)
        count = processes * PARTS if processes > 1 and table.rows > MANY_ROWS else 1
        parts += [Part(lines, part) for part in parts_of(connection, table, count)]
    return parts


def names(words: str) -> list[str]:
    """The names of a list."""
    return [word for word in words.split(",") if word]


def say(text: str) -> None:
    """Says something on standard error."""
    print(f"binlogfeed: {text}", file=sys.stderr, flush=True)
