"""The arguments of BinLogStreamReader: the words of the program that they stand for, and those that aren't here."""
from __future__ import annotations

from collections.abc import Iterable, Mapping
from typing import Any

from binlogfeed.events import ROWS_EVENTS, Event, GtidEvent, QueryEvent, RotateEvent, RowsEvent, XidEvent
from binlogfeed.filters import STATEMENT

ROWS = frozenset(ROWS_EVENTS.values())
# What tells of transactions of rows.
BESIDE_ROWS = frozenset({GtidEvent, XidEvent, RotateEvent})
EVENTS = ROWS | BESIDE_ROWS | {QueryEvent}

CONNECTION = "files are read here, and no server is connected to: give the log files, or the server's folder, as first argument"
METADATA = "names and types come from the log itself (binlog_row_metadata=FULL); where it has no names, `columns` gives them"
# The arguments of python-mysql-replication that aren't here, and what there is in their place.
NOT_HERE = {
    "connection_settings": CONNECTION,
    "ctl_connection_settings": CONNECTION,
    "pymysql_wrapper": CONNECTION,
    "server_id": "no server is connected to, so none has to know the reader: leave it out",
    "slave_uuid": "no server is connected to, so none has to know the reader: leave it out",
    "report_slave": "no server is connected to, so none has to know the reader: leave it out",
    "slave_heartbeat": "no server is connected to: `interval` says how often `blocking=True` looks for more",
    "is_mariadb": "MariaDB's logs aren't read",
    "annotate_rows_event": "MariaDB's logs aren't read",
    "freeze_schema": METADATA,
    "fail_on_table_metadata_unavailable": METADATA,
    "use_column_name_cache": METADATA,
    "ignore_decode_errors": "texts that can't be decoded stay bytes: `on_bad_value` gives another value in their place",
    "verify_checksum": "checksums aren't verified",
    "filter_non_implemented_events": "what can't be read ends the reading by a LogFault: leave it out",
    "enable_logging": "nothing is logged: leave it out",
}


def refuse_others(others: Mapping[str, Any]) -> None:
    """Raises a TypeError for an argument that isn't here, which says what there is in its place."""
    for name in others:
        reason = NOT_HERE.get(name, "there is no such argument")
        raise TypeError(f"BinLogStreamReader: {name}: {reason}")


def asked_events(only: Iterable[type[Event]] | None, ignored: Iterable[type[Event]] | None) -> frozenset[type[Event]]:
    """The classes of events that are asked for: those of rows, unless others are named, without the ignored ones."""
    asked = ROWS if only is None else _checked("only_events", only)
    if only is not None and not asked:
        raise ValueError("only_events: with an empty list nothing would pass")
    asked -= frozenset() if ignored is None else _checked("ignored_events", ignored)
    if not asked:
        raise ValueError("ignored_events: nothing would pass")
    return asked


def _checked(argument: str, classes: Iterable[type[Event]]) -> frozenset[type[Event]]:
    """Classes of events that a reader can give. RowsEvent stands for all three of its kind."""
    found: set[type[Event]] = set()
    for one in classes:
        if one is RowsEvent:
            found |= ROWS
        elif one in EVENTS:
            found.add(one)
        else:
            names = ", ".join(sorted(it.__name__ for it in EVENTS))
            raise TypeError(f"{argument}: {one!r} is none of {names}")
    return frozenset(found)


def words(
    asked: frozenset[type[Event]],
    only_tables: Iterable[str] | None,
    ignored_tables: Iterable[str] | None,
    only_schemas: Iterable[str] | None,
    ignored_schemas: Iterable[str] | None,
    auto_position: str | None,
) -> list[str]:
    """The program's words for what is asked for."""
    kinds = [name for name, kind in ROWS_EVENTS.items() if kind in asked]
    if not kinds and asked & BESIDE_ROWS:
        # No rows are asked for, but their transactions are.
        kinds = list(ROWS_EVENTS)
    # The program gives statements, too, where nothing says which lines are wanted.
    kinds += [STATEMENT] if QueryEvent in asked else []
    return [
        *_list_word("--only-events", kinds),
        *_list_word("--only-tables", only_tables, some=True),
        *_list_word("--ignored-tables", ignored_tables),
        *_list_word("--only-schemas", only_schemas, some=True),
        *_list_word("--ignored-schemas", ignored_schemas),
        *([] if auto_position is None else [f"--auto-position={auto_position}"]),
    ]


def _list_word(option: str, names: Iterable[str] | None, some: bool = False) -> list[str]:
    """The word for a list of names. The program parts it at commas."""
    if names is None:
        return []
    if isinstance(names, (str, bytes)):
        raise TypeError(f"{option}: a list of names, not the text {names!r}")
    listed = list(names)
    for name in listed:
        if "," in name:
            raise ValueError(f"{option}: a name with a comma can't be given: {name!r}")
    if some and not listed:
        raise ValueError(f"{option}: with an empty list nothing would pass")
    return [f"{option}={','.join(listed)}"] if listed else []
