"""Keeps each change of a row in a server's logs in a file of SQLite, which only grows: audit_trail.py FILE LOGS [--follow]"""
import sqlite3
import sys
from pathlib import Path
from typing import Any

sys.path.insert(0, str(Path(__file__).resolve().parents[2] / "python"))
from binlogfeed import BinLogStreamReader, RowsEvent  # noqa: E402
from binlogfeed.as_json import json_of  # noqa: E402

TABLES = """PRAGMA journal_mode = WAL; CREATE TABLE IF NOT EXISTS place (kept TEXT);
INSERT INTO place SELECT NULL WHERE NOT EXISTS (SELECT * FROM place);
CREATE TABLE IF NOT EXISTS change (id INTEGER PRIMARY KEY, file TEXT NOT NULL, position INTEGER NOT NULL, number INTEGER NOT NULL,
    gtid TEXT, committed INTEGER, timestamp INTEGER NOT NULL, "schema" TEXT NOT NULL, "table" TEXT NOT NULL, kind TEXT NOT NULL,
    old_name TEXT, new_name TEXT, before TEXT, after TEXT, UNIQUE (file, position, number));
CREATE INDEX IF NOT EXISTS by_old_name ON change (old_name); CREATE INDEX IF NOT EXISTS by_new_name ON change (new_name);
CREATE TRIGGER IF NOT EXISTS no_update BEFORE UPDATE ON change BEGIN SELECT RAISE(ABORT, 'a trail only grows'); END;
CREATE TRIGGER IF NOT EXISTS no_delete BEFORE DELETE ON change BEGIN SELECT RAISE(ABORT, 'a trail only grows'); END;"""


def told(event: RowsEvent) -> list[Any]:
    """What the trail says of a change. A row's name has its schema, its table and the values of its key."""
    rows = event.before, event.after
    names = (None if row is None else json_of([event.schema, event.table, *(row.get(column) for column in event.key)]) for row in rows)
    place, when = (event.file, event.position, event.number), (event.gtid, event.committed, event.timestamp)
    texts = (None if row is None else json_of(row) for row in rows)
    return [*place, *when, event.schema, event.table, event.kind, *names, *texts]


def main(file: str, logs: str, *options: str) -> None:
    """Takes what is new. One transaction of SQLite has whole transactions of the log, and the place behind them."""
    trail = sqlite3.connect(file, isolation_level=None)
    trail.executescript(TABLES)
    (kept,) = trail.execute("SELECT kept FROM place").fetchone()
    with BinLogStreamReader(logs, resume=kept, blocking="--follow" in options, together=False, raw_values=True) as reader:
        for batch in reader.batches():
            trail.execute("BEGIN IMMEDIATE")
            before, kept = kept, reader.place.to_text()
            if not trail.execute("UPDATE place SET kept = ? WHERE kept IS ?", [kept, before]).rowcount:
                sys.exit("another process has moved the trail on: start again")
            changes = (told(event) for transaction in batch for event in transaction)
            trail.executemany("INSERT INTO change VALUES (NULL, ?, ?, ?, ?, ?, ?, ?, ?, ?, ?, ?, ?, ?)", changes)
            trail.execute("COMMIT")


if __name__ == "__main__":
    main(*sys.argv[1:])
