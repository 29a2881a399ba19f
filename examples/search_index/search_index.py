"""Keeps a full-text index of the rows in a server's logs, in a file of SQLite: search_index.py FILE LOGS [--follow]"""
import json
import sqlite3
import sys
from pathlib import Path

sys.path.insert(0, str(Path(__file__).resolve().parents[2] / "python"))
from binlogfeed import BinLogStreamReader, RowsEvent  # noqa: E402

TABLES = """CREATE TABLE IF NOT EXISTS document (id INTEGER PRIMARY KEY, name TEXT NOT NULL UNIQUE);
CREATE VIRTUAL TABLE IF NOT EXISTS words USING fts5 (text); CREATE TABLE IF NOT EXISTS place (kept TEXT);
INSERT INTO place SELECT NULL WHERE NOT EXISTS (SELECT * FROM place);"""


def take(index: sqlite3.Connection, event: RowsEvent) -> None:
    """Takes the old row out of the index, by its table and key, and puts in the texts of the new one."""
    old, new = (row and [json.dumps([event.table, *(str(row[column]) for column in event.key)])] for row in (event.before, event.after))
    if old:
        index.execute("DELETE FROM words WHERE rowid = (SELECT id FROM document WHERE name = ?)", old)
        index.execute("DELETE FROM document WHERE name = ?", old)
    if new and event.after:
        number = index.execute("INSERT INTO document (name) VALUES (?)", new).lastrowid
        text = " ".join(value for value in event.after.values() if isinstance(value, str))
        index.execute("INSERT INTO words (rowid, text) VALUES (?, ?)", [number, text])


def main(file: str, logs: str, *options: str) -> None:
    """Takes what is new. One transaction of SQLite has whole transactions of the log, and the place behind them."""
    index = sqlite3.connect(file, isolation_level=None)
    index.executescript(TABLES)
    (kept,) = index.execute("SELECT kept FROM place").fetchone()
    with BinLogStreamReader(logs, resume=kept, blocking="--follow" in options, together=False) as reader:
        for batch in reader.batches():
            index.execute("BEGIN IMMEDIATE")
            before, kept = kept, reader.place.to_text()
            if not index.execute("UPDATE place SET kept = ? WHERE kept IS ?", [kept, before]).rowcount:
                sys.exit("another process has moved the index on: start again")
            for event in (event for transaction in batch for event in transaction):
                take(index, event)
            index.execute("COMMIT")


if __name__ == "__main__":
    main(*sys.argv[1:])
