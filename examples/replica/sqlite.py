"""A replica in a file of SQLite."""
from __future__ import annotations

import contextlib
import os
import sqlite3
from collections.abc import Iterator, Sequence
from pathlib import Path
from typing import TextIO

import creating
from batches import Batch
from binlogfeed import files
from binlogfeed.faults import FileFault
from fitting import Converter, for_sqlite
from targets import PLACE, PLACE_MADE, AwayError, MisfitError, Shape, Target

# How many seconds another process may write.
PATIENCE = 60


class Sqlite(Target):
    """A file of SQLite."""

    def __init__(self, file: str, schema: str, unfit_is_null: bool) -> None:
        """Opens the file, which no other replica may use."""
        super().__init__(schema, unfit_is_null)
        self._statements: dict[tuple[str, str, tuple[str, ...]], str] = {}
        with judged():
            self._connection = sqlite3.connect(file, isolation_level=None, timeout=PATIENCE)
        # It comes before the first statement, which would wait for the end of another's transaction.
        self._lock = locked(file)
        with judged():
            for statement in PLACE_MADE:
                self._connection.execute(statement)

    def place(self) -> str:
        """The place that is kept."""
        with judged():
            return str(self._connection.execute(f"SELECT place FROM {PLACE}").fetchone()[0])

    def begin(self, place: str) -> None:
        """Begins a transaction."""
        with judged():
            self._connection.execute("BEGIN IMMEDIATE")
        if self.place() != place:
            raise AwayError("another process has moved the target on: start again")

    def put(self, batch: Batch) -> None:
        """Makes the changes of a batch, one after the other."""
        which = (batch.kind, batch.table.name, batch.names)
        statement = self._statements.get(which)
        if statement is None:
            statement = self._statements[which] = statement_of(batch)
        try:
            with judged():
                changed = self._connection.executemany(statement, batch.rows).rowcount
        except MisfitError as error:
            raise self.misfit(batch, f"is refused: {error}") from error
        if changed != len(batch.rows):
            raise self.misfit(batch, f"changed {changed} rows in place of {len(batch.rows)}")

    def commit(self, place: str) -> None:
        """Ends the transaction, with its place."""
        with judged():
            self._connection.execute(f"UPDATE {PLACE} SET place = ?", [place])
            self._connection.execute("COMMIT")

    def rollback(self) -> None:
        """Takes the transaction back."""
        super().rollback()
        if self._connection.in_transaction:
            with judged():
                self._connection.execute("ROLLBACK")

    def close(self) -> None:
        """Closes the file, and lets others use it."""
        self._connection.close()
        self._lock.close()

    def shape(self, table: str) -> Shape:
        """A table as the target has it."""
        with judged():
            rows = self._connection.execute("SELECT name, type, pk FROM pragma_table_info(?)", [table]).fetchall()
        key = [name for name, _, number in sorted(rows, key=lambda row: row[2]) if number]
        return Shape({name: declared for name, declared, _ in rows}, key)

    def converter(self, log: str, target: str) -> Converter:
        """What makes of a value what the column takes."""
        return for_sqlite(log, target)

    def create(self, name: str, columns: Sequence[tuple[str, str]], key: Sequence[str]) -> None:
        """Makes a table."""
        with judged():
            self._connection.execute(creating.statement(name, columns, key, creating.sqlite_type, quoted))

    def empty(self, name: str) -> None:
        """Takes all rows of a table away."""
        with judged():
            self._connection.execute(f"DELETE FROM {quoted(name)}")

    def alterations(self, name: str, columns: Sequence[tuple[str, str]], there: Sequence[str]) -> list[str]:
        """Statements that make a table with the columns that are there one with these."""
        return creating.alterations(name, columns, there, creating.sqlite_type, quoted)

    def has_rows(self, name: str) -> bool:
        """Whether a table has a row."""
        with judged():
            return self._connection.execute(f"SELECT 1 FROM {quoted(name)} LIMIT 1").fetchone() is not None


def locked(file: str) -> TextIO:
    """The lock beside a file, which the system gives free where this process ends in any way.

    A lock on the file itself is SQLite's, which would keep readers out.
    """
    lock = Path(f"{os.path.realpath(file)}.lock")
    try:
        return files.locked(lock, f"another replica uses {file}: it has the lock {lock}")
    except FileFault as error:
        raise AwayError(error.line) from error
    except OSError as error:
        raise AwayError(f"can't write {lock}, beside the target: {error.strerror}") from error


def statement_of(batch: Batch) -> str:
    """The statement that makes a change of a batch."""
    table, names = quoted(batch.table.name), [quoted(name) for name in batch.names]
    if batch.kind == "insert":
        return f"INSERT INTO {table} ({', '.join(names)}) VALUES ({', '.join('?' for _ in names)})"
    which = " AND ".join(f"{quoted(name)} = ?" for name in batch.key)
    if batch.kind == "delete":
        return f"DELETE FROM {table} WHERE {which}"
    return f"UPDATE {table} SET {', '.join(f'{name} = ?' for name in names)} WHERE {which}"


def quoted(name: str) -> str:
    """A table's or column's name in a statement."""
    return '"' + name.replace('"', '""') + '"'


@contextlib.contextmanager
def judged() -> Iterator[None]:
    """Says of what SQLite refuses whether it may go on when it is begun again."""
    try:
        yield
    except (sqlite3.IntegrityError, sqlite3.DataError, sqlite3.InterfaceError, sqlite3.ProgrammingError) as error:
        raise MisfitError(str(error)) from error
    except sqlite3.Error as error:
        raise AwayError(str(error)) from error
