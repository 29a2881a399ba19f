"""A replica in PostgreSQL: through psycopg where that is installed, else through the program psql."""
from __future__ import annotations

import contextlib
import json
import time
from collections.abc import Iterator, Sequence
from functools import lru_cache
from typing import Optional, Union

import creating
import psql
from batches import Batch
from fitting import Converter, for_postgres
from targets import PLACE, PLACE_MADE, AwayError, MisfitError, ReplicaError, Shape, Target, WrongWordsError

try:
    import psycopg
except ImportError:  # it isn't installed, or finds no libpq
    psycopg = None

# Statements wait until they have so many characters, or are so many. Then one round trip carries them out.
MOST_TEXT = 1 << 18
MOST_STATEMENTS = 1000
# So many statements' words are known at once.
MOST_FORMS = 1000
# From so many rows on an insert is a COPY.
COPIED = 50
# The classes of errors that may be gone when the replica is begun again: of the connection, its rights, the database,
# clashes with other transactions, resources, locks, operators, the system, and the server's own.
PASSING = {"08", "25", "28", "3D", "40", "53", "55", "57", "58", "XX"}
SETTINGS = (
    "SET standard_conforming_strings = on",
    "SET client_encoding = 'UTF8'",
    "SET client_min_messages = warning",
    "SET TimeZone = 'UTC'",
    "SET DateStyle = 'ISO'",
    "SET IntervalStyle = 'postgres'",
    "SET bytea_output = 'hex'",
    # A machine that is gone from the network keeps its lock for two minutes, and not for two hours.
    "SET tcp_keepalives_idle = 60",
    "SET tcp_keepalives_interval = 10",
    "SET tcp_keepalives_count = 6",
)
# The lock of a replica on the table of its place: an advisory one of this class, by the table's number. It ends with the connection.
LOCK_CLASS = 0x62696E6C
LOCK = f"SELECT pg_try_advisory_lock(({LOCK_CLASS}::bigint << 32) + '{PLACE}'::regclass::oid::bigint)::text"
HOLDER = f"""
SELECT pid::text FROM pg_locks JOIN pg_database AS d ON d.oid = database AND datname = current_database()
WHERE locktype = 'advisory' AND granted AND classid = {LOCK_CLASS} AND objid = '{PLACE}'::regclass AND objsubid = 1
"""
# A server notices the end of a killed client some milliseconds later, or behind the statement that it carries out. For so many seconds
# the lock is asked for again, each time after such a pause.
PATIENCE = 5.0
PAUSE = 0.05
SHAPE = """
SELECT jsonb_build_array(
    attname, format_type(CASE typtype WHEN 'd' THEN typbasetype ELSE atttypid END, -1), array_position(indkey, attnum)
)::text
FROM pg_attribute JOIN pg_type AS t ON t.oid = atttypid LEFT JOIN pg_index ON indrelid = attrelid AND indisprimary
WHERE attrelid = to_regclass(quote_ident({})) AND attnum > 0 AND NOT attisdropped ORDER BY attnum
"""
# What has to be copied in another spelling.
ESCAPES = str.maketrans({"\\": "\\\\", "\n": "\\n", "\r": "\\r", "\t": "\\t"})


class Psycopg:
    """A connection by psycopg, with the interface of `psql.Connection`."""

    def __init__(self, words: str) -> None:
        """Connects."""
        self._connection = psycopg.connect(words, autocommit=True)

    def run(self, statements: list[str]) -> list[int]:
        """Carries out statements, in one round trip. Answers how many rows each has changed."""
        cursor = self._connection.execute(";\n".join(statements).encode())
        changed = [cursor.rowcount]
        while cursor.nextset():
            changed.append(cursor.rowcount)
        return changed

    def copy(self, statement: str, rows: str) -> int:
        """Carries out a COPY from lines of text."""
        with self._connection.cursor() as cursor:
            with cursor.copy(statement.encode()) as copy:
                copy.write(rows.encode())
            return int(cursor.rowcount)

    def query(self, statement: str) -> list[str]:
        """What a query of one column answers."""
        return [row[0] for row in self._connection.execute(statement.encode()).fetchall()]

    def close(self) -> None:
        """Ends the connection."""
        self._connection.close()


Client = Union[Psycopg, psql.Connection]


class Waiting:
    """Statements that wait, and how many rows each has to change, for which batch."""

    def __init__(self) -> None:
        """None."""
        self.statements: list[str] = []
        self.wanted: list[tuple[int, Optional[Batch]]] = []
        self.size = 0

    def add(self, statement: str, count: int, batch: Batch | None = None) -> None:
        """One more."""
        self.statements.append(statement)
        self.wanted.append((count, batch))
        self.size += len(statement)


class Postgres(Target):
    """A PostgreSQL server."""

    distinct = True

    def __init__(self, words: str, client: str, schema: str, unfit_is_null: bool) -> None:
        """Connects. The client is `psycopg` or `psql`; where none is named, psycopg if it is installed. No other replica may do so."""
        super().__init__(schema, unfit_is_null)
        self._words = words, client
        self._connection = connected(*self._words)
        self._waiting = Waiting()
        self._is_locked = False
        try:
            self._make_place()
        except MisfitError:
            # Another process may have made it at the same moment.
            self.rollback()
            self._make_place()
        self._take_lock()

    def place(self) -> str:
        """The place that is kept."""
        with judged():
            return self._connection.query(f"SELECT place FROM {PLACE}")[0]

    def begin(self, place: str) -> None:
        """Begins a transaction, with a lock on the place."""
        self._waiting.add("BEGIN", -1)
        self._waiting.add(f"UPDATE {PLACE} SET place = place WHERE place = {literal(place)}", 1)

    def put(self, batch: Batch) -> None:
        """Makes the changes of a batch, with others, once there are enough."""
        waiting = self._waiting
        if batch.kind == "insert" and len(batch.rows) >= COPIED:
            self.flush()
            self._copy(batch)
            return
        waiting.add(statement_of(batch), len(batch.rows), batch)
        if waiting.size >= MOST_TEXT or len(waiting.statements) >= MOST_STATEMENTS:
            self.flush()

    def flush(self) -> None:
        """Carries out what waits."""
        waiting, self._waiting = self._waiting, Waiting()
        if not waiting.statements:
            return
        try:
            with judged():
                counts = self._connection.run(waiting.statements)
        except MisfitError as error:
            raise self._refused(waiting, error) from error
        for changed, (count, batch) in zip(counts, waiting.wanted):
            if changed != count and count >= 0:
                if batch is None:
                    raise AwayError("another process has moved the target on: start again")
                raise self.misfit(batch, f"changed {changed} rows in place of {count}")

    def commit(self, place: str) -> None:
        """Ends the transaction, with its place, once all that waits has changed what it should."""
        self._waiting.add(f"UPDATE {PLACE} SET place = {literal(place)}", 1)
        self.flush()
        with judged():
            self._connection.run(["COMMIT"])

    def rollback(self) -> None:
        """Takes the transaction back. psql ends with an error, and the server has taken it back then."""
        super().rollback()
        self._waiting = Waiting()
        try:
            with judged():
                self._connection.run(["ROLLBACK"])
        except ReplicaError:
            self._connection.close()
            self._connection = connected(*self._words)
            if self._is_locked:
                self._take_lock()

    def close(self) -> None:
        """Ends the connection."""
        self._connection.close()

    def shape(self, table: str) -> Shape:
        """A table as the target has it."""
        self.flush()
        with judged():
            rows = [json.loads(text) for text in self._connection.query(SHAPE.format(literal(table)))]
        key = [name for name, _, number in sorted(rows, key=lambda row: row[2] or 0) if number is not None]
        return Shape({name: type_ for name, type_, _ in rows}, key)

    def converter(self, log: str, target: str) -> Converter:
        """What makes of a value what the column takes."""
        return for_postgres(log, target)

    def create(self, name: str, columns: Sequence[tuple[str, str]], key: Sequence[str]) -> None:
        """Makes a table."""
        self._waiting.add(creating.statement(name, columns, key, creating.postgres_type, quoted), -1)
        self.flush()

    def empty(self, name: str) -> None:
        """Takes all rows of a table away. TRUNCATE would keep readers out, and needs a right of its own."""
        self._waiting.add(f"DELETE FROM {quoted(name)}", -1)
        self.flush()

    def alterations(self, name: str, columns: Sequence[tuple[str, str]], there: Sequence[str]) -> list[str]:
        """Statements that make a table with the columns that are there one with these."""
        return creating.alterations(name, columns, there, creating.postgres_type, quoted)

    def has_rows(self, name: str) -> bool:
        """Whether a table has a row."""
        self.flush()
        with judged():
            return bool(self._connection.query(f"SELECT 1 FROM {quoted(name)} LIMIT 1"))

    def _make_place(self) -> None:
        """Makes the table of the place where there is none."""
        with judged():
            self._connection.run(list(PLACE_MADE))

    def _take_lock(self) -> None:
        """Takes the lock on the place, or says who has it."""
        until = time.monotonic() + PATIENCE
        with judged():
            while self._connection.query(LOCK) != ["true"]:
                if time.monotonic() >= until:
                    holder = "".join(self._connection.query(HOLDER)[:1])
                    self._connection.close()
                    raise AwayError(f"another replica uses this target: the server's process {holder or '?'} has the lock of {PLACE}")
                time.sleep(PAUSE)
        self._is_locked = True

    def _copy(self, batch: Batch) -> None:
        """Puts in many rows."""
        names = ", ".join(quoted(name) for name in batch.names)
        rows = "".join("\t".join(map(copied, row)) + "\n" for row in batch.rows)
        try:
            with judged():
                changed = self._connection.copy(f"COPY {quoted(batch.table.name)} ({names}) FROM STDIN", rows)
        except MisfitError as error:
            raise self.misfit(batch, f"is refused: {error}") from error
        if changed != len(batch.rows):
            raise self.misfit(batch, f"changed {changed} rows in place of {len(batch.rows)}")

    def _refused(self, waiting: Waiting, error: MisfitError) -> MisfitError:
        """The error of statements of which one was refused. Where a single batch waited, it was that one."""
        batches = [batch for _, batch in waiting.wanted if batch]
        return self.misfit(batches[0], f"is refused: {error}") if len(batches) == 1 else error


def connected(words: str, client: str) -> Client:
    """A connection by a client."""
    if client == "psycopg" and psycopg is None:
        how = "apt-get install python3-psycopg, or pip install 'psycopg[binary]'"
        raise WrongWordsError(f"psycopg isn't installed: {how}")
    try:
        with judged():
            by_psycopg = psycopg is not None and client != "psql"
            connection: Client = Psycopg(words) if by_psycopg else psql.Connection(words)
            connection.run(list(SETTINGS))
            return connection
    except FileNotFoundError as error:
        raise WrongWordsError("neither psycopg nor psql is installed") from error


@contextlib.contextmanager
def judged() -> Iterator[None]:
    """Says of what PostgreSQL refuses whether it may go on when it is begun again."""
    try:
        yield
    except psql.PsqlError as error:
        raise of_state(error.state, str(error)) from error
    except Exception as error:
        if psycopg is None or not isinstance(error, psycopg.Error):
            raise
        raise of_state(error.sqlstate, str(error)) from error


def of_state(state: str | None, said: str) -> ReplicaError:
    """The error that stands for a code of PostgreSQL's: without one the connection is gone."""
    line = said.strip().replace("\n", " ")
    return AwayError(line) if not state or state[:2] in PASSING else MisfitError(line)


def statement_of(batch: Batch) -> str:
    """The statement that makes the changes of a batch."""
    table, names, key = batch.table.name, batch.names, batch.key
    if batch.kind == "insert":
        return front_of_insert(table, names) + tuples(batch.rows)
    if len(batch.rows) == 1:
        return single(batch)
    types = batch.table.shape.types
    front, back, casts = frame_of(table, names, key, tuple(types[name] for name in names + key))
    # The types of the first row's values are those of all.
    first = ", ".join([literal(value) + cast for value, cast in zip(batch.rows[0], casts)])
    return f"{front}({first}), {tuples(batch.rows[1:])}{back}"


def single(batch: Batch) -> str:
    """The statement that makes an update or a delete of one row."""
    (row,) = batch.rows
    names = batch.names
    key = row[len(names) :]
    # A key that stays isn't written: PostgreSQL refuses that where it is an identity.
    others = tuple(name for name in names if name not in batch.key)
    put = names if batch.moves(row) or not others else others
    values = [value for name, value in zip(names, row) if name in put]
    fronts = fronts_of(batch.kind, batch.table.name, put, batch.key)
    return "".join([front + literal(value) for front, value in zip(fronts, [*values, *key])])


@lru_cache(MOST_FORMS)
def front_of_insert(table: str, names: tuple[str, ...]) -> str:
    """What stands before the rows of an insert."""
    columns = ", ".join(map(quoted, names))
    return f"INSERT INTO {quoted(table)} ({columns}) OVERRIDING SYSTEM VALUE VALUES "


@lru_cache(MOST_FORMS)
def fronts_of(kind: str, table: str, put: tuple[str, ...], key: tuple[str, ...]) -> list[str]:
    """What stands before each value of an update of one row, or of a delete."""
    which = [f"{' AND ' if at else ' WHERE '}{quoted(name)} = " for at, name in enumerate(key)]
    if kind == "delete":
        which[0] = f"DELETE FROM {quoted(table)}{which[0]}"
        return which
    fronts = [f"{', ' if at else f'UPDATE {quoted(table)} SET '}{quoted(name)} = " for at, name in enumerate(put)]
    return fronts + which


@lru_cache(MOST_FORMS)
def frame_of(
    table: str, names: tuple[str, ...], key: tuple[str, ...], types: tuple[str, ...]
) -> tuple[str, str, list[str]]:
    """What stands before and behind the rows of an update or a delete, and behind each value of the first one."""
    parts = [f"c{number}" for number in range(len(types))]
    which = " AND ".join(f"t.{quoted(name)} = v.{part}" for name, part in zip(key, parts[len(names) :]))
    others = [name for name in names if name not in key] or names
    put = ", ".join(f"{quoted(name)} = v.{part}" for name, part in zip(names, parts) if name in others)
    front = f"UPDATE {quoted(table)} AS t SET {put} FROM" if names else f"DELETE FROM {quoted(table)} AS t USING"
    back = f") AS v ({', '.join(parts)}) WHERE {which}"
    return f"{front} (VALUES ", back, [f"::{type_}" for type_ in types]


def tuples(rows: Sequence[tuple[Optional[str], ...]]) -> str:
    """Rows in parentheses."""
    return ", ".join(["(" + ", ".join([literal(value) for value in row]) + ")" for row in rows])


def literal(value: str | None) -> str:
    """A value as PostgreSQL reads it, of the type that its column has."""
    return "NULL" if value is None else "'" + value.replace("'", "''") + "'"


def copied(value: str | None) -> str:
    """A value as COPY reads it."""
    return "\\N" if value is None else value.translate(ESCAPES)


def quoted(name: str) -> str:
    """A table's or column's name in a statement."""
    return '"' + name.replace('"', '""') + '"'
