"""The databases that a replica is kept in: what SQLite and PostgreSQL have in common, and what goes wrong with them."""
from __future__ import annotations

from collections.abc import Callable, Sequence
from operator import itemgetter
from typing import Any, NamedTuple

from batches import Batch
from binlogfeed.columns import are_numbered
from binlogfeed.lines import Change
from binlogfeed.values import Column
from fitting import Converter, UnfitError, or_null

Columns = tuple[Column, ...]
Image = dict[str, Any]
Taker = Callable[[Image], tuple[Any, ...]]

# The table that has the place, in one row.
PLACE = "binlogfeed_place"
PLACE_MADE = (
    f"CREATE TABLE IF NOT EXISTS {PLACE} (nr integer PRIMARY KEY, place text NOT NULL)",
    f"INSERT INTO {PLACE} (nr, place) VALUES (1, '') ON CONFLICT (nr) DO NOTHING",
)
# What to do where the server's table was altered.
PAGE = "examples/replica/README.md, \"After an ALTER TABLE\""
ALTER = f"alter the target's table as the server's was altered, and start again ({PAGE}); to have the log's columns it takes:"
TYPES_ALONE = f"the names are the same: change the target's types where they can't hold the new values, and start again ({PAGE})"
NEW_COLUMNS = f"make the file of --columns anew, alter the target's table as the server's was altered, and start again ({PAGE})"


class ReplicaError(Exception):
    """What ends the replica. `status` is the exit status that stands for it."""

    status = 70
    # What to do, below the line.
    hints: tuple[str, ...] = ()

    def hinted(self, *hints: str) -> ReplicaError:
        """The same, with these hints."""
        self.hints = hints
        return self


class WrongWordsError(ReplicaError):
    """The target's words are none, or what they need isn't installed."""

    status = 2


class AwayError(ReplicaError):
    """The target can't be reached or written, or another process moved it on. Begun again, it may go on."""

    status = 4


class MisfitError(ReplicaError):
    """A change that doesn't fit the target. It comes back until a person has mended the cause."""

    status = 7


class StatementError(ReplicaError):
    """A statement that the replica doesn't carry over, and can't pass over either. A person does it in the target, and says so."""

    status = 7


class Shape(NamedTuple):
    """A table as the target has it: its columns with their types, and the columns of its primary key."""

    types: dict[str, str]
    key: list[str]


class Table(NamedTuple):
    """A table that takes changes: its columns in the log, and what makes of a value what the target's column takes."""

    name: str
    columns: Columns
    converters: dict[str, Converter]
    shape: Shape

    # What takes the values of some columns of a row, as the target has them, by the columns' names.
    takers: dict[tuple[str, ...], Taker]

    def taker(self, names: tuple[str, ...]) -> Taker:
        """What takes the values of some columns of a row, as the target has them."""
        if names not in self.takers:
            self.takers[names] = taker_of(names, [self.converters[name] for name in names])
        return self.takers[names]


def taker_of(names: tuple[str, ...], converters: list[Converter]) -> Taker:
    """What takes the values of some columns, each as its converter makes it."""

    def some(image: Image) -> tuple[Any, ...]:
        """The values of less than two columns, of which `itemgetter` makes no tuple."""
        return tuple(image[name] for name in names)

    get: Taker = some
    if len(names) > 1:
        get = itemgetter(*names)
    steps = [(at, convert) for at, convert in enumerate(converters) if convert is not None]
    if not steps:
        return get

    def taken(image: Image) -> tuple[Any, ...]:
        """The values of a row."""
        values = list(get(image))
        for at, convert in steps:
            if values[at] is not None:
                values[at] = convert(values[at])
        return tuple(values)

    return taken


class Target:
    """A database. It applies batches of changes, and keeps the place behind them, in one transaction."""

    # Whether a batch may change a row only once, and no row's key.
    distinct = False
    # Whether tables that aren't there are made, by what the log says of them.
    creates = False

    def __init__(self, schema: str, unfit_is_null: bool) -> None:
        """A target of a schema of the log. What its columns can't hold is NULL there, or ends the run."""
        self._schema = schema
        self._unfit_is_null = unfit_is_null
        self._tables: dict[str, Table] = {}
        # The columns that a table had in the log when it was met last.
        self._met: dict[str, Columns] = {}

    def place(self) -> str:
        """The place that is kept: empty at first."""
        raise NotImplementedError

    def begin(self, place: str) -> None:
        """Begins a transaction. It is refused where the target's place is another.

        A process that was killed may still have a COMMIT on its way. Where that comes first, this place is gone.
        """
        raise NotImplementedError

    def put(self, batch: Batch) -> None:
        """Makes the changes of a batch. Each has to find the row that the log changed, and no other in its place."""
        raise NotImplementedError

    def flush(self) -> None:
        """Has all batches carried out that were put."""

    def commit(self, place: str) -> None:
        """Ends the transaction, with its place."""
        raise NotImplementedError

    def rollback(self) -> None:
        """Takes the transaction back. The target's tables may be others afterwards."""
        self._tables.clear()

    def close(self) -> None:
        """Ends the connection. A transaction that is open is rolled back."""
        raise NotImplementedError

    def shape(self, table: str) -> Shape:
        """A table as the target has it."""
        raise NotImplementedError

    def converter(self, log: str, target: str) -> Converter:
        """What makes of a value of the log's type one of the target's."""
        raise NotImplementedError

    def create(self, name: str, columns: Sequence[tuple[str, str]], key: Sequence[str]) -> None:
        """Makes a table of these columns, with their types in the log, in the open transaction."""
        raise NotImplementedError

    def has_rows(self, name: str) -> bool:
        """Whether a table has a row."""
        raise NotImplementedError

    def empty(self, name: str) -> None:
        """Takes all rows of a table away, in the open transaction."""
        raise NotImplementedError

    def forget(self) -> None:
        """Forgets what was known of the tables: a person may have changed them."""
        self._tables.clear()
        self._met.clear()

    def alterations(self, name: str, columns: Sequence[tuple[str, str]], there: Sequence[str]) -> list[str]:
        """Statements that make a table with the columns that are there one with these, which have their types in the log."""
        raise NotImplementedError

    def table(self, change: Change) -> Table:
        """The table of a change, which has to have the columns of the target's, and those that it had before."""
        name, columns = change.form.table, change.form.columns
        known = self._tables.get(name)
        if known and known.columns == columns:
            return known
        met, where = self._met.get(name), f"{self._schema}.{name}"
        shape = self.shape(name)
        if not shape.types and self.creates and not are_numbered(columns):
            self.create(name, columns, change.form.key)
            shape = self.shape(name)
        unnamed = f"the log has no names for the columns of {where} at {change.token} (binlog_row_metadata=MINIMAL): name them by --columns"
        if not shape.types and self.creates:
            raise MisfitError(unnamed)
        if not shape.types:
            missing = MisfitError(f"the target has no table {name}, which a change at {change.token} is of")
            raise missing.hinted("make it, or have --create make it; or rename it, where the server's was renamed, and start again")
        lists = f"in the log it has {listed(columns)}; in the target {listed(tuple(shape.types.items()))}"
        statements = self.alterations(name, columns, list(shape.types))
        if met and met != columns:
            # Begun again, the replica takes the table as it is by then.
            changed = f"the columns of {where} have changed at {change.token}"
            raise MisfitError(f"{changed}: before, it had {listed(met)}; {lists}").hinted(ALTER if statements else TYPES_ALONE, *statements)
        if {column.name for column in columns} != set(shape.types):
            if are_numbered(columns):
                raise MisfitError(f"{unnamed}; {lists}")
            raise MisfitError(f"the columns of {where} at {change.token} aren't those of the target: {lists}").hinted(ALTER, *statements)
        converters = {column.name: self.converter(column.type, shape.types[column.name]) for column in columns}
        if self._unfit_is_null:
            converters = {column: convert and or_null(convert) for column, convert in converters.items()}
        self._met[name] = columns
        self._tables[name] = Table(name, columns, converters, shape, {})
        return self._tables[name]

    def misfit(self, batch: Batch, reason: str) -> MisfitError:
        """The error of a batch. That of more than one change isn't said: the replica takes them one by one then."""
        return MisfitError(f"{self._schema}.{batch.table.name}: the {batch.kind} at {batch.token} {reason}")

    def unfit(self, table: Table, change: Change) -> MisfitError:
        """The error of a change that has a value which its column can't hold."""
        for image in (change.after, change.before):
            for name, value in (image or {}).items():
                convert = table.converters[name]
                try:
                    if convert is not None and value is not None:
                        convert(value)
                except UnfitError:
                    where = f"{self._schema}.{table.name}.{name}"
                    held = f"can't hold {value!r} at {change.token}"
                    return MisfitError(f"{where} is {table.shape.types[name]} in the target, and {held}")
        return MisfitError(f"{self._schema}.{table.name}: a value at {change.token} can't be converted")


def listed(columns: tuple[tuple[str, str], ...]) -> str:
    """Columns and their types, as a person reads them."""
    return ", ".join(f"{name} {type_}".rstrip() for name, type_ in sorted(columns))
