"""Changes that stand one behind the other, and are of one table and kind: a target makes them at once."""
from __future__ import annotations

from typing import TYPE_CHECKING, Any

from binlogfeed.lines import Change
from fitting import UnfitError

if TYPE_CHECKING:
    from targets import Table, Target

# A batch has so many changes at most, and begins none behind so many bytes of lines.
MOST_CHANGES = 1000
MOST_BYTES = 1 << 20

Row = tuple[Any, ...]
PRIVATE = ("_after", "_before", "_keys", "_places")


class Batch:
    """Changes of one table and kind, which name the same columns.

    A row has the values of `names`, those of the row as it is then. Behind them an update has those of the key of the
    row as it was. A delete has only those.
    """

    __slots__ = ("form", "table", "kind", "names", "key", "rows", "token", "size", *PRIVATE)

    def __init__(self, table: Table, change: Change) -> None:
        """An empty batch for changes such as this one."""
        self.form = change.form
        self.table = table
        self.kind = change.form.kind
        self.names = tuple(change.after or ())
        self.key = () if self.kind == "insert" else tuple(table.shape.key)
        self.rows: list[Row] = []
        self.token = change.token
        self.size = 0
        self._after, self._before = table.taker(self.names), table.taker(self.key)
        # The keys of the rows that were taken; and which values of a row tell whether its key has changed.
        self._keys: set[Row] = set()
        names, key = self.names, self.key if self.kind == "update" else ()
        self._places = [(names.index(name), len(names) + at) for at, name in enumerate(key) if name in names]

    def takes(self, change: Change) -> bool:
        """Whether a change may stand in this batch."""
        # A form is that of a kind, a table and its columns.
        return (
            change.form is self.form
            and (change.after is None or len(change.after) == len(self.names) and tuple(change.after) == self.names)
            and len(self.rows) < MOST_CHANGES
            and self.size < MOST_BYTES
        )

    def row(self, change: Change) -> Row:
        """A change's values."""
        after = () if change.after is None else self._after(change.after)
        return after if change.before is None else after + self._before(change.before)

    def add(self, row: Row, size: int) -> None:
        """Takes a change."""
        self.rows.append(row)
        self.size += size

    def is_new(self, row: Row) -> bool:
        """Whether an update is the first of its row in this batch, and leaves its key as it is."""
        key = row[len(self.names) :]
        if key in self._keys or self.moves(row):
            return False
        self._keys.add(key)
        return True

    def moves(self, row: Row) -> bool:
        """Whether an update changes the key of its row."""
        return any(row[after] != row[before] for after, before in self._places)


class Batcher:
    """Puts changes together, and hands the batches to a target."""

    def __init__(self, target: Target) -> None:
        """A batcher for a target."""
        self._target = target
        self._batch: Batch | None = None
        # Whether each change is made by itself, so that an error names the one that is wrong.
        self.alone = False

    def take(self, change: Change, size: int) -> None:
        """Takes a change, with the length of its line, behind the others."""
        batch = self._batch
        if batch is None or not batch.takes(change):
            self.hand_over()
            batch = self._begun(change)
        try:
            row = batch.row(change)
        except UnfitError:
            raise self._target.unfit(batch.table, change) from None
        except KeyError as error:
            raise self._target.misfit(batch, f"hasn't the key's column {error}") from error
        if batch.kind == "update" and self._target.distinct and not batch.is_new(row):
            self.hand_over()
            batch = self._begun(change)
            # An update that changes the key of its row stays alone.
            if not batch.is_new(row):
                batch.size = MOST_BYTES
        batch.add(row, size)
        if self.alone:
            self.hand_over()
            self._target.flush()

    def hand_over(self) -> None:
        """Hands over what was taken."""
        batch, self._batch = self._batch, None
        if batch is not None and batch.rows:
            self._target.put(batch)

    def forget(self) -> None:
        """Forgets what was taken."""
        self._batch = None

    def _begun(self, change: Change) -> Batch:
        """A batch that begins with a change."""
        batch = Batch(self._target.table(change), change)
        if batch.kind != "insert" and not batch.key:
            raise self._target.misfit(batch, "needs a primary key in the target's table")
        self._batch = batch
        return batch
