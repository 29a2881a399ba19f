"""The statements that a replica meets between the changes: what the command line says of them, and what to do where they end it."""
from __future__ import annotations

import sys
from typing import NamedTuple

from binlogfeed.statements import ALTER, DROP, DROP_DATABASE, RENAME, TRUNCATE, Effect, Statement
from targets import PAGE, StatementError

# So many statements that change rows are told of each look, and so many characters of one that ends the replica.
MOST_STATEMENTS, MOST_SHOWN = 10, 2000
STEPS = {
    TRUNCATE: "take the rows of {} away in the target",
    ALTER: "alter {} in the target as the server's was altered",
    DROP: "drop {} in the target",
    RENAME: "rename {} in the target as the server's was renamed",
    DROP_DATABASE: "drop the target's tables",
}
BROUGHT = "have {} in the target with the rows that it came with, of which no line tells"
OBEYED = "or start again with --truncate, by which each TRUNCATE TABLE takes the rows of the target's table away"


class Orders(NamedTuple):
    """What is wanted at statements."""

    # Whether a TRUNCATE TABLE takes the rows of the target's table away.
    truncate: bool = False
    # The token of a statement that the target's tables stand behind: a person did there what it did.
    done: str = ""

    def obeys(self, effect: Effect) -> bool:
        """Whether a statement is carried out in the target. Another table's name may differ in great and small letters alone."""
        return self.truncate and effect.what == TRUNCATE and effect.is_exact


def stop_at(statement: Statement, effect: Effect, orders: Orders) -> StatementError:
    """The error of a statement that a person has to do in the target."""
    step = (BROUGHT if effect.brings else STEPS[effect.what]).format(", ".join(effect.tables))
    hints = [f"{step}, and start again with --done {statement.token} ({PAGE})"]
    if effect.what == TRUNCATE and not orders.truncate:
        hints.append(OBEYED)
    line = f"the statement at {statement.token} has no rows in the log, and isn't carried over: {statement.shown(MOST_SHOWN)}"
    error = StatementError(line)
    error.hinted(*hints)
    return error


class Notes:
    """The statements that a replica goes on behind, though they changed rows: each is said once."""

    def __init__(self) -> None:
        """None."""
        self._met: set[tuple[str, int]] = set()
        self._first: list[Statement] = []
        self._last: Statement | None = None

    def add(self, statement: Statement) -> None:
        """One more, unless it was met before the replica went back to its place."""
        place = statement.file, statement.position
        if place not in self._met:
            self._met.add(place)
            self._last = statement
            self._first += [statement] if len(self._first) < MOST_STATEMENTS else []

    def say(self) -> None:
        """Says them on standard error, and forgets them."""
        for statement in self._first:
            print(f"replica: this has no rows in the log and isn't carried over: {statement}", file=sys.stderr)
        if more := len(self._met) - len(self._first):
            print(f"replica: nor are {more} more statements, up to {self._last}", file=sys.stderr)
        sys.stderr.flush()
        self._met, self._first, self._last = set(), [], None
