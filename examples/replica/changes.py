"""The changes that a server's logs have behind a place, by the full lines of `read --follow`, and the statements between them."""
from __future__ import annotations

import json
import threading
import time
from collections.abc import Iterator
from typing import Any, NamedTuple, Union

from binlogfeed import JSON_NULL, BinlogfeedError, Place
from binlogfeed.begin import FIRST, place_of
from binlogfeed.columns import Tables
from binlogfeed.filters import ROWS
from binlogfeed.lag import last_place
from binlogfeed.lines import Change, not_full, reader_of_lines
from binlogfeed.program import Run
from binlogfeed.statements import Statement, Statements, Wanted
from binlogfeed.summary.changes import Changes as Counted
from binlogfeed.summary.changes import counted_block
from binlogfeed.tokens import token_parts
from binlogfeed.values import Style
from binlogfeed.watch import Watch

# Where none of the logs' changes is of a schema, so many others are named, of so many bytes of lines.
MOST_NAMES, MOST_LOOKED_AT = 3, 16 << 20

# A change with the length of its line, or a statement.
Found = Union["tuple[Change, int]", Statement]


class Source(NamedTuple):
    """A schema in a server's logs, and how they are read."""

    # An index, its folder, or a pattern.
    logs: str
    schema: str
    program: str = "binlogfeed"
    profile: str = "server"
    # The columns of tables that have no names in the log.
    tables: Tables = {}
    # Where to begin if the target keeps no place yet.
    begin: str = FIRST
    # How many seconds a change waits behind the moment at which it was seen.
    lag: float = 0.0
    # The names of the tables that are kept, with commas; all where there is none.
    only_tables: str = ""

    @property
    def wanted(self) -> list[str]:
        """What changes are wanted of."""
        return [self.schema, self.only_tables]

    @property
    def tables_wanted(self) -> Wanted:
        """The tables that changes are wanted of."""
        return Wanted(self.schema, self.only_tables)

    def waiting_behind(self, place: Place) -> str:
        """A place as it is kept before the first change. It counts for who wants the same: another begins anew."""
        return json.dumps({**json.loads(place.to_text()), "waits_for": self.wanted})


def waits_for(text: str) -> list[str] | None:
    """What a place that is kept waits for; None where it is none before the first change."""
    found: list[str] | None = member_of(text, "waits_for")
    return found


def behind_statement(place: Place) -> str:
    """A place as it is kept behind a statement, whose token it has. Without the member it would be before that statement."""
    return json.dumps({**json.loads(place.to_text()), "statement_taken": True})


def is_behind_statement(text: str) -> bool:
    """Whether a place that is kept is behind the statement that has its token."""
    return member_of(text, "statement_taken") is True


def member_of(text: str, name: str) -> Any:
    """A member of a place that is kept; None where it has none."""
    try:
        told = json.loads(text or "{}")
    except ValueError:
        return None
    return told.get(name) if isinstance(told, dict) else None


class Changes:
    """A schema's changes, look after look, each once.

    BinLogStreamReader makes its events of the same changes. It goes on behind a token; this goes on behind a whole
    place, which also holds where the token's file is gone, and it knows where a look ends.
    """

    def __init__(self, source: Source, place: Place, is_first: bool, again: bool = False, is_behind: bool = False) -> None:
        """The changes behind a place, or from where the source is to be begun.

        `is_first` says that none was taken before, `again` that they were begun before, and `is_behind` that the place is behind the
        statement that has its token.
        """
        options = [f"--profile={source.profile}", ROWS, f"--only-schemas={source.schema}"]
        options += [f"--only-tables={source.only_tables}"] if source.only_tables else []
        self._watch = Watch(source.logs, [source.program, "read", "--follow", "--full", *options], place, source.begin, "the target", source.lag)
        self._watch.begun = again
        self._source = source
        # Values stay as the line has them, but for bytes and the JSON null.
        self._taken_apart = reader_of_lines(Style(raw=True, json_null=JSON_NULL), {}, source.tables)
        # Begun with the first look, once its place is known.
        self._statements: Statements | None = None
        self._is_behind = is_behind
        # Whether the tables may have rows by now. In front of the first change of the first log they have none.
        self._may_have_rows = not is_first or source.begin != FIRST

    def look(self) -> Iterator[Found]:
        """The changes that are new by now, and before each the statements that stand there, but for those before all changes.

        What ended the reading early is raised.
        """
        taken_apart = self._taken_apart
        self._watch.begin()
        if self._statements is None:
            place = self._watch.place if self._watch.place.file else place_of(self._source.begin)
            self._statements = Statements(place.file, token_parts(place.resume).position if place.resume else 0, self._is_behind)
        for block in self._watch.look():
            try:
                last = last_place(block)
            except (ValueError, KeyError):
                raise not_full() from None
            statements = self._found(last.file, last.position)
            for line in block.split(b"\n")[:-1]:
                if statements or not self._may_have_rows:
                    yield from self._before(line, statements)
                yield Change(taken_apart(line)), len(line)
        reached, position = self._watch.reached
        statements = self._found(reached, position) if reached else []
        if statements and self._may_have_rows:
            self._wait_for_lag()
            yield from statements

    def _found(self, file: str, position: int) -> list[Statement]:
        """The statements up to a place of the logs that change the schema's rows or columns, and weren't given yet."""
        paths, wanted = [log.path for log in self._watch.told], self._source.tables_wanted
        return [it for it in self._statements.of(paths, (file, position)) if it.effect(wanted)] if self._statements else []

    def _before(self, line: bytes, statements: list[Statement]) -> Iterator[Statement]:
        """Those of the statements that stand before the change of a line. They are taken away."""
        at, logs = last_place(line), {log.name: number for number, log in enumerate(self._watch.told)}
        while statements and (logs[statements[0].file], statements[0].position) < (logs[at.file], at.position):
            statement = statements.pop(0)
            if self._may_have_rows:
                yield statement
        self._may_have_rows = True

    def _wait_for_lag(self) -> None:
        """Waits until what the last look has found may be given, as its changes did."""
        if self._source.lag and self._watch.caught_up is not None:
            time.sleep(max(0.0, self._watch.caught_up + self._source.lag - time.monotonic()))

    @property
    def place(self) -> Place:
        """The place behind all changes that were given, once a look has ended."""
        return self._watch.place

    @property
    def is_empty(self) -> bool:
        """Whether the last look has found no log."""
        return self._watch.is_empty

    def place_behind(self, token: str, place: Place) -> Place:
        """The place behind a change that the look gave, where `place` is one before it."""
        return place.behind(token, self._watch.told)

    def in_log(self, file: str, place: Place) -> Place:
        """The place before all changes of a log of the last look, where `place` is behind those of the logs before it."""
        logs = self._watch.told
        names = [log.name for log in logs]
        return place.at_end(logs[: names.index(file) + 1])

    def other_schemas(self) -> list[str]:
        """Some schemas that the logs of the last look have changes of."""
        names: set[str] = set()
        size = 0
        paths = [log.path for log in self._watch.told]
        run = Run([self._source.program, "read", f"--profile={self._source.profile}", ROWS, "--", *paths])
        try:
            for block in run.blocks() if paths else ():
                counted = Counted()
                counted.add(counted_block(block, 0))
                names |= {table.schema for table in counted.tables()}
                size += len(block)
                if len(names) >= MOST_NAMES or size >= MOST_LOOKED_AT:
                    break
        except BinlogfeedError:
            pass  # what was read before it tells
        finally:
            run.end()
        return sorted(names)

    def begin(self) -> bool:
        """Finds the place where the first look begins, if that is the logs' end by now. Answers whether it is found now."""
        return self._watch.begin()

    def wait(self, seconds: float) -> None:
        """Waits for so long. Raises what the program ended with meanwhile."""
        self._watch.wait(seconds, threading.Event())

    def close(self) -> None:
        """Ends the program."""
        self._watch.end()
