#!/usr/bin/env python3
"""Keeps a copy of a MySQL schema's tables in SQLite or PostgreSQL, from the server's log files.

    replica.py sqlite:FILE SCHEMA LOGS
    replica.py postgres:CONNECTION SCHEMA LOGS

postgres takes psycopg where that is installed, else the program psql; psycopg:CONNECTION and psql:CONNECTION name one
of them. LOGS is the server's index file, the folder that has one, or a pattern in quotes. The tables stand in the
target already, by the same names, with the same columns and with their primary keys; or --create makes them. The first
run begins with the first log, or with a copy of the server's tables (--from). Each run takes what is new in the logs,
and ends; with --follow it goes on.

One transaction of the target has whole transactions of the log, and the place behind them. So whenever this process is
killed, the target has each change up to its place once, and none behind it.
"""
from __future__ import annotations

import argparse
import signal
import sys
import traceback
from collections.abc import Sequence
from dataclasses import replace
from pathlib import Path
from types import FrameType

sys.path.insert(0, str(Path(__file__).resolve().parents[2] / "python"))

from batches import Batcher  # noqa: E402
from binlogfeed import BinlogfeedError, ColumnsMismatch, LogFault, Place  # noqa: E402
from binlogfeed import begin  # noqa: E402
from binlogfeed.begin import FIRST  # noqa: E402
from binlogfeed.columns import Tables, tables_of  # noqa: E402
from binlogfeed.filters import add_profile  # noqa: E402
from binlogfeed.hints import hints_of  # noqa: E402
from binlogfeed.lines import Change  # noqa: E402
from binlogfeed.options import LAG_HELP, lag_seconds, only_one, seconds  # noqa: E402
from binlogfeed.statements import DROP_DATABASE, ROWS, Effect, Statement  # noqa: E402
from binlogfeed.tokens import beginning  # noqa: E402
from changes import Changes, Source, behind_statement, is_behind_statement, waits_for  # noqa: E402
from copying import Server, take_copy  # noqa: E402
from postgres import Postgres  # noqa: E402
from sqlite import Sqlite  # noqa: E402
from statements_met import Notes, Orders, stop_at  # noqa: E402
from targets import NEW_COLUMNS, AwayError, MisfitError, ReplicaError, Target, WrongWordsError  # noqa: E402

ENDS = """exit status:
  0   the logs are taken to their end, or SIGTERM ended it
  1   something in a log can't be taken in
  2   the words are wrong, or neither psycopg nor psql is there
  3   the kept place is none, or fits no place of the logs
  4   a log or the target can't be reached, read or written, or another replica uses it: it may be there again later
  5   out of memory
  6   logs that were still to be read are gone
  7   a change doesn't fit the target, or the server has truncated, altered, dropped or renamed one of its tables
  70  the program can't be started, or a mistake in this one"""


class Replica:
    """A target that is kept as a schema's tables are."""

    def __init__(self, target: Target, source: Source, commit_every: int, follows: bool = False, orders: Orders = Orders()) -> None:
        """A replica of what the logs have of a schema. A transaction of the target has so many of the log's.

        One that follows waits for the first change of the schema, where the logs have those of others alone. The orders say what is
        wanted at statements.
        """
        self._target = target
        self._source = source
        self._commit_every = commit_every
        self._batcher = Batcher(target)
        self._kept = target.place()
        # Whether the place is more than one that a replica has waited behind, and whether this one is to wait behind that.
        self._is_known = bool(self._kept) and waits_for(self._kept) is None
        self._has_waited = source.begin == FIRST and waits_for(self._kept) == source.wanted
        self._place = Place.from_text(self._kept) if self._is_known or self._has_waited else Place()
        # Whether the place is behind the statement that has its token.
        self._is_behind = is_behind_statement(self._kept)
        self._changes = Changes(source, self._place, is_first=not self._is_known, is_behind=self._is_behind)
        self._orders, self._notes = orders, Notes()
        # The log's transaction that is being taken, the token of its last change, and how many are whole before it.
        self._transaction: str | None = None
        self._token = ""
        self._whole = 0
        # How many transactions are still to be taken change by change.
        self._alone = 0
        self._said_none = False
        self._follows, self._is_waiting = follows, False

    def catch_up(self) -> None:
        """Takes what the logs have by now, and says which statements it went on behind."""
        try:
            self._catch_up()
        finally:
            self._notes.say()

    def _catch_up(self) -> None:
        """Takes what the logs have by now."""
        while True:
            try:
                self._look()
                return
            except (MisfitError, BinlogfeedError) as error:
                is_open = self._transaction is not None
                self._take_back()
                if self._alone or not is_open:
                    raise
                # An error of a batch doesn't say which change it is of, and whole transactions may stand before it.
                # Taken change by change, these come in, and the error is that of a change.
                self._alone = self._commit_every

    def wait(self, seconds: float) -> None:
        """Waits for so long. Raises what the program ended with meanwhile."""
        self._changes.wait(seconds)

    def close(self) -> None:
        """Ends the program."""
        self._changes.close()

    def _look(self) -> None:
        """Takes what is new. What isn't whole behind an error is taken back when the target is closed."""
        self._batcher.alone = self._alone > 0
        if self._changes.begin():
            # What is committed behind the logs' end by now isn't to be missed after a kill.
            self._keep(self._changes.place)
        try:
            for found in self._changes.look():
                if isinstance(found, Statement):
                    self._meet(found)
                else:
                    self._take(*found)
        except LogFault as fault:
            # A log's fault stands behind whole transactions, unless the file changed while it was read.
            if self._transaction and fault.what != "SourceChanged":
                self._commit()
            raise
        except ColumnsMismatch as mismatch:
            if self._transaction and self._transaction != beginning(mismatch.token):
                self._commit()
            raise mismatch.hinted(NEW_COLUMNS)
        if self._transaction:
            self._commit()
        self._keep(self._changes.place, self._is_unknown())
        if self._changes.is_empty and not self._said_none:
            self._said_none = True
            print(f"replica: no log matches {self._source.logs} yet", file=sys.stderr, flush=True)

    def _meet(self, statement: Statement) -> None:
        """Obeys a statement, goes on behind it, or ends the replica there. What stands before it is kept."""
        effect = statement.effect(self._source.tables_wanted)
        if effect is None or effect.what == ROWS:
            self._notes.add(statement)
            return
        if self._transaction:
            self._commit()
        if not self._is_of_target(effect):
            return
        is_done = statement.token == self._orders.done
        obeys = self._orders.obeys(effect) and all(self._target.shape(table).types for table in effect.tables)
        if not is_done and not obeys:
            if self._is_known and self._place.file != statement.file:
                # The logs before it aren't needed any more.
                self._keep(self._changes.in_log(statement.file, self._place))
            raise stop_at(statement, effect, self._orders)
        self._go_behind(statement, () if is_done else effect.tables)

    def _is_of_target(self, effect: Effect) -> bool:
        """Whether the target has a table that a statement is of, or should have one by now. A server may write all names in small letters."""
        names = {name for table in effect.tables for name in (table, table.lower())}
        return effect.brings or effect.what == DROP_DATABASE or any(self._target.shape(name).types for name in names)

    def _go_behind(self, statement: Statement, emptied: Sequence[str]) -> None:
        """Takes the rows of some tables away, and keeps the place behind a statement, both at once."""
        place = self._changes.place_behind(statement.token, self._place)
        text = behind_statement(place)
        self._target.begin(self._kept)
        try:
            for table in emptied:
                self._target.empty(table)
            self._target.commit(text)
        except MisfitError as error:
            raise MisfitError(f"{statement.shown()} at {statement.token} is refused: {error}") from error
        self._target.forget()
        self._place, self._kept, self._is_known, self._is_behind = place, text, True, True

    def _is_unknown(self) -> bool:
        """Whether the logs have changes of other schemas alone. The name may be wrong then, and the place isn't to count for another.

        They are read for that once: what was found stays so until a change of this schema comes.
        """
        source = self._source
        if self._is_known or source.begin != FIRST or self._changes.is_empty:
            return False
        if not self._is_waiting:
            others = [] if self._has_waited else self._changes.other_schemas()
            # One of this schema may have come meanwhile.
            if self._has_waited or (others and (source.only_tables or source.schema not in others)):
                self._wait_for_one(others)
        return self._is_waiting

    def _wait_for_one(self, others: list[str]) -> None:
        """Says that only others have changes, and waits for one, if that is wanted. Else it is an error."""
        wanted, but, name = f"the schema {self._source.schema}", f", but of {', '.join(others)}" if others else "", "name"
        if self._source.schema in others or (self._has_waited and self._source.only_tables):
            wanted, but, name = self._source.only_tables, "", "names"
        if not self._follows:
            raise WrongWordsError(f"no log has a change of {wanted}{but}: mend the {name}, or begin with --begin now")
        self._is_waiting = True
        print(f"replica: no log has a change of {wanted} yet{but}: waiting for one", file=sys.stderr, flush=True)

    def _take(self, change: Change, size: int) -> None:
        """Takes a change, and ends the transaction before it where it is of another."""
        transaction = beginning(change.token)
        if transaction != self._transaction:
            if self._transaction is not None:
                self._whole += 1
                if self._whole >= self._commit_every or self._alone:
                    self._commit()
            if self._whole == 0:
                self._target.begin(self._kept)
            self._transaction = transaction
        self._token = change.token
        self._batcher.take(change, size)

    def _commit(self) -> None:
        """Keeps what was taken, up to the last change."""
        self._batcher.hand_over()
        place = self._changes.place_behind(self._token, self._place)
        text = place.to_text()
        try:
            self._target.commit(text)
        except MisfitError as error:
            raise MisfitError(f"up to {self._token}: {error}") from error
        self._place, self._kept, self._is_known, self._is_behind = place, text, True, False
        self._transaction, self._whole = None, 0
        if self._alone:
            self._alone -= 1
            self._batcher.alone = self._alone > 0

    def _keep(self, place: Place, is_unknown: bool = False) -> None:
        """Keeps the place at the end of a look, which may be in a later log than the last change, or before a statement there."""
        if self._is_behind:
            place = replace(place, token=self._place.token)
        is_behind = self._is_behind and place.resume is not None
        text = self._source.waiting_behind(place) if is_unknown else behind_statement(place) if is_behind else place.to_text()
        if text != self._kept and place.file is not None:
            self._target.begin(self._kept)
            self._target.commit(text)
            self._place, self._kept, self._is_known, self._is_behind = place, text, not is_unknown, is_behind

    def _take_back(self) -> None:
        """Goes back to the kept place."""
        self._changes.close()
        self._batcher.forget()
        self._target.rollback()
        self._transaction, self._whole = None, 0
        if self._target.place() != self._kept:
            raise AwayError("another process has moved the target on: start again")
        self._changes = Changes(self._source, self._place, not self._is_known, again=True, is_behind=self._is_behind)


def opened(words: str, schema: str, unfit: str = "error") -> Target:
    """The target that the command line names."""
    kind, _, rest = words.partition(":")
    if kind == "sqlite":
        return Sqlite(rest, schema, unfit == "null")
    if kind in ("postgres", "psql", "psycopg"):
        return Postgres(rest, "" if kind == "postgres" else kind, schema, unfit == "null")
    raise WrongWordsError(f"no target: {words}")


def given_columns(file: str | None) -> Tables:
    """The columns that a file gives. Without their types a number of an ENUM or a SET would stand for its name."""
    tables = tables_of(file)
    if not all(table.types for table in tables.values()):
        raise WrongWordsError(f"{file} has no COLUMN_TYPE, which the replica needs")
    return tables


def count(word: str) -> int:
    """A number of transactions."""
    number = int(word)
    if number < 1:
        raise ValueError
    return number


def token(word: str) -> str:
    """The token of a statement."""
    if not begin.TOKEN.fullmatch(word):
        raise ValueError
    return word


def given_words() -> argparse.Namespace:
    """Reads the command line."""
    form = argparse.RawDescriptionHelpFormatter
    parser = argparse.ArgumentParser(epilog=ENDS, formatter_class=form)
    # The command `binlogfeed` calls it by another name.
    parser.description = (__doc__ or "").replace("replica.py", "%(prog)s")
    parser.add_argument("target", help="sqlite:FILE, postgres:CONNECTION, psycopg:CONNECTION or psql:CONNECTION")
    parser.add_argument("schema", help="the schema whose tables are kept")
    parser.add_argument("logs", metavar="LOGS", nargs="+", action=only_one(), help="where the logs are")
    parser.add_argument("--program", default="binlogfeed", metavar="PATH", help="the program (binlogfeed)")
    add_profile(parser)
    columns = "names for columns that have none in the log: what `SELECT * FROM information_schema.columns` answers to mysql --batch"
    parser.add_argument("--columns", metavar="FILE", help=columns)
    parser.add_argument("--only-tables", default="", metavar="LIST", help="only the tables with these names")
    parser.add_argument("--create", action="store_true", help="make tables that the target hasn't, with types that hold all values")
    server = "if no place is kept yet, copy the tables of this server first: mysql://USER@HOST:PORT/ (needs PyMySQL)"
    parser.add_argument("--from", dest="server", metavar="URL", help=server)
    password = "an option file of MySQL's clients for --from; without it the password is that of MYSQL_PWD"
    parser.add_argument("--defaults-file", metavar="FILE", help=password)
    parser.add_argument("--begin", default=FIRST, metavar="PLACE", help=begin.HELP)
    parser.add_argument("--follow", action="store_true", help="go on when the logs grow, until SIGTERM")
    parser.add_argument("--interval", type=seconds, default=1.0, metavar="SECONDS", help="how often to look for more (1)")
    parser.add_argument("--lag", type=lag_seconds, default=0.0, metavar="SECONDS", help=LAG_HELP)
    every = "commit after so many of the log's transactions (1), and behind each look"
    parser.add_argument("--commit-every", type=count, default=1, metavar="N", help=every)
    truncate = "have each TRUNCATE TABLE take the rows of the target's table away, where the replica else ends"
    parser.add_argument("--truncate", action="store_true", help=truncate)
    done = "go on behind the statement of this token, at which the replica ended: the target's tables are as it left the server's"
    parser.add_argument("--done", type=token, metavar="TOKEN", help=done)
    unfit = "what a value becomes that its column can't hold, such as 0000-00-00 (error)"
    parser.add_argument("--unfit", choices=("error", "null"), default="error", help=unfit)
    return parser.parse_args()


def keep_up(given: argparse.Namespace) -> None:
    """Keeps the replica until the logs end, or for ever."""
    tables = given_columns(given.columns)
    logs = Source(given.logs, given.schema, given.program, given.profile, tables, given.begin, given.lag, given.only_tables)
    target = opened(given.target, given.schema, given.unfit)
    target.creates = given.create
    try:
        if given.server:
            only = [name for name in given.only_tables.split(",") if name]
            take_copy(target, Server(given.server, given.defaults_file), given.schema, only)
        replica = Replica(target, logs, given.commit_every, given.follow, Orders(given.truncate, given.done or ""))
        try:
            replica.catch_up()
            while given.follow:
                replica.wait(given.interval)
                replica.catch_up()
        finally:
            replica.close()
    finally:
        target.close()


def stop(number: int, frame: FrameType | None) -> None:
    """Ends the process where SIGTERM comes. What is open is taken back."""
    sys.exit(0)


def main() -> int:
    """Runs the command. The answer is the exit status."""
    try:
        signal.signal(signal.SIGTERM, stop)
        given = given_words()
        begin.say_on_standard_error("replica")
        keep_up(given)
    except BinlogfeedError as error:
        print("\nhint: ".join((error.line, *hints_of(error))), file=sys.stderr)
        return error.status if error.status > 0 else 128 - error.status
    except ReplicaError as error:
        print("\nhint: ".join((f"replica: {error}", *error.hints)), file=sys.stderr)
        return error.status
    except MemoryError:
        print("replica: out of memory", file=sys.stderr)
        return 5
    except OSError as error:
        print(f"replica: {error}", file=sys.stderr)
        return 4
    except KeyboardInterrupt:
        return 130
    except Exception:
        # Python's own status would be 1, which says something else.
        traceback.print_exc()
        return 70
    return 0


if __name__ == "__main__":
    sys.exit(main())
