"""The interface that users of python-mysql-replication know, over files on disk."""
from __future__ import annotations

import os
import pathlib
import threading
import time
import warnings
from collections.abc import Callable, Iterable, Iterator, Mapping
from dataclasses import replace
from types import TracebackType
from typing import Any, Generic, Optional, TypeVar, Union, cast, overload

from binlogfeed.arguments import asked_events, refuse_others, words
from binlogfeed.begin import FIRST, NOW
from binlogfeed.columns import GivenColumns, tables_of
from binlogfeed.events import ROWS_EVENTS, Event, GtidEvent, QueryEvent, RotateEvent, RowsEvent, Transaction, XidEvent
from binlogfeed.faults import BinlogfeedError, ColumnsMismatch, FileFault, LogFault, TokenRefused, WordsRefused
from binlogfeed.lines import OF_STATEMENT, Parts, reader_of_lines, said_by
from binlogfeed.logs import Log, is_place_of_logs, none_of
from binlogfeed.logs import beginning as beginning_of
from binlogfeed.options import is_a_wait
from binlogfeed.place import Place
from binlogfeed.program import Run
from binlogfeed.tokens import are_of_one_transaction, beginning, token_parts
from binlogfeed.values import OnBadValue, Style
from binlogfeed.watch import Watch

Path = Union[str, "os.PathLike[str]"]
Converter = Callable[[Any], Any]
# What a reader gives.
Given = TypeVar("Given", bound=Event)
# A change of a row, as its line has it, or a statement by itself.
Found = Union[Parts, QueryEvent]
# A log's first event stands there, so a place there or before it is the log's beginning.
FIRST_EVENT = 4


class BinLogStreamReader(Generic[Given]):
    """Gives the row changes of committed transactions in log files, in log order, each once.

    The arguments but these are those of python-mysql-replication, with their meaning; docs/FROM_PYTHON_MYSQL_REPLICATION.md
    has them one by one:

    - `files`: the log files, in the order in which the server wrote them; or a server's logs, by their index, the folder that
      has one, or a pattern.
    - `profile`: what is taken in. `server` takes what servers write by default, too: where tables have no names of columns in the
      log (`binlog_row_metadata=MINIMAL`), these are `@1`, `@2`, and so on. `strict` refuses such a log.
    - `columns`: the names of columns for such tables, as `{"shop.customer": ["id", "name"]}`; or a file with a server's answer of
      `information_schema.columns`, which also tells their types, the names of ENUM and SET values, and the key. What doesn't fit
      the log is a ColumnsMismatch.
    - `resume`: the place that `reader.place` was, or its text of `to_text()`; or the token of the last event that was taken. The
      reader gives what is behind it. A place also tells whether the log is still the same, and moves on where nothing passes.
    - `begin`: where to begin if `resume` is None: `first`, with the first log; `now`, with what is committed from now on; with the
      log of this name; or behind a token.
    - `together`: whether rows that stand together come in one event; else each row is an event.
    - `convert`: what makes another value of a column's, by `table.column` or `schema.table.column`. It is given the value as a
      full line has it, or bytes. NULL isn't converted.
    - `on_bad_value`: what gives a value in the place of one that Python has none for, by the column and the value as a full line
      has it, or bytes. Without it a date is None then, and a text or document stays bytes.
    - `naive_timestamps`: whether a TIMESTAMP, which is in UTC, has no time zone.
    - `raw_values`: whether values stay as a full line has them, but for bytes.
    - `json_null`: what a JSON document is that is null, such as `JSON_NULL`. Without it that is None, as NULL is.
    - `keep_lines`: whether an event has its lines, which `to_debezium` needs.
    - `program`: the program, by its path, or by its name: that installed with this package, or else PATH's.
    - `blocking`: whether the reader waits for more at the logs' end, and goes on when they grow. It looks each `interval`
      seconds.
    - `lag`: no event is given earlier than so many seconds after its transaction was seen whole in the log.

    An event that the log can't give, and whatever else ends a reading early, is an exception behind the last event.
    """

    # Without `only_events` all events are of rows; else they are of the classes that are named.
    @overload
    def __init__(
        self: BinLogStreamReader[RowsEvent],
        files: Path | Iterable[Path] | None = ...,
        *,
        only_events: None = None,
        ignored_events: Iterable[type[Event]] | None = ...,
        only_tables: Iterable[str] | None = ...,
        ignored_tables: Iterable[str] | None = ...,
        only_schemas: Iterable[str] | None = ...,
        ignored_schemas: Iterable[str] | None = ...,
        auto_position: str | None = ...,
        resume: str | Place | None = ...,
        begin: str | None = ...,
        resume_stream: bool = ...,
        log_file: str | None = ...,
        log_pos: int | None = ...,
        skip_to_timestamp: float | None = ...,
        end_log_pos: int | None = ...,
        together: bool = ...,
        convert: Mapping[str, Converter] | None = ...,
        on_bad_value: OnBadValue | None = ...,
        naive_timestamps: bool = ...,
        raw_values: bool = ...,
        json_null: Any = ...,
        keep_lines: bool = ...,
        columns: GivenColumns | None = ...,
        profile: str = ...,
        program: Path = ...,
        blocking: bool = ...,
        interval: float = ...,
        lag: float = ...,
        **others: Any,
    ) -> None: ...

    @overload
    def __init__(
        self,
        files: Path | Iterable[Path] | None = ...,
        *,
        only_events: Iterable[type[Given]],
        ignored_events: Iterable[type[Event]] | None = ...,
        only_tables: Iterable[str] | None = ...,
        ignored_tables: Iterable[str] | None = ...,
        only_schemas: Iterable[str] | None = ...,
        ignored_schemas: Iterable[str] | None = ...,
        auto_position: str | None = ...,
        resume: str | Place | None = ...,
        begin: str | None = ...,
        resume_stream: bool = ...,
        log_file: str | None = ...,
        log_pos: int | None = ...,
        skip_to_timestamp: float | None = ...,
        end_log_pos: int | None = ...,
        together: bool = ...,
        convert: Mapping[str, Converter] | None = ...,
        on_bad_value: OnBadValue | None = ...,
        naive_timestamps: bool = ...,
        raw_values: bool = ...,
        json_null: Any = ...,
        keep_lines: bool = ...,
        columns: GivenColumns | None = ...,
        profile: str = ...,
        program: Path = ...,
        blocking: bool = ...,
        interval: float = ...,
        lag: float = ...,
        **others: Any,
    ) -> None: ...

    def __init__(
        self,
        files: Path | Iterable[Path] | None = None,
        *,
        only_events: Iterable[type[Event]] | None = None,
        ignored_events: Iterable[type[Event]] | None = None,
        only_tables: Iterable[str] | None = None,
        ignored_tables: Iterable[str] | None = None,
        only_schemas: Iterable[str] | None = None,
        ignored_schemas: Iterable[str] | None = None,
        auto_position: str | None = None,
        resume: str | Place | None = None,
        begin: str | None = None,
        resume_stream: bool = False,
        log_file: str | None = None,
        log_pos: int | None = None,
        skip_to_timestamp: float | None = None,
        end_log_pos: int | None = None,
        together: bool = True,
        convert: Mapping[str, Converter] | None = None,
        on_bad_value: OnBadValue | None = None,
        naive_timestamps: bool = False,
        raw_values: bool = False,
        json_null: Any = None,
        keep_lines: bool = False,
        columns: GivenColumns | None = None,
        profile: str = "server",
        program: Path = "binlogfeed",
        blocking: bool = False,
        interval: float = 0.1,
        lag: float = 0.0,
        **others: Any,
    ) -> None:
        """A reader. The program starts with the first event that is asked for."""
        refuse_others(others)
        self._files = _checked_files(files)
        self._asked = asked_events(only_events, ignored_events)
        filters = words(self._asked, only_tables, ignored_tables, only_schemas, ignored_schemas, auto_position)
        self._command = [os.fspath(program), "read", "--full", f"--profile={profile}", *filters]
        if not is_a_wait(interval):
            raise ValueError(f"interval: a number of seconds above 0 is wanted, not {interval!r}")
        if lag and not is_a_wait(lag):
            raise ValueError(f"lag: a number of seconds is wanted, not {lag!r}")
        self._lag = lag
        # A token by itself, which the program takes over a list of files.
        self._token_alone = resume if isinstance(resume, str) and not resume.startswith("{") else None
        self._start = _start(resume, resume_stream, log_file, log_pos)
        self._begin = begin or FIRST
        if begin is not None and (resume_stream or log_file is not None or log_pos is not None):
            raise ValueError("begin says where to begin, and so do log_file and log_pos: give one of them")
        if resume_stream and log_file is None:
            self._begin = NOW
        if resume_stream and log_file is None and not blocking:
            raise ValueError("resume_stream without log_file begins at the logs' end, where only a reader with blocking=True has events")
        self._skip_to = skip_to_timestamp
        self._end = end_log_pos
        self._together = together
        self._blocking = blocking
        self._interval = interval
        style = Style(raw_values, naive_timestamps, on_bad_value, json_null)
        self._taken_apart = reader_of_lines(style, dict(convert or {}), tables_of(columns), keep_lines)
        self._run: Union[Run, Watch, None] = None
        self._steps = self._read()
        self._events = self._singly()
        # The place, but for the last event that was given, whose token may stand beside it; and the logs of a run that ends.
        self._place = self._start
        self._given: Optional[str] = None
        self._listed: list[Log] = []
        self._closed = False
        self._closing = threading.Event()
        self._at_end = False
        self._token: Optional[str] = None
        # Whether a transaction was met that begins at `end_log_pos` or behind it.
        self.is_past_end_log_pos = False

    @property
    def place(self) -> Place:
        """The place behind what was given: keep it, or its `to_text()`, once that is worked off, and give it as `resume` later.

        Where the logs were read to their end it moves on with them, also where nothing passed, once the next event is asked for.
        """
        if self._given is not None:
            logs = self._run.told if isinstance(self._run, Watch) else self._listed
            self._place, self._given = self._place.behind(self._given, logs), None
        return self._place

    @property
    def log_file(self) -> str | None:
        """The file of the last event that was given, or that in which the reader begins."""
        return self._start.file if self._token is None else token_parts(self._token).file

    @property
    def log_pos(self) -> int | None:
        """Where the transaction of the last event begins. A reader from there gives it again, as a whole: keep tokens for less."""
        token = self._token or self._start.resume
        return None if token is None else token_parts(token).position

    def __iter__(self) -> Iterator[Given]:
        """The events, from the first that wasn't given yet."""
        return self._events

    def __next__(self) -> Given:
        """The next event."""
        return next(self._events)

    def fetchone(self) -> Given | None:
        """The next event, or None behind the last."""
        return next(self, None)

    def transactions(self) -> Iterator[Transaction]:
        """The row events that weren't given yet, grouped by their transactions. One transaction is held in memory.

        A transaction is given where all of its events were read. Where the reading ends early inside one, that one isn't.
        A statement, where QueryEvent is asked for, is a transaction without row events that has it as `statement`.
        """
        for transaction in self._whole():
            if transaction is None:
                self._reach_end()
            else:
                self._given = transaction.token
                yield transaction

    def batches(self, rows: int = 1000, seconds: float = 1.0) -> Iterator[list[Transaction]]:
        """The row events that weren't given yet, in lists of whole transactions: work each off, and then keep `place`.

        A list ends where it has so many rows or more, with the transaction behind so many seconds, and where the logs end by now.
        An empty one comes where the place alone has moved on to another log.
        """
        batch: list[Transaction] = []
        count, due = 0, 0.0
        try:
            for transaction in self._whole():
                if transaction is not None:
                    due = due if batch else time.monotonic() + seconds
                    batch.append(transaction)
                    # A statement counts as a row.
                    count += sum(len(event.rows) for event in transaction) or 1
                    if count < rows and time.monotonic() < due:
                        continue
                if batch:
                    self._given = batch[-1].token
                    yield batch
                    batch, count = [], 0
                if transaction is None:
                    before = self.place.file
                    self._reach_end()
                    if self.place.file != before:
                        yield []
        except BinlogfeedError:
            if batch:
                self._given = batch[-1].token
                yield batch
            raise
        if batch and self._at_end:
            self._given = batch[-1].token
            yield batch

    def _singly(self) -> Iterator[Given]:
        """The events. None but the classes that were asked for come."""
        for event in cast("Iterator[Optional[Given]]", self._steps):
            if event is None:
                self._reach_end()
            else:
                self._given = event.token
                yield event

    def _reach_end(self) -> None:
        """Moves the place on to where the logs ended."""
        ended = replace(self._place, token=self._given or self._place.token).at_end(self._listed)
        self._place, self._given = self._run.place if isinstance(self._run, Watch) else ended, None

    def _whole(self) -> Iterator[Optional[Transaction]]:
        """The transactions, and None at each end of the logs as they are by then."""
        events: list[RowsEvent] = []
        try:
            for event in self._steps:
                if events and (event is None or not are_of_one_transaction(events[0].token, event.token)):
                    yield Transaction(events)
                    events = []
                if isinstance(event, RowsEvent):
                    events.append(event)
                elif isinstance(event, QueryEvent):
                    yield Transaction([], event)
                elif event is None:
                    yield None
        except (LogFault, ColumnsMismatch) as error:
            if events and _is_behind(error, events[0].token):
                yield Transaction(events)
            raise
        if events and self._at_end:
            yield Transaction(events)

    def close(self) -> None:
        """Ends the program. No event is given any more."""
        self._closed = True
        self._closing.set()
        if self._run is not None:
            self._run.end()

    def __enter__(self) -> BinLogStreamReader[Given]:
        """The reader itself."""
        return self

    def __exit__(self, kind: type[BaseException] | None, error: BaseException | None, trace: TracebackType | None) -> None:
        """Closes the reader."""
        self.close()

    def _read(self) -> Iterator[Optional[Event]]:
        """Reads the logs: each event, and None at each end of the logs as they are by then."""
        try:
            if self._closed:
                return
            events = self._begun()
            if self._closed and self._run is not None:  # by another thread, which saw no run yet
                self._run.end()
            for event in events:
                if event is not None:
                    self._token = event.token
                yield event
                if self._closed:
                    return
            self._at_end = not self._closed
        finally:
            # Who went on after an error would miss an event.
            self.close()

    def _begun(self) -> Iterator[Optional[Event]]:
        """Begins to read. The events, and None at each end of the logs."""
        files = self._files
        paths = [files] if isinstance(files, (str, os.PathLike)) else files
        is_place = paths is not files and is_place_of_logs(paths[0], self._blocking)
        is_begun_within = self._token_alone is None and (self._start.file is not None or self._begin != FIRST)
        if self._blocking or is_place or is_begun_within or self._lag:
            if not paths:
                raise WordsRefused("binlogfeed: no file is given")
            logs = paths[0] if is_place else _with_start([pathlib.Path(path) for path in paths], self._start)
            is_of_change = self._token_alone is not None
            watch = Watch(logs, [*self._command, "--follow"], self._start, self._begin, lag=self._lag, is_of_change=is_of_change)
            self._run, blocks = watch, self._watched(watch)
        else:
            resume = [] if self._token_alone is None else [f"--from={self._token_alone}"]
            self._listed = [Log(path, _begins(path)) for path in map(pathlib.Path, paths)]
            run = Run([*self._command, *resume, "--", *(os.fspath(path) for path in paths)])
            self._run, blocks = run, self._ended(run)
        changes = self._changes(blocks)
        rows = self._joined(changes) if self._together else self._one_by_one(changes)
        return rows if self._asked == frozenset(ROWS_EVENTS.values()) else self._chosen(rows)

    def _ended(self, run: Run) -> Iterator[Optional[bytes]]:
        """The lines of a run that ends, and None behind them."""
        try:
            yield from run.blocks()
        except LogFault as fault:
            raise fault.among(log.path for log in self._listed)
        if not self._closed:
            yield None

    def _watched(self, watch: Watch) -> Iterator[Optional[bytes]]:
        """The lines of one look after the other, and None behind each. Without waiting there is one look."""
        is_empty = False
        while not self._closed:
            yield from watch.look()
            if self._closed:
                return
            yield None
            if not self._blocking:
                if watch.is_empty:
                    # Files that are named are never none.
                    raise FileFault(f"binlogfeed: {none_of(cast(Path, self._files))}")
                return
            if watch.is_empty and not is_empty:
                is_empty = True
                warnings.warn(f"binlogfeed: no log matches {self._files} yet", stacklevel=6)
            watch.wait(self._interval, self._closing)

    def _changes(self, blocks: Iterator[Optional[bytes]]) -> Iterator[Optional[Found]]:
        """The changes of lines, but for those outside of the places and times that are asked for."""
        taken_apart: Callable[[bytes], Found] = self._found if QueryEvent in self._asked else self._taken_apart
        skip_to, end = self._skip_to, self._end
        for block in blocks:
            if block is None:
                yield None
                continue
            for line in block.split(b"\n")[:-1]:
                change = taken_apart(line)
                if end is not None or skip_to is not None:
                    timestamp, token = (change[3], change[5]) if isinstance(change, tuple) else (change.timestamp, change.token)
                    if end is not None and token_parts(token).position >= end:
                        self.is_past_end_log_pos = True
                        return
                    if skip_to is not None and timestamp < skip_to:
                        continue
                yield change

    def _found(self, line: bytes) -> Found:
        """The change of a line, which may be one of a statement."""
        return QueryEvent(said_by(line)) if line.startswith(OF_STATEMENT) else self._taken_apart(line)

    def _one_by_one(self, changes: Iterator[Optional[Found]]) -> Iterator[Optional[Event]]:
        """An event for each change."""
        for change in changes:
            yield ROWS_EVENTS[change[0].kind](change) if isinstance(change, tuple) else change

    def _joined(self, changes: Iterator[Optional[Found]]) -> Iterator[Optional[Event]]:
        """An event for changes that stand together."""
        event: Optional[RowsEvent] = None
        try:
            for change in changes:
                if event is not None:
                    if isinstance(change, tuple) and event.takes(change):
                        continue
                    yield event
                    event = None
                if isinstance(change, tuple):
                    event = ROWS_EVENTS[change[0].kind](change)
                else:
                    yield change
        except BinlogfeedError:
            # The changes before it were read.
            if event is not None:
                yield event
            raise
        if event is not None and not self._closed:
            yield event

    def _chosen(self, events: Iterator[Optional[Event]]) -> Iterator[Optional[Event]]:
        """The events of the classes that are asked for, beginnings and ends of transactions and files of rows among them.

        A statement comes by itself: an event in front of it would have its token, and who went on behind that one would miss it.
        """
        last: Optional[Event] = None
        file: Optional[str] = None
        try:
            for event in events:
                if last is not None and (event is None or not are_of_one_transaction(last.token, event.token)):
                    yield from self._if_asked(XidEvent(last.timestamp, last.gtid, last.token, last.committed))
                    last = None
                if event is None or isinstance(event, QueryEvent):
                    yield event
                    continue
                place = beginning(event.token)
                if token_parts(place).file != file:
                    file = token_parts(place).file
                    yield from self._if_asked(RotateEvent(event.timestamp, None, place))
                if last is None and event.gtid is not None:
                    yield from self._if_asked(GtidEvent(event.timestamp, event.gtid, place, event.committed))
                yield from self._if_asked(event)
                last = event
        except (LogFault, ColumnsMismatch) as error:
            if last is not None and _is_behind(error, last.token):
                yield from self._if_asked(XidEvent(last.timestamp, last.gtid, last.token, last.committed))
            raise
        if last is not None and not self._closed:
            yield from self._if_asked(XidEvent(last.timestamp, last.gtid, last.token, last.committed))

    def _if_asked(self, event: Event) -> Iterator[Event]:
        """The event, where its class is asked for."""
        if type(event) in self._asked:
            yield event


def _checked_files(files: Path | Iterable[Path] | None) -> Union[Path, list[Path]]:
    """The files that a reader is given."""
    if files is None:
        raise TypeError("BinLogStreamReader: the first argument is the log files, or the server's folder, index or pattern")
    if isinstance(files, Mapping):
        refuse_others({"connection_settings": files})
    return files if isinstance(files, (str, os.PathLike)) else list(files)


def _begins(path: pathlib.Path) -> str | None:
    """What tells a log from another under its name. Where it can't be opened, the program says so behind the logs before it."""
    try:
        return beginning_of(path)
    except FileFault:
        return None


def _start(resume: str | Place | None, resume_stream: bool, log_file: str | None, log_pos: int | None) -> Place:
    """The place in which a reader begins."""
    if resume is not None:
        if resume_stream or log_file is not None or log_pos is not None:
            raise ValueError("resume says where to begin, and so do log_file and log_pos: give one of them")
        if isinstance(resume, Place):
            return resume
        if resume.startswith("{"):
            return Place.from_text(resume)
        try:
            return Place(token_parts(resume).file, None, resume)
        except ValueError as error:
            raise TokenRefused("binlogfeed: token refused: BadToken", "BadToken") from error
    if log_file is None:
        if log_pos is not None:
            raise ValueError("log_pos needs log_file")
        return Place()
    is_within = resume_stream and log_pos is not None and log_pos > FIRST_EVENT
    return Place(log_file, None, f"{log_pos}.0@{log_file}" if is_within else None)


def _with_start(paths: list[pathlib.Path], start: Place) -> list[pathlib.Path]:
    """The files, where the one in which the reader begins is among them."""
    if start.file is not None and start.file not in (path.name for path in paths):
        raise TokenRefused("binlogfeed: token refused: TokenNoFile", "TokenNoFile")
    return paths


def _is_behind(error: LogFault | ColumnsMismatch, token: str) -> bool:
    """Whether an error stands behind the whole transaction of a token. A log's fault does, unless the file changed while it was read."""
    if isinstance(error, ColumnsMismatch):
        return not are_of_one_transaction(error.token, token)
    return error.what != "SourceChanged"
