"""Statements by themselves, as events: those of a real log, held to what MySQL's own mysqlbinlog prints of it, and of small ones."""
from __future__ import annotations

import io
import json
import threading
from collections.abc import Sequence
from typing import Any

import logs
from binlogfeed import (
    BinLogStreamReader,
    DeleteRowsEvent,
    Event,
    GtidEvent,
    ProgramFailed,
    QueryEvent,
    RotateEvent,
    RowsEvent,
    Transaction,
    WordsRefused,
    WriteRowsEvent,
    XidEvent,
)
from binlogfeed.lines import said_by
from built import statements as printed
from support import PROGRAM, FolderTest

LOG = printed.FOLDER / "binlog.000001"
# The default schema of the log's session, and when all of its events were written, as mysqlbinlog prints them.
SCHEMA, TIME = b"d", 1795328736
# The units of the log that have rows, by the places of their GTIDs, with the rows in each.
ROWS = {4407: 1, 5034: 1, 5319: 2}
BOTH = (QueryEvent, RowsEvent)


def reader(files: Any = LOG, only: Sequence[type[Event]] | None = BOTH, **options: Any) -> BinLogStreamReader[Any]:
    """A reader that runs the built program, of statements and rows."""
    return BinLogStreamReader(files, only_events=only, program=PROGRAM, **options)


def tokens(files: Any = LOG, only: Sequence[type[Event]] | None = BOTH, **options: Any) -> list[str]:
    """The tokens of a reader's events."""
    with reader(files, only, **options) as events:
        return [event.token for event in events]


def wanted_tokens(rows: bool = True, together: bool = True) -> list[str]:
    """The tokens of the log's statements, and of its rows, in the order of the log."""
    places = {one["place"]: [0] for one in printed.wanted_statements()}
    if rows:
        places.update({place: [count] if together else list(range(1, count + 1)) for place, count in ROWS.items()})
    return [f"{place}.{number}@{LOG.name}" for place in sorted(places) for number in places[place]]


def statement(text: bytes, schema: bytes = b"s", number: int = 9) -> bytes:
    """The unit of a statement, with its GTID."""
    body = bytes(8) + bytes([len(schema)]) + bytes(4) + schema + b"\0" + text
    return b"".join((logs.GTID_HEAD, number.to_bytes(8, "little"), logs.GTID_TAIL, logs.event(logs.QUERY, body)))


class Told(FolderTest):
    """What an event has."""

    def test_real_log(self) -> None:
        """The text, the schema, the time, the place and the GTID are those that mysqlbinlog prints."""
        events = list(reader(only=[QueryEvent]))
        wanted = [(one["text"], f"{one['place']}.0@{LOG.name}", one["gtid"]) for one in printed.wanted_statements()]
        self.assertEqual([(event.query, event.token, event.gtid) for event in events], wanted)
        self.assertEqual([event.query for event in events][-2:-1], ["TRUNCATE l"])
        for event in events:
            self.assertIs(type(event), QueryEvent)
            self.assertEqual((event.schema, event.timestamp, event.committed, event.event_type), (SCHEMA, TIME, None, 2))
            self.assertEqual((event.file, event.position, event.number), (LOG.name, event.packet.log_pos, 0))
            self.assertEqual(event.to_debezium(), [])

    def test_one_in_full(self) -> None:
        """As a line of JSON, and for a person."""
        *_, event, _ = reader(only=[QueryEvent])
        wanted = {"schema": "d", "query": "TRUNCATE l", "event": "QueryEvent", "timestamp": TIME, "committed": None}
        wanted |= {"gtid": f"{logs.SOURCE_ID}:12", "token": "3688.0@binlog.000001"}
        self.assertEqual(json.loads(event.to_json()), wanted)
        self.assertEqual(repr(event), "<QueryEvent 3688.0@binlog.000001>")
        out = io.StringIO()
        event.dump(out)
        head = "=== QueryEvent ===\nDate: 2026-11-22T06:25:36+00:00\nLog position: 3688\n"
        self.assertEqual(out.getvalue(), f"{head}Schema: d\nQuery: TRUNCATE l\n\n")

    def test_bytes_that_are_not_text(self) -> None:
        """They are in the text as Python's surrogateescape has them, in JSON as base64, and printed as escapes."""
        text = "ALTER TABLE t COMMENT 'é 李 \"\\'".encode() + b"\xe9\xff'"
        units = [statement(text, b"\xe9"), statement("DROP TABLE `é`".encode(), "é".encode()), statement(b"", b"")]
        first, second, third = reader(self.put("binlog.000001", logs.log_of(units)))
        self.assertEqual((first.query, first.schema), ("ALTER TABLE t COMMENT 'é 李 \"\\'\udce9\udcff'", b"\xe9"))
        self.assertEqual(first.query.encode("utf-8", "surrogateescape"), text)
        self.assertEqual((second.query, second.schema), ("DROP TABLE `é`", b"\xc3\xa9"))
        self.assertEqual((third.query, third.schema), ("", b""))
        told = json.loads(first.to_json())
        self.assertEqual((told["schema"], list(told["query"])), ({"base64": "6Q=="}, ["base64"]))
        self.assertEqual(json.loads(second.to_json())["schema"], "é")
        out = io.StringIO()
        first.dump(out)
        self.assertIn("Schema: \\xe9\nQuery: ALTER TABLE t COMMENT 'é 李 \"\\'\\xe9\\xff'\n", out.getvalue())

    def test_a_statement_without_a_gtid(self) -> None:
        (event,) = reader(self.put("binlog.000001", logs.log_of([logs.query("TRUNCATE t")])))
        self.assertEqual((event.gtid, event.query, event.token), (None, "TRUNCATE t", f"{len(logs.FRONT)}.0@binlog.000001"))

    def test_lines_of_others(self) -> None:
        """A line that is none of a statement's, and one that has another number of statements than one."""
        one = '{"schema":"s","text":"x","timestamp":1}'
        line = '{"gtid":null,"kind":"statement","statements":[%s],"timestamp":1,"token":"4.0@f"}'
        self.assertEqual(said_by((line % one).encode()), (b"s", b"x", 1, None, "4.0@f"))
        for text in ('{"gtid":null}', line % "", line % f"{one},{one}", line % '{"schema":"s"}', line % one[:-1], '{"gtid":'):
            with self.assertRaises(ProgramFailed):
                said_by(text.encode())
            with self.assertRaises(ProgramFailed):
                list(BinLogStreamReader("f", only_events=[QueryEvent], program=self.stub(f"echo '{text}'")))


class Choice(FolderTest):
    """When it comes, and between which others."""

    def test_asked_for(self) -> None:
        """Rows alone come where nothing is asked for."""
        rows = wanted_tokens()[5:]
        self.assertEqual([token.partition(".")[0] for token in rows], ["4407", "5034", "5319"])
        for only, ignored in ((None, None), (None, [QueryEvent]), ([RowsEvent], None), (BOTH, [QueryEvent])):
            self.assertEqual(tokens(only=only, ignored_events=ignored), rows)
        for only in ([QueryEvent], [QueryEvent, DeleteRowsEvent]):
            self.assertEqual(tokens(only=only), wanted_tokens(rows=False))
        self.assertEqual(tokens(ignored_events=[RowsEvent]), wanted_tokens(rows=False))
        for only in (BOTH, [QueryEvent, WriteRowsEvent]):
            self.assertEqual(tokens(only=only), wanted_tokens())
            self.assertEqual(tokens(only=only, together=False), wanted_tokens(together=False))
        with self.assertRaises(ValueError):
            reader(only=[QueryEvent], ignored_events=[QueryEvent])

    def test_filters(self) -> None:
        """Lists of tables and schemas leave no statement out; times, places and GTIDs do."""
        every = wanted_tokens(rows=False)
        for options in ({"only_tables": ["none"]}, {"ignored_tables": ["t", "l"]}, {"only_schemas": ["none"]}, {"ignored_schemas": ["d"]}):
            self.assertEqual(tokens(**options), every)
        self.assertEqual(tokens(only=[QueryEvent], auto_position=f"{logs.SOURCE_ID}:1-2:12"), [every[2], every[4]])
        self.assertEqual(tokens(skip_to_timestamp=TIME), wanted_tokens())
        self.assertEqual(tokens(skip_to_timestamp=TIME + 1), [])
        for end, count in ((3688, 3), (3689, 4), (4408, 6)):
            events = reader(end_log_pos=end)
            self.assertEqual([event.token for event in events], wanted_tokens()[:count])
            self.assertTrue(events.is_past_end_log_pos)

    def test_the_strict_profile_has_none(self) -> None:
        with self.assertRaises(WordsRefused) as caught:
            list(reader(profile="strict"))
        self.assertEqual(caught.exception.line, "binlogfeed: bad --only-events: statement")

    def test_beside_others(self) -> None:
        """It comes behind the commit before it, and by itself: its own members have its GTID and its file."""
        units = [logs.insert(1), statement(b"TRUNCATE t"), statement(b"DROP TABLE t"), logs.insert(2)]
        first = self.put("binlog.000001", logs.log_of([*units, logs.rotate("binlog.000002")]))
        second = self.put("binlog.000002", logs.log_of([statement(b"TRUNCATE u"), logs.insert(3)]))
        every = [QueryEvent, RowsEvent, GtidEvent, XidEvent, RotateEvent]
        rows = [GtidEvent, WriteRowsEvent, XidEvent]
        wanted = [RotateEvent, *rows, QueryEvent, QueryEvent, *rows, QueryEvent, RotateEvent, *rows]
        found = [type(event) for event in reader([first, second], every)]
        self.assertEqual(found, wanted)
        for kind in (GtidEvent, XidEvent, RotateEvent):
            some = [type(event) for event in reader([first, second], [QueryEvent, kind])]
            self.assertEqual(some, [one for one in wanted if one in (QueryEvent, kind)])
        events = reader([first, second], [QueryEvent])
        self.assertEqual([(event.query, events.log_file) for event in events][-1], ("TRUNCATE u", "binlog.000002"))


class Going(FolderTest):
    """Where a reader stops and goes on."""

    def test_behind_each_token(self) -> None:
        """The rest comes, be it behind a token or a place."""
        for together in (True, False):
            every = wanted_tokens(together=together)
            for count, token in enumerate(every, 1):
                self.assertEqual(tokens(resume=token, together=together), every[count:])
                with reader(together=together) as events:
                    for _ in range(count):
                        next(events)
                    self.assertEqual(events.place.token, token)
                    kept = events.place.to_text()
                self.assertEqual(tokens(resume=kept, together=together), every[count:])

    def test_tokens_of_others(self) -> None:
        """Behind the token of whatever stands before a statement, it comes."""
        units = [statement(b"DROP TABLE t"), logs.insert(1), statement(b"TRUNCATE t"), logs.insert(2), statement(b"DROP TABLE t")]
        path = self.put("binlog.000001", logs.log_of(units))
        events = list(reader(path, [*BOTH, GtidEvent, XidEvent, RotateEvent]))
        self.assertEqual(len(events), 10)
        for place, event in enumerate(events):
            wanted = [one.token for one in events[place + 1 :] if isinstance(one, BOTH)]
            self.assertEqual(tokens(path, resume=event.token), wanted)

    def test_a_log_that_grows(self) -> None:
        """Readers that go on from place to place, over ever longer beginnings of the log, give each event once."""
        content, place, found = LOG.read_bytes(), None, []
        for end in range(0, len(content) + 311, 311):
            self.write_on(LOG.name, content[:end])
            with reader(f"{self.folder}/binlog.0*", resume=place) as events:
                found += [event.token for event in events]
                place = events.place.to_text()
        self.assertEqual(found, wanted_tokens())

    def test_blocking(self) -> None:
        """A reader that waits gives a statement as soon as it is there, and its batches have it, too."""
        content, wanted = LOG.read_bytes(), wanted_tokens()
        self.write_on(LOG.name, content[:400])
        with reader(f"{self.folder}/binlog.0*", blocking=True, interval=0.01) as events:
            self.in_time(events.close)
            self.assertEqual(next(events).token, wanted[0])
            threading.Timer(0.1, self.write_on, (LOG.name, content)).start()
            self.assertEqual([next(events).token for _ in wanted[1:]], wanted[1:])
        with reader(f"{self.folder}/binlog.0*", blocking=True, interval=0.01, lag=0.1) as events:
            self.in_time(events.close)
            found: list[Transaction] = []
            for batch in events.batches(rows=2):
                found += batch
                if events.place.token == wanted[-1]:
                    events.close()
        self.assertEqual([transaction.token for transaction in found], wanted)

    def test_transactions(self) -> None:
        """A statement is one without rows."""
        with reader() as events:
            found = list(events.transactions())
        self.assertEqual([transaction.token for transaction in found], wanted_tokens())
        self.assertEqual([len(transaction) for transaction in found], [0] * 5 + [1] * 3)
        self.assertEqual([transaction.statement.query for transaction in found if transaction.statement], [one["text"] for one in printed.wanted_statements()])
        self.assertEqual([transaction.gtid for transaction in found[3:5]], [f"{logs.SOURCE_ID}:{number}" for number in (12, 13)])
        self.assertEqual((found[3].committed, list(found[3]), found[5].statement), (None, [], None))
        with reader() as events:
            sizes = [(len(batch), events.place.token) for batch in events.batches(rows=3, seconds=1e6)]
        # A statement counts as a row: three, then two and a row, and then three rows.
        every = wanted_tokens()
        self.assertEqual(sizes, [(3, every[2]), (3, every[5]), (2, every[7])])
        with reader(only=None) as rows:
            self.assertEqual([transaction.token for transaction in rows.transactions()], every[5:])
