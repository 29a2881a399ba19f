"""Places in front of statements: where no change has told them, a statement that begins there is given, now or once it comes."""
from __future__ import annotations

import io
import json
from typing import Any

import logs
from binlogfeed import BinLogStreamReader, LogFault, QueryEvent, RowsEvent, TokenRefused
from binlogfeed.filters import gives_statements
from binlogfeed.follow import Follower
from built import statements as printed
from support import PROGRAM, FolderTest
from test_query_event import LOG, statement, wanted_tokens

ALL = ("--profile=server", "--only-events=insert,update,delete,statement")
# Where units of the log begin, by mysqlbinlog, and where the last one ends.
PLACES = [event.place for event in printed.printed_events() if event.kind == "GTID"] + [5595]


def position_of(token: str) -> int:
    """The position in a token."""
    return int(token.partition(".")[0])


class Settling(FolderTest):
    """Readers and followers of a folder's logs, of statements and rows."""

    def events(self, **options: Any) -> list[str]:
        """The tokens that a reader gives, which keeps its place."""
        only = [QueryEvent, RowsEvent]
        with BinLogStreamReader(f"{self.folder}/binlog.0*", only_events=only, together=False, program=PROGRAM, **options) as events:
            found = [event.token for event in events]
            self.kept = events.place.to_text()
        return found

    def followed(self, *words: str, begin: str = "first") -> list[str]:
        """The tokens that a follower prints, which keeps its place in a file."""
        out = io.BytesIO()
        follower = Follower(f"{self.folder}/binlog.0*", self.folder / "state", words or ALL, PROGRAM, out, begin)
        try:
            follower.catch_up()
        finally:
            follower.close()
        return [json.loads(line)["token"] for line in out.getvalue().splitlines()]

    def behind(self, place: int) -> list[str]:
        """The log's tokens at a place or behind it."""
        return [token for token in wanted_tokens(together=False) if position_of(token) >= place]


class RealLog(Settling):
    """A place where a transaction or a statement begins, as a server tells it."""

    def test_begin(self) -> None:
        """All that begins there or later is given once, also behind a stop."""
        self.put(LOG.name, LOG.read_bytes())
        self.assertEqual(len(PLACES), 19)
        for place in PLACES:
            begin = f"{place}.0@{LOG.name}"
            self.assertEqual(self.events(begin=begin), self.behind(place), begin)
            self.assertEqual(self.events(resume=self.kept), [])
            if place < PLACES[-1]:
                self.assertEqual(self.events(resume_stream=True, log_file=LOG.name, log_pos=place), self.behind(place))
            # A state as a snapshot writes it.
            self.put("state", json.dumps({"file": LOG.name, "begins": None, "token": begin}).encode())
            self.assertEqual(self.followed(), self.behind(place))
            self.assertEqual(self.followed(), [])

    def test_the_end_by_now(self) -> None:
        """What comes later is given once, whether or not the reader was stopped meanwhile."""
        content = LOG.read_bytes()
        for place in PLACES:
            (self.folder / "state").unlink(missing_ok=True)
            self.write_on(LOG.name, content[:place])
            self.assertEqual((self.events(begin="now"), self.followed(begin="now")), ([], []))
            kept = self.kept
            self.write_on(LOG.name, content[: place + 100])
            self.assertEqual((self.events(resume=kept), self.followed()), ([], []))
            self.write_on(LOG.name, content)
            self.assertEqual(self.events(resume=kept), self.behind(place), place)
            self.assertEqual(self.events(resume=self.kept), [])
            self.assertEqual((self.followed(), self.followed()), (self.behind(place), []))
            (self.folder / LOG.name).unlink()

    def test_a_follower_that_goes_on(self) -> None:
        """It gives the statement at its place when it comes."""
        content, place = LOG.read_bytes(), 3688
        self.write_on(LOG.name, content[:place])
        out = io.BytesIO()
        follower = Follower(f"{self.folder}/binlog.0*", self.folder / "state", ALL, PROGRAM, out, "now")
        self.addCleanup(follower.close)
        for end in (place, place + 50, 3843, len(content)):
            self.write_on(LOG.name, content[:end])
            follower.catch_up()
        self.assertEqual([json.loads(line)["token"] for line in out.getvalue().splitlines()], self.behind(place))

    def test_refused(self) -> None:
        """A place where nothing begins or ends."""
        self.put(LOG.name, LOG.read_bytes())
        for place in (PLACES[4] + 1, 227, 5614):
            with self.assertRaises(TokenRefused) as caught:
                self.events(begin=f"{place}.0@{LOG.name}")
            self.assertEqual(caught.exception.name, "TokenNoTransaction")

    def test_tokens_of_changes(self) -> None:
        """A bare token that is resumed is that of a change, of a place, too."""
        self.put(LOG.name, LOG.read_bytes())
        every = wanted_tokens(together=False)
        for count, token in enumerate(every, 1):
            self.assertEqual(self.events(resume=token), every[count:])
            self.assertEqual(self.events(resume=self.kept), [])


class MadeLogs(Settling):
    """What stands before the place, and behind it."""

    def test_transactions_before_it(self) -> None:
        """They may have many rows or none, and be rolled back; their rows aren't given again."""
        begin, rows, xid = logs.parts("begin"), logs.parts("map-t insert-1-a insert-2-b"), logs.parts("xid")
        many = logs.transaction(2, rows, *[logs.parts("insert-3-c")] * 900)
        for before in (many, logs.transaction(2), begin + rows + logs.parts("rollback"), begin + xid, statement(b"DROP TABLE t"), logs.parts("commit")):
            content = logs.log_of([logs.insert(1), before])
            place = f"{len(content)}.0@binlog.000001"
            whole = logs.appended(content, statement(b"TRUNCATE t"), logs.insert(3))
            self.put("binlog.000001", whole)
            wanted = [place, f"{len(whole) - 218}.1@binlog.000001"]
            self.assertEqual(self.events(begin=place), wanted)
            self.put("binlog.000001", content)
            self.assertEqual(self.events(begin="now"), [])
            self.put("binlog.000001", whole)
            self.assertEqual(self.events(resume=self.kept), wanted)

    def test_nothing_before_it(self) -> None:
        """In a log that has just begun a place behind its head is the log's beginning."""
        place = f"{len(logs.FRONT)}.0@binlog.000001"
        self.put("binlog.000001", logs.FRONT)
        self.assertEqual(self.events(begin=place), [])
        kept = self.kept
        self.assertEqual(self.events(begin="now"), [])
        self.put("binlog.000001", logs.log_of([statement(b"TRUNCATE t"), logs.insert(2)]))
        for resume in (kept, self.kept):
            self.assertEqual([position_of(token) for token in self.events(resume=resume)], [153, 153 + len(statement(b"TRUNCATE t"))])

    def test_not_there_yet(self) -> None:
        """A copy that doesn't reach the place: what it has stands before it, and isn't given."""
        for content in (logs.FRONT, logs.log_of([logs.insert(1)]), logs.log_of([logs.insert(1)])[:-1]):
            self.put("binlog.000001", content)
            with self.assertRaises(TokenRefused):
                self.events(begin=f"{len(content) + 1}.0@binlog.000001")

    def test_faults(self) -> None:
        """One behind the place ends the reading there, and one before it has it refused."""
        content = logs.log_of([logs.insert(1)])
        place = f"{len(content)}.0@binlog.000001"
        self.put("binlog.000001", logs.appended(content, statement(b"TRUNCATE t"), logs.event(40)))
        with BinLogStreamReader(self.folder / "binlog.000001", only_events=[QueryEvent], begin=place, program=PROGRAM) as events:
            self.assertEqual(next(events).token, place)
            with self.assertRaises(LogFault):
                next(events)
        self.put("binlog.000001", logs.appended(logs.worked_log(1), logs.event(40), statement(b"TRUNCATE t")))
        with self.assertRaises(LogFault):
            self.events(begin=f"{len(content) + 19}.0@binlog.000001")

    def test_words(self) -> None:
        """Whether a run gives statements."""
        for words, gives in (
            (("read", "--profile=server"), True), (("read", "--profile", "server"), True), (("read",), False), (("--profile=strict",), False),
            (("--profile=server", "--only-events=insert"), False), (("--only-events", "insert,statement"), True), (("--only-events=statement",), True),
        ):  # fmt: skip
            self.assertEqual(gives_statements(words), gives, words)
