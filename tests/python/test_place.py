"""The place of a reader: it goes on behind it, tells another log under the name, and moves on where nothing passes."""
import datetime
import json
import threading
import time
from decimal import Decimal
from pathlib import Path

import logs
from binlogfeed import (
    JSON_NULL,
    BinLogStreamReader,
    BinlogfeedError,
    GtidEvent,
    LogFault,
    LogsGone,
    Place,
    RotateEvent,
    RowsEvent,
    TokenRefused,
    XidEvent,
)
from binlogfeed.as_json import json_of
from binlogfeed.logs import beginning
from support import BANK, PROGRAM, SHOP, FolderTest
from test_follow import ServerTest, log

NAMES = ("binlog.000001", "binlog.000002", "binlog.000003")


def tokens(files, **options):
    """The tokens of a reader's events."""
    with BinLogStreamReader(files, program=PROGRAM, together=False, **options) as events:
        return [event.token for event in events]


class Resumes(FolderTest):
    """A reader that goes on behind another's place."""

    def setUp(self):
        """The shop's logs, with an index."""
        super().setUp()
        for path in SHOP:
            self.put(path.name, path.read_bytes())
        self.put("binlog.index", b"./binlog.000001\n./binlog.000002\n")

    def test_behind_each_event(self):
        """As an object and as a text, over a folder, a pattern and a list."""
        wanted = tokens(SHOP)
        for files in (self.folder, f"{self.folder}/binlog.0*", SHOP):
            for count in range(0, len(wanted) + 1, 3):
                with BinLogStreamReader(files, program=PROGRAM, together=False) as events:
                    taken = [next(events).token for _ in range(count)]
                    place = events.place
                self.assertEqual(taken, wanted[:count])
                if count:
                    path = SHOP[int(wanted[count - 1][-1]) - 1]
                    self.assertEqual(place, Place(path.name, beginning(path), wanted[count - 1]))
                for resume in (place, place.to_text()):
                    self.assertEqual(tokens(files, resume=resume), wanted[count:])

    def test_behind_each_transaction(self):
        """The event that is read to see a transaction's end isn't taken."""
        wanted = tokens(SHOP)
        for files in (self.folder, SHOP):
            with BinLogStreamReader(files, program=PROGRAM, together=False) as events:
                for transaction in events.transactions():
                    self.assertEqual(events.place.token, transaction.token)
                    behind = wanted.index(transaction.token) + 1
                    self.assertEqual(tokens(files, resume=events.place), wanted[behind:])

    def test_all_classes_of_events(self):
        """Each of them has a place to go on behind."""
        asked = [RowsEvent, GtidEvent, XidEvent, RotateEvent]
        with BinLogStreamReader(SHOP, program=PROGRAM, only_events=asked) as events:
            found = [(event.token, events.place) for event in events]
        for token, place in found:
            self.assertEqual(tokens(SHOP, resume=place), tokens(SHOP, resume=token))

    def test_behind_a_token(self):
        """The place of a reader that went on behind a token says which log that is of."""
        wanted = tokens(SHOP)
        with BinLogStreamReader(self.folder, program=PROGRAM, together=False, resume=wanted[0]) as events:
            next(events)
            self.assertEqual(events.place, Place(SHOP[0].name, beginning(SHOP[0]), wanted[1]))

    def test_at_the_end(self):
        """Behind all events it is in the last log, of which nothing more comes."""
        for files in (self.folder, SHOP):
            with BinLogStreamReader(files, program=PROGRAM, only_tables=["product"]) as events:
                last = [event.token for event in events][-1]
            self.assertEqual(events.place, Place(SHOP[1].name, beginning(SHOP[1]), last))
            self.assertEqual(tokens(files, resume=events.place, only_tables=["product"]), [])

    def test_before_all(self):
        """A place of a reader that gave nothing is that before all changes, also as a text."""
        place = BinLogStreamReader(SHOP, program=PROGRAM).place
        self.assertEqual((place, Place.from_text(place.to_text())), (Place(), Place()))
        self.assertEqual(tokens(SHOP, resume=place.to_text()), tokens(SHOP))
        self.assertEqual(tokens(SHOP, resume=place, begin="binlog.000002"), tokens(SHOP[1]))

    def test_refused(self):
        with self.assertRaises(TokenRefused):
            tokens([SHOP[0]], resume=Place("binlog.000002"))
        for text in (
            *("{}", '{"token": 7}', '{"file"', '{"token": "4@f"}', '{"token": "4.1"}', '{"file": "f", "token": "4.x@f"}', '{"file": 7}'),
            '{"file": "f", "begins": 7, "token": null}',
        ):
            with self.assertRaises(BinlogfeedError) as caught:
                tokens(SHOP, resume=text)
            self.assertEqual(caught.exception.status, 3)
        with self.assertRaises(ValueError):
            tokens(SHOP, resume=Place("binlog.000002"), log_file="binlog.000002")

    def test_behind_a_fault(self):
        """The place of a reader that ended early is behind its last event."""
        path = self.put("bad.000001", logs.appended(logs.A, logs.event(40)))
        events = BinLogStreamReader(f"{self.folder}/bad.0*", program=PROGRAM)
        with self.assertRaises(LogFault):
            list(events)
        self.assertEqual(events.place, Place("bad.000001", beginning(path), "153.1@bad.000001"))


class Others(ServerTest):
    """Logs that were reset, rotated and purged."""

    def test_a_log_that_was_reset(self):
        """A transaction stands at the token's place in the new log, too: the token alone wouldn't tell."""
        self.index(NAMES[0])
        self.log(NAMES[0], log(1))
        files = (self.data, [self.data / NAMES[0]])
        with BinLogStreamReader(self.data, program=PROGRAM) as events:
            self.assertEqual(next(events).token, f"153.1@{NAMES[0]}")
            place = events.place
        new = bytearray(log(9, 10))
        new[4:8] = (logs.TIME + 1).to_bytes(4, "little")
        self.log(NAMES[0], bytes(new))
        for one in files:
            self.assertEqual(tokens(one, resume=f"153.1@{NAMES[0]}"), [f"371.1@{NAMES[0]}"])
            for blocking in (False, True):
                with self.assertRaises(LogsGone) as caught:
                    tokens(one, resume=place, blocking=blocking)
                self.assertIn("another log has its name", caught.exception.line)

    def test_a_filtered_reader(self):
        """Its last event stands in a log that was purged once all was read: nothing is lost."""
        self.log(NAMES[0], log(1, following=NAMES[1]))
        self.log(NAMES[1], log(following=NAMES[2]))
        self.log(NAMES[2], log())
        self.index(*NAMES)
        with BinLogStreamReader(self.data, program=PROGRAM) as events:
            (event,) = events
            self.assertEqual(events.place, Place(NAMES[2], beginning(self.data / NAMES[2]), event.token))
        self.index(NAMES[2])
        self.log(NAMES[2], log(2))
        with self.assertRaises(LogsGone):
            tokens(self.data, resume=event.token)
        self.assertEqual(tokens(self.data, resume=events.place.to_text()), [f"153.1@{NAMES[2]}"])

    def test_it_moves_on_while_it_waits(self):
        """A reader that waits for events is in the new log once it has read it."""
        self.log(NAMES[0], log(1))
        self.index(NAMES[0])
        events = BinLogStreamReader(self.data, program=PROGRAM, blocking=True, interval=0.01, only_tables=["t"])
        self.in_time(events.close)
        self.addCleanup(events.close)
        next(events)
        threading.Thread(target=events.fetchone, daemon=True).start()
        self.log(NAMES[0], log(1, following=NAMES[1]))
        self.log(NAMES[1], log())
        self.index(*NAMES[:2])
        until = time.monotonic() + 30
        while events.place.file != NAMES[1] and time.monotonic() < until:
            time.sleep(0.01)
        self.assertEqual(events.place, Place(NAMES[1], beginning(self.data / NAMES[1]), f"153.1@{NAMES[0]}"))

    def test_batches_of_a_filtered_reader(self):
        """An empty one tells that the place has moved on to another log."""
        self.log(NAMES[0], log(1, following=NAMES[1]))
        self.log(NAMES[1], log())
        self.index(*NAMES[:2])
        with BinLogStreamReader(self.data, program=PROGRAM) as events:
            found = [(len(batch), events.place.file) for batch in events.batches()]
        self.assertEqual(found, [(1, NAMES[0]), (0, NAMES[1])])


class Batches(FolderTest):
    """Lists of whole transactions."""

    def test_rows(self):
        """Each list but the last has so many rows, with its last transaction; no transaction is parted, and none is missing."""
        wanted = [transaction.token for transaction in BinLogStreamReader(BANK, program=PROGRAM).transactions()]
        for rows in (1, 7, 100, 10**9):
            with BinLogStreamReader(BANK, program=PROGRAM) as events:
                found = []
                for batch in events.batches(rows=rows, seconds=1e6):
                    found.append(batch)
                    self.assertEqual(events.place.token, batch[-1].token)
            sizes = [[sum(len(event.rows) for event in one) for one in batch] for batch in found]
            for batch in sizes[:-1]:
                self.assertGreaterEqual(sum(batch), rows)
            for batch in sizes:
                self.assertLess(sum(batch[:-1]), rows)
            self.assertEqual([one.token for batch in found for one in batch], wanted)

    def test_seconds(self):
        """A batch that is open for so long ends with the transaction that comes next."""
        path = self.put("binlog.000001", logs.worked_log(30))
        with BinLogStreamReader(path, program=PROGRAM, convert={"t.id": lambda value: time.sleep(0.02) or value}) as events:
            sizes = [len(batch) for batch in events.batches(rows=10**9, seconds=0.1)]
        self.assertEqual(sum(sizes), 30)
        self.assertGreater(len(sizes), 1)

    def test_caught_up(self):
        """A batch ends where the logs end by now, and the next one has what comes later."""
        path = self.put("binlog.000001", logs.worked_log(3))
        events = BinLogStreamReader(path, program=PROGRAM, blocking=True, interval=0.01)
        self.in_time(events.close)
        self.addCleanup(events.close)
        batches = events.batches(rows=10**9, seconds=1e6)
        self.assertEqual(len(next(batches)), 3)
        path.write_bytes(logs.worked_log(5))
        self.assertEqual([one.token for one in next(batches)], [f"{153 + 218 * at}.1@binlog.000001" for at in (3, 4)])

    def test_closed(self):
        """Nothing is given any more, also of a list that was begun."""
        path, read = self.put("binlog.000001", logs.worked_log(30)), []

        def close(value):
            read.append(value)
            if len(read) == 10:
                events.close()
            return value

        events = BinLogStreamReader(path, program=PROGRAM, convert={"t.id": close})
        self.assertEqual(list(events.batches(rows=10**9, seconds=1e6)), [])

    def test_a_place_where_transactions_end(self):
        """`end_log_pos` ends the last list."""
        path = self.put("binlog.000001", logs.worked_log(9))
        with BinLogStreamReader(path, program=PROGRAM, end_log_pos=153 + 218 * 4) as events:
            self.assertEqual([len(batch) for batch in events.batches(rows=10**9, seconds=1e6)], [4])
            self.assertEqual(events.place.token, f"{153 + 218 * 3}.1@binlog.000001")

    def test_a_fault(self):
        """The whole transactions before it are given first."""
        path = self.put("binlog.000001", logs.appended(logs.worked_log(3), logs.event(40)))
        with BinLogStreamReader(path, program=PROGRAM) as events:
            batches = events.batches()
            self.assertEqual(len(next(batches)), 3)
            with self.assertRaises(LogFault):
                next(batches)


class Members(FolderTest):
    """What else an event has."""

    def test_places(self):
        for event in BinLogStreamReader(SHOP, program=PROGRAM, only_events=[RowsEvent, GtidEvent, XidEvent]):
            self.assertEqual(f"{event.position}.{event.number}@{event.file}", event.token)
        (event,) = BinLogStreamReader(SHOP[1], program=PROGRAM, only_events=[RotateEvent])
        self.assertEqual((event.file, event.number, event.position), ("binlog.000002", 0, 4))

    def test_json(self):
        """Each event of the shop is a line, with the rows as a full line has them where JSON has the type."""
        for event in BinLogStreamReader(SHOP, program=PROGRAM, raw_values=True):
            text = event.to_json()
            self.assertNotIn("\n", text)
            told = json.loads(text)
            self.assertEqual(len(told.pop("rows")), len(event.rows))
            names = ("kind", "schema", "table", "timestamp", "committed", "gtid", "token")
            self.assertEqual(told, {"event": type(event).__name__, "key": list(event.key), **{name: getattr(event, name) for name in names}})
        insert, update, delete = (next(BinLogStreamReader(SHOP, program=PROGRAM, only_events=[kind])) for kind in RowsEvent.__subclasses__())
        for event, has in ((insert, (False, True)), (update, (True, True)), (delete, (True, False))):
            row = json.loads(event.to_json())["rows"][0]
            self.assertEqual((row["before"] is not None, row["after"] is not None), has)
        (event, *_) = BinLogStreamReader(SHOP, program=PROGRAM, only_tables=["purchase"])
        after = {"customer": 1, "id": 1, "paid": None, "placed": "2024-05-06T07:08:09.125000", "total": "21.80"}
        self.assertEqual(json.loads(event.to_json())["rows"], [{"before": None, "after": after}])
        (gtid, *_) = BinLogStreamReader(SHOP, program=PROGRAM, only_events=[GtidEvent])
        self.assertEqual(json.loads(gtid.to_json())["gtid"], gtid.gtid)

    def test_values(self):
        """Those that JSON hasn't."""
        hours = datetime.timedelta(hours=838, minutes=59, seconds=59, microseconds=1)
        for value, wanted in (
            (Decimal("-12345678901234567890.10"), '"-12345678901234567890.10"'),
            (datetime.date(2024, 2, 29), '"2024-02-29"'),
            (datetime.datetime(2024, 2, 29, 1, 2, 3), '"2024-02-29T01:02:03"'),
            (datetime.datetime(2024, 2, 29, tzinfo=datetime.timezone.utc), '"2024-02-29T00:00:00+00:00"'),
            (hours, '"838:59:59.000001"'),
            (-hours, '"-838:59:59.000001"'),
            (datetime.timedelta(seconds=-1), '"-00:00:01"'),
            (datetime.timedelta(), '"00:00:00"'),
            (b"\xff\0", '{"base64":"/wA="}'),
            ({"b", "a"}, '["a","b"]'),
            (set(), "[]"),
            (JSON_NULL, "null"),
            ({"é": [1.5, None, True]}, '{"é":[1.5,null,true]}'),
        ):
            self.assertEqual(json_of(value), wanted)
        with self.assertRaises(TypeError):
            json_of(Path)
