"""Programs that were written for python-mysql-replication run, but for the lines of the constructor that name a server.

They stand in `theirs`. What they print over the shop's logs was worked out by hand from its statements.
"""
import json
import os
import subprocess
import sys
import unittest
from pathlib import Path

import logs
from binlogfeed import (
    BinlogfeedError,
    BinLogStreamReader,
    DeleteRowsEvent,
    GtidEvent,
    LogFault,
    QueryEvent,
    RotateEvent,
    RowsEvent,
    TokenRefused,
    UpdateRowsEvent,
    WriteRowsEvent,
    XidEvent,
)
from support import BANK, PROGRAM, SECONDS, SHOP, TOP, FolderTest

THEIRS = Path(__file__).resolve().parent / "theirs"
SHOP_FILES = ", ".join(repr(str(path)) for path in SHOP)
SERVER = "3e11fa47-71ca-11e1-9e33-c80aa9429562"


def run_theirs(name, old, new, *words):
    """Runs one of their programs, with one line changed beside its imports. Answers what it printed."""
    text = (THEIRS / name).read_text(encoding="utf-8").replace("pymysqlreplication", "binlogfeed")
    if text.count(old) != 1 or "\n" in old + new:
        raise AssertionError(f"{name}: no such line: {old}")
    environment = {**os.environ, "PYTHONPATH": str(TOP / "python"), "PYTHONDONTWRITEBYTECODE": "1"}
    command = [sys.executable, "-W", "error", "-c", text.replace(old, new), *words]
    return subprocess.run(command, env=environment, stdout=subprocess.PIPE, timeout=SECONDS, check=True).stdout.decode()


def reader(files, **options):
    """A reader that runs the built program."""
    return BinLogStreamReader(files, program=PROGRAM, **options)


class Programs(unittest.TestCase):
    """A search index, an audit trail, a warehouse, and a list of tables."""

    def test_search_index(self):
        came = run_theirs("search_index.py", "connection_settings=MYSQL_SETTINGS, server_id=3,", f"[{SHOP_FILES}], program={PROGRAM!r},")
        wanted = {
            "shop:product:TEA-0001": {"type": "product", "text": "Green tea, 100 g", "tags": ["eco"]},
            "shop:product:CUP-0007": {"type": "product", "text": 'Cup "Blue"', "tags": ["sale"]},
            "shop:product:POT-0003": {"type": "product", "text": "Tea pot", "tags": ["sale"]},
            "shop:customer:1": {"type": "customer", "text": "Ada Lovelace", "tags": []},
            "shop:customer:3": {"type": "customer", "text": "李清照", "tags": []},
        }
        self.assertEqual(json.loads(came), wanted)

    def test_audit_trail(self):
        came = run_theirs("audit_trail.py", "connection_settings=SETTINGS, server_id=9,", f"[{SHOP_FILES}], program={PROGRAM!r},")
        paid = "datetime.datetime(2024, 5, 6, 8, 0, tzinfo=datetime.timezone.utc)"
        wanted = f"""file binlog.000001
2026-11-22 binlog.000001 1697 30 customer [('email', 'ada@example.org'), ('id', 1), ('joined', datetime.date(2024, 1, 15)), ('level', 'gold'), ('name', 'Ada Lovelace')]
2026-11-22 binlog.000001 1697 30 customer [('email', None), ('id', 2), ('joined', datetime.date(2024, 2, 29)), ('level', 'basic'), ('name', 'Søren Kierkegaard')]
2026-11-22 binlog.000001 1697 30 customer [('email', 'li@example.org'), ('id', 3), ('joined', datetime.date(2024, 3, 8)), ('level', 'silver'), ('name', '李清照')]
2026-11-22 commit 6
2026-11-22 binlog.000001 2592 30 purchase [('customer', 1), ('id', 1), ('paid', None), ('placed', datetime.datetime(2024, 5, 6, 7, 8, 9, 125000)), ('total', Decimal('21.80'))]
2026-11-22 binlog.000001 2592 30 line [('amount', 2), ('nr', 1), ('purchase', 1), ('sku', 'TEA-0001')]
2026-11-22 binlog.000001 2592 30 line [('amount', 1), ('nr', 2), ('purchase', 1), ('sku', 'CUP-0007')]
2026-11-22 commit 8
2026-11-22 binlog.000001 3114 31 purchase [('paid', (None, {paid}))]
2026-11-22 commit 9
file binlog.000002
2026-11-22 binlog.000002 198 30 purchase [('customer', 3), ('id', 3), ('paid', None), ('placed', datetime.datetime(2024, 6, 1, 23, 59, 59, 999000)), ('total', Decimal('35.55'))]
2026-11-22 binlog.000002 198 30 line [('amount', 1), ('nr', 1), ('purchase', 3), ('sku', 'POT-0003')]
2026-11-22 binlog.000002 198 31 customer [('level', ('silver', 'gold'))]
2026-11-22 commit 11
2026-11-22 binlog.000002 935 32 line [('amount', 1), ('nr', 2), ('purchase', 1), ('sku', 'CUP-0007')]
2026-11-22 commit 12
2026-11-22 binlog.000002 1268 31 purchase [('total', (Decimal('21.80'), Decimal('9.80')))]
2026-11-22 commit 13
2026-11-22 binlog.000002 1656 31 customer [('id', (2, 20))]
2026-11-22 commit 14
2026-11-22 binlog.000002 2072 32 customer [('email', None), ('id', 20), ('joined', datetime.date(2024, 2, 29)), ('level', 'basic'), ('name', 'Søren Kierkegaard')]
2026-11-22 commit 15
"""  # noqa: E501, these are the lines
        self.assertEqual(came, wanted)

    def test_warehouse(self):
        ours = f"[{SHOP_FILES}], program={PROGRAM!r}, naive_timestamps=True,"
        for file, position, wanted in (
            (
                "binlog.000001",
                "4",
                "2024-05-06 21.80\n2024-06-01 35.55\n39.50 0:51:50.875000 [2024, 2024, 2024]\nbinlog.000002 1656\n",
            ),
            ("binlog.000001", "3114", "2024-06-01 35.55\n35.55 0:51:50.875000 []\nbinlog.000002 1656\n"),
            ("binlog.000002", "4", "2024-06-01 35.55\n0 0:51:50.875000 []\nbinlog.000002 1656\n"),
            ("binlog.000002", "1656", "0 0:00:00 []\nbinlog.000002 1656\n"),
            ("binlog.000002", "2450", "0 0:00:00 []\nbinlog.000002 2450\n"),
        ):
            came = run_theirs("warehouse.py", "connection_settings=SOURCE, server_id=7,", ours, file, position)
            self.assertEqual(came, wanted)


    def test_schema_log(self):
        came = run_theirs("schema_log.py", "connection_settings=SETTINGS, server_id=5,", f"[{SHOP_FILES}], program={PROGRAM!r},")
        made = ("DATABASE shop", "TABLE customer", "TABLE product", "TABLE purchase", "TABLE line")
        wanted = "".join(f"binlog.000001 1795332186 shop CREATE {one}\n" for one in made)
        self.assertEqual(came, wanted + "{'customer': 3, 'product': 3, 'purchase': 2, 'line': 3}\n")


class Events(FolderTest):
    """Events and arguments as their users know them."""

    def test_rows_that_stand_together(self):
        found = [(type(event).kind, event.table, len(event.rows), event.token) for event in reader(SHOP)]
        wanted = [
            ("insert", "customer", 3, "1697.3@binlog.000001"), ("insert", "product", 3, "2149.3@binlog.000001"),
            ("insert", "purchase", 1, "2592.1@binlog.000001"), ("insert", "line", 2, "2592.3@binlog.000001"),
            ("update", "purchase", 1, "3114.1@binlog.000001"), ("update", "product", 2, "3506.2@binlog.000001"),
            ("insert", "purchase", 1, "198.1@binlog.000002"), ("insert", "line", 1, "198.2@binlog.000002"),
            ("update", "customer", 1, "198.3@binlog.000002"), ("delete", "line", 1, "935.1@binlog.000002"),
            ("update", "purchase", 1, "1268.1@binlog.000002"), ("update", "customer", 1, "1656.1@binlog.000002"),
            ("delete", "customer", 1, "2072.1@binlog.000002"),
        ]  # fmt: skip
        self.assertEqual(found, wanted)

    def test_rows_of_two_transactions_stand_apart(self):
        path = self.put("binlog.000001", logs.worked_log(3))
        self.assertEqual([len(event.rows) for event in reader(path)], [1, 1, 1])

    def test_bank(self):
        """All rows are there, in their order, however they are put together."""
        apart = [row for event in reader(BANK, together=False) for row in event.rows]
        events = list(reader(BANK))
        self.assertEqual([row for event in events for row in event.rows], apart)
        self.assertLess(len(events), len(apart))

    def test_before_and_after(self):
        events = list(reader(SHOP))
        with self.assertRaisesRegex(ValueError, "3 rows"):
            events[0].after
        with self.assertRaisesRegex(ValueError, "3 rows"):
            events[0].before
        self.assertEqual((events[2].before, events[2].after["id"]), (None, 1))
        self.assertEqual((events[9].before["nr"], events[9].after), (2, None))
        self.assertEqual((events[8].before["level"], events[8].after["level"]), ("silver", "gold"))

    def test_only_events(self):
        names = {GtidEvent: "gtid", XidEvent: "xid", RotateEvent: "rotate"}
        for only in ([GtidEvent], [XidEvent], [RotateEvent], [GtidEvent, XidEvent, RotateEvent]):
            with self.subTest(only=only):
                found = list(reader(SHOP, only_events=only, only_tables=["line"]))
                files = [("rotate", "2592.0@binlog.000001"), ("rotate", "198.0@binlog.000002")]
                gtids = [("gtid", f"{place}.0@binlog.00000{file}") for place, file in ((2592, 1), (198, 2), (935, 2))]
                xids = [("xid", "2592.3@binlog.000001"), ("xid", "198.2@binlog.000002"), ("xid", "935.1@binlog.000002")]
                every = [files[0], gtids[0], xids[0], files[1], gtids[1], xids[1], gtids[2], xids[2]]
                wanted = [one for one in every if one[0] in [names[kind] for kind in only]]
                self.assertEqual([(names[type(event)], event.token) for event in found], wanted)
        gtids = [event.gtid for event in reader(SHOP, only_events=[GtidEvent])]
        self.assertEqual(gtids, [f"{SERVER}:{number}" for number in range(6, 16)])
        rotates = list(reader(SHOP, only_events=[RotateEvent]))
        self.assertEqual([(event.next_binlog, event.position) for event in rotates], [("binlog.000001", 4), ("binlog.000002", 4)])

    def test_rows_beside_others(self):
        found = [type(event) for event in reader(SHOP[1], only_events=[XidEvent, DeleteRowsEvent])]
        self.assertEqual(found, [DeleteRowsEvent, XidEvent, DeleteRowsEvent, XidEvent])
        found = [type(event) for event in reader(SHOP[1], only_events=[RowsEvent], ignored_events=[UpdateRowsEvent])]
        self.assertEqual(found, [WriteRowsEvent, WriteRowsEvent, DeleteRowsEvent, DeleteRowsEvent])

    def test_ignored_events(self):
        found = {type(event) for event in reader(SHOP, ignored_events=[UpdateRowsEvent])}
        self.assertEqual(found, {WriteRowsEvent, DeleteRowsEvent})
        with self.assertRaises(ValueError):
            reader(SHOP, ignored_events=[RowsEvent])
        with self.assertRaises(TypeError):
            reader(SHOP, ignored_events=["insert"])

    def test_commit_before_a_fault(self):
        """The transaction before a fault is whole, and its rows and commit come before the fault."""
        path = self.put("binlog.000001", logs.appended(logs.A, logs.event(40)))
        for only, wanted in (([XidEvent], [XidEvent]), ([WriteRowsEvent, XidEvent], [WriteRowsEvent, XidEvent])):
            found = []
            with self.assertRaises(LogFault):
                for event in reader(path, only_events=only):
                    found.append(type(event))
            self.assertEqual(found, wanted)

    def test_tokens_of_others(self):
        """A reader that goes on behind the token of any event gives the rows behind it."""
        every = [RowsEvent, GtidEvent, RotateEvent, XidEvent]
        events = list(reader(SHOP, only_events=every))
        for place, event in enumerate(events):
            wanted = [one.token for one in events[place + 1 :] if isinstance(one, RowsEvent)]
            if isinstance(event, XidEvent) and not wanted:
                continue
            self.assertEqual([one.token for one in reader(SHOP, resume=event.token)], wanted)

    def test_skip_to_timestamp(self):
        every = list(reader(BANK))
        for at in (0, every[0].timestamp, every[len(every) // 2].timestamp, every[-1].timestamp, every[-1].timestamp + 1):
            wanted = [event.token for event in every if event.timestamp >= at]
            self.assertEqual([event.token for event in reader(BANK, skip_to_timestamp=at)], wanted)

    def test_end_log_pos(self):
        for end, tokens in ((1697, 0), (1698, 1), (3114, 4), (3115, 5), (99999, 6)):
            events = reader(SHOP[0], end_log_pos=end)
            self.assertEqual(len(list(events)), tokens)
            self.assertEqual(events.is_past_end_log_pos, end < 3506)

    def test_where_it_is(self):
        events = reader(SHOP)
        self.assertEqual((events.log_file, events.log_pos), (None, None))
        places = [(events.log_file, events.log_pos) for _ in events]
        self.assertEqual((places[0], places[-1]), (("binlog.000001", 1697), ("binlog.000002", 2072)))
        events = reader(SHOP, resume_stream=True, log_file="binlog.000002", log_pos=935)
        self.assertEqual((events.log_file, events.log_pos), ("binlog.000002", 935))
        self.assertEqual(next(events).packet, ("binlog.000002", 935))

    def test_log_file(self):
        """Without `resume_stream` the file is read from its beginning."""
        for options in ({"log_file": "binlog.000002"}, {"log_file": "binlog.000002", "log_pos": 935}):
            self.assertEqual(next(reader(SHOP, **options)).token, "198.1@binlog.000002")
        with self.assertRaises(TokenRefused) as caught:
            next(reader(SHOP, resume_stream=True, log_file="binlog.000002", log_pos=936))
        self.assertEqual(caught.exception.name, "TokenNoTransaction")
        for files in (SHOP, [], str(SHOP[0])):
            for options in ({}, {"blocking": True}):
                with self.assertRaises(BinlogfeedError) as caught:
                    next(reader(files, log_file="binlog.000003", **options))
                self.assertIn(caught.exception.line.rpartition(" ")[2], ("TokenNoFile", "given"))
        for options in ({"resume_stream": True}, {"log_pos": 4}, {"resume": "198.1@binlog.000002", "log_file": "binlog.000002"}):
            with self.assertRaises(ValueError):
                reader(SHOP, **options)

    def test_a_place_of_logs(self):
        """A folder, an index and a pattern are read to their end, and no further."""
        for path in SHOP:
            self.put(path.name, path.read_bytes())
        self.put("binlog.index", b"./binlog.000001\n./binlog.000002\n")
        wanted = [event.token for event in reader(SHOP)]
        for place in (self.folder, self.folder / "binlog.index", f"{self.folder}/binlog.0*"):
            self.assertEqual([event.token for event in reader(place)], wanted)
            self.assertEqual([event.token for event in reader(place, resume=wanted[5])], wanted[6:])

    def test_dump(self):
        events = list(reader(SHOP, only_events=[RowsEvent, RotateEvent, GtidEvent]))
        said = self.folder / "said"
        for event, wanted in (
            (events[0], "=== RotateEvent ===\nDate: 2026-11-22T07:23:06+00:00\nLog position: 1697\nPosition: 4\nNext binlog file: binlog.000001\n\n"),
            (events[1], f"=== GtidEvent ===\nDate: 2026-11-22T07:23:06+00:00\nLog position: 1697\nGTID: {SERVER}:6\n\n"),
            (
                events[9],
                "=== UpdateRowsEvent ===\nDate: 2026-11-22T07:23:06+00:00\nLog position: 3114\nTable: shop.purchase\nChanged rows: 1\n"
                "Changed values:\n--\n* customer : 1 => 1\n* id : 1 => 1\n* paid : None => 2024-05-06 08:00:00+00:00\n"
                "* placed : 2024-05-06 07:08:09.125000 => 2024-05-06 07:08:09.125000\n* total : 21.80 => 21.80\n\n",
            ),
        ):  # fmt: skip
            with open(said, "w", encoding="utf-8") as out:
                event.dump(out)
            self.assertEqual(said.read_text(encoding="utf-8"), wanted)


class NotHere(unittest.TestCase):
    """What belongs to a connection, and what isn't given, is refused with what there is in its place."""

    def test_arguments(self):
        for options, said in (
            ({"connection_settings": {}}, "first argument"),
            ({"connection_settings": {}, "server_id": 1}, "first argument"),
            ({"server_id": 1}, "leave it out"),
            ({"slave_uuid": "x"}, "leave it out"),
            ({"slave_heartbeat": 1}, "interval"),
            ({"ignore_decode_errors": True}, "on_bad_value"),
            ({"verify_checksum": True}, "aren't verified"),
            ({"freeze_schema": True}, "binlog_row_metadata"),
            ({"nothing": 1}, "no such argument"),
        ):
            for files in ((), (SHOP,)):
                with self.assertRaisesRegex(TypeError, f"{next(iter(options))}: .*{said}"):
                    BinLogStreamReader(*files, **options)
        with self.assertRaisesRegex(TypeError, "connection_settings: .*first argument"):
            BinLogStreamReader({"host": "localhost"})
        with self.assertRaisesRegex(TypeError, "first argument"):
            BinLogStreamReader()

    def test_imports(self):
        with self.assertRaisesRegex(ImportError, "HeartbeatLogEvent: no server"):
            from binlogfeed.event import HeartbeatLogEvent  # noqa: F401
        with self.assertRaisesRegex(ImportError, "TableMapEvent: .*columns"):
            from binlogfeed.row_event import TableMapEvent  # noqa: F401
        with self.assertRaises(ImportError):
            from binlogfeed.event import Nothing  # noqa: F401
        from binlogfeed import event, row_event

        self.assertIs(event.XidEvent, XidEvent)
        self.assertIs(event.QueryEvent, QueryEvent)
        self.assertIs(row_event.WriteRowsEvent, WriteRowsEvent)
