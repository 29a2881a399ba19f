"""The reader: what its events have, its filters, its end, and its errors."""
import json
import os
import random
import subprocess
import sys
import threading
import time
import tracemalloc
from decimal import Decimal
from unittest import mock

import logs
from binlogfeed import (
    JSON_NULL,
    BinLogStreamReader,
    BinlogfeedError,
    ConversionFailed,
    DeleteRowsEvent,
    FileFault,
    GtidEvent,
    LogFault,
    LogsGone,
    OutOfMemory,
    Place,
    ProgramFailed,
    ProgramMissing,
    TokenRefused,
    UpdateRowsEvent,
    WordsRefused,
    WriteRowsEvent,
    XidEvent,
    floats,
)
from binlogfeed import watch as watching
from binlogfeed.watch import Watch
from built.growing import Server
from support import BANK, PROGRAM, SECONDS, SHOP, TOP, FolderTest, bank_rows

SERVER = "3e11fa47-71ca-11e1-9e33-c80aa9429562"
# A line of `read --full`, but for its token.
LINE = (
    '{"after":{"id":1},"before":null,"gtid":null,"key":["id"],"types":{"id":"int"},"kind":"insert","schema":"s","table":"t",'
    '"timestamp":1,"token":"%s"}'
)


def reader(files, **options):
    """A reader that runs the built program, and gives each row by itself."""
    return BinLogStreamReader(files, program=PROGRAM, together=False, **options)


def tokens(files, **options):
    """The tokens of a reader's events."""
    with reader(files, **options) as events:
        return [event.token for event in events]


def shop_lines():
    """The changes of the shop, as they stand in its folder."""
    return [json.loads(line) for line in (TOP / "examples/shop/read.jsonl").read_text(encoding="utf-8").splitlines()]


class Events(FolderTest):
    """What an event has."""

    def test_shop(self):
        kinds = {"insert": WriteRowsEvent, "update": UpdateRowsEvent, "delete": DeleteRowsEvent}
        events = list(reader(SHOP, raw_values=True))
        self.assertEqual(len(events), 19)
        for event, line in zip(events, shop_lines()):
            self.assertIs(type(event), kinds[line["kind"]])
            for name in ("schema", "table", "timestamp", "gtid", "token"):
                self.assertEqual(getattr(event, name), line[name])
            if event.table != "product":
                self.assertEqual((event.before, event.after), (line["before"], line["after"]))

    def test_rows_of_each_kind(self):
        events = list(reader(SHOP[1]))
        self.assertEqual(events[1].rows, [{"values": {"amount": 1, "nr": 1, "purchase": 3, "sku": "POT-0003"}}])
        self.assertEqual(events[3].rows, [{"values": {"amount": 1, "nr": 2, "purchase": 1, "sku": "CUP-0007"}}])
        (row,) = events[4].rows
        self.assertEqual((row["before_values"]["total"], row["after_values"]["total"]), (Decimal("21.80"), Decimal("9.80")))

    def test_raw_numbers(self):
        events = list(reader(SHOP, only_tables=["product"], only_events=[WriteRowsEvent], raw_values=True))
        weights = [event.rows[0]["values"]["weight"] for event in events]
        self.assertEqual(weights, [0.1, 0.35, 1.2])

    def test_bytes_that_are_not_text(self):
        rows = logs.event(logs.WRITE_ROWS, logs.parts("rows-head fc u32:1 02 fffe"))
        (event,) = reader(self.put("binlog.000001", logs.log_of([logs.parts("begin map-t"), rows, logs.parts("xid")])))
        self.assertEqual(event.rows, [{"values": {"id": 1, "v": b"\xff\xfe"}}])
        self.assertIsNone(event.gtid)

    def test_bank(self):
        keys = {"account": "id", "journal": "seq"}
        tables, last = {"account": {}, "journal": {}}, None
        with reader(BANK, raw_values=True) as events:
            for transaction in events.transactions():
                self.assertNotEqual(transaction.gtid, last)
                last = transaction.gtid
                for event in transaction:
                    rows, key = tables[event.table], keys[event.table]
                    if event.before:
                        self.assertEqual(rows.pop(event.before[key]), event.before)
                    if event.after:
                        self.assertIs(rows.setdefault(event.after[key], event.after), event.after)
        for table, rows in bank_rows().items():
            self.assertEqual(tables[table], {row[keys[table]]: row for row in rows})

    def test_memory(self):
        path = self.put("binlog.000001", logs.worked_log(20_000))
        tracemalloc.start()
        try:
            with reader(path) as events:
                self.assertEqual(sum(len(transaction) for transaction in events.transactions()), 20_000)
            peak = tracemalloc.get_traced_memory()[1]
        finally:
            tracemalloc.stop()
        self.assertLess(peak, 1_000_000)


class Members(FolderTest):
    """Members that some lines have, and others don't."""

    def events(self, members, row, **options):
        """The events of two lines with these members, which are text behind a GTID, and such a row."""
        line = (LINE % "4.%d@f").replace('"after":{"id":1}', f'"after":{row}').replace('"gtid":null', members)
        line = line.replace('"types":{"id":"int"}', '"types":{"id":"int","doc":"json"}')
        lines = self.put("lines", f"{line % 1}\n{line % 2}\n".encode())
        return list(BinLogStreamReader("f", program=self.stub(f"cat {lines}"), **options))

    def test_commit_times(self):
        for members, wanted in (('"committed":1795332186123456,"gtid":"a:1"', 1795332186123456), ('"gtid":"a:1"', None)):
            events = self.events(members, '{"id":1}', only_events=[WriteRowsEvent, GtidEvent, XidEvent])
            told = [(type(event), event.committed) for event in events]
            self.assertEqual(told, [(kind, wanted) for kind in (GtidEvent, WriteRowsEvent, XidEvent)])
            self.assertEqual(len(events[1].rows), 2)
            (transaction,) = BinLogStreamReader("f", program=str(self.folder / "stub")).transactions()
            self.assertEqual(transaction.committed, wanted)

    def test_json_nulls(self):
        """Without an argument they are None, as in python-mysql-replication."""
        members = '"gtid":null,"json_null":["after.doc"]'
        for options, wanted in (({}, None), ({"json_null": JSON_NULL}, JSON_NULL), ({"json_null": "null", "raw_values": True}, "null")):
            (event,) = self.events(members, '{"doc":null,"id":1}', **options)
            self.assertEqual([row["values"] for row in event.rows], [{"doc": wanted, "id": 1}] * 2)
        (event,) = self.events('"gtid":null', '{"doc":null,"id":1}', json_null=JSON_NULL)
        self.assertIsNone(event.rows[0]["values"]["doc"])
        self.assertFalse(JSON_NULL)
        self.assertEqual(repr(JSON_NULL), "JSON_NULL")


class Together(FolderTest):
    """Rows that come in one event."""

    def tokens_of(self, *changes):
        """The token of each event, and how many rows it has, for lines with these timestamps and tokens."""
        lines = "".join((LINE % token).replace('"timestamp":1', f'"timestamp":{timestamp}') + "\n" for timestamp, token in changes)
        program = self.stub(f"cat {self.put('lines', lines.encode())}")
        return [(event.token, event.timestamp, len(event.rows)) for event in BinLogStreamReader("f", program=program)]

    def test_one_event(self):
        self.assertEqual(self.tokens_of((1, "4.1@f"), (1, "4.2@f"), (1, "4.13@f")), [("4.13@f", 1, 3)])

    def test_times(self):
        self.assertEqual(self.tokens_of((1, "4.1@f"), (2, "4.2@f")), [("4.1@f", 1, 1), ("4.2@f", 2, 1)])

    def test_transactions(self):
        """They differ in their positions or their files, whose names may hold what stands in a token."""
        for other in ("5.1@f", "40.1@f", "4.1@g", "4.1@x@f", "4.1@.f", "4.1@f@f", "4.2@f.1"):
            self.assertEqual(self.tokens_of((1, "4.1@f"), (1, other)), [("4.1@f", 1, 1), (other, 1, 1)])
        self.assertEqual(self.tokens_of((1, "4.1@a.b@c"), (1, "4.2@a.b@c")), [("4.2@a.b@c", 1, 2)])

    def test_most_rows(self):
        found = self.tokens_of(*((1, f"4.{number}@f") for number in range(1, 2002)))
        self.assertEqual(found, [("4.1000@f", 1, 1000), ("4.2000@f", 1, 1000), ("4.2001@f", 1, 1)])


class Choice(FolderTest):
    """Which events a reader gives."""

    def test_filters(self):
        every = shop_lines()
        cases = [
            ({"only_events": [WriteRowsEvent]}, lambda line: line["kind"] == "insert"),
            ({"only_events": [UpdateRowsEvent, DeleteRowsEvent]}, lambda line: line["kind"] != "insert"),
            ({"only_tables": ["line", "product"]}, lambda line: line["table"] in ("line", "product")),
            ({"ignored_tables": ["line"]}, lambda line: line["table"] != "line"),
            ({"ignored_tables": []}, lambda line: True),
            ({"only_schemas": ["shop"]}, lambda line: True),
            ({"only_schemas": ["SHOP"]}, lambda line: False),
            ({"ignored_schemas": ["shop"]}, lambda line: False),
            ({"auto_position": f"{SERVER}:1-9"}, lambda line: int(line["gtid"].rpartition(":")[2]) > 9),
            ({"auto_position": f"{SERVER}:1-9:tag_one:1-30"}, lambda line: int(line["gtid"].rpartition(":")[2]) > 9),
            ({"auto_position": f"{SERVER}:b:1-30"}, lambda line: True),
            ({"only_tables": ["-x", "line"]}, lambda line: line["table"] == "line"),
        ]
        for options, passes in cases:
            with self.subTest(options=options):
                self.assertEqual(tokens(SHOP, **options), [line["token"] for line in every if passes(line)])

    def test_resume(self):
        every = [line["token"] for line in shop_lines()]
        for place, token in enumerate(every):
            self.assertEqual(tokens(SHOP, resume=token), every[place + 1 :])

    def test_transactions(self):
        with reader(SHOP) as events:
            found = [(transaction.gtid, len(transaction), transaction.token) for transaction in events.transactions()]
        sizes = [(6, 3), (7, 3), (8, 3), (9, 1), (10, 2), (11, 3), (12, 1), (13, 1), (14, 1), (15, 1)]
        self.assertEqual([(gtid, size) for gtid, size, _ in found], [(f"{SERVER}:{number}", size) for number, size in sizes])
        self.assertEqual([token for _, _, token in found[:2]], ["1697.3@binlog.000001", "2149.3@binlog.000001"])

    def test_refused_arguments(self):
        with self.assertRaises(TypeError):
            BinLogStreamReader(SHOP, only_tables="line")
        with self.assertRaises(TypeError):
            BinLogStreamReader(SHOP, only_events=["insert"])
        with self.assertRaises(ValueError):
            BinLogStreamReader(SHOP, ignored_tables=["a,b"])
        for name in ("only_events", "only_tables", "only_schemas"):
            with self.assertRaises(ValueError):
                BinLogStreamReader(SHOP, **{name: []})

    def test_a_path_that_looks_like_an_option(self):
        self.put("--help", b"none")
        before = os.getcwd()
        os.chdir(self.folder)
        try:
            with self.assertRaises(LogFault) as caught:
                list(reader("--help"))
        finally:
            os.chdir(before)
        self.assertEqual((caught.exception.file, caught.exception.what), ("--help", "BadMagic"))


class Conversion(FolderTest):
    """Converters of columns."""

    def test_columns(self):
        convert = {"purchase.total": Decimal, "product.weight": floats.shortest, "other.total": int}
        convert["shop.customer.name"] = str.encode
        events = list(reader(SHOP, convert=convert))
        self.assertEqual(events[0].after["name"], b"Ada Lovelace")
        self.assertEqual([event.after["weight"] for event in events[3:6]], [0.1, 0.35, 1.2])
        self.assertEqual((events[9].before["total"], events[9].after["total"]), (Decimal("21.80"), Decimal("21.80")))

    def test_the_schema_goes_before(self):
        convert = {"shop.customer.id": lambda value: "with schema", "customer.id": lambda value: "without"}
        self.assertEqual(next(reader(SHOP, convert=convert)).after["id"], "with schema")

    def test_null(self):
        events = list(reader(SHOP, only_tables=["customer"], convert={"customer.email": str.upper}))
        self.assertEqual([event.after["email"] for event in events[:2]], ["ADA@EXAMPLE.ORG", None])

    def test_empty_and_nought(self):
        """Only NULL is left as it is: an empty text and the number 0 are values, and so are bytes of none."""
        change = LINE.replace('{"id":1}', '{"bytes":{"base64":""},"gone":null,"nr":0,"text":""}') % "4.1@f"
        change = change.replace('{"id":"int"}', '{"bytes":"blob","gone":"int","nr":"int","text":"text utf8mb4"}')
        convert = {f"t.{column}": lambda value: ("converted", value) for column in ("bytes", "gone", "nr", "text")}
        (event,) = BinLogStreamReader("f", together=False, program=self.stub(f"echo '{change}'"), convert={**convert, "t.text": str.encode})
        self.assertEqual(event.after, {"bytes": ("converted", b""), "gone": None, "nr": ("converted", 0), "text": b""})
        self.assertIs(type(event.after["text"]), bytes)

    def test_refused(self):
        with reader(SHOP, convert={"customer.name": int}) as events:
            with self.assertRaises(ConversionFailed) as caught:
                next(events)
            self.assertIn("shop.customer.name at 1697.1@binlog.000001", caught.exception.line)
            self.assertIsInstance(caught.exception.__cause__, ValueError)
            # The next event would follow a gap.
            self.assertEqual(list(events), [])

    def test_refused_inside_a_transaction(self):
        with reader(SHOP, convert={"line.nr": {1: 1}.__getitem__}) as events:
            found = []
            with self.assertRaises(ConversionFailed):
                for transaction in events.transactions():
                    found.append(transaction.gtid)
        self.assertEqual(found, [f"{SERVER}:6", f"{SERVER}:7"])


class Ends(FolderTest):
    """How a reading ends."""

    def endless(self):
        """A program that writes lines without end, and says its process."""
        line = LINE % "4.1@f"
        return self.stub(f"echo $$ > {self.folder}/process\nexec yes '{line}'")

    def process_is_gone(self):
        """Whether the stub's process ended."""
        try:
            os.kill(int((self.folder / "process").read_text()), 0)
        except ProcessLookupError:
            return True
        return False

    def test_close(self):
        events = BinLogStreamReader("f", together=False, program=self.endless())
        for _ in range(3):
            next(events)
        events.close()
        self.assertTrue(self.process_is_gone())
        self.assertEqual(list(events), [])
        events.close()

    def test_leaving_by_an_error(self):
        with self.assertRaises(ZeroDivisionError):
            with BinLogStreamReader("f", together=False, program=self.endless()) as events:
                for _ in events:
                    raise ZeroDivisionError
        self.assertTrue(self.process_is_gone())

    def test_close_before_the_first_event(self):
        events = BinLogStreamReader("f", together=False, program=self.endless())
        events.close()
        self.assertIsNone(events.fetchone())
        self.assertFalse((self.folder / "process").exists())

    def close_when_it_runs(self, events):
        """Closes a reader as soon as the stub has said its process."""
        said = self.folder / "process"
        while not (said.exists() and said.read_text().endswith("\n")):
            time.sleep(0.01)
        events.close()

    def test_close_while_another_thread_waits(self):
        program = self.stub(f"echo $$ > {self.folder}/process\nexec sleep 60")
        events = BinLogStreamReader("f", together=False, program=program)
        closer = threading.Thread(target=self.close_when_it_runs, args=(events,), daemon=True)
        closer.start()
        started = time.monotonic()
        self.assertEqual(list(events), [])
        closer.join()
        self.assertLess(time.monotonic() - started, 30)
        self.assertTrue(self.process_is_gone())

    def close_by_several_threads(self, begun):
        """Closes readers from three threads at once, where another has begun to read, or begins meanwhile."""
        faults = []

        def act(action, start=None):
            if start:
                start.wait()
            try:
                action()
            except ValueError as fault:
                faults.append(fault)

        program = self.stub("exec sleep 60")
        for _ in range(100):
            events = BinLogStreamReader("f", together=False, program=program)
            start = threading.Barrier(3 if begun else 4)
            threads = [threading.Thread(target=act, args=(events.fetchone, None if begun else start), daemon=True)]
            threads += [threading.Thread(target=act, args=(events.close, start), daemon=True) for _ in range(3)]
            for thread in threads:
                thread.start()
            for thread in threads:
                thread.join(30)
            self.assertFalse(any(thread.is_alive() for thread in threads))
        self.assertEqual(faults, [])

    def test_close_by_several_threads_while_another_waits(self):
        self.close_by_several_threads(begun=True)

    def test_close_by_several_threads_while_another_begins(self):
        self.close_by_several_threads(begun=False)

    def test_closed_inside_a_transaction(self):
        events = BinLogStreamReader("f", together=False, program=self.endless())
        closer = threading.Timer(0.1, events.close)
        closer.start()
        # All these lines are of one transaction, whose end never came.
        self.assertEqual(list(events.transactions()), [])
        closer.join()

    def test_closed_while_it_waits_inside_a_transaction(self):
        """The rest of the transaction may never have come."""
        events = BinLogStreamReader("f", program=self.stub(f"echo '{LINE % '4.1@f'}'\nexec sleep 60"), together=False)
        closer = threading.Thread(target=lambda: (time.sleep(0.3), events.close()))
        closer.start()
        self.assertEqual(list(events.transactions()), [])
        closer.join()

    def test_a_program_that_takes_no_sigterm(self):
        """It is ended all the same."""
        events = BinLogStreamReader("f", program=self.stub(f"trap '' TERM\necho '{LINE % '4.1@f'}'\nexec sleep 60"), together=False)
        next(events)
        started = time.monotonic()
        events.close()
        self.assertLess(time.monotonic() - started, 30)

    def test_fetchone(self):
        events = reader(SHOP[1])
        self.assertEqual(sum(1 for _ in iter(events.fetchone, None)), 7)
        self.assertIsNone(events.fetchone())

    def test_much_on_standard_error(self):
        program = self.stub("head -c 1000000 /dev/zero | tr '\\0' x >&2\necho >&2\necho 'binlogfeed: out of memory' >&2\nexit 5")
        with self.assertRaises(OutOfMemory):
            list(BinLogStreamReader("f", together=False, program=program))


class Blocking(FolderTest):
    """Readers that wait for more at the logs' end."""

    def reader(self, files, **options):
        """A reader that waits. Where it waits for too long it is closed, and gives no event."""
        events = reader(files, blocking=True, interval=0.001, **options)
        self.in_time(events.close)
        self.addCleanup(events.close)
        return events

    def test_servers(self):
        """Servers write, rotate and purge. Each event comes once, and each transaction whole."""
        for seed, files in ((1, SHOP), (2, BANK)):
            with self.subTest(seed=seed), mock.patch.object(watching, "PATIENCE", SECONDS):
                folder = self.folder / str(seed)
                folder.mkdir()
                server, taken, wanted = Server(folder, files, random.Random(seed), 0.002), [], tokens(files)
                events = self.reader(folder)

                def serve(server=server, taken=taken):
                    while server.step():
                        if taken:
                            server.purge(taken[-1].rpartition("@")[2])

                thread = threading.Thread(target=serve)
                thread.start()
                for transaction in events.transactions():
                    taken += [event.token for event in transaction]
                    if len(taken) >= len(wanted):
                        break
                thread.join()
                self.assertEqual(taken, wanted)

    def test_a_transaction_is_given_at_once(self):
        """It doesn't wait for the next one."""
        path = self.put("binlog.000001", logs.A)
        transactions = self.reader(path).transactions()
        for count in (1, 2, 3):
            self.assertEqual(next(transactions).token, f"{153 + 218 * (count - 1)}.1@binlog.000001")
            self.put("binlog.000001", logs.worked_log(count + 1))

    def test_places(self):
        """An index, its folder, a pattern, a log and a list of files."""
        for path in SHOP:
            self.put(path.name, path.read_bytes())
        self.put("binlog.index", b"./binlog.000001\n./binlog.000002\n")
        wanted, paths = tokens(SHOP), [self.folder / path.name for path in SHOP]
        for place in (self.folder, str(self.folder), self.folder / "binlog.index", f"{self.folder}/binlog.*", paths, iter(paths)):
            events = self.reader(place)
            self.assertEqual([next(events).token for _ in wanted], wanted)
        self.assertEqual(next(self.reader(paths[1])).token, "198.1@binlog.000002")
        self.put("a log by another name", SHOP[1].read_bytes())
        self.assertEqual(next(self.reader(self.folder / "a log by another name")).token, "198.1@a log by another name")

    def test_options(self):
        wanted = tokens(SHOP, only_tables=["line"], only_events=[WriteRowsEvent])
        events = self.reader(SHOP, only_tables=["line"], only_events=[WriteRowsEvent])
        self.assertEqual([next(events).token for _ in wanted], wanted)

    def test_resume(self):
        wanted = tokens(SHOP)
        self.put("binlog.index", b"./binlog.000001\n./binlog.000002\n")
        for path in SHOP:
            self.put(path.name, path.read_bytes())
        for place in (SHOP, self.folder):
            for start in (0, 10, 17):
                events = self.reader(place, resume=wanted[start])
                self.assertEqual([next(events).token for _ in wanted[start + 1 :]], wanted[start + 1 :])

    def append(self, name, content):
        """Writes more of a log, as a server does."""
        with open(self.folder / name, "ab") as file:
            file.write(content)

    def begun_at_the_end(self, files, **options):
        """A reader that began at the logs' end, and a list that gets what it gives, or its error."""
        begun, taken = self.folder / "begun", []
        begun.unlink(missing_ok=True)
        program = self.stub(f'[ "$1" = read ] && : > {begun}\nexec {PROGRAM} "$@"')
        events = BinLogStreamReader(files, program=program, blocking=True, interval=0.001, resume_stream=True, **options)
        self.in_time(events.close)
        self.addCleanup(events.close)

        def take():
            """Takes events until the reader is closed."""
            try:
                taken.extend(iter(events.fetchone, None))
            except BinlogfeedError as error:
                taken.append(error)

        thread = threading.Thread(target=take, daemon=True)
        thread.start()
        while thread.is_alive() and not begun.exists():
            time.sleep(0.001)
        return events, taken, thread

    def taken_behind(self, files, grow, count):
        """The tokens of so many events that come behind the logs' end, once they have grown."""
        events, taken, thread = self.begun_at_the_end(files)
        grow()
        while thread.is_alive() and len(taken) < count:
            time.sleep(0.001)
        events.close()
        thread.join()
        return [event.token for event in taken]

    def test_from_the_end(self):
        """`resume_stream` without `log_file`: only what comes later is given, and all of that."""
        whole, name = logs.worked_log(4), "binlog.000001"
        wanted = [f"{153 + 218 * number}.1@{name}" for number in range(4)]
        # Behind two transactions; within the third, which is whole later; behind none.
        for length, first in ((153 + 436, 2), (153 + 436 + 100, 2), (153, 0)):
            path = self.put(name, whole[:length])
            for place in ([path], f"{self.folder}/binlog.0*"):
                with self.subTest(length=length, place=place):
                    self.put(name, whole[:length])
                    found = self.taken_behind(place, lambda rest=whole[length:]: self.append(name, rest), 4 - first)
                    self.assertEqual(found, wanted[first:])

    def test_from_the_end_of_the_last_log(self):
        """What the logs before it have isn't given, whether one of them is missing or not; the log that follows is."""
        first, following = SHOP[0].read_bytes(), SHOP[1].read_bytes()
        wanted = [token for token in tokens(SHOP) if token.endswith("2")]
        for others in ((), ("binlog.000000",)):
            with self.subTest(others=others):
                for other in others:
                    self.put(other, logs.A)
                self.put("binlog.000001", first)
                (self.folder / "binlog.000002").unlink(missing_ok=True)
                found = self.taken_behind(f"{self.folder}/binlog.0*", lambda: self.put("binlog.000002", following), len(wanted))
                self.assertEqual(found, wanted)
        self.put("binlog.000009", logs.A)
        _, taken, thread = self.begun_at_the_end(f"{self.folder}/binlog.0*")
        self.append("binlog.000009", logs.worked_log(2)[371:])
        while thread.is_alive() and not taken:
            time.sleep(0.001)
        self.assertEqual([event.token for event in taken], ["371.1@binlog.000009"])

    def test_from_the_end_where_no_log_is_yet(self):
        """All that comes comes later."""
        events = self.reader(f"{self.folder}/binlog.0*", resume_stream=True)
        with self.once_it_waits(self.put, "binlog.000001", logs.A), self.assertWarns(UserWarning):
            self.assertEqual(next(events).token, "153.1@binlog.000001")

    def test_from_the_end_behind_a_fault(self):
        """What can't be read can't be passed over."""
        path = self.put("binlog.000001", logs.appended(logs.A, logs.event(40)))
        with self.assertRaises(LogFault):
            next(self.reader(path, resume_stream=True))

    def test_the_end_of_a_log_that_is_replaced(self):
        """Another log under the name of that behind whose end a watch begins, before the first look and behind it."""
        for looks in (0, 1):
            self.put("binlog.000001", logs.worked_log(2))
            watch = Watch(f"{self.folder}/binlog.0*", [PROGRAM, "read", "--follow", "--full"], Place())
            self.addCleanup(watch.end)
            watch.skip()
            self.assertEqual(watch.place.token, "589.0@binlog.000001")
            for _ in range(looks):
                self.assertEqual(list(watch.look()), [])
            log = bytearray(logs.worked_log(3))
            log[4] ^= 1  # the time at which it was begun
            self.put("binlog.000001", log)
            with self.assertRaises(LogsGone):
                list(watch.look())

    def test_the_end_for_a_closed_watch(self):
        path = self.put("binlog.000001", logs.A)
        watch = Watch([path], [self.stub("exec sleep 60"), "read", "--follow"], Place())
        watch.end()
        started = time.monotonic()
        watch.skip()
        self.assertLess(time.monotonic() - started, 30)

    def test_close_while_it_looks_for_the_end(self):
        path = self.put("binlog.000001", logs.A)
        for seconds in (0, 0.01, 0.1):
            events = BinLogStreamReader(path, program=self.stub("exec sleep 60"), blocking=True, resume_stream=True)
            closer = threading.Timer(seconds, events.close)
            closer.start()
            started = time.monotonic()
            self.assertEqual(list(events), [])
            closer.join()
            self.assertLess(time.monotonic() - started, 30)

    def test_refused_tokens(self):
        path = self.put("binlog.000001", logs.A)
        for token, name in (("153", "BadToken"), ("0153.1@binlog.000001", "BadToken"), ("4.1@binlog.000001", "TokenNoTransaction")):
            with self.assertRaises(TokenRefused) as caught:
                next(self.reader(path, resume=token))
            self.assertEqual(caught.exception.name, name)
        with self.assertRaises(TokenRefused) as caught:
            next(self.reader([path], resume="153.1@binlog.000002"))
        self.assertEqual(caught.exception.name, "TokenNoFile")

    def test_errors(self):
        """They come behind the events before them, and no event follows."""
        path = self.put("binlog.000001", logs.appended(logs.A, logs.event(40)))
        events = self.reader(path)
        self.assertEqual(next(events).token, "153.1@binlog.000001")
        with self.assertRaises(LogFault):
            next(events)
        self.assertEqual(list(events), [])
        with self.assertRaises(LogsGone):
            next(self.reader(f"{self.folder}/binlog.0*", resume="153.1@binlog.000002"))
        with self.assertRaises(WordsRefused):
            next(self.reader([]))

    def test_a_pattern_that_matches_nothing_yet(self):
        """It is warned of once."""
        events = self.reader(f"{self.folder}/binlog.0*")
        with self.once_it_waits(self.put, "binlog.000001", logs.A), self.assertWarns(UserWarning) as caught:
            self.assertEqual(next(events).token, "153.1@binlog.000001")
        self.assertEqual([str(one.message) for one in caught.warnings], [f"binlogfeed: no log matches {self.folder}/binlog.0* yet"])

    def test_close(self):
        """By another thread: while the reader waits for the program, while it waits for more, and while it begins."""
        path = self.put("binlog.000001", logs.A)
        for program in (PROGRAM, self.stub("exec sleep 60"), self.stub("read line\necho\nexec sleep 60")):
            for seconds in (0, 0.001, 0.01, 0.1):
                events = BinLogStreamReader(path, program=program, blocking=True, interval=60)
                closer = threading.Timer(seconds, events.close)
                closer.start()
                started = time.monotonic()
                self.assertLessEqual(len(list(events)), 1)
                closer.join()
                self.assertLess(time.monotonic() - started, 30)
                self.assertIsNone(events.fetchone())


class Errors(FolderTest):
    """The error of each exit status."""

    def fault(self, name, log):
        """The fault of a log, and the events before it."""
        found = []
        with self.assertRaises(LogFault) as caught:
            for event in reader(self.put(name, log)):
                found.append(event.token)
        return caught.exception, found

    def test_log_fault(self):
        # Kind 40 is TRANSACTION_PAYLOAD. The log before it has 371 bytes.
        fault, found = self.fault("binlog.000001", logs.appended(logs.A, logs.event(40)))
        self.assertEqual((fault.file, fault.position, fault.what), ("binlog.000001", 371, "KindOutOfProfile(40)"))
        self.assertEqual(fault.line, "binlogfeed: log fault at binlog.000001:371: KindOutOfProfile(40)")
        self.assertEqual((fault.status, found), (1, ["153.1@binlog.000001"]))

    def test_log_fault_of_a_strange_name(self):
        name = "a:7: b\nbinlogfeed: c"
        fault, _ = self.fault(name, b"none")
        self.assertEqual((fault.file, fault.position, fault.what), (name, 0, "BadMagic"))

    def test_transactions_before_a_fault(self):
        path = self.put("binlog.000001", logs.appended(logs.worked_log(2), logs.event(40)))
        found = []
        with self.assertRaises(LogFault):
            for transaction in reader(path).transactions():
                found.append(transaction.token)
        self.assertEqual(found, ["153.1@binlog.000001", "371.1@binlog.000001"])

    def test_words_refused(self):
        with self.assertRaises(WordsRefused) as caught:
            list(reader(SHOP, auto_position="none"))
        self.assertEqual(caught.exception.line, "binlogfeed: bad --auto-position: element 0")
        with self.assertRaises(WordsRefused) as caught:
            list(reader([SHOP[0], SHOP[0]]))
        self.assertEqual(caught.exception.line, "binlogfeed: duplicate file binlog.000001")

    def test_token_refused(self):
        path = self.put("binlog.000001", logs.A)
        cases = [
            ("0153.1@binlog.000001", "BadToken"),
            ("153.1@binlog.000002", "TokenNoFile"),
            ("154.1@binlog.000001", "TokenNoTransaction"),
            ("153.2@binlog.000001", "TokenNoChange"),
        ]
        for token, name in cases:
            with self.assertRaises(TokenRefused) as caught:
                list(reader(path, resume=token))
            self.assertEqual((caught.exception.name, caught.exception.status), (name, 3))

    def test_file_fault(self):
        with self.assertRaises(FileFault) as caught:
            list(reader(self.folder / "missing"))
        self.assertEqual(caught.exception.line, f"binlogfeed: cannot open {self.folder}/missing")

    def test_out_of_memory(self):
        path = self.put("binlog.000001", logs.appended(logs.A, logs.event(logs.XID, bytes(64 << 20), logs.IGNORABLE)))
        program = self.stub(f"ulimit -v 30000\nexec {PROGRAM} \"$@\"")
        with self.assertRaises(OutOfMemory):
            list(BinLogStreamReader(path, program=program))

    def test_killed(self):
        program = self.stub(f"echo '{LINE % '4.1@f'}'\nprintf '{{\"after\":'\nkill -9 $$")
        events = BinLogStreamReader("f", together=False, program=program)
        self.assertEqual(next(events).token, "4.1@f")
        with self.assertRaises(ProgramFailed) as caught:
            next(events)
        self.assertEqual(caught.exception.status, -9)

    def test_a_cut_line_of_a_program_that_ended_well(self):
        """A wrapper may end with 0 though the program was killed: half a line is never all that there was."""
        events = BinLogStreamReader("f", together=False, program=self.stub(f"echo '{LINE % '4.1@f'}'\nprintf '{{\"after\":'"))
        self.assertEqual(next(events).token, "4.1@f")
        with self.assertRaises(ProgramFailed) as caught:
            next(events)
        self.assertEqual((caught.exception.status, caught.exception.line), (70, "binlogfeed: the program's last line is cut"))

    def test_what_a_wrapper_says_first(self):
        """The error's line is the program's, which is the last one."""
        said = "echo 'binlogfeed: proving and building the program' >&2\n"
        cases = [
            ("cannot open f", 4, FileFault),
            ("out of memory", 5, OutOfMemory),
            ("command line refused", 2, WordsRefused),
            ("token refused: BadToken", 3, TokenRefused),
            ("log fault at f:9: BadMagic", 1, LogFault),
            ("the program was not built", 70, ProgramFailed),
        ]
        for line, status, kind in cases:
            with self.assertRaises(kind) as caught:
                list(BinLogStreamReader("f", together=False, program=self.stub(f"{said}echo 'binlogfeed: {line}' >&2\nexit {status}")))
            self.assertEqual((caught.exception.line, caught.exception.status), (f"binlogfeed: {line}", status))

    def test_a_transaction_that_is_cut_is_not_given(self):
        lines = "".join(f"echo '{LINE % token}'\n" for token in ("4.1@f", "9.1@f", "9.2@f"))
        for end in ("kill -9 $$", "exit 4", "echo 'binlogfeed: log fault at f:9: SourceChanged' >&2; exit 1"):
            found = []
            with self.assertRaises((ProgramFailed, FileFault, LogFault)):
                for transaction in BinLogStreamReader("f", together=False, program=self.stub(lines + end)).transactions():
                    found.append(transaction.token)
            self.assertEqual(found, ["4.1@f"])

    def test_missing_program(self):
        """Of one that is named without a folder the hint says where it was looked for."""
        hint = "it isn't on PATH: name it by --program, or in Python by `program`"
        for program, hints in ((str(self.folder / "none"), ()), ("binlogfeed-of-nowhere", (hint,))):
            with self.assertRaises(ProgramMissing) as caught:
                list(BinLogStreamReader(SHOP, program=program))
            line = f"binlogfeed: the program can't be started: {program}: No such file or directory"
            self.assertEqual((caught.exception.line, caught.exception.hints), (line, hints))
        self.put("barred", b"")
        with mock.patch.dict("os.environ", {"PATH": str(self.folder)}), self.assertRaises(ProgramMissing) as caught:
            list(BinLogStreamReader(SHOP, program="barred"))
        line = "binlogfeed: the program can't be started: barred: Permission denied"
        self.assertEqual((caught.exception.line, caught.exception.hints), (line, ()))

    def test_the_input_is_not_taken(self):
        """What stands at this process's standard input is left to it."""
        program = self.stub(f"cat > {self.folder}/taken")
        code = "import binlogfeed, sys; print(list(binlogfeed.BinLogStreamReader('f', program=sys.argv[1])), sys.stdin.read())"
        environment = {**os.environ, "PYTHONPATH": str(TOP / "python"), "PYTHONDONTWRITEBYTECODE": "1"}
        words = [sys.executable, "-c", code, program]
        ended = subprocess.run(words, input=b"mine", env=environment, capture_output=True, timeout=SECONDS, check=False)
        self.assertEqual((ended.stdout, ended.stderr), (b"[] mine\n", b""))
        self.assertEqual((self.folder / "taken").read_bytes(), b"")

    def test_another_status(self):
        program = self.stub("echo 'binlogfeed: the program was not built' >&2\nexit 70")
        with self.assertRaises(ProgramFailed) as caught:
            list(BinLogStreamReader(SHOP, program=program))
        self.assertEqual((caught.exception.status, caught.exception.line), (70, "binlogfeed: the program was not built"))
