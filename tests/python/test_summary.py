"""Summaries of logs: what is counted, and how it is told."""
import contextlib
import fcntl
import json
import os
import pty
import random
import re
import signal
import struct
import subprocess
import sys
import termios
import time
import xml.etree.ElementTree
from collections import Counter
from html.parser import HTMLParser
from textwrap import dedent
from unittest import TestCase, mock

import logs
from binlogfeed import LogFault, ProgramFailed
from binlogfeed import program as running_program
from binlogfeed.summary import reading
from binlogfeed.summary.beside import Beside, Worker
from binlogfeed.summary.changes import Change, Changes, Table, counted_block
from binlogfeed.summary.gtids import Numbers
from binlogfeed.summary.page import as_page
from binlogfeed.summary.reading import logs_of, summed_up
from binlogfeed.summary.sizes import Sizes, class_bounds, class_of
from binlogfeed.summary.text import as_text, bar, shown_width
from binlogfeed.summary.times import Period, Times, round_marks, spoken
from binlogfeed.summary.told import byte_sizes, change_sizes
from binlogfeed.summary.units import Limit, Unit, lines_within
from support import BANK, PROGRAM, SECONDS, SHOP, TOP, FolderTest, running, without_hints
from test_documents import blocks

SETTINGS = {"PYTHONPATH": str(TOP / "python"), "PYTHONDONTWRITEBYTECODE": "1", "PYTHONIOENCODING": "utf-8"}
ENVIRONMENT = {name: value for name, value in {**os.environ, **SETTINGS}.items() if name != "COLUMNS"}
SHOP_SOURCE = "3e11fa47-71ca-11e1-9e33-c80aa9429562"
SHOP_TIME = 1795332186
# What the shop's statements do, counted by hand. The purchase that is rolled back stands in no log.
SHOP_TABLES = {
    Table("shop", "customer"): {"insert": 3, "update": 2, "delete": 1},
    Table("shop", "product"): {"insert": 3, "update": 2},
    Table("shop", "line"): {"insert": 3, "delete": 1},
    Table("shop", "purchase"): {"insert": 2, "update": 2},
}


def command(*words, program=PROGRAM):
    """The words of a summary."""
    return [sys.executable, "-m", "binlogfeed", "summary", "--program", program, *map(str, words)]


def ran(*words, program=PROGRAM, env=ENVIRONMENT):
    """A summary that ended."""
    return subprocess.run(
        command(*words, program=program), capture_output=True, encoding="utf-8", env=env, check=False, timeout=SECONDS
    )


def runs(number):
    """Whether a process still runs. One that ended may stand in the list until somebody takes its status."""
    try:
        with open(f"/proc/{number}/stat", encoding="utf-8") as told:
            return told.read().rpartition(")")[2].split()[0] != "Z"
    except (FileNotFoundError, ProcessLookupError):
        return False


def children(number):
    """The processes that a process started, and that still run."""
    found = []
    for process in filter(str.isdigit, os.listdir("/proc")):
        with contextlib.suppress(OSError), open(f"/proc/{process}/stat", encoding="utf-8") as told:
            if told.read().rpartition(")")[2].split()[1] == str(number):
                found.append(process)
    return found


def lines_of(files):
    """The lines of `read`, and those of `transactions`."""
    return [
        subprocess.run([PROGRAM, word, *map(str, files)], capture_output=True, check=True).stdout.decode().splitlines()
        for word in ("read", "transactions")
    ]


class Nested(HTMLParser):
    """Reads a page, and refuses elements that aren't well nested, and what would load or run something."""

    def __init__(self):
        """Before the page."""
        super().__init__(convert_charrefs=True)
        self.open, self.seen, self.text = [], Counter(), []

    def handle_starttag(self, tag, attrs):
        """Opens an element."""
        self.seen[tag] += 1
        for name, value in attrs:
            if name.startswith("on") or name in ("src", "href", "style", "http-equiv"):
                raise AssertionError(f"{tag} has {name}={value}")
        self.open.append(tag)

    def handle_startendtag(self, tag, attrs):
        """An element with nothing in it."""
        self.handle_starttag(tag, attrs)
        self.handle_endtag(tag)

    def handle_endtag(self, tag):
        """Closes the element that was opened last."""
        last = self.open.pop()
        if last != tag:
            raise AssertionError(f"{last} is closed by {tag}")

    def handle_data(self, data):
        """Keeps the text."""
        self.text.append(data)


LOADS = ("<script", "http:", "https:", "//", "url(", "@import", "javascript:", "<link", "<img", "<iframe", "<object")


def parsed(page):
    """A page that stands alone and is well nested, as HTML and as XML: its elements, and its text."""
    parser = Nested()
    parser.feed(page)
    parser.close()
    if parser.open:
        raise AssertionError(f"{parser.open} isn't closed")
    xml.etree.ElementTree.fromstring(page)
    found = [word for word in LOADS if word in page.lower()]
    if found:
        raise AssertionError(f"the page has {found}")
    return parser


def with_workers(count):
    """Has so many processes count lines."""
    return mock.patch.object(reading, "_worker_count", lambda logs: count)


@contextlib.contextmanager
def blocks_of(size):
    """Has lines read and counted by so many bytes."""
    with mock.patch.object(reading, "BLOCK", size), mock.patch.object(running_program, "BUFFER", size):
        yield


def plain(found):
    """What is counted, in one value that can be compared."""
    changes, units = found.changes, found.units
    return (
        changes.tables(), changes.statements(), changes.first, changes.last, changes.times.periods(60),
        changes.sizes.classes, changes.sizes.largest,
        units.endings, units.sizes.classes, units.sizes.largest, units.without_gtid,
        {source: (numbers.first, numbers.last, numbers.gaps()) for source, numbers in units.gtids.items()},
    )  # fmt: skip


def largest(rows):
    """The ten with the greatest size, of rows that begin with it."""
    return sorted(rows, key=lambda row: -row[0])[:10]


def slow_changes(lines):
    """Tables, sizes and the largest transactions, from lines that are read as JSON."""
    tables, transactions = {}, {}
    for line in map(json.loads, lines):
        tables.setdefault(Table(line["schema"], line["table"]), Counter())[line["kind"]] += 1
        position, _, file = line["token"].partition("@")
        transactions.setdefault((position.partition(".")[0], file), []).append(line)
    lasts = [(len(them), them[-1]) for them in transactions.values()]
    told = [(size, Change(last["timestamp"], last["token"], last["gtid"])) for size, last in lasts]
    return tables, Counter(size for size, _ in told), largest(told)


class Counting(FolderTest):
    """What is counted."""

    def test_shop(self):
        found = summed_up(SHOP, (), PROGRAM)
        changes, units = found.changes, found.units
        self.assertEqual(changes.tables(), SHOP_TABLES)
        self.assertEqual([table.name for table in changes.tables()], ["customer", "product", "line", "purchase"])
        self.assertEqual((changes.total, changes.sizes.total), (19, 10))
        # Three rows in four transactions, two in one, and one in five.
        self.assertEqual(changes.sizes.classes, {0: 5, 1: 5})
        self.assertEqual([size for size, _ in changes.sizes.largest], [3, 3, 3, 3, 2, 1, 1, 1, 1, 1])
        self.assertEqual(changes.first, Change(SHOP_TIME, "1697.1@binlog.000001", f"{SHOP_SOURCE}:6"))
        self.assertEqual(changes.last, Change(SHOP_TIME, "2072.1@binlog.000002", f"{SHOP_SOURCE}:15"))
        self.assertEqual(changes.sizes.largest[3], (3, Change(SHOP_TIME, "198.3@binlog.000002", f"{SHOP_SOURCE}:11")))
        self.assertEqual(units.endings, {"xid": 10, "statement": 5})
        self.assertEqual(units.sizes.classes, {class_of(1_000): 10})
        self.assertEqual(units.sizes.largest[0], (737, Unit("binlog.000002", 198, f"{SHOP_SOURCE}:11")))
        (numbers,) = units.gtids.values()
        self.assertEqual((list(units.gtids), numbers.first, numbers.last, numbers.gaps()), ([SHOP_SOURCE], 1, 15, []))
        self.assertEqual((found.size, found.fault), (4_025 + 2_473, None))

    def test_bank_beside_json(self):
        """The counts are those of lines that are read one by one."""
        read, transactions = lines_of(BANK)
        found = summed_up(BANK, (), PROGRAM)
        tables, sizes, largest_ones = slow_changes(read)
        self.assertEqual(found.changes.tables(), tables)
        self.assertEqual(found.changes.sizes.largest, largest_ones)
        classes = Counter()
        for size, count in sizes.items():
            classes[class_of(size)] += count
        self.assertEqual(found.changes.sizes.classes, classes)
        periods = found.changes.times.periods(60)
        seconds = Counter(json.loads(line)["timestamp"] for line in read)
        self.assertEqual({period.start: period.count for period in periods if period.count}, seconds)
        rows = [line.split("\t") for line in transactions]
        self.assertEqual(found.units.endings, Counter(row[3] for row in rows))
        told = [(int(row[1]) - int(row[0]), Unit(row[4], int(row[0]), row[2])) for row in rows if row[3] != "statement"]
        self.assertEqual(found.units.sizes.largest, largest(told))
        self.assertEqual(found.begun[("binlog.000014", 2305)], json.loads(read[-1])["timestamp"] - 4)

    def test_blocks_of_any_size(self):
        """A block may end within a line, a transaction or a file, and a line may be longer than a block."""
        wanted = {files: plain(summed_up(files, (), PROGRAM)) for files in (tuple(SHOP), tuple(BANK))}
        for size in (2, 50, 97, 300, 1_000, 4_099, 20_000):
            with blocks_of(size):
                for files, counts in wanted.items():
                    self.assertEqual(plain(summed_up(files, (), PROGRAM)), counts, size)

    def test_several_processes(self):
        """Blocks that several processes count are those that one counts."""
        wanted = plain(summed_up(BANK, (), PROGRAM))
        for workers in (1, 2, 3):
            for size in (300, 4_099, 20_000, reading.BLOCK):
                with with_workers(workers), blocks_of(size):
                    self.assertEqual(plain(summed_up(BANK, (), PROGRAM)), wanted, (workers, size))

    def test_how_many_processes(self):
        path = self.put("binlog.000001", b"")
        for size, processors, count in ((1 << 20, 8, 0), (1 << 24, 1, 0), (1 << 24, 2, 1), (1 << 24, 64, 3)):
            os.truncate(path, size)
            with mock.patch.object(os, "sched_getaffinity", lambda process, number=processors: set(range(number))):
                self.assertEqual(reading._worker_count([path]), count)

    def test_filters(self):
        found = summed_up(SHOP, ["--only-tables=line", "--only-events=insert"], PROGRAM)
        self.assertEqual(found.changes.tables(), {Table("shop", "line"): {"insert": 3}})
        # Two lines of the first purchase, and one of the second.
        most = Change(SHOP_TIME, "2592.3@binlog.000001", f"{SHOP_SOURCE}:8")
        self.assertEqual(found.changes.sizes.largest[0], (2, most))
        self.assertEqual((found.changes.sizes.classes, found.units.endings["xid"]), ({0: 1, 1: 1}, 10))

    def test_names(self):
        """Names with quotes, tails within rows, no GTIDs, and transactions that stand at one place of two files."""
        tail = '"kind":"insert","schema":"s","table":"t","timestamp":9,"token":"8.1@f"}'
        names = (("s", 't"'), ("a:b", "\\"), ("}\n", ',"kind":"delete'), ("é", "u\u0001"))
        lines, wanted = [], {}
        for number, (schema, table) in enumerate(names * 3):
            row = {"kind": tail, "token": f"4.{number}@f", "x": {"raw": "AA=="}, "z": tail * 2}
            change = {"after": row, "before": None, "gtid": None, "kind": "update", "schema": schema, "table": table}
            change |= {"timestamp": number, "token": f"4.{number + 1}@{'f' if number < 5 else chr(34) + 'g'}"}
            lines.append(json.dumps(change, separators=(",", ":"), ensure_ascii=False) + "\n")
            wanted.setdefault(Table(schema, table), Counter())["update"] += 1
        for block in (1, 3, 5, 12):
            changes = Changes()
            for start in range(0, len(lines), block):
                text = "".join(lines[start : start + block]).encode()
                changes.add(counted_block(text, changes.sizes.least))
            changes.end()
            self.assertEqual(changes.tables(), wanted)
            self.assertEqual(changes.sizes.largest, [(7, Change(11, '4.12@"g', None)), (5, Change(4, "4.5@f", None))])

    def test_tails_within_a_row(self):
        """A row of a table whose columns are named as a line's members are, and whose values look like them."""
        with self.assertRaises(ProgramFailed):
            counted_block(b'{"after":null}\n', 0)
        for token in ("9.1@f", "", "9", "9.1", "@", "4.1@f"):
            image = f'{{"gtid":null,"kind":"insert","schema":"s","table":"t","timestamp":5,"token":"{token}"}}'
            line = f'{{"after":{image},"before":{image},"gtid":null,"kind":"update","schema":"x","table":"y",'
            line += '"timestamp":7,"token":"4.1@f"}\n'
            changes = Changes()
            changes.add(counted_block((line + line.replace('"4.1@f"}\n', '"6.1@f"}\n')).encode(), 0))
            changes.end()
            self.assertEqual(changes.tables(), {Table("x", "y"): {"update": 2}}, token)
            self.assertEqual(changes.sizes.largest, [(1, Change(7, "4.1@f", None)), (1, Change(7, "6.1@f", None))])

    def test_tails_of_one_transaction(self):
        """Lines of one transaction that have its first tail as often as there are lines, though not each at its end."""
        tail = '"gtid":null,"kind":"insert","schema":"x","table":"y","timestamp":7,"token":"4.%d@f"}'
        first = '{"after":{"kind":"insert","schema":"x","table":"y","timestamp":7,"token":"4."},"before":null,'
        first += tail % 1
        second = '{"after":{"id":1},"before":null,' + tail.replace("insert", "update") % 2
        for lines in ((first, second), (second, first)):
            changes = Changes()
            changes.add(counted_block("".join(f"{line}\n" for line in lines).encode(), 0))
            changes.end()
            self.assertEqual(changes.tables(), {Table("x", "y"): {"insert": 1, "update": 1}})
            self.assertEqual([size for size, _ in changes.sizes.largest], [2])

    def test_tails_of_others(self):
        """A row has what looks like the token of a large transaction before it."""
        text = ""
        for token in ("2.1", "4.1", "4.2", "4.3", "6.1", "8.1"):
            text += '{"after":{"token":"4.9@f"},"before":null,"gtid":null,"kind":"insert","schema":"x","table":"y",'
            text += f'"timestamp":7,"token":"{token}@f"}}\n'
        changes = Changes()
        changes.add(counted_block(text.encode(), 0))
        changes.end()
        self.assertEqual(changes.sizes.largest[0], (3, Change(7, "4.3@f", None)))

    def test_empty(self):
        for content in (b"", logs.MAGIC, logs.FRONT):
            found = summed_up([self.put("binlog.000001", content)], (), PROGRAM)
            self.assertEqual((found.changes.total, found.changes.first, found.units.endings), (0, None, {}))
            parsed(as_page(found))
            self.assertIn("0 changes in 0 transactions", as_text(found, 80))

    def test_endings_and_gaps(self):
        """Each ending, a statement, a transaction without a GTID, and numbers that are missing and come late."""
        without_gtid = logs.parts("begin map-t insert-1-a commit begin map-t insert-1-a rollback commit")
        content = logs.log_of([*map(logs.insert, (1, 2, 9, 5, 6, 12)), without_gtid])
        found = summed_up([self.put("binlog.000001", content)], (), PROGRAM)
        self.assertEqual(found.units.endings, {"xid": 6, "commit": 1, "rollback": 1, "statement": 1})
        self.assertEqual((found.units.without_gtid, found.changes.total), (3, 7))
        self.assertEqual(found.units.gtids[SHOP_SOURCE].gaps(), [(3, 4), (7, 8), (10, 11)])
        for text in (as_text(found, 80), "".join(parsed(as_page(found)).text)):
            self.assertIn("1 to 12: 6 numbers, 6 missing between, in 3 gaps", text)
            self.assertIn("3-4, 7-8, 10-11", text)
            self.assertIn("without a gtid: 3", text.lower())
        # Six transactions of 218 bytes, one of 170 without a GTID, which is committed, and one of 172, which isn't.
        behind = 153 + 6 * 218
        told = [(size, unit.begin, unit.gtid) for size, unit in found.units.sizes.largest]
        self.assertEqual(told[5:6], [(218, behind - 218, f"{SHOP_SOURCE}:12")])
        self.assertEqual(told[6:], [(172, behind + 170, None), (170, behind, None)])
        self.assertIn(f"{behind}.0@binlog.000001no GTID", "".join(parsed(as_page(found)).text))


class Faults(FolderTest):
    """What ends the reading early."""

    def test_fault(self):
        """What stands before a fault is told, and the fault itself."""
        path = self.put("binlog.000001", logs.appended(logs.worked_log(2), logs.event(40, b"compressed"), logs.insert(3)))
        line = "binlogfeed: log fault at binlog.000001:589: KindOutOfProfile(40)"
        page = self.folder / "page"
        ended = ran("--html", page, path)
        self.assertEqual((ended.returncode, without_hints(ended.stderr)), (1, line + "\n"))
        self.assertIn("\nhint: the transaction is compressed: ", ended.stderr)
        self.assertIn(line, ended.stdout)
        self.assertIn("2 changes in 2 transactions", ended.stdout)
        self.assertIn(line, "".join(parsed(page.read_text(encoding="utf-8")).text))

    def test_fault_in_rows(self):
        """`transactions` looks at no row. What it tells of transactions behind the fault isn't taken."""
        content = logs.appended(logs.worked_log(2), logs.transaction(3, logs.parts("insert-1-a")), logs.insert(4))
        contents = (logs.worked_log(3), content, logs.worked_log(5))
        files = [self.put(f"binlog.00000{number}", one) for number, one in enumerate(contents, 1)]
        for size, workers in ((reading.BLOCK, 0), (70, 0), (70, 2)):
            with blocks_of(size), with_workers(workers):
                found = summed_up(files, (), PROGRAM)
            self.assertIsInstance(found.fault, LogFault)
            self.assertEqual(found.fault.what, "UnmappedTable")
            self.assertEqual((found.changes.total, found.units.endings), (5, {"xid": 5}))
            self.assertEqual(found.units.gtids[SHOP_SOURCE].last, 3)

    def test_limits(self):
        """What ends where the limit does is still counted, but not what begins there, nor what is in files behind."""
        order = {"a": 0, "b": 1, "c": 2}
        rows = [(4, 9, "a"), (90, 95, "a"), (4, 9, "b"), (9, 12, "b"), (12, 15, "b"), (4, 9, "c")]
        lines = [f"{begin}\t{end}\t-\txid\t{file}\n".encode() for begin, end, file in rows]
        for limit, count in (
            (Limit("b", 99, 12), 4), (Limit("b", 99, 11), 3), (Limit("b", 12, 99), 4), (Limit("b", 13, 99), 5),
            (Limit("b", 99, 99), 5), (Limit("a", 99, 99), 2), (Limit("a", 4, 99), 0), (Limit("c", 99, 99), 6),
        ):  # fmt: skip
            self.assertEqual(lines_within(b"".join(lines), limit, order), b"".join(lines[:count]), limit)

    def test_other_ends(self):
        """A run that is out of memory, say: the transactions up to that of the last change are told."""
        line = "cat <<'END'\n" + logs.change_line(371, 2, "binlog.000001") + "END"
        said = "echo 'binlogfeed: out of memory' >&2"
        program = self.stub(f'[ $1 = read ] || exec {PROGRAM} "$@"\n{line}\n{said}\nexit 5')
        path = self.put("binlog.000001", logs.worked_log(4))
        ended = ran(path, program=program)
        self.assertEqual((ended.returncode, ended.stderr), (5, "binlogfeed: out of memory\n"))
        self.assertIn("1 change in 1 transaction\n", ended.stdout)
        self.assertIn("1 to 2: 2 numbers, none is missing between", ended.stdout)

    def test_the_other_run(self):
        """What ends `transactions` alone is told, too."""
        said = "echo 'binlogfeed: read fault: x' >&2"
        program = self.stub(f'[ $1 = transactions ] || exec {PROGRAM} "$@"\n{said}\nexit 4')
        ended = ran(*SHOP, program=program)
        self.assertEqual((ended.returncode, ended.stderr), (4, "binlogfeed: read fault: x\n"))
        self.assertIn("19 changes in 10 transactions\n", ended.stdout)

    def test_statuses(self):
        """What is refused before anything is read has no summary."""
        (self.folder / "binlog.index").write_text("./binlog.000001\n./binlog.000003\n")
        strange = "a line feed or a tab"
        for words, status, line in (
            ([self.folder / "missing.000001"], 4, f"cannot open {self.folder}/missing.000001"),
            ([self.folder / "missing"], 4, f"cannot open {self.folder}/missing: No such file or directory"),
            ([self.folder / "none.*"], 4, f"no log matches {self.folder}/none.*"),
            ([self.folder], 6, "binlog.000002 is gone: it should stand between binlog.000001 and binlog.000003"),
            (["--only-events=x", *SHOP], 2, "bad --only-events: x"),
            ([SHOP[0], SHOP[0]], 2, "duplicate file binlog.000001"),
            ([self.put("a\tb.000001", b"")], 4, f"a log whose name has {strange} can't be summed up: 'a\\tb.000001'"),
        ):
            with self.subTest(line=line):
                ended = ran(*words)
                self.assertEqual((ended.returncode, ended.stdout, without_hints(ended.stderr)), (status, "", f"binlogfeed: {line}\n"))
        ended = ran(*SHOP, program=self.folder / "none")
        self.assertEqual((ended.returncode, ended.stdout), (70, ""))
        self.assertIn("binlogfeed: the program can't be started", ended.stderr)
        page = self.folder / "no/page"
        ended = ran("--html", page, *SHOP)
        self.assertEqual((ended.returncode, ended.stderr), (4, f"binlogfeed: can't write {page}: No such file or directory\n"))

    def test_nobody_takes_the_text(self):
        with running(command(*SHOP), stdout=subprocess.PIPE, stderr=subprocess.PIPE, env=ENVIRONMENT) as process:
            process.stdout.close()
            said = process.stderr.read()
        self.assertEqual((process.returncode, said), (4, b"binlogfeed: write fault: nobody reads the lines any more\n"))

    def test_interrupted(self):
        """Ctrl-C reaches all processes. None of them is left, and none says anything."""
        path = self.put("binlog.000001", b"")
        os.truncate(path, 1 << 24)
        program = self.stub(f"echo $$ >> {self.folder}/started\nexec sleep 60")
        options = {"stdout": subprocess.PIPE, "stderr": subprocess.PIPE, "env": ENVIRONMENT, "start_new_session": True}
        # Where these tests run in the background of a shell, SIGINT is ignored, and the command would take that over.
        heeded = {"preexec_fn": lambda: signal.signal(signal.SIGINT, signal.SIG_DFL)}
        with running(command(path, program=program), **options, **heeded) as process:
            started = self.folder / "started"
            self.soon(lambda: started.exists() and started.read_text().count("\n") >= 2)
            os.killpg(process.pid, signal.SIGINT)
            # Both end once no process has them any more.
            said = process.stdout.read(), process.stderr.read()
        self.assertEqual((process.returncode, said), (130, (b"", b"")))
        self.assertEqual([number for number in started.read_text().split() if runs(number)], [])

    def test_interrupted_within_a_fork(self):
        """An interrupt that comes before a new process has begun its work ends it, and it says nothing."""
        code = """
            import os, signal, time
            from binlogfeed import ProgramFailed
            from binlogfeed.summary.beside import Beside
            signal.signal(signal.SIGINT, signal.default_int_handler)
            os.register_at_fork(after_in_child=lambda: os.kill(os.getpid(), signal.SIGINT))
            try:
                Beside(lambda: time.sleep(600)).result()
            except ProgramFailed as error:
                print(error)
        """
        ended = subprocess.run([sys.executable, "-c", dedent(code)], capture_output=True, env=ENVIRONMENT, timeout=SECONDS, check=False)
        self.assertEqual((ended.returncode, ended.stderr), (0, b""))
        self.assertEqual(ended.stdout, b"binlogfeed: a process of the summary ended early\n")

    def test_killed(self):
        """No process of a summary that is killed goes on without it: neither those that count, nor the programs."""
        path = self.put("binlog.000001", b"")
        os.truncate(path, 1 << 24)
        change = '{"after":null,"before":null,"gtid":null,"kind":"insert","schema":"x","table":"y","timestamp":7,"token":"4.1@f"}'
        unit = f"4\\t8\\t{SHOP_SOURCE}:1\\txid\\tbinlog.000001"
        # Where nobody takes its lines any more, a write fails.
        begin = f"echo $$ >> {self.folder}/started\n[ $1 = read ] && exec yes '{change}'\n"
        program = self.stub(f"{begin}while printf '{unit}\\n'; do sleep 0.01; done")
        with running(command(path, program=program), stdout=subprocess.DEVNULL, stderr=subprocess.DEVNULL, env=ENVIRONMENT) as process:
            started = self.folder / "started"
            self.soon(lambda: started.exists() and started.read_text().count("\n") >= 2)
            others = {*children(process.pid), *started.read_text().split()}
            process.kill()
        late = time.monotonic() + SECONDS
        while any(map(runs, others)) and time.monotonic() < late:
            time.sleep(0.01)
        self.assertEqual([number for number in others if runs(number)], [])
        # The program `read`, that for transactions and their process at least.
        self.assertGreater(len(others), 2)

    def test_work_that_ends_early(self):
        for work in (lambda: os._exit(3), lambda: os.kill(os.getpid(), 9)):
            beside = Beside(work)
            with self.assertRaises(ProgramFailed):
                beside.result()
            beside.end()
        beside = Beside(lambda: [1])
        self.assertEqual(beside.result(), [1])
        beside.end()

    def test_workers(self):
        """Each answers for its own blocks, raises what its function raises, and says where it ended early."""

        def work(block, number):
            if number == 9:
                raise ProgramFailed("binlogfeed: nine")
            if number == 8:
                os._exit(0)
            return block[:2], len(block), number

        workers = []
        for _ in range(3):
            workers.append(Worker(work, workers))
        for number in range(6):
            workers[number % 3].ask(b"abcd" * 10**6 + bytes(number), number)
            self.assertEqual(workers[number % 3].answer(), (b"ab", 4 * 10**6 + number, number))
        for number, said in ((9, "binlogfeed: nine"), (8, "binlogfeed: a process of the summary ended early")):
            with self.assertRaises(ProgramFailed) as caught:
                workers[0].ask(b"a", number)
                workers[0].answer()
            self.assertEqual(caught.exception.line, said)
        with self.assertRaises(ProgramFailed):
            workers[0].ask(bytes(1 << 22), 1)
        for worker in workers:
            worker.end()
            worker.end()
        # None of them is left.
        with self.assertRaises(ChildProcessError):
            os.waitpid(-1, os.WNOHANG)


class Words(FolderTest):
    """Which logs are meant."""

    def test_logs(self):
        for path in SHOP:
            (self.folder / path.name).symlink_to(path)
        index = self.folder / "binlog.index"
        index.write_text("./binlog.000001\n./binlog.000002\n")
        wanted = [self.folder / path.name for path in SHOP]
        for words in ([self.folder], [index], [f"{self.folder}/binlog.*"], [*wanted], [*wanted, index]):
            self.assertEqual(logs_of(list(map(str, words))), wanted)
            self.assertIn("2 logs, 6,498 bytes", ran(*words).stdout)
        self.assertEqual(logs_of([str(wanted[1]), str(wanted[0])]), wanted[::-1])


class Telling(FolderTest):
    """The text and the page."""

    def test_text(self):
        """The text of the shop's logs, and the part of it that the documents show."""
        used, part = blocks("docs/USAGE.md", "A summary of logs")
        words = re.search(r"binlogfeed summary (.*)\n", used)[1].split()
        ended = ran(*(TOP / word for word in words))
        self.assertEqual((ended.returncode, ended.stderr), (0, ""))
        self.assertEqual(ended.stdout, (TOP / "examples/shop/summary.txt").read_text(encoding="utf-8"))
        self.assertIn(part, ended.stdout)

    def test_widths(self):
        found = summed_up(BANK, (), PROGRAM)
        for width in (80, 100, 200):
            lines = as_text(found, width).splitlines()
            self.assertLessEqual(max(map(shown_width, lines)), width)
        self.assertIn(f"2305.472@binlog.000014  {SHOP_SOURCE}:198", as_text(found, 120))
        self.assertTrue(any(line.endswith("█" * 40) for line in as_text(found, 80).splitlines()))
        narrow = ran(*BANK, env={**ENVIRONMENT, "COLUMNS": "50"}).stdout
        self.assertIn(f"\n  bank.journal\n{' ' * 13}739       79      104  922  {'█' * 9}\n", narrow)

    def test_other_encodings(self):
        text = ran(*SHOP, env={**ENVIRONMENT, "PYTHONIOENCODING": "ascii"}).stdout
        self.assertTrue(text.isascii())
        self.assertIn("#" * 31, text)

    def test_bars(self):
        self.assertEqual([bar(value, 16, 2) for value in (0, 1, 2, 8, 9, 16)], ["", "▏", "▎", "█", "█▏", "██"])
        self.assertEqual(bar(1, 10**9, 10), "▏")

    def test_widths_of_letters(self):
        self.assertEqual([shown_width(text) for text in ("", "abc", "李清照", "e\u0301é")], [0, 3, 6, 2])

    def test_small_and_empty_transactions(self):
        """Transactions of 66 bytes that change nothing, of one row, and of 1,001 bytes with a long statement."""
        # The statement has a header of 19 bytes, and 15 before its text; what is around it has 66.
        inside = (b"", logs.parts("map-t insert-1-a"), logs.query("x" * (1_001 - 66 - 19 - 15)))
        content = logs.log_of(logs.parts("begin") + events + logs.parts("xid") for events in inside)
        found = summed_up([self.put("binlog.000001", content)], (), PROGRAM)
        self.assertEqual(change_sizes(found), [("none", 2), ("1", 1)])
        self.assertEqual(byte_sizes(found), [("up to 1 kB", 2), ("1 kB-10 kB", 1)])
        self.assertEqual([size for size, _ in found.units.sizes.largest], [1_001, 66 + 53 + 38, 66])

    def test_names_in_both(self):
        """A table whose name is a piece of a page, one that would move the cursor, and one with wide letters."""
        names = ["<script>alert(1)</script>", '"&\'><b>', "\x1b[2J\n", "李清照", "x" * 60]
        inserts = (logs.transaction(number, logs.map_as_t(name), logs.parts("insert-1-a")) for number, name in enumerate(names, 1))
        content = logs.log_of(inserts)
        found = summed_up([self.put("<b>&.000001", content)], ["--ignored-tables=<i>"], PROGRAM)
        self.assertEqual([table.name for table in found.changes.tables()], sorted(names))
        parser = parsed(as_page(found))
        told = "".join(parser.text)
        for text in (told, as_text(found, 80)):
            for name in (*names[:2], names[3], names[4], "\\x1b[2J\\n", "<b>&.000001", "--ignored-tables=<i>"):
                self.assertIn(name, text)
            self.assertNotIn("\x1b", text)
        self.assertEqual((parser.seen["script"], parser.seen["b"], parser.seen["i"]), (0, 0, 0))
        lines = as_text(found, 80).splitlines()
        self.assertLessEqual(max(map(shown_width, lines)), 80)
        self.assertIn("  s." + "x" * 60, lines)

    def test_page(self):
        page = self.folder / "page.html"
        ended = ran("--html", page, *BANK)
        self.assertEqual((ended.returncode, ended.stderr, ended.stdout), (0, "", ran(*BANK).stdout))
        parser = parsed(page.read_text(encoding="utf-8"))
        # Over time, by table, by two sizes, and the numbers of three sources; a scale, and the signs of three kinds.
        pictures = xml.etree.ElementTree.fromstring(page.read_text(encoding="utf-8")).findall(".//svg[@role='img']")
        self.assertEqual((len(pictures), parser.seen["svg"]), (7, 11))
        for picture in pictures:
            self.assertTrue(picture.get("aria-label"))
            self.assertTrue(picture.find("title").text)
        text = "".join(parser.text)
        of_journal = "bank.journal: 739 inserts, 79 updates, 104 deletes"
        for told in ("1,285", "2305.472@binlog.000014", of_journal, "Missing: 8"):
            self.assertIn(told, text)
        self.assertIn("prefers-color-scheme: dark", page.read_text(encoding="utf-8"))

    def test_many_tables(self):
        """The picture has the tables with the most changes and the sum of the others, the page all of them."""
        content, _ = logs.many_tables(40, "binlog.000001")
        found = summed_up([self.put("binlog.000001", content)], (), PROGRAM)
        text = "".join(parsed(as_page(found)).text)
        self.assertIn("25 others: 25 inserts, 0 updates, 0 deletes", text)
        self.assertIn("s.t40", text)
        self.assertEqual(len(re.findall(r"^  s\.t\d+ ", as_text(found, 80), re.MULTILINE)), 40)
        # Its list is folded behind the tables of the picture.
        page = as_page(found)
        before, folded = page.split("<details><summary>25 others</summary>")
        self.assertEqual((before.count("<td data-head=\"Table\">s.t"), folded.count("<td data-head=\"Table\">s.t")), (15, 25))

    def test_one_of_each(self):
        """One log is no logs."""
        found = summed_up([self.put("binlog.000001", logs.A)], (), PROGRAM)
        page = as_page(found)
        for name in ("change", "transaction with them", "table", "log", "change in 1 second, at most"):
            self.assertIn(f"<dt>{name}</dt><dd>1</dd>", page)
        self.assertNotRegex(page, r"<dt>[^<]*s</dt><dd>1</dd>")

    def test_the_same_step(self):
        """The page's columns are the text's rows."""
        found = summed_up(BANK, (), PROGRAM)
        rows = re.search(r"(?m)^Changes over time.*\n  From .*\n((?:  \d.*\n)+)", as_text(found, 80))[1].splitlines()
        numbers = re.search(r"<details><summary>Numbers</summary>.*?</details>", as_page(found), re.DOTALL)[0]
        self.assertEqual(len(rows), numbers.count("<tr>") - 1)
        self.assertGreater(len(rows), 1)


class Terminal(FolderTest):
    """The line of progress."""

    def waiting(self, until):
        """A program that has read 1,000 bytes of its last log, waits, and then begins anew."""
        return self.stub(
            f'[ $1 = read ] || exec {PROGRAM} "$@"\nfor log; do :; done\nexec 5< "$log"\n'
            f'dd bs=500 count=2 <&5 >/dev/null 2>&1\n{until}\nexec {PROGRAM} "$@"'
        )

    def test_terminal(self):
        program = self.waiting(f"until [ -e {self.folder}/seen ]; do sleep 0.02; done")
        main, side = pty.openpty()
        fcntl.ioctl(side, termios.TIOCSWINSZ, struct.pack("HHHH", 24, 80, 0, 0))
        told = "binlogfeed: 5,025 of 6,498 bytes"
        with running(command(*SHOP, program=program), stdout=subprocess.PIPE, stderr=side, env=ENVIRONMENT) as process:
            os.close(side)
            said = b""
            try:
                while True:
                    said += os.read(main, 1 << 16)
                    if told.encode() in said:
                        self.put("seen", b"")
            except OSError:  # nobody writes to it any more
                os.close(main)
            text = process.stdout.read().decode()
        self.assertEqual((process.returncode, text), (0, ran(*SHOP).stdout))
        # The first log, and 1,000 bytes of the second.
        self.assertEqual(SHOP[0].stat().st_size + 1_000, 5_025)
        self.assertIn(f"\r{told}".encode(), said)
        self.assertNotIn(b"\n", said)
        self.assertTrue(said.endswith(b"\r" + b" " * len(told) + b"\r"), said)

    def test_no_terminal(self):
        self.assertEqual(ran(*SHOP, program=self.waiting("sleep 1")).stderr, "")


class Parts(TestCase):
    """Parts by themselves."""

    def test_sizes(self):
        for number in range(6):
            low, high = class_bounds(number)
            wanted = [max(0, number - 1), number, number, number + 1]
            self.assertEqual([class_of(size) for size in (low - 1, low, high, high + 1)], wanted)
        chance, sizes = random.Random(3), Sizes()
        rows = [(chance.randint(1, 30), number) for number in range(500)]
        for size, number in rows:
            sizes.offer(size, number)
        self.assertEqual(sizes.largest, largest(rows))

    def test_numbers(self):
        """Numbers in any order and more than once, beside a set of them."""
        chance = random.Random(5)
        for _ in range(300):
            numbers, wanted = Numbers(), set()
            for _ in range(chance.randint(1, 12)):
                start = chance.randint(1, 60)
                some = list(range(start, start + chance.randint(1, 9)))
                some += [chance.randint(1, 60) for _ in range(chance.randint(0, 3))]
                numbers.add(some)
                wanted.update(some)
            missing = [number for number in range(min(wanted), max(wanted)) if number not in wanted]
            starts = [number for number in missing if number - 1 in wanted]
            ends = [number for number in missing if number + 1 in wanted]
            self.assertEqual(numbers.gaps(), list(zip(starts, ends)))
            self.assertEqual((numbers.first, numbers.last, numbers.count), (min(wanted), max(wanted), len(wanted)))

    def test_times(self):
        """Periods have all changes, and are no more than is asked for, however long the time is."""
        chance = random.Random(7)
        for span in (0, 1, 59, 3_600, 86_399, 10**6, 10**8, 2**32 - 1 - 10**6):
            times, seconds = Times(), Counter()
            for _ in range(30):
                some = Counter(10**6 + chance.randint(0, span) for _ in range(400))
                times.add(some)
                seconds += some
            for most in (24, 60):
                periods = times.periods(most)
                self.assertLessEqual(len(periods), most)
                self.assertEqual(sum(period.count for period in periods), 12_000)
                width = periods[0].width
                wanted = Counter(second // width for second in seconds.elements())
                self.assertEqual([period.count for period in periods], [wanted[one.start // width] for one in periods])
                for period, following in zip(periods, periods[1:]):
                    self.assertEqual(period.start + period.width, following.start)
        self.assertEqual(Times().periods(5), [])

    def test_peaks(self):
        """The second with the most changes, and of several the first."""
        self.assertIsNone(Times().peak())
        times = Times()
        times.add({100: 2, 105: 9, 103: 9})
        times.add({100: 1})
        self.assertEqual(times.peak(), (103, 1, 9))

    def test_marks(self):
        """Times are marked that are round: whole minutes, and then whole parts of an hour and of a day."""
        for start, width, count, wanted in (
            (1_700_000_015, 5, 30, [5, 17, 29]),
            (1_699_999_980, 10, 30, [0, 6, 12, 18, 24]),
            (1_699_999_200, 60, 30, [0, 5, 10, 15, 20, 25]),
            (1_700_000_000, 1, 1, [0]),
            (1_700_000_015, 5, 3, [0, 1, 2]),
        ):
            periods = [Period(start + width * number, width, 1) for number in range(count)]
            self.assertEqual(round_marks(periods, 6), wanted)
        self.assertEqual([spoken(width) for width in (1, 10, 60, 7_200, 86_400, 1_209_600)],
                         ["1 second", "10 seconds", "1 minute", "2 hours", "1 day", "2 weeks"])  # fmt: skip
