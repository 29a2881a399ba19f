"""A server's log without names of columns (tests/minimal): its changes by the reader, follow, the replica and the summary."""
import base64
import json
import os
import subprocess
import sys

from binlogfeed import BinLogStreamReader, LogFault
from replicas import SqliteFiles, ended
from support import PROGRAM, TOP, FolderTest, without_beginning, without_hints

MINIMAL = TOP / "tests/minimal"
LOG = MINIMAL / "binlog.000001"
COLUMNS = MINIMAL / "columns.tsv"
# The names of the columns, and those of the values of the ENUM and the SET, by the server's statements.
NAMES = {
    "d.t": ["id", "y", "u", "s", "e", "st", "l", "b"],
    "d.n": ["a"],
    "d.gi": ["my_row_id", "a"],
    "d.geo": ["id", "g"],
}
WORDS = {5: {2: "b"}, 6: {3: "x,y"}}
KEYS = {"t": ("id",), "n": (), "gi": ("my_row_id",), "geo": ("id",)}
# What mysqlbinlog doesn't print, since it gives up at a GEOMETRY: the points that the statements put in, as the server tells them.
POINTS = {1: None, 2: bytes.fromhex("000000000101000000000000000000F03F0000000000000040")}
# The commit's time in each GTID event, as its seven bytes stand in the log behind the logical clock, by the GTID's number.
COMMITTED = {
    3: "44a42b8bd76006", 4: "bca92b8bd76006", 5: "96b92b8bd76006", 7: "7d672c8bd76006", 9: "18042d8bd76006", 11: "1b902d8bd76006",
    12: "f09d2d8bd76006",
}  # fmt: skip
# What the strict profile says of the log.
STRICT = "binlogfeed: log fault at binlog.000001:797: NoColumnNames\n"
UNSIGNED = ["INT", "LONGINT"]
SIGNED = {("gi", 2), ("geo", 1)}
# The replica's tables, by the names of the server's and by the numbers of the columns.
TABLES = """
CREATE TABLE t (id INTEGER PRIMARY KEY, y INTEGER, u TEXT, s TEXT, e TEXT, st TEXT, l TEXT, b BLOB);
CREATE TABLE n (a TEXT); CREATE TABLE gi (my_row_id INTEGER PRIMARY KEY, a INTEGER); CREATE TABLE geo (id INTEGER PRIMARY KEY, g BLOB);
"""
NUMBERED = """
CREATE TABLE t ("@1" INTEGER PRIMARY KEY, "@2" INTEGER, "@3" TEXT, "@4" TEXT, "@5" INTEGER, "@6" INTEGER, "@7" TEXT, "@8" BLOB);
CREATE TABLE n ("@1" TEXT); CREATE TABLE gi ("@1" INTEGER PRIMARY KEY, "@2" INTEGER);
CREATE TABLE geo ("@1" INTEGER PRIMARY KEY, "@2" BLOB);
"""


def printed(table, column):
    """The value that mysqlbinlog prints of a column, as a full line has it, but for bytes."""
    text, kind, number = column["t"], column["ty"], column["c"]
    if text == "NULL":
        return None
    if kind in UNSIGNED:
        signed, _, unsigned = text.partition(" ")
        return int(signed if (table, number) in SIGNED or not unsigned else unsigned.strip("()"))
    if kind.startswith("ENUM"):
        return int(text)
    if kind == "SET(1 bytes)":
        return int(text[2:-1], 2)
    if "x" not in column:
        return text
    raw = bytes.fromhex(column["x"])
    return raw if kind == "BLOB/TEXT" else raw.decode("latin1" if number == 7 else "utf8")


def expected():
    """The changes as mysqlbinlog prints them: each with its rows before and after, by the numbers of the columns."""
    changes = []
    for line in (MINIMAL / "expected.jsonl").read_text(encoding="utf-8").splitlines():
        change = json.loads(line)
        for image in ("before", "after"):
            if image in change:
                row = {column["c"]: printed(change["table"], column) for column in change[image]}
                if change.get("incomplete"):
                    row[2] = POINTS[row[1]]
                change[image] = row
        changes.append(change)
    return changes


def at_end(table, column, value):
    """A value of the server's rows at the end, as SQLite has it."""
    kind = column["type"].partition("(")[0]
    if value is None or kind == "bigint unsigned" and table == "t":
        return value
    if kind in ("int", "int unsigned", "bigint unsigned", "year"):
        return int(value)
    raw = bytes.fromhex(value.rpartition(":")[2])
    return raw if kind in ("blob", "point") else raw.decode(column["charset"].replace("utf8mb4", "utf8"))


def state():
    """The tables at the end, as the server told them, with the columns' numbers and names."""
    for line in (MINIMAL / "state.jsonl").read_text(encoding="utf-8").splitlines():
        told = json.loads(line)
        rows = [[at_end(told["table"], column, value) for column, value in zip(told["columns"], row)] for row in told["rows"]]
        yield told["table"], [column["name"] for column in told["columns"]], rows


class Minimal(FolderTest):
    """The log, by whatever reads it."""

    def judged(self, events, of_row):
        """Compares a reader's events with what mysqlbinlog prints, where `of_row` makes of a row what an event has to have."""
        wanted = expected()
        self.assertEqual(len(events), len(wanted))
        for event, change in zip(events, wanted):
            for name in ("schema", "table", "kind", "gtid"):
                self.assertEqual(getattr(event, name), change[name])
            for image in ("before", "after"):
                row = change.get(image)
                self.assertEqual(getattr(event, image), None if row is None else of_row(change["table"], row), event.token)

    def events(self, **options):
        """A reader's events, of one row each, with values as a line has them."""
        return list(BinLogStreamReader([LOG], program=PROGRAM, together=False, raw_values=True, **options))

    def test_reader(self):
        events = self.events()
        self.judged(events, lambda table, row: {f"@{number}": value for number, value in row.items()})
        self.assertEqual({event.primary_key for event in events}, {""})

    def test_commit_times(self):
        for event in self.events():
            told = bytes.fromhex(COMMITTED[int(event.gtid.rpartition(":")[2])])
            self.assertEqual(event.committed, int.from_bytes(told, "little"))

    def test_strict(self):
        with self.assertRaises(LogFault) as caught:
            self.events(profile="strict")
        self.assertEqual((caught.exception.position, caught.exception.what), (797, "NoColumnNames"))

    def test_names(self):
        """A mapping gives names alone."""
        self.judged(self.events(columns=NAMES), lambda table, row: dict(zip(NAMES[f"d.{table}"], row.values())))
        only = {"d.n": NAMES["d.n"]}
        self.judged(self.events(columns=only), lambda table, row: {"a" if table == "n" else f"@{at}": it for at, it in row.items()})

    def test_file(self):
        """A file gives the key, too, and the names of ENUM and SET values; a row is in the table's order."""

        def named(table, row):
            values = [WORDS[at][it] if table == "t" and at in WORDS and it is not None else it for at, it in row.items()]
            return dict(zip(NAMES[f"d.{table}"], values))

        events = self.events(columns=COLUMNS)
        self.judged(events, named)
        for event in events:
            names = NAMES[f"d.{event.table}"]
            self.assertEqual((event.key, [column.name for column in event.columns]), (KEYS[event.table], names))
            self.assertEqual(list(event.after or event.before), names)

    def test_pythons_values(self):
        event = BinLogStreamReader([LOG], program=PROGRAM, columns=str(COLUMNS), together=False, convert={"t.e": str.upper}).fetchone()
        self.assertEqual((event.after["e"], event.after["st"], event.after["y"], event.after["l"]), ("B", {"x", "y"}, 2024, "é"))

    def printed_by_follow(self, *words):
        """What `follow` says, and its status."""
        environment = {**os.environ, "PYTHONPATH": str(TOP / "python")}
        command = [sys.executable, "-m", "binlogfeed", "follow", "--once", "--state", self.folder / "state", "--program", PROGRAM]
        return subprocess.run([*command, *words, str(MINIMAL / "binlog.0*")], env=environment, capture_output=True, text=True, check=False)

    def test_follow(self):
        told = self.printed_by_follow("--full")
        lines, wanted = list(map(json.loads, told.stdout.splitlines())), expected()
        self.assertEqual((told.returncode, without_beginning(told.stderr), len(lines)), (0, "", len(wanted)))
        for line, change in zip(lines, wanted):
            for image in ("before", "after"):
                if image in change:
                    row = {f"@{number}": value for number, value in change[image].items()}
                    name = "raw" if change["table"] == "geo" else "base64"
                    has_bytes = {column: {name: base64.b64encode(it).decode()} for column, it in row.items() if type(it) is bytes}
                    self.assertEqual(line[image], {**row, **has_bytes}, line["token"])
                else:
                    self.assertIsNone(line[image])

    def test_strict_follow(self):
        told = self.printed_by_follow("--profile", "strict")
        self.assertEqual((told.returncode, told.stdout, without_hints(without_beginning(told.stderr))), (1, "", STRICT))

    def test_summary(self):
        environment = {**os.environ, "PYTHONPATH": str(TOP / "python")}
        command = [sys.executable, "-m", "binlogfeed", "summary", "--program", PROGRAM]
        told = subprocess.run([*command, LOG], env=environment, capture_output=True, text=True, check=True).stdout
        self.assertIn("8 changes in 7 transactions", told)
        self.assertRegex(told, r"d\.t +2 +1 +1 +4 ")
        strict = subprocess.run([*command, "--profile", "strict", LOG], env=environment, capture_output=True, text=True, check=False)
        self.assertEqual((strict.returncode, without_hints(strict.stderr)), (1, STRICT))
        self.assertIn("\nhint: the names of the columns aren't in the log: read it with --profile server, ", strict.stderr)
        self.assertIn("0 changes", strict.stdout)


class Replica(FolderTest):
    """The log's schema in SQLite."""

    def setUp(self):
        """Makes the folder of targets."""
        super().setUp()
        self.files = SqliteFiles()
        self.addCleanup(self.files.stop)

    def kept(self, target, *options):
        """What a replica says, and its status."""
        return ended(target, "d", *options, logs=str(MINIMAL / "binlog.0*"))

    def test_names(self):
        target = self.files.made(TABLES)
        for _ in range(2):
            self.assertEqual(self.kept(target, "--columns", str(COLUMNS)), (0, ""))
            for table, names, rows in state():
                found = self.files.asked(target, f"SELECT * FROM {table} ORDER BY 1")
                self.assertEqual([[row[name] for name in names] for row in found], rows)

    def test_numbers(self):
        """Tables whose columns are called by their numbers take the log as it is: an ENUM and a SET by their numbers, too."""
        target = self.files.made(NUMBERED)
        self.assertEqual(self.kept(target), (0, ""))
        for table, names, rows in state():
            found = [list(row.values()) for row in self.files.asked(target, f"SELECT * FROM {table} ORDER BY 1")]
            wanted = [[2 if name == "e" else 3 if name == "st" else value for name, value in zip(names, row)] for row in rows]
            self.assertEqual(found, wanted)

    def test_nothing_named(self):
        status, said = self.kept(self.files.made(TABLES))
        start = "replica: the log has no names for the columns of d.t at 654.1@binlog.000001 (binlog_row_metadata=MINIMAL): "
        self.assertEqual((status, said[: len(start)]), (7, start))
        self.assertIn("name them by --columns; in the log it has @1 int unsigned, @2 year, ", said)

    def test_nothing_to_make_tables_by(self):
        """No table is made whose columns would be called by their numbers."""
        line = "replica: the log has no names for the columns of d.t at 654.1@binlog.000001 (binlog_row_metadata=MINIMAL): name them by --columns\n"
        self.assertEqual(self.kept(self.files.made(""), "--create"), (7, line))

    def test_strict(self):
        said = self.kept(self.files.made(TABLES), "--profile", "strict", "--columns", str(COLUMNS))
        self.assertEqual(said, (1, STRICT))

    def test_others(self):
        """Another file's columns: the transactions before stand, and the line has both sides."""
        target = self.files.made(TABLES)
        other = self.put("columns.tsv", COLUMNS.read_bytes().replace(b"geo\tg\tpoint", b"geo\tg\ttext"))
        line = "binlogfeed: d.geo.g at 2701.1@binlog.000001: geometry in the log, text in the columns that were given\n"
        for options in ((), ("--commit-every", "100")):
            self.assertEqual(self.kept(target, *options, "--columns", str(other)), (7, line))
            self.assertEqual(self.files.asked(target, "SELECT * FROM gi"), [{"my_row_id": 1, "a": 1}])
            self.assertEqual(self.files.asked(target, "SELECT * FROM geo"), [])

    def test_files_without_types(self):
        rows = [line.split("\t") for line in COLUMNS.read_text().splitlines()]
        other = self.put("columns.tsv", "".join("\t".join([*row[:3], row[4]]) + "\n" for row in rows).encode())
        said = self.kept(self.files.made(TABLES), "--columns", str(other))
        self.assertEqual(said, (2, f"replica: {other} has no COLUMN_TYPE, which the replica needs\n"))
        self.assertEqual(self.kept(self.files.made(TABLES), "--columns", "none"), (4, "binlogfeed: cannot open none: No such file or directory\n"))
