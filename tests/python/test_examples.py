"""The examples that are one program each: killed at random moments, each gives the bank's rows as its server told them."""
import ast
import contextlib
import json
import os
import random
import shutil
import socket
import sqlite3
import subprocess
import sys
import time
import unittest
from base64 import b64decode

from binlogfeed import BinLogStreamReader
from binlogfeed.tokens import token_parts
from killed import Killed, loaded
from replicas import LinesTest, full_line
from support import BANK, PROGRAM, SECONDS, SHOP, TOP, FolderTest, bank_rows

SHOP_LOGS = str(SHOP[0].parent / "binlog.0*")
KEYS = {"account": "id", "journal": "seq"}
# Debian has servers where the PATH of a user doesn't lead.
REDIS, NATS = (shutil.which(name, path=f"{os.environ['PATH']}:/usr/sbin") for name in ("redis-server", "nats-server"))
SERVER = "3e11fa47-71ca-11e1-9e33-c80aa9429562"
# How often each example is killed.
KILLS = 40


def rows_by_name():
    """The bank's rows at the end, by table and key."""
    return {(table, str(row[KEYS[table]])): row for table, rows in bank_rows().items() for row in rows}


def place_of(token):
    """What tokens are ordered by."""
    parts = token_parts(token)
    return parts.file, parts.position, parts.count


class ExampleTest(FolderTest):
    """A test of an example."""

    def setUp(self):
        """Puts the program where an example looks for it."""
        super().setUp()
        (self.folder / "binlogfeed").symlink_to(PROGRAM)

    def ran(self, path, *words):
        """What an example prints, over what it is given."""
        environment = {**os.environ, "PATH": f"{self.folder}:{os.environ['PATH']}", "PYTHONDONTWRITEBYTECODE": "1"}
        command = [sys.executable, TOP / "examples" / path, *words]
        ended = subprocess.run(command, env=environment, capture_output=True, text=True, check=False)
        self.assertEqual((ended.returncode, ended.stderr), (0, ""))
        return ended.stdout

    def killed(self, main, words, judged, count):
        """Kills an example so often."""
        kills = Killed(main, words, judged, count)
        self.addCleanup(kills.close)
        self.assertEqual(kills.run(), [])


def values_wanted():
    """The same, with values as `to_json` has them."""
    wanted = {}
    for name, row in rows_by_name().items():
        if "opened" in row:
            row["opened"] = row["opened"] and int(row["opened"])
        else:
            row["at"] = row["at"].replace(" ", "T").replace(".000000", "")
        wanted[name] = row
    return wanted


def applied(lines):
    """The rows that are left of changes, by table and key. Each change has to find the row that it changes as it was."""
    rows = {}
    for line in lines:
        change = json.loads(line)
        ((before, after),) = ((row["before"], row["after"]) for row in change["rows"])
        if before is not None and rows.pop((change["table"], *(str(before[name]) for name in change["key"])), None) != before:
            raise AssertionError(f"the row of {change['token']} isn't there")
        if after is not None and rows.setdefault((change["table"], *(str(after[name]) for name in change["key"])), after) is not after:
            raise AssertionError(f"the row of {change['token']} is there already")
    return rows


def wrong(lines):
    """What is wrong with the changes of the bank."""
    try:
        rows = applied(lines)
    except AssertionError as error:
        return [str(error)]
    return [] if rows == values_wanted() else [f"{len(rows)} rows are left of {len(lines)} changes, and not as they should be"]


def wanted_of(line):
    """What a trail has of a full line: the place, the times, the table, the kind, and both names and rows."""
    told = json.loads(line)
    names = [told[row] and [told["schema"], told["table"], *(told[row][column] for column in told["key"])] for row in ("before", "after")]
    when = told["gtid"], told.get("committed"), told["timestamp"]
    return (*token_parts(told["token"]), *when, told["schema"], told["table"], told["kind"], *names, told["before"], told["after"])


def free_port():
    """A port of this machine that nobody listens at. It is none of those that Linux gives to connections, which may come meanwhile."""
    while True:
        port = random.SystemRandom().randrange(12_000, 32_000)
        with socket.socket() as taken, contextlib.suppress(OSError):
            taken.bind(("127.0.0.1", port))
            return port


class ServerTest(ExampleTest):
    """A test with a server of its own, which listens at a port."""

    def serve(self, command):
        """Starts a server by its command, which is given a port, and waits until it listens. One that finds its port taken gets another."""
        for _ in range(3):
            self.port = free_port()
            server = subprocess.Popen(command(str(self.port)), cwd=self.folder, stdout=subprocess.DEVNULL, stderr=subprocess.DEVNULL)
            self.addCleanup(server.wait)
            self.addCleanup(server.kill)
            until = time.monotonic() + SECONDS
            while time.monotonic() < until and server.poll() is None:
                try:
                    socket.create_connection(("127.0.0.1", self.port)).close()
                    return
                except ConnectionRefusedError:
                    time.sleep(0.05)
        self.fail(f"{server.args[0]} doesn't listen")


class Sizes(unittest.TestCase):
    """The examples are short, and none is left out of their page."""

    def test_lines(self):
        for name in ("search_index", "audit_trail", "cache", "broker", "warehouse"):
            lines = (TOP / "examples" / name / f"{name}.py").read_text(encoding="utf-8").splitlines()
            self.assertLessEqual(sum(map(bool, map(str.strip, lines))), 40, name)


class Pages(ExampleTest):
    """The examples' READMEs, whose commands are run as they are written."""

    def shown(self, name):
        """What the commands of an example print."""
        for part in ("python", "examples"):
            (self.folder / part).symlink_to(TOP / part)
        text = (TOP / "examples" / name / "README.md").read_text(encoding="utf-8")
        commands = "".join(line[4:] for line in text.splitlines(keepends=True) if line.startswith("    "))
        environment = {**os.environ, "PYTHONDONTWRITEBYTECODE": "1"}
        ended = subprocess.run(["bash", "-euc", commands], cwd=self.folder, env=environment, capture_output=True, text=True, check=False)
        self.assertEqual((ended.returncode, ended.stderr), (0, ""))
        return ended.stdout

    def test_search_index(self):
        found = self.shown("search_index")
        for name in (["product", "POT-0003"], ["product", "TEA-0001"]):
            self.assertIn(json.dumps(name), found)
        self.assertNotIn("CUP-0007", found)

    def test_audit_trail(self):
        """The story of a customer, whose number changes at its end."""
        inserted, updated = map(ast.literal_eval, self.shown("audit_trail").splitlines())
        place = ("2026-11-22 07:23:06", 844957, f"{SERVER}:6", "binlog.000001", 1697, 2)
        customer = '{"email":null,"id":%d,"joined":"2024-02-29","level":"basic","name":"Søren Kierkegaard"}'
        self.assertEqual(inserted, (*place, "insert", None, customer % 2))
        place = ("2026-11-22 07:23:06", 885944, f"{SERVER}:14", "binlog.000002", 1656, 1)
        self.assertEqual(updated, (*place, "update", customer % 2, customer % 20))

    def test_warehouse(self):
        manifest, _, lines = self.shown("warehouse").partition("\n}")
        self.assertIn('"shop.purchase.2026-11-22.jsonl"', manifest)
        self.assertEqual(lines.count('"table":"purchase"'), 4)

    def test_all_are_listed(self):
        """The page of all examples names each folder."""
        page = (TOP / "examples/README.md").read_text(encoding="utf-8")
        folders = [path.name for path in (TOP / "examples").iterdir() if path.is_dir() and path.name != "__pycache__"]
        self.assertGreater(len(folders), 7)
        self.assertEqual([name for name in folders if f"[{name}]({name}/" not in page], [])


class SqliteTest(ExampleTest):
    """A test of what is kept in a file of SQLite."""

    def answered(self, file, statement, *values):
        """What a file of SQLite answers. What a statement changes stays."""
        connection = sqlite3.connect(file, isolation_level=None)
        try:
            return connection.execute(statement, values).fetchall()
        finally:
            connection.close()

    def judge_a_second_process(self, path, table):
        """Who finds another place than its own ends, and changes nothing."""
        file, example = self.folder / "kept.db", loaded(path)
        self.ran(path, file, SHOP_LOGS)

        class Batches(BinLogStreamReader):
            """A reader beside which another process moves on."""

            def batches(reader, *options):
                """Moves on, and gives a batch."""
                self.answered(file, "UPDATE place SET kept = 'another'")
                yield list(BinLogStreamReader(SHOP, program=PROGRAM, together=False).transactions())

        example.BinLogStreamReader = Batches
        before = self.answered(file, f"SELECT * FROM {table}")
        with self.assertRaisesRegex(SystemExit, "another process"):
            example.main(str(file), SHOP_LOGS)
        self.assertEqual(self.answered(file, "SELECT kept FROM place"), [("another",)])
        self.assertEqual(self.answered(file, f"SELECT * FROM {table}"), before)


class SearchIndex(SqliteTest):
    """The index in SQLite."""

    def test_shop(self):
        """Words are found where they stand at the end, and where they stood before they aren't."""
        for _ in range(2):
            self.ran("search_index/search_index.py", self.folder / "index.db", SHOP_LOGS)
        find = "SELECT name FROM words JOIN document ON id = words.rowid WHERE words MATCH ? ORDER BY name"
        for words, wanted in (
            ("green tea", [["product", "TEA-0001"]]), ("lovelace", [["customer", "1"]]), ("gold", [["customer", "1"], ["customer", "3"]]),
            ("cup", [["product", "CUP-0007"]]), ("silver", []), ("kierkegaard", []),
        ):  # fmt: skip
            found = [json.loads(name) for (name,) in self.answered(self.folder / "index.db", find, words)]
            self.assertEqual([it for it in found if it[0] in ("customer", "product")], wanted, words)

    def test_a_second_process(self):
        self.judge_a_second_process("search_index/search_index.py", "document")

    def judged(self, target):
        """What is wrong with an index of the bank."""
        file = self.folder / target
        rows = self.answered(file, "SELECT name, text FROM words LEFT JOIN document ON id = words.rowid")
        texts = {"account": ("owner",), "journal": ("kind", "note")}
        wanted = {
            (json.dumps([table, key]), " ".join(row[column] for column in texts[table] if row[column] is not None))
            for (table, key), row in rows_by_name().items()
        }
        count = self.answered(file, "SELECT count(*) FROM document")[0][0]
        return [] if sorted(rows) == sorted(wanted) and count == len(wanted) else [f"{len(rows)} rows, {count} documents"]

    def test_killed(self):
        main = loaded("search_index/search_index.py").main
        self.killed(main, lambda target: [str(self.folder / target)], self.judged, KILLS)


class AuditTrail(SqliteTest, LinesTest):
    """The trail in SQLite."""

    def changes(self, file):
        """The changes of a trail in their order, but for their numbers. The rows and their names are taken apart."""
        changes = self.answered(file, "SELECT * FROM change ORDER BY id")
        return [(*told, *(text and json.loads(text) for text in texts)) for _, *told, a, b, c, d in changes for texts in [(a, b, c, d)]]

    def wanted(self, *words):
        """What a trail has of the lines of `read --full` with these words."""
        return [wanted_of(line) for line in subprocess.check_output([PROGRAM, "read", "--full", *words], text=True).splitlines()]

    def test_shop(self):
        """It has each change of the lines, in their order."""
        file = self.folder / "audit.db"
        for _ in range(2):
            self.ran("audit_trail/audit_trail.py", file, SHOP_LOGS)
        self.assertEqual(self.changes(file), self.wanted(*SHOP))

    def test_it_only_grows(self):
        file = self.folder / "audit.db"
        self.ran("audit_trail/audit_trail.py", file, SHOP_LOGS)
        before = self.changes(file)
        for statement in ("UPDATE change SET after = NULL WHERE id = 1", "DELETE FROM change", "INSERT INTO change SELECT NULL, * FROM ({})"):
            every_column = "SELECT file, position, number, gtid, committed, timestamp, 1, 2, 3, 4, 5, 6, 7 FROM change WHERE id = 1"
            with self.assertRaisesRegex(sqlite3.IntegrityError, "a trail only grows|UNIQUE"):
                self.answered(file, statement.format(every_column))
        self.assertEqual(self.changes(file), before)

    def test_a_second_process(self):
        self.judge_a_second_process("audit_trail/audit_trail.py", "change")

    def test_times_and_keys(self):
        """A log may say no time of a commit, and a table may have no key."""
        types = {"id": "int", "v": "varchar utf8mb4"}
        first = json.loads(full_line((1, 1), "t", None, {"id": 1, "v": "é"}, types))
        rows = {name: first.pop(name) for name in ("after", "before")}
        second = {**rows, "committed": 1700092800000001, **first, "key": [], "token": "2.1@binlog.000001"}
        lines = [json.dumps(line, ensure_ascii=False, separators=(",", ":")) for line in ({**rows, **first}, second)]
        told = self.told(lines)
        (self.folder / "binlogfeed").unlink()
        (self.folder / "binlogfeed").symlink_to(told["program"])
        self.ran("audit_trail/audit_trail.py", self.folder / "audit.db", told["logs"])
        changes = self.changes(self.folder / "audit.db")
        self.assertEqual(changes, [wanted_of(line) for line in lines])
        self.assertEqual([change[4] for change in changes], [None, 1700092800000001])
        self.assertEqual([change[10] for change in changes], [["made", "t", 1], ["made", "t"]])

    def judged(self, target):
        """What is wrong with a trail of the bank: it has the changes of the lines, and these leave the server's rows."""
        changes, wanted, rows = self.changes(self.folder / target), self.wanted(*BANK), {}
        for *_, old_name, new_name, _, after in changes:
            if old_name:
                del rows[tuple(old_name)]
            if new_name:
                rows[tuple(new_name)] = after
        if changes != wanted:
            return [f"{len(changes)} changes, and not the {len(wanted)} of the lines"]
        return [] if rows == {("bank", table, row[KEYS[table]]): row for (table, _), row in rows_by_name().items()} else ["other rows"]

    def test_killed(self):
        main = loaded("audit_trail/audit_trail.py").main
        self.killed(main, lambda target: [str(self.folder / target)], self.judged, KILLS)


@unittest.skipUnless(REDIS, "there is no redis-server (apt-get install redis-server)")
class Cache(ServerTest):
    """The cache in Redis."""

    def setUp(self):
        """Starts a server."""
        super().setUp()
        words = {"--bind": "127.0.0.1", "--save": "", "--appendonly": "no", "--dir": str(self.folder)}
        self.serve(lambda port: [REDIS, "--port", port, *(word for option in words.items() for word in option)])

    def asked(self, *words):
        """What the server answers to a command."""
        with socket.create_connection(("127.0.0.1", self.port)) as connection, connection.makefile("rb") as answers:
            texts = [word.encode() for word in words]
            connection.sendall(b"*%d\r\n" % len(texts) + b"".join(b"$%d\r\n%s\r\n" % (len(text), text) for text in texts))
            return self.answer(answers)

    def answer(self, answers):
        """The next answer."""
        line = answers.readline()[:-2]
        if line[:1] == b"*":
            return [self.answer(answers) for _ in range(int(line[1:]))]
        if line[:1] == b"$":
            return None if line == b"$-1" else answers.read(int(line[1:]) + 2)[:-2].decode()
        self.assertIn(line[:1], (b"+", b":"))
        return line[1:].decode()

    def rows(self):
        """All rows of the cache, by their names."""
        names = [name for name in self.asked("KEYS", "*") if name != "binlogfeed:place"]
        return {name: json.loads(self.asked("GET", name)) for name in names}

    def test_shop(self):
        for _ in range(2):
            self.ran("cache/cache.py", "127.0.0.1", str(self.port), SHOP_LOGS)
        rows = self.rows()
        names = ["customer:1", "customer:3", "line:1:1", "line:3:1", "product:CUP-0007", "product:POT-0003", "product:TEA-0001"]
        self.assertEqual(sorted(rows), [f"shop:{name}" for name in [*names, "purchase:1", "purchase:3"]])
        cup = {"price": "10.80", "sku": "CUP-0007", "tags": ["sale"], "title": 'Cup "Blue"', "weight": 0.3499999940395355}
        self.assertEqual(rows["shop:product:CUP-0007"], cup)

    def test_a_second_process(self):
        """Who finds another place than its own ends, and changes nothing."""
        self.ran("cache/cache.py", "127.0.0.1", str(self.port), SHOP_LOGS)
        cache = loaded("cache/cache.py")
        connection = socket.create_connection(("127.0.0.1", self.port))
        redis = connection.makefile("rwb")
        self.addCleanup(connection.close)
        self.addCleanup(redis.close)
        kept = cache.watched(redis)
        self.assertEqual(json.loads(kept)["token"], "2072.1@binlog.000002")
        self.asked("SET", "binlogfeed:place", "another")
        with self.assertRaises(SystemExit):
            cache.asked(redis, ("MULTI",), ("SET", "binlogfeed:place", "mine"), ("EXEC",))
        self.assertEqual(self.asked("GET", "binlogfeed:place"), "another")

    def judged(self, target):
        """What is wrong with a cache of the bank."""
        wanted = {":".join(("bank", *name)): row for name, row in values_wanted().items()}
        rows = self.rows()
        return [] if rows == wanted else [f"{len(rows)} rows", str(next(it for it in wanted.items() if rows.get(it[0]) != it[1]))]

    def words(self, target):
        """What an example is given for an empty cache."""
        self.asked("FLUSHALL")
        return ["127.0.0.1", str(self.port)]

    def test_killed(self):
        self.killed(loaded("cache/cache.py").main, self.words, self.judged, KILLS)


@unittest.skipUnless(NATS, "there is no nats-server (apt-get install nats-server)")
class Broker(ServerTest):
    """The stream of NATS JetStream."""

    def setUp(self):
        """Starts a server."""
        super().setUp()
        self.serve(lambda port: [NATS, "-a", "127.0.0.1", "-p", port, "-js", "-sd", self.folder / "nats"])

    def asked(self, *requests):
        """What the server answers to requests, each a subject and a text."""
        with socket.create_connection(("127.0.0.1", self.port)) as connection, connection.makefile("rb") as answers:
            connection.sendall(b'CONNECT {"verbose":false}\r\nSUB inbox 1\r\n')
            for subject, text in requests:
                connection.sendall(f"PUB {subject} inbox {len(text)}\r\n{text}\r\n".encode())
                line = [b""]
                while line[0] != b"MSG":
                    line = answers.readline().split()
                    self.assertIn(line[0], (b"MSG", b"INFO", b"PING"))
                yield json.loads(answers.read(int(line[-1]) + 2))

    def messages(self):
        """The messages of the stream, each with its subject."""
        (told,) = self.asked(("$JS.API.STREAM.INFO.binlogfeed", ""))
        requests = [("$JS.API.STREAM.MSG.GET.binlogfeed", json.dumps({"seq": seq})) for seq in range(1, told["state"]["last_seq"] + 1)]
        return [(told["message"]["subject"], b64decode(told["message"]["data"]).decode()) for told in self.asked(*requests)]

    def test_shop(self):
        for _ in range(2):
            self.ran("broker/broker.py", "127.0.0.1", str(self.port), SHOP_LOGS)
        messages = self.messages()
        self.assertEqual(len(messages), (SHOP[0].parent / "read.jsonl").read_text(encoding="utf-8").count("\n"))
        for subject, text in messages:
            self.assertEqual(subject, f"binlogfeed.shop.{json.loads(text)['table']}")
        self.assertEqual(applied(text for _, text in messages)["product", "TEA-0001"]["price"], "4.90")

    def test_a_message_that_comes_twice(self):
        """The server drops it by its id; and one behind another message than the last is refused."""
        broker = loaded("broker/broker.py")
        self.ran("broker/broker.py", "127.0.0.1", str(self.port), SHOP_LOGS)
        count = len(self.messages())
        connection = socket.create_connection(("127.0.0.1", self.port))
        nats = connection.makefile("rwb")
        self.addCleanup(connection.close)
        self.addCleanup(nats.close)
        nats.write(f"CONNECT {{\"verbose\":false,\"headers\":true}}\r\nSUB {broker.INBOX} 1\r\n".encode())
        before = f"Nats-Expected-Last-Sequence: {count - 1}"
        told = broker.asked(nats, "binlogfeed.shop.customer", "{}", "Nats-Msg-Id: 2072.1@binlog.000002", before)
        self.assertEqual((told["seq"], told["duplicate"]), (count, True))
        told = broker.asked(nats, "binlogfeed.shop.customer", "{}", "Nats-Msg-Id: other", before)
        self.assertIn("wrong last sequence", told["error"]["description"])
        self.assertEqual(len(self.messages()), count)

    def words(self, target):
        """What an example is given for no stream."""
        list(self.asked(("$JS.API.STREAM.DELETE.binlogfeed", "")))
        return ["127.0.0.1", str(self.port)]

    def judged(self, target):
        """What is wrong with a stream of the bank."""
        return wrong([text for _, text in self.messages()])

    def test_killed(self):
        self.killed(loaded("broker/broker.py").main, self.words, self.judged, KILLS)


class Warehouse(ExampleTest, LinesTest):
    """The files by day."""

    def lines(self, folder):
        """The lines of a warehouse that count, in the order of the log."""
        sizes = json.loads((folder / "manifest.json").read_text())["sizes"]
        lines = [line for name in sizes for line in (folder / name).read_bytes()[: sizes[name]].decode().splitlines()]
        return sorted(lines, key=lambda line: place_of(json.loads(line)["token"]))

    def words(self, target):
        """What an example is given for an empty folder."""
        folder = self.folder / target
        folder.mkdir()
        return [str(folder)]

    def test_shop(self):
        (words,) = self.words("shop")
        for _ in range(2):
            self.ran("warehouse/warehouse.py", words, SHOP_LOGS)
        folder = self.folder / "shop"
        names = ["lock", "manifest.json", *(f"shop.{table}.2026-11-22.jsonl" for table in ("customer", "line", "product", "purchase"))]
        self.assertEqual(sorted(path.name for path in folder.iterdir()), names)
        self.assertEqual(len(self.lines(folder)), (SHOP[0].parent / "read.jsonl").read_text(encoding="utf-8").count("\n"))

    def test_days(self):
        """Each change stands in the file of the day of its commit; what no manifest counts is cut off."""
        lines = []
        # The last seconds of 2023-11-14, the first of 2023-11-15, and an event of that day whose commit is in the next one.
        for number, (timestamp, committed) in enumerate(((1700006399, None), (1700006400, None), (1700092799, 1700092800000001)), 1):
            line = json.loads(full_line((number, 1), "t", None, {"id": number, "v": "é"}, {"id": "int", "v": "varchar utf8mb4"}))
            rows = {"after": line.pop("after"), "before": line.pop("before"), **({"committed": committed} if committed else {})}
            lines.append(json.dumps({**rows, **line, "timestamp": timestamp}, ensure_ascii=False, separators=(",", ":")))
        told = self.told(lines)
        (self.folder / "binlogfeed").unlink()
        (self.folder / "binlogfeed").symlink_to(told["program"])
        (words,) = self.words("days")
        left = self.folder / "days/made.t.2023-11-15.jsonl"
        left.write_text("left by a kill\n")
        self.ran("warehouse/warehouse.py", words, told["logs"])
        for day, number in (("2023-11-14", 1), ("2023-11-15", 2), ("2023-11-16", 3)):
            (line,) = (self.folder / f"days/made.t.{day}.jsonl").read_text(encoding="utf-8").splitlines()
            self.assertEqual(json.loads(line)["rows"], [{"before": None, "after": {"id": number, "v": "é"}}])

    def judged(self, target):
        """What is wrong with a warehouse of the bank."""
        return wrong(self.lines(self.folder / target))

    def test_killed(self):
        self.killed(loaded("warehouse/warehouse.py").main, self.words, self.judged, KILLS)
