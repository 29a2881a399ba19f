"""What the replica's tests share: replicas in processes of their own, targets, and a program that tells lines."""
import json
import os
import random
import shutil
import signal
import sqlite3
import subprocess
import sys
import tempfile
import threading
import time
import unittest
from pathlib import Path

import psql
import replica
from binlogfeed import JSON_NULL
from support import BANK, PATIENT, PROGRAM, SHOP, TOP, FolderTest, bank_rows, without_beginning, without_hints

REPLICA = TOP / "examples/replica/replica.py"
PATHS = [str(TOP / "python"), str(REPLICA.parent)]
TABLES = {"shop": TOP / "examples/replica/shop.sql", "bank": TOP / "tests/python/bank.sql"}
LOGS = {"shop": str(SHOP[0].parent / "binlog.0*"), "bank": str(BANK[0].parent / "binlog.0*")}
HAS_POSTGRES = all(map(shutil.which, ("postgres", "initdb", "pg_ctl", "psql")))
# How long a test of kills, or a replica that is waited for, may take at most.
SECONDS = 300

# The shop's tables at the end, by its statements.
PAID = "2024-05-06 08:00:00+00:00"
SHOP_ROWS = {
    "customer": [
        {"id": 1, "name": "Ada Lovelace", "email": "ada@example.org", "joined": "2024-01-15", "level": "gold"},
        {"id": 3, "name": "李清照", "email": "li@example.org", "joined": "2024-03-08", "level": "gold"},
    ],
    "line": [
        {"purchase": 1, "nr": 1, "sku": "TEA-0001", "amount": 2},
        {"purchase": 3, "nr": 1, "sku": "POT-0003", "amount": 1},
    ],
    "product": [
        {"sku": "CUP-0007", "title": 'Cup "Blue"', "price": "10.80", "tags": "sale", "weight": 0.35},
        {"sku": "POT-0003", "title": "Tea pot", "price": "35.55", "tags": "sale", "weight": 1.2},
        {"sku": "TEA-0001", "title": "Green tea, 100 g", "price": "4.90", "tags": "eco", "weight": 0.1},
    ],
    "purchase": [
        {"id": 1, "customer": 1, "placed": "2024-05-06 07:08:09.125", "paid": PAID, "total": "9.80"},
        {"id": 3, "customer": 3, "placed": "2024-06-01 23:59:59.999", "paid": None, "total": "35.55"},
    ],
}
KEYS = {"customer": ["id"], "line": ["purchase", "nr"], "product": ["sku"], "purchase": ["id"]}
KEYS.update({"account": ["id"], "journal": ["seq"]})

# A program that answers `read --follow` with the lines of a file, from the one behind --from on, each once.
TELLER = """#!{python}
import json, sys
def lines():
    return open({lines!r}, encoding="utf-8").read().splitlines()
given = 0
for word in sys.argv:
    if word.startswith("--from="):
        given = [json.loads(line)["token"] for line in lines()].index(word[7:]) + 1
for path in sys.stdin:
    if path == "\\n":
        new = lines()[given:]
        given += len(new)
        sys.stdout.buffer.write("".join(line + "\\n" for line in [*new, ""]).encode())
        sys.stdout.flush()
"""


def in_order(rows):
    """Tables' rows, by their keys."""
    return {table: sorted(rows[table], key=lambda row: [row[column] for column in KEYS[table]]) for table in rows}


def rows_wanted(schema):
    """A schema's tables at the end."""
    return SHOP_ROWS if schema == "shop" else in_order(bank_rows())


def words_of(target, schema, *options, program=PROGRAM, logs=None):
    """What the command line of a replica has."""
    return ["--program", program, *options, target, schema, logs or LOGS[schema]]


def started(target, schema, *options, python=sys.executable, program=PROGRAM, logs=None, patient=False):
    """A process that keeps the replica. A patient one looks longer for an index that is away."""
    code = f"import sys; sys.path[:0] = {PATHS}; {PATIENT}; import replica; sys.exit(replica.main())"
    words = [python, *(["-c", code] if patient else [str(REPLICA)]), *words_of(target, schema, *options, program=program, logs=logs)]
    environment = {**os.environ, "PYTHONDONTWRITEBYTECODE": "1"}
    return subprocess.Popen(words, stdout=subprocess.DEVNULL, stderr=subprocess.PIPE, text=True, env=environment)


def ended_with_hints(*words, **options):
    """The status of a replica that has ended, and what it said."""
    with started(*words, **options) as process:
        late = threading.Timer(SECONDS, process.kill)
        late.start()
        said = process.stderr.read()
        late.cancel()
    return process.returncode, without_beginning(said)


def ended(*words, **options):
    """The same without hints."""
    status, said = ended_with_hints(*words, **options)
    return status, without_hints(said)


def full_line(number, table, before, after, types, key=("id",)):
    """A full line of a change: the one with a number, which tells its transaction and its place there, as in (3, 1)."""
    transaction, place = number
    kind = "insert" if before is None else "delete" if after is None else "update"
    nulls = [f"{name}.{column}" for name, row in (("after", after), ("before", before)) for column in row or () if row[column] is JSON_NULL]
    after, before = ({column: None if it is JSON_NULL else it for column, it in row.items()} if row else row for row in (after, before))
    told = {"after": after, "before": before, "gtid": None, **({"json_null": nulls} if nulls else {}), "key": list(key), "types": types}
    token = f"{100 * transaction}.{place}@binlog.000001"
    told.update({"kind": kind, "schema": "made", "table": table, "timestamp": 1700000000, "token": token})
    return json.dumps(told, ensure_ascii=False, separators=(",", ":"))


class LinesTest(FolderTest):
    """A test with a program that gives lines as told."""

    def told(self, lines):
        """The options of a replica of these lines, which are of the schema `made`."""
        log = self.put("binlog.000001", SHOP[0].read_bytes())
        # As long as the lines' tokens say at least, without taking the room.
        os.truncate(log, 1 << 30)
        told = self.put("lines", "".join(f"{line}\n" for line in lines).encode())
        program = self.put("teller", TELLER.format(python=sys.executable, lines=str(told)).encode())
        program.chmod(0o700)
        return {"program": str(program), "logs": f"{log.parent}/binlog.0*"}

    def tell_more(self, lines):
        """Has the program give more lines: the log grows, too."""
        for name, more in (("lines", "".join(f"{line}\n" for line in lines)), ("binlog.000001", "more")):
            with open(self.folder / name, "a", encoding="utf-8") as file:
                file.write(more)


class Forked:
    """A replica in a process of its own, which needs no time to begin: it is a copy of this one."""

    def __init__(self, target, schema, said, options):
        """Starts it. What it says goes to a file."""
        self.process = os.fork()
        if self.process == 0:
            status = 70
            try:
                os.dup2(os.open(said, os.O_WRONLY | os.O_CREAT | os.O_TRUNC, 0o600), 2)
                sys.stderr = open(2, "w", closefd=False)
                sys.argv = ["replica", *words_of(target, schema, *options)]
                status = replica.main()
                sys.stderr.flush()
            finally:
                os._exit(status)

    def killed_after(self, seconds):
        """Kills it after some time, if it still runs. Answers the exit status: below 0 the signal."""
        time.sleep(seconds)
        os.kill(self.process, signal.SIGKILL)
        return self.ended()

    def ended(self):
        """Waits for its end."""
        return os.waitstatus_to_exitcode(os.waitpid(self.process, 0)[1])


class Kills:
    """Kills the replica of a schema again and again, from an empty target to the end, until that was often enough."""

    def __init__(self, schema, count, new_target, rows_of, options=()):
        """`new_target` makes an empty target, `rows_of` reads its tables' rows."""
        self.schema, self.count, self.options = schema, count, options
        self.new_target, self.rows_of = new_target, rows_of
        self.chance = random.Random(f"{schema} {count} {options}")
        self.killed = self.inside = self.finished = 0
        self.reasons = []
        self.said = tempfile.NamedTemporaryFile(prefix="binlogfeed-")
        self.begins, self.ends = self.measured()
        # By how much kills come later than what was measured says: it was busier then, or is now.
        self.pace = 1.0

    def forked(self, target):
        """A replica in a process of its own."""
        return Forked(target, self.schema, self.said.name, self.options)

    def measured(self):
        """How long a process takes with nothing to do, in which a kill says little, and with all to do."""
        targets = [self.new_target(), self.new_target()]
        times = []
        for target in (targets[0], targets[1], targets[1]):
            began = time.monotonic()
            self.forked(target).ended()
            times.append(time.monotonic() - began)
        return times[2], times[1]

    def wanted(self):
        """Whether more kills are wanted: one in ten has to be amid the logs."""
        return self.killed < self.count or self.inside < self.count // 10

    def run(self):
        """Kills it so often, and compares the tables whenever it came to the end."""
        deadline = time.monotonic() + SECONDS
        while self.wanted() and not self.reasons and time.monotonic() < deadline:
            target, places = self.new_target(), {None}
            unharmed = True
            while not self.ended(target) and not self.reasons and time.monotonic() < deadline:
                place, unharmed = self.place(target), False
                # A kill that left no new place came too early. Where the replica comes to its end unharmed, the kill came too late.
                self.pace *= 1.2 if place in places else 1
                places.add(place)
            self.pace *= 0.8 if unharmed else 1
            self.finished += 1
            self.inside += len(places) - 1
            if not self.reasons and self.rows_of(target) != rows_wanted(self.schema):
                self.reasons.append(f"the tables differ after {self.killed} kills")

    def judge(self, test):
        """What a test wants of it: it was killed so often, some of these amid the logs, and nothing was wrong."""
        counts = f"{self.killed} kills, {self.inside} places, {self.finished} times to the end"
        print(f"{' '.join([self.schema, *self.options])}: {counts}", flush=True)
        test.assertEqual(self.reasons, [])
        test.assertFalse(self.wanted())

    def place(self, target):
        """The token that a target has."""
        text = target and self.rows_of(target, "binlogfeed_place")
        return json.loads(text).get("token") if text else None

    def ended(self, target):
        """Starts the replica, and kills it at some moment. Whether it came to its end before that."""
        latest = self.begins + 0.6 * max(0.01, self.ends - self.begins)
        status = self.forked(target).killed_after(self.pace * self.chance.uniform(0.5 * self.begins, latest))
        if status == -signal.SIGKILL:
            self.killed += 1
        elif status != 0:
            said = Path(self.said.name).read_text()
            if "start again" not in said:
                self.reasons.append(f"status {status}: {said}")
        return status == 0


class SqliteFiles:
    """Targets in files of SQLite, in memory where there is one: a killed process needs no disk that was waited for."""

    def __init__(self):
        """Makes the folder."""
        memory = "/dev/shm" if os.access("/dev/shm", os.W_OK) else None
        self.folder = tempfile.mkdtemp(prefix="binlogfeed-", dir=memory)

    def stop(self):
        """Takes the folder away."""
        shutil.rmtree(self.folder, ignore_errors=True)

    def new_target(self, schema="bank"):
        """An empty target."""
        return self.made(TABLES[schema].read_text())

    def made(self, tables):
        """A target with tables, by their statements."""
        with tempfile.NamedTemporaryFile(dir=self.folder, suffix=".db", delete=False) as file:
            connection = sqlite3.connect(file.name)
            connection.executescript(tables)
            connection.close()
            return f"sqlite:{file.name}"

    def asked(self, target, statement, values=()):
        """What a target answers."""
        connection = sqlite3.connect(target.partition(":")[2], timeout=60, isolation_level=None)
        connection.row_factory = sqlite3.Row
        try:
            return [dict(row) for row in connection.execute(statement, values)]
        finally:
            connection.close()

    def rows_of(self, target, place=None):
        """The rows of a target's tables, or its place."""
        tables = {row["name"] for row in self.asked(target, "SELECT name FROM sqlite_master WHERE type = 'table'")}
        if place:
            kept = self.asked(target, f"SELECT place FROM {place}") if place in tables else []
            return kept[0]["place"] if kept else ""
        return in_order({table: self.asked(target, f"SELECT * FROM {table}") for table in tables if table in KEYS})


class PostgresServer:
    """A PostgreSQL server in a folder of its own."""

    def __init__(self):
        """Starts the server. As root it runs as nobody, since it refuses to run as root."""
        self.folder = Path(tempfile.mkdtemp(prefix="binlogfeed-"))
        self.user = "nobody" if os.geteuid() == 0 else None
        if self.user:
            shutil.chown(self.folder, self.user)
        self.databases = 0
        self.call("initdb", "-D", self.data, "-U", "replica", "-A", "trust", "-E", "UTF8", "--locale=C", "--no-sync")
        self.start()

    @property
    def data(self):
        """The folder of its data."""
        return str(self.folder / "data")

    def start(self):
        """Starts it. A killed client needs no disk that was waited for."""
        options = f"-c listen_addresses='' -c fsync=off -k {self.folder}"
        self.call("pg_ctl", "-D", self.data, "-w", "-l", str(self.folder / "log"), "-o", options, "start")

    def call(self, *command):
        """Runs one of the server's programs."""
        quiet = {"stdout": subprocess.DEVNULL, "stderr": subprocess.DEVNULL}
        subprocess.run(command, user=self.user, cwd=self.folder, check=True, **quiet)

    def halt(self):
        """Ends the server at once, with all connections."""
        self.call("pg_ctl", "-D", self.data, "-m", "immediate", "stop")

    def stop(self):
        """Ends the server, and takes its folder away."""
        self.halt()
        shutil.rmtree(self.folder, ignore_errors=True)

    def words(self, database):
        """What a connection to a database is told."""
        return f"host={self.folder} user=replica dbname={database}"

    def new_target(self, schema):
        """A database with a schema's empty tables."""
        return self.made(TABLES[schema].read_text().replace(", balance TEXT", ", balance NUMERIC(12, 2)"))

    def made(self, tables):
        """A database with tables, by their statements."""
        self.databases += 1
        name = f"replica{self.databases}"
        self.asked(f"psql:{self.words('postgres')}", f"CREATE DATABASE {name} TEMPLATE template0")
        target = f"psql:{self.words(name)}"
        self.asked(target, tables.strip().rstrip(";"))
        return target

    def asked(self, target, statement):
        """What a target answers, a row a line."""
        connection = psql.Connection(target.partition(":")[2])
        try:
            return connection.query(statement)
        finally:
            connection.close()

    def rows_of(self, target, place=None):
        """The rows of a target's tables, or its place."""
        names = set(self.asked(target, "SELECT relname FROM pg_class WHERE relkind = 'r'"))
        if place:
            kept = self.asked(target, f"SELECT place FROM {place}") if place in names else []
            return kept[0] if kept else ""
        query = "SELECT row_to_json(t) FROM (SELECT * FROM {}) AS t"
        rows = {table: self.asked(target, query.format(table)) for table in names & KEYS.keys()}
        return in_order({table: [json.loads(text) for text in rows[table]] for table in rows})


class OnPostgres(unittest.TestCase):
    """Tests that share a PostgreSQL server. They are skipped where there is none."""

    @classmethod
    def setUpClass(cls):
        """Starts the server."""
        super().setUpClass()
        if not HAS_POSTGRES:
            raise unittest.SkipTest("there is no PostgreSQL: postgres, initdb, pg_ctl and psql")
        cls.server = PostgresServer()
        cls.addClassCleanup(cls.server.stop)


def python_with_psycopg():
    """This Python, or the system's, if psycopg is there for it."""
    for python in filter(shutil.which, (sys.executable, "/usr/bin/python3")):
        if subprocess.run([python, "-c", "import psycopg"], capture_output=True, check=False).returncode == 0:
            return python
    return None
