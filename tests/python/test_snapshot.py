"""The first copy of the tables: lines of a snapshot, by what a MySQL 9.7.4 answered (tests/snapshot/README.md says how it was recorded)."""
import contextlib
import importlib.util
import io
import json
import os
import re
import select
import subprocess
import sys
from unittest import TestCase, mock, skipIf

from binlogfeed import BinlogfeedError, Place, WordsRefused
from binlogfeed.__main__ import main
from binlogfeed.access import Settings, connected, of_url, settings_of
from binlogfeed.floats import text_of_float
from binlogfeed.follow import read_state, write_state
from binlogfeed.snapshot import server, texts
from binlogfeed.snapshot.documents import document
from binlogfeed.snapshot.rows import WHOLE, Lines, Range, Reading, parts_of, reading_of
from binlogfeed.snapshot.server import Moment, ServerFault, row_of
from binlogfeed.snapshot.tables import Table, Told, tables_of, told_column
from support import PROGRAM, SECONDS, TOP, FolderTest

RECORDED = TOP / "tests/snapshot/answers.jsonl"
# Two schemas, and where the log has the inserts of each.
LOGS = {"truth": TOP / "tests/truth/binlog.000001", "made": TOP / "tests/snapshot/binlog.000001"}
# The members of a line that say when and where it was.
OF_LOG = re.compile(r'"committed":\d+,|,"timestamp":\d+,"token":"[^"]*"|(?<="gtid":)"[^"]*"')
OF_SNAPSHOT = re.compile(r'"snapshot":true,|,"timestamp":\d+,"token":"[^"]*"|(?<="gtid":)null')
# What the server said of its log when the answers were recorded.
TOKEN = "25899.0@binlog.000005"
# What has who writes wait.
FREEZE = "FLUSH TABLES WITH READ LOCK"


class Recorded:
    """A connection that answers as the server did."""

    answers = {}

    def __init__(self, address=None):
        """Reads the answers."""
        self.asked = []
        if not self.answers:
            for line in RECORDED.read_text(encoding="utf-8").split("\n")[:-1]:
                told = json.loads(line)
                rows = [tuple(None if it is None else it.encode("latin1") for it in row) for row in told["rows"]]
                self.answers[told["statement"]] = rows

    def ask(self, statement):
        """The answer to a statement. Of those to the same one it is the last: the lock was free then."""
        self.asked.append(statement)
        return self.answers[statement]

    def stream(self, statement):
        """The same, some rows at a time."""
        rows = self.ask(statement)
        for at in range(0, len(rows), 5):
            yield rows[at : at + 5]

    def close(self):
        """Ends it."""
        self.asked.append("close")


def listed(others=None):
    """A kind of connections with recorded answers, and the list of those that are made.

    `others` answer statements that have these words, in place of what is recorded.
    """
    made = []

    class Listed(Recorded):
        """A connection that is looked at afterwards."""

        def __init__(self, address):
            """Keeps it."""
            super().__init__(address)
            made.append(self)

        def ask(self, statement):
            """Answers a statement."""
            for words, answer in (others or {}).items():
                if words in statement:
                    self.asked.append(statement)
                    return answer()
            return super().ask(statement)

    return Listed, made


def locks(answers):
    """What answers who asks for the lock: each time by the next of these, and where that is an exception, it is raised."""
    return mock.Mock(side_effect=[it if isinstance(it, Exception) else [(it,)] for it in answers])


def inserts(schema):
    """The lines of the inserts of a schema, by its log, without what says when and where they were made."""
    command = [PROGRAM, "read", "--full", f"--only-schemas={schema}", "--only-events=insert", str(LOGS[schema])]
    lines = subprocess.run(command, capture_output=True, check=True).stdout.decode().split("\n")[:-1]
    return sorted(OF_LOG.sub("", line) for line in lines)


def without_place(lines):
    """Lines of a snapshot, without what says when and where they were made."""
    return sorted(OF_SNAPSHOT.sub("", line) for line in lines)


class CommandTest(FolderTest):
    """Runs the command with recorded answers in place of a server."""

    def ran(self, *words, connection=Recorded):
        """The exit status of a snapshot, its lines, and what it said."""
        out, said = self.folder / "out", io.StringIO()
        with contextlib.ExitStack() as stack:
            stack.enter_context(mock.patch("binlogfeed.snapshot.command.Connection", connection))
            stack.enter_context(mock.patch.object(sys, "argv", ["binlogfeed", "snapshot", *words]))
            stack.enter_context(contextlib.redirect_stdout(stack.enter_context(open(out, "w", encoding="utf-8"))))
            stack.enter_context(contextlib.redirect_stderr(said))
            status = main()
        return status, out.read_text(encoding="utf-8").split("\n")[:-1], said.getvalue()


class Whole(CommandTest):
    """Whole snapshots."""

    def test_lines_are_those_of_the_log(self):
        """All types and character sets: 720 rows of `truth`, and the edges of numbers, documents, names, moments and keys in `made`."""
        for schema, count in (("truth", 720), ("made", 874)):
            status, lines, said = self.ran(schema)
            self.assertEqual((status, len(lines)), (0, count), said)
            self.assertEqual(without_place(lines), inserts(schema))

    def test_members(self):
        _, lines, said = self.ran("made", "--only-tables=beginnings")
        self.assertEqual(len(lines), 2)
        for line in lines:
            members = json.loads(line)
            self.assertIs(members["snapshot"], True)
            self.assertEqual((members["token"], members["kind"], members["before"]), (TOKEN, "insert", None))
            self.assertEqual(list(members)[-4:], ["snapshot", "table", "timestamp", "token"])
        first = rf"\Abinlogfeed: the tables as they are at {TOKEN}; the lock on all tables was held for \d\.\d{{3}} seconds\n"
        self.assertRegex(said, first)
        self.assertTrue(said.endswith("binlogfeed: 2 rows of 1 table\n"))

    def test_the_state_goes_on_behind_it(self):
        state = self.folder / "state"
        status, lines, said = self.ran("--state", str(state), "made", "--only-tables=opaque,nokey")
        self.assertEqual((status, len(lines)), (0, 3), said)
        self.assertEqual(read_state(state), Place("binlog.000005", None, TOKEN))

    def test_a_state_that_is_there_is_not_written_over(self):
        state = self.folder / "state"
        write_state(state, Place("binlog.000001", None, "4.0@binlog.000001"))
        status, lines, said = self.ran("--state", str(state), "made")
        self.assertEqual((status, lines, said.count("keeps a place already")), (2, [], 1))
        self.assertEqual(read_state(state).file, "binlog.000001")

    def test_a_snapshot_that_fails_keeps_no_state(self):
        class Failing(Recorded):
            """A server that ends amid the rows."""

            def stream(self, statement):
                """Gives some rows."""
                yield self.ask(statement)[:1]
                raise ServerFault("binlogfeed: the server: gone (2013)", 2013)

        state = self.folder / "state"
        status, lines, said = self.ran("--state", str(state), "made", "--only-tables=bytes", connection=Failing)
        self.assertEqual((status, len(lines)), (4, 0))
        self.assertIn("binlogfeed: the server: gone (2013)\n", said)
        self.assertFalse(state.exists())

    def test_the_statements_of_the_moment_stand_within_the_lock(self):
        kind, made = listed()
        self.ran("made", "--only-tables=nokey", connection=kind)
        (connection,) = made
        begin = connection.asked.index("FLUSH TABLES WITH READ LOCK")
        transaction = "START TRANSACTION WITH CONSISTENT SNAPSHOT, READ ONLY"
        within = ["SHOW BINARY LOG STATUS", "SELECT UNIX_TIMESTAMP()", "UNLOCK TABLES"]
        self.assertEqual(connection.asked[begin + 1 : begin + 5], [transaction, *within])
        self.assertEqual(connection.asked[-1], "close")

    def test_several_processes_write_each_row_once(self):
        status, lines, said = self.ran("--jobs=3", "made", "truth")
        self.assertEqual((status, len(lines)), (0, 874 + 720), said)
        self.assertEqual(without_place(lines), sorted(inserts("made") + inserts("truth")))

    def test_a_fault_of_one_of_several_processes_ends_all(self):
        class Failing(Recorded):
            """A server that refuses a table."""

            def stream(self, statement):
                """Refuses it."""
                if "`nokey`" in statement:
                    raise ServerFault("binlogfeed: the server: altered (1412)", 1412)
                yield from super().stream(statement)

        status, _, said = self.ran("--jobs=2", "made", connection=Failing)
        self.assertEqual((status, said.count("altered (1412)")), (4, 1))

    def test_no_process_outlives_the_first(self):
        """Not even where nobody takes their lines. Standard error ends once none of them runs."""
        makes = "import sys, test_snapshot as it; it.mock.patch('binlogfeed.snapshot.command.Connection', it.Recorded).start()"
        command = [sys.executable, "-c", f"{makes}; sys.exit(it.main())", "snapshot", "--jobs=3", "truth", "made"]
        paths = os.pathsep.join(map(str, (TOP / "tests/python", TOP / "python")))
        taken, given = os.pipe()
        self.addCleanup(os.close, taken)
        self.addCleanup(os.close, given)
        pipes = {"stdout": given, "stderr": subprocess.PIPE, "env": {**os.environ, "PYTHONPATH": paths}}
        with subprocess.Popen(command, **pipes) as process:
            process.stderr.readline()
            self.soon(lambda: not select.select([], [given], [], 0)[1], "the pipe isn't full")
            process.kill()
            self.assertTrue(select.select([process.stderr], [], [], SECONDS)[0])
            self.assertEqual(process.stderr.read(), b"")


class Another(CommandTest):
    """Another snapshot that reads its rows."""

    def behind(self, answers, *words):
        """A snapshot where the server gives these answers to who asks for the lock; and its locks up to that which has all wait, with it.

        It has to ask for all of the answers.
        """
        lock = locks(answers)
        kind, made = listed({"GET_LOCK": lock})
        status, lines, said = self.ran("made", "--only-tables=nokey", *words, connection=kind)
        self.assertEqual(lock.call_count, len(answers))
        asked = made[0].asked[1:]
        end = asked.index(FREEZE) + 1 if FREEZE in asked else None
        return status, len(lines), said, [it for it in asked[:end] if "LOCK" in it]

    def test_what_a_server_answers(self):
        """The same as the answers here: while another snapshot read, for a second, and behind it."""
        self.ran("made", "--only-tables=nokey")
        answers = [Recorded.answers[f"SELECT GET_LOCK('binlogfeed.snapshot', {seconds})"] for seconds in (1, 0)]
        self.assertEqual(answers, [[(b"0",)], [(b"1",)]])

    def test_it_is_waited_for(self):
        """That is said once, and nobody else has to wait meanwhile. NULL is an error, by MySQL's manual."""
        waits = "binlogfeed: another snapshot reads its rows: waiting for its end, for {} at most\n"
        for answers, words, told, asks in (
            ([b"1"], (), "", (0,)), ([b"0", b"1"], (), waits.format("86,400 seconds"), (0, 10)),
            ([b"0", b"1"], ("--wait=1",), waits.format("1 second"), (0, 1)),
            ([b"0", b"0", b"1"], ("--wait=25",), waits.format("25 seconds"), (0, 10, 10)),
            ([b"0", None, b"0", b"1"], ("--wait=24.5",), waits.format("25 seconds"), (0, 10, 10, 5)),
        ):  # fmt: skip
            status, lines, said, asked = self.behind(answers, *words)
            self.assertEqual((status, lines), (0, 2))
            self.assertEqual(asked, [*(f"SELECT GET_LOCK('binlogfeed.snapshot', {seconds})" for seconds in asks), FREEZE])
            self.assertTrue(said.startswith(f"{told}binlogfeed: the tables as they are at "), said)

    def test_for_so_long(self):
        """Then it ends, and has had nobody wait."""
        last = "binlogfeed: another snapshot reads its rows\nhint: begin this one behind it, or take all schemas by one\n"
        for answers, wait in (([b"0"], "0"), ([b"0", b"0"], "0.5"), ([b"0"] * 4, "30")):
            status, lines, said, asked = self.behind(answers, f"--wait={wait}")
            self.assertEqual((status, lines), (4, 0))
            self.assertTrue(said.endswith(last), said)
            self.assertEqual((said.count("waiting for its end"), FREEZE in asked), (int(wait != "0"), False))
        for word in ("-1", "long", "nan"):
            with self.assertRaises(SystemExit), contextlib.redirect_stderr(io.StringIO()):
                self.ran("made", "--wait", word)

    def test_what_it_lacks_is_told_before(self):
        """Rights, as a MySQL 9.7.4 says it of a user without them, and a log that the server writes. Nobody waits, or has to wait."""
        denied = "binlogfeed: the server: Access denied; you need (at least one of) the {} privilege(s) for this operation (1227)"
        flush, reload = "FLUSH LOCAL TABLES `binlogfeed`.`snapshot`", denied.format("RELOAD or FLUSH_TABLES")
        status, client = "SHOW BINARY LOG STATUS", denied.format("SUPER, REPLICATION CLIENT")
        for statement, answer, line in (
            (flush, ServerFault(reload, 1227), reload), (status, ServerFault(client, 1227), client),
            (status, [], "binlogfeed: the server writes no binary log (log_bin is OFF)"),
        ):  # fmt: skip
            kind, made = listed({statement: mock.Mock(side_effect=[answer])})
            self.assertEqual(self.ran("made", connection=kind), (4, [], f"{line}\n"))
            self.assertNotIn("LOCK", "".join(made[0].asked))

    def test_a_connection_that_ends_meanwhile(self):
        """As a MySQL 9.7.4 says it where it is killed, where its statement is, and where the server is shut down."""
        for said_of_it, number in (("Lost connection to MySQL server during query", 2013), ("Query execution was interrupted", 1317)):
            line = f"binlogfeed: the server: {said_of_it} ({number})"
            status, lines, said, asked = self.behind([b"0", b"0", ServerFault(line, number)])
            self.assertEqual((status, lines, len(asked), said.splitlines()[1:]), (4, 0, 3, [line]))

    def test_no_connection_stands_idle_meanwhile(self):
        """Those of other processes are made behind it: a server or a network ends one that stands idle."""
        counts = []

        def lock():
            """Notes how many connections there are. The second answer has the lock."""
            counts.append(len(made))
            return [(b"%d" % (len(counts) - 1),)]

        kind, made = listed({"GET_LOCK": lock})
        status, lines, said = self.ran("--jobs=3", "made", "--only-tables=nokey", connection=kind)
        self.assertEqual((status, len(lines), counts, len(made)), (0, 2, [1, 1], 3), said)


class Refused(CommandTest):
    """Words that are wrong."""

    def test_a_schema_that_is_not_there(self):
        status, lines, said = self.ran("mad")
        self.assertEqual((status, lines), (2, []))
        self.assertRegex(said, r"\Abinlogfeed: the server has no schema mad: it shows .*made.*truth\n\Z")

    def test_a_table_that_is_not_there(self):
        status, lines, said = self.ran("made", "--only-tables=nokey,nokay")
        self.assertEqual((status, lines), (2, []))
        self.assertTrue(said.endswith("binlogfeed: the server has no table nokay in made\n"))

    def test_urls(self):
        self.assertEqual(of_url("mysql://a%20b@db.example:3307/"), {"user": "a b", "host": "db.example", "port": 3307})
        self.assertEqual(settings_of({"port": 33, "user": "u", **of_url("mysql://db")}).place, "db:33")
        self.assertEqual(of_url("mysql://u@localhost/?socket=/run/my%20s")["socket"], "/run/my s")
        for url in ("mysql:///", "mysql://u@h:0/", "mysql://u@h:x/", "mysql://u@h/shop", "mysql://u@h/?a=1"):
            with self.assertRaisesRegex(WordsRefused, r"mysql://USER@HOST:PORT/ is wanted"):
                of_url(url)
        with self.assertRaisesRegex(WordsRefused, "MYSQL_PWD") as refused:
            of_url("mysql://u:secret@h/")
        self.assertNotIn("secret", str(refused.exception))

    def test_option_file(self):
        """It goes before the environment, and behind the words, as with MySQL's own programs."""
        path = self.put("my.cnf", b"[client]\npassword=kept\nuser=kept\nsocket=/run/s\n")
        with mock.patch.dict("os.environ", {"MYSQL_PWD": "the environment's"}):
            found = settings_of({"defaults_file": str(path), "user": "given"})
            self.assertEqual((found.user, found.password, found.place), ("given", "kept", "/run/s"))
            self.assertEqual(settings_of({"user": "given"}).password, "the environment's")
        path = self.put("my.cnf", b"[client]\nport=0\n")
        self.assertEqual(settings_of({"defaults_file": str(path)}).port, 3306)
        for port in ("65536", "-1", "x"):
            path = self.put("my.cnf", f"[client]\nport={port}\n".encode())
            with self.assertRaises(WordsRefused) as refused:
                settings_of({"defaults_file": str(path)})
            self.assertEqual(refused.exception.line, f"binlogfeed: {path}: {port!r} is no port")

    def test_encryption(self):
        """By an authority a connection that isn't encrypted is refused. A socket needs none."""
        with mock.patch("ssl.create_default_context") as context:
            for settings, is_asked in ((Settings("h", 1, "u", ""), True), (Settings("h", 1, "u", "", None, "/run/s"), False)):
                client = FakeClient()
                connected(client, settings)
                self.assertEqual("ssl" in client.did[0], is_asked)
            client = mock.Mock()
            with self.assertRaisesRegex(WordsRefused, "h doesn't encrypt"):
                connected(client, Settings("h", 1, "u", "", "ca.pem"))
            context.assert_called_with(cafile="ca.pem")
            client.connect.return_value._force_close.assert_called_once_with()

    def test_without_a_schema(self):
        status, _, said = self.ran("mysql://u@h/")
        self.assertEqual((status, said), (2, "binlogfeed: no schema is named\n"))

    @skipIf(importlib.util.find_spec("pymysql"), "this Python has PyMySQL")
    def test_without_pymysql(self):
        status, _, said = self.ran("made", connection=server.Connection)
        self.assertEqual((status, said.count("apt-get install python3-pymysql")), (2, 1))

    def test_other_engines(self):
        class Old(Recorded):
            """A server whose tables are of another engine."""

            def ask(self, statement):
                """Names it."""
                rows = super().ask(statement)
                return [(row[0], b"MyISAM", row[2]) for row in rows] if "ENGINE" in statement else rows

        status, lines, said = self.ran("made", "--only-tables=nokey", connection=Old)
        self.assertEqual((status, lines), (2, []))
        self.assertIn("made.nokey has the engine MyISAM", said)


class FakeClient:
    """What a snapshot takes of PyMySQL, with packets of rows that a server's socket would give."""

    class Error(Exception):
        """An error of the server."""

    def __init__(self, packets=(), refused=()):
        """These packets answer each statement, but for those that are refused: a part of each, with its number and text."""
        self.cursors = mock.Mock(SSCursor="SSCursor")
        self.packets, self.refused = packets, dict(refused)
        # The server's log and how long it is, or None where it writes none.
        self.log = (b"binlog.000001", b"157")
        self.did = []

    def connect(self, **words):
        """Connects."""
        self.did.append(words)
        return self

    def cursor(self, kind=None):
        """A cursor, which is this, too."""
        self._result = mock.Mock(unbuffered_active=True, _read_row_from_packet=None)
        self.left = list(self.packets)
        return self

    def __enter__(self):
        """The cursor."""
        return self

    def __exit__(self, *error):
        """Ends it."""

    def execute(self, statement):
        """Answers, or refuses."""
        self.did.append(statement)
        for part, error in self.refused.items():
            if part in statement:
                raise self.Error(*error)

    def fetchall(self):
        """A time or the log, where one is asked for, and else no rows."""
        if "UNIX_TIMESTAMP" in self.did[-1]:
            return [(b"1",)]
        return [self.log] if self.log and "STATUS" in self.did[-1] else []

    def fetchmany(self, count):
        """The next row."""
        rows = [self._result._read_row_from_packet(mock.Mock(get_all_data=lambda it=it: it)) for it in self.left[:1]]
        del self.left[:1]
        return rows

    def close(self):
        """Ends the cursor or the connection."""
        self.did.append(f"close {self._result.unbuffered_active}")


class Connections(TestCase):
    """Connections, with a client that stands in for PyMySQL."""

    def connected(self, client):
        """A connection."""
        with mock.patch("binlogfeed.snapshot.server.driver", lambda: client):
            return server.Connection(Settings("h", 3306, "u", "secret"))

    def test_rows_come_as_bytes(self):
        client = FakeClient([b"\x01a\xfb", b"\xfb\x00"])
        connection = self.connected(client)
        self.assertEqual(list(connection.stream("SELECT 1")), [[(b"a", None)], [(None, b"")]])
        words = client.did[0]
        wanted = {"host": "h", "user": "u", "password": "secret", "conv": {}, "use_unicode": False}
        self.assertEqual({name: words[name] for name in wanted}, wanted)
        self.assertIn("time_zone = '+00:00'", client.did[1])
        self.assertEqual(client.did[-1], "close True")

    def test_who_stops_early_reads_no_more(self):
        """PyMySQL would read all rows that are left."""
        client = FakeClient([b"\x01a"] * 9)
        rows = self.connected(client).stream("SELECT 1")
        next(rows)
        rows.close()
        self.assertEqual((client.did[-1], len(client.left)), ("close False", 8))

    def test_what_the_server_refuses(self):
        for number, hint in ((1045, "MYSQL_PWD"), (1227, "RELOAD and REPLICATION CLIENT"), (1205, "try again"), (9, "")):
            connection = self.connected(FakeClient(refused={"FLUSH": (number, "no")}))
            for asks in (server.check_can_freeze, lambda it: server.frozen([it])):
                with self.assertRaises(ServerFault) as refused:
                    asks(connection)
                found = refused.exception
                self.assertEqual((found.status, found.number), (4, number))
                self.assertEqual((found.line, hint in "".join(found.hints)), (f"binlogfeed: the server: no ({number})", True))

    def test_older_servers(self):
        """They know another statement alone. Without an answer it says that a server writes no log, which needs no lock to be seen."""
        client = FakeClient(refused={"BINARY LOG STATUS": (1064, "syntax")})
        moment = server.frozen([self.connected(client)])
        self.assertEqual(client.did[-3:], ["SHOW MASTER STATUS", "SELECT UNIX_TIMESTAMP()", "UNLOCK TABLES"])
        self.assertEqual((moment.token, moment.timestamp), ("157.0@binlog.000001", 1))
        client.log = None
        with self.assertRaisesRegex(ServerFault, "log_bin is OFF"):
            server.frozen([self.connected(client)])
        self.assertEqual(client.did[-2:], ["SHOW BINARY LOG STATUS", "SHOW MASTER STATUS"])


class Parts(TestCase):
    """Parts of what a snapshot does, by values worked out by hand."""

    def test_documents(self):
        for text, wanted in (
            ('{"a": 1, "b": [1, 2]}', '{"a":1,"b":[1,2]}'),
            ('["a, b: c", "\\", ", {"x: ": null}]', '["a, b: c","\\", ",{"x: ":null}]'),
            ("[1e22, -1.5e300, 1e-7, 0.00001, 0.0001, -0.0, 1.0]", "[1e+22,-1.5e+300,1e-07,1e-05,0.0001,-0.0,1.0]"),
            ("[1.50, 12345678901234567890.5, 100000000000000000.0, 0.00]", "[1.50,12345678901234567890.5,100000000000000000.0,0.00]"),
            ("[0.0000100]", "[0.0000100]"),
            ('["base64:type16:ASw=", "base64:type252:YW\\nI="]', '[{"base64":"ASw=","type":16},{"base64":"YWI=","type":252}]'),
            ('{"base64:type16:ASw=": "base64:type16:ASw"}', '{"base64:type16:ASw=":"base64:type16:ASw"}'),
            ('"2024-01-02 03:04:05.000000"', '"2024-01-02 03:04:05.000000"'),
        ):
            self.assertEqual(document(text), wanted)

    def test_floats(self):
        """2^-24 and 2^87 are FLOATs whose neighbours below are closer: the nearest decimal of so many digits may be none of theirs."""
        exactly = (
            *((0.10000000149011612, "0.1"), (3.3999999521443642e38, "3.4e+38"), (16777216.0, "16777216.0"), (0.0, "0.0"), (-0.0, "-0.0")),
            *((1.401298464324817e-45, "1e-45"), (1.1754943508222875e-38, "1.1754944e-38"), (-1.5, "-1.5"), (8589934592.0, "8589935000.0")),
            *((9.999999747378752e-06, "1e-05"), (2.0**-24, "5.9604645e-08"), (2.0**87, "1.5474251e+26")),
            (3.4028234663852886e38, "3.4028235e+38"),
        )
        for value, wanted in exactly:
            self.assertEqual(text_of_float(value), wanted)

    def test_vectors(self):
        """A server gives the bytes of a VECTOR. Those that are no numbers stay bytes."""
        for raw, wanted in (
            ("0000803f00002040000040c0", b"[1.0,2.5,-3.0]"), ("cdcccc3d00000080", b"[0.1,-0.0]"), ("", b"[]"),
            ("0000803f00", b'{"raw":"AACAPwA="}'), ("0000803f0000807f", b'{"raw":"AACAPwAAgH8="}'),
        ):  # fmt: skip
            self.assertEqual(texts.vector(bytes.fromhex(raw)), wanted)
        column = told_column("s.t", (b"s", b"t", b"v", b"vector", b"vector(3)", b"12", None, None, None, None))
        self.assertEqual(column, Told("v", "vector", "vector(3)"))
        self.assertEqual(reading_of(column, {}), Reading("`v`", texts.vector))

    def test_rows_of_packets(self):
        class Packet:
            """A packet of a row."""

            def __init__(self, data):
                """Its bytes."""
                self.get_all_data = lambda: data

        long, longer = b"x" * 251, b"y" * 70000
        data = b"\x01a\xfb\x00\xfc\xfb\x00" + long + b"\xfd\x70\x11\x01" + longer + b"\xfe\x01" + bytes(7) + b"z"
        self.assertEqual(row_of(Packet(data)), (b"a", None, b"", long, longer, b"z"))

    def test_parts_have_each_number_once(self):
        table = Table("s", "t", (Told("id", "int", "int"),), ("id",), False, 10)
        for least, greatest, count in ((-5, 5, 3), (1, 1, 4), (0, 100, 7), (1, 2, 5)):
            connection = mock.Mock(ask=lambda statement, it=(least, greatest): [tuple(b"%d" % number for number in it)])
            parts = parts_of(connection, table, count)
            self.assertLessEqual(len(parts), count)
            self.assertEqual((parts[0].least, parts[-1].end), (None, None))
            self.assertEqual([part.end for part in parts[:-1]], [part.least for part in parts[1:]])
        self.assertEqual(parts_of(mock.Mock(ask=lambda statement: [(None, None)]), table, 3), [WHOLE])
        self.assertEqual(parts_of(mock.Mock(), table._replace(key=()), 3), [WHOLE])

    def test_statements(self):
        columns = (Told("b`x", "float", "float"), Told("a", "int", "int unsigned", None, True), Told("t", "timestamp", "timestamp"))
        lines = Lines(Table("s", "t", columns, ("a", "b`x"), False, 0), Moment("f", 4, 0, 0.0), {})
        asked = "SELECT CAST(`a` AS UNSIGNED), `b``x` * 1e0, UNIX_TIMESTAMP(`t`) FROM `s`.`t` FORCE INDEX (PRIMARY)"
        self.assertEqual(lines.statement(), f"{asked} ORDER BY `a`, `b``x`")
        self.assertEqual(lines.statement(Range(3, 7)), f"{asked} WHERE `a` >= 3 AND `a` < 7 ORDER BY `a`, `b``x`")

    def test_texts_that_are_none(self):
        """Latin1's gap 81 is a character, cp1250's is none: what the server makes of all bytes says so."""
        characters = {"cp1250": texts.told_characters("".join(map(chr, range(128))).encode() + b"?" * 128)}
        self.assertEqual(texts.text("latin1", {})(b"\x80\x81"), '"€\x81"'.encode())
        self.assertEqual(texts.text("cp1250", characters)(b"a?"), b'"a?"')
        self.assertEqual(texts.text("cp1250", characters)(b"a\x81"), b'{"base64":"YYE=","charset":"cp1250"}')
        self.assertEqual(texts.text("utf8mb4", {})(b"\xff"), b'{"base64":"/w==","charset":"utf8mb4"}')
        self.assertEqual(texts.text("utf16", {})(b"\xd8\x00"), b'{"base64":"2AA=","charset":"utf16"}')
        self.assertEqual(texts.text("utf8mb4", {})(b'"\x1f\n\\\x7f'), b'"\\"\\u001f\\n\\\\\x7f"')

    def test_types_that_are_not_read(self):
        row = [b"s", b"t", b"v", b"xml", b"xml(3)", b"12", None, None, None, None]
        connection = mock.Mock()
        connection.ask.side_effect = [[(b"s",)], [(b"t", b"InnoDB", b"0")], [row], []]
        with self.assertRaisesRegex(BinlogfeedError, r"s\.t\.v has the type xml\(3\), which isn't read"):
            tables_of(connection, ["s"])
