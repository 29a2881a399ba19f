"""A replica that begins with a copy of the server's tables, and one that makes its tables itself.

The copy is of recorded answers of a MySQL 9.7.4, and the log is the one that this server wrote of the same rows (tests/snapshot/README.md).
"""
import contextlib
import io
import json
import shutil
import sqlite3
import sys
from unittest import TestCase, mock, skipUnless

import creating
import replica
from replicas import PostgresServer
from support import PROGRAM, FolderTest, without_beginning, without_hints
from test_snapshot import LOGS, TOKEN, Recorded, listed, locks

URL = "mysql://root@localhost/"
TABLES = ["beginnings", "bytes", "document", "invisible", "moments", 'na%me`"x', "names", "nokey", "numbers", "opaque"]


class CopyTest(FolderTest):
    """Runs the replica with recorded answers in place of a server."""

    def setUp(self):
        """The log has the name that the server said."""
        super().setUp()
        (self.folder / "binlog.000005").write_bytes(LOGS["made"].read_bytes())
        self.logs = f"{self.folder}/binlog.0*"

    def ran(self, target, *options, schema="made"):
        """The exit status of a replica, and what it said."""
        said = io.StringIO()
        words = ["replica", "--program", PROGRAM, *options, target, schema, self.logs]
        with contextlib.ExitStack() as stack:
            stack.enter_context(mock.patch("copying.Connection", Recorded))
            stack.enter_context(mock.patch.object(sys, "argv", words))
            stack.enter_context(mock.patch("signal.signal"))
            stack.enter_context(mock.patch("binlogfeed.begin.say_on_standard_error"))
            stack.enter_context(contextlib.redirect_stderr(said))
            status = replica.main()
        return status, without_hints(without_beginning(said.getvalue()))

    def in_sqlite(self, name):
        """The rows of all tables in a file of SQLite, and the place."""
        connection = sqlite3.connect(self.folder / name)
        with contextlib.closing(connection):
            names = [row[0] for row in connection.execute("SELECT name FROM sqlite_master WHERE type = 'table'")]
            rows = {it: sorted(map(repr, connection.execute('SELECT * FROM "{}"'.format(it.replace('"', '""'))))) for it in names}
        return {it: rows[it] for it in names if it != "binlogfeed_place"}, rows["binlogfeed_place"]

    def sqlite(self, name, statements=""):
        """A target in SQLite with some tables."""
        with contextlib.closing(sqlite3.connect(self.folder / name)) as connection:
            connection.executescript(statements)
        return f"sqlite:{self.folder / name}"


class Sqlite(CopyTest):
    """Copies in SQLite."""

    def test_a_copy_is_what_the_log_makes(self):
        """All tables of `made`: by their inserts in the log, and by a copy. Values are compared with the sign of zero."""
        self.assertEqual(self.ran(self.sqlite("log"), "--create"), (0, ""))
        status, said = self.ran(self.sqlite("copy"), "--create", "--from", URL)
        self.assertEqual(status, 0, said)
        self.assertRegex(said, rf"\Areplica: copied 874 rows of 10 tables, as they were at {TOKEN}; the lock on all tables was held for ")
        (log, _), (copy, place) = self.in_sqlite("log"), self.in_sqlite("copy")
        self.assertEqual(sorted(copy), TABLES)
        self.assertEqual(copy, log)
        self.assertIn("-0.0, -0.0, 1.1, 1.005", "".join(copy["numbers"]))
        self.assertIn(TOKEN, place[0])

    def test_a_copy_is_taken_once(self):
        target = self.sqlite("copy")
        self.assertEqual(self.ran(target, "--create", "--from", URL)[0], 0)
        self.assertEqual(self.ran(target, "--create", "--from", URL), (0, ""))

    def test_a_place_before_the_first_change(self):
        """A replica that waited has nothing that a copy would come behind."""
        target = self.sqlite("waited")
        self.assertEqual(self.ran(target, schema="none")[0], 2)
        place = '{"file": "binlog.000005", "begins": null, "token": null, "waits_for": ["made", ""]}'
        self.sqlite("waited", f"UPDATE binlogfeed_place SET place = '{place}'")
        self.assertEqual(self.ran(target, "--create", "--from", URL)[0], 0)
        self.assertEqual(self.in_sqlite("waited")[0].keys(), set(TABLES))

    def test_some_tables(self):
        for options in ((), ("--from", URL)):
            name = f"some{len(options)}"
            status, said = self.ran(self.sqlite(name), "--create", "--only-tables=opaque,nokey", *options)
            self.assertEqual((status, sorted(self.in_sqlite(name)[0])), (0, ["nokey", "opaque"]), said)

    def test_tables_that_no_log_and_no_server_knows(self):
        status, said = self.ran(self.sqlite("none"), "--create", "--only-tables=opak")
        self.assertEqual((status, said), (2, "replica: no log has a change of opak: mend the names, or begin with --begin now\n"))
        status, said = self.ran(self.sqlite("none"), "--create", "--only-tables=opak", "--from", URL)
        self.assertEqual((status, said), (2, "binlogfeed: the server has no table opak in made\n"))
        status, said = self.ran(self.sqlite("none"), "--create", "--from", URL, schema="mad")
        self.assertEqual((status, said.count("the server has no schema mad")), (2, 1))
        self.assertEqual(self.in_sqlite("none"), ({}, ["(1, '')"]))

    def test_tables_with_rows_are_refused(self):
        target = self.sqlite("full", "CREATE TABLE nokey (id INT); INSERT INTO nokey VALUES (7)")
        status, said = self.ran(target, "--from", URL, "--only-tables=nokey")
        self.assertEqual((status, said.count("nokey has rows already")), (7, 1))
        self.assertEqual(self.in_sqlite("full"), ({"nokey": ["(7,)"]}, ["(1, '')"]))

    def test_tables_are_made_where_that_is_wanted(self):
        status, said = self.ran(self.sqlite("bare"), "--from", URL, "--only-tables=nokey")
        self.assertEqual((status, said.count("the target has no table nokey")), (7, 1))
        status, said = self.ran(self.sqlite("bare"), "--only-tables=nokey")
        self.assertEqual((status, said.count("the target has no table nokey")), (7, 1))

    def test_another_snapshot_is_waited_for(self):
        kind, _ = listed({"GET_LOCK": locks([b"0", b"1"])})
        with mock.patch("test_replica_copy.Recorded", kind):
            status, said = self.ran(self.sqlite("copy"), "--create", "--only-tables=nokey", "--from", URL)
        self.assertEqual((status, said.count("\n")), (0, 2), said)
        self.assertTrue(said.startswith("replica: another snapshot reads its rows: waiting for its end, for 86,400 seconds at most\n"))

    def test_an_error_leaves_nothing(self):
        class Failing(Recorded):
            """A server that gives some rows."""

            def stream(self, statement):
                """Gives some, and ends."""
                yield self.ask(statement)[:3]
                raise MemoryError

        target = self.sqlite("none")
        with mock.patch("test_replica_copy.Recorded", Failing):
            self.assertEqual(self.ran(target, "--create", "--from", URL)[0], 5)
        self.assertEqual(self.in_sqlite("none"), ({}, ["(1, '')"]))


@skipUnless(shutil.which("initdb") and shutil.which("pg_ctl"), "there is no PostgreSQL (apt-get install postgresql)")
class Postgres(CopyTest):
    """Copies in PostgreSQL."""

    def test_a_copy_is_what_the_log_makes(self):
        """All tables but those with what PostgreSQL can't hold: days that are none, and zero bytes in texts."""
        server = PostgresServer()
        self.addCleanup(server.stop)
        held = [name for name in TABLES if name not in ("moments", "bytes", "document")]
        kept = f"--only-tables={','.join(held)}"
        rows = []
        for options in ((), ("--from", URL)):
            target = server.made("SELECT 1")
            status, said = self.ran(target, "--create", kept, *options)
            self.assertEqual(status, 0, said)
            query = "SELECT row_to_json(t)::text FROM {} AS t"
            names = ['"' + name.replace('"', '""') + '"' for name in held]
            rows.append({name: sorted(server.asked(target, query.format(name))) for name in names})
        self.assertEqual(rows[1], rows[0])
        self.assertEqual(sum(map(len, rows[1].values())), 874 - 2 - 256 - 19)
        self.assertEqual(json.loads(rows[1]['"opaque"'][0]), {"id": 1, "y": 2024, "b": "100101100"})


class Types(TestCase):
    """Types of tables that are made."""

    def test_types(self):
        """The log's type, with those of SQLite and PostgreSQL, by the replica's README."""
        for log, lite, postgres in (
            ("tinyint unsigned", "INTEGER", "smallint"), ("smallint unsigned", "INTEGER", "integer"), ("mediumint", "INTEGER", "integer"),
            ("int unsigned", "INTEGER", "bigint"), ("bigint", "INTEGER", "bigint"), ("bigint unsigned", "", "numeric(20)"),
            ("bit(9)", "INTEGER", "bit(9)"), ("bit(64)", "", "bit(64)"), ("decimal(8,2) unsigned", "TEXT", "numeric(8,2)"),
            ("float unsigned", "", "real"), ("double", "", "double precision"), ("varchar latin1", "TEXT", "text"),
            ("varchar", "TEXT", "bytea"), ("enum binary", "TEXT", "bytea"), ("binary(4)", "BLOB", "bytea"), ("json", "TEXT", "json"),
            ("date", "TEXT", "date"), ("datetime", "TEXT", "timestamp(0)"), ("timestamp(3)", "TEXT", "timestamptz(3)"),
            ("time(6)", "TEXT", "interval(6)"), ("year", "INTEGER", "smallint"), ("set gbk", "TEXT", "text"),
        ):  # fmt: skip
            self.assertEqual((creating.sqlite_type(log), creating.postgres_type(log)), (lite, postgres), log)

    def test_a_statement(self):
        made = creating.statement("t", [("a", "int"), ("b", "date")], ["b", "a"], creating.postgres_type, lambda name: f'"{name}"')
        self.assertEqual(made, 'CREATE TABLE "t" ("a" integer NOT NULL, "b" date NOT NULL, PRIMARY KEY ("b", "a"))')

    def test_alterations(self):
        """Statements that make the columns that are there those of the log."""
        def made(columns, there):
            return creating.alterations("t", columns, there, creating.postgres_type, lambda name: f'"{name}"')

        self.assertEqual(made([("a", "int"), ("b", "date")], ["b", "a"]), [])
        added = ['ALTER TABLE "t" ADD COLUMN "b" date', 'ALTER TABLE "t" ADD COLUMN "c" numeric(8,2)']
        self.assertEqual(made([("a", "int"), ("b", "date"), ("c", "decimal(8,2)")], ["a"]), added)
        self.assertEqual(made([("a", "int")], ["a", "b", "c"]), [f'ALTER TABLE "t" DROP COLUMN "{name}"' for name in "bc"])
        either = 'or, if it wasn\'t renamed: ALTER TABLE "t" ADD COLUMN "b" integer; ALTER TABLE "t" DROP COLUMN "a"'
        self.assertEqual(made([("b", "int")], ["a"]), ['ALTER TABLE "t" RENAME COLUMN "a" TO "b"', either])
