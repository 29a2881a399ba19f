"""The replica in PostgreSQL, by psql, and by psycopg where that is installed."""
import json
import sys
import unittest

import postgres
import psql
import targets
from replicas import (
    SHOP_ROWS,
    Kills,
    LinesTest,
    OnPostgres,
    ended,
    full_line,
    in_order,
    python_with_psycopg,
    started,
)
from support import bank_rows

# How often the replica is killed while it works: by each client, without and with batches over several transactions.
KILLS = {"psql": [(16, ()), (12, ("--commit-every", "20"))], "psycopg": [(8, ()), (8, ("--commit-every", "20"))]}
TYPES = {"id": "int", "v": "varchar utf8mb4"}
TABLE = "CREATE TABLE t (id integer PRIMARY KEY, v text)"


class Postgres(OnPostgres, LinesTest):
    """The replica in PostgreSQL."""

    @classmethod
    def setUpClass(cls):
        """Starts the server, and looks for the clients."""
        super().setUpClass()
        cls.clients = {"psql": sys.executable}
        python = python_with_psycopg()
        if python:
            cls.clients["psycopg"] = python
        else:
            print("skipped: the replica by psycopg: there is none (apt-get install python3-psycopg)")

    def rows_of(self, target, place=None):
        """The rows, with the balance, which is a number here, as the log spells it."""
        rows = self.server.rows_of(target.replace("psycopg:", "psql:"), place)
        if not place:
            for row in rows.get("account", []):
                row["balance"] = f"{row['balance']:.2f}"
        return rows

    def count(self, target):
        """How many rows the table has."""
        return self.server.asked(target.replace("psycopg:", "psql:"), "SELECT count(*) FROM t")

    def in_clients(self, tables):
        """For each client, a new target with tables, and the Python that has the client."""
        return [(self.made(tables, client), {"python": python}) for client, python in self.clients.items()]

    def made(self, tables, client):
        """A target with tables, for a client."""
        return self.server.made(tables).replace("psql:", f"{client}:")

    def test_shop_and_bank(self):
        for client, python in self.clients.items():
            for options in ((), ("--commit-every", "50")):
                for schema, wanted in (("shop", SHOP_ROWS), ("bank", in_order(bank_rows()))):
                    target = self.server.new_target(schema).replace("psql:", f"{client}:")
                    for _ in range(2):
                        self.assertEqual(ended(target, schema, *options, python=python), (0, ""))
                        self.assertEqual(self.rows_of(target), wanted)

    def killed(self, client):
        """Kills the replica by a client."""
        for count, options in KILLS[client]:

            def new_target():
                """An empty target."""
                return self.server.new_target("bank").replace("psql:", f"{client}:")

            kills = Kills("bank", count, new_target, self.rows_of, options)
            kills.run()
            kills.judge(self)

    def test_killed(self):
        self.killed("psql")

    @unittest.skipUnless(postgres.psycopg, "this Python has no psycopg")
    def test_killed_with_psycopg(self):
        self.killed("psycopg")

    def test_misfits(self):
        """A change that doesn't fit is named, those before it stand, and nothing of its transaction does."""

        def line(number, before, after):
            """A line of a change between values of a row."""
            images = [value and {"id": id_, "v": value} for id_, value in (before, after)]
            return full_line(number, "t", *images, TYPES)

        lines = [line((n, 1), (n, None), (n, "new")) for n in range(1, 70)]
        bad = {
            "update": (line((80, 1), (99, "new"), (99, "x")), "changed 0 rows in place of 1"),
            "delete": (line((80, 1), (99, "new"), (99, None)), "changed 0 rows in place of 1"),
            "insert": (line((80, 1), (5, None), (5, "x")), "is refused: duplicate key"),
        }
        for kind, (wrong, reason) in bad.items():
            more = [line((81, n), (n, "new"), (n, "x")) for n in range(1, 9)]
            told = self.told([*lines, line((79, 1), (1, "new"), (1, "x")), wrong, *more])
            for options in ((), ("--commit-every", "100")):
                for target, python in self.in_clients(TABLE):
                    status, said = ended(target, "made", *options, **told, **python)
                    self.assertEqual(status, 7, said)
                    self.assertIn(f"replica: made.t: the {kind} at 8000.1@binlog.000001 {reason}", said)
                    counted = "SELECT count(*) || ' ' || count(*) FILTER (WHERE v = 'x') FROM t"
                    self.assertEqual(self.server.asked(target.replace("psycopg:", "psql:"), counted), ["69 1"])
                    place = json.loads(self.rows_of(target, "binlogfeed_place"))
                    self.assertEqual(place["token"], "7900.1@binlog.000001")

    def test_columns(self):
        told = self.told([full_line((1, 1), "t", None, {"id": 1, "v": "a"}, TYPES)])
        for target, python in self.in_clients("CREATE TABLE t (id integer PRIMARY KEY, w numeric(8,2))"):
            first = "replica: the columns of made.t at 100.1@binlog.000001 aren't those of the target: "
            lists = "in the log it has id int, v varchar utf8mb4; in the target id integer, w numeric\n"
            self.assertEqual(ended(target, "made", **told, **python), (7, first + lists))
        for target, python in self.in_clients("SELECT 1"):
            self.assertEqual(ended(target, "made", **told, **python)[0], 7)

    def test_deferred(self):
        """What PostgreSQL refuses at the end of a transaction alone."""
        rows = [{"id": n, "v": "same" if n > 2 else f"{n}"} for n in range(1, 5)]
        told = self.told([full_line((row["id"], 1), "t", None, row, TYPES) for row in rows])
        unique = "ALTER TABLE t ADD UNIQUE (v) DEFERRABLE INITIALLY DEFERRED"
        for options in ((), ("--commit-every", "9")):
            for target, python in self.in_clients(f"{TABLE}; {unique}"):
                status, said = ended(target, "made", *options, **told, **python)
                self.assertEqual((status, said[:48]), (7, "replica: up to 400.1@binlog.000001: duplicate ke"))
                self.assertEqual(self.count(target), ["3"])

    def test_another_that_moved_the_target_on(self):
        """Whoever comes second changes nothing, though its changes don't fit any more."""
        for client, python in self.clients.items():
            if python != sys.executable:
                continue
            target = self.server.made(TABLE)
            opened = postgres.Postgres(target.partition(":")[2], client, "made", False)
            self.addCleanup(opened.close)
            self.assertEqual(opened.place(), "")
            self.server.asked(target.replace("psycopg:", "psql:"), f"UPDATE {targets.PLACE} SET place = 'first'")
            opened.begin("")
            with self.assertRaisesRegex(targets.AwayError, "start again"):
                opened.commit("second")
            opened.rollback()
            self.assertEqual(opened.place(), "first")

    def test_a_second_one(self):
        """It is refused when it starts. The lock ends with the first one's process, however that ends, and with its connection."""
        told = self.told([full_line((1, 1), "t", None, {"id": 1, "v": "a"}, TYPES)])
        for target, python in self.in_clients(TABLE):
            with started(target, "made", "--follow", "--interval", "0.02", **told, **python) as process:
                self.in_time(process.kill)
                while self.count(target) != ["1"]:
                    self.assertIsNone(process.poll())
                held = "SELECT pid FROM pg_locks WHERE locktype = 'advisory'"
                (holder,) = self.server.asked(target.replace("psycopg:", "psql:"), held)
                said = f"replica: another replica uses this target: the server's process {holder} has the lock of binlogfeed_place\n"
                self.assertEqual(ended(target, "made", **told, **python), (4, said))
                self.assertIsNone(process.poll())
                process.kill()
            self.assertEqual(ended(target, "made", **told, **python), (0, ""))

    def test_a_lock_comes_back_with_the_connection(self):
        """psql ends with an error. What takes the changes back takes the lock anew."""
        target = self.server.made(TABLE)
        opened = postgres.Postgres(target.partition(":")[2], "psql", "made", False)
        self.addCleanup(opened.close)
        opened.begin("another")
        with self.assertRaises(targets.AwayError):
            opened.commit("second")
        with self.assertRaises(targets.MisfitError), postgres.judged():
            opened._connection.run(["SELECT 1 / 0"])
        opened.rollback()
        self.assertEqual(len(self.server.asked(target, "SELECT pid FROM pg_locks WHERE locktype = 'advisory'")), 1)

    def test_away(self):
        """A server that isn't there, and one that goes while it is followed; with it back, the replica goes on."""
        for client, python in self.clients.items():
            status, _ = ended(f"{client}:host={self.folder} dbname=none", "shop", python=python)
            self.assertEqual(status, 4)
            status, _ = ended(f"{client}:{self.server.words('none')}", "shop", python=python)
            self.assertEqual(status, 4)
            target = self.made(TABLE, client)
            lines = [full_line((n, 1), "t", None, {"id": n, "v": "new"}, TYPES) for n in range(1, 9)]
            told = self.told(lines[:4])
            with started(target, "made", "--follow", "--interval", "0.02", **told, python=python) as process:
                self.in_time(process.kill)
                while self.count(target) != ["4"]:
                    self.assertIsNone(process.poll())
                self.server.halt()
                self.tell_more(lines[4:])
                said = process.stderr.read()
            self.server.start()
            self.assertEqual(process.returncode, 4, said)
            self.assertEqual(self.count(target), ["4"])
            self.assertEqual(ended(target, "made", **told, python=python), (0, ""))
            self.assertEqual(self.count(target), ["8"])

    def test_an_update_that_changes_nothing(self):
        """Of a table that has only a key, by one and by many."""
        types = {"id": "int"}
        lines = [full_line((n, 1), "t", None, {"id": n}, types) for n in range(1, 5)]
        lines += [full_line((5, 1), "t", {"id": 1}, {"id": 1}, types)]
        lines += [full_line((6, n), "t", {"id": n}, {"id": n}, types) for n in range(1, 5)]
        told = self.told(lines)
        for target, python in self.in_clients("CREATE TABLE t (id integer PRIMARY KEY)"):
            self.assertEqual(ended(target, "made", **told, **python), (0, ""))
            self.assertEqual(self.count(target), ["4"])

    def test_states(self):
        """Which of PostgreSQL's errors may be gone when the replica is begun again."""
        away = [None, "", "08006", "25006", "28P01", "3D000", "40001", "40P01", "53300", "55P03", "57P01", "58030", "XX000"]
        misfits = ["21000", "22003", "22P02", "23502", "23505", "23514", "42501", "42601", "42P01", "P0001"]
        for states, kind in ((away, targets.AwayError), (misfits, targets.MisfitError)):
            for state in states:
                self.assertIs(type(postgres.of_state(state, "said")), kind, state)

    def test_clients(self):
        """Without psycopg, and without psql."""
        if "psycopg" not in self.clients or self.clients["psycopg"] != sys.executable:
            status, said = ended(f"psycopg:{self.server.words('postgres')}", "shop")
            self.assertEqual((status, said[:45]), (2, "replica: psycopg isn't installed: apt-get ins"))

    def test_quotes_in_names(self):
        """MySQL allows them in names of tables and columns. One row and many are put in, changed and taken away in ways of their own."""
        table, column = 'a "b"', 'c"d'
        types = {"id": "int", column: "varchar utf8mb4"}
        changes = [(number, None, "new") for number in (1, *range(10, 80))]
        changes += [(number, "new", "changed") for number in (1, *range(10, 70))]
        changes += [(number, "changed", None) for number in (10, *range(20, 60))]
        # One stands alone before those of its kind: it is a transaction of its own.
        lines, transaction = [], 0
        for place, (number, before, after) in enumerate(changes):
            transaction += number in (1, 10, 20)
            images = [value and {"id": number, column: value} for value in (before, after)]
            lines.append(full_line((transaction, place + 1), table, *images, types))
        told = self.told(lines)
        kept = [[number, "new" if number >= 70 else "changed"] for number in (1, *range(11, 20), *range(60, 80))]
        for target, client in self.in_clients('CREATE TABLE "a ""b""" (id integer PRIMARY KEY, "c""d" text)'):
            self.assertEqual(ended(target, "made", **client, **told), (0, ""))
            query = 'SELECT json_build_array(id, "c""d") FROM "a ""b""" ORDER BY id'
            found = self.server.asked(target.replace("psycopg:", "psql:"), query)
            self.assertEqual([json.loads(row) for row in found], kept)

    def test_text(self):
        """Each character comes back as it was."""
        connection = psql.Connection(self.server.words("postgres"))
        self.addCleanup(connection.close)
        text = "".join(map(chr, range(1, 0x250))) + "'; DROP TABLE x; --\\ :name $1 %s %% \\gset '' \\' 李"
        connection.run(["CREATE TABLE texts (t text, n integer)"])
        self.assertEqual(connection.run([f"INSERT INTO texts (t) VALUES ({postgres.literal(text)})"]), [1])
        copied = postgres.copied(text)
        self.assertEqual(connection.copy("COPY texts (t, n) FROM STDIN", f"{copied}\t\\N\n{copied}\t5\n"), 2)
        self.assertEqual([json.loads(row) for row in connection.query("SELECT to_json(t) FROM texts")], [text] * 3)
        statements = ["UPDATE texts SET n = 1 WHERE n = 2", "DELETE FROM texts WHERE n = 5"]
        self.assertEqual(connection.run(statements), [0, 1])
        with self.assertRaisesRegex(psql.PsqlError, "zero byte"):
            connection.run(["SELECT 'a\0'"])
        with self.assertRaises(psql.PsqlError) as raised:
            connection.run(["SELECT 1 / 0"])
        self.assertEqual((raised.exception.state, str(raised.exception)), ("22012", "division by zero"))
