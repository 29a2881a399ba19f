"""The replica in SQLite: it is killed at random moments, follows logs that grow, and its status says why it ended."""
import json
import functools
import signal
import threading
import time

import replica
import targets
from binlogfeed import Place
from logs import insert, log_of
from replicas import SHOP_ROWS, Kills, LinesTest, SqliteFiles, ended, ended_with_hints, full_line, started
from sqlite import Sqlite
from support import PROGRAM, SHOP, without_beginning

# How often the replica is killed while it works: over the shop's logs and over the bank's, with one transaction in a
# commit and with several.
KILLS = [
    ("shop", 60, ()),
    ("bank", 100, ()),
    ("bank", 80, ("--commit-every", "7")),
    ("bank", 40, ("--commit-every", "100")),
]
TYPES = {"id": "int", "v": "varchar utf8mb4"}


class Files(LinesTest):
    """A test with targets in files of SQLite."""

    def setUp(self):
        """Makes their folder."""
        super().setUp()
        self.files = SqliteFiles()
        self.addCleanup(self.files.stop)

    def place(self, target):
        """The place that a target has."""
        return self.files.rows_of(target, "binlogfeed_place")

    def put_place(self, target, place):
        """Gives a target a place."""
        opened = replica.opened(target, "shop")
        opened.begin(opened.place())
        opened.commit(place)
        opened.close()


class Killed(Files):
    """The replica, killed again and again."""

    def test_killed(self):
        for schema, count, options in KILLS:
            with self.subTest(schema=schema, options=options):
                new_target = functools.partial(self.files.new_target, schema)
                kills = Kills(schema, count, new_target, self.files.rows_of, options)
                kills.run()
                kills.judge(self)


class Commits(Files):
    """When the target's transactions end."""

    def test_so_many_transactions_in_each(self):
        """The place behind the last of them is kept with each. Where nothing is new, nothing is written."""
        ends = ["1697.3", "2149.3", "2592.3", "3114.1", "3506.2"], ["198.3", "935.1", "1268.1", "1656.1", "2072.1"]
        tokens = [f"{end}@{log.name}" for log, each in zip(SHOP, ends) for end in each]
        for many in (1, 3, 10, 1000):
            target, kept = Sqlite(self.files.new_target("shop").partition(":")[2], "shop", False), []
            commit = target.commit

            def noted(place, kept=kept, commit=commit):
                kept.append(json.loads(place)["token"])
                commit(place)

            target.commit = noted
            copied = replica.Replica(target, replica.Source(f"{SHOP[0].parent}/binlog.0*", "shop", PROGRAM), many)
            for _ in range(3):
                copied.catch_up()
            copied.close()
            target.close()
            self.assertEqual(kept, [*tokens[many - 1 : -1 : many], tokens[-1]])


class Names(Files):
    """Names that have to be quoted."""

    def test_quotes_in_names(self):
        """MySQL allows them in names of tables and columns, and a statement would end there."""
        table, column = 'a "b"', 'c"d'
        types, rows = {"id": "int", column: "varchar utf8mb4"}, [{"id": 1, column: "new"}, {"id": 1, column: "changed"}]
        lines = [full_line((1, 1), table, None, rows[0], types), full_line((2, 1), table, rows[0], rows[1], types)]
        gone = {"id": 2, column: ""}
        lines += [full_line((3, 1), table, None, gone, types), full_line((4, 1), table, gone, None, types)]
        target = self.files.made('CREATE TABLE "a ""b""" (id INTEGER PRIMARY KEY, "c""d" TEXT)')
        self.assertEqual(ended(target, "made", **self.told(lines)), (0, ""))
        self.assertEqual(self.files.asked(target, 'SELECT * FROM "a ""b"""'), [rows[1]])


class Misfits(Files):
    """Changes that don't fit the target: they end the run with status 7, and nothing of their transaction stands."""

    def test_a_row_that_is_there(self):
        target = self.files.new_target("shop")
        self.files.asked(target, "INSERT INTO customer (id, name, joined, level) VALUES (2, 'another', '', '')")
        for options in ((), ("--commit-every", "10")):
            status, said = ended(target, "shop", *options)
            self.assertEqual(status, 7)
            self.assertIn("replica: shop.customer: the insert at 1697.2@binlog.000001 is refused: UNIQUE", said)
            # Nothing of the transaction stands, though its first row could be put in.
            self.assertEqual(len(self.files.rows_of(target)["customer"]), 1)
            self.assertEqual(self.place(target), "")

    def test_update_and_delete_of_no_row(self):
        for statement, kind, token, last in (
            ("DELETE FROM line", "delete", "935.1", "198.3"),
            ("DELETE FROM purchase", "update", "1268.1", "935.1"),
        ):
            target = self.files.new_target("shop")
            place = Place("binlog.000002", None, "198.3@binlog.000002").to_text()
            for table, rows in SHOP_ROWS.items():
                for row in rows:
                    statement_of = f"INSERT INTO {table} ({', '.join(row)}) VALUES ({', '.join('?' for _ in row)})"
                    self.files.asked(target, statement_of, list(row.values()))
            self.files.asked(target, "INSERT INTO line (purchase, nr, sku, amount) VALUES (1, 2, 'CUP-0007', 1)")
            self.files.asked(target, statement)
            self.put_place(target, place)
            status, said = ended(target, "shop")
            self.assertEqual(status, 7)
            self.assertIn(f"the {kind} at {token}@binlog.000002 changed 0 rows in place of 1", said)
            self.assertEqual(json.loads(self.place(target))["token"], f"{last}@binlog.000002")

    def test_whole_transactions_before_it_stand(self):
        """With several in a commit, too, those before the one that doesn't fit come in, and nothing of that one."""
        lines = [full_line((n, 1), "t", None, {"id": n, "v": "new"}, TYPES) for n in range(1, 40)]
        lines += [full_line((50, n), "t", {"id": n, "v": "new"}, {"id": n, "v": "old"}, TYPES) for n in range(1, 60)]
        told = self.told(lines)
        for options in ((), ("--commit-every", "100")):
            target = self.files.made("CREATE TABLE t (id INTEGER PRIMARY KEY, v TEXT)")
            status, said = ended(target, "made", *options, **told)
            wanted = "replica: made.t: the update at 5000.40@binlog.000001 changed 0 rows in place of 1\n"
            self.assertEqual((status, said), (7, wanted))
            counted = self.files.asked(target, "SELECT count(*) AS n, min(v) AS v FROM t")
            self.assertEqual(counted, [{"n": 39, "v": "new"}])
            self.assertEqual(json.loads(self.place(target))["token"], "3900.1@binlog.000001")

    def test_a_table_that_is_not_there(self):
        status, said = ended(f"sqlite:{self.folder}/new.db", "shop")
        wanted = "replica: the target has no table customer, which a change at 1697.1@binlog.000001 is of\n"
        self.assertEqual((status, said), (7, wanted))

    def test_a_table_without_a_key(self):
        row = {"id": 1, "v": "a"}
        told = self.told([full_line((1, 1), "t", None, row, TYPES), full_line((2, 1), "t", row, None, TYPES)])
        target = self.files.made("CREATE TABLE t (id INTEGER, v TEXT)")
        status, said = ended(target, "made", **told)
        wanted = "replica: made.t: the delete at 200.1@binlog.000001 needs a primary key in the target's table\n"
        self.assertEqual((status, said), (7, wanted))

    def test_other_columns_than_the_target(self):
        told = self.told([full_line((1, 1), "t", None, {"id": 1, "v": "a"}, TYPES)])
        for columns in ("id INTEGER, w TEXT", "id INTEGER", "id INTEGER, v TEXT, w TEXT"):
            target = self.files.made(f"CREATE TABLE t ({columns}, PRIMARY KEY (id))")
            status, said = ended(target, "made", **told)
            first = "replica: the columns of made.t at 100.1@binlog.000001 aren't those of the target: "
            wanted = f"{first}in the log it has id int, v varchar utf8mb4; in the target {columns}\n"
            self.assertEqual((status, said), (7, wanted))
            self.assertEqual(self.files.asked(target, "SELECT * FROM t"), [])

    def test_columns_that_change(self):
        """An ALTER TABLE in the log ends the run before the first change behind it. Begun again, it goes on."""
        wider = {**TYPES, "id": "bigint"}
        lines = [full_line((n, 1), "t", None, {"id": n, "v": "a"}, TYPES if n < 3 else wider) for n in range(1, 5)]
        told = self.told(lines)
        for options in ((), ("--commit-every", "100")):
            target = self.files.made("CREATE TABLE t (id INTEGER PRIMARY KEY, v TEXT)")
            status, said = ended(target, "made", *options, **told)
            self.assertEqual(status, 7)
            first = "replica: the columns of made.t have changed at 300.1@binlog.000001: "
            before, after = "id int, v varchar utf8mb4", "id bigint, v varchar utf8mb4"
            lists = f"before, it had {before}; in the log it has {after}; in the target id INTEGER, v TEXT\n"
            self.assertEqual(said, first + lists)
            self.assertEqual(self.files.asked(target, "SELECT id FROM t"), [{"id": 1}, {"id": 2}])
            self.assertEqual(ended(target, "made", *options, **told), (0, ""))
            self.assertEqual(len(self.files.asked(target, "SELECT id FROM t")), 4)

    def test_after_an_alter_table(self):
        """What the hints say makes the target's table that of the log, and the replica goes on where it ended."""
        first, wider = {"id": "int", "v": "varchar utf8mb4"}, {"id": "int", "v": "varchar utf8mb4", "w w": "varchar utf8mb4"}
        other, last = {"id": "int", "u": "varchar utf8mb4", "w w": "varchar utf8mb4"}, {"id": "int", "w w": "varchar utf8mb4"}
        images = [(first, {"v": "a"}), (wider, {"v": "b", "w w": "c"}), (other, {"u": "d", "w w": "e"}), (last, {"w w": "f"})]
        lines = [full_line((n, 1), "t", None, {"id": n, **row}, types) for n, (types, row) in enumerate(images, 1)]
        told = self.told(lines)
        target = self.files.made("CREATE TABLE t (id INTEGER PRIMARY KEY, v TEXT)")
        rename = 'ALTER TABLE "t" RENAME COLUMN "v" TO "u"'
        for token, hints, more in (
            (200, ['ALTER TABLE "t" ADD COLUMN "w w" TEXT'], " DEFAULT 'of the server'"),
            (300, [rename, 'or, if it wasn\'t renamed: ALTER TABLE "t" ADD COLUMN "u" TEXT; ALTER TABLE "t" DROP COLUMN "v"'], ""),
            (400, ['ALTER TABLE "t" DROP COLUMN "u"'], ""),
        ):
            status, said = ended_with_hints(target, "made", **told)
            line, step, *statements = said.splitlines()
            self.assertEqual((status, statements), (7, [f"hint: {hint}" for hint in hints]), said)
            self.assertIn(f"the columns of made.t have changed at {token}.1@", line)
            self.assertRegex(step, 'hint: alter the target.* start again .*, "After an ALTER TABLE"')
            self.files.asked(target, hints[0] + more)
        self.assertEqual(ended_with_hints(target, "made", **told), (0, ""))
        wanted = [{"id": 1, "w w": "of the server"}, *({"id": n, "w w": w} for n, w in ((2, "c"), (3, "e"), (4, "f")))]
        self.assertEqual(self.files.asked(target, "SELECT * FROM t ORDER BY id"), wanted)

    def test_steps(self):
        """What to do where the names are the same, where there is no table, and where --columns has names that aren't right any more."""
        lines = [full_line((n, 1), "t", None, {"id": n}, {"id": "bigint" if n > 1 else "int"}) for n in (1, 2)]
        table = "CREATE TABLE t (id INTEGER PRIMARY KEY)"
        for tables, step in ((table, "the names are the same: change the target's types"), ("", "make it, or have --create make it")):
            status, said = ended_with_hints(self.files.made(tables), "made", **self.told(lines))
            self.assertEqual((status, said.count("\n")), (7, 2))
            self.assertIn(f"\nhint: {step}", said)
        columns = self.put("columns", b"TABLE_SCHEMA\tTABLE_NAME\tCOLUMN_NAME\tORDINAL_POSITION\tCOLUMN_TYPE\nmade\tt\tid\t1\tint\n")
        told = self.told([full_line((1, 1), "t", None, {"@1": 1, "@2": 2}, {"@1": "int", "@2": "int"}, ())])
        status, said = ended_with_hints(self.files.made(table), "made", "--columns", str(columns), **told)
        self.assertEqual(status, 7, said)
        self.assertIn("\nhint: make the file of --columns anew", said)

    def test_another_that_moved_the_target_on(self):
        target = self.files.new_target()
        self.put_place(target, "first")
        opened = Sqlite(target.partition(":")[2], "bank", False)
        with self.assertRaises(targets.AwayError):
            opened.begin("")
        opened.close()
        self.assertEqual(self.place(target), "first")


class Ends(Files):
    """Exit statuses: those of the program, and the replica's own."""

    def test_log_fault(self):
        """What stands before it is taken."""
        log = (SHOP[0].read_bytes())[:3114] + b"\0" * 40
        self.put("binlog.000001", log)
        for options in ((), ("--commit-every", "100")):
            target = self.files.new_target("shop")
            status, said = ended(target, "shop", *options, logs=f"{self.folder}/binlog.0*")
            self.assertEqual((status, said), (1, "binlogfeed: log fault at binlog.000001:3114: BadLength\n"))
            self.assertEqual(len(self.files.rows_of(target)["purchase"]), 1)
            self.assertTrue(json.loads(self.place(target))["token"].startswith("2592."))

    def test_a_log_that_changed_while_it_was_read(self):
        """The transaction that this fault is in may not be whole: nothing of it is taken, and all before it is."""
        lines = [full_line(number, "t", None, {"id": 10 * number[0] + number[1], "v": ""}, TYPES) for number in ((1, 1), (2, 1), (2, 2))]
        told = self.told(lines)
        fault = "binlogfeed: log fault at binlog.000001:200: SourceChanged"
        given = f'case "$*" in *--from=100.1@*) tail -n +2 {self.folder}/lines ;; *) cat {self.folder}/lines ;; esac'
        told["program"] = self.stub(f"read line\n{given}\necho '{fault}' >&2\nexit 1")
        for options in ((), ("--commit-every", "100")):
            target = self.files.made("CREATE TABLE t (id INTEGER PRIMARY KEY, v TEXT)")
            self.assertEqual(ended(target, "made", *options, **told), (1, f"{fault}\n"))
            self.assertEqual(self.files.asked(target, "SELECT id FROM t"), [{"id": 11}])
            self.assertEqual(json.loads(self.place(target))["token"], "100.1@binlog.000001")

    def test_ends_that_have_no_status_of_their_own(self):
        """A program that was killed, and one whose lines are none: Python's own status for that would say "log fault"."""
        told = self.told([])
        line = 'none,"key":[],"types":{},"timestamp":1,"token":"100.1@binlog.000001"}'
        for script, wanted, word in (("kill -9 $$", 128 + 9, "status -9"), (f"echo '{line}'; echo; read line", 70, "no full lines")):
            told["program"] = self.stub(f"read line\n{script}")
            status, said = ended(self.files.new_target("shop"), "shop", **told)
            self.assertEqual(status, wanted)
            self.assertIn(word, said)

    def test_words(self):
        target = self.files.new_target("shop")
        for options in (("--convert", "a.b=float"), ("--commit-every", "0"), ("--unfit", "zero")):
            self.assertEqual(ended(target, "shop", *options)[0], 2)
        self.assertEqual(ended("mysql:x", "shop"), (2, "replica: no target: mysql:x\n"))

    def test_places(self):
        target = self.files.new_target("shop")
        no_token, gone = Place("binlog.000001", None, "5.1@binlog.000001"), Place("binlog.000000")
        for place, status in (("no place", 3), (no_token.to_text(), 3), (gone.to_text(), 6)):
            self.put_place(target, place)
            self.assertEqual(ended(target, "shop")[0], status)
            self.assertEqual(self.place(target), place)

    def test_no_logs(self):
        """A pattern that matches nothing yet is said, and keeps no place."""
        target = self.files.new_target("shop")
        logs = f"{self.folder}/binlog.0*"
        self.assertEqual(ended(target, "shop", logs=logs), (0, f"replica: no log matches {logs} yet\n"))
        self.assertEqual(self.place(target), "")
        # It may be given one then, as mysqldump names it.
        self.files.asked(target, "UPDATE binlogfeed_place SET place = ?", ['{"token": "2149.0@binlog.000001"}'])
        wanted = "replica: shop.customer: the update at 198.3@binlog.000002 changed 0 rows in place of 1\n"
        self.assertEqual(ended(target, "shop"), (7, wanted))
        self.assertEqual([row["id"] for row in self.files.rows_of(target)["purchase"]], [1])

    def test_away(self):
        """A target or a log that can't be reached."""
        status, said = ended(f"sqlite:{self.folder}/none/shop.db", "shop")
        self.assertEqual((status, said), (4, "replica: unable to open database file\n"))
        self.put("text", b"This is no database, but a text that is long enough to see that it is none. " * 20)
        self.assertEqual(ended(f"sqlite:{self.folder}/text", "shop")[0], 4)
        target = self.files.new_target("shop")
        self.assertEqual(ended(target, "shop", logs=f"{self.folder}/binlog.index")[0], 4)

    def test_memory_and_program(self):
        target = self.files.new_target("shop")
        self.assertEqual(ended(target, "shop", program=self.stub("echo 'binlogfeed: out of memory' >&2; exit 5"))[0], 5)
        self.assertEqual(ended(target, "shop", program=f"{self.folder}/none")[0], 70)
        self.assertEqual(ended(target, "shop", program=self.stub("read -r line; echo no line; echo"))[0], 70)


class Follows(Files):
    """A replica that goes on."""

    def test_follow(self):
        """It takes what comes, also while the index is away, and SIGTERM ends it."""
        target = self.files.new_target("shop")
        index = self.put("binlog.index", b"./binlog.000001\n")
        self.put("binlog.000001", SHOP[0].read_bytes())
        options = ("--follow", "--interval", "0.02", "--commit-every", "100")
        with started(target, "shop", *options, logs=str(self.folder), patient=True) as process:
            self.in_time(process.kill)
            self.soon(lambda: len(self.files.rows_of(target).get("customer", [])) == 3, "the first log isn't taken")
            index.rename(self.folder / "away")
            time.sleep(0.3)
            self.put("binlog.000002", SHOP[1].read_bytes())
            self.put("new", b"./binlog.000001\n./binlog.000002\n").rename(index)
            self.soon(lambda: self.files.rows_of(target) == SHOP_ROWS, "the second log isn't taken")
            self.assertIsNone(process.poll())
            process.send_signal(signal.SIGTERM)
            self.assertEqual((process.wait(), without_beginning(process.stderr.read())), (0, ""))
        self.assertEqual(json.loads(self.place(target))["file"], "binlog.000002")

    def waits(self, schema, wanted, contents, *options):
        """A replica that waits for the first change: it says so once, and reads the logs once for that. The place says that it waits."""
        calls, target = self.folder / f"{schema}.calls", self.files.made("")
        program = self.stub(f'echo "$*" >> {calls}\nexec {PROGRAM} "$@"')
        first, quiet, more = contents
        first()
        options = (*options, "--create", "--follow", "--interval", "0.02")
        with started(target, schema, *options, program=program, logs=f"{self.folder}/binlog.0*") as process:
            self.in_time(process.kill)
            self.assertIn("begins with binlog.000001", process.stderr.readline())
            self.assertEqual(process.stderr.readline(), f"replica: no log has a change of {wanted}: waiting for one\n")
            quiet()
            time.sleep(0.5)
            self.assertIsNone(process.poll())
            place = json.loads(self.place(target))
            self.assertEqual((place["token"], place["waits_for"][0]), (None, schema))
            more()
            self.soon(lambda: "waits_for" not in self.place(target), "the first change isn't taken")
            process.send_signal(signal.SIGTERM)
            self.assertEqual((process.wait(), process.stderr.read()), (0, ""))
        self.assertEqual([line.split()[0] for line in calls.read_text().splitlines() if "--follow" not in line], ["read"])
        return target

    def test_a_schema_without_a_change_yet(self):
        contents = (
            lambda: self.put("binlog.000001", SHOP[0].read_bytes()),
            lambda: self.put("binlog.000002", SHOP[1].read_bytes()),
            lambda: self.put("binlog.000003", log_of([insert(1)])),
        )
        target = self.waits("s", "the schema s yet, but of shop", contents)
        self.assertEqual(len(self.files.asked(target, "SELECT * FROM t")), 1)
        self.assertEqual(json.loads(self.place(target))["file"], "binlog.000003")

    def test_a_table_without_a_change_yet(self):
        ends = 2149, 2149 + 1, SHOP[0].stat().st_size
        contents = [lambda end=end: self.write_on("binlog.000001", SHOP[0].read_bytes()[:end]) for end in ends]
        target = self.waits("shop", "line yet", contents, "--only-tables=line")
        self.assertEqual(len(self.files.rows_of(target)["line"]), 2)

    def test_begun_again_before_the_first_change(self):
        """It goes on in the log that it had come to, where it waits for the same. Another, or one with --begin, begins anew."""
        logs, target = f"{self.folder}/binlog.0*", self.files.made("")
        waits = "replica: no log has a change of the schema s yet{}: waiting for one\n"
        options = ("--create", "--follow", "--interval", "0.02")
        self.put("binlog.000001", SHOP[0].read_bytes())
        for begins, but in (("begins with binlog.000001, the first log", ", but of shop"), ("goes on in binlog.000002, as the target has it", "")):
            with started(target, "s", *options, logs=logs) as process:
                self.in_time(process.kill)
                self.assertEqual(process.stderr.readline(), f"replica: {begins}\n")
                self.assertEqual(process.stderr.readline(), waits.format(but))
                self.put("binlog.000002", SHOP[1].read_bytes())
                self.soon(lambda: '"binlog.000002"' in self.place(target))
                process.send_signal(signal.SIGTERM)
                self.assertEqual((process.wait(), process.stderr.read()), (0, ""))
        kept = self.place(target)
        self.assertEqual(json.loads(kept)["waits_for"], ["s", ""])
        for schema, but in (("s", ""), ("other", ", but of shop")):
            said = f"replica: no log has a change of the schema {schema}{but}: mend the name, or begin with --begin now\n"
            self.assertEqual(ended(target, schema, "--create", logs=logs), (2, said))
            self.assertEqual(self.place(target), kept)
        self.put("binlog.000003", log_of([insert(1)]))
        for _ in range(2):
            self.assertEqual(ended(target, "s", "--create", logs=logs), (0, ""))
            self.assertEqual(len(self.files.asked(target, "SELECT * FROM t")), 1)
        self.assertNotIn("waits_for", self.place(target))
        self.files.asked(target, "UPDATE binlogfeed_place SET place = ?", [kept])
        self.assertEqual(ended(target, "other", "--begin", "now", logs=logs), (0, ""))
        self.assertEqual(json.loads(self.place(target))["token"], f"{len(log_of([insert(1)]))}.0@binlog.000003")

    def test_a_second_one(self):
        """It is refused when it starts, by any name of the file. The lock ends with the first one's process, however that ends."""
        target, told = self.files.made("CREATE TABLE t (id INTEGER PRIMARY KEY, v TEXT)"), self.told([])
        file = target.partition(":")[2]
        (self.folder / "link").symlink_to(file)
        with started(target, "made", "--follow", **told) as process:
            self.in_time(process.kill)
            self.assertIn("begins with binlog.000001", process.stderr.readline())
            for name in (file, f"{self.folder}/link"):
                said = f"replica: another replica uses {name}: it has the lock {file}.lock\n"
                self.assertEqual(ended(f"sqlite:{name}", "made", **told), (4, said))
            # Whoever only reads isn't kept out.
            self.assertEqual(self.files.asked(target, "SELECT * FROM t"), [])
            self.assertIsNone(process.poll())
            process.kill()
        self.assertEqual(ended(target, "made", **told), (0, ""))

    def test_index_away_for_a_moment(self):
        """Without --follow, too, an index that is away is looked for again."""
        target = self.files.new_target("shop")
        for path in SHOP:
            self.put(path.name, path.read_bytes())
        index = self.put("late", b"./binlog.000001\n./binlog.000002\n")
        threading.Timer(0.4, lambda: index.rename(self.folder / "binlog.index")).start()
        self.assertEqual(ended(target, "shop", logs=str(self.folder), patient=True), (0, ""))
        self.assertEqual(self.files.rows_of(target), SHOP_ROWS)

    def test_a_log_without_changes(self):
        """The place goes on to the end of a log without changes, so that the logs before it may be purged."""
        target = self.files.new_target("shop")
        front = SHOP[0].read_bytes()
        first_event = front[: 4 + int.from_bytes(front[13:17], "little")]
        for number, log in enumerate((front, SHOP[1].read_bytes(), first_event), 1):
            self.put(f"binlog.00000{number}", log)
        self.assertEqual(ended(target, "shop", logs=f"{self.folder}/binlog.0*"), (0, ""))
        self.assertEqual(json.loads(self.place(target))["file"], "binlog.000003")
        for number in (1, 2):
            (self.folder / f"binlog.00000{number}").unlink()
        self.assertEqual(ended(target, "shop", logs=f"{self.folder}/binlog.0*"), (0, ""))
        self.assertEqual(self.files.rows_of(target), SHOP_ROWS)

    def test_a_log_that_was_read_may_be_purged(self):
        target = self.files.new_target("shop")
        first, second = (self.put(path.name, path.read_bytes()) for path in SHOP)
        self.assertEqual(ended(target, "shop", logs=f"{self.folder}/binlog.0*"), (0, ""))
        first.unlink()
        self.assertEqual(ended(target, "shop", logs=f"{self.folder}/binlog.0*"), (0, ""))
        second.unlink()
        self.assertEqual(ended(target, "shop", logs=f"{self.folder}/binlog.0*")[0], 6)
        self.assertEqual(self.files.rows_of(target), SHOP_ROWS)
