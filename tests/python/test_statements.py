"""Statements in logs, within transactions, too: they are found once each, and the replica says which it doesn't carry over."""
import zlib

from binlogfeed import FileFault
from binlogfeed.logs import MAGIC
from binlogfeed.statements import ALTER, DROP, DROP_DATABASE, RENAME, ROWS, TRUNCATE, Effect, Statement, Statements, Wanted
from replicas import LOGS, SqliteFiles, ended, rows_wanted
from support import SHOP, TOP, FolderTest

QUERY, FORMAT, GTID = 2, 15, 33
# A format event as a server of version 8 writes it, without its checksum: the last byte says that all events have one.
FORMAT_BODY = (4).to_bytes(2, "little") + b"8.0.36".ljust(50, b"\0") + bytes(4) + b"\x13" + bytes(40) + b"\x01"


def event(kind, body, at, checked=True):
    """An event at a position of a log."""
    length = 19 + len(body) + 4 * checked
    front = bytes(4) + bytes([kind]) + (1).to_bytes(4, "little") + length.to_bytes(4, "little") + (at + length).to_bytes(4, "little")
    whole = front + b"\0\0" + body
    return whole + zlib.crc32(whole).to_bytes(4, "little") if checked else whole


def query(text, schema="shop", variables=b""):
    """The body of a query event."""
    front = bytes(8) + bytes([len(schema)]) + bytes(2) + len(variables).to_bytes(2, "little")
    return front + variables + schema.encode() + b"\0" + text.encode()


def log_of(*statements, checked=True):
    """A log of query events."""
    log = MAGIC + event(FORMAT, FORMAT_BODY[:-1] + bytes([checked]), 4)
    for body in statements:
        log += event(QUERY, body, len(log), checked)
    return log


class Found(FolderTest):
    """The statements of logs."""

    def test_each_once(self):
        """Texts, schemas and positions; what is cut off is found once it is whole."""
        first = log_of(query("BEGIN"), query("TRUNCATE line", variables=b"\x00\x01\x02\x03\x04"))
        second = log_of(query("DROP TABLE `a`", schema=""), query("SET x = 1"), checked=False)
        logs = [self.put("binlog.000001", first), self.put("binlog.000002", second[:-3])]
        found = Statements()
        wanted = [("binlog.000001", "shop", "BEGIN"), ("binlog.000001", "shop", "TRUNCATE line"), ("binlog.000002", "", "DROP TABLE `a`")]
        given = list(found.of(logs))
        self.assertEqual([(of.file, of.schema, of.text) for of in given], wanted)
        for statement in given:
            at = {"binlog.000001": first, "binlog.000002": second}[statement.file]
            self.assertEqual(at[statement.position + 4], QUERY)
            self.assertIn(statement.text.encode(), at[statement.position :][:100])
        self.assertEqual(list(found.of(logs)), [])
        self.put("binlog.000002", second)
        self.assertEqual([of.text for of in found.of(logs)], ["SET x = 1"])
        self.assertEqual([of.text for of in Statements("binlog.000001", given[1].position).of(logs)][0], "TRUNCATE line")
        # Up to a place, and behind the unit that begins at one.
        place, some = ("binlog.000002", given[2].position), Statements()
        self.assertEqual([of.text for of in some.of(logs, place)], ["BEGIN", "TRUNCATE line"])
        self.assertEqual([of.text for of in some.of(logs, place)], [])
        self.assertEqual([of.text for of in some.of(logs)], ["DROP TABLE `a`", "SET x = 1"])
        behind = Statements("binlog.000001", given[1].position, is_behind=True)
        self.assertEqual([of.text for of in behind.of(logs)], ["DROP TABLE `a`", "SET x = 1"])
        # What a log says that is gone can't be known.
        logs[0].unlink()
        with self.assertRaises(FileFault):
            list(Statements().of(logs))

    def test_tokens(self):
        """A statement's token has the place of its GTID event."""
        units = [event(GTID, bytes(42), 4), event(QUERY, query("TRUNCATE line"), 4)]
        begin = len(log_of())
        for number, kind in enumerate((33, 34, 42)):
            log = self.put(f"binlog.00000{number}", log_of() + event(kind, bytes(42), begin) + event(QUERY, query("TRUNCATE line"), begin + len(units[0])))
            (found,) = Statements().of([log])
            self.assertEqual((found.token, found.position), (f"{begin}.0@binlog.00000{number}", begin + len(units[0])))

    def test_effects(self):
        """What statements do to a schema's tables, and to some of them."""
        for text, what in {
            "TRUNCATE line": TRUNCATE, "truncate table `shop` . `line`": TRUNCATE, "TRUNCATE`line`": TRUNCATE, 'TRUNCATE "line"': TRUNCATE,
            "ALTER TABLE line ADD x INT": ALTER, "ALTER IGNORE TABLE line ADD x INT": ALTER, "ALTER TABLE line RENAME TO old": ALTER,
            "ALTER TABLE d.x EXCHANGE PARTITION p WITH TABLE shop.line": ALTER,
            "/* by hand */ DROP TABLE IF EXISTS a, shop.line": DROP, "/*!50003 DROP TABLE line */": DROP, "DROP /* x */ TABLES line -- y": DROP,
            "RENAME TABLE line TO old": RENAME, "RENAME TABLE x TO y, line TO old": RENAME, "DROP DATABASE IF EXISTS `shop`": DROP_DATABASE,
            "INSERT INTO line SELECT 1": ROWS, "UPDATE line SET a = 1": ROWS, "DELETE FROM line": ROWS, "TRUNCATE Line": TRUNCATE,
        }.items():
            for only in ("", "line,tag"):
                effect = Statement("f", 4, "shop", text).effect(Wanted("shop", only))
                self.assertEqual((effect.what, effect.brings, effect.is_exact), (what, False, not (only and "Line" in text)), text)
        for text in ("RENAME TABLE d.x TO shop.line", "ALTER TABLE d.x RENAME shop.line, ADD y INT", "RENAME TABLE d.a TO d.b, d.x TO line"):
            self.assertEqual(Statement("f", 4, "shop", text).effect(Wanted("shop")), Effect(RENAME, ("line",), True), text)
        for text in (
            "BEGIN", "COMMIT", "CREATE TABLE line (a INT)", "TRUNCATE other.line", "DROP DATABASE other", "DROP TEMPORARY TABLE line", "SAVEPOINT `line`",
            "/*!40000 ALTER TABLE `line` DISABLE KEYS */", "ALTER TABLE d.x RENAME COLUMN a TO line", "ALTER TABLE d.x COMMENT 'RENAME TO shop.line'",
        ):
            self.assertIsNone(Statement("f", 4, "shop", text).effect(Wanted("shop")), text)
        self.assertIsNone(Statement("f", 4, "other", "TRUNCATE line").effect(Wanted("shop")))
        self.assertEqual(Statement("f", 4, "other", "TRUNCATE shop.line").effect(Wanted("shop")), Effect(TRUNCATE, ("line",)))
        for text in ("TRUNCATE line", "DELETE FROM line"):
            self.assertIsNone(Statement("f", 4, "shop", text).effect(Wanted("shop", "tag")), text)


class Told(FolderTest):
    """What the replica says."""

    def test_replica_names_them(self):
        """A statement that changes rows is named with its place; where nothing is new it isn't named again."""
        files = SqliteFiles()
        self.addCleanup(files.stop)
        # Without the STOP at its end.
        last = SHOP[-1].read_bytes()[:-23]
        for path in SHOP[:-1]:
            self.put(path.name, path.read_bytes())
        at, gtid = 4, b""
        while at < len(last):
            length = int.from_bytes(last[at + 9 : at + 13], "little")
            gtid = last[at + 19 : at + length - 4] if last[at + 4] == GTID else gtid
            at += length
        position = len(last) + 19 + len(gtid) + 4
        last += event(GTID, gtid, len(last))
        self.put(SHOP[-1].name, last + event(QUERY, query("DELETE FROM line"), position))
        target = files.new_target("shop")
        logs = f"{self.folder}/binlog.0*"
        line = f"replica: this has no rows in the log and isn't carried over: DELETE FROM line ({SHOP[-1].name}, position {position})\n"
        self.assertEqual(ended(target, "shop", logs=logs), (0, line))
        self.assertEqual(files.rows_of(target), rows_wanted("shop"))
        self.assertEqual(ended(files.new_target("shop"), "shop", "--begin", "now", logs=logs), (0, ""))
        self.assertEqual(ended(files.new_target("shop"), "shop", logs=LOGS["shop"]), (0, ""))

    def test_statements_within_transactions(self):
        """No line has these. The one behind the log's first row is told, at the place where mysqlbinlog prints it."""
        files = SqliteFiles()
        self.addCleanup(files.stop)
        target = files.made("CREATE TABLE t (id INTEGER PRIMARY KEY, v TEXT, r REAL, ts TEXT); CREATE TABLE l (a INTEGER PRIMARY KEY, b TEXT)")
        text = "INSERT INTO t (v) VALUES ('as a statement') (binlog.000001, position 4895)"
        line = f"replica: this has no rows in the log and isn't carried over: {text}\n"
        self.assertEqual(ended(target, "d", logs=f"{TOP}/tests/statement/binlog.0*"), (0, line))
        self.assertEqual([row["id"] for row in files.asked(target, "SELECT id FROM t")], [9, 11])
