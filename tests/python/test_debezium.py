"""Debezium's form of changes: values worked out by hand from what servers told, by the tables of Debezium's documentation."""
import json
import subprocess
import sys
import time
import unittest
from base64 import b64encode

from binlogfeed import BinLogStreamReader, GtidEvent, ProgramFailed, RowsEvent
from binlogfeed.debezium import lines_of, records_of
from binlogfeed.version import VERSION
from support import PROGRAM, SHOP, TOP, FolderTest, told

TRUTH, GEOMETRY, DOCUMENTS, MINIMAL = (TOP / "tests" / name / "binlog.000001" for name in ("truth", "geometry", "documents", "minimal"))
SERVER = "3e11fa47-71ca-11e1-9e33-c80aa9429562"
NOON = "2024-02-29 12:34:56"
# 19782 days and 45296 seconds behind 1970.
SECONDS_OF_NOON = 1709210096
# By table and column of tests/truth: what the server told of some rows, and what Debezium has for it.
TOLD = {
    ("t12", "c0", "TINYINT UNSIGNED"): {"5": ("254", 254)},
    ("t56", "c7", "SMALLINT"): {"3": ("-32768", -32768)},
    ("t5", "c11", "MEDIUMINT"): {"1": ("-8388608", -8388608)},
    ("t5", "c4", "INT"): {"3": ("-2147483648", -2147483648)},
    ("t2", "c0", "BIGINT"): {"2": ("-9223372036854775808", -(2**63))},
    # `bigint.unsigned.handling.mode=long` has what a long of Java has.
    ("t22", "c0", "BIGINT UNSIGNED"): {
        "2": ("18446744073709551614", -2), "3": ("18446744073709551615", -1), "9": (None, None),
        "8": ("1588864296735352251", 1588864296735352251),
    },
    ("t0", "c3", "FLOAT"): {"0": ("3.3999999521443642e38", 3.4e38), "1": ("0.10000000149011612", 0.1), "2": ("-1.5", -1.5)},
    ("t7", "c3", "DOUBLE"): {"0": ("1e22", 1e22), "6": ("1.7e308", 1.7e308), "7": (None, None)},
    ("t24", "c4", "DECIMAL(5,2)"): {"0": ("879.67", "879.67"), "1": ("-605.04", "-605.04"), "3": ("0.00", "0.00")},
    ("t0", "c5", "BIT(1)"): {"0": ("0", False), "1": ("1", True), "3": (None, None)},
    # The lowest byte first: 3, 511 and 2^33 - 1.
    ("t12", "c1", "BIT(9)"): {"2": ("3", "AwA="), "6": ("511", "/wE=")},
    ("t0", "c10", "BIT(33)"): {"2": ("8589934591", "/////wE=")},
    ("t10", "c1", "YEAR"): {"0": ("1901", 1901), "1": ("0000", 0), "2": ("2155", 2155)},
    # Days; a date that no calendar has is null.
    ("t4", "c7", "DATE"): {
        "0": ("1000-01-01", -354285), "1": ("9999-12-31", 2932896), "2": ("2024-02-29", 19782),
        "3": ("2024-00-00", None), "5": ("0000-00-00", None),
    },
    # Microseconds, below 0 and beyond a day, too.
    ("t16", "c2", "TIME(4)"): {
        "0": ("12:34:56.8900", 45296890000), "1": ("-838:59:59.0000", -3020399000000), "4": ("-00:00:00.2364", -236400),
    },
    ("t52", "c10", "TIME(0)"): {"1": ("-12:34:56", -45296000000), "0": ("00:00:00", 0)},
    # Milliseconds up to three digits, and microseconds beyond.
    ("t16", "c6", "DATETIME(0)"): {
        "0": ("1000-01-01 00:00:00", -354285 * 86400 * 1000), "1": (NOON, 1709210096000), "3": ("9999-12-31 23:59:59", 253402300799000),
        "10": ("0000-00-00 00:00:00", None),
    },
    ("t4", "c0", "DATETIME(2)"): {"0": (f"{NOON}.85", 1709210096850)},
    ("t21", "c4", "DATETIME(3)"): {"0": (f"{NOON}.615", 1709210096615), "5": ("0000-00-00 00:00:00.000", None)},
    ("t5", "c0", "DATETIME(4)"): {"1": (f"{NOON}.3051", 1709210096305100), "4": ("0000-00-00 00:00:00.0000", None)},
    ("t7", "c4", "DATETIME(6)"): {"2": (f"{NOON}.631991", 1709210096631991), "0": ("1000-01-01 00:00:00.000000", -354285 * 86400 * 10**6)},
    ("t23", "c7", "TIMESTAMP(0)"): {"0": ("1", "1970-01-01T00:00:01Z"), "3": ("2147483647", "2038-01-19T03:14:07Z")},
    ("t4", "c3", "TIMESTAMP(2)"): {"2": (f"{SECONDS_OF_NOON}.94", "2024-02-29T12:34:56.94Z"), "1": (None, None)},
    ("t1", "c1", "TIMESTAMP(6)"): {"8": (f"{SECONDS_OF_NOON}.686842", "2024-02-29T12:34:56.686842Z")},
    ("t5", "c9", "ENUM"): {"0": ("6f6e65", "one"), "1": ("c39f61", "ßa")},
    ("t2", "c1", "SET"): {"0": ("", ""), "1": ("74776f", "two"), "4": ("6f6e652c74776f", "one,two")},
    ("t47", "c9", "BINARY(4)"): {"0": ("ff3b8ea9", "/zuOqQ=="), "1": ("a9000000", "qQAAAA=="), "2": ("00000000", "AAAAAA==")},
    ("t1", "c2", "VARBINARY(255)"): {"0": ("a90000", "qQAA"), "5": ("", "")},
    ("t1", "c3", "VARCHAR(40) ucs2"): {"2": ("ed959c", "한"), "5": ("", "")},
    # The document null is a text.
    ("t0", "c2", "JSON"): {"0": ('"é\\""', '"é\\""'), "1": (None, None), "2": ("null", "null"), "9": ('"é\\""', '"é\\""')},
    ("t0", "c4", "JSON"): {"3": ("[1, [2, {}]]", "[1,[2,{}]]")},
}  # fmt: skip


def in_base64(hexadecimal):
    """Bytes that are told in hex."""
    return b64encode(bytes.fromhex(hexadecimal)).decode()


def records(log, **options):
    """The records of a log."""
    with BinLogStreamReader(log, program=PROGRAM, keep_lines=True, **options) as reader:
        return [record for event in reader for record in event.to_debezium("shop")]


def steady(record):
    """A record without the times of this machine's clock."""
    return {name: value for name, value in record.items() if not name.startswith("ts_")}


def line_of(types, after=None, before=None, key=("id",), **members):
    """A full line."""
    kind = "insert" if before is None else "delete" if after is None else "update"
    line = {"after": after, "before": before, "gtid": None, "key": list(key), "types": types, "kind": kind, "schema": "s", "table": "t"}
    line.update({"timestamp": 1700000000, "token": "4.1@f", **members})
    return json.dumps(line, ensure_ascii=False, separators=(",", ":")).encode()


def value_of(type_text, value, key=()):
    """Debezium's value of one that a line has."""
    (record,) = records_of(line_of({"c": type_text}, {"c": value}, key=key))
    return record["after"]["c"]


class Truth(unittest.TestCase):
    """What servers told of their rows."""

    def test_each_type(self):
        rows = {(record["source"]["table"], str(record["after"]["id"])): record["after"] for record in records(TRUTH)}
        truth = json.loads((TOP / "tests/truth/truth.json").read_text(encoding="utf-8"))
        for (table, column, type_text), wanted in TOLD.items():
            for row, (told_of_it, value) in wanted.items():
                with self.subTest(type=type_text, told=told_of_it):
                    self.assertEqual(truth[table]["rows"][row][column], told_of_it)
                    came = rows[table, row][column]
                    self.assertEqual((came, type(came)), (value, type(value)))

    def test_geometry(self):
        """A GEOMETRY is its well-known binary and the number of its system, and 0 is none."""
        one, two, *_ = records(GEOMETRY, only_tables=["g"])
        told_of_g = [json.loads(line) for line in (GEOMETRY.parent / "g.jsonl").read_text(encoding="utf-8").splitlines()]
        self.assertEqual(one["after"]["shape"], {"wkb": in_base64("0101000000000000000000F03F0000000000000040"), "srid": None})
        self.assertEqual(one["after"]["spot"], {"wkb": in_base64("010100000000000000000024400000000000003440"), "srid": 4326})
        self.assertEqual(two["after"]["lines_"], {"wkb": in_base64(told_of_g[1]["lines_"][8:]), "srid": None})
        others = {"name": "Zoë", "note": "日本", "last": "Привет", "kind": "café", "tags": "é,c", "code": "ABC", "doc": '{"a":1}'}
        others.update({"id": 1, "raw": "AP8=", "fixed": "AQAAAA==", "year_": 1999, "n": -1, "m": -1, "lines_": None})
        self.assertEqual({name: one["after"][name] for name in others}, others)
        self.assertEqual((two["after"]["n"], two["after"]["year_"], two["after"]["doc"]), (-(2**63), 0, '[1,2.5,"x"]'))

    def test_documents(self):
        """Each is the text of its document, and the null document isn't NULL."""
        lines = (TOP / "tests/documents/documents.jsonl").read_bytes().splitlines()
        documents = [json.loads(line.decode("utf-8", "surrogateescape")) for line in lines]
        rows = [record["after"] for record in records(DOCUMENTS)]
        self.assertEqual(len(rows), len(documents))
        kinds = {"INTEGER": 0, "NULL": 0, "OBJECT": 0, "ARRAY": 0, "STRING": 0, "DOUBLE": 0}
        for document, row in zip(documents, rows):
            # Those of the other tables have values of SQL, which the server shows as texts.
            if document["type"] in kinds and document["table"] in ("scalars", "strings", "shapes", "switches", "chance"):
                self.assertEqual(json.loads(row["doc"]), json.loads(document["text"]))
                kinds[document["type"]] += 1
        self.assertGreater(min(kinds.values()), 1)

    def test_names_that_are_given(self):
        """Names of columns, and of an ENUM's values, that the log hasn't."""
        found = records(MINIMAL, columns=MINIMAL.parent / "columns.tsv", together=False)
        rows = {(it["source"]["table"], it["after"]["id"]): it["after"] for it in found if it["after"] and "id" in it["after"]}
        self.assertEqual(rows["geo", 2]["g"], {"wkb": in_base64("0101000000000000000000F03F0000000000000040"), "srid": None})
        numbered = records(MINIMAL, only_tables=["geo"])
        self.assertEqual(list(numbered[0]["after"]), ["@1", "@2"])


class ByHand(unittest.TestCase):
    """Lines of each kind, by hand."""

    def test_values(self):
        for type_text, value, wanted in (
            ("int unsigned", 4294967295, 4294967295),
            ("bigint unsigned", 2**63 - 1, 2**63 - 1),
            ("bigint unsigned", 2**63, -(2**63)),
            ("bit(64)", 2**63, "AAAAAAAAAIA="),
            ("bit(8)", 255, "/w=="),
            ("decimal(65,30)", "-0.000000000000000000000000000001", "-0.000000000000000000000000000001"),
            ("timestamp", "0", None),
            ("timestamp(3)", "0.000", None),
            ("timestamp(1)", "0.5", "1970-01-01T00:00:00.5Z"),
            ("datetime", "2024-02-30 00:00:00", None),
            ("datetime(1)", "1969-12-31 23:59:59.9", -100),
            ("datetime", "2018-06-20 06:37:03", 1529476623000),
            ("time(6)", "-00:00:00.000001", -1),
            ("double", {"raw": "AAAAAAAA8H8="}, None),
            ("vector(3)", [1.0, 2.5, -3.0], [1.0, 2.5, -3.0]),
            ("vector(1)", {"raw": "AACAfw=="}, None),
            ("varchar gbk", {"base64": in_base64("d6d0"), "charset": "gbk"}, "中"),
            ("varchar gbk", {"base64": in_base64("ff"), "charset": "gbk"}, "\ufffd"),
            ("varchar utf8mb4", {"base64": in_base64("61ff62"), "charset": "utf8mb4"}, "a\ufffdb"),
            ("varchar utf16", {"base64": in_base64("d800"), "charset": "utf16"}, "\ufffd"),
            ("varchar cp1250", {"base64": in_base64("6181"), "charset": "cp1250"}, "a\ufffd"),
            ("varchar", {"base64": in_base64("61ff")}, "Yf8="),
            ("enum", 2, 2),
            ("set", 5, 5),
            ("set gbk", {"base64": in_base64("d6d02c62"), "charset": "gbk"}, "中,b"),
            ("json", {"a": [1.50, "é\\\"", {"b": None}], "": 18446744073709551615}, '{"a":[1.5,"é\\\\\\"",{"b":null}],"":18446744073709551615}'),
        ):
            with self.subTest(type=type_text, value=value):
                came = value_of(type_text, value)
                self.assertEqual((came, type(came)), (wanted, type(wanted)))

    def test_spelling_of_documents(self):
        """A document's text is that of the line, digit by digit, and whatever stands beside it."""
        types = {"d": "json", "s": "varchar utf8mb4", "e": "json"}
        line = line_of(types, {"d": 0, "e": [1], "s": '"},{'}, {"d": 0, "e": {}, "s": ',"after":'}, key=())
        line = line.replace(b'"d":0', b'"d":12345678901234567890.5000', 1).replace(b'"d":0', b'"d":-0.50', 1)
        (record,) = records_of(line)
        self.assertEqual(record["after"], {"d": "12345678901234567890.5000", "s": '"},{', "e": "[1]"})
        self.assertEqual(record["before"], {"d": "-0.50", "s": ',"after":', "e": "{}"})

    def test_null_documents(self):
        """Of the new row and of the old one."""
        types, row = {"id": "int", "a": "json", "b": "json"}, {"a": None, "b": None, "id": 1}
        (record,) = records_of(line_of(types, row, row, json_null=["after.a", "before.b"]))
        self.assertEqual(record["after"], {"id": 1, "a": "null", "b": None})
        self.assertEqual(record["before"], {"id": 1, "a": None, "b": "null"})

    def test_zero_dates_of_a_key(self):
        """A column of a key is never NULL, and Debezium has the epoch there."""
        for type_text, value, wanted in (
            ("date", "0000-00-00", 0), ("datetime(6)", "0000-00-00 00:00:00.000000", 0), ("timestamp", "0", "1970-01-01T00:00:00Z"),
        ):  # fmt: skip
            self.assertEqual(value_of(type_text, value, key=("c",)), wanted)
            self.assertIsNone(value_of(type_text, value))

    def test_operations(self):
        types, one, two = {"id": "int", "v": "int"}, {"id": 1, "v": 1}, {"id": 1, "v": 2}
        for after, before, wanted in ((one, None, "c"), (two, one, "u"), (None, two, "d")):
            (record,) = records_of(line_of(types, after, before))
            self.assertEqual((record["before"], record["after"], record["op"]), (before, after, wanted))
        (record,) = records_of(line_of(types, one, snapshot=True, token="158.0@f"))
        source = record["source"]
        self.assertEqual((record["op"], source["snapshot"], source["pos"], source["row"]), ("r", "true", 158, 0))

    def test_a_key_that_changes(self):
        """The old row is deleted, and the new one created, by one place."""
        types, old, new = {"id": "int", "v": "int"}, {"id": 1, "v": 1}, {"id": 2, "v": 1}
        found = records_of(line_of(types, new, old))
        self.assertEqual([(it["op"], it["before"], it["after"]) for it in found], [("d", old, None), ("c", None, new)])
        self.assertEqual(found[0]["source"], found[1]["source"])
        self.assertEqual([it["op"] for it in records_of(line_of(types, new, old, key=()))], ["u"])
        # A column of the key that an image lacks is as it was.
        self.assertEqual([it["op"] for it in records_of(line_of(types, {"v": 2}, {"id": 1}))], ["u"])

    def test_times(self):
        """Those of the commit in the source, and of this machine's clock beside it."""
        before = time.time_ns()
        (record,) = records_of(line_of({"id": "int"}, {"id": 1}, committed=1700000000123456))
        after = time.time_ns()
        source = record["source"]
        self.assertEqual((source["ts_ms"], source["ts_us"], source["ts_ns"]), (1700000000123, 1700000000123456, 1700000000123456000))
        self.assertTrue(before <= record["ts_ns"] <= after)
        self.assertEqual((record["ts_ms"], record["ts_us"]), (record["ts_ns"] // 10**6, record["ts_ns"] // 10**3))
        (record,) = records_of(line_of({"id": "int"}, {"id": 1}))
        self.assertEqual(record["source"]["ts_ms"], 1700000000000)

    def test_other_lines(self):
        for line in (b'{"after":{}}', b"none", b"[]"):
            with self.assertRaises(ProgramFailed):
                records_of(line)


class Shop(FolderTest):
    """The shop's logs, whose rows stand in its statements."""

    def test_records(self):
        found = records(SHOP)
        # Three customers, three products, a purchase with two lines, which is paid; two prices; a purchase with a line, a level; a line
        # that goes, a total, a customer whose key changes, and who goes.
        self.assertEqual("".join(record["op"] for record in found), "ccc" "ccc" "ccc" "u" "uu" "ccu" "d" "u" "dc" "d")
        first = found[3]
        product = {"sku": "TEA-0001", "title": "Green tea, 100 g", "price": "4.90", "tags": "eco", "weight": 0.1}
        committed = int.from_bytes(SHOP[0].read_bytes()[2149 + 19 + 42 : 2149 + 19 + 49], "little") & (1 << 55) - 1
        source = {
            "version": VERSION, "connector": "mysql", "name": "shop", "ts_ms": committed // 1000, "snapshot": "false", "db": "shop",
            "sequence": None, "ts_us": committed, "ts_ns": committed * 1000, "table": "product", "server_id": 0, "gtid": f"{SERVER}:7",
            "file": "binlog.000001", "pos": 2149, "row": 0, "thread": None, "query": None,
        }  # fmt: skip
        self.assertEqual(steady(first), {"before": None, "after": product, "source": source, "op": "c", "transaction": None})
        self.assertEqual(list(first["after"]), list(product))
        cup = {"sku": "CUP-0007", "title": 'Cup "Blue"', "price": "12.00", "tags": "new,sale", "weight": 0.35}
        self.assertEqual((found[10]["before"], found[10]["after"]), (cup, {**cup, "price": "10.80", "tags": "sale"}))
        self.assertEqual((found[11]["before"]["tags"], found[11]["source"]["row"]), (None, 1))
        # 2024-05-06 is day 19849: 07:08:09.125 of it, and 08:00:00.
        paid = {"id": 1, "customer": 1, "placed": 1714979289125, "paid": "2024-05-06T08:00:00Z", "total": "21.80"}
        self.assertEqual((found[9]["before"], found[9]["after"]), ({**paid, "paid": None}, paid))
        self.assertEqual(found[0]["after"], {"id": 1, "name": "Ada Lovelace", "email": "ada@example.org", "joined": 19737, "level": "gold"})
        søren = {"name": "Søren Kierkegaard", "email": None, "joined": 19782, "level": "basic"}
        self.assertEqual([found[-3]["before"], found[-2]["after"]], [{"id": 2, **søren}, {"id": 20, **søren}])

    def test_events_without_lines(self):
        """Who didn't ask for the lines is told so. Events that aren't of rows have no record."""
        with BinLogStreamReader(SHOP, program=PROGRAM) as reader, self.assertRaisesRegex(ValueError, "keep_lines=True"):
            next(reader).to_debezium()
        with BinLogStreamReader(SHOP, program=PROGRAM, only_events=[RowsEvent, GtidEvent], keep_lines=True) as reader:
            self.assertEqual((next(reader).to_debezium(), len(next(reader).to_debezium())), ([], 3))

    def test_whatever_the_reader_makes_of_values(self):
        """The values are those of the lines."""
        options = {"raw_values": True, "convert": {"product.price": lambda text: "other"}, "together": False}
        self.assertEqual([*map(steady, records(SHOP, **options))], [*map(steady, records(SHOP))])

    def followed(self, *options):
        """What `follow` prints."""
        words = ["--once", "--state", str(self.folder / "state"), "--program", PROGRAM, *options, str(SHOP[0].parent / "binlog.0*")]
        pipes = {"stdout": subprocess.PIPE, "stderr": subprocess.PIPE, "cwd": TOP / "python"}
        with subprocess.Popen([sys.executable, "-m", "binlogfeed", "follow", *words], **pipes) as process:
            out, said = told(process)
        self.assertEqual((process.returncode, said), (0, b""))
        return out.decode().splitlines()

    def test_follow(self):
        """Its lines are the records, and the place goes on behind them."""
        lines = self.followed("--format", "debezium", "--name", "shop")
        self.assertEqual([steady(json.loads(line)) for line in lines], [*map(steady, records(SHOP))])
        self.assertEqual(self.followed("--format", "debezium"), [])

    def test_follow_in_other_forms(self):
        """Full lines by both names, and plain ones."""
        forms = {}
        for options in (("--full",), ("--format", "full"), ("--format", "plain"), ()):
            forms[options] = self.followed(*options)
            (self.folder / "state").unlink()
        self.assertEqual(forms["--full",], forms["--format", "full"])
        self.assertEqual(forms["--format", "plain"], forms[()])
        self.assertIn("types", json.loads(forms["--full",][0]))
        self.assertNotIn("types", json.loads(forms[()][0]))

    def test_one_line_each(self):
        """Whatever stands in a text."""
        line = line_of({"c": "varchar utf8mb4"}, {"c": "a\nb\u2028"}) + b"\n"
        found = lines_of(line * 2)
        self.assertEqual(found.count(b"\n"), 2)
        self.assertEqual(json.loads(found.split(b"\n")[1])["after"], {"c": "a\nb\u2028"})


class Page(unittest.TestCase):
    """docs/DEBEZIUM.md."""

    def setUp(self):
        """Reads it."""
        self.text = (TOP / "docs/DEBEZIUM.md").read_text(encoding="utf-8")

    def test_it_is_short(self):
        self.assertLessEqual(self.text.count("\n"), 70)

    def test_its_line(self):
        """The line that it shows is that of the shop's fourth row."""
        (line,) = (line for line in self.text.splitlines() if line.startswith('    {"before"'))
        self.assertEqual(steady(json.loads(line)), steady(records(SHOP)[3]))
