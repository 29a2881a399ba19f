"""The values of events: those of a server's tables of all types, by what it says that they hold, and some worked out by hand."""
import datetime
import json
import struct
import unittest
from base64 import b64encode
from decimal import Decimal

from binlogfeed import BinLogStreamReader, Column, ProgramFailed
from binlogfeed.charsets import CODECS, to_text
from binlogfeed.values import Style, reading_of
from built.truth import TRUTH, server_truth
from support import PROGRAM, SHOP, FolderTest

UTC = datetime.timezone.utc
START = datetime.datetime(1970, 1, 1, tzinfo=UTC)
MICROSECOND = datetime.timedelta(microseconds=1)


def value_of(type_text, value, **style):
    """Python's value of one that a line has."""
    reading = reading_of(Column("c", type_text), Style(**style))
    if reading is None or value is None:
        return value
    try:
        return reading.convert(value)
    except ValueError:
        return reading.instead(value)


def in_base64(raw, name="base64"):
    """Bytes as a line has them."""
    return {name: b64encode(raw).decode()}


def told_seconds(told):
    """The microseconds of a text of seconds."""
    return int(Decimal(told) * 1_000_000)


def told_span(told):
    """The microseconds of a TIME's text."""
    hours, minutes, seconds = told.lstrip("-").split(":")
    size = (int(hours) * 3600 + int(minutes) * 60) * 1_000_000 + told_seconds(seconds)
    return -size if told.startswith("-") else size


def without_zeros(text):
    """A date and time without zeros at the end of its fraction."""
    return text.rstrip("0").rstrip(".") if "." in text else text


# How a value of Python's and the server's text are compared, by the kind of the column: the class, and what is made of both.
KINDS = {
    "int": (int, str, str),
    "bit": (str, lambda value: int(value, 2), int),
    "decimal": (Decimal, "{:f}".format, str),
    "float": (float, float, float),
    "text": (str, str.encode, bytes.fromhex),
    "enum": (str, str.encode, bytes.fromhex),
    "set": (set, lambda value: value, lambda told: set(filter(None, bytes.fromhex(told).decode().split(",")))),
    "bytes": (bytes, lambda value: value, bytes.fromhex),
    "json": (object, lambda value: json.dumps(value, sort_keys=True), lambda told: json.dumps(json.loads(told), sort_keys=True)),
    "year": (int, str, str),
    "date": (datetime.date, str, str),
    "datetime": (datetime.datetime, lambda value: without_zeros(str(value)), without_zeros),
    "timestamp": (datetime.datetime, lambda value: (value - START) // MICROSECOND, told_seconds),
    "time": (datetime.timedelta, lambda value: value // MICROSECOND, told_span),
}  # fmt: skip


def has_python_none(kind, told):
    """Whether Python has no value for what a server's column of dates holds."""
    return (kind == "year" and told == "0000") or (kind in ("date", "datetime") and ("0000-" in told or "-00" in told[:10]))


class Truth(unittest.TestCase):
    """A server's tables of all types."""

    def test_each_value(self):
        truth, judged, nones = server_truth(), 0, 0
        with BinLogStreamReader(sorted(TRUTH.glob("binlog.*")), program=PROGRAM, together=False) as events:
            for event in events:
                table, row = truth[event.table], event.after
                for name, told in table.rows[str(row["id"])].items():
                    kind, value = table.kinds[name], row[name]
                    place = f"{event.table}.{name} of row {row['id']}"
                    judged += 1
                    if told is None or has_python_none(kind, told):
                        nones += told is not None
                        self.assertIsNone(value, place)
                        continue
                    of, of_python, of_server = KINDS[kind]
                    # A JSON document may be null.
                    self.assertTrue(isinstance(value, of), f"{place}: {value!r}")
                    self.assertEqual(of_python(value), of_server(told), place)
        self.assertEqual(judged, sum(len(row) for table in truth.values() for row in table.rows.values()))
        self.assertGreater(nones, 20)

    def test_each_bit(self):
        """A BIT has as many digits as its type says."""
        with BinLogStreamReader(sorted(TRUTH.glob("binlog.*")), program=PROGRAM) as events:
            sizes = {
                (column.type, len(row["values"][column.name]))
                for event in events
                for row in event.rows
                for column in event.columns
                if column.type.startswith("bit(") and row["values"][column.name] is not None
            }
        self.assertGreater(len(sizes), 3)
        self.assertEqual({f"bit({size})" for _, size in sizes}, {type_text for type_text, _ in sizes})


class ByHand(unittest.TestCase):
    """Values of each type, as a line has them and as Python has."""

    def test_types(self):
        cases = [
            ("int unsigned", 4000000000, 4000000000),
            ("decimal(8,2) unsigned", "21.80", Decimal("21.80")),
            ("float", 0.1, 13421773 / 2**27),
            ("float", 3.4028235e38, struct.unpack("<f", b"\xff\xff\x7f\x7f")[0]),
            ("float", 1e-45, 2.0**-149),
            ("float unsigned", 1.5, 1.5),
            ("double unsigned", 0.1, 0.1),
            ("double", 1e22, 1e22),
            ("float", in_base64(struct.pack("<f", float("inf")), "raw"), float("inf")),
            ("double", in_base64(struct.pack("<d", float("-inf")), "raw"), float("-inf")),
            ("varchar utf8mb4", "é", "é"),
            ("varchar utf8mb4", in_base64(b"\xff"), b"\xff"),
            ("varchar utf8mb4", {**in_base64(b"\xff"), "charset": "utf8mb4"}, b"\xff"),
            ("varchar gbk", {**in_base64(b"\xd6\xd0"), "charset": "gbk"}, "中"),
            ("varchar sjis", {**in_base64(b"\x81\x5f"), "charset": "sjis"}, "\\"),
            ("char hp8", {**in_base64(b"a"), "charset": "hp8"}, b"a"),
            ("varchar", in_base64(b"a"), b"a"),
            ("enum gbk", {**in_base64(b"\xd6\xd0"), "charset": "gbk"}, "中"),
            ("enum utf8mb4", 3, 3),
            ("enum binary", in_base64(b"a"), b"a"),
            ("set utf8mb4", "a,b", {"a", "b"}),
            ("set utf8mb4", "", set()),
            ("set utf8mb4", 3, 3),
            ("set gbk", {**in_base64(b"\xd6\xd0,b"), "charset": "gbk"}, {"中", "b"}),
            ("set binary", in_base64(b"a,\xff"), {b"a", b"\xff"}),
            ("set binary", in_base64(b""), set()),
            ("binary(4)", in_base64(b"\0\xff\0\0"), b"\0\xff\0\0"),
            ("blob", in_base64(b""), b""),
            ("geometry", in_base64(b"\0\0", "raw"), b"\0\0"),
            ("vector(3)", [1.0, 2.5, -3.0], [1.0, 2.5, -3.0]),
            ("vector(2)", [0.1, -0.0], [13421773 / 2**27, -0.0]),
            ("vector", [], []),
            ("vector(3)", in_base64(b"\0\0\xc0\x7f", "raw"), b"\0\0\xc0\x7f"),
            ("json", [1, {"a": None}], [1, {"a": None}]),
            ("json", {**in_base64(b"a"), "type": 252}, {**in_base64(b"a"), "type": 252}),
            ("json", in_base64(b"\xff", "raw"), in_base64(b"\xff", "raw")),
            ("bit(9)", 257, "100000001"),
            ("bit(9)", 0, "000000000"),
            ("year", "2024", 2024),
            ("year", "0000", None),
            ("date", "2024-02-29", datetime.date(2024, 2, 29)),
            ("date", "2024-02-00", None),
            ("datetime", "2024-05-06 07:08:09", datetime.datetime(2024, 5, 6, 7, 8, 9)),
            ("datetime(1)", "2024-05-06 07:08:09.5", datetime.datetime(2024, 5, 6, 7, 8, 9, 500000)),
            ("datetime(4)", "2024-05-06 07:08:09.0125", datetime.datetime(2024, 5, 6, 7, 8, 9, 12500)),
            ("datetime(6)", "9999-12-31 23:59:59.999999", datetime.datetime(9999, 12, 31, 23, 59, 59, 999999)),
            ("datetime", "0000-00-00 00:00:00", None),
            ("timestamp", "1700000000", datetime.datetime(2023, 11, 14, 22, 13, 20, tzinfo=UTC)),
            ("timestamp(2)", "1700000000.25", datetime.datetime(2023, 11, 14, 22, 13, 20, 250000, tzinfo=UTC)),
            ("timestamp(1)", "0.5", datetime.datetime(1970, 1, 1, 0, 0, 0, 500000, tzinfo=UTC)),
            ("timestamp", "0", None),
            ("timestamp(2)", "0.00", None),
            ("time", "12:34:56", datetime.timedelta(hours=12, minutes=34, seconds=56)),
            ("time", "-838:59:59", -datetime.timedelta(hours=838, minutes=59, seconds=59)),
            ("time(2)", "-00:00:00.01", -datetime.timedelta(milliseconds=10)),
            ("time(6)", "00:00:00.000001", datetime.timedelta(microseconds=1)),
        ]
        for type_text, value, wanted in cases:
            with self.subTest(type=type_text, value=value):
                came = value_of(type_text, value)
                self.assertEqual(came, wanted)
                self.assertIs(type(came), type(wanted))

    def test_naive_timestamps(self):
        came = value_of("timestamp", "1700000000", naive_timestamps=True)
        self.assertEqual((came, came.tzinfo), (datetime.datetime(2023, 11, 14, 22, 13, 20), None))
        self.assertEqual(value_of("timestamp", "1700000000").tzinfo, UTC)

    def test_raw_values(self):
        for type_text, value, wanted in (
            ("decimal(8,2)", "21.80", "21.80"),
            ("datetime", "0000-00-00 00:00:00", "0000-00-00 00:00:00"),
            ("timestamp", "0", "0"),
            ("year", "0000", "0000"),
            ("bit(9)", 257, 257),
            ("set utf8mb4", "a,b", "a,b"),
            ("set gbk", {**in_base64(b"\xd6\xd0"), "charset": "gbk"}, b"\xd6\xd0"),
            ("varchar gbk", {**in_base64(b"\xd6\xd0"), "charset": "gbk"}, b"\xd6\xd0"),
            ("float", 0.1, 0.1),
            ("float", in_base64(b"abcd", "raw"), b"abcd"),
            ("json", in_base64(b"\xff", "raw"), in_base64(b"\xff", "raw")),
            ("blob", in_base64(b"\xff"), b"\xff"),
        ):
            self.assertEqual(value_of(type_text, value, raw=True), wanted)

    def test_on_bad_value(self):
        """It is asked with the column and the value, for dates that Python hasn't, and bytes that are no text."""
        asked = []
        bad = {"date": "2024-02-00", "datetime(3)": "0000-00-00 00:00:00.000", "timestamp": "0", "year": "0000"}
        bad["char hp8"] = {**in_base64(b"a"), "charset": "hp8"}
        for type_text, value in bad.items():
            came = value_of(type_text, value, on_bad_value=lambda column, value: asked.append((column, value)) or "instead")
            self.assertEqual(came, "instead")
        wanted = [*list(bad.values())[:4], b"a"]
        self.assertEqual(asked, [(Column("c", type_text), value) for type_text, value in zip(bad, wanted)])
        self.assertEqual(value_of("date", "2024-02-01", on_bad_value=lambda column, value: "instead"), datetime.date(2024, 2, 1))

    def test_codecs(self):
        for charset in CODECS:
            self.assertEqual(to_text(b"abc 123", charset), "abc 123")
        # A letter of each set that has it at another place than its neighbours.
        for charset, raw, wanted in (("latin2", "b1", "ą"), ("latin7", "e0", "ą"), ("macce", "88", "ą"), ("koi8u", "a4", "є"),
                                     ("cp1251", "e4", "д"), ("koi8r", "c4", "д"), ("cp866", "a4", "д"), ("hebrew", "e0", "א"),
                                     ("greek", "e1", "α"), ("tis620", "a1", "ก"), ("ujis", "b0a1", "亜"), ("big5", "a440", "一"),
                                     ("gb2312", "d2bb", "一"), ("gb18030", "d2bb", "一"), ("cp932", "88ea", "一"),
                                     ("euckr", "b0a1", "가"), ("latin5", "fd", "ı"), ("cp1257", "e0", "ą")):  # fmt: skip
            self.assertEqual(to_text(bytes.fromhex(raw), charset), wanted, charset)
        with self.assertRaises(ValueError):
            to_text(b"a", "swe7")
        with self.assertRaises(ValueError):
            to_text(b"\xff", "gbk")


class Lines(FolderTest):
    """Lines whose members look like others."""

    def events(self, *lines):
        """The events of some lines."""
        return list(BinLogStreamReader("f", program=self.stub(f"cat <<'END'\n{chr(10).join(lines)}\nEND"), together=False))

    def test_names_that_members_have(self):
        """Columns, tables and values with the names and signs by which a line is taken apart."""
        row = {"key": '],"types":{', "kind": "},", "timestamp": ',"timestamp":', "token": ',"key":[', "types": '"'}
        line = {"after": row, "before": None, "gtid": None, "key": ["types", ',"timestamp":'],
                "types": {name: "varchar utf8mb4" for name in (*row, '],"types":{')}, "kind": "insert",
                "schema": ',"timestamp":9', "table": '],"types":{"', "timestamp": 7, "token": '4.1@,"timestamp":1'}  # fmt: skip
        (event,) = self.events(json.dumps(line, separators=(",", ":")))
        self.assertEqual((event.after, event.key, event.timestamp), (row, tuple(line["key"]), 7))
        self.assertEqual((event.schema, event.table, event.token), (line["schema"], line["table"], line["token"]))
        self.assertEqual([column.name for column in event.columns], [*row, '],"types":{'])

    def documents(self, text, **options):
        """The value of a JSON column that a line has so."""
        line = '{"after":{"d":%s,"f":0.1},"before":null,"gtid":null,"key":[],"types":{"d":"json","f":"float"},"kind":"insert",' \
            '"schema":"s","table":"t","timestamp":1,"token":"4.1@f"}'  # fmt: skip
        program = self.stub(f"cat <<'END'\n{line % text}\nEND")
        (event,) = BinLogStreamReader("f", program=program, together=False, **options)
        self.assertEqual(event.after["f"], 0.1 if options.get("raw_values") else 13421773 / 2**27)
        return event.after["d"]

    def test_documents(self):
        """Whatever the members of a document are called. A number is a float where that has its digits."""
        for text, wanted in (
            ("null", None), ("true", True), ('"2015-01-15"', "2015-01-15"), ("18446744073709551615", 2**64 - 1),
            ("1.5", 1.5), ("1e+22", 1e22), ("-0.0", -0.0), ("1.50", 1.5),
            ("12345678901234567890.5", Decimal("12345678901234567890.5")), ("9" * 65, int("9" * 65)),
            ('{"raw":"/w=="}', {"raw": "/w=="}), ('{"base64":1}', {"base64": 1}),
            ('{"base64":"YQ==","type":252}', {"base64": "YQ==", "type": 252}),
            ('[{"key":[1],"types":{"timestamp":1}},{"timestamp":3}]', [{"key": [1], "types": {"timestamp": 1}}, {"timestamp": 3}]),
        ):  # fmt: skip
            for options in ({}, {"raw_values": True}, {"convert": {"t.d": lambda value: value}}):
                with self.subTest(text=text, options=options):
                    came = self.documents(text, **options)
                    self.assertEqual((repr(came), type(came)), (repr(wanted), type(wanted)))

    def test_forms(self):
        """Each line has its own key and types, whatever stood before it."""
        line = '{"after":{"c":"1"},"before":null,"gtid":null,"key":[%s],"types":{"c":"%s"},"kind":"insert","schema":"s","table":"%s",' \
            '"timestamp":1,"token":"4.1@f"}'  # fmt: skip
        told = [("", "decimal(1,0)", "t"), ('"c"', "decimal(1,0)", "t"), ("", "varchar utf8mb4", "t"), ("", "year", "u")] * 2
        events = self.events(*(line % one for one in told))
        self.assertEqual([(event.primary_key, event.columns[0].type, event.table) for event in events],
                         [("c" if key else "", type_text, table) for key, type_text, table in told])  # fmt: skip
        self.assertEqual([event.after["c"] for event in events], [Decimal(1), Decimal(1), "1", 1] * 2)
        self.assertIs(events[0].columns, events[4].columns)

    def test_a_plain_line(self):
        line = '{"after":{"c":1},"before":null,"gtid":null,"kind":"insert","schema":"s","table":"t","timestamp":1,"token":"4.1@f"}'
        with self.assertRaises(ProgramFailed):
            self.events(line)

    def test_columns_and_keys(self):
        events = {event.table: event for event in BinLogStreamReader(SHOP, program=PROGRAM)}
        self.assertEqual(events["line"].primary_key, ("purchase", "nr"))
        self.assertEqual((events["product"].primary_key, events["product"].key), ("sku", ("sku",)))
        # In the table's order.
        self.assertEqual([column.name for column in events["product"].columns], ["sku", "title", "price", "tags", "weight"])
        self.assertEqual(events["product"].columns[2], Column("price", "decimal(8,2)"))
        self.assertEqual(dict(events["purchase"].columns)["paid"], "timestamp")
