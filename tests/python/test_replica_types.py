"""The replica's values: those of a log that has all types are what its server says, in SQLite and in PostgreSQL."""
import argparse
import calendar
import datetime
import json
import math
import sqlite3
import struct
import time
import unittest
from decimal import Decimal
from unittest import mock

import fitting
import postgres
import replica
from binlogfeed import JSON_NULL
from built.truth import TRUTH, declared_types, server_truth
from replicas import HAS_POSTGRES, LinesTest, OnPostgres, PostgresServer, SqliteFiles, ended, full_line, python_with_psycopg

LOGS = f"{TRUTH}/binlog.0*"
# PostgreSQL's types for the kinds of columns, where the kind alone says it.
POSTGRES = {
    "bit": "bit varying", "decimal": "numeric", "bytes": "bytea", "json": "jsonb", "year": "smallint", "date": "date",
    "datetime": "timestamp", "time": "interval", "timestamp": "timestamptz", "int": "numeric",
}  # fmt: skip
SQLITE = {"bytes": "BLOB", "year": "INTEGER", "float": "REAL", "int": "INTEGER"}
# A value of each kind of column that may be null, and the target's type for it.
ALL = [
    ("flag", "tinyint", 1, "boolean", True), ("bits", "bit(3)", 1, "bit(3)", "001"),
    ("on", "bit(1)", 0, "boolean", False),
    ("most", "bigint unsigned", 18446744073709551615, "numeric(20)", 18446744073709551615),
    ("least", "tinyint", -128, "smallint", -128), ("price", "decimal(8,2)", "-0.50", "numeric(8,2)", -0.50),
    ("ratio", "float", 0.1, "real", 0.1),
    ("size", "double", 0.1, "double precision", 0.1),
    ("doc", "json", {"a": 1}, "jsonb", {"a": 1}),
    ("born", "date", "2024-02-29", "date", "2024-02-29"),
    ("at", "datetime(3)", "2024-02-29 01:02:03.500", "timestamp", "2024-02-29T01:02:03.5"),
    ("seen", "timestamp(2)", "1714982400.25", "timestamptz", "2024-05-06T08:00:00.25+00:00"),
    ("wait", "time", "-01:02:03", "interval", "-01:02:03"), ("hour", "time", "23:59:59", "time", "23:59:59"),
    ("made", "year", "1999", "smallint", 1999), ("level", "enum utf8mb4", "gold", "text", "gold"),
    ("marks", "set utf8mb4", "new,o\"k", "text[]", ["new", 'o"k']), ("none", "set utf8mb4", "", "text[]", []),
    ("names", "set utf8mb4", "a,b", "text", "a,b"), ("raw", "varbinary(9)", {"base64": "AP9c"}, "bytea", "\\x00ff5c"),
    ("uid", "binary(16)", {"base64": "AAECAwQFBgcICQoLDA0ODw=="}, "uuid", "00010203-0405-0607-0809-0a0b0c0d0e0f"),
    ("code", "char utf8mb4", "ab", "char(4)", "ab  "),
    ("text", "text utf8mb4", "it's\t\\N \\\n\r:x 李", "text", "it's\t\\N \\\n\r:x 李"),
    ("gbk", "varchar gbk", {"base64": "1tA=", "charset": "gbk"}, "bytea", "\\xd6d0"),
    ("han", "varchar gbk", {"base64": "1tA=", "charset": "gbk"}, "text", "中"),
    ("latin", "varchar utf8mb4", "é", "bytea", "\\xc3a9"),
]  # fmt: skip
ALL += [("rank", "enum utf8mb4", "tin", "metal", "tin"), ("count", "int", 8, "few", 8)]
# Values that PostgreSQL's columns can't hold.
UNFIT = [
    ("date", "0000-00-00", "date"), ("date", "2024-02-00", "date"), ("datetime", "2024-00-01 00:00:00", "timestamp"),
    ("timestamp(1)", "0.0", "timestamptz"), ("time", "-00:00:01", "time"), ("time", "24:00:00", "time"),
    ("time", "838:59:59", "time"), ("tinyint", 2, "boolean"), ("varchar utf8mb4", "a\0b", "text"),
    ("varchar gbk", {"base64": "1g==", "charset": "gbk"}, "text"),
    ("char swe7", {"base64": "QQ==", "charset": "swe7"}, "text"),
    ("text utf8mb4", {"base64": "/w==", "charset": "utf8mb4"}, "text"), ("varchar", {"base64": "QQ=="}, "text"),
    ("blob", {"base64": "AP8="}, "text"), ("binary(2)", {"base64": "AP8="}, "uuid"),
]  # fmt: skip


def expected(kind, type_, true):
    """What a server says of a value, so that it can be compared."""
    if kind in ("text", "enum", "set"):
        return bytes.fromhex(true).decode()
    if kind == "bytes":
        return bytes.fromhex(true)
    if kind == "json":
        return json.loads(true)
    if kind == "float":
        return struct.unpack("<f", struct.pack("<f", float(true)))[0] if type_.startswith("float") else float(true)
    return int(true) if kind in ("int", "bit", "year") else Decimal(true) if kind in ("decimal", "timestamp") else true


def of_sqlite(kind, type_, value):
    """A value of SQLite, so that it can be compared."""
    if kind == "timestamp":
        whole = calendar.timegm(time.strptime(value[:19], "%Y-%m-%d %H:%M:%S"))
        return Decimal(f"{whole}{value[19:].replace('+00:00', '')}")
    if kind == "float":
        return struct.unpack("<f", struct.pack("<f", value))[0] if type_.startswith("float") else value
    return {"json": json.loads, "decimal": Decimal, "int": int, "bit": int}.get(kind, lambda it: it)(value)


def of_postgres(kind, type_, value):
    """A value of PostgreSQL, by its text, so that it can be compared."""
    if kind == "bytes":
        return bytes.fromhex(value[2:])
    if kind == "float":
        return of_sqlite(kind, type_, float(value))
    if kind == "bit":
        return int(value, 2)
    readers = {"json": json.loads, "int": int, "year": int, "decimal": Decimal, "timestamp": Decimal, "time": Decimal}
    return readers.get(kind, str)(value)


def made(type_of):
    """The statements that make the tables, each column of a type that fits."""
    tables = []
    for name, table in server_truth().items():
        types = declared_types()[name]
        columns = ", ".join(f"{column} {type_of(kind, types[column])}" for column, kind in table.kinds.items())
        tables.append(f"CREATE TABLE {name} (id INTEGER PRIMARY KEY, {columns})")
    return "; ".join(tables)


def postgres_type(kind, type_):
    """A column's type in PostgreSQL."""
    if kind == "float":
        return "real" if type_.startswith("float") else "double precision"
    return POSTGRES.get(kind, "text")


def expected_of_postgres(kind, type_, true):
    """What PostgreSQL should have of what the server says: no days that are none, no zeros at a fraction's end."""
    if kind in ("date", "datetime"):
        return None if not is_day(true) else true.rstrip("0").rstrip(".") if "." in true else true
    if kind == "time":
        return seconds(true)
    found = expected(kind, type_, true)
    return None if kind in ("text", "enum", "set") and "\0" in found else found


def seconds(text):
    """The seconds of a TIME."""
    sign, (hours, minutes, rest) = -1 if text[0] == "-" else 1, text.lstrip("-").split(":")
    return sign * (int(hours) * 3600 + int(minutes) * 60 + Decimal(rest))


def is_day(text):
    """Whether a date is a day."""
    try:
        return bool(datetime.date.fromisoformat(text[:10]))
    except ValueError:
        return False


class Truth(LinesTest):
    """A server's tables of all types."""

    def check(self, rows_of, read, wanted_of):
        """Compares each value."""
        checked = 0
        for name, table in server_truth().items():
            types = declared_types()[name]
            rows = rows_of(name, table.kinds)
            self.assertEqual({str(row) for row in rows}, set(table.rows))
            for number, row in rows.items():
                for column, true in table.rows[str(number)].items():
                    kind, type_ = table.kinds[column], types[column]
                    found = None if row[column] is None else read(kind, type_, row[column])
                    wanted = None if true is None else wanted_of(kind, type_, true)
                    self.assertEqual(found, wanted, f"{name}.{column} of {number}, {type_}")
                    checked += 1
        self.assertGreater(checked, 4000)

    def test_sqlite(self):
        files = SqliteFiles()
        self.addCleanup(files.stop)

        def type_of(kind, type_):
            """A column's type in SQLite."""
            return "TEXT" if type_ == "bigint unsigned" else SQLITE.get(kind, "TEXT")

        def rows_of(name, _kinds):
            """The rows of a table."""
            return {row["id"]: row for row in files.asked(target, f"SELECT * FROM {name}")}

        target = files.made(made(type_of))
        self.assertEqual(ended(target, "truth", "--commit-every", "20", logs=LOGS), (0, ""))
        self.check(rows_of, of_sqlite, expected)

    @unittest.skipUnless(HAS_POSTGRES, "there is no PostgreSQL")
    def test_postgres(self):
        server = PostgresServer()
        self.addCleanup(server.stop)
        target = server.made(made(postgres_type))

        def rows_of(name, kinds):
            """The rows of a table, each value as a text."""
            shown = {"time": "extract(epoch FROM {0})::text AS {0}", "timestamp": "extract(epoch FROM {0})::text AS {0}"}
            parts = ", ".join(shown.get(kind, "{0}::text").format(column) for column, kind in kinds.items())
            query = f"SELECT row_to_json(t) FROM (SELECT id, {parts} FROM {name}) AS t"
            return {row["id"]: row for row in map(json.loads, server.asked(target, query))}

        self.assertEqual(ended(target, "truth", "--commit-every", "20", logs=LOGS)[0], 7)
        self.assertEqual(ended(target, "truth", "--commit-every", "20", "--unfit", "null", logs=LOGS), (0, ""))
        self.check(rows_of, of_postgres, expected_of_postgres)


class Columns(OnPostgres, LinesTest):
    """Columns of PostgreSQL, and values that they can't hold."""

    def rows(self, target):
        """The rows of the table."""
        query = "SELECT row_to_json(t) FROM t ORDER BY id"
        return [json.loads(text) for text in self.server.asked(target.replace("psycopg:", "psql:"), query)]

    def all_lines(self):
        """Each kind of column, put in by a row, by many, and by updates of one and of many; its table, and its rows at the end."""
        kinds = {"id": "int", **{name: type_ for name, type_, *_ in ALL}}
        new = {name: value for name, _, value, *_ in ALL}
        none = dict.fromkeys(new)
        lines = [full_line((1, n), "t", None, {"id": n, **(none if n % 2 else new)}, kinds) for n in range(1, 80)]
        lines += [full_line((2, 1), "t", None, {"id": 80, **new}, kinds)]
        lines += [full_line((3, n), "t", {"id": n, **none}, {"id": n, **new}, kinds) for n in range(1, 30, 2)]
        lines += [full_line((4, 1), "t", {"id": 31, **none}, {"id": 31, **new}, kinds)]
        lines += [full_line((5, n), "t", {"id": n, **new}, None, kinds) for n in range(4, 30, 2)]
        filled = {n: n % 2 == 0 or n <= 31 for n in [1, 2, 3, *range(5, 30, 2), *range(30, 81)]}
        wanted = [{"id": n, **({name: value for name, *_, value in ALL} if filled[n] else none)} for n in filled]
        columns = ", ".join(f'"{name}" {kind}' for name, _, _, kind, _ in ALL)
        types = "CREATE TYPE metal AS ENUM ('gold', 'tin'); CREATE DOMAIN few AS integer CHECK (VALUE < 9); "
        table = f"{types}CREATE TABLE t (id integer GENERATED ALWAYS AS IDENTITY PRIMARY KEY, {columns})"
        return lines, table, wanted

    def test_all(self):
        lines, table, wanted = self.all_lines()
        told = self.told(lines)
        for client, python in (("psql", None), ("psycopg", python_with_psycopg())):
            if client == "psycopg" and not python:
                continue
            target = self.server.made(table).replace("psql:", f"{client}:")
            self.assertEqual(ended(target, "made", **told, **({"python": python} if python else {})), (0, ""))
            self.assertEqual(self.rows(target), wanted)

    def test_nothing_is_taken_back(self):
        """What is right is put in at once, and not taken back to be put in one by one."""
        lines, table, wanted = self.all_lines()
        target = self.server.made(table)
        options = {"profile": "server", "columns": None, "follow": False, "commit_every": 9, "unfit": "error", "begin": "first", "lag": 0.0}
        options |= {"only_tables": "", "create": False, "server": None, "defaults_file": None, "truncate": False, "done": None}
        given = argparse.Namespace(target=target, schema="made", **self.told(lines), **options)
        with mock.patch.object(postgres.Postgres, "rollback", side_effect=AssertionError):
            replica.keep_up(given)
        self.assertEqual(self.rows(target), wanted)

    def test_unfit(self):
        """A value that the column can't hold ends the run, or is NULL there."""
        for log, value, kind in UNFIT:
            with self.subTest(value=value, kind=kind):
                types = {"id": "int", "v": log}
                rows = [{"id": 1, "v": None}, {"id": 2, "v": value}]
                told = self.told([full_line((1, row["id"]), "t", None, row, types) for row in rows])
                target = self.server.made(f"CREATE TABLE t (id integer PRIMARY KEY, v {kind})")
                status, said = ended(target, "made", **told)
                self.assertEqual(status, 7)
                line = r"\Areplica: made\.t\.v is [a-z ]+ in the target, and can't hold .+ at 100\.2@binlog\.000001\n\Z"
                self.assertRegex(said, line)
                self.assertEqual(self.rows(target), [])
                self.assertEqual(ended(target, "made", "--unfit", "null", **told), (0, ""))
                self.assertEqual(self.rows(target), [{"id": 1, "v": None}, {"id": 2, "v": None}])

    def test_json_null(self):
        """The JSON null is a document, and no NULL: by one row, and by many."""
        rows = [{"id": n, "d": JSON_NULL if n % 2 else None} for n in range(1, 80)]
        types = {"id": "int", "d": "json"}
        lines = [full_line((1, 1), "t", None, {"id": 0, "d": JSON_NULL}, types)]
        lines += [full_line((2, row["id"]), "t", None, row, types) for row in rows]
        for kind in ("jsonb", "json", "text"):
            target = self.server.made(f"CREATE TABLE t (id integer PRIMARY KEY, d {kind})")
            self.assertEqual(ended(target, "made", **self.told(lines)), (0, ""))
            found = self.server.asked(target, "SELECT coalesce(d::text, 'NULL') FROM t ORDER BY id")
            self.assertEqual(found, ["null", *["null" if row["d"] is JSON_NULL else "NULL" for row in rows]])

    def test_refused_by_the_server(self):
        """What PostgreSQL itself refuses ends the run, also with --unfit null: the server has no NULL for it."""
        told = self.told([full_line((1, 1), "t", None, {"id": 3000000000}, {"id": "bigint"})])
        target = self.server.made("CREATE TABLE t (id integer PRIMARY KEY)")
        status, said = ended(target, "made", "--unfit", "null", **told)
        self.assertEqual(status, 7)
        self.assertRegex(said, "the insert at 100.1@binlog.000001 is refused: .*3000000000.* is out of range")


class Fitting(LinesTest):
    """What a value becomes, and what SQLite can't hold."""

    def test_sqlite_unfit(self):
        for log, value in (("bigint unsigned", 1 << 63), ("bit(64)", (1 << 64) - 1)):
            types = {"id": "int", "v": log}
            told = self.told([full_line((1, 1), "t", None, {"id": 1, "v": value}, types)])
            files = SqliteFiles()
            self.addCleanup(files.stop)
            target = files.made("CREATE TABLE t (id INTEGER PRIMARY KEY, v INTEGER)")
            said = f"replica: made.t.v is INTEGER in the target, and can't hold {value} at 100.1@binlog.000001\n"
            self.assertEqual(ended(target, "made", **told), (7, said))
            self.assertEqual(ended(target, "made", "--unfit", "null", **told), (0, ""))
            self.assertEqual(files.asked(target, "SELECT v FROM t"), [{"v": None}])
            target = files.made("CREATE TABLE t (id INTEGER PRIMARY KEY, v TEXT)")
            self.assertEqual(ended(target, "made", **told), (0, ""))
            self.assertEqual(files.asked(target, "SELECT v FROM t"), [{"v": str(value)}])

    def test_json_nulls(self):
        """The JSON null is a document, and no NULL; so where an update goes from one to the other."""
        types = {"id": "int", "d": "json"}
        rows = [{"id": 1, "d": JSON_NULL}, {"id": 2, "d": None}, {"id": 3, "d": {"a": None}}]
        lines = [full_line((1, row["id"]), "t", None, row, types) for row in rows]
        lines += [full_line((2, 1), "t", {"id": 3, "d": {"a": None}}, {"id": 3, "d": JSON_NULL}, types)]
        last = {"id": 4, "d": JSON_NULL}
        lines += [full_line((3, 1), "t", None, last, types), full_line((3, 2), "t", last, {"id": 4, "d": None}, types)]
        wanted = [{"id": 1, "d": "null"}, {"id": 2, "d": None}, {"id": 3, "d": "null"}, {"id": 4, "d": None}]
        files = SqliteFiles()
        self.addCleanup(files.stop)
        target = files.made("CREATE TABLE t (id INTEGER PRIMARY KEY, d TEXT)")
        self.assertEqual(ended(target, "made", **self.told(lines)), (0, ""))
        self.assertEqual(files.asked(target, "SELECT * FROM t ORDER BY id"), wanted)

    def test_affinity(self):
        """As SQLite itself says it."""
        files = SqliteFiles()
        self.addCleanup(files.stop)
        types = "INT, bigint, CHARINT, VARCHAR(9), CLOB, text, BLOB, , REAL, FLOAT, DOUBLE PRECISION, DECIMAL(8), DATE"
        for declared in types.split(", "):
            target = files.made(f"CREATE TABLE t (v {declared})")
            for value in ("5", 5):
                files.asked(target, "INSERT INTO t VALUES (?)", [value])
            found = [row["it"] for row in files.asked(target, "SELECT typeof(v) AS it FROM t ORDER BY rowid")]
            affinity = fitting.affinity_of(declared)
            kept = {"TEXT": ["text", "text"], "BLOB": ["text", "integer"], "REAL": ["real", "real"]}
            self.assertEqual(found, kept.get(affinity, ["integer", "integer"]), declared)

    def test_negative_zero(self):
        """SQLite has none in a REAL column. A column without a type has it, and so has a text, which keeps all digits."""
        connection = sqlite3.connect(":memory:")
        connection.execute("CREATE TABLE t (a REAL, b, c BLOB, d TEXT, e TEXT)")
        double, single = struct.pack("<d", -0.0), struct.pack("<f", 0.1)
        declared = ("REAL", "", "BLOB", "TEXT", "TEXT")
        logged = (("double", double),) * 4 + (("float", single),)
        values = [fitting.for_sqlite(log, target)(raw) for (log, raw), target in zip(logged, declared)]
        connection.execute("INSERT INTO t VALUES (?, ?, ?, ?, ?)", values)
        (row,) = connection.execute("SELECT * FROM t")
        self.assertEqual([math.copysign(1, value) for value in row[:3]], [1, -1, -1])
        self.assertEqual(row[3:], ("-0.0", "0.1"))
        self.assertEqual(fitting.for_sqlite("double", "TEXT")(struct.pack("<d", 0.1 + 0.2)), "0.30000000000000004")

    def test_vectors(self):
        """A text of the numbers, in both. Bytes that are none don't fit."""
        for converter in (fitting.for_sqlite("vector(3)", "TEXT"), fitting.for_postgres("vector(3)", "text")):
            self.assertEqual(converter([1.0, 2.5, -0.0, 1e-07]), "[1.0,2.5,-0.0,1e-07]")
            with self.assertRaises(fitting.UnfitError):
                converter(b"\0")
        with self.assertRaises(fitting.UnfitError):
            fitting.for_postgres("vector(3)", "bytea")([1.0])

    def test_json(self):
        for document, text in (
            ("abc", '"abc"'), ([True, -2, 1.5, None], "[true, -2, 1.5, null]"), ({"é": {}}, '{"é": {}}'),
            ([Decimal("12345678901234567890.5")], '["12345678901234567890.5"]'),
        ):  # fmt: skip
            self.assertEqual(fitting.json_text(document), text)

    def test_moments(self):
        told = {
            "0": "0000-00-00 00:00:00",
            "0.00": "0000-00-00 00:00:00.00",
            "0.5": "1970-01-01 00:00:00.5+00:00",
            "2147483647.999": "2038-01-19 03:14:07.999+00:00",
        }
        self.assertEqual({value: fitting.moment(value) for value in told}, told)
