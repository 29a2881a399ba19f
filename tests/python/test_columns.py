"""Columns that are given for tables: what a file says of them, what fits the log, and what comes of it."""
import json
from unittest import TestCase

from binlogfeed import BinLogStreamReader, Column, ColumnsMismatch, FileFault, WordsRefused
from binlogfeed.columns import Table, fitted, is_type, namer, tables_of
from support import PROGRAM, SHOP, FolderTest

HEAD = "TABLE_SCHEMA\tTABLE_NAME\tCOLUMN_NAME\tCOLUMN_TYPE\tORDINAL_POSITION\tCOLUMN_KEY\n"
# The shop's table, by its statements.
CUSTOMER = ["id", "name", "email", "joined", "level"]
# Types of a full line, and those of a server that they may and may not stand for (`show columns` of MySQL 5.7 to 9.7).
TYPES = {
    "int": (["int", "int(11)", "INT"], ["int unsigned", "bigint", "int(10) unsigned zerofill", ""]),
    "int unsigned": (["int unsigned", "int(10) unsigned zerofill"], ["int", "int(11)"]),
    "tinyint": (["tinyint(1)", "tinyint"], ["tinyint unsigned", "smallint"]),
    "float": (["float", "float(7,3)"], ["float unsigned", "double"]),
    "double unsigned": (["double unsigned"], ["double"]),
    "decimal(8,2)": (["decimal(8,2)"], ["decimal(8,3)", "decimal(9,2)", "decimal(8,2) unsigned"]),
    "bit(9)": (["bit(9)"], ["bit(8)", "bit(10)"]),
    "year": (["year", "year(4)"], ["date"]),
    "date": (["date"], ["datetime"]),
    "time": (["time"], ["time(3)"]),
    "datetime(3)": (["datetime(3)"], ["datetime", "datetime(6)", "timestamp(3)"]),
    "timestamp(6)": (["timestamp(6)"], ["timestamp"]),
    "char utf8mb4": (["char(20)"], ["varchar(20)", "binary(20)"]),
    "varchar latin1": (["varchar(20)", "varchar(300)"], ["char(20)", "text", "varbinary(20)"]),
    "varchar": (["varchar(20)", "varbinary(20)"], ["text", "blob"]),
    "binary(16)": (["binary(16)"], ["binary(15)", "char(16)"]),
    "varbinary(16)": (["varbinary(16)"], ["varbinary(17)", "varchar(16)"]),
    "text utf8mb4": (["text"], ["mediumtext", "blob"]),
    "longtext": (["longtext", "longblob"], ["text"]),
    "blob": (["blob"], ["tinyblob", "text"]),
    "enum": (["enum('a','b')", "enum(') unsigned')"], ["set('a','b')", "varchar(1)"]),
    "set utf8mb4": (["set('a','b')"], ["enum('a')"]),
    "json": (["json"], ["longtext"]),
    "vector(3)": (["vector(3)"], ["vector(4)", "blob", "varbinary(3)"]),
    "vector": (["vector(3)", "vector(4)"], ["blob"]),
    "geometry": (["geometry", "point", "linestring", "polygon", "multipoint", "geomcollection", "geometrycollection"], ["blob"]),
}


def numbered(*types):
    """Columns that have no names in the log."""
    return tuple(Column(f"@{number}", type_) for number, type_ in enumerate(types, 1))


def unnamed_line(row, types, before=None, place="4.1@f", kind="insert", table="t"):
    """A full line of a table without names, in the table's order."""
    columns = {f"@{number}": type_ for number, type_ in enumerate(types, 1)}
    members = {"after": row, "before": before, "gtid": None, "key": [], "types": columns, "kind": kind, "schema": "s", "table": table}
    return json.dumps({**members, "timestamp": 1, "token": place}, separators=(",", ":"))


class Files(FolderTest):
    """What a file says."""

    def file_of(self, text):
        """A file of this text."""
        return self.put("columns.tsv", text.encode())

    def test_tables(self):
        """In any order of lines and columns, by names of great or small letters."""
        rows = ["s\tb\tv\tvarchar(9)\t2\t", "s\ta\tid\tint\t1\tPRI", "s\tb\tid\tint unsigned\t1\tPRI"]
        rows += ["s\tb\tk\tint\t3\tPRI", "s\tb\tw\tint\t4\tUNI"]
        wanted = {
            "s.b": Table(("id", "v", "k", "w"), ("int unsigned", "varchar(9)", "int", "int"), ("id", "k")),
            "s.a": Table(("id",), ("int",), ("id",)),
        }
        text = HEAD + "\n".join(rows) + "\n"
        for same in (text, HEAD.lower() + "\n".join(reversed(rows)), "\ufeff" + text.replace("\n", "\r\n")):
            self.assertEqual(tables_of(self.file_of(same)), wanted)
        turned = ["\t".join(reversed(line.split("\t"))) for line in [HEAD[:-1], *rows]]
        self.assertEqual(tables_of(str(self.file_of("\n".join(turned)))), wanted)

    def test_what_may_be_left_out(self):
        text = "ORDINAL_POSITION\tEXTRA\tTABLE_NAME\tCOLUMN_NAME\tTABLE_SCHEMA\n1\tauto_increment\tt\tid\ts\n"
        self.assertEqual(tables_of(self.file_of(text)), {"s.t": Table(("id",))})

    def test_escapes(self):
        """What the client escapes; of `a\\b` as a name the server says `a\\\\b` in the type, and the client doubles that."""
        tables = tables_of(self.file_of(HEAD + "s\tt\ta\\tb\\nc\\\\d\\0\tenum('a\\\\\\\\b','\\tc','d\\\\n')\t1\t\n"))
        self.assertEqual(tables["s.t"].names, ("a\tb\nc\\d\0",))
        self.assertEqual([namer("s.t", "c", tables["s.t"].types[0])(number) for number in (1, 2, 3)], ["a\\b", "\tc", "d\n"])

    def test_others(self):
        for text, said in (
            ("", "has no TABLE_SCHEMA, TABLE_NAME, COLUMN_NAME, ORDINAL_POSITION in its first line"),
            ("s\tt\tid\tint\t1\t\n", "has no TABLE_SCHEMA, TABLE_NAME, COLUMN_NAME, ORDINAL_POSITION in its first line"),
            (HEAD + "s\tt\tid\n", "has something else than a column in line 2"),
            (HEAD + "s\tt\tid\tint\tone\t\n", "has something else than a column in line 2"),
            (HEAD + "s\tt\tid\tint\t1\t\ns\tt\tv\tint\t1\t\n", "has a column twice in line 3"),
            (HEAD + "s\tt\tv\tint\t2\t\n", "hasn't all columns of s.t"),
            (HEAD + "s\tt\tid\tint\t0\t\ns\tt\tv\tint\t2\t\n", "hasn't all columns of s.t"),
        ):
            path = self.file_of(text)
            with self.assertRaises(WordsRefused) as caught:
                tables_of(path)
            self.assertEqual((caught.exception.line, caught.exception.status), (f"binlogfeed: {path} {said}", 2))
        with self.assertRaisesRegex(WordsRefused, "isn't UTF-8"):
            tables_of(self.put("columns.tsv", "TABLE_SCHEMA".encode("utf-16")))
        with self.assertRaisesRegex(FileFault, "cannot open none: No such file or directory"):
            tables_of("none")

    def test_mappings(self):
        self.assertEqual(tables_of({"s.t": ["id", "v"]}), {"s.t": Table(("id", "v"))})
        self.assertEqual(tables_of(None), {})
        for given, error in (({"s.t": "id"}, TypeError), ({"t": ["id"]}, ValueError), ({"s.t": ["id", "id"]}, ValueError)):
            with self.assertRaises(error):
                tables_of(given)


class Fits(TestCase):
    """What fits a log."""

    def differs(self, given, columns, column, in_log, told):
        """What doesn't fit is told with both sides."""
        with self.assertRaises(ColumnsMismatch) as caught:
            fitted(given, "s.t", columns, ())
        error = caught.exception
        self.assertEqual((error.table, error.column, error.in_log, error.given, error.status), ("s.t", column, in_log, told, 7))

    def test_types(self):
        for log, (same, others) in TYPES.items():
            for given in same:
                self.assertTrue(is_type(log, given), (log, given))
            for given in others:
                self.assertFalse(is_type(log, given), (log, given))

    def test_each_type(self):
        for log, (_, others) in TYPES.items():
            self.differs(Table(("id", "v"), ("int", others[0])), numbered("int", log), "v", log, others[0])

    def test_counts(self):
        self.differs(Table(("id",)), numbered("int", "varchar utf8mb4"), None, "2 columns (int, varchar utf8mb4)", "1 column (id)")
        self.differs(Table(("id", "v", "w")), numbered("int"), None, "1 column (int)", "3 columns (id, v, w)")

    def test_names_of_the_log(self):
        """They stay. Another order is none that anything goes by; another name is a mismatch."""
        columns = (Column("id", "int"), Column("v", "enum utf8mb4"))
        for given in (Table(("id", "v")), Table(("v", "id"), ("enum('a')", "int"), ("v",))):
            told = fitted(given, "s.t", columns, ("id",))
            self.assertEqual((told.columns, told.key, list(told.names), dict(told.words)), (columns, ("id",), [], {}))
        self.differs(Table(("id", "w")), columns, "v", "the columns id, v", "the columns id, w")
        self.differs(Table(("v", "id"), ("enum('a')", "bigint")), columns, "id", "int", "bigint")

    def test_many_columns(self):
        """They go by their numbers, and not by their names' order, in which @10 is before @2."""
        names = tuple(f"c{number}" for number in range(1, 13))
        told = fitted(Table(names, ("int",) * 12, ("c12", "c2")), "s.t", numbered(*["int"] * 12), ())
        self.assertEqual(list(told.names), [(f"@{name[1:]}", name) for name in names])
        self.assertEqual((told.key, [column.name for column in told.columns]), (("c12", "c2"), list(names)))

    def test_words(self):
        of_enum, of_set = namer("s.t", "e", "enum('a','b''c','')"), namer("s.t", "m", "set('x','y','z')")
        self.assertEqual([of_enum(number) for number in (0, 1, 2, 3, "a")], ["", "a", "b'c", "", "a"])
        self.assertEqual([of_set(number) for number in (0, 1, 5, 7, "x")], ["", "x", "x,z", "x,y,z", "x"])
        for convert, value, column in ((of_enum, 4, "e"), (of_set, 8, "m")):
            with self.assertRaises(ColumnsMismatch) as caught:
                convert(value)
            self.assertEqual((caught.exception.column, caught.exception.in_log), (column, f"the value {value}"))

    def test_unknown_characters(self):
        # A MySQL 9.7.4 answered so for names of utf8mb4 of which the last is U+1F600, a slash and a sharp s.
        of_enum, of_set = namer("s.t", "e", "enum('one','two','\u00c3','?/\u00df')"), namer("s.t", "m", "set('one','two','?')")
        self.assertEqual([of_enum(number) for number in (0, 1, 3, 4)], ["", "one", "\u00c3", 4])
        self.assertEqual([of_set(number) for number in (0, 3, 4, 5)], ["", "one,two", 4, 5])


class Readers(FolderTest):
    """What a reader gives."""

    def read(self, lines, **options):
        """The events of lines, and the mismatch that ended them."""
        program = self.stub(f"cat {self.put('lines', ''.join(line + chr(10) for line in lines).encode())}")
        events = []
        try:
            for event in BinLogStreamReader("f", program=program, together=False, **options):
                events.append(event)
        except ColumnsMismatch as mismatch:
            return events, mismatch
        return events, None

    def test_partial_images(self):
        """The columns that a row has, in the table's order."""
        line = unnamed_line({"@3": "c", "@2": None}, ["int", "int", "varchar utf8mb4"], {"@1": 7}, kind="update")
        (event,), _ = self.read([line], columns={"s.t": ["id", "n", "v"]})
        self.assertEqual((list(event.after.items()), event.before), ([("n", None), ("v", "c")], {"id": 7}))

    def test_words_and_converters(self):
        """A converter is given the name, as a full line has it."""
        columns = self.put("columns.tsv", (HEAD + "s\tt\te\tenum('a','b')\t1\t\ns\tt\tm\tset('x','y')\t2\t\n").encode())
        line = unnamed_line({"@1": 2, "@2": 0}, ["enum", "set"])
        for options, wanted in (
            ({}, {"e": "b", "m": set()}),
            ({"raw_values": True}, {"e": "b", "m": ""}),
            ({"convert": {"t.e": str.upper, "s.t.m": len}}, {"e": "B", "m": 0}),
        ):
            (event,), _ = self.read([line], columns=columns, **options)
            self.assertEqual(event.after, wanted)

    def test_mismatches(self):
        """The events before come, and their transaction where it is whole. The line names the place."""
        columns = self.put("columns.tsv", (HEAD + "s\tt\te\tenum('a','b')\t1\t\n").encode())
        lines = [unnamed_line({"@1": 1}, ["enum"], place="4.1@f"), unnamed_line({"@1": 3}, ["enum"], place="9.1@f")]
        events, mismatch = self.read(lines, columns=columns)
        self.assertEqual(([event.token for event in events], mismatch.token), (["4.1@f"], "9.1@f"))
        self.assertEqual(mismatch.line, "binlogfeed: s.t.e at 9.1@f: the value 3 in the log, enum('a','b') in the columns that were given")
        for place, count in (("9.1@f", 1), ("4.2@f", 0)):
            self.read([lines[0], unnamed_line({"@1": 3}, ["enum"], place=place)])
            whole = []
            with self.assertRaises(ColumnsMismatch):
                for transaction in BinLogStreamReader("f", program=str(self.folder / "stub"), columns=columns).transactions():
                    whole.append(transaction)
            self.assertEqual(len(whole), count)

    def test_other_tables(self):
        """Tables that aren't named stay as they are."""
        (event,), _ = self.read([unnamed_line({"@1": 1}, ["int"], table="u")], columns={"s.t": ["id"]})
        self.assertEqual((event.after, event.columns, event.primary_key), ({"@1": 1}, (Column("@1", "int"),), ""))

    def test_names_of_the_log(self):
        names = {"shop.customer": CUSTOMER, "shop.none": ["id"]}
        plain, given = (list(BinLogStreamReader(SHOP, program=PROGRAM, columns=columns)) for columns in (None, names))
        self.assertEqual([event.rows for event in plain], [event.rows for event in given])
        with self.assertRaises(ColumnsMismatch) as caught:
            list(BinLogStreamReader(SHOP, program=PROGRAM, columns={"shop.customer": [*CUSTOMER[:-1], "rank"]}))
        self.assertEqual((caught.exception.table, caught.exception.column), ("shop.customer", "level"))
