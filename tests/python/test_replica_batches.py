"""Changes that the replica makes at once: what may stand in one batch, and that the tables are right in the end."""
import json
import random
import unittest

from batches import Batcher
from binlogfeed.lines import Change, reader_of_lines
from binlogfeed.values import Style
from fitting import for_sqlite
from replicas import HAS_POSTGRES, LinesTest, PostgresServer, SqliteFiles, ended, full_line, python_with_psycopg
from targets import Shape, Table

TYPES = {"id": "int", "u": "int", "v": "varchar utf8mb4"}
TABLE = "(id INTEGER PRIMARY KEY, u INTEGER UNIQUE, v TEXT)"


class Batches:
    """A target that notes the batches which are put."""

    def __init__(self, distinct):
        """A target, which may want each row of a batch once."""
        self.distinct = distinct
        self.put_in = []

    def table(self, change):
        """A table with the key `id`."""
        columns = change.form.columns
        converters = {column.name: for_sqlite(column.type, "TEXT") for column in columns}
        return Table(change.form.table, columns, converters, Shape(dict(columns), ["id"]), {})

    def put(self, batch):
        """Notes a batch."""
        self.put_in.append((batch.table.name, batch.kind, batch.rows))


def batches_of(lines, distinct=False):
    """The batches of changes: the table, the kind and the number of each."""
    target, taken_apart = Batches(distinct), reader_of_lines(Style(raw=True), {})
    batcher = Batcher(target)
    for line in lines:
        batcher.take(Change(taken_apart(line.encode())), len(line))
    batcher.hand_over()
    return [(table, kind, len(rows)) for table, kind, rows in target.put_in]


def row(number, value="a"):
    """A row."""
    return {"id": number, "u": number, "v": value}


def made_changes(chance, transactions):
    """Random changes of two tables in some transactions: lines, and the rows at the end."""
    rows, lines, free = {"a": {}, "b": {}}, [], list(range(1, 100_000))
    chance.shuffle(free)
    for transaction in range(1, transactions + 1):
        places = iter(range(1, 1000))
        for _ in range(chance.randint(1, 3)):
            table, kind = chance.choice("ab"), chance.choice(["insert", "update", "update", "delete", "key", "swap"])
            for _ in range(chance.choice([1, 1, 3, 60, 120])):
                for before, after in one_change(chance, rows[table], kind, free):
                    lines.append(full_line((transaction, next(places)), table, before, after, TYPES))
    return lines, {table: sorted(rows[table].values(), key=lambda it: it["id"]) for table in rows}


def one_change(chance, rows, kind, free):
    """A random change of a table's rows, which it carries out; a swap of two unique values is three of them."""
    if kind == "insert" or len(rows) < 3:
        number = free.pop()
        new = {"id": number, "u": number, "v": chance.choice(["", "a'b", "back\\slash", "tab\tline\n", "é李", None])}
        rows[number] = new
        return [(None, new)]
    old = rows.pop(chance.choice(list(rows)))
    if kind == "delete":
        return [(old, None)]
    if kind == "swap":
        other = rows[chance.choice(list(rows))]
        away, first, second = {**old, "u": -1}, {**other, "u": old["u"]}, {**old, "u": other["u"]}
        rows.update({first["id"]: first, second["id"]: second})
        return [(old, away), (other, first), (away, second)]
    new = {**old, "id": free.pop()} if kind == "key" else {**old, "v": f"value {chance.randint(1, 9)}"}
    rows[new["id"]] = new
    return [(old, new)]


class Together(unittest.TestCase):
    """What stands in a batch."""

    def test_one_table_and_kind(self):
        lines = [full_line((1, n), "t", None, row(n), TYPES) for n in range(1, 4)]
        lines += [full_line((2, n), "u", None, row(n), TYPES) for n in range(1, 3)]
        lines += [full_line((3, 1), "t", None, row(9), TYPES), full_line((3, 2), "t", row(9), row(9, "b"), TYPES)]
        lines += [full_line((3, 3), "t", row(1), row(1, "b"), TYPES), full_line((4, 1), "t", row(1, "b"), None, TYPES)]
        wanted = [("t", "insert", 3), ("u", "insert", 2), ("t", "insert", 1), ("t", "update", 2), ("t", "delete", 1)]
        self.assertEqual(batches_of(lines), wanted)

    def test_a_row_once(self):
        """Where a statement has all rows of a batch, each is in it once, and keeps its key."""
        changes = [(1, 1), (2, 2), (1, 1), (3, 30), (2, 2), (4, 4)]
        lines = [full_line((1, n), "t", row(old), row(new, "b"), TYPES) for n, (old, new) in enumerate(changes, 1)]
        self.assertEqual([count for _, _, count in batches_of(lines, distinct=True)], [2, 1, 1, 2])
        self.assertEqual([count for _, _, count in batches_of(lines)], [6])

    def test_other_columns(self):
        """An image that lacks a column is of another batch."""
        images = [({"id": 1}, {"id": 1, "v": "b"}), ({"id": 2}, {"id": 2, "u": 7})]
        lines = [full_line((1, n), "t", before, after, TYPES) for n, (before, after) in enumerate(images, 1)]
        self.assertEqual([count for _, _, count in batches_of(lines)], [1, 1])

    def test_size(self):
        lines = [full_line((1, n), "t", None, row(n), TYPES) for n in range(2500)]
        self.assertEqual([count for _, _, count in batches_of(lines)], [1000, 1000, 500])
        long = [full_line((1, n), "t", None, row(n, "x" * 400_000), TYPES) for n in range(5)]
        self.assertEqual([count for _, _, count in batches_of(long)], [3, 2])


class Random(LinesTest):
    """Random changes, with updates of a key, rows that are changed twice, and unique values that are swapped."""

    def check(self, targets, rows_of):
        """Has random changes made in targets, with few and with many in a commit."""
        lines, wanted = made_changes(random.Random("changes"), 100)
        told = self.told(lines)
        for every in (1, 9, 1000):
            for new_target, python in targets:
                target = new_target()
                options = {"python": python} if python else {}
                self.assertEqual(ended(target, "made", "--commit-every", str(every), **told, **options), (0, ""))
                self.assertEqual({table: rows_of(target, table) for table in "ab"}, wanted)

    def test_sqlite(self):
        files = SqliteFiles()
        self.addCleanup(files.stop)
        made = (lambda: files.made(f"CREATE TABLE a {TABLE}; CREATE TABLE b {TABLE};"), None)
        self.check([made], lambda target, table: files.asked(target, f"SELECT * FROM {table} ORDER BY id"))

    @unittest.skipUnless(HAS_POSTGRES, "there is no PostgreSQL")
    def test_postgres(self):
        server = PostgresServer()
        self.addCleanup(server.stop)

        def by_psql():
            return server.made(f"CREATE TABLE a {TABLE}; CREATE TABLE b {TABLE}")

        def rows_of(target, table):
            query = f"SELECT row_to_json(t) FROM (SELECT * FROM {table} ORDER BY id) AS t"
            return [json.loads(text) for text in server.asked(target.replace("psycopg:", "psql:"), query)]

        python = python_with_psycopg()
        targets = [(by_psql, None)]
        if python:
            targets.append((lambda: by_psql().replace("psql:", "psycopg:"), python))
        else:
            print("skipped: random changes by psycopg: there is no psycopg")
        self.check(targets, rows_of)
