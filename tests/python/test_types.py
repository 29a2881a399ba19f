"""The types of the package, as mypy takes them; and what the oldest Python takes."""
import ast
import importlib.util
import os
import subprocess
import sys
import unittest

from support import TOP, FolderTest

GOOD = """
from pathlib import Path

from binlogfeed import JSON_NULL, BinLogStreamReader, ColumnsMismatch, DeleteRowsEvent, Event, GtidEvent, RowsEvent
from binlogfeed import QueryEvent, UpdateRowsEvent, WriteRowsEvent


def names(path: str) -> None:
    try:
        for event in BinLogStreamReader(path, columns={"shop.customer": ["id", "name"]}, json_null=JSON_NULL):
            print(event.committed, event.columns)
    except ColumnsMismatch as mismatch:
        print(mismatch.table, mismatch.column, mismatch.token)
    for insert in BinLogStreamReader(path, only_events=[WriteRowsEvent], columns=Path("columns.tsv"), profile="strict"):
        print(insert.after.keys())


def loops(path: str) -> None:
    with BinLogStreamReader([path], only_tables=["purchase"]) as reader:
        for event in reader:
            for row in event.rows:
                print(event.table, event.token, row["values"])
    stream = BinLogStreamReader([path], only_events=[WriteRowsEvent, UpdateRowsEvent, DeleteRowsEvent], blocking=True)
    for event in stream:
        print(event.schema, event.table, event.rows, event.primary_key)
    for insert in BinLogStreamReader(path, only_events=[WriteRowsEvent]):
        print(insert.after.keys())
    both: BinLogStreamReader[Event] = BinLogStreamReader(path, only_events=[RowsEvent, GtidEvent])
    for one in both:
        print(one.rows if isinstance(one, RowsEvent) else one.gtid)
    for said in BinLogStreamReader(path, only_events=[QueryEvent]):
        print(said.query.upper(), said.schema.decode(), said.gtid)
    for transaction in both.transactions():
        print(transaction.statement.query if transaction.statement else [change.table for change in transaction])
    for kept in BinLogStreamReader(path, keep_lines=True):
        print(kept.lines, [record["op"] for record in kept.to_debezium("shop")])
    last = BinLogStreamReader(path).fetchone()
    if last is not None:
        print(last.rows)


def made(path: str) -> BinLogStreamReader[RowsEvent]:
    return BinLogStreamReader(path, together=False)
"""
# Each of them has one error.
WRONG = {
    "for event in BinLogStreamReader('f', only_events=[GtidEvent]): print(event.rows)": '"GtidEvent" has no attribute "rows"',
    "BinLogStreamReader('f', together='yes')": "No overload variant",
    "print(BinLogStreamReader('f').fetchone().rows)": 'has no attribute "rows"',
}


@unittest.skipUnless(importlib.util.find_spec("mypy"), "this Python has no mypy (pip install mypy)")
class Types(FolderTest):
    """mypy --strict, over programs that use the package."""

    def said(self, text):
        """What mypy says of a program's file, without what it says of the package's own."""
        environment = {**os.environ, "MYPYPATH": str(TOP / "python")}
        words = [sys.executable, "-m", "mypy", "--strict", "--cache-dir", str(self.folder / "cache"), "--follow-imports=silent"]
        words.append(self.put("program.py", text.encode()))
        ended = subprocess.run(words, env=environment, capture_output=True, text=True, check=False)
        return [line for line in (ended.stdout + ended.stderr).splitlines() if not line.startswith(("Success", "Found"))]

    def test_loops(self):
        self.assertEqual(self.said(GOOD), [])

    def test_mistakes_are_seen(self):
        for line, wanted in WRONG.items():
            with self.subTest(line=line):
                self.assertIn(wanted, self.said(f"from binlogfeed import BinLogStreamReader, GtidEvent\n\n{line}\n")[0])


class Oldest(unittest.TestCase):
    """Python 3.9 reads all scripts, whatever Python runs these tests."""

    def test_syntax_and_annotations(self):
        """It knows `X | Y` in no annotation that it evaluates."""
        scripts = [path for folder in ("bench", "examples", "packaging", "python", "tests") for path in (TOP / folder).rglob("*.py")]
        self.assertGreater(len(scripts), 100)
        for script in scripts:
            tree = ast.parse(script.read_text(encoding="utf-8"), feature_version=(3, 9))
            imports = [node.module for node in tree.body if isinstance(node, ast.ImportFrom)]
            annotations = [getattr(node, name, None) for node in ast.walk(tree) for name in ("annotation", "returns")]
            has_unions = any(isinstance(part, ast.BitOr) for it in annotations if it is not None for part in ast.walk(it))
            self.assertTrue("__future__" in imports or not has_unions, script)
