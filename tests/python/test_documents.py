"""What the documents show is run as it is written, in a folder that has what the repository's has."""
import json
import os
import re
import sqlite3
import subprocess
import sys
from pathlib import Path

from binlogfeed import BinLogStreamReader, LogsGone
from support import BANK, PROGRAM, TOP, FolderTest, without_beginning

# What the shop's statements say of it: a purchase that is put in, and then paid.
PURCHASE = (
    "{'customer': 1, 'id': 1, 'paid': %s, 'placed': datetime.datetime(2024, 5, 6, 7, 8, 9, 125000), 'total': Decimal('21.80')}"
)
NEW, PAID = PURCHASE % "None", PURCHASE % "datetime.datetime(2024, 5, 6, 8, 0, tzinfo=datetime.timezone.utc)"
LAST_ROW = "purchase {'customer': 1, 'id': 1, 'paid': '1714982400', 'placed': '2024-05-06 07:08:09.125', 'total': '9.80'}"
# Where the command finds what it runs.
PLACES = {
    "PROGRAM": "program/binlogfeed",
    "PYTHON": "python3",
    "COMMAND": "python/command.py",
    "REPLICA": "examples/replica/replica.py",
}
README_SHOWS = f"""\
2592.1@binlog.000001 WriteRowsEvent [{{'values': {NEW}}}]
3114.1@binlog.000001 UpdateRowsEvent [{{'before_values': {NEW}, 'after_values': {PAID}}}]
"""
NO_CHANGE = (
    "hint: no change in the files has this schema, table and key: a key has the value of each key column, of its type and in the key's order, "
    "as lines have them\n"
)


def blocks(document, heading):
    """The blocks of a part of a document: those between fences, or else those that are indented."""
    text = (TOP / document).read_text(encoding="utf-8")
    part = re.search(rf"^## {heading}\n(.*?)(?=^## |\Z)", text, re.DOTALL | re.MULTILINE)[1]
    fenced = re.findall(r"^```\w+\n(.*?)^```$", part, re.DOTALL | re.MULTILINE)
    if fenced:
        return fenced
    found = re.findall(r"(?:^    .*\n|^\n(?=    ))+", part, re.MULTILINE)
    return ["\n".join(line[4:] for line in block.strip("\n").split("\n")) + "\n" for block in found]


class Documents(FolderTest):
    """The documents' examples."""

    def setUp(self):
        """A folder with the repository's parts, and the command as an archive has it. Its program is the one that is tested."""
        super().setUp()
        for name in ("python", "examples"):
            (self.folder / name).symlink_to(TOP / name)
        command = (TOP / "packaging/command.sh").read_text(encoding="utf-8")
        for name, place in PLACES.items():
            command = command.replace(f"@{name}@", place)
        (self.folder / "program").mkdir()
        (self.folder / "program/binlogfeed").symlink_to(Path(PROGRAM).absolute())
        self.put("binlogfeed", command.encode()).chmod(0o700)

    def shown(self, command, hint=""):
        """What a command prints that ends well, and says this hint alone."""
        path = f"{Path(sys.executable).parent}:{os.environ['PATH']}"
        environment = {**os.environ, "PATH": path, "PYTHONDONTWRITEBYTECODE": "1"}
        ended = subprocess.run(["bash", "-euc", command], cwd=self.folder, env=environment, capture_output=True, text=True, check=False)
        self.assertEqual((ended.returncode, without_beginning(ended.stderr)), (0, hint))
        return ended.stdout

    def test_first_result(self):
        commands, line, _ = blocks("README.md", "A first result")
        self.assertIn(line, self.shown(commands.splitlines()[0]).splitlines(keepends=True))

    def test_links(self):
        """Each link between documents names a file that is there."""
        documents = [TOP / "README.md", *sorted((TOP / "docs").glob("*.md"))]
        links = [(it, link) for it in documents for link in re.findall(r"\]\(([^)#:]+)\)", it.read_text(encoding="utf-8"))]
        self.assertGreater(len(links), 20)
        self.assertEqual([(it.name, link) for it, link in links if not (it.parent / link).exists()], [])

    def test_readme_is_one_page(self):
        self.assertLessEqual((TOP / "README.md").read_text(encoding="utf-8").count("\n"), 100)

    def test_going_on_and_history(self):
        commands, _, going_on = blocks("README.md", "A first result")
        read, history = commands.splitlines()
        lines = self.shown(read)
        self.assertEqual(lines.count("\n"), (TOP / "examples/shop/read.jsonl").read_text(encoding="utf-8").count("\n"))
        self.shown(going_on)
        first, rest = ((self.folder / name).read_text(encoding="utf-8") for name in ("first", "rest"))
        self.assertEqual(first.count("\n"), 5)
        self.assertEqual(first + rest, lines)
        # Customer 1 is put in, and never changed.
        of_one = [it for it in lines.splitlines(keepends=True) if '"table":"customer"' in it and '"id":1,' in it]
        self.assertEqual(len(of_one), 1)
        self.assertEqual(self.shown(history), of_one[0])

    def test_reading(self):
        read, lines, last, stated = blocks("docs/USAGE.md", "Reading files")
        shown = self.shown(read)
        self.assertEqual(shown, (TOP / "examples/shop/read.jsonl").read_text(encoding="utf-8"))
        self.assertLessEqual(set(lines.splitlines()), set(shown.splitlines()))
        # Nine rows are left, and the one that was changed last stands last.
        left = self.shown(last).splitlines()
        self.assertEqual((len(left), left[-1]), (9, LAST_ROW))
        statements = self.shown(f"{read.split(' ', 1)[0]} read --profile server --only-events statement {TOP / 'tests/statement/binlog.000001'}")
        self.assertIn(stated, statements)

    def test_the_story_of_a_row(self):
        """Where it is empty, a hint says so, and the page says how to see what the key has to be."""
        shows, look = blocks("docs/USAGE.md", "The story of a row")
        story, lines = shows.split("\n\n")
        self.assertEqual(self.shown(story), lines)
        for wrong in (story.replace("[2]", '["2"]'), story.replace("[2]", "[2,1]"), story.replace("customer", "costumer")):
            self.assertEqual(self.shown(wrong, hint=NO_CHANGE), "")
        shown = json.loads(self.shown(look))
        key = json.dumps([shown["after"][name] for name in shown["key"]])
        self.assertIn(f'"name":"{shown["after"]["name"]}"', self.shown(story.replace("[2]", key)))

    def test_a_missing_file(self):
        """Who notices it ("What to know before use"). The bank's second log ends without a ROTATE, its first with one."""
        logs = {number: self.put(path.name, path.read_bytes()) for number, path in enumerate(BANK[:5], 1)}
        for numbers, status, said in (((1, 3), 1, "RotationMismatch"), ((2, 5), 0, ""), ((2, 1), 0, "")):
            command = [PROGRAM, "read", *(logs[number] for number in numbers)]
            ended = subprocess.run(command, capture_output=True, text=True, check=False)
            self.assertEqual(ended.returncode, status, numbers)
            self.assertIn(said, ended.stderr)
        for number in (1, 3, 4):
            logs[number].unlink()
        # A list isn't judged by its numbers, and a pattern is.
        with BinLogStreamReader([logs[2], logs[5]], program=PROGRAM) as reader:
            self.assertEqual({event.token.partition("@")[2] for event in reader}, {logs[2].name, logs[5].name})
        with BinLogStreamReader(self.folder / "binlog.*", program=PROGRAM) as reader, self.assertRaises(LogsGone):
            list(reader)

    def test_many_files_at_once(self):
        (block,) = blocks("docs/USAGE.md", "Many files at once")
        self.assertEqual(self.shown(block), (TOP / "examples/shop/read.jsonl").read_text(encoding="utf-8"))

    def test_readme(self):
        (block,) = blocks("README.md", "In Python")
        self.assertEqual(self.shown(block), README_SHOWS)

    def test_readme_where_it_is_installed(self):
        """The same block, in a folder that has the examples alone: the command is on PATH, and Python finds the package by itself."""
        (block,) = blocks("README.md", "In Python")
        room, installed = self.folder / "room", self.folder / "installed"
        for folder in (room, installed):
            folder.mkdir()
        (room / "examples").symlink_to(TOP / "examples")
        (installed / "binlogfeed").symlink_to(self.folder / "binlogfeed")
        self.put("installed/python3", f'#!/bin/sh\nPYTHONPATH=$PYTHONPATH:{TOP}/python exec {sys.executable} "$@"\n'.encode()).chmod(0o700)
        self.assertEqual(self.shown(f"PATH={installed}:$PATH\ncd room\n{block}"), README_SHOWS)

    def test_readme_is_short(self):
        part = (TOP / "README.md").read_text(encoding="utf-8").partition("## In Python\n")[2].partition("\n## ")[0]
        self.assertLessEqual(part.count("\n") + 1, 12)

    def test_python(self):
        (block,) = blocks("docs/USAGE.md", "In Python")
        lines = self.shown(f"PATH=.:$PATH PYTHONPATH=python python3 - <<'END'\n{block}END\n").splitlines()
        # Six updates, in four transactions; behind the last of them one more was deleted.
        tables = ["purchase", "product", "product", "customer", "purchase", "customer"]
        self.assertEqual([line.split()[1] for line in lines[:6]], tables)
        self.assertIn("'total': Decimal('21.80')", lines[0])
        self.assertEqual(lines[6:], ["3e11fa47-71ca-11e1-9e33-c80aa9429562:15 ['customer']"])

    def test_follow(self):
        (block,) = blocks("docs/USAGE.md", "Following a server")
        self.assertEqual(self.shown(block), (TOP / "examples/shop/read.jsonl").read_text(encoding="utf-8"))
        self.assertEqual(self.shown(block), "")

    def test_replica(self):
        (block,) = blocks("docs/USAGE.md", "A replica")
        self.shown(block)
        self.shown(block.splitlines()[-1])
        connection = sqlite3.connect(self.folder / "shop.db")
        self.assertEqual(connection.execute("SELECT id, total FROM purchase ORDER BY id").fetchall(), [(1, "9.80"), (3, "35.55")])
        connection.close()
