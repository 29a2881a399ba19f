"""Statements outside of transactions in summaries: a real log, held to what MySQL's own mysqlbinlog prints of it, and small ones."""
import json
import subprocess
from collections import Counter

import logs
from binlogfeed import ProgramFailed
from binlogfeed.statements import first_word
from binlogfeed.summary.changes import Change, Changes, Table, counted_block
from binlogfeed.summary.page import as_page
from binlogfeed.summary.reading import summed_up
from binlogfeed.summary.text import as_text
from built import statements as printed
from support import PROGRAM, SHOP, FolderTest, without_hints
from test_summary import SHOP_SOURCE, blocks_of, parsed, plain, ran, with_workers


class Statements(FolderTest):
    """They are counted by their first words."""

    LOG = [printed.FOLDER / "binlog.000001"]
    TITLE = "Statements outside of transactions, by first word"

    def test_real_log(self):
        """They are those that mysqlbinlog prints; the rows are counted as without them."""
        found, rows = summed_up(self.LOG, (), PROGRAM), summed_up(self.LOG, ["--only-events=insert,update,delete"], PROGRAM)
        wanted = Counter(one["text"].split()[0] for one in printed.wanted_statements())
        self.assertEqual((found.changes.statements(), wanted), ([("CREATE", 4), ("TRUNCATE", 1)], {"CREATE": 4, "TRUNCATE": 1}))
        self.assertEqual(found.units.endings["statement"], 5)
        self.assertEqual((plain(found)[0], *plain(found)[2:]), (plain(rows)[0], *plain(rows)[2:]))
        inserted = Counter(json.loads(line)["table"] for line in (printed.FOLDER / "expected.jsonl").read_text(encoding="utf-8").splitlines())
        self.assertEqual(found.changes.tables(), {Table("d", table): {"insert": count} for table, count in inserted.items()})
        told = f"{self.TITLE}\n  First word  Statements\n  CREATE               4  {'█' * 40}\n  TRUNCATE             1  {'█' * 10}"
        # The heads differ in the line that names the filter.
        (_, *parts), (_, *wanted_parts) = (as_text(one, 80).split("\n\n") for one in (found, rows))
        self.assertEqual(parts.pop(2), told)
        self.assertEqual(parts, wanted_parts)
        self.assertIn(f"{self.TITLE}First wordStatementsCREATE4TRUNCATE1", "".join(parsed(as_page(found)).text))

    def test_which_are_counted(self):
        """The filters of `read` choose; the strict profile has none, and refuses the word."""
        for words, wanted in (
            (("--only-tables=t", "--ignored-schemas=d"), [("CREATE", 4), ("TRUNCATE", 1)]),
            ((f"--auto-position={SHOP_SOURCE}:1-10",), [("CREATE", 1), ("TRUNCATE", 1)]),
            (("--only-events=statement",), [("CREATE", 4), ("TRUNCATE", 1)]),
            (("--only-events=insert",), []),
        ):
            found = summed_up(self.LOG, words, PROGRAM)
            self.assertEqual(found.changes.statements(), wanted, words)
            for text in (as_text(found, 80), as_page(found)):
                self.assertEqual(self.TITLE in text, bool(wanted))
        self.assertEqual(summed_up(self.LOG, ("--only-events=statement",), PROGRAM).changes.total, 0)
        self.assertEqual(summed_up(SHOP, (), PROGRAM, "strict").changes.statements(), [])
        ended = ran("--profile=strict", "--only-events=insert,statement", *SHOP)
        self.assertEqual((ended.returncode, without_hints(ended.stderr)), (2, "binlogfeed: bad --only-events: statement\n"))

    def test_blocks_of_any_size(self):
        """A block may begin or end with a statement, have nothing else, or lie within one."""
        logs_of_it = [*SHOP, self.put("binlog.000003", self.LOG[0].read_bytes())]
        wanted = plain(summed_up(logs_of_it, (), PROGRAM))
        self.assertEqual(wanted[1], [("CREATE", 9), ("TRUNCATE", 1)])
        for size in (2, 97, 300, 1_000, 4_099):
            for workers in (0, 2):
                with with_workers(workers), blocks_of(size):
                    self.assertEqual(plain(summed_up(logs_of_it, (), PROGRAM)), wanted, (size, workers))

    def test_lines(self):
        """A row and a text that look like a statement's line are none, and a line that is no whole statement is refused."""
        line = '{"gtid":null,"kind":"statement","statements":[{"schema":"s","text":%s,"timestamp":1}],"timestamp":1,"token":"%s"}\n'
        tricky = json.dumps('drop \n{"gtid":null,"kind":"insert","schema":"s","table":"t","timestamp":1,"token":"4.1@f"}')
        text = {"x": '\n{"gtid":"a"'}
        row = {"after": text, "before": None, "gtid": None, "kind": "insert", "schema": "s", "table": "t", "timestamp": 7, "token": "6.1@f"}
        told = json.dumps(row, separators=(",", ":")) + "\n"
        raw = '{"base64":"/yB4"}'
        changes = Changes()
        changes.add(counted_block((line % (tricky, "4.0@f") + told + line % (raw, "8.0@f") + line % ('""', "9.0@f")).encode(), 0))
        changes.end()
        self.assertEqual((changes.statements(), changes.tables()), ([("", 1), ("DROP", 1), ("X", 1)], {Table("s", "t"): {"insert": 1}}))
        self.assertEqual((changes.first, changes.last, changes.token), (Change(7, "6.1@f", None), Change(7, "6.1@f", None), "9.0@f"))
        for wrong in ('{"gtid":null}\n', (line % ('""', "4.0@f")).replace('"text"', '"t"')):
            with self.assertRaises(ProgramFailed):
                counted_block(wrong.encode(), 0)

    def test_first_words(self):
        for text, wanted in (
            ("truncate t", "TRUNCATE"), (" \n\tAlter table t", "ALTER"), ("/* by hand */ DROP TABLE t", "DROP"), ("/*!50003 DROP TABLE t */", "DROP"),
            ("-- x\n# y\nCREATE TABLE t (a INT)", "CREATE"), ("(TABLE t)", "TABLE"), ("TRUNCATE`t`", "TRUNCATE"), ("", ""), ("/* x */", ""), (";", ""),
        ):  # fmt: skip
            self.assertEqual(first_word(text), wanted, text)

    def test_early_end(self):
        """What is counted of transactions ends with the last line, which may be one of a statement."""
        statement = b"".join((logs.GTID_HEAD, (3).to_bytes(8, "little"), logs.GTID_TAIL, logs.query("TRUNCATE t")))
        path = self.put("binlog.000001", logs.log_of([logs.insert(1), logs.insert(2), statement, logs.insert(4)]))
        lines = subprocess.run([PROGRAM, "read", "--profile=server", path], capture_output=True, check=True).stdout.splitlines(keepends=True)
        self.assertEqual([b'"statement"' in line for line in lines], [False, False, True, False])
        self.put("lines", b"".join(lines[:3]))
        said = f"cat {self.folder}/lines\necho 'binlogfeed: out of memory' >&2\nexit 5"
        found = summed_up([path], (), self.stub(f'[ $1 = read ] || exec {PROGRAM} "$@"\n{said}'))
        self.assertEqual((found.changes.total, found.changes.statements()), (2, [("TRUNCATE", 1)]))
        self.assertEqual((found.units.endings, found.fault.status), ({"xid": 2, "statement": 1}, 5))
