"""Lines taken apart, by Python's own json and by orjson."""
import json
import subprocess
from unittest import TestCase, mock, skipUnless

from binlogfeed import JSON_NULL, ProgramFailed, lines
from binlogfeed.lines import Change, reader_of_lines
from binlogfeed.values import Style
from support import BANK, PROGRAM, SHOP
from test_reader import LINE

RAW = Style(raw=True)
# A row whose columns are named as a line's members are, with values that look like what stands between these.
NAMES = ("after", "before", "committed", "gtid", "json_null", "key", "kind", "schema", "table", "timestamp", "token", "types")
TRICKS = (
    *('"', "\\", ',"committed":7,"gtid":null', ',"key":[', '],"types":{', ',"timestamp":7', '","token":"9.9@f"}', '{"base64":""}'),
    *("\u2028\n", ',"json_null":["after.gtid"]', "\U0001f600", ""),
)


def tricky(token, committed=None, nulls=None):
    """A line with such rows and columns, in UTF-8 as the program writes it."""
    row = dict(zip(NAMES, TRICKS))
    members = {"after": row, "before": {**row, "key": None}}
    members |= {} if committed is None else {"committed": committed}
    members |= {"gtid": "a-b:1"} | ({} if nulls is None else {"json_null": nulls})
    members |= {"key": ["key", ',"timestamp":'], "types": {}}
    members["types"] = {name: "varchar utf8mb4" for name in NAMES}
    members |= {"kind": "update", "schema": ',"timestamp":', "table": '"', "timestamp": 5, "token": token}
    return json.dumps(members, ensure_ascii=False, separators=(",", ":")).encode()


def change_of(line):
    """A line's change."""
    return Change(reader_of_lines(RAW, {})(line))


class Taken:
    """What is taken out of a line: tests of both ways."""

    def test_members(self):
        for token in ("4.1@f", '4.1@a "name"\\', "4.1@,\"timestamp\":7"):
            line = tricky(token)
            change, members = change_of(line), json.loads(line)
            for name in ("before", "after", "timestamp", "gtid", "token"):
                self.assertEqual(getattr(change, name), members[name])
            for name in ("kind", "schema", "table"):
                self.assertEqual(getattr(change.form, name), members[name])
            self.assertEqual((list(change.form.key), list(change.form.columns)), (members["key"], list(members["types"].items())))

    def test_commit_times(self):
        """Lines have them or not, those of one table, too."""
        taken_apart = reader_of_lines(RAW, {})
        for nulls in (None, ["after.key"], ["before.,\"key\":["]):
            for committed in (None, 1795332186123456, 0, 1):
                change = Change(taken_apart(tricky("4.1@f", committed, nulls)))
                self.assertEqual((change.committed, change.gtid, change.token), (committed, "a-b:1", "4.1@f"))

    def test_json_nulls(self):
        """Columns may be called as members are, and have points in their names."""
        row = '{"id":1,"a":null,"x.y":null}'
        for image in ("after", "before"):
            line = (LINE % "4.1@f").replace('"after":{"id":1},"before":null', f'"after":{row},"before":{row}')
            line = line.replace('"types":{"id":"int"}', '"types":{"id":"int","a":"json","x.y":"json"}').replace('"insert"', '"update"')
            line = line.replace(',"key"', f',"json_null":["{image}.x.y"],"key"').encode()
            for style, wanted in ((Style(json_null=JSON_NULL), JSON_NULL), (Style(raw=True, json_null=7), 7), (Style(), None)):
                change = Change(reader_of_lines(style, {"t.x.y": str})(line))
                self.assertEqual(getattr(change, image), {"id": 1, "a": None, "x.y": wanted})
                self.assertEqual(getattr(change, "before" if image == "after" else "after"), {"id": 1, "a": None, "x.y": None})

    def test_bytes(self):
        """A row without bytes and one with them, of one table."""
        taken_apart = reader_of_lines(Style(), {})
        line = (LINE % "4.1@f").replace('"int"', '"varchar utf8mb4"')
        for value, wanted in (('"a"', "a"), ('{"base64":"/w=="}', b"\xff"), ('"b"', "b")):
            for image in ("after", "before"):
                text = line.replace('"after":{"id":1}', '"after":null').replace(f'"{image}":null', f'"{image}":{{"id":{value}}}')
                self.assertEqual(getattr(Change(taken_apart(text.encode())), image), {"id": wanted})

    def test_no_full_lines(self):
        for line in ("", "{", "{}", "no line", (LINE % "4.1@f").replace('"key":["id"],"types":{"id":"int"},', ""), LINE[:60]):
            with self.assertRaises(ProgramFailed) as caught:
                change_of(line.encode())
            self.assertEqual(caught.exception.line, "binlogfeed: the program gives no full lines")

    def test_forms(self):
        """A table's form is made once. Of tables that are altered without end not all forms are kept."""
        taken_apart = reader_of_lines(RAW, {})
        with mock.patch.object(lines, "MOST_FORMS", 3), mock.patch.object(lines, "Form", side_effect=lines.Form) as made:
            for table, count in (("a", 1), ("a", 1), ("b", 2), ("c", 3), ("a", 3), ("d", 4), ("d", 4), ("a", 5)):
                taken_apart((LINE % "4.1@f").replace('"table":"t"', f'"table":"{table}"').encode())
                self.assertEqual(made.call_count, count)


class ByJson(Taken, TestCase):
    """By json alone."""

    def setUp(self):
        """Has orjson, where it is installed, not used."""
        patch = mock.patch.object(lines, "loads", None)
        patch.start()
        self.addCleanup(patch.stop)

    def test_servers_logs(self):
        """All lines of the shop and the bank."""
        for files in (SHOP, BANK):
            told = subprocess.run([PROGRAM, "read", "--full", *files], capture_output=True, check=True).stdout
            for line in told.split(b"\n")[:-1]:
                change, members = change_of(line), json.loads(line)
                self.assertEqual((change.token, change.timestamp, change.gtid), (members["token"], members["timestamp"], members["gtid"]))
                self.assertEqual(list(change.after or change.before), list(members["after"] or members["before"]))


@skipUnless(lines.loads, "this Python has no orjson (pip install orjson)")
class ByOrjson(Taken, TestCase):
    """By orjson."""
