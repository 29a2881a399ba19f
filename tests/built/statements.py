"""Statements that stand by themselves in a log: a real log, held to what MySQL's own mysqlbinlog prints of it."""
from __future__ import annotations

import json
import re
from functools import partial
from pathlib import Path
from typing import NamedTuple

from built.check import Check, Wanted, differs, run, said
from built.growing import judge_followed, judge_from_each_token
from built.server_logs import logs_of

FOLDER = Path(__file__).resolve().parents[1] / "statement"
[LOG] = logs_of(FOLDER)
SERVER = ("--profile", "server")
ROWS = ("--only-events", "insert,update,delete")
STYLES = (("plain", ()), ("full", ("--full",)))
# The default schema of the session that wrote the log.
SCHEMA = "d"


class Printed(NamedTuple):
    """An event as mysqlbinlog prints it."""

    place: int
    kind: str
    text: str


def printed_events() -> list[Printed]:
    """The events in mysqlbinlog's text, in order. The text of a QUERY is what stands before the last delimiter of its part."""
    parts = re.split(r"^# at (\d+)\n", (FOLDER / "mysqlbinlog.txt").read_text(encoding="utf-8"), flags=re.MULTILINE)[1:]
    events = []
    for place, part in zip(parts[::2], parts[1::2]):
        kind = re.match(r"#.*?end_log_pos \d+ *\t(\w+)", part)
        pieces = [piece.strip("\n") for piece in part.split("/*!*/;")]
        events.append(Printed(int(place), kind[1] if kind else "", next((piece for piece in pieces[-2::-1] if piece), "")))
    return events


def wanted_statements() -> list[dict]:
    """The statements that stand right behind a GTID, as their lines have them."""
    events = printed_events()
    found = []
    for gtid, query in zip(events, events[1:]):
        if gtid.kind == "GTID" and query.kind == "Query" and query.text != "BEGIN":
            name = re.search(r"GTID_NEXT= '(.*?)'", gtid.text)[1]
            found.append({"gtid": name, "place": gtid.place, "text": query.text})
    return found


def lines_of(program: Path, folder: Path, *words: str) -> list[dict]:
    """The objects of the lines of a run over the log."""
    return [json.loads(line) for line in run(program, ["read", *words, LOG], folder).stdout.splitlines()]


def judge_statements(words: tuple[str, ...], program: Path, folder: Path) -> list[str]:
    """Each statement that stands by itself has a line, which says what mysqlbinlog prints; a line stands in the order of its place."""
    lines = lines_of(program, folder, *words, *SERVER)
    # All of them began in one second.
    [time] = {int(time) for time in re.findall(r"SET TIMESTAMP=(\d+)", (FOLDER / "mysqlbinlog.txt").read_text(encoding="utf-8"))}
    wanted = [
        {
            "gtid": one["gtid"],
            "kind": "statement",
            "statements": [{"schema": SCHEMA, "text": one["text"], "timestamp": time}],
            "timestamp": time,
            "token": f"{one['place']}.0@binlog.000001",
        }
        for one in wanted_statements()
    ]
    came = [line for line in lines if line["kind"] == "statement"]
    reasons = [] if came == wanted and len(wanted) == 5 else [f"the statements are {came}"]
    places = [tuple(map(int, line["token"].partition("@")[0].split("."))) for line in lines]
    return reasons + ([] if places == sorted(set(places)) else [f"the places are {places}"])


def judge_rows(words: tuple[str, ...], program: Path, folder: Path) -> list[str]:
    """The other lines are those of the strict profile, which gives no statement, and those that are asked for alone."""
    strict = run(program, ["read", *words, LOG], folder)
    both = run(program, ["read", *words, *SERVER, LOG], folder)
    rows = b"".join(line for line in both.stdout.splitlines(keepends=True) if b'"kind":"statement"' not in line)
    alone = run(program, ["read", *words, *SERVER, *ROWS, LOG], folder)
    count = len((FOLDER / "expected.jsonl").read_text(encoding="utf-8").splitlines())
    return differs(strict, Wanted(0, rows)) + differs(alone, Wanted(0, rows)) + ([] if rows.count(b"\n") == count else [f"the rows are {rows!r}"])


def judge_filtered(words: tuple[str, ...], left: list[int], program: Path, folder: Path) -> list[str]:
    """These words leave the statements at these places."""
    lines = lines_of(program, folder, *SERVER, *words)
    came = [int(line["token"].partition(".")[0]) for line in lines if line["kind"] == "statement"]
    return [] if came == left else [f"the statements stand at {came}"]


def judge_refused(program: Path, folder: Path) -> list[str]:
    """The strict profile has no such events."""
    came = run(program, ["read", "--only-events", "insert,statement", LOG], folder)
    return differs(came, Wanted(2, b"", said("bad --only-events: statement")))


def checks() -> list[Check]:
    """The checks of statements."""
    every = [one["place"] for one in wanted_statements()]
    source = "3e11fa47-71ca-11e1-9e33-c80aa9429562"
    filters = [
        (("--only-events", "statement"), every),
        (("--only-events", "delete,statement"), every),
        (ROWS, []),
        (("--only-tables", "none"), every),
        (("--ignored-schemas", "d"), every),
        (("--auto-position", f"{source}:1-2:12"), [3060, 3843]),
        (("--from", "322.0@binlog.000001"), [3060, 3688, 3843]),
        (("--from", "3843.0@binlog.000001"), []),
    ]
    return [
        *[Check(f"statements, {name} lines", partial(judge_statements, words)) for name, words in STYLES],
        *[Check(f"rows beside statements, {name} lines", partial(judge_rows, words)) for name, words in STYLES],
        *[Check(f"statements, {name} lines from each token", partial(judge_from_each_token, (*words, *SERVER), LOG)) for name, words in STYLES],
        *[Check(f"statements, {name} lines of a log that grows", partial(judge_followed, (*words, *SERVER), LOG, 9)) for name, words in STYLES],
        *[Check(f"statements by {' '.join(words)}", partial(judge_filtered, words, left)) for words, left in filters],
        Check("statements by the strict profile", judge_refused),
    ]
