"""Logs that a real server wrote: the shop's, with its lines, and the bank's, with the rows that its tables had at the end."""
from __future__ import annotations

import json
import shlex
from functools import partial
from itertools import takewhile
from pathlib import Path

from built.check import Check, Wanted, differs, run

TOP = Path(__file__).resolve().parents[2]
SHOP = TOP / "examples/shop"
BANK = TOP / "tests/bank"

# The primary key of each of the bank's tables.
KEYS = {"account": "id", "journal": "seq"}

# The columns of the primary key of each of the shop's tables, in key order, as its statements.sql has them.
SHOP_KEYS = {"customer": ("id",), "product": ("sku",), "purchase": ("id",), "line": ("purchase", "nr")}

Row = dict[str, object]
Tables = dict[tuple[str, object], Row]


def logs_of(folder: Path) -> list[str]:
    """The paths of a folder's logs, in their order."""
    return [str(path) for path in sorted(folder.glob("binlog.*"))]


def judge_shop(subcommand: str, lines: str, program: Path, folder: Path) -> list[str]:
    """The shop's lines, byte for byte."""
    wanted = (SHOP / lines).read_bytes()
    return differs(run(program, [subcommand, *logs_of(SHOP)], folder), Wanted(0, wanted))


def keys_of(change: dict) -> list[str]:
    """The keys of a change of the shop's, as JSON: one, or two where it changes the key."""
    images = [image for image in (change["before"], change["after"]) if image]
    keys = [json.dumps([image[column] for column in SHOP_KEYS[change["table"]]]) for image in images]
    return sorted(set(keys))


def stories_of(table: str) -> dict[str, bytes]:
    """The story of each key of a table of the shop's: those of the shop's lines whose row has the key, in their order."""
    lines = (SHOP / "read.jsonl").read_bytes().splitlines(keepends=True)
    stories: dict[str, bytes] = {}
    for line in lines:
        change = json.loads(line)
        for key in keys_of(change) if change["table"] == table else []:
            stories[key] = stories.get(key, b"") + line
    return stories


def judge_stories(table: str, program: Path, folder: Path) -> list[str]:
    """The stories that `history` tells of the keys of a table of the shop's."""
    stories = stories_of(table)
    reasons = [] if stories else [f"no line is of the table {table}"]
    for key, story in stories.items():
        words = ["history", "--schema", "shop", "--table", table, "--key", key]
        reasons += [f"{key}: {reason}" for reason in differs(run(program, [*words, *logs_of(SHOP)], folder), Wanted(0, story))]
    return reasons


def judge_told(program: Path, folder: Path) -> list[str]:
    """The story that docs/USAGE.md tells, by its command: the lines that stand below it."""
    lines = (TOP / "docs/USAGE.md").read_text(encoding="utf-8").splitlines()
    at = next(number for number, line in enumerate(lines) if line.startswith("    ./binlogfeed history "))
    words = [str(TOP / word) if word.startswith("examples/") else word for word in shlex.split(lines[at])[1:]]
    told = takewhile(lambda line: line.startswith("    {"), lines[at + 2 :])
    wanted = "".join(f"{line.strip()}\n" for line in told)
    reasons = [] if wanted else ["no line stands below the command"]
    return reasons + differs(run(program, words, folder), Wanted(0, wanted.encode()))


def final_rows() -> Tables:
    """The bank's tables at the end, as its server told them."""
    lines = [json.loads(line) for line in (BANK / "state.jsonl").read_text(encoding="utf-8").splitlines()]
    return {(line["table"], line["row"][KEYS[line["table"]]]): line["row"] for line in lines}


def apply(tables: Tables, change: dict) -> str | None:
    """Applies a change to the tables. Answers what is wrong with it."""
    table, before, after = change["table"], change["before"], change["after"]
    if before and tables.pop((table, before[KEYS[table]]), None) != before:
        return f"{change['token']}: the row before isn't the one that stands there"
    if after and tables.setdefault((table, after[KEYS[table]]), after) is not after:
        return f"{change['token']}: there is a row with its key already"
    return None


def place_of(change: dict) -> tuple[str, int, int]:
    """The place of a change by its token: the file, the transaction's position, and the number in it."""
    place, _, name = change["token"].partition("@")
    position, _, number = place.partition(".")
    return name, int(position), int(number)


def judge_bank(program: Path, folder: Path) -> list[str]:
    """The changes stand in their order, and applied one after the other they make the tables of the server."""
    came = run(program, ["read", *logs_of(BANK)], folder)
    changes = [json.loads(line) for line in came.stdout.splitlines()]
    tables: Tables = {}
    reasons = [reason for change in changes if (reason := apply(tables, change))]
    places = [place_of(change) for change in changes]
    if any(first >= second for first, second in zip(places, places[1:])):
        reasons.append("the places don't rise")
    if tables != final_rows():
        reasons.append("the tables aren't those of the server")
    return differs(came, Wanted(0, None)) + reasons


def judge_bank_units(program: Path, folder: Path) -> list[str]:
    """Each transaction that `read` tells a change of has a line that says that it was committed."""
    changes = run(program, ["read", *logs_of(BANK)], folder)
    came = run(program, ["transactions", *logs_of(BANK)], folder)
    units = [line.split("\t") for line in came.stdout.decode().splitlines()]
    committed = {(name, int(position), gtid) for position, _, gtid, ending, name in units if ending in ("xid", "commit")}
    told = [json.loads(line) for line in changes.stdout.splitlines()]
    missing = [change["token"] for change in told if (*place_of(change)[:2], change["gtid"]) not in committed]
    reasons = [f"no committed transaction stands at {', '.join(missing[:5])}"] if missing else []
    return differs(came, Wanted(0, None)) + reasons


def checks() -> list[Check]:
    """The checks of a server's logs."""
    return [
        Check("the shop's changes", partial(judge_shop, "read", "read.jsonl")),
        Check("the shop's transactions", partial(judge_shop, "transactions", "transactions.tsv")),
        *[Check(f"the shop's stories of {table}", partial(judge_stories, table)) for table in SHOP_KEYS],
        Check("the story in docs/USAGE.md", judge_told),
        Check("the bank's tables", judge_bank),
        Check("the bank's transactions", judge_bank_units),
    ]
