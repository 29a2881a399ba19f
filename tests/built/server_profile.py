"""The profile of servers: a real log whose table maps have no names of columns, and logs that both profiles read alike."""
from __future__ import annotations

import base64
import json
import re
from functools import partial
from pathlib import Path

from built.check import Check, Wanted, differs, run, said
from built.growing import judge_followed, judge_from_each_token
from built.server_logs import BANK, SHOP, logs_of

MINIMAL = Path(__file__).resolve().parents[1] / "minimal"
[LOG] = logs_of(MINIMAL)
SERVER = ("--profile", "server")
ROWS = ("--only-events", "insert,update,delete")
# Where its first table map stands, and its first transaction with rows.
FIRST_MAP, FIRST_CHANGE = 797, 654

Value = object
Image = dict[str, Value]


def told_lines(name: str) -> list[dict]:
    """The objects of a file of the log's folder, one a line."""
    return [json.loads(line) for line in (MINIMAL / name).read_text(encoding="utf-8").splitlines()]


def columns() -> dict[tuple[str, int], dict]:
    """What the server said of each column, by its table and its number."""
    return {(table["table"], column["n"]): column for table in told_lines("state.jsonl") for column in table["columns"]}


def base64_of(content: bytes) -> dict:
    """Bytes that aren't given as a text."""
    return {"base64": base64.b64encode(content).decode()}


def text_of(content: bytes, charset: str, full: bool) -> Value:
    """A text of a column, or its bytes. A plain line goes by UTF-8 alone."""
    if full:
        return content.decode({"utf8mb4": "utf-8", "latin1": "cp1252"}[charset]) if charset else base64_of(content)
    try:
        return content.decode()
    except UnicodeDecodeError:
        return base64_of(content)


def value_of(printed: dict, column: dict, full: bool) -> Value:
    """The value that mysqlbinlog printed of a column, as a line has it."""
    text, shown = printed["t"], printed["ty"].partition("(")[0]
    if text == "NULL":
        return None
    if shown in ("INT", "LONGINT"):
        signed, unsigned = re.fullmatch(r"(-?\d+)(?: \((\d+)\))?", text).groups()
        return int(unsigned or signed) if "unsigned" in column["type"] else int(signed)
    if shown in ("VARSTRING", "BLOB/TEXT"):
        return text_of(bytes.fromhex(printed["x"]), column["charset"], full)
    return {"YEAR": str, "ENUM": int, "SET": lambda bits: int(bits[2:-1], 2)}[shown](text)


def image_of(change: dict, side: str, full: bool) -> Image | None:
    """An image of a change, by the numbers of its columns, as far as mysqlbinlog printed it."""
    if side not in change:
        return None
    known = columns()
    return {f"@{one['c']}": value_of(one, known[change["table"], one["c"]], full) for one in change[side]}


def is_unlike(came: Image | None, wanted: Image | None, incomplete: bool) -> bool:
    """Whether an image isn't the one that was printed. Of one that mysqlbinlog gave up at, the first columns count."""
    if came is None or wanted is None:
        return came is not wanted
    told = dict(list(came.items())[: len(wanted)]) if incomplete else came
    return list(told.items()) != list(wanted.items()) or [*map(type, told.values())] != [*map(type, wanted.values())]


def unlike(line: dict, change: dict, full: bool) -> list[str]:
    """What a line tells otherwise than mysqlbinlog printed it."""
    reasons = [f"{name} is {line[name]}" for name in ("gtid", "kind", "schema", "table") if line[name] != change[name]]
    for side in ("before", "after"):
        if is_unlike(line[side], image_of(change, side, full), change.get("incomplete", False)):
            reasons.append(f"{side} is {line[side]}")
    if full:
        reasons += [] if line["key"] == [] else [f"the key is {line['key']}"]
    return [f"change {change['n']}: {reason}" for reason in reasons]


def judge_values(words: tuple[str, ...], program: Path, folder: Path) -> list[str]:
    """Each change is as mysqlbinlog printed it, column by column."""
    came = run(program, ["read", *words, *SERVER, *ROWS, LOG], folder)
    lines, wanted = [json.loads(line) for line in came.stdout.splitlines()], told_lines("expected.jsonl")
    reasons = differs(came, Wanted(0, None))
    if len(lines) != len(wanted):
        return [*reasons, f"{len(lines)} lines, wanted {len(wanted)}"]
    return reasons + [reason for line, change in zip(lines, wanted) for reason in unlike(line, change, "--full" in words)]


def stored(text: str | None, column: dict) -> Value:
    """A value as a full line has it, by what the server told of the table at the end."""
    shown = column["type"].partition("(")[0].partition(" ")[0]
    if text is None or shown == "year":
        return text
    if shown in ("int", "bigint"):
        return int(text)
    if shown in ("enum", "set"):
        return int(text.partition(":")[0])
    content = bytes.fromhex(text)
    return {"raw": base64.b64encode(content).decode()} if shown == "point" else text_of(content, column["charset"], True)


def judge_state(program: Path, folder: Path) -> list[str]:
    """Applied one after the other, the changes make the tables that the server told of."""
    tables: dict[str, list[dict]] = {table["table"]: [] for table in told_lines("state.jsonl")}
    reasons = []
    for line in run(program, ["read", "--full", *SERVER, *ROWS, LOG], folder).stdout.splitlines():
        change = json.loads(line)
        rows = tables[change["table"]]
        if change["before"] is not None and change["before"] not in rows:
            reasons.append(f"{change['token']}: the row before isn't there")
        rows[:] = [row for row in rows if row != change["before"]] + ([change["after"]] if change["after"] else [])
    for table in told_lines("state.jsonl"):
        wanted = [{f"@{c['n']}": stored(text, c) for text, c in zip(row, table["columns"])} for row in table["rows"]]
        if tables[table["table"]] != wanted:
            reasons.append(f"{table['table']} is {tables[table['table']]}")
    return reasons


def judge_types(program: Path, folder: Path) -> list[str]:
    """The types of full lines are those that the server declared, as far as the maps say it."""
    reasons = []
    for line in run(program, ["read", "--full", *SERVER, *ROWS, LOG], folder).stdout.splitlines():
        change = json.loads(line)
        for (table, number), column in columns().items():
            if table == change["table"]:
                declared = re.sub(r"\(.*\)", "", column["type"]).replace("point", "geometry")
                # Maps of this log have no character sets of ENUM and SET.
                wanted = f"{declared} {column['charset']}" if declared == "varchar" else declared
                if change["types"][f"@{number}"] != wanted:
                    reasons.append(f"{change['token']}: the types are {change['types']}")
    return reasons


def judge_from_first(words: tuple[str, ...], program: Path, folder: Path) -> list[str]:
    """Behind the token of no change of the first transaction with rows stand all rows."""
    words = ["read", *words, *SERVER, *ROWS]
    whole = run(program, [*words, LOG], folder)
    return differs(run(program, [*words, "--from", f"{FIRST_CHANGE}.0@binlog.000001", LOG], folder), Wanted(0, whole.stdout))


def judge_strict(words: tuple[str, ...], program: Path, folder: Path) -> list[str]:
    """The strict profile refuses the log at its first table map."""
    came = run(program, [*words, LOG], folder)
    return differs(came, Wanted(1, b"", said(f"log fault at binlog.000001:{FIRST_MAP}: NoColumnNames")))


def judge_units(program: Path, folder: Path) -> list[str]:
    """Transactions don't go by table maps: they are the same by both profiles, and those with changes are among them."""
    plain = run(program, ["transactions", LOG], folder)
    reasons = differs(plain, Wanted(0, None))
    for name in ("strict", "server"):
        reasons += differs(run(program, ["transactions", "--profile", name, LOG], folder), Wanted(0, plain.stdout))
    units = [line.split("\t") for line in plain.stdout.decode().splitlines()]
    ends = {(int(end), gtid, ending) for _, end, gtid, ending, _ in units}
    changes = {(change["trx_end"], change["gtid"], change["ended_by"]) for change in told_lines("expected.jsonl")}
    return reasons + ([] if changes <= ends else [f"no transaction ends so: {sorted(changes - ends)}"])


def judge_alike(words: tuple[str, ...], logs: Path, program: Path, folder: Path) -> list[str]:
    """The rows of a log whose maps have names are read alike by both profiles."""
    wanted = run(program, [*words, *logs_of(logs)], folder)
    rows = ROWS if words[0] == "read" else ()
    reasons = differs(wanted, Wanted(0, None)) + ([] if wanted.stdout else ["there are no lines"])
    for name in ("strict", "server"):
        came = run(program, [words[0], "--profile", name, *rows, *words[1:], *logs_of(logs)], folder)
        reasons += [f"{name}: {reason}" for reason in differs(came, Wanted(0, wanted.stdout))]
    return reasons


def judge_no_history(program: Path, folder: Path) -> list[str]:
    """A table without a key in its maps has no history."""
    reasons = []
    for style in ((), ("--full",)):
        for key in ("[1]", "[2]", "[]", "[4294967295]"):
            words = ["history", *style, *SERVER, "--schema", "d", "--table", "t", "--key", key, LOG]
            reasons += differs(run(program, words, folder), Wanted(0, b""))
    return reasons


def checks() -> list[Check]:
    """The checks of the profile of servers."""
    styles = (("plain", ()), ("full", ("--full",)))
    changes = len(told_lines("expected.jsonl"))
    story = ("history", "--schema", "shop", "--table", "customer", "--key", "[1]")
    alike = [("read",), ("read", "--full"), ("transactions",)]
    of_minimal = [
        *[Check(f"columns without names, {name} lines", partial(judge_values, words)) for name, words in styles],
        *[Check(f"columns without names, {name} lines from each token", partial(judge_from_each_token, (*words, *SERVER), LOG)) for name, words in styles],
        *[Check(f"columns without names, {name} lines from the first rows", partial(judge_from_first, words)) for name, words in styles],
        *[Check(f"columns without names, {name} lines of a log that grows", partial(judge_followed, (*words, *SERVER, *ROWS), LOG, changes)) for name, words in styles],
        Check("columns without names, the tables at the end", judge_state),
        Check("columns without names, their types", judge_types),
        Check("columns without names, transactions", judge_units),
        Check("columns without names, no history", judge_no_history),
    ]
    strict = [("read",), ("read", "--full"), ("read", "--profile", "strict"), ("history", "--schema", "d", "--table", "t", "--key", "[1]")]
    return [
        *of_minimal,
        *[Check(f"columns without names, refused: {' '.join(words[:3])}", partial(judge_strict, words)) for words in strict],
        *[
            Check(f"the {logs.name}'s logs by both profiles: {' '.join(words)}", partial(judge_alike, words, logs))
            for logs in (SHOP, BANK)
            for words in alike
        ],
        Check("a story of the shop's by both profiles", partial(judge_alike, story, SHOP)),
    ]
