"""The help: its status, its table of statuses, and what it says of each subcommand."""
import re
from functools import partial
from pathlib import Path

from built.check import Check, Outcome, Wanted, differs, run

# The statuses with which the program ends, as its help has to tell them.
STATUSES = {
    0: "the files were read to their end; a last transaction that is cut short is left out",
    1: "something in a file can't be taken in: the line on standard error says where and what",
    2: "the command line or a value in it, two files with one name; with --follow one out of order",
    3: "a token that is none, or fits no place; with --follow a file that is gone or shorter",
    4: "a file can't be opened or read, or the output can't be written",
    5: "out of memory",
}

# What each help has to name, each at the beginning of a line and with some words about it.
NAMED = {
    "": ("Reads binary log files of MySQL 8.0", "  transactions", "  read", "  history"),
    "transactions": (
        "Writes a line for each transaction",
        "Usage: binlogfeed transactions [OPTIONS] <file>...",
        "      --profile <NAME>",
        "  <file>...",
        "Example:",
        "  binlogfeed transactions /",
    ),
    "read": (
        "Writes a line of JSON for each row change",
        "Usage: binlogfeed read [OPTIONS] [file]...",
        "  [file]...",
        "      --only-events <LIST>",
        "      --only-tables <LIST>",
        "      --ignored-tables <LIST>",
        "      --only-schemas <LIST>",
        "      --ignored-schemas <LIST>",
        "      --auto-position <SET>",
        "      --from <TOKEN>",
        "      --full ",
        "      --follow ",
        "      --profile <NAME>",
        "  before, after",
        "  gtid",
        "  kind",
        "  schema, table",
        "  timestamp",
        "  token",
        "Examples:",
        "  binlogfeed read --",
    ),
    "history": (
        "Writes the line of each row change that has a key",
        "Usage: binlogfeed history [OPTIONS] --schema <NAME> --table <NAME> --key <JSON> <file>...",
        "  <file>...",
        "      --schema <NAME>",
        "      --table <NAME>",
        "      --key <JSON>",
        "      --full ",
        "      --profile <NAME>",
        "Examples",
        "  binlogfeed history --schema shop --table customer --key '[1]' ",
        "  binlogfeed history --schema shop --table line --key '[7,2]' ",
        "  binlogfeed history --schema shop --table device --key '[{\"base64\":\"/+4=\"}]' ",
    ),
}


def ending_differs(came: Outcome) -> list[str]:
    """Help ends with status 0, and has nothing to say on standard error."""
    return differs(came, Wanted(0, None))


def statuses_in(text: str) -> dict[int, str]:
    """The table of statuses of a help."""
    _, _, table = text.partition("\nExit status:\n")
    return {int(number): what for number, what in re.findall(r"(?m)^  (\d+)  (.+)$", table)}


def judge_statuses(program: Path, folder: Path) -> list[str]:
    """The table is the one above, in its order."""
    came = run(program, ["--help"], folder)
    told = statuses_in(came.stdout.decode())
    if list(told.items()) == list(STATUSES.items()):
        return ending_differs(came)
    return [*ending_differs(came), f"the table of statuses is {told}", f"wanted: {STATUSES}"]


def judge_named(subcommand: str, program: Path, folder: Path) -> list[str]:
    """The help of the program or of a subcommand names what it has."""
    words = [subcommand] if subcommand else []
    came = run(program, [*words, "--help"], folder)
    lines = came.stdout.decode().split("\n")
    missing = [name for name in NAMED[subcommand] if not any(line.startswith(name) for line in lines)]
    return ending_differs(came) + [f"it doesn't tell of {name.strip()}" for name in missing]


def judge_same(words: list[str], other: list[str], program: Path, folder: Path) -> list[str]:
    """Two ways to ask for one help."""
    wanted = run(program, words, folder)
    return ending_differs(wanted) + differs(run(program, other, folder), Wanted(0, wanted.stdout))


def judge_asked_first(program: Path, folder: Path) -> list[str]:
    """Help is told though the other words ask for a file that isn't there."""
    wanted = run(program, ["read", "--help"], folder)
    return ending_differs(wanted) + differs(run(program, ["read", "missing", "--help"], folder), Wanted(0, wanted.stdout))


def checks() -> list[Check]:
    """The checks of help."""
    same = ((["--help"], ["-h"]), (["--help"], ["help"]), (["read", "--help"], ["help", "read"]))
    return [
        Check("help's table of statuses", judge_statuses),
        *[Check(f"{kind or 'binlogfeed'} --help", partial(judge_named, kind)) for kind in NAMED],
        *[Check(f"{' '.join(other)} is help", partial(judge_same, words, other)) for words, other in same],
        Check("help beside a missing file", judge_asked_first),
    ]
