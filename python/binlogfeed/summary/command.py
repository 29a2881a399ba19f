"""The command `summary` of the command line."""
from __future__ import annotations

import argparse
import shutil
import sys
from pathlib import Path
from typing import Any

from binlogfeed.files import writing
from binlogfeed.filters import add_filters, add_profile, filter_words
from binlogfeed.options import add_command
from binlogfeed.summary.reading import logs_of, summed_up
from binlogfeed.summary.text import EIGHTHS, as_text

HELP = """LOGS are log files, or a server's index file (binlog.index), the folder that has one, or a pattern in quotes
('/copies/binlog.*'). The filters choose changes; bytes, endings and GTIDs are those of all transactions. Lists of
tables and schemas leave no statement out.

Exit status: that of `binlogfeed read`. A fault ends the reading, and what stands before it is summed up. 4 also where
FILE can't be written, 6 where a log is missing between two, and 70 where the program can't be started."""
# The width where standard output is no terminal, and the least that is written for.
USUAL_WIDTH, LEAST_WIDTH = 80, 40


def add_summary(commands: Any) -> None:
    """Gives the command line the command."""
    about = "says what happened in logs: changes by table and time, statements, transactions by size, gaps in GTIDs"
    parser = add_command(commands, "summary", about, HELP)
    parser.add_argument("logs", metavar="LOGS", nargs="+", help="the logs, or where they are")
    parser.add_argument("--html", metavar="FILE", type=Path, help="write it as a page with pictures, too")
    parser.add_argument("--program", metavar="PATH", default="binlogfeed", help="the program (binlogfeed)")
    add_profile(parser)
    add_filters(parser)
    parser.set_defaults(run=summary)


def summary(given: argparse.Namespace) -> None:
    """Sums logs up, and raises what ended the reading early."""
    found = summed_up(logs_of(given.logs), filter_words(given), given.program, given.profile)
    text = as_text(found, max(LEAST_WIDTH, shutil.get_terminal_size((USUAL_WIDTH, 0)).columns))
    print(_writable(text), end="", flush=True)
    if given.html is not None:
        from binlogfeed.summary.page import as_page

        with writing(str(given.html)):
            given.html.write_text(as_page(found), encoding="utf-8")
    if found.fault is not None:
        raise found.fault


def _writable(text: str) -> str:
    """The text, as standard output's encoding can write it."""
    encoding = sys.stdout.encoding or "utf-8"
    try:
        text.encode(encoding)
    except UnicodeEncodeError:
        for char in EIGHTHS[1:]:
            text = text.replace(char, "#" if char == EIGHTHS[8] else "")
        return text.encode(encoding, "backslashreplace").decode(encoding)
    return text
