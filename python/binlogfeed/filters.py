"""The program's filters and its profile, as options of this package's commands."""
from __future__ import annotations

import argparse
from collections.abc import Sequence

from binlogfeed.faults import WordsRefused

PROFILES = ("strict", "server")
# As the program's own help says them.
FILTERS = {
    "only-events": "only changes of these kinds: insert, update, delete, and with --profile server statement",
    "only-tables": "only changes of tables with these names, in any schema",
    "ignored-tables": "no changes of tables with these names, in any schema",
    "only-schemas": "only changes of tables in these schemas",
    "ignored-schemas": "no changes of tables in these schemas",
    "auto-position": "no changes of transactions with these GTIDs",
}
EVENTS, STATEMENT = "--only-events", "statement"
# What the program gives by the strict profile. By the server's it gives statements, too.
ROWS = f"{EVENTS}=insert,update,delete"


def add_filters(parser: argparse.ArgumentParser) -> None:
    """Gives a command the filters."""
    for name, told in FILTERS.items():
        metavar = "SET" if name == "auto-position" else "LIST"
        parser.add_argument(f"--{name}", metavar=metavar, help=told)


def add_profile(parser: argparse.ArgumentParser) -> None:
    """Gives a command the profile."""
    told = "what is taken in: strict, or server, what servers write by default, too (server)"
    parser.add_argument("--profile", choices=PROFILES, default="server", help=told)


def filter_words(given: argparse.Namespace) -> list[str]:
    """The program's words for the filters that are given."""
    chosen = ((name, getattr(given, name.replace("-", "_"))) for name in FILTERS)
    return [f"--{name}={value}" for name, value in chosen if value is not None]


def gives_statements(words: Sequence[str]) -> bool:
    """Whether words for `read` have it give statements."""
    said = {}
    for word, following in zip(words, [*words[1:], ""]):
        name, is_whole, value = word.partition("=")
        said[name] = value if is_whole else following
    return STATEMENT in said[EVENTS].split(",") if EVENTS in said else said.get("--profile") == "server"


def by_default_rows(words: Sequence[str]) -> list[str]:
    """Words for `read`, by which changes of rows alone are given where the words don't say which."""
    return [*words] if any(word.partition("=")[0] == EVENTS for word in words) else [*words, ROWS]


def rows_alone(words: Sequence[str]) -> list[str]:
    """Words for `read`, by which changes of rows alone are given. A word that asks for statements is refused, as by the strict profile."""
    for word in words:
        name, _, kinds = word.partition("=")
        if name == EVENTS and STATEMENT in kinds.split(","):
            raise WordsRefused(f"binlogfeed: bad {EVENTS}: {STATEMENT}")
    return by_default_rows(words)
