"""Where a reading begins that has no place yet, and how that is said."""
from __future__ import annotations

import logging
import re
from collections.abc import Sequence
from pathlib import Path

from binlogfeed.faults import WordsRefused
from binlogfeed.place import Place
from binlogfeed.tokens import token_parts

# The first log that is there, and the logs' end by now. Else it is the name of a log, or a token.
FIRST, NOW = "first", "now"
TOKEN = re.compile(r"\d+\.\d+@.+", re.DOTALL)
# What is said of a reading that a person may want to know, and that is no error.
LOG = logging.getLogger("binlogfeed")
HELP = (
    "where to begin if no place is kept yet: `first`, with the first log; `now`, with what is committed from now on; "
    "with the log of this name; or behind a token, such as POSITION.0@FILE of mysqldump (first)"
)


def place_of(begin: str) -> Place:
    """The place that is told by the name of a log or by a token. `first` and `now` tell none."""
    if begin in (FIRST, NOW):
        return Place()
    if TOKEN.fullmatch(begin):
        return Place(token_parts(begin).file, None, begin)
    return Place(Path(begin).name)


def check_is_there(place: Place, paths: Sequence[Path]) -> None:
    """Raises the error of a place to begin with whose log isn't there."""
    if place.file not in [path.name for path in paths]:
        raise WordsRefused(f"binlogfeed: can't begin with {place.file}: the logs are {paths[0].name} to {paths[-1].name}")


def told_beginning(place: Place, first: str, begin: str, is_kept: bool, kept_in: str) -> str:
    """What is said of a reading that begins: `first` is the first log that it reads."""
    if is_kept:
        where = f"behind {place.resume}" if place.resume else f"in {place.file}"
        return f"goes on {where}{f', as {kept_in} has it' if kept_in else ''}"
    if begin == NOW:
        return f"begins behind {place.resume}, the logs' end by now" if place.resume else f"begins with {first}, the logs' end by now"
    if begin == FIRST:
        return f"begins with {first}, the first log"
    return f"begins behind {place.resume}" if place.resume else f"begins with {first}"


def say_on_standard_error(who: str) -> None:
    """Has a command say what a reading has to say."""
    handler = logging.StreamHandler()
    handler.setFormatter(logging.Formatter(f"{who}: %(message)s"))
    LOG.addHandler(handler)
    LOG.setLevel(logging.INFO)
    LOG.propagate = False
