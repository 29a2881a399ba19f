"""Places in front of statements.

A statement that begins at a position has the token of that position, and a run that begins with this token leaves the statement out. So a
place that isn't that of a change, such as a server's own, is told by the token of the last change before it.
"""
from __future__ import annotations

import contextlib
from collections.abc import Callable, Generator
from dataclasses import replace
from pathlib import Path
from typing import NamedTuple, Optional

from binlogfeed.faults import LogFault
from binlogfeed.filters import ROWS
from binlogfeed.lines import last_members
from binlogfeed.place import Place
from binlogfeed.tokens import are_of_one_transaction, token_parts

Blocks = Generator[bytes, None, None]
# What a run of the program with these words writes, in blocks of whole lines. Closed, it ends the run.
Runs = Callable[..., Blocks]


class Unit(NamedTuple):
    """A transaction or a statement: where it begins, and where it ends."""

    begin: int
    end: int


def settled(place: Place, log: Path, size: int, runs: Runs) -> Place:
    """The place by the token of the last change before it, or as the log's beginning where none is before it. It is one of this log.

    The log had so many bytes or more. A place with the token of a row stays as it is, and so does one that the log doesn't reach, or
    where no transaction and no statement ends: the program refuses these.
    """
    if place.resume is None or token_parts(place.resume).count:
        return place
    file, position, _ = token_parts(place.resume)
    with contextlib.closing(runs("transactions", "--", log)) as blocks:
        unit = _unit_before(blocks, position)
    if unit is None and position <= size:
        return replace(place, token=None)
    if unit is None or unit.end != position:
        return place
    token = f"{unit.begin}.0@{file}"
    with contextlib.closing(runs("read", ROWS, f"--from={token}", "--", log)) as blocks:
        return replace(place, token=_last_token(blocks, token))


def _unit_before(blocks: Blocks, position: int) -> Optional[Unit]:
    """The last of a log's units that begins before a position. A fault behind it is the next reader's."""
    unit = None
    with contextlib.suppress(LogFault):
        for lines in blocks:
            for line in lines.splitlines():
                begin, end, _ = line.split(b"\t", 2)
                if int(begin) >= position:
                    return unit
                unit = Unit(int(begin), int(end))
    return unit


def _last_token(blocks: Blocks, token: str) -> str:
    """The token of the last row of a token's transaction, whose rows stand first; the token itself where there are none."""
    try:
        for lines in blocks:
            last = last_members(lines)["token"]
            if not are_of_one_transaction(last, token):
                tokens = (last_members(line)["token"] for line in lines.splitlines())
                return max((one for one in tokens if are_of_one_transaction(one, token)), key=_count, default=token)
            token = last
    except LogFault as fault:
        # Any other stands behind the transaction.
        if fault.what == "SourceChanged":
            raise
    return token


def _count(token: str) -> int:
    """The number in a token."""
    return token_parts(token).count
