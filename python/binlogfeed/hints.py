"""What to say below an error's line: what it mostly comes from, and what to do."""
from __future__ import annotations

from binlogfeed.faults import BinlogfeedError


def hints_of(error: BinlogfeedError) -> list[str]:
    """The hints of an error, which the program gives with its line, and the package with its own."""
    return list(error.hints)
