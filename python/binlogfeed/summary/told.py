"""What the text and the page say in the same words."""
from __future__ import annotations

from collections import Counter
from typing import NamedTuple, Optional

from binlogfeed.counts import counted
from binlogfeed.summary.changes import Change
from binlogfeed.summary.gtids import Numbers
from binlogfeed.summary.reading import Summary
from binlogfeed.summary.sizes import class_bounds
from binlogfeed.summary.times import utc
from binlogfeed.summary.units import Unit

KINDS = ("insert", "update", "delete")
# How a transaction ends, and what that means.
ENDINGS = {
    "xid": "committed, as with InnoDB",
    "commit": "committed by the statement COMMIT",
    "rollback": "rolled back: its changes aren't counted",
    "statement": "a statement outside of a transaction, such as CREATE TABLE",
}
FILTERED = "The filters choose changes. Bytes, endings and GTIDs are those of all transactions."
GAPS = (
    "A missing number is no loss by itself: it may stand in a log that wasn't given, or in another server's. A filter"
    " of a replica, a transaction that was rolled back, and numbers that a group gives its servers in blocks leave"
    " gaps, too."
)
STATEMENTS = "Statements outside of transactions, by first word"
# Stands for the first word of a statement that has none.
NO_WORD = "-"
FAULT = "What stands at this place and behind it isn't counted."
# The text and the page tell times by the same step, which makes so many periods at most.
MOST_PERIODS = 30
# Sizes in bytes are told from the class that ends here.
LEAST_BYTES_CLASS = 3
POWERS = ("", "k", "M", "G", "T", "P")


class Large(NamedTuple):
    """One of the largest transactions, as it is told."""

    size: int
    time: str
    token: str
    gtid: str


def readable(text: str) -> str:
    """A text in which nothing is hidden, and that moves no cursor: other characters come as Python writes them."""
    return "".join(char if char.isprintable() else char.encode("unicode_escape").decode() for char in text)


def logs_text(summary: Summary) -> str:
    """Which logs these are."""
    first, last = summary.logs[0].name, summary.logs[-1].name
    return readable(first if len(summary.logs) == 1 else f"{first} to {last}")


def size_text(summary: Summary) -> str:
    """How much that is."""
    return f"{counted(len(summary.logs), 'log')}, {counted(summary.size, 'byte')}"


def first_words(summary: Summary) -> list[tuple[str, int]]:
    """How many statements begin with which word."""
    return [(readable(word) or NO_WORD, count) for word, count in summary.changes.statements()]


def change_sizes(summary: Summary) -> list[tuple[str, int]]:
    """How many transactions have how many changes. Those that have none are told where there are some."""
    committed = summary.units.endings["xid"] + summary.units.endings["commit"]
    without = committed - summary.changes.sizes.total
    rows = [(_bounds(number), count) for number, count in _all_between(summary.changes.sizes.classes)]
    return ([("none", without)] if without > 0 else []) + rows


def byte_sizes(summary: Summary) -> list[tuple[str, int]]:
    """How many transactions have how many bytes."""
    classes: Counter[int] = Counter()
    for number, count in summary.units.sizes.classes.items():
        classes[max(number, LEAST_BYTES_CLASS)] += count
    return [(_bytes_text(number), count) for number, count in _all_between(classes)]


def _all_between(classes: Counter[int]) -> list[tuple[int, int]]:
    """The classes from the first to the last, with their counts."""
    return [(number, classes[number]) for number in range(min(classes), max(classes) + 1)] if classes else []


def _bounds(number: int) -> str:
    """A class of numbers of changes."""
    low, high = class_bounds(number)
    return f"{low:,}" if low == high else f"{low:,}-{high:,}"


def _bytes_text(number: int) -> str:
    """A class of sizes in bytes."""
    high = _rounded(number)
    return f"up to {high}" if number == LEAST_BYTES_CLASS else f"{_rounded(number - 1)}-{high}"


def _rounded(power: int) -> str:
    """A power of ten of bytes."""
    return f"{10 ** (power % 3)} {POWERS[power // 3]}B"


def largest_by_changes(summary: Summary) -> list[Large]:
    """The transactions with the most changes, each with the time and the token of its last change."""
    return [_large_change(size, change) for size, change in summary.changes.sizes.largest]


def _large_change(size: int, change: Change) -> Large:
    """A transaction by its last change."""
    return Large(size, utc(change.time), readable(change.token), change.gtid or "no GTID")


def largest_by_bytes(summary: Summary) -> list[Large]:
    """The transactions with the most bytes, each with the time of its first event, and the token before its changes."""
    begun = summary.begun
    return [_large_unit(size, unit, begun.get((unit.file, unit.begin))) for size, unit in summary.units.sizes.largest]


def _large_unit(size: int, unit: Unit, time: Optional[int]) -> Large:
    """A transaction by where it begins."""
    token = readable(f"{unit.begin}.0@{unit.file}")
    return Large(size, "-" if time is None else utc(time), token, unit.gtid or "no GTID")


def numbers_text(numbers: Numbers) -> str:
    """What was seen of a source."""
    missing = numbers.last - numbers.first + 1 - numbers.count
    gaps = len(numbers.gaps())
    told = f"{missing:,} missing between, in {counted(gaps, 'gap')}" if missing else "none is missing between"
    return f"{numbers.first} to {numbers.last}: {counted(numbers.count, 'number')}, {told}"
