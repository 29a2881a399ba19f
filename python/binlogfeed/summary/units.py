"""Counts of transactions and statements, from the lines of `transactions`."""
from __future__ import annotations

from collections import Counter
from collections.abc import Mapping
from operator import sub
from typing import NamedTuple, Optional

from binlogfeed.summary.gtids import Numbers
from binlogfeed.summary.sizes import Sizes

COLUMNS = 5
STATEMENT = b"statement"
NO_GTID = b"-"
# The length of a source's UUID.
SOURCE = 36


class Unit(NamedTuple):
    """A transaction: where it begins, and its GTID where it has one."""

    file: str
    begin: int
    gtid: Optional[str]


class Limit(NamedTuple):
    """What is still counted: all in files before, and in this one what begins before a position and ends by another."""

    file: str
    begin: int
    end: int


class Units:
    """What is told of transactions and statements. `take` counts whole lines."""

    def __init__(self) -> None:
        """Before the first line."""
        # How many end how.
        self.endings: Counter[str] = Counter()
        # By the bytes of each transaction.
        self.sizes: Sizes[Unit] = Sizes()
        # By the source's UUID.
        self.gtids: dict[str, Numbers] = {}
        self.without_gtid = 0

    def take(self, lines: bytes) -> None:
        """Counts lines, of which there is at least one."""
        columns = lines.replace(b"\n", b"\t").split(b"\t")[:-1]
        begins, ends, gtids, endings, files = (columns[number::COLUMNS] for number in range(COLUMNS))
        counts = Counter(endings)
        for ending, count in counts.items():
            self.endings[ending.decode()] += count
        self._take_gtids(gtids)
        sizes = list(map(sub, map(int, ends), map(int, begins)))
        if STATEMENT in counts:
            # A statement is no transaction.
            sizes = [size if ending != STATEMENT else 0 for size, ending in zip(sizes, endings)]
        self.sizes.count({size: count for size, count in Counter(sizes).items() if size})
        if max(sizes) > self.sizes.least:
            for size, begin, gtid, file in zip(sizes, begins, gtids, files):
                if size > self.sizes.least:
                    self.sizes.offer(size, Unit(file.decode(), int(begin), None if gtid == NO_GTID else gtid.decode()))

    def _take_gtids(self, gtids: list[bytes]) -> None:
        """Takes in the GTIDs of lines."""
        source = gtids[0][:SOURCE]
        numbers = b"\n".join(gtids).replace(source + b":", b"").split(b"\n")
        try:
            # Mostly all are of one source.
            self._add(source, list(map(int, numbers)))
            return
        except ValueError:
            pass
        self.without_gtid += gtids.count(NO_GTID)
        for source in {gtid[:SOURCE] for gtid in gtids if gtid != NO_GTID}:
            self._add(source, [int(gtid[SOURCE + 1 :]) for gtid in gtids if gtid.startswith(source)])

    def _add(self, source: bytes, numbers: list[int]) -> None:
        """Takes in numbers of a source."""
        self.gtids.setdefault(source.decode(), Numbers()).add(numbers)


def lines_within(lines: bytes, limit: Limit, order: Mapping[str, int]) -> bytes:
    """Those of these lines that a limit lets through. `order` has the places of the files by their names."""
    last, at = order[limit.file], 0
    for line in lines.splitlines(keepends=True):
        begin, end, _, _, file = line[:-1].split(b"\t")
        place = order[file.decode()]
        if place > last or place == last and (int(begin) >= limit.begin or int(end) > limit.end):
            break
        at += len(line)
    return lines[:at]
