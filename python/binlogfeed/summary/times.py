"""Counts of changes by their time, in memory that doesn't grow with them."""
from __future__ import annotations

from collections import Counter
from collections.abc import Mapping, Sequence
from datetime import datetime, timezone
from typing import NamedTuple, Optional

from binlogfeed.counts import counted

MINUTE, HOUR, DAY, WEEK = 60, 3_600, 86_400, 604_800
# Steps by which times are counted where there are many of them. Each is a multiple of the one before.
STEPS = (1, 10, MINUTE, 10 * MINUTE, HOUR, 6 * HOUR, DAY, WEEK, 4 * WEEK)
MOST_COUNTS = 4_000
# Widths of the periods that are told.
WIDTHS = (
    *(1, 2, 5, 10, 15, 30),
    *(MINUTE * count for count in (1, 2, 5, 10, 15, 30)),
    *(HOUR * count for count in (1, 2, 3, 6, 12)),
    *(DAY * count for count in (1, 2)),
    *(WEEK * 2**power for power in range(14)),
)
UNITS = ((WEEK, "week"), (DAY, "day"), (HOUR, "hour"), (MINUTE, "minute"), (1, "second"))


class Period(NamedTuple):
    """A stretch of time, and the changes in it."""

    start: int
    width: int
    count: int


class Times:
    """How many changes were made when, in seconds since 1970."""

    def __init__(self) -> None:
        """Before the first change."""
        self.earliest: Optional[int] = None
        self.latest: Optional[int] = None
        self._step = 0
        # By the time, parted by the step.
        self._counts: Counter[int] = Counter()

    def add(self, counts: Mapping[int, int]) -> None:
        """Counts changes: how many there are of each second."""
        if not counts:
            return
        earliest, latest = min(counts), max(counts)
        self.earliest = earliest if self.earliest is None else min(self.earliest, earliest)
        self.latest = latest if self.latest is None else max(self.latest, latest)
        step, own = STEPS[self._step], self._counts
        for second, count in counts.items():
            own[second // step] += count
        while len(self._counts) > MOST_COUNTS and self._step + 1 < len(STEPS):
            self._widen()

    def _widen(self) -> None:
        """Counts by the next step."""
        times = STEPS[self._step + 1] // STEPS[self._step]
        wider: Counter[int] = Counter()
        for at, count in self._counts.items():
            wider[at // times] += count
        self._counts = wider
        self._step += 1

    def peak(self) -> Period | None:
        """The period with the most changes, by the step in which they are counted: a second, unless there are many of them."""
        if not self._counts:
            return None
        at, count = max(self._counts.items(), key=lambda item: (item[1], -item[0]))
        step = STEPS[self._step]
        return Period(at * step, step, count)

    def periods(self, most: int) -> list[Period]:
        """Periods of one width from the first change to the last, at most so many. Some may have no change."""
        if self.earliest is None or self.latest is None:
            return []
        step = STEPS[self._step]
        width = next(
            width for width in WIDTHS if width % step == 0 and self.latest // width - self.earliest // width < most
        )
        counts: Counter[int] = Counter()
        for at, count in self._counts.items():
            counts[at * step // width] += count
        return [Period(at * width, width, counts[at]) for at in range(self.earliest // width, self.latest // width + 1)]


def round_marks(periods: Sequence[Period], most: int) -> list[int]:
    """Which of these periods begin at whole minutes, or more seldom; at round seconds, where they are short. Else the first and the last."""
    for width in (*(width for width in WIDTHS if width >= MINUTE), *WIDTHS):
        marks = [number for number, period in enumerate(periods) if period.start % width == 0]
        if 2 <= len(marks) <= most:
            return marks
    return sorted({0, len(periods) - 1})


def spoken(width: int) -> str:
    """A width in words, such as `10 minutes`."""
    unit, name = next((unit, name) for unit, name in UNITS if width % unit == 0)
    return counted(width // unit, name)


def utc(second: int) -> str:
    """A time in UTC."""
    return datetime.fromtimestamp(second, timezone.utc).strftime("%Y-%m-%d %H:%M:%S")


def start_text(period: Period) -> str:
    """Where a period begins, as exactly as its width asks."""
    text = utc(period.start)
    if period.width % DAY == 0:
        return text[:10]
    return text[:16] if period.width % MINUTE == 0 else text
