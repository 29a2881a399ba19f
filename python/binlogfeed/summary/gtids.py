"""The numbers of GTIDs, as intervals: which were seen, and which are missing between the first and the last."""
from __future__ import annotations

import bisect
from collections.abc import Sequence

Interval = tuple[int, int]


class Numbers:
    """The numbers of a source that were seen. In memory stand their intervals alone."""

    def __init__(self) -> None:
        """Before the first number."""
        # Apart from one another, and in order.
        self._starts: list[int] = []
        self._ends: list[int] = []

    def add(self, numbers: Sequence[int]) -> None:
        """Takes in numbers, which mostly follow one another."""
        at = 0
        while at < len(numbers):
            first, end = numbers[at], at + 1
            # Mostly all of them do, which is seen at once.
            if list(numbers[at:]) == list(range(first, first + len(numbers) - at)):
                end = len(numbers)
            while end < len(numbers) and numbers[end] == numbers[end - 1] + 1:
                end += 1
            self._add(first, numbers[end - 1])
            at = end

    def _add(self, start: int, end: int) -> None:
        """Takes in an interval, which may touch or cover others."""
        starts, ends = self._starts, self._ends
        low = bisect.bisect_left(ends, start - 1)
        high = bisect.bisect_right(starts, end + 1)
        if low < high:
            start, end = min(start, starts[low]), max(end, ends[high - 1])
        starts[low:high] = [start]
        ends[low:high] = [end]

    @property
    def first(self) -> int:
        """The smallest number."""
        return self._starts[0]

    @property
    def last(self) -> int:
        """The greatest number."""
        return self._ends[-1]

    @property
    def count(self) -> int:
        """How many numbers were seen."""
        return sum(self._ends) - sum(self._starts) + len(self._starts)

    def gaps(self) -> list[Interval]:
        """The numbers between the first and the last that weren't seen."""
        return [(end + 1, start - 1) for end, start in zip(self._ends, self._starts[1:])]


def interval_text(interval: Interval) -> str:
    """An interval as MySQL writes it."""
    start, end = interval
    return str(start) if start == end else f"{start}-{end}"
