"""Counts of transactions by their size, and the largest of them."""
from __future__ import annotations

import bisect
from collections import Counter
from collections.abc import Mapping
from typing import Generic, TypeVar

Told = TypeVar("Told")

# So many of the largest transactions are told.
LARGEST = 10


def class_of(size: int) -> int:
    """The class of a size: 0 for 1 and below, 1 for 2 to 10, 2 for 11 to 100, and so on."""
    return len(str(size - 1)) if size > 1 else 0


def class_bounds(number: int) -> tuple[int, int]:
    """The smallest and the greatest size of a class."""
    return (10 ** (number - 1) + 1, 10**number) if number else (1, 1)


class Sizes(Generic[Told]):
    """How many transactions have a size of which class, and the largest of them, each with what is told of it."""

    def __init__(self, least: int = 0) -> None:
        """Before the first transaction. One that is no larger than `least` isn't kept."""
        self.classes: Counter[int] = Counter()
        # By their sizes, the greatest first; of two of one size the one that came first.
        self.largest: list[tuple[int, Told]] = []
        # Only what is larger than this can be among the largest.
        self.least = least

    @property
    def total(self) -> int:
        """How many transactions there are."""
        return sum(self.classes.values())

    def count(self, sizes: Mapping[int, int]) -> None:
        """Counts transactions: how many there are of each size."""
        for size, number in sizes.items():
            self.classes[class_of(size)] += number

    def offer(self, size: int, told: Told) -> None:
        """Keeps a transaction where it is among the largest. They are offered in log order."""
        if size <= self.least:
            return
        place = bisect.bisect_right([-other for other, _ in self.largest], -size)
        self.largest.insert(place, (size, told))
        del self.largest[LARGEST:]
        if len(self.largest) == LARGEST:
            self.least = self.largest[-1][0]
