"""Numbers of things, in words."""
from __future__ import annotations


def named(count: int, noun: str) -> str:
    """What such a number counts."""
    return f"{noun}{'' if count == 1 else 's'}"


def counted(count: int, noun: str) -> str:
    """A number of things."""
    return f"{count:,} {named(count, noun)}"
