"""Dates and times of lines as Python's own.

MySQL keeps dates that Python has none for, such as 0000-00-00 and 2024-02-00. They are a ValueError.
"""
from __future__ import annotations

import datetime
from collections.abc import Callable

UTC = datetime.timezone.utc
# Before Python 3.11 `fromisoformat` takes a fraction of three digits or of six alone.
DIGITS = 3

to_date = datetime.date.fromisoformat


def datetimes(fraction: int) -> Callable[[str], datetime.datetime]:
    """What reads a DATETIME whose fraction has so many digits. It has no time zone."""
    from_text = datetime.datetime.fromisoformat
    missing = "0" * (-fraction % DIGITS)
    return (lambda text: from_text(text + missing)) if missing else from_text


def timestamps(zone: datetime.timezone | None) -> Callable[[str], datetime.datetime]:
    """What reads a TIMESTAMP, by a time zone of UTC or by none.

    The text is the seconds since 1970, with a fraction. 0 stands for MySQL's zero date, which Python has none for.
    """
    start, span = datetime.datetime(1970, 1, 1, tzinfo=zone), datetime.timedelta

    def to_timestamp(text: str) -> datetime.datetime:
        """The moment."""
        whole, _, fraction = text.partition(".")
        seconds, microseconds = int(whole), _microseconds(fraction)
        if seconds == 0 and microseconds == 0:
            raise ValueError("the zero date")
        return start + span(0, seconds, microseconds)

    return to_timestamp


def to_time(text: str) -> datetime.timedelta:
    """The span of a TIME, which may be below 0."""
    hours, minutes, rest = text.lstrip("-").split(":")
    seconds, _, fraction = rest.partition(".")
    span = datetime.timedelta(0, int(seconds), _microseconds(fraction), 0, int(minutes), int(hours))
    return -span if text[0] == "-" else span


def to_year(text: str) -> int:
    """A YEAR. The year 0 is none of Python's."""
    year = int(text)
    if year == 0:
        raise ValueError("the year 0")
    return year


def _microseconds(fraction: str) -> int:
    """The microseconds that the digits behind the point stand for."""
    return int(fraction.ljust(6, "0")) if fraction else 0
