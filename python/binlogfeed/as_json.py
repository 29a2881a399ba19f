"""Python's values of a row as JSON, such as `to_json` of an event has them.

What JSON has stays as it is. A Decimal is the text of its digits; a date, a moment or a time of day is a text as ISO 8601 has it, and
a timedelta one as MySQL has it (`-838:59:59.000001`); bytes are `{"base64": ".."}`; a set is a sorted list; the document null is null.
"""
from __future__ import annotations

import base64
import datetime
import json
from decimal import Decimal
from typing import Any

from binlogfeed.values import JSON_NULL

HOUR, MINUTE = 3600, 60


def json_of(value: Any) -> str:
    """A value as a line of JSON."""
    return json.dumps(value, ensure_ascii=False, separators=(",", ":"), default=_told)


def _told(value: Any) -> Any:
    """What tells a value that JSON hasn't."""
    if value is JSON_NULL:
        return None
    if isinstance(value, Decimal):
        return str(value)
    if isinstance(value, (datetime.date, datetime.time)):
        return value.isoformat()
    if isinstance(value, datetime.timedelta):
        return time_text(value)
    if isinstance(value, (bytes, bytearray)):
        return {"base64": base64.b64encode(value).decode()}
    if isinstance(value, (set, frozenset)):
        return sorted(value)
    raise TypeError(f"JSON has no {type(value).__name__}: have the reader convert it (`convert`)")


def time_text(value: datetime.timedelta) -> str:
    """A TIME as MySQL has it."""
    amount = abs(value)
    whole = amount.days * 24 * HOUR + amount.seconds
    fraction = f".{amount.microseconds:06}" if amount.microseconds else ""
    sign = "-" if value < datetime.timedelta() else ""
    return f"{sign}{whole // HOUR:02}:{whole % HOUR // MINUTE:02}:{whole % MINUTE:02}{fraction}"
