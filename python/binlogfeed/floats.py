"""Converters for FLOAT and DOUBLE. Full lines have the shortest number that reads back, or bytes where it is none."""
from __future__ import annotations

import math
import struct
from decimal import ROUND_DOWN, ROUND_HALF_EVEN, ROUND_UP, Context, Decimal

# The struct code of a value, by its length.
CODES = {4: "<f", 8: "<d"}


def from_raw(raw: bytes | float) -> float:
    """The exact value of a FLOAT's bytes (4) or a DOUBLE's (8). A number stays as it is."""
    if not isinstance(raw, bytes):
        return raw
    (value,) = struct.unpack(CODES[len(raw)], raw)
    return float(value)


def shortest(raw: bytes | float) -> float:
    """The value with the fewest digits that the column holds so: 0.1 where a FLOAT was given 0.1. A full line has that number."""
    value = from_raw(raw)
    is_float = isinstance(raw, bytes) and len(raw) == 4
    return float(text_of_float(value)) if is_float and math.isfinite(value) else value


# The least FLOAT that has all bits of its fraction.
NORMAL = 2.0**-126
# So many digits tell each FLOAT. Any number of six digits can be told by its FLOAT.
ALL = 9
SURE = ("%.6g", "%.7g", "%.8g", "%.9g")
packed = struct.Struct("<f").pack


def text_of_double(value: float) -> str:
    """A DOUBLE as full lines have it."""
    return repr(value)


def text_of_float(value: float) -> str:
    """A FLOAT, given exactly, as full lines have it: the shortest decimal that reads back, and of these the closest."""
    raw = packed(value)
    # All but powers of two, whose fraction is 0.
    if (raw[0] or raw[1] or raw[2] & 127) and abs(value) >= NORMAL:
        for form in SURE:
            short = float(form % value)
            if packed(short) == raw:
                return repr(short)
    return repr(_closest(value, raw))


def _as_float(value: float) -> bytes | None:
    """The bytes of a FLOAT, or None where no FLOAT is as great."""
    try:
        return packed(value)
    except OverflowError:
        return None


def _closest(value: float, raw: bytes) -> float:
    """The same of any FLOAT. Numbers below a power of two are closer than those above it, so the nearest decimal may not read back."""
    if value == 0:
        return value
    exact = Decimal(value)
    for digits in range(1, ALL + 1):
        near = Context(prec=digits, rounding=ROUND_HALF_EVEN).plus(exact)
        down = Context(prec=digits, rounding=ROUND_DOWN).plus(exact)
        up = Context(prec=digits, rounding=ROUND_UP).plus(exact)
        for decimal in sorted({near, down, up}, key=lambda it: (abs(it - exact), it != near)):
            if _as_float(float(decimal)) == raw:
                return float(decimal)
    return value
