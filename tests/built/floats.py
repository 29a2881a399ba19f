"""FLOAT and DOUBLE in full lines are the shortest numbers that read back, spelled as Python's `repr` does. Others are bytes."""
import base64
import math
import re
import struct
from collections.abc import Iterator
from functools import partial
from pathlib import Path
from random import Random

import logs
from built.check import Check, Wanted, differs, run
from logs import DOUBLE, FLOAT, Column, put, rows, table_of, transaction

# The values of a full line's row.
VALUES = re.compile(rb'\{"after":\{"d":(.*?),"f":(.*?)\},"before":null,')
# So many rows of random bits, from this seed on, so many in each event.
COUNT, SEED, IN_AN_EVENT = 100_000, 17, 500
# A FLOAT that reads back has so many digits at most.
MOST_DIGITS = 9
# How many reasons a check gives.
REASONS = 4

# DOUBLEs that are hard to print: the least, the least normal one and what lies below it, the greatest, powers of two and of ten, those
# where the layout changes, and what is no number.
HARD_DOUBLES = [
    *(struct.pack("<d", value) for value in (
        0.0, -0.0, 5e-324, 9.88e-324, 2.2250738585072014e-308, 2.225073858507201e-308, 1.7976931348623157e308, 0.1, 0.3, 0.1 + 0.2,
        1e22, 1e23, 2.0**-44, 2.0**53, 2.0**53 + 2, 2.0**1023, 1e15, 1e16, 9999999999999998.0, 1e-4, 1e-5, 0.00012345,
        123456789012345680.0, -2.5,
    )),
    *(struct.pack("<Q", bits) for bits in (0x7FF << 52, 0xFFF << 52, 0x7FF8 << 48, (0x7FF << 52) + 1, (1 << 64) - 1)),
    *(struct.pack("<d", 2.0**power) for power in range(-1074, 1024)),
    *(struct.pack("<d", float(f"1e{power}")) for power in range(-323, 309)),
]  # fmt: skip
HARD_FLOATS = [
    *(struct.pack("<f", value) for value in (0.0, -0.0, 1e-45, 0.1, 0.3, 16777216.0, 33554432.0, 1e15, 1e16, 1e-4, 1e-5, 3.4028234e38)),
    *(struct.pack("<I", bits) for bits in (0xFF << 23, 0x1FF << 23, 0x1FF << 22, (0xFF << 23) + 1, (1 << 32) - 1)),
    *(struct.pack("<I", bits << 23) for bits in range(1, 255)),
    *(struct.pack("<I", 1 << place) for place in range(23)),
]


def in_base64(raw: bytes) -> str:
    """What a line has for the bytes of what is no number."""
    return f'{{"raw":"{base64.b64encode(raw).decode()}"}}'


def double_text(raw: bytes) -> str:
    """What a line has for a DOUBLE."""
    (value,) = struct.unpack("<d", raw)
    return repr(value) if math.isfinite(value) else in_base64(raw)


def reads_back(text: str, raw: bytes) -> bool:
    """Whether a number is that of a FLOAT's bytes."""
    try:
        return struct.pack("<f", float(text)) == raw
    except OverflowError:
        return False


def float_text(raw: bytes) -> str:
    """What a line has for a FLOAT: of the numbers with the fewest digits that read back, the closest."""
    (value,) = struct.unpack("<f", raw)
    if not math.isfinite(value):
        return in_base64(raw)
    for digits in range(MOST_DIGITS):
        closest = f"{value:.{digits}e}"
        if reads_back(closest, raw):
            return repr(float(closest))
        # Floats are twice as close below a power of two as above it: the closest number may be too far below, and the next one read back.
        mantissa, exponent = closest.split("e")
        for step in (1, -1):
            other = f"{int(mantissa.replace('.', '')) + step}e{int(exponent) - digits}"
            if reads_back(other, raw):
                return repr(float(other))
    raise ValueError(raw)


def hard() -> Iterator[bytes]:
    """Rows of the hard ones, and of these with another sign."""
    for number in range(max(len(HARD_DOUBLES), len(HARD_FLOATS))):
        double, single = HARD_DOUBLES[number % len(HARD_DOUBLES)], HARD_FLOATS[number % len(HARD_FLOATS)]
        yield double + single
        yield double[:-1] + bytes([double[-1] ^ 0x80]) + single[:-1] + bytes([single[-1] ^ 0x80])


def random_bits() -> Iterator[bytes]:
    """Rows of random bits."""
    random = Random(SEED)
    for _ in range(COUNT):
        yield random.randbytes(12)


def log_of(images: list[bytes]) -> bytes:
    """A log of one transaction with these rows of a table s.t, whose columns are d DOUBLE and f FLOAT."""
    mapped = table_of([Column("d", DOUBLE, b"\x08"), Column("f", FLOAT, b"\x04")])
    events = [rows(2, *images[first : first + IN_AN_EVENT]) for first in range(0, len(images), IN_AN_EVENT)]
    return logs.log_of([transaction(1, mapped, *events)])


def judge(images: list[bytes], program: Path, folder: Path) -> list[str]:
    """The full lines of these rows."""
    put(folder, ["log"], log_of(images))
    came = run(program, ["read", "--full", "log"], folder)
    found = [(matched[1].decode(), matched[2].decode()) for matched in VALUES.finditer(came.stdout)]
    wanted = [(double_text(image[:8]), float_text(image[8:])) for image in images]
    reasons = differs(came, Wanted(0, None))
    if len(found) != len(wanted):
        return [*reasons, f"{len(found)} lines have the two values, and {len(wanted)} should"]
    wrong = [f"{image.hex()} is {one}, wanted {other}" for image, one, other in zip(images, found, wanted) if one != other]
    return reasons + wrong[:REASONS]


def checks() -> list[Check]:
    """The checks of FLOAT and DOUBLE."""
    return [
        Check("hard FLOATs and DOUBLEs in full lines", partial(judge, list(hard()))),
        Check(f"{COUNT} random FLOATs and DOUBLEs in full lines", partial(judge, list(random_bits()))),
    ]
