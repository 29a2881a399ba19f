"""MySQL's binary form of JSON, written as its documentation lays it out (`json_binary.h`), with what a full line has for each value.

A document is a byte for its type, and a value. An object or array is the number of its elements, its size, entries for keys and
values, keys and values. The numbers in these have 2 bytes in a small one and 4 in a large one, and offsets count from its first byte.
"""
from __future__ import annotations

import base64
import json
import struct
from typing import NamedTuple

OBJECT, ARRAY, LITERAL, DOUBLE, STRING, OPAQUE = 0, 2, 4, 11, 12, 15
# The struct code of each type of integer.
INTEGERS = {5: "<h", 6: "<H", 7: "<i", 8: "<I", 9: "<q", 10: "<Q"}
# The types whose values stand in their entries, by the width of an entry's numbers.
INLINED = {2: (4, 5, 6), 4: (4, 5, 6, 7, 8)}
# The column types of opaque values.
TIMESTAMP, DATE, TIME, DATETIME, NEWDECIMAL = 7, 10, 11, 12, 246
# How many bytes a group of so many digits of a DECIMAL takes.
DIGIT_BYTES = (0, 1, 1, 2, 2, 3, 3, 4, 4, 4)


class Number(NamedTuple):
    """A number of JSON, by its text: 1, 1.0 and 1.00 are three."""

    text: str


class Scalar(NamedTuple):
    """A value without parts: its type, its bytes, and what a line has for it."""

    kind: int
    raw: bytes
    shown: object


# An array is a list of values, an object a dict of them. `None`, `bool` and `str` are scalars.
Value = object


def integer(kind: int, value: int) -> Scalar:
    """An integer of a type."""
    return Scalar(kind, struct.pack(INTEGERS[kind], value), Number(str(value)))


def double(value: float) -> Scalar:
    """A double. A line has the shortest number that reads back, as Python has."""
    return Scalar(DOUBLE, struct.pack("<d", value), Number(repr(value)))


def counted(raw: bytes) -> bytes:
    """Bytes behind their length, which has seven bits in each byte, the lowest first."""
    length, front = len(raw), b""
    while length > 127:
        front += bytes([length % 128 + 128])
        length //= 128
    return front + bytes([length]) + raw


def opaque(kind: int, raw: bytes, shown: object = None) -> Scalar:
    """A value of another of MySQL's types. Where JSON has no form for it, a line has its bytes and its type."""
    plain = {"base64": base64.b64encode(raw).decode(), "type": Number(str(kind))}
    return Scalar(OPAQUE, bytes([kind]) + counted(raw), plain if shown is None else shown)


def decimal(negative: bool, whole: str, fraction: str) -> Scalar:
    """A DECIMAL of these digits, which are stored in groups of nine, from the point on."""
    head, tail = len(whole) % 9, len(fraction) // 9 * 9
    groups = [whole[:head]] + [whole[at : at + 9] for at in range(head, len(whole), 9)]
    groups += [fraction[at : at + 9] for at in range(0, tail, 9)] + [fraction[tail:]]
    stored = bytearray(b"".join(int(group or "0").to_bytes(DIGIT_BYTES[len(group)], "big") for group in groups))
    stored[0] ^= 0x80
    raw = bytes(byte ^ 0xFF for byte in stored) if negative else bytes(stored)
    sign = "-" if negative and (whole + fraction).strip("0") else ""
    text = f"{sign}{whole.lstrip('0') or '0'}{'.' if fraction else ''}{fraction}"
    return opaque(NEWDECIMAL, bytes([len(whole) + len(fraction), len(fraction)]) + raw, Number(text))


def clock(hour: int, minute: int, second: int, micro: int) -> int:
    """A time of day as it is packed: microseconds in 24 bits, second in 6, minute in 6, and the hour."""
    return (hour << 12 | minute << 6 | second) << 24 | micro


def moment(kind: int, day: tuple[int, int, int], time: tuple[int, int, int, int] = (0, 0, 0, 0)) -> Scalar:
    """A DATE, DATETIME or TIMESTAMP: above the hour, which has 5 bits, stand 5 of the day, and year * 13 + month."""
    year, month, date = day
    number = ((year * 13 + month) << 5 | date) << 41 | clock(*time)
    text = f"{year:04}-{month:02}-{date:02}"
    hour, minute, second, micro = time
    shown = text if kind == DATE else f"{text} {hour:02}:{minute:02}:{second:02}.{micro:06}"
    return opaque(kind, struct.pack("<q", number), shown)


def span(negative: bool, hour: int, minute: int, second: int, micro: int) -> Scalar:
    """A TIME, whose hour has 10 bits, in two's complement."""
    number = clock(hour, minute, second, micro)
    shown = f"{'-' if negative and number else ''}{hour:02}:{minute:02}:{second:02}.{micro:06}"
    return opaque(TIME, struct.pack("<q", -number if negative else number), shown)


def encoded(value: Value, large: bool = False) -> tuple[int, bytes]:
    """The type of a value, and its bytes. Its arrays and objects are large where that is wanted, or where they have to be."""
    if isinstance(value, Scalar):
        return value.kind, value.raw
    if value is None or isinstance(value, bool):
        return LITERAL, bytes([{None: 0, True: 1, False: 2}[value]])
    if isinstance(value, str):
        return STRING, counted(value.encode())
    if isinstance(value, list):
        names, values = None, value
    else:
        assert isinstance(value, dict)
        pairs = sorted(((name.encode(), part) for name, part in value.items()), key=lambda pair: (len(pair[0]), pair[0]))
        names, values = [name for name, _ in pairs], [part for _, part in pairs]
    parts = [encoded(part, large) for part in values]
    kind = ARRAY if names is None else OBJECT
    small = b"" if large else container(names, parts, 2)
    return (kind, small) if small else (kind + 1, container(names, parts, 4))


def container(names: list[bytes] | None, parts: list[tuple[int, bytes]], width: int) -> bytes:
    """An array of these values, or an object where there are names; nothing where it is too large for numbers of this width."""
    keys = b"".join(names or [])
    at = 2 * width + len(parts) * (width + 1) + (0 if names is None else len(parts) * (width + 2)) + len(keys)
    key_at = at - len(keys)
    key_entries, entries, values = [], [], []
    for name in names or []:
        key_entries.append(key_at.to_bytes(4, "little")[:width] + struct.pack("<H", len(name)))
        key_at += len(name)
    for kind, raw in parts:
        if kind in INLINED[width]:
            entries.append(bytes([kind]) + raw.ljust(width, b"\0"))
            continue
        entries.append(bytes([kind]) + at.to_bytes(4, "little")[:width])
        values.append(raw)
        at += len(raw)
    if at >= 256**width:
        return b""
    head = len(parts).to_bytes(4, "little")[:width] + at.to_bytes(4, "little")[:width]
    return head + b"".join(key_entries) + b"".join(entries) + keys + b"".join(values)


def document(value: Value, large: bool = False) -> bytes:
    """A document: a type, and a value."""
    kind, raw = encoded(value, large)
    return bytes([kind]) + raw


def shown(value: Value) -> object:
    """What a line has for a value."""
    if isinstance(value, Scalar):
        return value.shown
    if isinstance(value, list):
        return [shown(part) for part in value]
    if isinstance(value, dict):
        return {name: shown(part) for name, part in value.items()}
    return value


def parsed(text: bytes | str) -> object:
    """A text of JSON, with its numbers by their texts."""
    return json.loads(text, parse_int=Number, parse_float=Number, parse_constant=Number)
