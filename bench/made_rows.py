"""Tables and rows that are made up, to time the program on: one with 40 columns of all types, and one that is loaded in bulk.

What stands in them is worked out from a row's number, so that a log is the same each time it is made.
"""
from __future__ import annotations

import struct
from typing import Callable, NamedTuple

# How many bytes a DECIMAL takes for so many digits, below nine.
DIGIT_BYTES = (0, 1, 1, 2, 2, 3, 3, 4, 4)
# The usual collation of a server, utf8mb4_0900_ai_ci.
UTF8MB4 = 255
WORDS = ("Ada", "Søren", "cup", "saucer", "élan", "north by north-west", "100 % \"cotton\"", "line\nbreak", "plain text of some length")


class Column(NamedTuple):
    """A column: its name, type and metadata, the bytes of its value in a row, whether a number or a YEAR is unsigned, and value names."""

    name: str
    type: int
    metadata: bytes
    value: Callable[[int], bytes]
    unsigned: bool | None = None
    names: tuple[str, ...] = ()


def packed(number: int) -> bytes:
    """A number as the protocol packs it."""
    return bytes([number]) if number < 251 else b"\xfc" + struct.pack("<H", number)


def mixed(row: int, salt: int) -> int:
    """A number of 32 bits that looks random."""
    return (row * 2_654_435_761 + salt * 40_503 + (row >> 3) * 97) % 2**32


def integer(name: str, kind: int, width: int, unsigned: bool) -> Column:
    """A column of whole numbers of so many bytes."""
    span = 2 ** (8 * width)
    salt = kind * 2 + unsigned
    return Column(name, kind, b"", lambda row: (mixed(row, salt) * mixed(row + 1, salt) % span).to_bytes(width, "little"), unsigned)


def text(name: str, kind: int, metadata: bytes, width: int, salt: int) -> Column:
    """A column of texts with a length of so many bytes."""
    return Column(name, kind, metadata, lambda row: counted(WORDS[mixed(row, salt) % len(WORDS)].encode(), width))


def counted(value: bytes, width: int) -> bytes:
    """Bytes behind their length."""
    return len(value).to_bytes(width, "little") + value


def fraction(precision: int, row: int) -> bytes:
    """The bytes of a fraction of a second with so many digits."""
    width = (precision + 1) // 2
    digits = mixed(row, precision) % 10**precision * (10 if precision % 2 else 1)
    return digits.to_bytes(width, "big")


def date(row: int) -> bytes:
    """A day of this century."""
    return (1 + row % 28 | (1 + row % 12) << 5 | (2000 + row % 90) << 9).to_bytes(3, "little")


def datetime(precision: int, row: int) -> bytes:
    """A day and a time, as DATETIME2 has them."""
    months, seconds = (2000 + row % 90) * 13 + 1 + row % 12, (row % 24) << 12 | (row % 60) << 6 | mixed(row, 3) % 60
    return (1 << 39 | months << 22 | (1 + row % 28) << 17 | seconds).to_bytes(5, "big") + fraction(precision, row)


def time(precision: int, row: int) -> bytes:
    """A time of some hours, as TIME2 has it."""
    behind = fraction(precision, row)
    bits = 8 * len(behind)
    whole = ((row % 800) << 12 | (row % 60) << 6 | mixed(row, 5) % 60) << bits | int.from_bytes(behind, "big")
    return ((1 << 23 + bits) + (whole if row % 3 else -whole)).to_bytes(3 + len(behind), "big")


def decimal(precision: int, scale: int, row: int) -> bytes:
    """A DECIMAL, every fifth below zero."""
    digits = "".join(f"{mixed(row, at):010}" for at in range(precision // 10 + 1))[:precision]
    whole, behind = digits[: precision - scale], digits[precision - scale :]
    first = len(whole) % 9
    groups = [whole[:first]] + [whole[at : at + 9] for at in range(first, len(whole), 9)]
    groups += [behind[at : at + 9] for at in range(0, scale, 9)]
    out = bytearray(b"".join(int(it or 0).to_bytes(4 if len(it) == 9 else DIGIT_BYTES[len(it)], "big") for it in groups))
    out[0] ^= 0x80
    return bytes(out) if row % 5 else bytes(it ^ 0xFF for it in out)


def wide() -> list[Column]:
    """Forty columns of all types."""
    kinds = ((1, 1), (2, 2), (9, 3), (3, 4), (8, 8))
    columns = [integer(f"{'un' * unsigned}signed_{width}", kind, width, unsigned) for unsigned in (False, True) for kind, width in kinds]
    columns += [Column(f"bits_{bits}", 16, bytes([bits % 8, bits // 8]), lambda row, bits=bits: (mixed(row, bits) % 2**bits).to_bytes((bits + 7) // 8, "big")) for bits in (1, 12)]
    columns += [Column(f"money_{p}_{s}", 246, bytes([p, s]), lambda row, p=p, s=s: decimal(p, s, row), False) for p, s in ((10, 2), (19, 4), (30, 10))]
    columns += [
        Column("ratio", 4, b"\x04", lambda row: struct.pack("<f", row / 7), False),
        Column("measure", 5, b"\x08", lambda row: struct.pack("<d", row / 11), False),
        Column("vintage", 13, b"", lambda row: bytes([row % 156]), True),
        Column("born", 10, b"", date),
    ]
    columns += [Column(f"at_{f}", 18, bytes([f]), lambda row, f=f: datetime(f, row)) for f in (0, 3, 6)]
    columns += [Column(f"stamp_{f}", 17, bytes([f]), lambda row, f=f: struct.pack(">I", 1_700_000_000 + row) + fraction(f, row)) for f in (0, 6)]
    columns += [Column(f"lasted_{f}", 19, bytes([f]), lambda row, f=f: time(f, row)) for f in (0, 3)]
    columns += [text(f"name_{at}", 15, struct.pack("<H", 200), 1, at) for at in range(4)]
    columns += [text(f"long_name_{at}", 15, struct.pack("<H", 1000), 2, at) for at in range(2)]
    columns += [text("code", 254, bytes([254, 80]), 1, 7)]
    columns += [text(f"note_{width}", 252, bytes([width]), width, width) for width in (1, 2, 4)]
    columns += [
        Column("document", 245, b"\x04", lambda row: counted(b"\x00\x01\x00\x0c\x00\x0b\x00\x01\x00\x05" + struct.pack("<h", row % 9) + b"a", 4)),
        Column("spot", 255, b"\x04", lambda row: counted(bytes(4) + b"\x01\x01\x00\x00\x00" + struct.pack("<dd", row, row / 2), 4)),
        Column("level", 254, bytes([247, 1]), lambda row: bytes([1 + row % 3]), None, ("basic", "silver", "gold")),
        Column("marks", 254, bytes([248, 1]), lambda row: bytes([row % 8]), None, ("new", "paid", "sent")),
    ]
    assert len(columns) == 40, len(columns)
    return columns


def loaded() -> list[Column]:
    """The five columns of a table that is loaded in bulk."""
    return [
        Column("id", 8, b"", lambda row: struct.pack("<Q", row), True),
        text("name", 15, struct.pack("<H", 200), 1, 1),
        Column("amount", 246, bytes([12, 2]), lambda row: decimal(12, 2, row), False),
        Column("placed", 18, b"\x00", lambda row: datetime(0, row)),
        integer("count", 3, 4, False),
    ]


def field(kind: int, value: bytes) -> bytes:
    """An optional field of a table map."""
    return bytes([kind]) + packed(len(value)) + value


def value_names(columns: list[Column], real_type: int) -> bytes:
    """The names of the values of the ENUM or SET columns."""
    wanted = [it.names for it in columns if it.type == 254 and it.metadata[0] == real_type]
    return b"".join(packed(len(names)) + b"".join(counted(name.encode(), 1) for name in names) for names in wanted)


def table_map(table: bytes, columns: list[Column]) -> bytes:
    """The body of a table map of the schema `bench`."""
    metadata = b"".join(it.metadata for it in columns)
    signs = [it.unsigned for it in columns if it.unsigned is not None]
    signs += [False] * (-len(signs) % 8)
    fields = field(1, bytes(sum(sign << 7 - bit for bit, sign in enumerate(signs[at : at + 8])) for at in range(0, len(signs), 8)))
    fields += field(2, packed(UTF8MB4)) + field(4, b"".join(counted(it.name.encode(), 1) for it in columns))
    fields += field(10, packed(UTF8MB4)) if any(it.names for it in columns) else b""
    fields += b"".join(field(kind, names) for kind, names in ((5, value_names(columns, 248)), (6, value_names(columns, 247))) if names)
    front = struct.pack("<Q", 90)[:6] + b"\x01\x00" + counted(b"bench", 1) + b"\x00" + counted(table, 1) + b"\x00" + packed(len(columns))
    return front + bytes(it.type for it in columns) + packed(len(metadata)) + metadata + bytes((len(columns) + 7) // 8) + fields + field(8, b"\x00")


def image(columns: list[Column], row: int, nulls: bool) -> bytes:
    """A row's image, with a null in every seventh column where nulls are wanted."""
    missing = [nulls and (row + at) % 7 == 0 for at in range(len(columns))]
    bitmap = sum(it << at for at, it in enumerate(missing)).to_bytes((len(columns) + 7) // 8, "little")
    return bitmap + b"".join(it.value(row) for it, is_missing in zip(columns, missing) if not is_missing)


def rows_event(columns: list[Column], first: int, count: int, most_bytes: int, nulls: bool) -> tuple[bytes, int]:
    """The body of an event that inserts rows from a number on: so many, or as many as fit, but at least one; and their number."""
    body = struct.pack("<Q", 90)[:6] + b"\x01\x00\x02\x00" + packed(len(columns)) + b"\xff" * ((len(columns) + 7) // 8)
    for row in range(first, first + count):
        more = image(columns, row, nulls)
        if row > first and len(body) + len(more) > most_bytes:
            return body, row - first
        body += more
    return body, count
