"""Logs as no small test has them: long values, wide tables, keys of many columns, many maps and rows in one transaction."""
import base64
import struct
from functools import partial
from pathlib import Path

from built.check import Check, Wanted, differs, run
from logs import (
    BLOB, ENUM, ENUM_VALUES, FRONT, KEY, KEY_WITH_PREFIX, LONG, SOURCE_ID, STRING, TIME, TINY, Column, counted, field, log_of, packed, put,
    rows, table_of, transaction,
)  # fmt: skip

PLACE = len(FRONT)
# A server's greatest number of columns in a table, and of columns in a key.
MOST_COLUMNS, MOST_KEY_COLUMNS = 4_096, 16
MEBIBYTE = 1 << 20


def line(image: str, number: int = 1, count: int = 1, table: str = "t", place: int = PLACE) -> str:
    """The line of a row that a transaction inserts."""
    return (
        f'{{"after":{{{image}}},"before":null,"gtid":"{SOURCE_ID}:{number}","kind":"insert","schema":"s","table":"{table}",'
        f'"timestamp":{TIME},"token":"{place}.{count}@log"}}\n'
    )


def judge(inside: list[bytes], lines: str, words: tuple[str, ...], program: Path, folder: Path) -> list[str]:
    """A log of one transaction with these events inside gives these lines."""
    put(folder, ["log"], log_of([transaction(1, *inside)]))
    return differs(run(program, [*words, "log"], folder), Wanted(0, lines.encode()))


def judge_value(value: bytes, wanted: str, program: Path, folder: Path) -> list[str]:
    """A row (1, VALUE) of a table with a LONGBLOB."""
    columns = [Column("id", LONG), Column("v", BLOB, b"\x04")]
    image = struct.pack("<II", 1, len(value)) + value
    inside = [table_of(columns, field(KEY, b"\x00")), rows(2, image)]
    return judge(inside, line(f'"id":1,"v":{wanted}'), ("read",), program, folder)


# Values, with what stands for them in a line. JSON escapes a quotation mark, a backslash and what lies below a blank.
VALUES = (
    ("a text of 70,000 bytes with escapes", b'"\\\n\x01a' * 14_000, '"' + '\\"\\\\\\n\\u0001a' * 14_000 + '"'),
    ("a text of 3 MiB", b"a" * (3 * MEBIBYTE), '"' + "a" * (3 * MEBIBYTE) + '"'),
    ("a text of 3 MiB beyond ASCII", "é".encode() * (3 * MEBIBYTE // 2), '"' + "é" * (3 * MEBIBYTE // 2) + '"'),
    ("3 MiB that are no text", b"\xff" * (3 * MEBIBYTE), f'{{"base64":"{base64.b64encode(bytes([255]) * (3 * MEBIBYTE)).decode()}"}}'),
    ("a text of 20 MiB", b"a" * (20 * MEBIBYTE), '"' + "a" * (20 * MEBIBYTE) + '"'),
)


def wide(*fields: bytes) -> bytes:
    """The map of a table with as many columns as a server allows."""
    return table_of([Column(f"{number:04}", TINY) for number in range(MOST_COLUMNS)], *fields)


def wide_image(numbers: list[int]) -> str:
    """What a line has of these columns of the wide table: each holds its number's last two digits."""
    return ",".join(f'"{number:04}":{number % 100}' for number in numbers)


def judge_wide(numbers: list[int], program: Path, folder: Path) -> list[str]:
    """A row of the wide table that has these columns. Its key has two columns, the second by its first three bytes."""
    key = field(KEY_WITH_PREFIX, packed(MOST_COLUMNS - 1) + b"\x00" + packed(0) + b"\x03")
    image = bytes(number % 100 for number in numbers)
    inside = [wide(key), rows(MOST_COLUMNS, image, present=numbers)]
    return judge(inside, line(wide_image(numbers)), ("read",), program, folder)


def judge_names(program: Path, folder: Path) -> list[str]:
    """The last value of an ENUM of 300 names."""
    names = [f"n{number}" for number in range(1, 301)]
    values = packed(len(names)) + b"".join(counted(name.encode()) for name in names)
    columns = [Column("e", STRING, bytes([ENUM, 2]))]
    inside = [table_of(columns, field(ENUM_VALUES, values)), rows(1, struct.pack("<H", 300))]
    return judge(inside, line('"e":"n300"'), ("read",), program, folder)


def judge_key(program: Path, folder: Path) -> list[str]:
    """The story of a key of sixteen columns, whose order isn't that of the columns: the second of three rows has the key."""
    columns = [Column(f"c{number:02}", TINY) for number in range(MOST_KEY_COLUMNS)]
    order = [*range(1, MOST_KEY_COLUMNS), 0]
    images = [bytes([first, *range(1, MOST_KEY_COLUMNS)]) for first in (20, 21, 22)]
    inside = [table_of(columns, field(KEY, bytes(order))), rows(MOST_KEY_COLUMNS, *images)]
    image = ",".join(f'"c{number:02}":{number or 21}' for number in range(MOST_KEY_COLUMNS))
    key = f"[{','.join(str(number or 21) for number in order)}]"
    return judge(inside, line(image, count=2), ("history", "--schema", "s", "--table", "t", "--key", key), program, folder)


def judge_maps(program: Path, folder: Path) -> list[str]:
    """A transaction that inserts a row into each of 300 tables, once all their maps were given. Their ids need five bytes."""
    first, columns = 1 << 33, [Column("id", LONG)]
    maps = [table_of(columns, table_id=first + number, table=f"s.t{number}") for number in range(300)]
    events = [rows(1, struct.pack("<I", number), table_id=first + number) for number in range(300)]
    lines = "".join(line(f'"id":{number}', count=number + 1, table=f"t{number}") for number in range(300))
    return judge([*maps, *events], lines, ("read",), program, folder)


def inserts(ids: list[int]) -> list[bytes]:
    """The events that insert rows of these ids, a thousand in each, into a table with nothing else."""
    starts = range(0, len(ids), 1_000)
    events = [rows(1, *[struct.pack("<I", number) for number in ids[start : start + 1_000]]) for start in starts]
    return [table_of([Column("id", LONG)], field(KEY, b"\x00")), *events]


def judge_rows(program: Path, folder: Path) -> list[str]:
    """A transaction of 120,000 rows."""
    lines = "".join(line(f'"id":{number}', count=number + 1) for number in range(120_000))
    return judge(inserts(list(range(120_000))), lines, ("read",), program, folder)


def judge_index(ids: list[int], key: int, program: Path, folder: Path) -> list[str]:
    """The story of a key by an index of all changes of a transaction that inserts rows of these ids."""
    lines = "".join(line(f'"id":{key}', count=count) for count, number in enumerate(ids, 1) if number == key)
    return judge(inserts(ids), lines, ("s", "t", f"[{key}]"), program, folder)


def index_checks() -> list[Check]:
    """The checks of a program that tells the stories of keys by an index."""
    return [
        Check("an index of 60,000 keys", partial(judge_index, list(range(60_000)), 59_999)),
        Check("a key of 2,000 changes", partial(judge_index, [1, 2] * 2_000, 2)),
    ]


def checks() -> list[Check]:
    """The checks of rare paths."""
    return [
        *[Check(name, partial(judge_value, value, wanted)) for name, value, wanted in VALUES],
        Check("a row of 4,096 columns", partial(judge_wide, list(range(MOST_COLUMNS)))),
        Check("a row that has two of 4,096 columns", partial(judge_wide, [0, MOST_COLUMNS - 1])),
        Check("an ENUM of 300 names", judge_names),
        Check("a key of sixteen columns", judge_key),
        Check("300 maps in one transaction", judge_maps),
        Check("120,000 rows in one transaction", judge_rows),
    ]
