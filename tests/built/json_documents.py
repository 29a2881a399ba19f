"""JSON columns in full lines: the document where the bytes are one, else the bytes. What is wanted is worked out from MySQL's
description of the binary form, or a server showed it."""
import base64
import random
import struct
from collections.abc import Callable
from functools import partial
from pathlib import Path

import logs
from built.check import Check, Wanted, differs, run
from built.json_binary import (
    DATE, DATETIME, NEWDECIMAL, TIME, TIMESTAMP, Number, Value, decimal, document, double, integer, moment, opaque, parsed, shown, span,
)  # fmt: skip
from logs import KEY, LONG, Column, field, put, rows, table_of, transaction

JSON = 245
# MySQL nests no deeper.
DEEPEST = 100
# Each of these seeds makes so many documents.
SEEDS, DOCUMENTS = (1, 2, 3, 4), 100
# How many reasons a check gives, and how much of a value it shows.
REASONS, SHOWN = 4, 300

Case = tuple[str, bytes, object]


def log_of(values: list[bytes]) -> bytes:
    """A log that inserts these values of a JSON column, each with its number, in one transaction."""
    columns = [Column("id", LONG), Column("doc", JSON, b"\x04")]
    images = [struct.pack("<II", number, len(value)) + value for number, value in enumerate(values)]
    return logs.log_of([transaction(1, table_of(columns, field(KEY, b"\x00")), rows(2, *images))])


def raw_of(value: bytes) -> object:
    """What a line has for bytes that it can't tell otherwise."""
    return {"raw": base64.b64encode(value).decode()}


def told(program: Path, folder: Path, *options: str) -> tuple[list[dict], list[str]]:
    """The lines of the log, and what is wrong with the run."""
    came = run(program, ["read", *options, "log"], folder)
    return [parsed(line) for line in came.stdout.splitlines()], differs(came, Wanted(0, None))


def judge(cases: list[Case], program: Path, folder: Path) -> list[str]:
    """Full lines have these documents, and plain lines their bytes."""
    put(folder, ["log"], log_of([value for _, value, _ in cases]))
    full, reasons = told(program, folder, "--full")
    plain, more = told(program, folder)
    reasons += more
    if len(full) != len(cases) or len(plain) != len(cases):
        return [*reasons, f"there are {len(full)} full lines and {len(plain)} plain ones, wanted {len(cases)}"]
    for number, ((name, value, wanted), line, other) in enumerate(zip(cases, full, plain)):
        after = {"doc": wanted, "id": Number(str(number))}
        if line["after"] != after or line["types"] != {"doc": "json", "id": "int"}:
            reasons.append(f"{name}: {str(line['after'])[:SHOWN]}, wanted {str(after)[:SHOWN]}")
        if other["after"]["doc"] != raw_of(value):
            reasons.append(f"{name}: the plain line has {str(other['after'])[:SHOWN]}")
    return reasons[:REASONS]


# ---- documents of a server

# Documents as MySQL 5.7.28 stored them, each with the text that the server showed for it: the file `mysql_json_test.MYD` of MariaDB's
# tests (the package mariadb-test-data). A row of a log has the same bytes for such a column.
SERVER = (
    ("050000", "0"), ("0581ff", "-127"), ("058000", "128"), ("05ff7f", "32767"), ("050080", "-32768"),
    ("07ffff0000", "65535"), ("0700000100", "65536"), ("0700000080", "-2147483648"), ("07ffffff7f", "2147483647"),
    ("09ffffffff00000000", "4294967295"), ("090100000000000080", "-9223372036854775807"),
    ("0affffffffffffff7f", "9223372036854775807"), ("0affffffffffffffff", "18446744073709551615"),
    ("0b1f85eb51b81e0940", "3.14"), ("0b273108acfc2eb6c0", "-5678.987"), ("0b0000000000001000", "2.2250738585072014e-308"),
    ("0400", "null"), ("0401", "true"), ("0402", "false"), ("0c00", '""'), ("0c0127", '"\'"'),
    ("0c22416e656c20487573616b6f7669c487202d20746573743a20c491c5bec5a1c487c48d", '"Anel Husaković - test: đžšćč"'),
    ("0200000400", "[]"), ("0000000400", "{}"), ("02010008000c070000", '[""]'), ("0001000c000b0000000c0b0000", '{"": ""}'),
    ("0001000e000b00030004010076616c", '{"val": true}'), ("0001000e000b00030004000076616c", '{"val": null}'),
    ("000200240012000400160004000c1a000c1f006b6579316b6579320476616c310476616c32", '{"key1": "val1", "key2": "val2"}'),
    ("0002002c001200010013000100021400021e00616202000a0005010005020002000e000c0a000c0c0001780179", '{"a": [1, 2], "b": ["x", "y"]}'),
    ("0209002900050100050200050300050400050500021f000c23000c25000c270000000400016101620163", '[1, 2, 3, 4, 5, [], "a", "b", "c"]'),
    ("0204001e000c10000400000c17000501000670726566697806737566666978", '["prefix", null, "suffix", 1]'),
    ("0001001e000b0009000c14006b6579200a206b65790976616c200a2076616c", '{"key \\n key": "val \\n val"}'),
    ("0ff60402018000", "0.0"), ("0f0a0800000000001e9519", '"2015-01-15"'), ("0f0b080000001976010000", '"23:24:25.000000"'),
    ("0f0c0800000019761f9519", '"2015-01-15 23:24:25.000000"'), ("0f0c08000000033ef5a419", '"2019-12-26 19:56:03.000000"'),
    ("0c03622c63", '"b,c"'),
)  # fmt: skip
# Values of other types from the same file. The server shows them as a text in base64, with the type in front.
SERVER_OPAQUE = (
    ("0f1002cafe", 16, "yv4="), ("0f0d0432303139", 13, "MjAxOQ=="), ("0ffc04cafebabe", 252, "yv66vg=="),
    ("0ffe0a61626300000000000000", 254, "YWJjAAAAAAAAAA=="),
)  # fmt: skip


def server_cases() -> list[Case]:
    """The documents of a server."""
    cases: list[Case] = [(text, bytes.fromhex(raw), parsed(text)) for raw, text in SERVER]
    return cases + [(text, bytes.fromhex(raw), {"base64": text, "type": Number(str(kind))}) for raw, kind, text in SERVER_OPAQUE]


# ---- documents by hand

# Documents that end with their last byte.
EXACT = {
    # {"a": 1, "b": true, "c": null}, each value in its entry: 4 + 3 * 4 + 3 * 3 + 3 = 28 bytes
    "00 0300 1c00 1900 0100 1a00 0100 1b00 0100 05 0100 04 0100 04 0000 616263": '{"a":1,"b":true,"c":null}',
    # [-2, 70000, "ab"]: the second and third stand at 13 and 17, behind three entries
    "02 0300 1400 05 feff 07 0d00 0c 1100 70110100 02 6162": '[-2,70000,"ab"]',
    # {"k": [{"z": 7}]}: offsets count from the first byte of the innermost one
    "00 0100 1f00 0b00 0100 02 0c00 6b 0100 1300 00 0700 0100 0c00 0b00 0100 05 0700 7a": '{"k":[{"z":7}]}',
    # a large object and a large array, in which integers of 32 bits stand in their entries
    "01 02000000 23000000 1e000000 0100 1f000000 0100 07 70110100 0c 20000000 6e73 02 6162": '{"n":70000,"s":"ab"}',
    "03 02000000 12000000 08 ffffffff 04 02000000": "[4294967295,false]",
}
BY_HAND = (
    *EXACT.items(),
    # an empty value, as INSERT IGNORE leaves it, is shown as null
    ("", "null"),
    # a gap in front of the value, and bytes behind the document, as a partial update leaves them
    ("02 0100 0b00 07 0700 70110100", "[70000]"), ("02 0100 0c00 07 0800 ff 70110100", "[70000]"), ("05 0100 ffff", "1"),
    ("0b 0000000000000080", "-0.0"), ("0b 0000000000002440", "10.0"), ("0b 9a9999999999b93f", "0.1"),
    ("0b ffffffffffffef7f", "1.7976931348623157e+308"), ("0b 0100000000000000", "5e-324"),
    ("0b 0080e03779c34143", "1e+16"), ("0b f168e388b5f8e43e", "1e-05"),
    # decimals: 1234567890.1234 and its negative as MySQL's description of the type has them, -0.00, and one of scale 0
    ("0f f6 09 0e04 810dfb38d204d2", "1234567890.1234"), ("0f f6 09 0e04 7ef204c72dfb2d", "-1234567890.1234"),
    ("0f f6 04 0402 7fff", "0.00"), ("0f f6 04 0300 8001", "1"),
    # bytes of other types, and those that are no DECIMAL: one that is cut, and one with more digits behind the point than it has
    ("0f ff 02 cafe", '{"base64":"yv4=","type":255}'), ("0f f6 03 0300 80", '{"base64":"AwCA","type":246}'),
    ("0f f6 02 050a", '{"base64":"BQo=","type":246}'),
)  # fmt: skip


def by_hand_cases() -> list[Case]:
    """Documents whose bytes were written down by hand."""
    return [(raw, bytes.fromhex(raw), parsed(text)) for raw, text in BY_HAND]


TEXTS = (
    "", "a", '"\\/\b\f\n\r\t\x00\x1f\x7f', "é", "中文", "😀", "\u2028\ufeff", "x" * 127, "x" * 128, "é" * 8191 + "x", "é" * 8192, "y" * 70_000,
)  # fmt: skip
# The least and the greatest number of each type of integer.
BOUNDS = {
    5: (-(2**15), 2**15 - 1), 6: (0, 2**16 - 1), 7: (-(2**31), 2**31 - 1), 8: (0, 2**32 - 1), 9: (-(2**63), 2**63 - 1), 10: (0, 2**64 - 1),
}  # fmt: skip


def edge_values() -> list[Value]:
    """Values at the edges of their types, and arrays and objects at the edges of their sizes."""
    integers: list[Value] = [integer(kind, value) for kind, ends in BOUNDS.items() for value in (*ends, 1)]
    integers += [integer(kind, -1) for kind in (5, 7, 9)]
    doubles: list[Value] = [
        double(value) for value in (0.0, -0.0, 1.5, -1e300, 2**53 + 2.0, 123456789012345.6, 9.999e-5, 1e22, 0.1 + 0.2)
    ]
    others: list[Value] = [
        decimal(False, "9" * 35, "9" * 30), decimal(True, "9" * 81, ""), decimal(False, "", "1" * 81), decimal(True, "8" * 36, "7" * 40),
        decimal(True, "0", "5"), decimal(True, "00000000001", ""), decimal(False, "", "05"),
        decimal(False, "123456789" * 7, ""), decimal(True, "000000000", "000000001"),
        moment(DATE, (9999, 12, 31)), moment(DATE, (0, 0, 0)), moment(DATETIME, (2024, 2, 29), (23, 59, 59, 999_999)),
        moment(TIMESTAMP, (1970, 1, 1), (0, 0, 1, 0)), moment(DATETIME, (0, 0, 0), (0, 0, 0, 5)),
        span(False, 838, 59, 58, 7), span(True, 838, 59, 58, 7), span(True, 0, 0, 0, 1), span(False, 0, 0, 0, 0),
        opaque(253, b"\xff\x00"), opaque(255, b""), opaque(16, bytes(range(256))), opaque(NEWDECIMAL, bytes([82, 0]) + b"\x80" * 37),
        opaque(DATE, bytes(7)), opaque(TIME, b""), opaque(DATETIME, b"\xff" * 8),
    ]  # fmt: skip
    wide: list[Value] = [
        [*integers, *doubles, *others, *TEXTS], {str(number): value for number, value in enumerate([*integers, *others])},
        [[]] * 9_000, [{}] * 9_000, ["x" * 64] * 1_000, {"k" * 65_535: None}, {text: text for text in TEXTS if len(text) < 9_000},
        {f"{number:04}": number % 2 == 0 for number in range(7_000)},
    ]  # fmt: skip
    return [*integers, *doubles, *others, *TEXTS, None, True, False, [], {}, *wide]


def edge_cases() -> list[Case]:
    """Those, in small arrays and objects where they fit, and in large ones."""
    values = edge_values()
    return [(f"{str(value)[:60]}, large: {large}", document(value, large), shown(value)) for value in values for large in (False, True)]


# ---- documents by chance


def chance_scalar(chance: random.Random) -> Value:
    """A value without parts."""
    kind = chance.randrange(5, 11)
    size = struct.calcsize({5: "h", 6: "H", 7: "i", 8: "I", 9: "q", 10: "Q"}[kind])
    raw = int.from_bytes(chance.randbytes(size), "little", signed=kind % 2 == 1)
    day = (chance.randrange(10_000), chance.randrange(13), chance.randrange(32))
    time = (chance.randrange(24), chance.randrange(60), chance.randrange(60), chance.randrange(1_000_000))
    digits = "".join(chance.choices("0123456789", k=chance.randrange(1, 82)))
    scale = chance.randrange(len(digits) + 1)
    text = "".join(chance.choices("abc \"\\/\n\x01\x7fé中😀", k=chance.choice((0, 1, 5, 40, 130, 300))))
    makers: tuple[Callable[[], Value], ...] = (
        lambda: None, lambda: chance.random() < 0.5, lambda: integer(kind, raw), lambda: text, lambda: double(chance_double(chance)),
        lambda: decimal(chance.random() < 0.5, digits[: len(digits) - scale], digits[len(digits) - scale :]),
        lambda: moment(chance.choice((DATE, DATETIME, TIMESTAMP)), day, time), lambda: span(chance.random() < 0.5, *time),
        lambda: opaque(chance.choice((1, 3, 13, 16, 245, 252, 253, 254, 255)), chance.randbytes(chance.randrange(200))),
    )  # fmt: skip
    return chance.choice(makers)()


def chance_double(chance: random.Random) -> float:
    """A finite double: of any bits, or a short one."""
    if chance.random() < 0.5:
        return round(chance.uniform(-1e6, 1e6), chance.randrange(8))
    return float(struct.unpack("<d", struct.pack("<Q", chance.randrange(2047 << 52) | chance.randrange(2) << 63))[0])


def chance_value(chance: random.Random, depth: int) -> Value:
    """A value, with so many arrays and objects in one another at most."""
    if depth == 0 or chance.random() < 0.3:
        return chance_scalar(chance)
    parts = [chance_value(chance, depth - 1) for _ in range(chance.choice((0, 1, 2, 3, 8, 20)))]
    if chance.random() < 0.5:
        return parts
    names = ("".join(chance.choices('abxyz" é', k=chance.randrange(12))) for _ in parts)
    return dict(zip(names, parts))


def chance_cases(seed: int) -> list[Case]:
    """So many documents. One of four has large arrays and objects."""
    chance = random.Random(seed)
    values = [chance_value(chance, chance.randrange(5)) for _ in range(DOCUMENTS)]
    return [(f"document {number} of {seed}", document(value, number % 4 == 0), shown(value)) for number, value in enumerate(values)]


# ---- bytes that are no document

NO_DOCUMENTS = (
    "0d00", "0e", "10", "ff00", "0403", "04ff", "0b 000000000000f07f", "0b 000000000000f0ff", "0b 000000000000f87f",
    "0c 01ff", "0c 02c328",
    # lengths of six bytes, and of more than there is
    "0c ffffffffff01", "0c 808080808000", "0c ff", "0f", "0ff6", "0f0c01",
    # a size below that of the entries, one above the bytes, and counts above the size
    "02 0100 0600 05 0100", "02 0100 0900 05 0100", "02 ffff 0700 05 0100",
    "03 ffffffff 0d000000 05 01000000", "00 0100 0a00 0b00 0000 04 0000",
    # values in front of their place, behind the end, and in the entries
    "02 0100 0700 02 0000", "02 0100 0700 0c 0800", "02 0100 0900 0c ffff 0161",
    "02 0100 0900 0c 0500 0161", "02 0100 0b00 07 0600 00000000",
    # keys behind the end, in the entries, in the values and in the wrong order
    "00 0100 0c00 0c00 0100 05 0100 61", "00 0100 0c00 0b00 0200 05 0100 61", "00 0100 0c00 0a00 0100 05 0100 61",
    "00 0200 1400 1300 0100 1200 0100 05 0100 05 0200 6162", "00 0100 0c00 0b00 0100 05 0100 ff",
    # types that no value has, within an array
    "02 0100 0700 0d 0000", "02 0100 0700 04 0300", "02 0100 0800 0b 0700 00",
)  # fmt: skip


def no_document_cases() -> list[Case]:
    """Bytes that a server writes for no document."""
    values = [bytes.fromhex(raw) for raw in NO_DOCUMENTS]
    return [(value.hex(), value, raw_of(value)) for value in values]


def cut_cases() -> list[Case]:
    """Documents that are cut at each length but 0: the empty value is null."""
    whole = [bytes.fromhex(raw) for raw in (*(raw for raw, _ in SERVER), *EXACT)]
    return [(f"{value[:end].hex()}, cut", value[:end], raw_of(value[:end])) for value in whole for end in range(1, len(value))]


def nested(depth: int) -> Value:
    """So many arrays in one another."""
    value: list[Value] = []
    for _ in range(depth - 1):
        value = [value]
    return value


def deep_array(depth: int) -> bytes:
    """A document of so many arrays in one another: an empty one in large ones, each of which has 13 bytes in front of the next."""
    heads = [struct.pack("<IIBI", 1, 4 + 13 * outer, 3 if outer > 1 else 2, 13) for outer in range(depth - 1, 0, -1)]
    return b"\x03" + b"".join(heads) + struct.pack("<HH", 0, 4)


def shared(levels: int) -> bytes:
    """Objects with two members whose value is the same one, so many in one another: who reads each of them reads 2 ** levels values."""
    value = struct.pack("<HH", 0, 4)
    for _ in range(levels):
        at = 4 + 2 * 4 + 2 * 3 + 2
        value = struct.pack("<HHHHHHBHBH", 2, at + len(value), at - 2, 1, at - 1, 1, 0, at, 0, at) + b"ab" + value
    return b"\x00" + value


def shape_cases() -> list[Case]:
    """Documents as deep as MySQL has them, deeper ones, and those that could be read without end. Each takes a moment."""
    deepest = document(nested(DEEPEST))
    deeper = document(nested(DEEPEST + 1))
    long = deep_array(80_000)
    flat = document([["x" * 10] * 10] * 8_000)
    whole = 2_000 * [nested(DEEPEST - 1)]
    twins = [(f"{levels} objects, each with one value twice", shared(levels), raw_of(shared(levels))) for levels in (1, 2, DEEPEST - 1)]
    overlapping = b"\x02" + struct.pack("<HH", 200, 604) + b"\x02\0\0" * 200
    return [
        ("the deepest", deepest, nested(DEEPEST)), ("too deep", deeper, raw_of(deeper)),
        ("1 MB of nested arrays", long, raw_of(long)),
        ("1 MB of flat arrays", flat, [["x" * 10] * 10] * 8_000), ("1 MB of deep arrays", document(whole), whole), *twins,
        ("an array of itself", overlapping, raw_of(overlapping)),
    ]  # fmt: skip


def judge_shapes(program: Path, folder: Path) -> list[str]:
    """Each of them in a log of its own."""
    return [reason for case in shape_cases() for reason in judge([case], program, folder)]


def judge_by(cases: Callable[[], list[Case]], program: Path, folder: Path) -> list[str]:
    """Makes the cases only when they are judged."""
    return judge(cases(), program, folder)


def checks() -> list[Check]:
    """The checks of JSON columns."""
    parts = (
        ("JSON documents of a server", server_cases), ("JSON documents by hand", by_hand_cases),
        ("JSON documents at the edges", edge_cases),
        ("bytes that are no JSON document", no_document_cases), ("JSON documents that are cut", cut_cases),
    )  # fmt: skip
    return [
        *[Check(name, partial(judge_by, cases)) for name, cases in parts],
        *[Check(f"{DOCUMENTS} JSON documents of the seed {seed}", partial(judge_by, partial(chance_cases, seed))) for seed in SEEDS],
        Check("JSON documents that are deep, large or shared", judge_shapes),
    ]
