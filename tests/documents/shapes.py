"""The documents that fill.py makes, as expressions of SQL: edges of all types, shapes of all sizes, and what applications store. And what
changes them."""
from __future__ import annotations

import json
import math
import random
import struct
from collections.abc import Callable

# A document whose text is longer isn't changed.
LONG = 20_000
# Of the rows that are copied, one of so many is taken.
EACH = 7

Json = object


def quoted(text: str) -> str:
    """A text as a string of SQL."""
    escaped = text.replace("\\", "\\\\").replace("'", "''")
    return f"'{escaped}'"


def text_of(value: Json) -> str:
    """A document as a string of SQL."""
    return quoted(json.dumps(value, ensure_ascii=False))


# ---- edges of types


def integers() -> list[str]:
    """Integers at the edges of their types."""
    edges = sorted({sign * (2**bits + step) for bits in (0, 7, 8, 15, 16, 31, 32, 53, 62, 63, 64) for sign in (1, -1) for step in (-1, 0,
    1)})
    return [*map(str, edges), "-0", "123456789012345678901234567890"]


def doubles(chance: random.Random, step: int, count: int) -> list[str]:
    """Doubles of exponents over the whole range, of hard digits, and of any bits."""
    hard = (
        "0.0", "-0.0", "-0e0", "1.0", "10.0", "-1.5", "0.1", "1.10", "1E+2", "0.30000000000000004", "1e15", "1e16", "1e17", "1e21", "1e22",
        "1e23",
        "9007199254740993.0", "123456789012345680.0", "123456789.123456789", "0.0001", "0.00001", "1e-7", "4.35", "2.675", "1e-10",
        "5e-324",
        "4.94e-324", "2.2250738585072014e-308", "2.225073858507201e-308", "1.7976931348623157e308", "-1.7976931348623157e308", "1e-400",
        "179769313486231570000000000000000000000.5", "0.000000000000000000000000000000000000000000001", "8.41e21", "2.0e0",
        "9.5367431640625e-7",
    )  # fmt: skip
    powers = [repr(math.ldexp(chance.choice((1.0, -1.0, 1 + chance.random())), bits)) for bits in range(-1074, 1024, step)]
    random_bits = [struct.unpack("<d", struct.pack("<Q",
    chance.randrange(2047 << 52) | chance.randrange(2) << 63))[0] for _ in range(count)]
    short = [repr(round(chance.uniform(-1e5, 1e5), chance.randrange(1, 6))) for _ in range(count)]
    return [*hard, *powers, *map(repr, random_bits), *short]


CHARACTERS = "".join(map(chr, range(32))) + "\"\\/\x7f\x80\x85é߿ࠀ中\u2028\u2029\ufeff\uffff😀\U0010ffff"


def strings(lengths: tuple[int, ...]) -> list[str]:
    """Strings of all kinds of characters, and of lengths around those where a length takes one byte more."""
    texts = ["", "a", CHARACTERS, "base64:type15:yv4=", "base64:type252:", "2024-01-01", "null", "1", "{}", "\\u0041", "é" * 63, "é" * 64,
    "😀" * 32]
    spelled = [
        '"\\u00e9\\ud83d\\ude00\\/"', '"\\u0000"', '"a\\u0000b"', ' \t\n"blank around" ', '"\\b\\f\\n\\r\\t\\"\\\\"',
        "'it''s'".replace("''", "'"),
    ]  # fmt: skip
    repeated = [f"JSON_QUOTE(REPEAT('{'xyz'[length % 3]}', {length}))" for length in lengths]
    one_by_one = [text_of(character) for character in CHARACTERS]
    return [*map(text_of, texts), *map(quoted, spelled[:-1]), *one_by_one, *(f"CAST({text} AS JSON)" for text in repeated)]


DATES = ("0000-00-00", "0001-01-01", "1970-01-01", "2024-02-29", "2024-00-00", "9999-12-31")
TIMES = (
    "00:00:00", "-00:00:00.000001", "12:34:56", "-12:34:56.5", "23:59:59.999999", "24:00:00", "100:00:00.25", "838:59:59", "-838:59:59",
    "838:59:58.999999", "-01:00:00", "-00:00:01.000001",
)  # fmt: skip
MOMENTS = (
    "0000-00-00 00:00:00", "0001-01-01 00:00:00.000001", "1000-01-01 00:00:00", "1969-12-31 23:59:59.999999", "2024-02-29 12:34:56.123456",
    "9999-12-31 23:59:59.999999", "2026-01-01 00:00:00.5",
)  # fmt: skip


def decimals(chance: random.Random, count: int) -> list[str]:
    """DECIMALs of many precisions and scales, of either sign."""
    sizes = [(1, 0), (1, 1), (9, 0), (9, 9), (10, 2), (18, 9), (19, 10), (30, 30), (65, 0), (65, 30), (38, 10), (5, 2)]
    sizes += [(precision, chance.randrange(min(precision, 30) + 1)) for precision in chance.choices(range(1, 66), k=count)]
    made = []
    for precision, scale in sizes:
        digits = "".join(chance.choices("0123456789", k=precision))
        for shown in sorted({digits, "9" * precision, "0" * precision, "1".rjust(precision, "0"), "5".ljust(precision, "0")}):
            number = f"{shown[: precision - scale] or '0'}.{shown[precision - scale :]}".rstrip(".")
            made.append(f"CAST('{chance.choice(('', '-'))}{number}' AS DECIMAL({precision},{scale}))")
    return sorted(set(made))


def values(chance: random.Random, count: int) -> list[str]:
    """Values of SQL, as JSON_ARRAY and JSON_OBJECT take them."""
    digits = chance.choices(range(7), k=200)
    binary = [chance.randbytes(length).hex() for length in (1, 2, 3, 20, 56, 57, 58, 127, 128, 300)]
    return [
        *(f"CAST('{text}' AS DATE)" for text in DATES),
        *(f"CAST('{text}' AS TIME({digits[at]}))" for at, text in enumerate(TIMES)), *(f"CAST('{text}' AS TIME(6))" for text in TIMES),
        *(f"CAST('{text}' AS DATETIME({digits[-at]}))" for at, text in enumerate(MOMENTS)),
        *(f"CAST('{text}' AS DATETIME(6))" for text in MOMENTS),
        *(f"X'{raw}'" for raw in binary), *(f"CAST(X'{raw}' AS BINARY)" for raw in binary[:4]), "X''", "b'1'", "b'1111111111'",
        "CAST('abc' AS BINARY(6))",
        "1 = 1", "1 > 2", "NULL", "TRUE", "1.5", "-1.50", "0.0", "1e0", "-1e-5", "18446744073709551615", "-9223372036854775808",
        "CAST(2024 AS YEAR)",
        "CAST(0.1 AS FLOAT)", "CAST(1e10 AS DOUBLE)", "_latin1 X'e9'", "_gbk X'd6d0'", "CONVERT('é' USING latin1)",
        "UUID_TO_BIN('3e11fa47-71ca-11e1-9e33-c80aa9429562')",
        "ST_GeomFromText('POINT(1 2)')", "ST_GeomFromText('LINESTRING(0 0, 1.5 -2, 1e10 0.1)')",
        "ST_GeomFromText('POLYGON((0 0, 1 0, 1 1, 0 0))', 4326)",
        "ST_GeomFromText('GEOMETRYCOLLECTION(POINT(0 0), MULTIPOINT((1 1), (2 2)))')", "JSON_ARRAY()", "JSON_OBJECT()",
        "CAST('{\"a\": [1]}' AS JSON)",
        *decimals(chance, count),
    ]  # fmt: skip


# The columns that documents are made of, and their values.
COLUMNS = {
    "bit1": ("BIT(1)", ("b'0'", "b'1'")), "bit9": ("BIT(9)", ("b'100000001'", "b'0'")), "bit64": ("BIT(64)", ("18446744073709551615", "1")),
    "year": ("YEAR", ("2024", "1901", "0")), "date": ("DATE", tuple(f"'{text}'" for text in DATES)),
    "time": ("TIME(3)", tuple(f"'{text}'" for text in TIMES)), "datetime": ("DATETIME(6)", tuple(f"'{text}'" for text in MOMENTS)),
    "timestamp": ("TIMESTAMP(6)", ("'1970-01-01 00:00:01'", "'2024-05-06 08:00:00.000001'", "'2038-01-19 03:14:07.999999'")),
    "timestamp0": ("TIMESTAMP", ("'2024-05-06 08:00:00'",)),
    "decimal": ("DECIMAL(20,5)", ("-1.5", "0", "99999.99999", "-0.00001")), "unsigned": ("DECIMAL(65,30) UNSIGNED", ("1e-30",
    "12345678901234567890")),
    "float": ("FLOAT", ("0.1", "-3.4e38", "16777217")), "double": ("DOUBLE", ("0.1", "-0.0", "1e22", "5e-324")),
    "tiny": ("TINYINT", ("-128", "127")), "bool": ("BOOLEAN", ("TRUE", "FALSE")), "medium": ("MEDIUMINT UNSIGNED", ("16777215", "0")),
    "bigint": ("BIGINT UNSIGNED", ("18446744073709551615", "0")), "tinyblob": ("TINYBLOB", ("''", "X'00ff'")), "blob": ("BLOB", ("X'c3a9'",
    "REPEAT('b', 200)")),
    "mediumblob": ("MEDIUMBLOB", ("X'00'", "'abc'")), "longblob": ("LONGBLOB", ("X'ff'", "REPEAT(X'00', 60)")), "binary": ("BINARY(4)",
    ("X'00ff'", "'abcd'")),
    "varbinary": ("VARBINARY(300)", ("X'00ff00'", "REPEAT('v', 300)")), "char": ("CHAR(10) CHARACTER SET latin1", ("'é'", "''")),
    "text": ("TEXT CHARACTER SET utf16", ("'é😀'", "REPEAT('t', 200)")), "gbk": ("VARCHAR(20) CHARACTER SET gbk", ("'中文'", "'a'")),
    "enum": ("ENUM('a','é')", ("'a'", "'é'")), "set": ("SET('a','b','c')", ("'a,c'", "''")), "point": ("POINT", ("POINT(1, 2)",
    "POINT(-0.5, 1e300)")),
    "geometry": ("GEOMETRY", ("ST_GeomFromText('LINESTRING(0 0, 1 1)')", "POINT(3, 4)")), "json": ("JSON", ("'[1.0, {}]'", "'null'")),
}  # fmt: skip

# Documents of texts whose bytes functions of JSON take as they are: those of four character sets as bytes, and those of ascii as UTF-8,
# even where they are none.
UNCONVERTED = (
    "JSON_ARRAY(_utf16 X'00e9')", "JSON_OBJECT('v', CONVERT('text' USING utf16))", "JSON_SET('{}', '$.v', CONVERT('é' USING utf32))",
    "JSON_ARRAY(1, _ucs2 X'4e2d', X'00')", "JSON_ARRAY('x', JSON_ARRAY(_utf16le X'e900'))",
    "JSON_OBJECT(CONVERT('é' USING utf16), CONVERT('中' USING utf16))",
    "JSON_OBJECT('v', _ascii X'e9')", "JSON_ARRAY(1, _ascii X'61ff', 2)", "JSON_OBJECT(_ascii X'e9', 1)", "JSON_ARRAY(_ascii X'c3a9')",
)  # fmt: skip

# DECIMALs that no column has: those that are written out have up to 81 digits, and more than 30 of them behind the point.
DIGITS = "1234567890" * 8
LONG_DECIMALS = (
    f"JSON_ARRAY(0.{DIGITS[:31]})", f"JSON_OBJECT('v', -0.{DIGITS[:71]})", f"JSON_ARRAY({DIGITS[:66]}, 'x')", f"JSON_ARRAY(-{DIGITS}.5)",
    f"JSON_ARRAY({DIGITS[:65]}, 0.{DIGITS[:30]})", f"JSON_OBJECT('v', 0.{'0' * 39}1)", f"CAST({DIGITS[:40]}.{DIGITS[:32]} AS JSON)",
)  # fmt: skip

# ---- shapes


def nested(depth: int, kind: int) -> Json:
    """So many arrays, objects or both in one another."""
    value: Json = [] if kind == 0 else {}
    for level in range(depth - 1):
        value = [value] if kind == 0 or (kind == 2 and level % 2) else {"k" * (level % 3): value}
    return value


def containers(many: bool) -> list[str]:
    """Arrays and objects of all sizes, keys of all kinds, and texts that are spelled in another way."""
    written = [
        "[]", "{}", "[[]]", "[{}]", '{"": {}}', '{"": ""}', '{"a": 1, "a": 2}', '{"b": 1, "a": {"x": 1, "x": 2}, "b": [3]}',
        '{"a": 1, "\\u0061": 2}',
        ' { "z" : [ 1 , 2 ] , "aa" : null } ', '{"key with blank": 1, "quote\\"": 2, "back\\\\slash": 3, "\\u0000": 4, "\\n": 5}',
        '{"é": 1, "中": 2, "😀": 3, "e": 4, "zz": 5, "ab": 6}', '["", "", null, null, [], [], {}, {}]',
        "[1, 65536, 4294967296, 1.5, true, null]",
    ]  # fmt: skip
    depths = (2, 3, 10, 50, 99, 100) if many else (2, 100)
    shapes = [nested(depth, kind) for depth in depths for kind in range(3)]
    sizes = (1, 2, 3, 8, 20, 100, 255, 256, 1000) if many else (1, 2, 3, 20, 60)
    for size in sizes:
        shapes += [[of(number) for number in range(size)] for of in (int, str, (70_000).__mul__, lambda number: [number])]
        shapes += [{str(number): number for number in range(size)}, {f"k{number}": [f"v{number}"] for number in range(size)}]
        shapes += [{"x" * number: None for number in range(min(size, 300))}]
    made = [*map(quoted, written), *map(text_of, shapes)]
    made += [f"JSON_OBJECT(REPEAT('k', {length}), {length})" for length in ((127, 128, 255, 256, 65_534, 65_535) if many else (128, 256))]
    return made


def switches(many: bool) -> list[str]:
    """Arrays and objects around 65,535 bytes, where numbers of four bytes begin."""
    if not many:
        numbers = "'n', 70000, 'u', 4294967295, 't', TRUE, 'numbers', JSON_ARRAY(70000, 4294967295, 1.5, 1e0, NULL)"
        return [f"JSON_OBJECT('small', JSON_ARRAY(1, 70000, 'x'), 'large', REPEAT('y', 65540), {numbers})"]
    lengths = range(65_510, 65_537)
    made = [f"JSON_ARRAY(REPEAT('a', {length}))" for length in lengths]
    made += [f"JSON_ARRAY(1, REPEAT('a', {length}), 'end', 70000, 4294967295, JSON_ARRAY(70000, 4294967295))" for length in lengths]
    made += [f"JSON_OBJECT('long', REPEAT('o', {length}), 'z', 1, 'y', -70000)" for length in lengths]
    made += [f"JSON_ARRAY('in', JSON_OBJECT('k', REPEAT('i', {length})), 3000000000)" for length in lengths]
    made += [text_of(list(range(length))) for length in (13_105, 21_843, 21_844, 21_845, 21_846, 25_000)]
    made += [text_of([number * 70_000 for number in range(length)]) for length in (9_361, 9_362, 9_363, 12_000)]
    made += [text_of({f"{number:05}": number % 7 for number in range(length)}) for length in (5_460, 5_461, 5_462, 6_000)]
    made += [text_of([["x" * 9] * 10] * 500), text_of({f"k{number}": {"a": [number] * 5} for number in range(2_500)})]
    return made


# ---- by chance


def chance_value(chance: random.Random, depth: int) -> Json:
    """A value, with so many arrays and objects in one another at most."""
    if depth == 0 or chance.random() < 0.3:
        makers: tuple[Callable[[], Json], ...] = (
            lambda: chance.choice((None, True, False)), lambda: chance.randrange(-(2 ** chance.randrange(1, 63)), 2 ** chance.randrange(1,
            64)),
            lambda: chance.uniform(-1e6, 1e6), lambda: round(chance.uniform(-1e3, 1e3), 2),
            lambda: "".join(chance.choices("abc \"\\/\n\x01\x7fé中😀", k=chance.choice((0, 1, 5, 40, 130)))),
        )  # fmt: skip
        return chance.choice(makers)()
    parts = [chance_value(chance, depth - 1) for _ in range(chance.choice((0, 1, 2, 3, 8)))]
    if chance.random() < 0.5:
        return parts
    return {"".join(chance.choices('abxyz" é', k=chance.randrange(8))): part for part in parts}


# ---- what applications store

WORDS = (
    "green", "tea", "coffee", "cup", "large", "small", "organic", "box", "of", "twelve", "ceramic", "blue", "filter", "pot", "café",
    "Grüner", "Tee",
    "抹茶", "delivery", "before", "noon", "please", "ring", "twice", "invoice", "gift", "wrapped",
)  # fmt: skip
NAMES = ("Anna Larsen", "José García", "Zoë Müller", "李雷", "Olga Ivanova", "Sam O'Neil", "Priya Nair", "Bjørn Dahl", "Ada Byron")
STREETS = ("Harbour Street", "Rue de l'Église", "Hauptstraße", "Calle Mayor", "Main St.", "朝阳路")
CITIES = ("Bergen", "Lyon", "Köln", "Sevilla", "Portland", "北京")


def phrase(chance: random.Random, most: int) -> str:
    """Some words."""
    return " ".join(chance.choices(WORDS, k=chance.randrange(1, most + 1)))


def day(chance: random.Random) -> str:
    """A moment as applications write it."""
    date = f"{chance.randrange(2019, 2027)}-{chance.randrange(1, 13):02}-{chance.randrange(1, 29):02}"
    return f"{date}T{chance.randrange(24):02}:{chance.randrange(60):02}:{chance.randrange(60):02}Z"


def address(chance: random.Random) -> Json:
    """An address."""
    return {
        "street": f"{chance.randrange(1, 200)} {chance.choice(STREETS)}", "city": chance.choice(CITIES),
        "zip": f"{chance.randrange(100_000):05}",
        "location": {"lat": round(chance.uniform(-60, 70), 6), "lon": round(chance.uniform(-180, 180), 6)},
    }  # fmt: skip


def order(chance: random.Random) -> Json:
    """An order of a shop."""
    items = [
        {
            "sku": f"{chance.choice(('TEA', 'COF', 'CUP'))}-{chance.randrange(10_000):04}", "title": phrase(chance, 6),
            "quantity": chance.randrange(1, 12),
            "price": round(chance.uniform(0.5, 200), 2), "tags": chance.sample(WORDS, chance.randrange(4)),
        }
        for _ in range(chance.randrange(1, 6))
    ]  # fmt: skip
    return {
        "number": chance.randrange(1, 10**7), "status": chance.choice(("new", "paid", "shipped", "returned")),
        "customer": chance.randrange(1, 10**5),
        "items": items, "total": round(sum(item["price"] * item["quantity"] for item in items), 2), "currency": chance.choice(("EUR", "USD",
        "NOK")),
        "paid": chance.random() < 0.7, "coupon": chance.choice((None, "SPRING24")), "ship_to": address(chance), "created": day(chance),
        "note": phrase(chance, 12) if chance.random() < 0.4 else None,
    }  # fmt: skip


def happening(chance: random.Random) -> Json:
    """An event of a site or a machine."""
    return {
        "id": f"{chance.getrandbits(128):032x}", "type": chance.choice(("page_view", "click", "purchase", "login", "error")),
        "at": day(chance),
        "timestamp": chance.randrange(1_500_000_000_000, 1_800_000_000_000), "session": chance.getrandbits(63), "user": chance.choice((None,
        chance.randrange(10**6))),
        "properties": {
            "url": f"https://shop.example/{chance.choice(WORDS[:9])}?page={chance.randrange(20)}&sort=price", "referrer": "",
            "viewport": [chance.choice((1920, 1366, 390)), 844],
            "duration": round(chance.expovariate(1 / 30), 3), "mobile": chance.random() < 0.5,
        },
        "message": chance.choice(("", "line 1\nline 2\tof \"two\"", "C:\\temp\\log.txt", phrase(chance, 20))),
    }  # fmt: skip


def profile(chance: random.Random) -> Json:
    """A person's settings."""
    name = chance.choice(NAMES)
    return {
        "name": name, "email": f"{name.split()[0].lower()}{chance.randrange(1000)}@example.org", "age": chance.randrange(18, 90),
        "active": chance.random() < 0.8,
        "addresses": [address(chance) for _ in range(chance.randrange(3))], "languages": chance.sample(("en", "de", "fr", "no", "zh", "es"),
        chance.randrange(1, 4)),
        "settings": {
            "theme": chance.choice(("dark", "light")), "mail": {"news": chance.random() < 0.5, "offers": False},
            "limits": {"daily": chance.randrange(10) * 50, "rate": 0.5},
        },
        "scores": [round(chance.random(), 4) for _ in range(chance.randrange(8))], "last_login": chance.choice((None, day(chance))),
    }  # fmt: skip


def measured(chance: random.Random) -> Json:
    """What a sensor measured."""
    return {
        "device": f"dev-{chance.randrange(500):03}", "samples": [{"t": chance.randrange(10**9, 2 * 10**9), "v": round(chance.gauss(20, 5),
        2), "ok": True} for _ in range(chance.randrange(1, 20))],
        "unit": "°C", "battery": round(chance.uniform(2.8, 4.2), 3), "raw": [chance.randrange(4096) for _ in range(chance.randrange(30))],
    }  # fmt: skip


def translation(chance: random.Random) -> Json:
    """Texts of a page in languages."""
    languages = chance.sample(("en", "de", "fr", "zh"), 3)
    return {
        language: {"title": phrase(chance, 5), "body": phrase(chance, 30), "draft": chance.random() < 0.1} for language in languages
    }  # fmt: skip


APPLICATION = (order, order, happening, happening, profile, measured, translation)


def application(chance: random.Random, count: int) -> list[str]:
    """So many documents that applications store."""
    return [text_of(chance.choice(APPLICATION)(chance)) for _ in range(count)]


# ---- changes

# What a change puts into a document: values of all types, short and long.
PUT = (
    "1", "-70000", "5000000000", "1.5", "1e0", "TRUE", "CAST('null' AS JSON)", "''", "'short'", "'a text that is longer than most'",
    "REPEAT('r', 130)",
    "CAST('[]' AS JSON)", "CAST('{\"a\": 1}' AS JSON)", "JSON_ARRAY(1, 'x')", "JSON_ARRAY(JSON_ARRAY(70000), 'y', 1e0)",
    "CAST('2024-02-03' AS DATE)", "X'cafe'",
    "CAST('-12.50' AS DECIMAL(6,2))", "CAST('-01:02:03.5' AS TIME(3))", "CAST('2024-01-02 03:04:05' AS DATETIME(6))", "''", "0", "'é'",
)  # fmt: skip


def paths(value: Json, path: str = "$") -> list[tuple[str, Json]]:
    """The paths of all parts of a document, with the parts."""
    inner: list[tuple[str, Json]] = []
    if isinstance(value, dict):
        inner = [(f"{path}.{json.dumps(name, ensure_ascii=False)}", part) for name, part in value.items()]
    elif isinstance(value, list):
        inner = [(f"{path}[{number}]", part) for number, part in enumerate(value)]
    return inner + [found for place, part in inner for found in paths(part, place)]


def change(chance: random.Random, document: Json) -> str | None:
    """A function that changes the document of a column: mostly one that makes a part shorter, in place."""
    found = paths(document)
    if not found:
        return None
    picked = chance.sample(found, min(len(found), chance.choice((1, 1, 1, 2, 3))))
    places = [quoted(place) for place, _ in picked]
    how = chance.random()
    if how < 0.25:
        return f"JSON_REMOVE(doc, {', '.join(sorted(places, reverse=True))})"
    if how < 0.75:
        pairs = ", ".join(f"{place}, {shorter(chance, part)}" for place, (_, part) in zip(places, picked))
        return f"JSON_REPLACE(doc, {pairs})" if how < 0.5 else f"JSON_SET(doc, {pairs})"
    if how < 0.9:
        return "JSON_SET(doc, " + ", ".join(f"{place}, {chance.choice(PUT)}" for place in places) + ")"
    put = chance.choice(PUT)
    if how < 0.94:
        return f"JSON_SET(doc, '$.added', {put})" if isinstance(document, dict) else f"JSON_ARRAY_APPEND(doc, '$', {put})"
    if how < 0.97 and isinstance(document, list):
        return f"JSON_ARRAY_INSERT(doc, '$[0]', {put})"
    if how < 0.97:
        return "JSON_MERGE_PATCH(doc, '{\"patched\": {\"by\": 1}}')"
    return f"JSON_REPLACE(JSON_REMOVE(doc, {places[0]}), {', '.join(f'{place}, {chance.choice(PUT)}' for place in places[1:] or places)})"


def shorter(chance: random.Random, part: Json) -> str:
    """A value that takes no more bytes than a part, where that can be."""
    kept = chance.random() < 0.6
    if kept and isinstance(part, str):
        return quoted(part[: chance.randrange(len(part) + 1)])
    if kept and isinstance(part, list):
        return f"CAST({text_of(part[:-1])} AS JSON)"
    if kept and isinstance(part, dict):
        return f"CAST({text_of(dict(list(part.items())[1:]))} AS JSON)"
    if isinstance(part, (str, list, dict)):
        return chance.choice(("'a'", "''", "1", "70000", "1.5e0", "NULL", "JSON_ARRAY()", "JSON_OBJECT()"))
    return chance.choice(("0", "TRUE", "7", "-7", "2.5e0", "'z'", "40000", "NULL"))


# Parts of documents, and documents of documents.
COPIES = (
    "doc->'$.items'", "doc->'$.items[0]'", "doc->'$.settings'", "doc->'$.addresses[last]'", "JSON_OBJECT('whole', doc, 'again', doc)",
    "JSON_ARRAY(doc->'$.ship_to', doc->'$.total')",
    "JSON_MERGE_PRESERVE(doc, JSON_OBJECT('more', doc->'$.properties'))", "JSON_EXTRACT(doc, '$.*')", "JSON_KEYS(doc)", "doc->'$.id'",
    "doc->'$.total'",
)  # fmt: skip

Groups = dict[str, tuple[list[str], int]]


def within(chance: random.Random, scalars: list[str]) -> list[str]:
    """Scalars by their texts: each alone, or as an element or a member."""
    forms = ("{}", "[{}]", '{{"v": {}}}', '[1, {}, "x"]')
    return [quoted(chance.choice(forms).format(scalar)) for scalar in scalars]


def made_of(chance: random.Random, parts: list[str]) -> list[str]:
    """Documents that functions make of values of SQL: each alone, and several together."""
    made = [chance.choice(("JSON_ARRAY({})", "JSON_OBJECT('v', {})", "JSON_ARRAY(1, {}, 'end')")).format(part) for part in parts]
    made += [f"JSON_ARRAY({', '.join(chance.sample(parts, 4))})" for _ in parts[::8]]
    picked = [chance.sample(parts, 3) for _ in parts[::8]]
    return made + [f"JSON_OBJECT('a', {one}, 'bb', JSON_ARRAY({two}), 'c', {three})" for one, two, three in picked]


def groups(chance: random.Random, many: bool) -> Groups:
    """For each table the expressions of its documents, and how often they are changed."""
    lengths = (126, 127, 128, 129, 255, 256, 16_382, 16_383, 16_384, 16_385, 65_534, 65_535, 65_536, 65_537, 70_000, 2_097_151, 2_097_152)
    numbers = doubles(chance, 5, 60) if many else doubles(chance, 60, 15)
    return {
        "scalars": ([*within(chance, integers()), *within(chance, numbers), *(quoted(text) for text in ("null", "true", "false"))], 0),
        "strings": (strings(lengths if many else lengths[:4]), 0),
        "functions": (made_of(chance, values(chance, 40 if many else 6)), 100 if many else 30),
        "unconverted": (list(UNCONVERTED), 0),
        "decimals": (list(LONG_DECIMALS), 0),
        "shapes": (containers(many), 150 if many else 30),
        "switches": (switches(many), 0),
        "chance": ([text_of(chance_value(chance, chance.randrange(1, 6 if many else 4))) for _ in range(300 if many else 20)],
        200 if many else 30),
        "application": (application(chance, 2_500 if many else 26), 800 if many else 56),
    }  # fmt: skip
