"""What makes of the bytes of a value, as a server's SELECT gives them, the JSON that a full line has."""
from __future__ import annotations

import codecs
import math
import re
import struct
from binascii import b2a_base64
from collections.abc import Callable, Mapping
from json import JSONEncoder
from typing import Optional

from binlogfeed.floats import text_of_double, text_of_float
from binlogfeed.snapshot.documents import document

Convert = Callable[[bytes], bytes]
FLOAT = struct.Struct("<f")
# What needs another spelling in JSON.
ESCAPED = re.compile(rb'[\x00-\x1f"\\]').search
# The JSON of a text.
json_text: Callable[[str], str] = JSONEncoder(ensure_ascii=False).encode

UTF8 = {"utf8mb4", "utf8mb3", "ascii"}
# Those of several bytes a character that are read, with Python's codecs for them.
WIDE = {"utf16": "utf-16-be", "ucs2": "utf-16-be", "utf16le": "utf-16-le", "utf32": "utf-32-be"}
# Those of one byte a character, which a server says itself.
BYTES = {
    "armscii8", "cp1250", "cp1251", "cp1256", "cp1257", "cp850", "cp852", "cp866", "dec8", "geostd8", "greek", "hebrew", "hp8",
    "keybcs2", "koi8r", "koi8u", "latin2", "latin5", "latin7", "macce", "macroman", "swe7", "tis620",
}  # fmt: skip
# The characters of a set of one byte a character, by their bytes.
Table = dict[int, int]
# Those of each set that is asked for.
Characters = Mapping[str, Table]
# In MySQL's latin1 the gaps of Windows-1252 are characters, too.
LATIN1: Table = {byte: ord(bytes([byte]).decode("cp1252", "ignore") or chr(byte)) for byte in range(256)}


def in_base64(raw: bytes) -> bytes:
    """Bytes."""
    return b'{"base64":"%b"}' % b2a_base64(raw, newline=False)


def in_raw(raw: bytes) -> bytes:
    """Bytes that stand for a value that a line has no other form for."""
    return b'{"raw":"%b"}' % b2a_base64(raw, newline=False)


def bits(raw: bytes) -> bytes:
    """A BIT."""
    return b"%d" % int.from_bytes(raw, "big")


def real(raw: bytes) -> bytes:
    """A FLOAT, by the digits of the DOUBLE that it is."""
    return text_of_float(float(raw)).encode()


def double(raw: bytes) -> bytes:
    """A DOUBLE."""
    return text_of_double(float(raw)).encode()


def vector(raw: bytes) -> bytes:
    """A VECTOR: the array of its FLOATs, or its bytes where it is none."""
    numbers = [] if len(raw) % 4 else [number for (number,) in FLOAT.iter_unpack(raw)]
    if len(raw) % 4 or not all(map(math.isfinite, numbers)):
        return in_raw(raw)
    return b"[%b]" % ",".join(map(text_of_float, numbers)).encode()


def json_document(raw: bytes) -> bytes:
    """A document. A server may have one whose strings aren't UTF-8."""
    try:
        return document(raw.decode()).encode()
    except UnicodeDecodeError:
        return in_raw(raw)


def utf8(charset: str) -> Convert:
    """What makes a text of UTF-8."""
    unread = unreadable(charset)

    def converted(raw: bytes) -> bytes:
        """The text, or its bytes where it is none."""
        try:
            text = raw.decode()
        except UnicodeDecodeError:
            return unread(raw)
        return b'"%b"' % raw if ESCAPED(raw) is None else json_text(text).encode()

    return converted


def unreadable(charset: str) -> Convert:
    """What makes the bytes of a text, with the name of its character set."""
    behind = json_text(charset).encode()
    return lambda raw: b'{"base64":"%b","charset":%b}' % (b2a_base64(raw, newline=False), behind)


def text(charset: Optional[str], characters: Characters) -> Convert:
    """What makes a text of a character set."""
    if charset is None or charset == "binary":
        return in_base64
    if charset in UTF8:
        return utf8(charset)
    table = LATIN1 if charset == "latin1" else characters.get(charset)
    codec = WIDE.get(charset)
    unread = unreadable(charset)
    if table is None and codec is None:
        return unread

    def converted(raw: bytes) -> bytes:
        """The text, or its bytes where it is none."""
        try:
            found = raw.decode(codec) if codec else codecs.charmap_decode(raw, "strict", table)[0]
        except UnicodeDecodeError:
            return unread(raw)
        return json_text(found).encode()

    return converted


def names(charset: Optional[str], characters: Characters) -> Convert:
    """What makes the names of a SET. Where there are none, no name is unreadable."""
    convert = text(charset, characters)
    return convert if charset in (None, "binary") else lambda raw: convert(raw) if raw else b'""'


def told_characters(told: bytes) -> Table:
    """The characters of a set, by what a server makes of all bytes. One that it can't read becomes a question mark, or U+FFFD."""
    characters = enumerate(told.decode())
    return {byte: ord(it) for byte, it in characters if it != "\ufffd" and (it != "?" or byte == ord("?"))}
