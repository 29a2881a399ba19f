"""Python's codecs for MySQL's character sets.

A full line has text as a string where the program reads its character set. It has other text as bytes, with the name of the set. Of
some sets Python has no codec: armscii8, dec8, geostd8, hp8, keybcs2 and swe7.
"""
from __future__ import annotations

CODECS = {
    "ascii": "ascii", "big5": "big5", "cp1250": "cp1250", "cp1251": "cp1251", "cp1256": "cp1256", "cp1257": "cp1257",
    "cp850": "cp850", "cp852": "cp852", "cp866": "cp866", "cp932": "cp932", "eucjpms": "euc_jp", "euckr": "euc_kr",
    "gb18030": "gb18030", "gb2312": "gb2312", "gbk": "gbk", "greek": "iso8859_7", "hebrew": "iso8859_8", "koi8r": "koi8_r",
    "koi8u": "koi8_u", "latin2": "iso8859_2", "latin5": "iso8859_9", "latin7": "iso8859_13", "macce": "mac_latin2",
    "macroman": "mac_roman", "sjis": "shift_jis", "tis620": "tis_620", "ujis": "euc_jp",
}  # fmt: skip


def to_text(raw: bytes, charset: str) -> str:
    """The text that bytes of a character set stand for. It is a ValueError where they stand for none, or Python doesn't know the set."""
    codec = CODECS.get(charset)
    if codec is None:
        raise ValueError(f"Python has no codec for {charset}")
    text = raw.decode(codec)
    # MySQL's sjis has the backslash at 81 5f, where Python's has a wide one.
    return text.replace("\uff3c", "\\") if charset == "sjis" else text
