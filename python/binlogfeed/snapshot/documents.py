"""Documents of JSON as full lines have them, by the server's text of them.

The text has blanks that a line hasn't, and another spelling of some numbers and of opaque values. It doesn't tell an opaque value from a
string that looks like one, and a DOUBLE from a DECIMAL between 0 and 0.0001: the opaque value and the DOUBLE are taken.
"""
from __future__ import annotations

import re
from binascii import a2b_base64
from decimal import Decimal

# A string, with what stands behind it where it is a key; a comma; or a number.
PART = re.compile(r'("[^"\\]*(?:\\.[^"\\]*)*")(: )?|, |-?\d[-+.\deE]*', re.DOTALL)
OPAQUE = re.compile(r'"base64:type(\d+):([A-Za-z0-9+/=]*)"')
# Below this a DOUBLE has an exponent in a line, and may have none in the server's text.
SMALL = 0.0001


def document(text: str) -> str:
    """A document, by its text."""
    return PART.sub(_part, text)


def _part(found: re.Match[str]) -> str:
    """A part as a line has it."""
    string = found[1]
    if string is None:
        return "," if found[0] == ", " else number(found[0])
    if found[2]:
        return f"{string}:"
    return opaque(string) if string.startswith('"base64:type') else string


def opaque(string: str) -> str:
    """An opaque value, whose base64 the server breaks into lines; or the string itself, where it is none."""
    parts = OPAQUE.fullmatch(string.replace("\\n", ""))
    if not parts:
        return string
    try:
        a2b_base64(parts[2])
    except ValueError:
        return string
    return f'{{"base64":"{parts[2]}","type":{parts[1]}}}'


def number(text: str) -> str:
    """A number. A DECIMAL has no exponent, and keeps all its digits."""
    if "e" in text or "E" in text:
        return repr(float(text))
    if "." not in text:
        return text
    short = repr(float(text))
    is_small = 0 < abs(float(text)) < SMALL
    return short if is_small and format(Decimal(short), "f") == text else text
