"""The language of docs/CASES.md in which small logs are put together: parts of bytes, and lines that give bytes a name."""
from __future__ import annotations

import re
import struct
from pathlib import Path

# The time of each event, and its server.
TIME, SERVER = 1_700_000_000, 1
HEADER_LENGTH = 19
# How many bytes a number takes, by the part's form.
WIDTHS = {"u8": 1, "u16": 2, "u24": 3, "u32": 4, "u48": 6, "u64": 8}
HEX = re.compile(r"(?:[0-9a-f]{2})*")


def words_of(line: str) -> list[str]:
    """The words of a line, which blanks part. What stands in quotes belongs to one word."""
    if line.count('"') % 2:
        raise ValueError(f"a quote isn't closed: {line}")
    return [word.replace('"', "") for word in re.findall(r'(?:"[^"]*"|[^" ])+', line)]


def header(kind: int, flags: int, length: int) -> bytes:
    """The header of an event of this whole length. Its next position is 0."""
    return struct.pack("<IBIIIH", TIME, kind, SERVER, length, 0, flags)


def event(kind: int, body: bytes = b"", flags: int = 0) -> bytes:
    """An event with this body."""
    return header(kind, flags, HEADER_LENGTH + len(body)) + body


def hex_bytes(digits: str) -> bytes:
    """The bytes of hex digits in small letters."""
    if not HEX.fullmatch(digits):
        raise ValueError(f"neither a piece nor hex digits: {digits}")
    return bytes.fromhex(digits)


class Pieces:
    """Bytes that have a name."""

    def __init__(self) -> None:
        """No bytes have a name yet."""
        self._named: dict[str, bytes] = {}

    def read(self, path: Path) -> Pieces:
        """Takes in the lines of a file without cases."""
        for line in path.read_text(encoding="utf-8").splitlines():
            word, _, rest = line.partition(" ")
            if word in ("piece", "event"):
                name, *parts = words_of(rest)
                self.add(name, self._joined(parts) if word == "piece" else self._event(*parts))
            elif word not in ("", "#"):
                raise ValueError(f"{path.name}: {line}")
        return self

    def add(self, name: str, content: bytes) -> None:
        """Gives bytes a name that isn't taken, and can't be read as hex digits."""
        if name in self._named or HEX.fullmatch(name):
            raise ValueError(f"a name that is taken, or hex digits: {name}")
        self._named[name] = content

    def bytes_of(self, parts: str) -> bytes:
        """The bytes of parts, one behind the other."""
        return self._joined(words_of(parts))

    def _joined(self, parts: list[str]) -> bytes:
        """The bytes of parts that are parted already."""
        return b"".join(map(self._part, parts))

    def _event(self, kind: str, flags: str, *parts: str) -> bytes:
        """The event of a line."""
        return event(int(kind), self._joined(list(parts)), int(flags))

    def _plain(self, part: str) -> bytes:
        """The bytes with a name, or of hex digits."""
        return self._named[part] if part in self._named else hex_bytes(part)

    def _part(self, part: str) -> bytes:
        """The bytes of a part."""
        form, colon, rest = part.partition(":")
        if not colon:
            return self._plain(part)
        if form == "text":
            return rest.encode()
        if form in WIDTHS:
            return int(rest).to_bytes(WIDTHS[form], "little")
        if form == "names":
            return b"".join(b"\x04%04x" % number for number in range(int(rest)))
        if form == "indexes":
            return b"".join(b"\xfc" + number.to_bytes(2, "little") for number in range(int(rest)))
        return self._changed(form, *rest.split(":"))

    def _changed(self, form: str, number: str, *rest: str) -> bytes:
        """The bytes of a part that changes a piece or hex digits."""
        at, content = int(number), self._plain(rest[-1])
        if form == "repeat" and len(rest) == 1:
            return content * at
        if form == "set" and len(rest) == 2:
            new = hex_bytes(rest[0])
            if at + len(new) <= len(content):
                return content[:at] + new + content[at + len(new) :]
        elif form in ("cut", "past") and len(rest) == 1 and at <= len(content):
            return content[:at] if form == "cut" else content[at:]
        raise ValueError(f"no part: {form}:{number}:{':'.join(rest)}")
