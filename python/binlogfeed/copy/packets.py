"""Packets of MySQL's protocol, as many as there are by now at a time."""
from __future__ import annotations

from collections.abc import Callable
from typing import Optional

# So many bytes are read at a time, at most.
BLOCK = 1 << 18
HEAD = 4
# A packet of so many bytes is continued by the next one.
LONGEST = 0xFFFFFF


class Lost(Exception):
    """There is no connection to the server, or it is lost. It is worth another try."""


class Packets:
    """What a server sends in answer to one command."""

    def __init__(self, read: Callable[[int], Optional[bytes]]) -> None:
        """The packets of what `read` gives: as many bytes as are there by now, and none where the connection has ended."""
        self._read = read
        self._left = bytearray()
        # The parts of a packet whose last one isn't there yet.
        self._parts: list[bytes] = []
        # The command's own packet had the number 0.
        self._number = 1

    def batch(self) -> list[bytes]:
        """The packets that are whole by now, and one at least. Waits for it."""
        while True:
            block = self._read(BLOCK)
            if not block:
                raise Lost("the server closed the connection")
            self._left += block
            found = self._whole()
            if found:
                return found

    def _whole(self) -> list[bytes]:
        """Takes the packets that are whole."""
        found: list[bytes] = []
        at, end = 0, len(self._left)
        while end - at >= HEAD:
            length = int.from_bytes(self._left[at : at + 3], "little")
            if end - at - HEAD < length:
                break
            if self._left[at + 3] != self._number:
                raise Lost("the packets came out of order")
            self._number = (self._number + 1) % 256
            self._parts.append(bytes(memoryview(self._left)[at + HEAD : at + HEAD + length]))
            at += HEAD + length
            if length < LONGEST:
                found.append(self._parts[0] if len(self._parts) == 1 else b"".join(self._parts))
                self._parts = []
        del self._left[:at]
        return found
