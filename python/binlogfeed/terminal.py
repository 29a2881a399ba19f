"""A line on standard error that says how far something is, where that is a terminal."""
from __future__ import annotations

import shutil
import sys


class Line:
    """A line that is written again and again, each time over the one before."""

    def __init__(self) -> None:
        """Nothing is written yet."""
        self.is_seen = sys.stderr.isatty()
        self._length = 0

    def say(self, text: str) -> None:
        """Writes it, as far as the terminal is wide, and blanks over what the one before had more."""
        text = text[: shutil.get_terminal_size().columns - 1]
        print(f"\r{text.ljust(self._length)}", end="", file=sys.stderr, flush=True)
        self._length = len(text)

    def end(self) -> None:
        """Takes the line away."""
        if self._length:
            print(f"\r{' ' * self._length}\r", end="", file=sys.stderr, flush=True)
