"""Ends a process that mostly waits, where a signal asks for it."""
from __future__ import annotations

import time
from collections.abc import Iterator
from contextlib import contextmanager


class Stopped(Exception):
    """A signal asked for the end while the process waited."""


class Stopping:
    """Whether the end was asked for. What is done between two waits is done to its end."""

    def __init__(self) -> None:
        """Nothing was asked for yet."""
        self._is_asked = False
        self._waits = False

    def ask(self, *_: object) -> None:
        """Asks for the end, as the handler of a signal does."""
        self._is_asked = True
        if self._waits:
            raise Stopped

    @contextmanager
    def waiting(self) -> Iterator[None]:
        """A wait, which the signal ends by `Stopped`."""
        self._waits = True
        try:
            if self._is_asked:
                raise Stopped
            yield
        finally:
            self._waits = False

    def sleep(self, seconds: float) -> None:
        """Waits for so long."""
        with self.waiting():
            time.sleep(seconds)
