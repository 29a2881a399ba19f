"""A line on a terminal that says how far a run of the program is."""
from __future__ import annotations

import os
import threading
from collections.abc import Sequence
from pathlib import Path
from types import TracebackType

from binlogfeed.counts import counted
from binlogfeed.terminal import Line

# How often it is written anew.
SECONDS = 0.2


class Progress:
    """Says again and again how many bytes of logs were read, while it is entered and standard error is a terminal."""

    def __init__(self, process: int, logs: Sequence[Path]) -> None:
        """The progress of a process that reads these logs, one after the other."""
        self._process = process
        self._begins: dict[tuple[int, int], int] = {}
        self._total = 0
        for log in logs:
            try:
                about = log.stat()
            except OSError:  # the program says what is wrong with it
                continue
            self._begins[about.st_dev, about.st_ino] = self._total
            self._total += about.st_size
        self._read = 0
        self._stopped = threading.Event()
        self._line = Line()
        self._thread = threading.Thread(target=self._say_often, daemon=True) if self._line.is_seen else None

    def __enter__(self) -> Progress:
        """Begins to say it."""
        if self._thread:
            self._thread.start()
        return self

    def __exit__(
        self, kind: type[BaseException] | None, error: BaseException | None, trace: TracebackType | None
    ) -> None:
        """Takes the line away."""
        self._stopped.set()
        if self._thread:
            self._thread.join()

    def _say_often(self) -> None:
        """Writes the line over the one before, and takes the last away."""
        while not self._stopped.wait(SECONDS):
            self._read = max(self._read, self._read_so_far())
            self._line.say(f"binlogfeed: {self._read:,} of {counted(self._total, 'byte')}")
        self._line.end()

    def _read_so_far(self) -> int:
        """How many bytes the process has read: the place in its last open log, and the logs before that."""
        folder = f"/proc/{self._process}"
        most = 0
        try:
            for number in os.listdir(f"{folder}/fd"):
                about = os.stat(f"{folder}/fd/{number}")
                begin = self._begins.get((about.st_dev, about.st_ino))
                if begin is not None:
                    with open(f"{folder}/fdinfo/{number}", encoding="ascii") as told:
                        place = int(told.readline().split()[1])
                    most = max(most, begin + place if place else 0)
        except OSError:  # it has ended, or closed a file meanwhile
            pass
        return most
