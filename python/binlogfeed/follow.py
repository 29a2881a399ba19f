"""Follows a server's logs while it writes them: prints the lines of `binlogfeed read`, and keeps the place behind them."""
from __future__ import annotations

import contextlib
import sys
import threading
import time
from collections.abc import Callable, Iterable, Sequence
from pathlib import Path
from typing import BinaryIO, NamedTuple, Optional, TextIO

from binlogfeed import files
from binlogfeed.begin import FIRST
from binlogfeed.faults import BinlogfeedError, FileFault
from binlogfeed.logs import is_pattern, listed
from binlogfeed.place import Place
from binlogfeed.tokens import token_parts
from binlogfeed.watch import Watch

# The place is kept behind each look, and within one behind so many bytes or seconds.
KEEP_BYTES = 16 << 20
KEEP_SECONDS = 1.0


class WriteEnded(Exception):
    """A write that waited for a reader was ended. Some of its bytes may be out."""


class Measure(NamedTuple):
    """How far a follower is. None stands for what isn't known yet."""

    place: Place
    # Lines that were written since it began.
    lines: int
    bytes_behind: Optional[int]
    seconds_behind: Optional[int]


class Follower:
    """Prints the lines of a server's logs that weren't taken yet, each time it is asked."""

    def __init__(
        self,
        place: str,
        state: Path,
        words: Sequence[str] = (),
        program: str = "binlogfeed",
        out: BinaryIO | None = None,
        begin: str = FIRST,
        lag: float = 0.0,
        form: Callable[[bytes], bytes] | None = None,
    ) -> None:
        """A follower of the logs at a place (an index, its folder, or a pattern), which keeps its own place in a file.

        Where there is no such file yet, `begin` says where it begins. No line comes earlier than `lag` seconds after it was seen.
        `form` makes what is printed of the program's lines.
        """
        self._logs = place
        self._state = state
        # Without a buffer of its own, which a failed write would leave in an unknown state.
        self._out: BinaryIO = out or open(sys.stdout.fileno(), "wb", buffering=0, closefd=False)
        self._lock = locked(state)
        self._kept = read_state(state)
        self._watch = Watch(place, [program, "read", "--follow", *words], self._kept, begin, str(state), lag)
        self._form = form
        self._said_none = False
        self._writing = False
        self._lines = 0

    def catch_up(self) -> None:
        """Prints all lines that are there by now, and keeps the place. Raises what ended the reading early."""
        if self._watch.begin():
            # What is committed behind the logs' end by now isn't to be missed after a kill.
            self._keep()
        try:
            with contextlib.closing(self._watch.look()) as blocks:
                self._print(blocks)
        except WriteEnded:
            pass
        except BinlogfeedError:
            # The lines before a fault stand. A place that was to be begun with may be what is wrong.
            if self._watch.last_time is not None:
                self._keep()
            raise
        self._keep()
        if self._watch.is_empty and is_pattern(self._logs) and not self._said_none:
            self._said_none = True
            print(f"binlogfeed: no log matches {self._logs} yet", file=sys.stderr, flush=True)

    def wait(self, seconds: float, ending: threading.Event) -> bool:
        """Waits for so long, or until the event comes, and answers whether it came. Raises what the program ended with meanwhile."""
        return self._watch.wait(seconds, ending)

    def interrupt(self) -> None:
        """Ends a write that waits, for the handler of a signal that ended the system's call. The lines of that write come again."""
        if self._writing:
            raise WriteEnded

    def stop(self) -> None:
        """Ends a look that goes on, from another thread. The place is kept behind the lines that were printed."""
        self._watch.end()

    def close(self) -> None:
        """Ends the program, and gives the state's file free for another."""
        self._watch.end()
        self._lock.close()

    def measure(self) -> Measure:
        """How far it is: the place that is kept, and how far the printed lines are behind the logs."""
        behind = self._bytes_behind()
        return Measure(self._kept, self._lines, behind, 0 if behind == 0 else self._seconds_behind())

    def status(self) -> str:
        """A line that says the same."""
        place, _, *behind = self.measure()
        size, seconds = ("-" if it is None else it for it in behind)
        return f"binlogfeed: place {place.resume or place.file or '-'}, {size} bytes behind, {seconds} seconds behind"

    def _seconds_behind(self) -> int | None:
        """How many seconds ago at most what is still to be read was committed, by two bounds of which the lesser is taken.

        It came behind the last line that was given; and behind the beginning of the last look that took all.
        """
        time_of_line, caught_up = self._watch.last_time, self._watch.caught_up
        bounds = [] if time_of_line is None else [int(time.time()) - time_of_line]
        if caught_up is not None:
            bounds.append(int(time.monotonic() - caught_up))
        return min(bounds, default=None)

    def _bytes_behind(self) -> int | None:
        """How many bytes the logs have behind the last whole look's end, or behind the kept place where that is further on.

        Bytes that give no line count, too. Where the logs can't be listed there is no such number.
        """
        kept = self._kept
        position = token_parts(kept.resume).position if kept.resume else 0
        file, end = self._watch.reached
        if file == kept.file:
            position = max(position, end)
        try:
            sizes = {path.name: path.stat().st_size for path in listed(self._logs)}
        except (FileFault, OSError):
            return None
        names = list(sizes)
        behind = names[names.index(kept.file) :] if kept.file in sizes else names
        return max(0, sum(sizes[name] for name in behind) - (position if kept.file in sizes else 0))

    def _print(self, blocks: Iterable[bytes]) -> None:
        """Writes whole lines. Within a long look the place is kept, too."""
        written, due = 0, time.monotonic() + KEEP_SECONDS
        for lines in blocks:
            self._write(lines if self._form is None else self._form(lines))
            self._lines += lines.count(b"\n")
            written += len(lines)
            if written >= KEEP_BYTES or time.monotonic() >= due:
                self._keep()
                written, due = 0, time.monotonic() + KEEP_SECONDS

    def _write(self, lines: bytes) -> None:
        """Writes lines."""
        self._writing = True
        try:
            files.write_all(self._out.write, lines, "the output")
        finally:
            self._writing = False

    def _keep(self) -> None:
        """Keeps the place behind the lines that were written, once they are out."""
        self._out.flush()
        place = self._watch.place
        if place != self._kept and place.file is not None:
            write_state(self._state, place)
            self._kept = place


def locked(state: Path) -> TextIO:
    """The lock of a state's file. Two that go on from one place would each miss what the other took."""
    with files.writing(f"{state}.lock, beside what keeps the place"):
        return files.locked(state.with_name(f"{state.name}.lock"), f"binlogfeed: another process uses {state}")


def read_state(state: Path) -> Place:
    """The place that a file keeps, or that before all changes where there is no such file."""
    try:
        return Place.from_text(state.read_text(encoding="utf-8", errors="surrogateescape"))
    except FileNotFoundError:
        return Place()
    except OSError as error:
        raise FileFault(f"binlogfeed: cannot open {state}: {error.strerror}") from error
    except BinlogfeedError as error:
        raise error.hinted(f"the file is {state}")


def write_state(state: Path, place: Place) -> None:
    """Keeps a place in a file. After a crash of the machine, too, the file has this place or the one before it."""
    with files.writing(f"{state}, which keeps the place"):
        files.replace(state, f"{place.to_text()}\n".encode())
