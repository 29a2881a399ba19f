"""Lines that are held back: a server writes its log before a commit is to be seen in its tables."""
from __future__ import annotations

import threading
import time
from collections.abc import Generator, Mapping
from typing import Optional

from binlogfeed.faults import BinlogfeedError
from binlogfeed.lines import last_members
from binlogfeed.tokens import TokenParts, token_parts

# So many bytes of lines are held at most.
MOST_HELD = 16 << 20


class Lag:
    """Holds lines back for some seconds, behind the moment at which the last byte of their transaction was seen in the log."""

    def __init__(self, seconds: float) -> None:
        """A lag of so many seconds; 0 holds nothing back."""
        self._seconds = seconds
        self._ended = threading.Event()

    def end(self) -> None:
        """Ends what waits. What is held is given no more, and comes again."""
        self._ended.set()

    def held(self, blocks: Generator[bytes, None, bool], sizes: Mapping[str, int]) -> Generator[bytes, None, bool]:
        """The blocks of lines of a look, and its answer. `sizes` has how long each log was before the look.

        All that stands before a transaction that begins within these sizes was seen by then. Of others it is known when they came.
        """
        if not self._seconds:
            return (yield from blocks)
        seen = time.monotonic()
        waiting: list[bytes] = []
        error: Optional[BinlogfeedError] = None
        whole = False
        while True:
            try:
                block = next(blocks)
            except StopIteration as ended:
                whole = bool(ended.value)
                break
            except BinlogfeedError as raised:
                error = raised
                break
            if waiting and is_behind(block, waiting[-1], sizes):
                yield from self._late(waiting, seen)
            waiting.append(block)
            if sum(map(len, waiting)) >= MOST_HELD:
                yield from self._late(waiting, time.monotonic())
        yield from self._late(waiting, time.monotonic())
        if error is not None:
            raise error
        return whole and not self._ended.is_set()

    def _late(self, waiting: list[bytes], seen: float) -> Generator[bytes, None, None]:
        """Gives what waits, late enough behind the moment at which it was seen, and forgets it."""
        blocks, waiting[:] = waiting[:], []
        if blocks and not self._ended.wait(max(0.0, seen + self._seconds - time.monotonic())):
            yield from blocks


def is_behind(block: bytes, before: bytes, sizes: Mapping[str, int]) -> bool:
    """Whether a block ends in a later transaction than the one before it, and in one that begins within the sizes of the logs."""
    last, other = last_place(block), last_place(before)
    return (last.file, last.position) != (other.file, other.position) and last.position <= sizes.get(last.file, -1)


def last_place(lines: bytes) -> TokenParts:
    """The place of the last of these lines."""
    return token_parts(last_members(lines)["token"])
