"""Writes the rows of tables, by one process or by several at once."""
from __future__ import annotations

import multiprocessing
import os
import sys
import threading
import time
from collections.abc import Sequence
from contextlib import nullcontext
from functools import partial
from typing import Any, NamedTuple

from binlogfeed import files
from binlogfeed.counts import counted
from binlogfeed.faults import BinlogfeedError
from binlogfeed.snapshot.rows import WHOLE, Lines, Range, lines_of
from binlogfeed.snapshot.server import Connection
from binlogfeed.terminal import Line

# Lines are written in blocks of so many bytes or more.
BLOCK = 1 << 18
# How often the progress is said, and the processes are looked at.
SECONDS = 0.5


class Part(NamedTuple):
    """Rows that one process reads."""

    lines: Lines
    range: Range = WHOLE


class Output:
    """Standard output, which takes blocks of whole lines of several processes."""

    def __init__(self, lock: Any, count: Any) -> None:
        """`lock` is held by who writes, and `count` has how many lines all have written."""
        self._lock, self._count = lock, count
        self._first = os.getpid()

    def write(self, block: bytes, count: int) -> None:
        """Writes some lines."""
        if self._first not in (os.getpid(), os.getppid()):
            # The first process was killed, and nobody would know whether all is written.
            os._exit(0)
        with self._lock:
            files.write_all(partial(os.write, sys.stdout.fileno()), block, "the output")
            self._count.value += count


class Progress:
    """How many rows are written, on standard error where that is a terminal."""

    def __init__(self, count: Any) -> None:
        """The progress by a count."""
        self._count, self._next = count, time.monotonic() + SECONDS
        self._line = Line()

    def say(self) -> None:
        """Says it, if it is time to."""
        if self._line.is_seen and time.monotonic() >= self._next:
            self._next = time.monotonic() + SECONDS
            self._line.say(f"binlogfeed: {counted(self._count.value, 'row')}")

    def end(self) -> None:
        """Takes the line away."""
        self._line.end()


def write_all(connections: Sequence[Connection], parts: Sequence[Part]) -> int:
    """Writes the rows of all parts, with a process for each connection. Answers how many they are."""
    context = multiprocessing.get_context("fork")
    count, next_part = context.Value("Q", 0, lock=False), context.Value("I", 0)
    progress = Progress(count)
    try:
        if len(connections) == 1:
            write_some(connections[0], parts, next_part, Output(nullcontext(), count), progress)
        else:
            output, said = Output(context.Lock(), count), context.SimpleQueue()
            words = (parts, next_part, output, said)
            processes = [context.Process(target=work, args=(connection, *words), daemon=True) for connection in connections]
            for process in processes:
                process.start()
            wait_for(processes, said, progress)
    finally:
        progress.end()
    return int(count.value)


def write_some(connection: Connection, parts: Sequence[Part], next_part: Any, output: Output, progress: Progress | None) -> None:
    """Writes the rows of those parts that no other process takes."""
    while True:
        with next_part.get_lock():
            at = next_part.value
            next_part.value += 1
        if at >= len(parts):
            return
        blocks: list[bytes] = []
        size = rows = 0
        for block, count in lines_of(connection, parts[at].lines, parts[at].range):
            blocks.append(block)
            size, rows = size + len(block), rows + count
            if size >= BLOCK:
                output.write(b"".join(blocks), rows)
                blocks, size, rows = [], 0, 0
                if progress:
                    progress.say()
        if blocks:
            output.write(b"".join(blocks), rows)


def work(connection: Connection, parts: Sequence[Part], next_part: Any, output: Output, said: Any) -> None:
    """What a process does. It says what ended it early."""
    threading.Thread(target=end_with_the_first, daemon=True).start()
    try:
        write_some(connection, parts, next_part, output, None)
    except BinlogfeedError as error:
        said.put((error.line, error.status))
    except BrokenPipeError:
        said.put(("", 0))
    except KeyboardInterrupt:
        pass
    os._exit(0)


def end_with_the_first() -> None:
    """Ends this process once the first one has ended, whoever takes the lines: until then the server would have another snapshot wait."""
    first = multiprocessing.parent_process()
    if first:
        first.join()
    os._exit(0)


def wait_for(processes: Sequence[Any], said: Any, progress: Progress) -> None:
    """Waits until all processes have ended. Where one ended early, the others are ended, and its error is raised."""
    try:
        while any(process.is_alive() for process in processes):
            processes[0].join(SECONDS / len(processes))
            for process in processes[1:]:
                process.join(SECONDS / len(processes))
            judge(processes, said)
            progress.say()
        judge(processes, said)
    finally:
        for process in processes:
            process.kill()
            process.join()


def judge(processes: Sequence[Any], said: Any) -> None:
    """Raises the error that a process ended with."""
    if not said.empty():
        line, status = said.get()
        if not line:
            raise BrokenPipeError
        raise BinlogfeedError(line, status)
    for process in processes:
        if process.exitcode:
            raise BinlogfeedError(f"binlogfeed: a process of the snapshot ended with status {process.exitcode}", 70)
