"""Runs the program over logs, and counts what it says of them."""
from __future__ import annotations

import contextlib
import os
import sys
from collections import deque
from collections.abc import Iterator, Sequence
from dataclasses import dataclass, field
from pathlib import Path
from typing import Optional

from binlogfeed.faults import BinlogfeedError, FileFault, LogFault, ProgramMissing, WordsRefused, told
from binlogfeed.logs import check_without_gap, is_log, listed, none_of
from binlogfeed.program import Run
from binlogfeed.summary.beside import Beside, Worker
from binlogfeed.summary.changes import Block, Change, Changes, counted_block
from binlogfeed.summary.progress import Progress
from binlogfeed.summary.sizes import Sizes
from binlogfeed.summary.units import Limit, Units, lines_within
from binlogfeed.tokens import token_parts

# Lines are counted by so many bytes at once, or somewhat more.
BLOCK = 1 << 17
# Several processes count the lines of logs that have so many bytes.
LEAST_SPREAD, MOST_WORKERS = 8 << 20, 3
TIME_BYTES = 4


@dataclass
class Summary:
    """What happened in logs."""

    logs: Sequence[Path]
    filters: Sequence[str]
    changes: Changes
    units: Units
    # The bytes of all logs.
    size: int
    # What ended the reading early. All before it is counted.
    fault: Optional[BinlogfeedError] = None
    # When the largest transactions began, by their file and position, as far as the logs are still there.
    begun: dict[tuple[str, int], int] = field(default_factory=dict)


class Reading(Run):
    """A run that says which process it is."""

    @property
    def process(self) -> int:
        """The number of the process."""
        return self._process.pid

    def large_blocks(self) -> Iterator[bytes]:
        """What `blocks` gives, and raises, in fewer blocks."""
        gathered: list[bytes] = []
        size = 0
        fault = None
        try:
            for block in self.blocks():
                gathered.append(block)
                size += len(block)
                if size >= BLOCK:
                    yield b"".join(gathered)
                    gathered, size = [], 0
        except BinlogfeedError as error:
            fault = error
        if gathered:
            yield b"".join(gathered)
        if fault:
            raise fault


def logs_of(words: Sequence[str]) -> list[Path]:
    """The logs that are meant by words: each a log, or a server's index, folder or pattern."""
    logs: list[Path] = []
    for word in words:
        if is_log(word):
            logs.append(Path(word))
            continue
        found = listed(word)
        if not found:
            raise FileFault(f"binlogfeed: {none_of(word)}")
        check_without_gap(found)
        # A shell's pattern has the logs themselves, and their index.
        logs += [log for log in found if log not in logs]
    for log in logs:
        if "\n" in log.name or "\t" in log.name:
            raise FileFault(f"binlogfeed: a log whose name has a line feed or a tab can't be summed up: {log.name!r}")
    return logs


def summed_up(
    logs: Sequence[Path], filters: Sequence[str] = (), program: str = "binlogfeed", profile: str = "server"
) -> Summary:
    """What happened in these logs, as a profile takes them in. Changes and statements are those that pass the filters, transactions
    and GTIDs are all.

    Raises what ended the reading where nothing was read.
    """
    by = f"--profile={profile}"
    beside = Beside(lambda: _counted_units(logs, program, by))
    try:
        changes, fault = _counted_changes(logs, [by, *filters], program)
        units, status, line = beside.result()
    finally:
        beside.end()
    if fault is None and status:
        fault = told(line, status)
    elif fault is not None and line != fault.line:
        # The other run didn't see it: it looks at no row.
        units, _, _ = _counted_units(logs, program, by, _limit(fault, changes))
    if fault is not None and not isinstance(fault, LogFault) and not (changes.token or units.endings):
        raise fault
    size = sum(log.stat().st_size for log in logs if log.exists())
    return Summary(logs, filters, changes, units, size, fault, _begun(logs, units))


def _counted_changes(
    logs: Sequence[Path], options: Sequence[str], program: str
) -> tuple[Changes, Optional[BinlogfeedError]]:
    """The changes of logs by options of `read`, and what ended the reading early."""
    changes, fault = Changes(), None
    workers: list[Worker[Block]] = []
    run = None
    try:
        for _ in range(_worker_count(logs)):
            workers.append(Worker(counted_block, workers))
        run = Reading([program, "read", *options, "--", *map(str, logs)])
        with Progress(run.process, logs):
            for block in _counted_blocks(run, workers, changes.sizes):
                changes.add(block)
    except (ProgramMissing, WordsRefused):
        raise
    except BinlogfeedError as error:
        fault = error
    finally:
        for process in (*workers, *([run] if run else [])):
            process.end()
    changes.end()
    return changes, fault


def _worker_count(logs: Sequence[Path]) -> int:
    """How many processes count lines. For small logs, and where only one process can run at a time, it is done here."""
    if sum(log.stat().st_size for log in logs if log.exists()) < LEAST_SPREAD:
        return 0
    return min(MOST_WORKERS, len(os.sched_getaffinity(0)) - 1)


def _counted_blocks(run: Reading, workers: Sequence[Worker[Block]], sizes: Sizes[Change]) -> Iterator[Block]:
    """What is counted in each block of lines, in their order. Then what ended the run early."""
    free, busy = deque(workers), deque[Worker[Block]]()
    fault = None
    try:
        for lines in run.large_blocks():
            if not workers:
                yield counted_block(lines, sizes.least)
                continue
            if not free:
                yield busy[0].answer()
                free.append(busy.popleft())
            free[0].ask(lines, sizes.least)
            busy.append(free.popleft())
    except BinlogfeedError as error:
        fault = error
    while busy:
        yield busy.popleft().answer()
    if fault:
        raise fault


def _counted_units(logs: Sequence[Path], program: str, by: str, limit: Optional[Limit] = None) -> tuple[Units, int, str]:
    """The transactions of logs by a profile up to a limit, and the status and the line of what ended the reading early."""
    units, order = Units(), {log.name: number for number, log in enumerate(logs)}
    run = Reading([program, "transactions", by, "--", *map(str, logs)])
    try:
        for lines in run.large_blocks():
            if limit is not None and limit.file in order:
                lines = lines_within(lines, limit, order)
            if not lines:
                break
            units.take(lines)
    except BinlogfeedError as error:
        return units, error.status, error.line
    finally:
        run.end()
    return units, 0, ""


def _limit(fault: BinlogfeedError, changes: Changes) -> Optional[Limit]:
    """What is still counted where a fault ended the reading: what ends before it, or begins with the last change."""
    if isinstance(fault, LogFault):
        return Limit(fault.file, sys.maxsize, fault.position)
    if changes.token is None:
        return None
    parts = token_parts(changes.token)
    return Limit(parts.file, parts.position + 1, sys.maxsize)


def _begun(logs: Sequence[Path], units: Units) -> dict[tuple[str, int], int]:
    """When the largest transactions began: a time is the first part of an event."""
    paths, found = {log.name: log for log in logs}, {}
    for _, unit in units.sizes.largest:
        with contextlib.suppress(OSError), open(paths[unit.file], "rb") as log:
            log.seek(unit.begin)
            found[unit.file, unit.begin] = int.from_bytes(log.read(TIME_BYTES), "little")
    return found
