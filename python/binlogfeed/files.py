"""Files that stay whole: one is put in another's place by a rename, a lock says who uses them, and what is written is all written."""
from __future__ import annotations

import fcntl
import os
import time
from collections.abc import Callable, Iterator
from contextlib import contextmanager
from pathlib import Path
from typing import TextIO

from binlogfeed.faults import FileFault

# A process that is killed while it starts another leaves its locks to that one for some milliseconds, until that runs a program of its
# own. For so many seconds a lock is asked for again, each time after such a pause.
PATIENCE = 1.0
PAUSE = 0.02


def replace(path: Path, content: bytes) -> None:
    """Puts a new file in the old one's place. After a crash of the machine, too, it is this one or the one before."""
    new = path.with_name(f"{path.name}.new")
    with open(new, "wb") as file:
        file.write(content)
        file.flush()
        os.fsync(file.fileno())
    os.replace(new, path)
    sync_folder(path.parent)


def write_all(write: Callable[[memoryview], int | None], content: bytes, where: str) -> None:
    """Writes bytes, of which a call may take a part. A full disk may have room for the rest soon, or never: `where` has none then.

    A pipe that doesn't block, since another process shares it, takes none while it is full. Then there is a pause.
    """
    left = memoryview(content)
    with writing(where):
        while left:
            try:
                count = write(left) or 0
            except BlockingIOError:
                count = 0
            if count == 0:
                time.sleep(PAUSE)
            left = left[count:]


@contextmanager
def writing(where: str) -> Iterator[None]:
    """Says what can't be written, and why. A pipe that nobody reads any more is left to the caller."""
    try:
        yield
    except BrokenPipeError:
        raise
    except OSError as error:
        raise FileFault(f"binlogfeed: can't write {where}: {error.strerror}") from error


def sync_folder(path: Path) -> None:
    """Has the disk take a folder's names."""
    folder = os.open(path, os.O_RDONLY)
    try:
        os.fsync(folder)
    finally:
        os.close(folder)


def locked(path: Path, refusal: str) -> TextIO:
    """The lock on a file, which is made where it isn't there. Where another process keeps it, it is refused with this line."""
    lock = open(path, "w", encoding="utf-8")
    until = time.monotonic() + PATIENCE
    while True:
        try:
            fcntl.flock(lock, fcntl.LOCK_EX | fcntl.LOCK_NB)
            return lock
        except OSError as error:
            if not isinstance(error, BlockingIOError) or time.monotonic() >= until:
                lock.close()
                raise FileFault(refusal) from error
        time.sleep(PAUSE)
