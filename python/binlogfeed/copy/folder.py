"""A folder with copies of a server's logs, their index, and the server's identity."""
from __future__ import annotations

import mmap
import os
from collections.abc import Sequence
from functools import partial
from pathlib import Path
from typing import NamedTuple, Optional

from binlogfeed.begin import LOG
from binlogfeed.copy.events import Whole, whole_part
from binlogfeed.faults import FileFault, LogsGone
from binlogfeed.files import locked, replace, sync_folder, write_all, writing
from binlogfeed.logs import MAGIC, NAME, base_and_number

INDEX, SERVER, LOCK, NEW = "binlog.index", "copy.server", "copy.lock", "copy.new"
MODE = 0o640


class Copy(NamedTuple):
    """The last copy of a folder."""

    path: Path
    file: int
    whole: Whole


class Folder:
    """Copies of a server's logs. The last one grows, and those before it are whole and on the disk.

    A copy appears with its first event, by a rename, and then in the index. Bytes that are written stay as they are, and only whole
    events are written, as many as came at once by one call of the system. While the system works that call off, or where a kill ends
    it, who reads beside it may see an event cut, as in the log of a server: its end comes later, behind the same bytes. What a kill or
    a loss of power left cut or damaged is cut off when the next process begins, and copied again.
    """

    def __init__(self, path: Path) -> None:
        """The folder, which is made where it isn't there. One process uses it at a time."""
        self._path = path
        try:
            path.mkdir(exist_ok=True)
            if self.names() and not (path / SERVER).exists():
                # It may be a server's own folder, whose logs mustn't be written to.
                raise FileFault(f"binlogfeed: {path} has logs that no copier wrote: give a folder of its own for the copies")
            self._lock = locked(path / LOCK, f"binlogfeed: another process copies into {path}")
            self._last = self._opened()
            self._put_index()
        except OSError as error:
            raise FileFault(f"binlogfeed: can't copy into {path}: {error.strerror}") from error
        # Where the last copy ends.
        self.end = self._last.whole.end if self._last else 0

    @property
    def name(self) -> str | None:
        """The name of the last copy; None where there is none."""
        return self._last.path.name if self._last else None

    @property
    def whole(self) -> Whole:
        """What was whole of the last copy when it was opened."""
        assert self._last is not None
        return self._last.whole

    def claim(self, server: str) -> None:
        """Keeps the identity of the server whose logs these are. Raises `LogsGone` where they are another's."""
        path = self._path / SERVER
        try:
            kept = path.read_text(encoding="utf-8").strip()
        except FileNotFoundError:
            with writing(str(path)):
                replace(path, f"{server}\n".encode())
            return
        if kept != server:
            raise LogsGone(f"binlogfeed: {self._path} has copies of another server: its UUID is {kept}, and {server} answers now")

    def read(self, at: int, length: int) -> bytes:
        """Bytes of the last copy."""
        assert self._last is not None
        return os.pread(self._last.file, length, at)

    def append(self, events: Sequence[bytes]) -> None:
        """Writes whole events behind the last copy's end, by one call."""
        assert self._last is not None
        _write(self._last, events[0] if len(events) == 1 else b"".join(events))
        self.end += sum(map(len, events))

    def begin(self, name: str, format_event: bytes) -> None:
        """Begins the copy of the next log with its first event. The one before it is on the disk by then."""
        self.sync()
        if self._last is not None:
            os.close(self._last.file)
            self._last = None
        path, new, head = self._path / name, self._path / NEW, MAGIC + format_event
        with writing(str(path)):
            file = os.open(new, os.O_RDWR | os.O_CREAT | os.O_TRUNC | os.O_APPEND, MODE)
            self._last = Copy(path, file, Whole(len(head), len(MAGIC), format_event, None))
            self.end = len(head)
            _write(self._last, head)
            os.fsync(file)
            os.replace(new, path)
            sync_folder(self._path)
        self._put_index()

    def sync(self) -> None:
        """Has the disk take the last copy."""
        if self._last is not None:
            with writing(str(self._last.path)):
                os.fsync(self._last.file)

    def reopen(self) -> None:
        """Looks at the last copy anew, where something was written."""
        if self._last is not None and self.end != self._last.whole.end:
            os.close(self._last.file)
            self._last = None
            self._last = self._opened()
            self.end = self._last.whole.end if self._last else 0

    def close(self) -> None:
        """Ends the use of the folder."""
        self.sync()
        if self._last is not None:
            os.close(self._last.file)
        self._lock.close()

    def names(self) -> list[str]:
        """The names of the copies, in their order."""
        found = [name for name in os.listdir(self._path) if NAME.fullmatch(name)]
        return sorted(found, key=base_and_number)

    def _opened(self) -> Optional[Copy]:
        """Opens the last copy that has a whole event."""
        for name in reversed(self.names()):
            path = self._path / name
            file = os.open(path, os.O_RDWR | os.O_APPEND)
            size = os.fstat(file).st_size
            whole = _whole_part(file, size, path)
            if whole.end < size:
                LOG.warning(f"{name} has {size} bytes, of which {whole.end} are whole events: the others are cut off, and copied again")
                os.ftruncate(file, whole.end)
            if whole.end:
                return Copy(path, file, whole)
            os.close(file)
        return None

    def _put_index(self) -> None:
        """Has the index name the copies."""
        names = self.names()
        while names and names[-1] != self.name:
            del names[-1]
        text = "".join(f"./{name}\n" for name in names).encode()
        path = self._path / INDEX
        if not path.exists() or path.read_bytes() != text:
            with writing(str(path)):
                replace(path, text)


def _whole_part(file: int, size: int, path: Path) -> Whole:
    """What of an open file is whole."""
    if not size:
        return whole_part(b"", path)
    with mmap.mmap(file, size, access=mmap.ACCESS_READ) as content, memoryview(content) as view:
        return whole_part(view, path)


def _write(copy: Copy, content: bytes) -> None:
    """Writes behind a copy's end."""
    write_all(partial(os.write, copy.file), content, str(copy.path))
