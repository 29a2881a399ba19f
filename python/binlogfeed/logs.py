"""Where a server's log files are, in their order, and whether one of them is missing."""
from __future__ import annotations

import glob
import hashlib
import os
import re
from collections.abc import Sequence
from pathlib import Path
from typing import NamedTuple, Optional

from binlogfeed.faults import FileFault, LogsGone

MAGIC = b"\xfebin"
# A server's name for a log: a base name of its own, and a number, which rises by one from file to file.
NAME = re.compile(r"(.+)\.(\d{6,})", re.DOTALL)
HEADER_LENGTH = 19
LENGTH_AT, FLAGS_AT = 9, 17


class Log(NamedTuple):
    """A log, and what tells it from another under the same name."""

    path: Path
    # A digest of its first event, or None where that isn't whole yet.
    begins: Optional[str]

    @property
    def name(self) -> str:
        """The name, without its folder."""
        return self.path.name


def listed(place: str | os.PathLike[str]) -> list[Path]:
    """A server's logs, from the oldest that is left: by its index file, the folder of it, or a pattern such as `binlog.*`."""
    path = Path(place)
    if is_folder(path):
        return _of_index(_index_of(path))
    return _of_pattern(str(place)) if is_pattern(place) else _of_index(path)


def is_pattern(place: str | os.PathLike[str]) -> bool:
    """Whether a place of logs is a pattern, and neither an index nor a folder."""
    return glob.has_magic(str(place)) and not os.path.exists(place)


def none_of(place: str | os.PathLike[str]) -> str:
    """What is said of a place of logs that has none."""
    return f"no log matches {place}" if is_pattern(place) else f"there is no log in {place}"


def is_folder(place: str | os.PathLike[str]) -> bool:
    """Whether a path is a folder. One that can't be looked at is none here: listing it says why."""
    return os.path.isdir(place)


def is_place_of_logs(place: str | os.PathLike[str], may_come: bool) -> bool:
    """Whether a path is where a server's logs are, and no log itself. Where logs may still come, so may an index."""
    return is_folder(place) or is_pattern(place) or Path(place).suffix == ".index" or (may_come and not is_log(place))


def is_log(place: str | os.PathLike[str]) -> bool:
    """Whether a place is a log itself: by its name, or by what it begins with."""
    path = Path(place)
    if is_folder(path):
        return False
    if NAME.fullmatch(path.name):
        return not is_pattern(place)
    try:
        with open(path, "rb") as file:
            return file.read(len(MAGIC)) == MAGIC
    except OSError:
        return False


def _index_of(folder: Path) -> Path:
    """The index file of a folder."""
    found = sorted(folder / name for name in _names_in(folder) if name.endswith(".index"))
    if len(found) != 1:
        names = f"more than one index file ({', '.join(path.name for path in found)})" if found else "no index file"
        raise FileFault(f"binlogfeed: {folder} has {names}: give the index itself, or a pattern of the logs")
    return found[0]


def _names_in(folder: str | os.PathLike[str]) -> list[str]:
    """The names in a folder."""
    try:
        return os.listdir(folder)
    except OSError as error:
        raise FileFault(f"binlogfeed: can't list {os.fspath(folder)}: {error.strerror}") from error


def _of_index(index: Path) -> list[Path]:
    """The logs that an index file names. Names without a folder are in the index's own, as the server means them."""
    try:
        text = index.read_bytes()
    except OSError as error:
        raise FileFault(f"binlogfeed: cannot open {index}: {error.strerror}") from error
    if text.startswith(MAGIC):
        raise FileFault(f"binlogfeed: {index} is a log, and no index of logs")
    *lines, last = text.split(b"\n")
    # A line that the server is still writing has no line feed yet. One that a person wrote may have none, and it names a log.
    if last and NAME.fullmatch(os.fsdecode(last)) and os.path.exists(index.parent / os.fsdecode(last)):
        lines.append(last)
    return [index.parent / os.fsdecode(line) for line in lines if line]


def _of_pattern(pattern: str) -> list[Path]:
    """The logs that a pattern matches, by their numbers. Other files, such as the index, aren't among them."""
    folder = os.path.dirname(pattern)
    if not glob.has_magic(folder):
        # Else a folder that isn't there, or may not be read, would pass for one without logs.
        _names_in(folder or os.curdir)
    found = [path for path in map(Path, glob.glob(pattern)) if NAME.fullmatch(path.name)]
    return sorted(found, key=lambda path: base_and_number(path.name))


def base_and_number(name: str) -> tuple[str, int]:
    """The two parts of a log's name, by which logs are in their order."""
    parts = NAME.fullmatch(name)
    if not parts:
        raise FileFault(f"binlogfeed: {name} isn't a log's name: a number of six digits or more has to end it")
    return parts[1], int(parts[2])


def successor(name: str) -> str:
    """The name of the log behind one."""
    base, number = base_and_number(name)
    return f"{base}.{number + 1:06}"


def check_without_gap(logs: Sequence[Path]) -> None:
    """Raises `LogsGone` where a log is missing between two. The program sees that only where a ROTATE names the missing one."""
    for path, following in zip(logs, logs[1:]):
        wanted = successor(path.name)
        if base_and_number(following.name) != base_and_number(wanted):
            raise LogsGone(f"binlogfeed: {wanted} is gone: it should stand between {path.name} and {following.name}")


def beginning(path: Path) -> str | None:
    """A digest of a log's first event, which has the server and the time; None where that isn't whole yet.

    Another log under the same name, as RESET MASTER makes it, has another.
    """
    try:
        with open(path, "rb") as log:
            front = bytearray(log.read(len(MAGIC) + HEADER_LENGTH))
            header = front[len(MAGIC) :]
            length = int.from_bytes(header[LENGTH_AT : LENGTH_AT + 4], "little")
            body = log.read(max(0, min(length, 1 << 16) - HEADER_LENGTH))
    except OSError as error:
        raise FileFault(f"binlogfeed: cannot open {path}").hinted(error.strerror) from error
    if len(header) < HEADER_LENGTH or len(body) < length - HEADER_LENGTH:
        return None
    # A flag says that the server has the log open. It is cleared later.
    header[FLAGS_AT : FLAGS_AT + 2] = b"\0\0"
    return hashlib.sha256(bytes(header) + body).hexdigest()
