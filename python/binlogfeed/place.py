"""A place in a server's logs that a reader has come to: what is kept between runs."""
from __future__ import annotations

import json
from collections.abc import Callable, Sequence
from dataclasses import asdict, astuple, dataclass, replace
from pathlib import Path
from typing import Optional

from binlogfeed.tokens import token_parts
from binlogfeed.faults import BinlogfeedError, LogsGone
from binlogfeed.logs import Log, beginning, check_without_gap


@dataclass(frozen=True)
class Place:
    """All changes of the logs before `file` were taken, and those of `file` up to `token`.

    The token alone wouldn't do: where it is of an earlier file, that may be purged, though nothing is lost. A new place is
    before all changes.
    """

    file: Optional[str] = None
    # The digest of the file's first event, where that was whole.
    begins: Optional[str] = None
    # The token of the last change that was taken, be it of this file or of an earlier one.
    token: Optional[str] = None

    @property
    def resume(self) -> str | None:
        """The token to go on behind, over the files that `rest` gives; None where they are read from their beginning."""
        return self.token if self.token and token_parts(self.token).file == self.file else None

    def rest(self, paths: Sequence[Path], begins: Callable[[Path], Optional[str]] = beginning) -> list[Log]:
        """The logs that are still to be read, of those that are there. Raises `LogsGone` where some of them aren't there.

        `begins` answers the digest of a log's first event, for who has it already.
        """
        rest = list(paths)
        if self.file is not None:
            while rest and rest[0].name != self.file:
                del rest[0]
            if not rest:
                left = f"the first that is left is {paths[0].name}" if paths else "none is left"
                raise LogsGone(f"binlogfeed: {self.file} is gone, and wasn't read to its end: {left}")
        check_without_gap(rest)
        logs = [Log(path, begins(path)) for path in rest]
        self.check(logs)
        return logs

    def check(self, logs: Sequence[Log]) -> None:
        """Raises `LogsGone` where the first of these logs has the name of this place's file, and is another.

        The last log may be a copy that is made anew, whose first event isn't whole yet.
        """
        if self.begins and logs and logs[0].name == self.file:
            begins = logs[0].begins
            if begins != self.begins and (begins is not None or len(logs) > 1):
                raise LogsGone(f"binlogfeed: {self.file} is gone: another log has its name")

    def behind(self, token: str, logs: Sequence[Log]) -> Place:
        """The place behind a change of these logs. All changes before it were taken."""
        file = token_parts(token).file
        found = [log.begins for log in logs if log.name == file]
        if file == self.file and (self.begins or not found):
            return replace(self, token=token)
        (begins,) = found
        return Place(file, begins, token)

    def at_end(self, logs: Sequence[Log]) -> Place:
        """The place behind all changes of these logs. The last of them may grow."""
        return Place(logs[-1].name, logs[-1].begins, self.token) if logs else self

    def to_text(self) -> str:
        """The place as a line of JSON."""
        return json.dumps(asdict(self))

    @classmethod
    def from_text(cls, text: str) -> Place:
        """The place that `to_text` wrote. One by hand, `{"token": ".."}`, will do."""
        try:
            parts = json.loads(text)
            if parts == asdict(cls()):
                return cls()
            token = parts.get("token")
            file_of_token = token_parts(token).file if token else None
            place = cls(parts.get("file") or file_of_token, parts.get("begins"), token)
            if not place.file or not all(it is None or isinstance(it, str) for it in astuple(place)):
                raise ValueError("no file, or something else than a text")
        except (ValueError, AttributeError, TypeError) as error:
            raise BinlogfeedError(f"binlogfeed: this is no kept place: {text[:200]!r}", 3) from error
        return place
