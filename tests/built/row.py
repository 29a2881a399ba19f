"""A row: the bytes of files, words for the program, and what it has to write for them, byte for byte."""
from __future__ import annotations

from typing import NamedTuple

from built.check import Wanted

# What isn't built yet. The rows that need one of these are set aside; whoever builds it takes its word off.
NOT_BUILT: tuple[str, ...] = ()


class Row(NamedTuple):
    """A line of rows.jsonl: `files` from name to bytes. A text of None isn't fixed."""

    name: str
    files: dict[str, bytes]
    words: list[str]
    stdout: str | None
    stderr: str | None
    status: int

    def needs(self) -> str | None:
        """The word that isn't built, where it has one: the subcommand stands first, an option anywhere."""
        asked = self.words[:1] + [word for word in self.words if word.startswith("--")]
        return next((word for word in NOT_BUILT if word in asked), None)

    def wanted(self) -> Wanted:
        """How a run over it has to come out: at status 0 nothing stands on standard error."""
        stdout = None if self.stdout is None else self.stdout.encode()
        if self.stderr is not None:
            return Wanted(self.status, stdout, f"{self.stderr}\n".encode())
        return Wanted(self.status, stdout, b"" if self.status == 0 else None)

    def cut_to(self, length: int, ends: list[int]) -> "Row":
        """The row with its one file cut to so many bytes, where `*` in its name is their number.

        `ends` has for each line the end of its transaction: a line is wanted where that isn't cut off.
        """
        [(name, content)] = self.files.items()
        lines = (self.stdout or "").splitlines(keepends=True)
        if length > len(content) or len(lines) != len(ends):
            raise ValueError(f"row '{self.name}' has {len(content)} bytes, {len(lines)} lines and {len(ends)} ends of lines")
        whole = "".join(line for line, end in zip(lines, ends) if end <= length)
        return self._replace(name=self.name.replace("*", str(length)), files={name: content[:length]}, stdout=whole)
