"""A connection to PostgreSQL through its program psql."""
from __future__ import annotations

import contextlib
import re
import subprocess
import tempfile

# psql prints this line behind what a text of statements answered.
DONE = "\x01"
# What a command says of the rows that it changed.
CHANGED = re.compile(r"(?:INSERT 0|UPDATE|DELETE|COPY) (\d+)")
# What psql says of an error of the server, with the error's code.
SAID = re.compile(r"(?:ERROR|FATAL|PANIC):  ([0-9A-Z]{5}): (.*(?:\nDETAIL: .*)?)")
# The code of PostgreSQL's error for a text that it doesn't have.
NO_TEXT = "22021"


class PsqlError(Exception):
    """psql ended. `state` is the code of the server's error; None where the server gave none."""

    def __init__(self, line: str, state: str | None) -> None:
        """An error with its line."""
        super().__init__(line)
        self.state = state


class Connection:
    """A running psql, which ends at the first error, and whose transaction the server then rolls back."""

    def __init__(self, words: str) -> None:
        """Connects."""
        # A file takes what psql says on standard error, so that it never waits for a reader.
        self._said = tempfile.TemporaryFile("w+", encoding="utf-8", errors="replace")
        settings = ("ON_ERROR_STOP=1", "VERBOSITY=verbose", "SHOW_CONTEXT=never")
        self._process = subprocess.Popen(
            ["psql", "-X", "-A", "-t", *(word for setting in settings for word in ("-v", setting)), "-d", words],
            stdin=subprocess.PIPE,
            stdout=subprocess.PIPE,
            stderr=self._said,
            encoding="utf-8",
        )
        (version,) = self._answer("\\echo :VERSION_NUM")
        # From version 15 on psql says of each statement of a request what it changed; before that, of the last one.
        self._between = "\\;\n" if int(version) >= 150000 else ";\n"

    def run(self, statements: list[str]) -> list[int]:
        """Carries out statements. Answers how many rows each has changed; -1 of one that changes none."""
        found = (CHANGED.fullmatch(line) for line in self._answer(self._between.join(statements) + ";"))
        return [int(changed[1]) if changed else -1 for changed in found]

    def copy(self, statement: str, rows: str) -> int:
        """Carries out a COPY from lines of text. Answers how many rows it has put in."""
        (line,) = self._answer(f"{statement};\n{rows}\\.")
        changed = CHANGED.fullmatch(line)
        return int(changed[1]) if changed else -1

    def query(self, statement: str) -> list[str]:
        """What a query of one column answers. No value has a line feed."""
        return self._answer(f"{statement};")

    def close(self) -> None:
        """Ends psql. A transaction that is open is rolled back."""
        self._process.kill()
        self._process.wait()
        for pipe in (self._process.stdin, self._process.stdout, self._said):
            if pipe:
                with contextlib.suppress(OSError):
                    pipe.close()

    def _answer(self, text: str) -> list[str]:
        """What psql prints for a text of statements and commands."""
        assert self._process.stdin is not None and self._process.stdout is not None
        if "\0" in text:
            # It would end the line for psql.
            raise PsqlError("PostgreSQL has no text with a zero byte", NO_TEXT)
        with contextlib.suppress(BrokenPipeError):  # it ended, which the reading tells
            self._process.stdin.write(f"{text}\n\\echo '{DONE}'\n")
            self._process.stdin.flush()
        lines: list[str] = []
        for line in self._process.stdout:
            if line == DONE + "\n":
                return lines
            lines.append(line[:-1])
        raise self._ended()

    def _ended(self) -> PsqlError:
        """Why psql has ended."""
        status = self._process.wait()
        self._said.seek(0)
        said = self._said.read().strip()
        error = SAID.search(said)
        if error:
            return PsqlError(error[2], error[1])
        line = said.rpartition("\n")[2] or f"psql has ended with status {status}"
        return PsqlError(line, None)
