"""A check of the built program, one run of it, and how what came differs from what was wanted."""
from __future__ import annotations

import subprocess
from collections.abc import Callable
from pathlib import Path
from typing import IO, NamedTuple

# No run of these takes longer than a second or two: a program that runs for so many seconds hangs.
SECONDS = 60

# How many bytes of a long text a reason shows.
SHOWN = 160


class Check(NamedTuple):
    """A name, and what judges a program in an empty folder: it answers the reasons why the program is wrong."""

    name: str
    judge: Callable[[Path, Path], list[str]]


class Outcome(NamedTuple):
    """How a run came out. A status below 0 is the signal that ended it; None stands for a program that hung."""

    status: int | None
    stdout: bytes
    stderr: bytes


class Wanted(NamedTuple):
    """How a run has to come out. None stands for a text that isn't fixed."""

    status: int
    stdout: bytes | None = b""
    stderr: bytes | None = b""


def said(text: str) -> bytes:
    """The line on standard error that says this."""
    return f"binlogfeed: {text}\n".encode()


def command(words: list[str | bytes]) -> list[str | bytes]:
    """A command line whose first word is the program's name, wherever the program lies."""
    return ["binlogfeed", *words]


def run(
    program: Path, words: list[str | bytes], folder: Path, stdout: int | IO[bytes] = subprocess.PIPE, text: bytes | None = None
) -> Outcome:
    """Runs a program in a folder, with a text as its input."""
    try:
        ended = subprocess.run(
            command(words),
            executable=program,
            cwd=folder,
            stdin=subprocess.DEVNULL if text is None else None,
            input=text,
            stdout=stdout,
            stderr=subprocess.PIPE,
            timeout=SECONDS,
            check=False,
        )
    except subprocess.TimeoutExpired as stopped:
        return Outcome(None, stopped.stdout or b"", stopped.stderr or b"")
    return Outcome(ended.returncode, ended.stdout or b"", ended.stderr)


def shown(text: bytes, at: int) -> str:
    """The part of a text that begins shortly before an offset."""
    start = max(0, at - SHOWN // 4)
    part = text[start : start + SHOWN]
    return f"{'..' if start else ''}{part!r}{'..' if start + SHOWN < len(text) else ''}"


def text_differs(what: str, came: bytes, wanted: bytes) -> list[str]:
    """Says where a text differs from the one that was wanted."""
    if came == wanted:
        return []
    pairs = enumerate(zip(came, wanted))
    at = next((at for at, (one, other) in pairs if one != other), min(len(came), len(wanted)))
    return [f"{what}, from byte {at} of {len(came)}: {shown(came, at)}", f"wanted, of {len(wanted)} bytes: {shown(wanted, at)}"]


def differs(came: Outcome, wanted: Wanted) -> list[str]:
    """Says how a run differs from what was wanted."""
    reasons = []
    if came.status is None:
        reasons.append(f"it still ran after {SECONDS} seconds")
    elif came.status != wanted.status:
        reasons.append(f"status {came.status}, wanted {wanted.status}")
    if wanted.stdout is not None:
        reasons += text_differs("output", came.stdout, wanted.stdout)
    if wanted.stderr is not None:
        reasons += text_differs("standard error", came.stderr, wanted.stderr)
    return reasons
