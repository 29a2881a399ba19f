#!/usr/bin/env python3
"""Reads a server's log files file by file, on the workers of dask.distributed, and writes what one `binlogfeed read` writes.

    read.py [--workers N | --scheduler ADDRESS] [--parts FOLDER] [--program PATH] LOGS [-- OPTIONS OF READ]

LOGS is the server's index file, the folder that has one, or a pattern in quotes. Without --scheduler the workers are N processes
of this machine. With it they are those of a cluster, to whose machines the logs, the program and FOLDER are known under the
same paths.

This rests on one fact: a transaction or a statement never crosses files. So the changes of a list of files are those of its
files, one after the other, up to the first fault, where each is read with an empty file of the next one's name behind it. That is
a proved law (`files_are_read_apart`, docs/GUARANTEES.md). That this script joins the lines so is only tested: by their bytes.
"""
from __future__ import annotations

import argparse
import contextlib
import shutil
import subprocess
import sys
import tempfile
from collections.abc import Iterator, Sequence
from pathlib import Path
from typing import IO, NamedTuple, Optional

sys.path.insert(0, str(Path(__file__).resolve().parents[2] / "python"))

from binlogfeed import BinlogfeedError, ProgramMissing, listed  # noqa: E402


class Piece(NamedTuple):
    """What the reading of one file came to: the file with its lines, the exit status, and the line on standard error."""

    lines: str
    status: int
    said: bytes


def read_alone(log: str, following: Optional[str], program: str, options: Sequence[str], parts: Optional[str]) -> tuple[str, int, bytes]:
    """Reads one log, on a worker. A ROTATE in it has to name the following log, so an empty file of that name stands behind it.

    The lines go to a new file, so a reading that is begun again, where a worker was lost, disturbs none that still writes.
    """
    with tempfile.TemporaryDirectory() as folder:
        files = [log]
        if following is not None:
            empty = Path(folder, following)
            empty.touch()
            files.append(str(empty))
        with tempfile.NamedTemporaryFile(dir=parts, prefix=f"{Path(log).name}-", suffix=".jsonl", delete=False) as lines:
            words = [program, "read", *options, *files]
            ended = subprocess.run(words, stdin=subprocess.DEVNULL, stdout=lines, stderr=subprocess.PIPE, check=False)
    return lines.name, ended.returncode, ended.stderr


def join(pieces: Iterator[Piece], out: IO[bytes]) -> Optional[Piece]:
    """Writes the lines of the files in their order, up to the first that ended with a fault. That one is answered."""
    for piece in pieces:
        with open(piece.lines, "rb") as lines:
            shutil.copyfileobj(lines, out)
        Path(piece.lines).unlink()
        if piece.status != 0:
            return piece
    return None


def twice(logs: Sequence[Path]) -> Optional[str]:
    """The first name that comes again, if one does: such a list is refused as a whole."""
    names = [log.name for log in logs]
    return next((name for at, name in enumerate(names) if name in names[:at]), None)


@contextlib.contextmanager
def cluster(workers: int, scheduler: Optional[str]) -> Iterator:
    """A client of the cluster that was named, or of one on this machine."""
    from dask.distributed import Client, LocalCluster

    if scheduler:
        with Client(scheduler) as client:
            yield client
    else:
        with LocalCluster(n_workers=workers, threads_per_worker=1, dashboard_address=None) as local, Client(local) as client:
            yield client


def read(logs: Sequence[Path], given: argparse.Namespace, out: IO[bytes]) -> int:
    """Reads the logs, and answers the exit status."""
    name = twice(logs)
    if name is not None:
        print(f"binlogfeed: duplicate file {name}", file=sys.stderr)
        return 2
    following: list[Optional[str]] = [log.name for log in logs[1:]] + [None]
    with tempfile.TemporaryDirectory(dir=given.parts) as parts, cluster(given.workers, given.scheduler) as client:
        same = {"program": given.program, "options": given.options, "parts": parts, "pure": False}
        readings = client.map(read_alone, [str(log.absolute()) for log in logs], following, **same)
        stopped = join((Piece(*reading.result()) for reading in readings), out)
        client.cancel(readings)
    if stopped is None:
        return 0
    sys.stderr.buffer.write(stopped.said)
    return stopped.status


def given_words() -> argparse.Namespace:
    """Reads the command line."""
    parser = argparse.ArgumentParser(description=__doc__, formatter_class=argparse.RawDescriptionHelpFormatter)
    parser.add_argument("logs", help="where the logs are")
    parser.add_argument("options", nargs="*", metavar="OPTIONS OF READ", help="filters such as --only-tables, behind --")
    parser.add_argument("--workers", type=int, default=2, metavar="N", help="how many processes of this machine (2)")
    parser.add_argument("--scheduler", metavar="ADDRESS", help="the scheduler of a cluster")
    parser.add_argument("--parts", metavar="FOLDER", help="where the lines of single files lie meanwhile")
    parser.add_argument("--program", default="binlogfeed", metavar="PATH", help="the program (binlogfeed)")
    given = parser.parse_args()
    if any(word.split("=")[0] == "--from" for word in given.options):
        parser.error("--from isn't taken: a token is judged by binlogfeed read")
    if given.scheduler and not given.parts:
        parser.error("--scheduler wants --parts, a folder that its workers and this process share")
    return given


def absolute(program: str, is_local: bool) -> str:
    """The program's path, since a worker may be in another folder. That of other machines isn't looked for here."""
    found = shutil.which(program) or (None if is_local else program)
    if found is None:
        raise ProgramMissing(f"binlogfeed: the program can't be started: there is no {program}")
    return str(Path(found).absolute()) if "/" in found else found


def main() -> int:
    """Runs once. The answer is the exit status."""
    given = given_words()
    try:
        given.program = absolute(given.program, is_local=not given.scheduler)
        logs = listed(given.logs)
    except BinlogfeedError as error:
        print(error.line, file=sys.stderr)
        return error.status
    status = read(logs, given, sys.stdout.buffer) if logs else 0
    sys.stdout.flush()
    return status


if __name__ == "__main__":
    sys.exit(main())
