"""A run of the program with refuse_request.c preloaded, which counts its requests for memory and may refuse one."""
import atexit
import os
import subprocess
import tempfile
from functools import cache
from pathlib import Path
from typing import NamedTuple

from built.check import SECONDS, Outcome, command

SOURCE = Path(__file__).resolve().parent / "refuse_request.c"


class Memory(NamedTuple):
    """How a run used memory: its requests, the most bytes that it held at once, and the most KiB that were resident."""

    requests: int = 0
    most_bytes: int = 0
    most_resident: int = 0


class Run(NamedTuple):
    """How a run came out, and how it used memory. Where a signal ended it, nothing is known of that."""

    outcome: Outcome
    memory: Memory


@cache
def library() -> Path:
    """Builds what is preloaded. It goes when all checks have ended."""
    folder = tempfile.TemporaryDirectory(prefix="binlogfeed-")
    atexit.register(folder.cleanup)
    built = Path(folder.name) / "refuse_request.so"
    subprocess.run(["cc", "-O1", "-shared", "-fPIC", "-o", built, SOURCE], check=True)
    return built


def run_preloaded(program: Path, words: list[str], folder: Path, refused: int = 0, text: bytes = b"") -> Run:
    """Runs a program with a text as its input. The request of that number, from 1, is refused."""
    with tempfile.NamedTemporaryFile(prefix="requests-") as counts:
        environment = {**os.environ, "LD_PRELOAD": str(library()), "REFUSED_REQUEST": str(refused), "REQUESTS": counts.name}
        ended = subprocess.run(
            command(words), executable=program, cwd=folder, input=text, capture_output=True, timeout=SECONDS, check=False,
            env=environment,
        )  # fmt: skip
        used = Memory(*map(int, Path(counts.name).read_text().split()))
        return Run(Outcome(ended.returncode, ended.stdout, ended.stderr), used)
