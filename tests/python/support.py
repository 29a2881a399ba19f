"""What the Python tests share: the program, logs, and programs that stand in for it."""
import contextlib
import json
import os
import re
import shutil
import subprocess
import tempfile
import threading
import time
import unittest
from pathlib import Path
from unittest import mock

from binlogfeed.watch import Watch

TOP = Path(__file__).resolve().parents[2]
PROGRAM = os.environ.get("BINLOGFEED_PROGRAM") or str(TOP / "crates/program/out/program")
SHOP = sorted((TOP / "examples/shop").glob("binlog.*"))
BANK = sorted((TOP / "tests/bank").glob("binlog.*"))
# What a command says of where it begins.
BEGINS = re.compile(r"(?:binlogfeed|replica): (?:begins|goes on) [^\n]*\n")
# What takes longer than so many seconds hangs.
SECONDS = 60
# A command, and the replica, that look longer for an index which is away: on a machine that stands still meanwhile a second is short.
PATIENT = f"from binlogfeed import watch; watch.PATIENCE = {SECONDS}"
PATIENT_COMMAND = f"{PATIENT}; import sys; from binlogfeed import __main__ as main; sys.exit(main.main())"


def bank_rows():
    """The bank's tables at the end, as its server told them."""
    rows = {"account": [], "journal": []}
    for line in (TOP / "tests/bank/state.jsonl").read_text(encoding="utf-8").splitlines():
        told = json.loads(line)
        rows[told["table"]].append(told["row"])
    return rows


def without_beginning(said):
    """What a command said, a text or bytes, without the line that says where it began. There is one at most."""
    text = said if isinstance(said, str) else said.decode("utf-8", "surrogateescape")
    rest, count = BEGINS.subn("", text)
    if count > 1:
        raise AssertionError(f"it says more than once where it begins: {text}")
    return rest if isinstance(said, str) else rest.encode("utf-8", "surrogateescape")


def without_hints(said):
    """What a command said, a text or bytes, without the hints below an error's line."""
    hint = "hint: " if isinstance(said, str) else b"hint: "
    return said[:0].join(line for line in said.splitlines(keepends=True) if not line.startswith(hint))


def told(process, **options):
    """What a command prints until it ends, and what it says but for where it began."""
    out, said = process.communicate(**options)
    return out, without_beginning(said)


@contextlib.contextmanager
def running(command, **options):
    """A process that doesn't outlive a test that fails."""
    with subprocess.Popen(command, **options) as process:
        late = threading.Timer(SECONDS, process.kill)
        late.start()
        try:
            yield process
        except BaseException:
            process.kill()
            raise
        finally:
            late.cancel()


class FolderTest(unittest.TestCase):
    """A test with a folder of its own."""

    def setUp(self) -> None:
        """Makes the folder."""
        self.folder = Path(tempfile.mkdtemp(prefix="binlogfeed-"))
        self.addCleanup(shutil.rmtree, self.folder, ignore_errors=True)

    def put(self, name: str, content: bytes) -> Path:
        """Writes a file of the folder. Whoever reads it meanwhile finds it as it was before, or whole."""
        path = self.folder / name
        written = path.with_name(f".{path.name}.new")
        written.write_bytes(content)
        return written.replace(path)

    def write_on(self, name: str, content: bytes) -> Path:
        """Gives a log another content as its writer does, in its place: a longer one is written on, and a copy that is made anew is cut.

        Another log takes its name.
        """
        path = self.folder / name
        before = path.read_bytes() if path.exists() else None
        if before is None or not content[: len(before)] == before[: len(content)]:
            return self.put(name, content)
        if len(content) < len(before):
            os.truncate(path, len(content))
        else:
            with open(path, "ab") as log:
                log.write(content[len(before) :])
        return path

    def soon(self, holds, message="it doesn't come"):
        """Waits until something holds."""
        until = time.monotonic() + SECONDS / 2
        while not holds():
            self.assertLess(time.monotonic(), until, message)
            time.sleep(0.01)

    def once_it_waits(self, action, *words):
        """Has something done soon after a reader of this process has looked for the first time, and waits for more."""
        late, wait = threading.Timer(0.1, action, words), Watch.wait

        def waits(watch, *more):
            """Waits, and the first time has it done."""
            if late.ident is None:
                late.start()
            return wait(watch, *more)

        return mock.patch.object(Watch, "wait", waits)

    def in_time(self, end, seconds=SECONDS):
        """Has something ended where the test takes too long."""
        late = threading.Timer(seconds, end)
        late.daemon = True
        late.start()
        self.addCleanup(late.cancel)

    def stub(self, script: str) -> str:
        """A program of some lines of shell, in place of the real one."""
        path = self.put("stub", f"#!/bin/sh\n{script}\n".encode())
        path.chmod(0o700)
        return str(path)
