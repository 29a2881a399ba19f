"""What the examples' tests share: processes that are killed at random moments, over a bank's logs that grow meanwhile."""
import functools
import importlib.util
import os
import random
import shutil
import signal
import sys
import tempfile
import time
from pathlib import Path

from binlogfeed import BinLogStreamReader
from support import BANK, PROGRAM, TOP

# How long a test of kills may take at most.
SECONDS = 300
# In so many pieces the logs come. In the time that a process needs to begin some forty of them come.
PIECES = 400


def loaded(path):
    """A module by its path below the examples."""
    spec = importlib.util.spec_from_file_location(Path(path).stem, TOP / "examples" / path)
    module = importlib.util.module_from_spec(spec)
    spec.loader.exec_module(module)
    return module


class Countdown:
    """Kills its own process behind so many lines of a file, as a function for `sys.settrace`."""

    def __init__(self, file, lines):
        """Counts down from so many."""
        self.file, self.left = file, lines

    def __call__(self, frame, event, argument):
        """Counts a line."""
        if frame.f_code.co_filename != self.file:
            return None
        if event == "line":
            self.left -= 1
            if not self.left:
                os.kill(os.getpid(), signal.SIGKILL)
        return self


class Killed:
    """Runs an example until it has been killed so often amid its work, from no logs to all of the bank's, again and again.

    `main` is the example's function, and `words` what it is given for the name of a new target. `judged` gets that name at the end of
    each way through the logs, and answers what is wrong.
    """

    def __init__(self, main, words, judged, count):
        """Puts the program on PATH, where the example looks for it."""
        self.main, self.words, self.judged, self.count = main, words, judged, count
        self.chance = random.Random(f"{main.__module__} {count}")
        self.folder = Path(tempfile.mkdtemp(prefix="binlogfeed-"))
        (self.folder / "bin").mkdir()
        (self.folder / "bin/binlogfeed").symlink_to(PROGRAM)
        self.killed = self.ways = 0
        # Some number of lines that a process comes to.
        self.lines = 200.0
        # An example looks for more ten times a second, and would be idle most of the time.
        main.__globals__["BinLogStreamReader"] = functools.partial(BinLogStreamReader, interval=0.001)

    def close(self):
        """Takes the folder away."""
        shutil.rmtree(self.folder, ignore_errors=True)

    def run(self):
        """Kills it so often, and answers what was wrong, if anything was."""
        until = time.monotonic() + SECONDS
        while self.killed < self.count:
            if time.monotonic() > until:
                return [f"only {self.killed} kills in {SECONDS} seconds"]
            self.ways += 1
            wrong = self.way(f"way{self.ways}")
            if wrong:
                return [*wrong, f"in way {self.ways}, after {self.killed} kills"]
        print(f"{self.main.__module__}: {self.killed} kills, {self.ways} times to the end", flush=True)
        return []

    def way(self, target):
        """One way through the logs. Answers what is wrong at its end."""
        logs = self.folder / target
        logs.mkdir()
        words = [*self.words(target), f"{logs}/binlog.0*"]
        pieces = self.pieces()
        grow(logs, next(pieces))
        began = time.monotonic()
        wrong = self.ended(self.forked(words)) or self.ended(self.forked(words))
        # How long a process needs that has nothing to do. From then on it works while the logs grow.
        seconds = (time.monotonic() - began) / 2
        while not wrong and self.grown(logs, pieces):
            # Some are killed by the time, and the others at a line of the example, as soon as they come to it.
            lines = self.chance.randint(1, int(self.lines)) if self.chance.random() < 0.8 else 0
            process = self.forked([*words, "--follow"], lines)
            status, until = None, time.monotonic() + (60 if lines else self.chance.uniform(0.6, 2.5)) * seconds
            while status is None and time.monotonic() < until:
                if not self.grown(logs, pieces):
                    until = min(until, time.monotonic() + seconds)
                time.sleep(seconds / 40)
                status = self.status(process, os.WNOHANG)
            if lines:
                self.lines = max(20.0, self.lines * (0.9 if status is None else 1.1))
            if status is None:
                os.kill(process, signal.SIGKILL)
                status = self.status(process)
            wrong = [] if status == -signal.SIGKILL else self.said(status)
            self.killed += 1
        wrong = wrong or self.ended(self.forked(words)) or self.judged(target)
        shutil.rmtree(logs)
        return wrong

    def grown(self, logs, pieces):
        """Has the logs grow, and answers whether they did."""
        piece = next(pieces, [])
        grow(logs, piece)
        return bool(piece)

    def pieces(self):
        """The bank's logs in pieces, which are cut anywhere. Each is a list of names, with what comes to the log of that name."""
        contents = [(path.name, path.read_bytes()) for path in BANK]
        whole = sum(len(content) for _, content in contents)
        begin = 0
        for cut in [*sorted(self.chance.sample(range(1, whole), PIECES - 1)), whole]:
            piece, at = [], 0
            for name, content in contents:
                part = content[max(0, begin - at) : max(0, cut - at)]
                at += len(content)
                piece += [(name, part)] if part else []
            begin = cut
            yield piece

    def forked(self, words, lines=0):
        """A process of the example, which needs no time to begin: it is a copy of this one. It kills itself behind so many lines."""
        self.left, kept = os.pipe()
        process = os.fork()
        if process:
            os.close(kept)
        else:
            status = 70
            try:
                os.dup2(os.open(self.folder / "said", os.O_WRONLY | os.O_CREAT | os.O_TRUNC, 0o600), 2)
                sys.stderr = open(2, "w", closefd=False)
                os.environ["PATH"] = f"{self.folder}/bin:{os.environ['PATH']}"
                if lines:
                    sys.settrace(Countdown(self.main.__code__.co_filename, lines))
                self.main(*words)
                status = 0
            except BaseException as error:
                print(repr(error), file=sys.stderr, flush=True)
            finally:
                os._exit(status)
        return process

    def status(self, process, options=0):
        """The status with which a process has ended: below 0 the signal. It is waited for, unless the options say otherwise.

        One that was killed while it started the program leaves its files to what isn't the program yet, for some milliseconds. The end
        of a pipe tells when that is over: else the next process could find the files locked.
        """
        ended, status = os.waitpid(process, options)
        if not ended:
            return None
        os.read(self.left, 1)
        os.close(self.left)
        return os.waitstatus_to_exitcode(status)

    def ended(self, process):
        """Waits for the end of a process, and answers what is wrong with it."""
        status = self.status(process)
        return self.said(status) if status else []

    def said(self, status):
        """What a process says that ended with a status."""
        return [f"status {status}: {(self.folder / 'said').read_text()}"]


def grow(folder, piece):
    """Has logs grow by a piece."""
    for name, part in piece:
        with open(folder / name, "ab") as log:
            log.write(part)
