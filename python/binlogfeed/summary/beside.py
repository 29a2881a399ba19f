"""Work that other processes do meanwhile. Within one process Python does one thing at a time."""
from __future__ import annotations

import contextlib
import fcntl
import os
import pickle
import signal
import struct
import threading
import time
from collections.abc import Callable, Collection, Sequence
from typing import Any, BinaryIO, Generic, NoReturn, TypeVar

from binlogfeed.faults import BinlogfeedError, ProgramFailed

Result = TypeVar("Result")
# What stands before a block: its length, and a number.
BEFORE = struct.Struct("=QQ")
# A pipe has room for a block, so that who gives it needn't wait until it is taken.
PIPE = 1 << 20
# How often a process looks whether the one that started it is still there.
SECONDS = 0.1


class Beside(Generic[Result]):
    """A function that another process carries out. What it answers has to be something that pickle takes."""

    def __init__(self, work: Callable[[], Result]) -> None:
        """Begins the work. No other thread may run yet."""
        reading, writing = os.pipe()
        self._process = _forked(lambda: _answer(work, writing))
        os.close(writing)
        self._told = open(reading, "rb")

    def result(self) -> Result:
        """What the function answers."""
        told = self._told.read()
        if not told:
            raise _ended_early()
        result: Result = pickle.loads(told)
        return result

    def end(self) -> None:
        """Ends the work, if it still goes on."""
        if not self._told.closed:
            self._told.close()
            _end(self._process)


class Worker(Generic[Result]):
    """A process that carries out a function on one block after the other, each with a number."""

    def __init__(self, work: Callable[[bytes, int], Result], others: Sequence[Worker[Any]] = ()) -> None:
        """Starts the process. `others` has the workers that were started before. No other thread may run yet."""
        asked, asking = os.pipe()
        telling, told = os.pipe()
        with contextlib.suppress(AttributeError, OSError):
            fcntl.fcntl(asking, fcntl.F_SETPIPE_SZ, PIPE)

        def serve() -> None:
            # A pipe ends once all who could write to it have closed it.
            for pipe in (asking, telling, *(number for other in others for number in other.pipes)):
                os.close(pipe)
            with open(asked, "rb") as blocks, open(told, "wb") as answers:
                _serve(work, blocks, answers)

        self._process = _forked(serve)
        os.close(asked)
        os.close(told)
        self._asking = open(asking, "wb", buffering=0)
        self._telling = open(telling, "rb")

    @property
    def pipes(self) -> tuple[int, int]:
        """The ends of its pipes that its user holds."""
        return self._asking.fileno(), self._telling.fileno()

    def ask(self, block: bytes, number: int) -> None:
        """Gives a block. The answer to the one before has to be taken."""
        try:
            self._asking.write(BEFORE.pack(len(block), number))
            left = memoryview(block)
            while left:
                left = left[self._asking.write(left) :]
        except BrokenPipeError as error:
            raise _ended_early() from error

    def answer(self) -> Result:
        """What the function answers for the block. Raises what it raises."""
        try:
            answer = pickle.load(self._telling)
        except EOFError as error:
            raise _ended_early() from error
        if isinstance(answer, BinlogfeedError):
            raise answer
        result: Result = answer
        return result

    def end(self) -> None:
        """Ends the process."""
        if not self._asking.closed:
            self._asking.close()
            self._telling.close()
            _end(self._process)


def _forked(work: Callable[[], None]) -> int:
    """A new process that does some work. It ends without writing what this one still has in its buffers."""
    parent = os.getpid()
    # An interrupt within the fork would be told as an exception that is ignored, and the new process would go on.
    mask = signal.pthread_sigmask(signal.SIG_BLOCK, [signal.SIGINT])
    try:
        process = os.fork()
        if not process:
            _do(work, parent, mask)
    finally:
        signal.pthread_sigmask(signal.SIG_SETMASK, mask)
    return process


def _do(work: Callable[[], None], parent: int, mask: Collection[int]) -> NoReturn:
    """Does the work under this mask of signals, and ends the process."""
    status = 1
    try:
        # Within this, so that no interrupt goes on into what the other process was about to do.
        signal.pthread_sigmask(signal.SIG_SETMASK, mask)
        threading.Thread(target=_end_with, args=(parent,), daemon=True).start()
        work()
        status = 0
    finally:
        os._exit(status)


def _end_with(parent: int) -> None:
    """Ends this process once the one that started it is gone. Nobody takes an answer then."""
    while os.getppid() == parent:
        time.sleep(SECONDS)
    os._exit(1)


def _end(process: int) -> None:
    """Ends a process."""
    os.kill(process, signal.SIGKILL)
    os.waitpid(process, 0)


def _answer(work: Callable[[], Result], writing: int) -> None:
    """Does the work, and tells what it answers."""
    told = pickle.dumps(work())
    with open(writing, "wb") as out:
        out.write(told)


def _serve(work: Callable[[bytes, int], Result], asked: BinaryIO, told: BinaryIO) -> None:
    """Answers for each block."""
    while before := asked.read(BEFORE.size):
        length, number = BEFORE.unpack(before)
        answer: object
        try:
            answer = work(asked.read(length), number)
        except BinlogfeedError as error:
            answer = error
        pickle.dump(answer, told)
        told.flush()


def _ended_early() -> ProgramFailed:
    """The error where a process ended before it answered."""
    return ProgramFailed("binlogfeed: a process of the summary ended early")
