"""Each request for memory refused in turn, by refuse_request.c, which is preloaded: in runs of the program, and in stories by an index."""
import re
from functools import partial
from pathlib import Path

from built.check import Check, Wanted, differs, said
from built.preloaded import run_preloaded
from logs import SMALL, put, worked_log

OUT_OF_MEMORY = said("out of memory")
# How key_story tells of a refusal.
NO_MEMORY = re.compile(rb"Error: .*OutOfMemory.*\n")


def last_token(lines: bytes) -> str:
    """The token of the last line."""
    return lines.rsplit(b'"token":"', maxsplit=1)[1].split(b'"', maxsplit=1)[0].decode()


def judge_words(words: list[str], goes_on: bool, log: bytes, text: bytes, program: Path, folder: Path) -> list[str]:
    """A run over a log, with a text as its input, ends out of memory behind a beginning of its lines. Begun anew behind the last one, it
    gives the others.

    A growth that is refused is asked for once more, so a few refusals leave the run as it is.
    """
    put(folder, ["log", "next"], log)
    whole, (requests, *_) = run_preloaded(program, words, folder, text=text)
    if whole.status != 0:
        return [f"status {whole.status}, where none of {requests} is refused"]
    ended = 0
    for refused in range(1, requests + 1):
        came = run_preloaded(program, words, folder, refused, text).outcome
        if came == whole:
            continue
        ended += 1
        reasons = differs(came, Wanted(5, None, OUT_OF_MEMORY))
        if not whole.stdout.startswith(came.stdout) or came.stdout[-1:] not in (b"", b"\n"):
            reasons.append("its lines are no beginning")
        elif goes_on and came.stdout:
            rest = run_preloaded(program, [words[0], "--from", last_token(came.stdout), *words[1:]], folder).outcome
            reasons += differs(rest, Wanted(0, whole.stdout[len(came.stdout) :]))
        if reasons:
            return [f"request {refused} of {requests}", *reasons]
    return [] if ended > requests // 2 else [f"{ended} of {requests} refusals ended the run"]


def judge_index(program: Path, folder: Path) -> list[str]:
    """A story by an index is told whole, or as a beginning of it behind which the program says that there was no memory."""
    put(folder, ["log"], worked_log(3))
    words = ["s", "t", "[1]", "log"]
    whole, (requests, *_) = run_preloaded(program, words, folder)
    if whole.status != 0 or not whole.stdout:
        return [f"status {whole.status}, where none of {requests} is refused"]
    told = 0
    for refused in range(1, requests + 1):
        came = run_preloaded(program, words, folder, refused).outcome
        if came == whole:
            continue
        told += 1
        if came.status != 1 or not NO_MEMORY.fullmatch(came.stderr) or not whole.stdout.startswith(came.stdout):
            return [f"request {refused} of {requests}", *differs(came, Wanted(1, None, None)), f"said: {came.stderr!r}"]
    return [] if told > requests // 2 else [f"{told} of {requests} refusals were told of"]


# Logs with names of columns, without, and without but with a key.
NAMED, NUMBERED, NUMBERED_KEY = worked_log(3), SMALL.bytes_of("Numbered"), SMALL.bytes_of("No-names")
# Runs of the program: their words, whether they can go on behind a line's token, and the log.
RUNS = (
    (["read", "log"], True, NAMED),
    (["read", "--only-tables", "t", "--auto-position", "3e11fa47-71ca-11e1-9e33-c80aa9429562:1", "log"], True, NAMED),
    (["read", "--full", "log"], True, NAMED),
    (["transactions", "log"], False, NAMED),
    (["history", "--schema", "s", "--table", "t", "--key", "[1]", "log"], False, NAMED),
    (["history", "--full", "--schema", "s", "--table", "t", "--key", "[1]", "log"], False, NAMED),
    (["read", "--profile", "server", "log"], True, NUMBERED),
    (["read", "--full", "--profile", "server", "log"], True, NUMBERED),
    (["history", "--full", "--profile", "server", "--schema", "s", "--table", "t", "--key", "[1]", "log"], False, NUMBERED_KEY),
)
# Runs that follow the log, with their inputs: the path of one takes 4 KB, and one keeps the name of a log that is gone.
FOLLOWED = (
    (["read", "--follow"], b"\nlog\n\n\n"),
    (["read", "--follow", "log"], b"\n" + b"./" * 2_000 + b"log\n\n\n"),
    (["read", "--follow", "log", "next"], b"next\n\n\n"),
)


def checks() -> list[Check]:
    """The checks of the program."""
    runs = [*((*run, b"") for run in RUNS), *((words, False, NAMED, text) for words, text in FOLLOWED)]
    return [
        Check(f"{' '.join(words)}, each request for memory refused in turn", partial(judge_words, words, goes_on, log, text))
        for words, goes_on, log, text in runs
    ]


def index_checks() -> list[Check]:
    """The check of a program that tells the stories of keys by an index."""
    return [Check("an index, each request for memory refused in turn", judge_index)]
