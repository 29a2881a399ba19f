"""Each kind of fault: its status, its line on standard error, and the file that it names."""
import os
from functools import partial
from pathlib import Path

from built.check import Check, Wanted, differs, run, said
from logs import A, appended, change_lines, parts, put, unit_lines, worked_log

SUBCOMMANDS = ("transactions", "read")


def lines_of(subcommand: str, count: int, name: str) -> bytes:
    """What a subcommand writes for a worked log."""
    return unit_lines(count, name) if subcommand == "transactions" else change_lines(count, name)


def judge_log_fault(subcommand: str, program: Path, folder: Path) -> list[str]:
    """An event out of place in the second of three files: the lines before it stand, and the fault names it."""
    put(folder, ["logs/first", "third"], A)
    put(folder, ["logs/second"], appended(worked_log(2), parts("xid")))
    wanted = lines_of(subcommand, 1, "first") + lines_of(subcommand, 2, "second")
    came = run(program, [subcommand, "logs/first", "logs/second", "third"], folder)
    return differs(came, Wanted(1, wanted, said("log fault at second:589: OutOfPlace(16)")))


def judge_words(words: list[str], line: str, program: Path, folder: Path) -> list[str]:
    """Words that are refused, though the file is there."""
    put(folder, ["log"], A)
    return differs(run(program, words, folder), Wanted(2, b"", said(line)))


def judge_equal_names(subcommand: str, program: Path, folder: Path) -> list[str]:
    """Two files with one name, in two folders."""
    put(folder, ["one/log", "two/log"], A)
    put(folder, ["other"], A)
    came = run(program, [subcommand, "other", "one/log", "two/log"], folder)
    return differs(came, Wanted(2, b"", said("duplicate file log")))


def judge_not_opened(path: str, place: int, program: Path, folder: Path) -> list[str]:
    """A path that isn't a file of the system, at a place among others that are: it alone is named, as it was given."""
    paths = put(folder, ["first", "second"], A)
    (folder / "folder").mkdir()
    paths.insert(place, path)
    came = run(program, ["read", *paths], folder)
    return differs(came, Wanted(4, b"", said(f"cannot open {path}")))


def judge_first_not_opened(program: Path, folder: Path) -> list[str]:
    """Of two paths that can't be opened the first is named."""
    put(folder, ["log"], A)
    came = run(program, ["read", "log", "gone/first", "gone/second"], folder)
    return differs(came, Wanted(4, b"", said("cannot open gone/first")))


def judge_pipe(has_writer: bool, program: Path, folder: Path) -> list[str]:
    """A named pipe is no file, and nobody waits for its writer."""
    os.mkfifo(folder / "pipe")
    writer = os.open(folder / "pipe", os.O_RDWR) if has_writer else None
    try:
        came = run(program, ["read", "pipe"], folder)
    finally:
        if writer is not None:
            os.close(writer)
    return differs(came, Wanted(4, b"", said("cannot open pipe")))


# Words that are refused, with their line. The command line is judged before the events' names, these before the set.
REFUSED = (
    (["read"], "command line refused"),
    (["write", "log"], "command line refused"),
    (["transactions", "--only-events", "insert", "log"], "command line refused"),
    (["read", "--only-events"], "command line refused"),
    (["read", "--only-events", "insert,drop,alter", "log"], "bad --only-events: drop"),
    (["read", "--only-events", "Insert", "log"], "bad --only-events: Insert"),
    (["read", "--auto-position", "x", "--only-events", "", "log"], "bad --only-events: "),
    (["read", "--auto-position", "3e11fa47-71ca-11e1-9e33-c80aa9429562:1,x", "log"], "bad --auto-position: element 1"),
)

# Paths that the system doesn't give as a file.
NOT_OPENED = ("missing", "no/such/file", "folder", "folder/", "first/", "first/below", "", "/dev/null", "/dev/zero", "/")


def checks() -> list[Check]:
    """The checks of faults. Those of reading, writing and memory are the system's."""
    words = [Check(f"the words {' '.join(words)}", partial(judge_words, words, line)) for words, line in REFUSED]
    paths = [
        Check(f"the path '{path}' in place {place}", partial(judge_not_opened, path, place))
        for path in NOT_OPENED
        for place in range(3)
    ]
    return [
        *[Check(f"a log fault of {kind}", partial(judge_log_fault, kind)) for kind in SUBCOMMANDS],
        *[Check(f"equal names for {kind}", partial(judge_equal_names, kind)) for kind in SUBCOMMANDS],
        *words,
        *paths,
        Check("two paths that can't be opened", judge_first_not_opened),
        Check("a named pipe", partial(judge_pipe, True)),
        Check("a named pipe without a writer", partial(judge_pipe, False)),
    ]
