"""Lists of files on the input of `read --follow`: the looks that they ask for, and how a run ends, in its status and its line.

No contract says when an input can be read, a write fails or memory is there. So these runs hold what docs/USAGE.md says of them.
"""
from __future__ import annotations

import socket
import subprocess
from functools import partial
from pathlib import Path
from typing import NamedTuple

from built.check import SECONDS, Check, Outcome, Wanted, command, differs, run, said
from built.words import log_names
from logs import (
    FRONT, IGNORABLE, MAGIC, ONE_ROW, A, appended, change_line, change_lines, event, insert, parts, put, transaction, worked_log,
)  # fmt: skip

# What stands behind the lines of a look, and asks for a look at the same files.
MARK = b"\n"
UNREADABLE, WRITE_FAULT = said("cannot read the list of files"), said("write fault")

# The lines of `log`, `next` and `last`, and of what two of them gain.
LOG, NEXT, LAST = change_lines(1, "log"), change_lines(1, "next"), change_lines(1, "last")
GAIN, LAST_GAIN = change_lines(2, "log")[len(LOG) :], change_lines(2, "last")[len(LAST) :]

# A path is told as it was given, however long it is. The system takes 255 bytes in a name, and 4,095 in a path.
NAMES = ("a" * 255, "a" * 256, "a/" * 150, "a" * 5_000)
AROUND = "./" * 150 + "log"

# So many looks are many for one run, so many files for one list, and so many lines, too.
LOOKS, FILES, LINES = 3_000, 101, 1_100
# How much of an input a check's name has.
SHOWN = 40


class Case(NamedTuple):
    """A run over the files of `lay_out`: the words behind `read --follow`, its input, and what it writes until it ends so."""

    words: list[str]
    text: bytes
    lines: bytes
    status: int = 0
    line: str = ""


def lay_out(folder: Path) -> None:
    """Lays out logs. Those with one name are what a log may be at the next look: grown, with a fault, or shorter."""
    put(folder, ["log", "next", "last", "twice/log", "é/log"], A)
    put(folder, ["more/log", "more/last"], worked_log(2))
    put(folder, ["tail/log"], A + b"cut")
    put(folder, ["bad/log"], appended(A, parts("xid")))
    put(folder, ["worse/log"], appended(worked_log(2), parts("xid")))
    put(folder, ["less/log"], A[:-1])
    put(folder, ["front/log"], FRONT)
    put(folder, ["magic/log"], MAGIC)
    put(folder, ["none/log", "none/next"], b"")
    put(folder, ["other"], b"no log")
    put(folder, ["zeros/log"], A + bytes(100))
    put(folder, ["encrypted/log"], b"\xfd" + worked_log(2)[1:])
    put(folder, ["headless/log"], appended(MAGIC, insert(1), insert(2)))


# Inputs that end: so does the run, with status 0. A list without its empty line asks for no look.
ENDING = (
    Case([], b"", b""),
    Case([], b"log", b""),
    Case([], b"log\n", b""),
    Case([], b"log\nnext\n", b""),
    Case([], b"\n", MARK),
    Case([], b"\n\n\n", 3 * MARK),
    Case([], b"\n\nlog", 2 * MARK),
    Case([], b"log\n\n", LOG + MARK),
    Case([], b"\n\nlog\n\n", 2 * MARK + LOG + MARK),
    Case([], b"log\n\nlog\n\n\n", LOG + 3 * MARK),
    Case([], b"log\n\nlog\nnext\n", LOG + MARK),
    Case([], "é/log\n\n".encode(), LOG + MARK),
    Case([], AROUND.encode() + b"\n\n", LOG + MARK),
    Case(["log"], b"", LOG + MARK),
    Case(["log"], b"log", LOG + MARK),
    Case(["log"], b"log\n", LOG + MARK),
    Case(["log"], b"\n\n", LOG + 3 * MARK),
    Case(["log"], AROUND.encode() + b"\n\n", LOG + 2 * MARK),
    Case(["--from=153.1@log", "log"], b"\n", 2 * MARK),
    Case(["--from=371.0@log", "log", "next"], b"\n", NEXT + 2 * MARK),
    Case(["--from=371.0@log", "other", "log", "next"], b"", NEXT + MARK),
    Case(["--from=371.0@log", "other", "log", "next"], b"\n", NEXT + 2 * MARK),
    Case(["--only-events=delete", "log"], b"more/log\n\n", 2 * MARK),
    Case(["log"], b"more/log\n\n", LOG + MARK + GAIN + MARK),
    Case(["log"], b"log\nnext\n\n\n", LOG + MARK + NEXT + 2 * MARK),
    Case(["log"], b"next\nlog\n\n", LOG + 2 * MARK),
    Case(["log"], b"next\nmore/log\n\n", LOG + MARK + GAIN + MARK),
    Case(["log"], b"next\nlog\n\nnext\nmore/log\n\n", LOG + 2 * MARK + GAIN + MARK),
    Case(["log", "next"], b"next\n\nlog\nnext\n\n", LOG + NEXT + 3 * MARK),
    Case(["next", "log"], b"log\n\nnext\nlog\n\nnext\nmore/log\n\n", NEXT + LOG + 3 * MARK + GAIN + MARK),
    Case(["log", "next", "last"], b"log\nlast\n\nlog\nmore/last\n\n", LOG + NEXT + LAST + 2 * MARK + LAST_GAIN + MARK),
    Case(["log"], b"more/log\nnext\n\n", LOG + MARK + GAIN + NEXT + MARK),
    Case(["log", "next"], b"next\n\n", LOG + NEXT + 2 * MARK),
    Case(["log"], b"log\nnone/next\n\nnext\n\n", LOG + 2 * MARK + NEXT + MARK),
    Case(["none/log"], b"log\n\n", MARK + LOG + MARK),
    Case(["less/log"], b"log\n\n", MARK + LOG + MARK),
    Case(["tail/log"], b"log\n\n", LOG + 2 * MARK),
)

# A file that was looked at is gone from the list, or has less than was read of it: nothing more is written.
LOST = (
    Case(["log"], b"next\n\n", LOG + MARK, 3, "file gone: log"),
    Case([], b"log\n\nnext\n\nlog\n\n", LOG + MARK, 3, "file gone: log"),
    Case(["log", "next"], b"log\n\n", LOG + NEXT + MARK, 3, "file gone: next"),
    Case(["log", "next"], b"more/log\nother\n\n", LOG + NEXT + MARK, 3, "file gone: next"),
    Case(["none/log"], b"next\n\n", MARK, 3, "file gone: log"),
    Case(["log"], b"\nnext\n\n", LOG + 2 * MARK, 3, "file gone: log"),
    Case(["log"], b"less/log\n\n", LOG + MARK, 3, "file shorter: log"),
    Case(["log"], b"front/log\n\n", LOG + MARK, 3, "file shorter: log"),
    Case(["log"], b"magic/log\n\n", LOG + MARK, 3, "file shorter: log"),
    Case(["log"], b"none/log\n\n", LOG + MARK, 3, "file shorter: log"),
    Case(["more/log"], b"log\n\n", LOG + GAIN + MARK, 3, "file shorter: log"),
    Case(["more/log"], b"log\nnext\n\nmore/log\n\n", LOG + GAIN + MARK, 3, "file shorter: log"),
    Case(["log"], b"more/log\n\n\nlog\n\n", LOG + MARK + GAIN + 2 * MARK, 3, "file shorter: log"),
    Case(["next", "log"], b"next\nless/log\n\n", NEXT + LOG + MARK, 3, "file shorter: log"),
)

# Files and lists that are refused at the first look or a later one, and logs with a fault.
REFUSED = (
    Case([], b"missing\n\n", b"", 4, "cannot open missing"),
    Case(["missing"], b"log\n\n", b"", 4, "cannot open missing"),
    Case([], b"log\nmissing\nnext\n\n", b"", 4, "cannot open missing"),
    Case([], b"log\ngone/first\ngone/second\n\n", b"", 4, "cannot open gone/first"),
    Case(["log"], b"log\nmissing\n\nlog\n\n", LOG + MARK, 4, "cannot open missing"),
    Case(["log"], b"twice\n\n", LOG + MARK, 4, "cannot open twice"),
    Case([], b"/dev/null\n\n", b"", 4, "cannot open /dev/null"),
    *(Case([], f"log\n{name}\n\n".encode(), b"", 4, f"cannot open {name}") for name in NAMES),
    *(Case(["log"], f"log\n{name}\n\n".encode(), LOG + MARK, 4, f"cannot open {name}") for name in NAMES),
    Case([], b"log\ntwice/log\n\n", b"", 2, "duplicate file log"),
    Case(["log"], b"log\ntwice/log\n\n", LOG + MARK, 2, "duplicate file log"),
    Case(["log", "next"], b"next\nlog\n\n", LOG + NEXT + MARK, 2, "file out of order: log"),
    Case(["log", "next"], b"next\nother\nmore/log\n\n", LOG + NEXT + MARK, 2, "file out of order: log"),
    # so is one that lists in between left out, also where it stood in front of the last file meanwhile
    Case(["log", "next"], b"next\n\nnext\nlog\n\n", LOG + NEXT + 2 * MARK, 2, "file out of order: log"),
    Case(["log", "next"], b"next\n\n\nnext\nother\nmore/log\n\n", LOG + NEXT + 3 * MARK, 2, "file out of order: log"),
    Case(["log", "next"], b"next\n\nlog\nnext\n\nnext\n\nnext\nlog\n\n", LOG + NEXT + 4 * MARK, 2, "file out of order: log"),
    Case(["--from=153.1@gone"], b"log\n\n", b"", 3, "token refused: TokenNoFile"),
    Case(["--from=154.1@log"], b"log\n\n", b"", 3, "token refused: TokenNoTransaction"),
    Case(["bad/log"], b"\n", LOG, 1, "log fault at log:371: OutOfPlace(16)"),
    Case(["other"], b"\n", b"", 1, "log fault at other:0: BadMagic"),
    Case(["log"], b"bad/log\n\nlog\n\n", LOG + MARK, 1, "log fault at log:371: OutOfPlace(16)"),
    Case(["log"], b"worse/log\n\n", LOG + MARK + GAIN, 1, "log fault at log:589: OutOfPlace(16)"),
    Case(["log"], b"more/log\nother\n\n", LOG + MARK + GAIN, 1, "log fault at other:0: BadMagic"),
    Case(["log"], b"zeros/log\n\n", LOG + MARK, 1, "log fault at log:371: BadLength"),
    Case(["tail/log"], b"zeros/log\n\n", LOG + MARK, 1, "log fault at log:371: BadLength"),
    Case(["log"], b"encrypted/log\n\n", LOG + MARK, 1, "log fault at log:0: BadMagic"),
    Case(["log"], b"headless/log\n\n", LOG + MARK, 1, "log fault at log:4: NoFormat"),
    # so it is where the look before has found nothing new, too
    Case(["log"], b"\nencrypted/log\n\n", LOG + 2 * MARK, 1, "log fault at log:0: BadMagic"),
    Case(["log"], b"\nheadless/log\n\n", LOG + 2 * MARK, 1, "log fault at log:4: NoFormat"),
    Case(["next", "log"], b"next\nencrypted/log\n\n", NEXT + LOG + MARK, 1, "log fault at log:0: BadMagic"),
    Case(["next", "log"], b"next\nheadless/log\n\n", NEXT + LOG + MARK, 1, "log fault at log:4: NoFormat"),
    Case([], b"\xff\n\n", b"", 4, "cannot read the list of files"),
    Case([], b"log\n\xff\n\n", b"", 4, "cannot read the list of files"),
    Case(["log"], b"\nlog\n\xff\n\n", LOG + 2 * MARK, 4, "cannot read the list of files"),
)

# A path without an end, for a program that has 64 MiB of memory.
ENDLESS = 'tr "\\0" a </dev/zero | (ulimit -v 65536; exec "$0" read --follow{})'
# Who takes the lines ends behind the first look. Only then is the run told of another one.
READER = (
    'mkfifo lists out; "$0" read --follow log <lists >out & exec 3>lists; head -n 2 <out; printf "more/log\\n\\n" >&3; exec 3>&-; wait $!'
)
# An event that is passed over and is longer than what a run reads at first. It stands in front of a transaction, or inside one, whose end
# may not be there yet.
LONG = event(200, bytes(3 << 20), IGNORABLE)
OUTSIDE, INSIDE = appended(A, LONG, insert(2)), appended(A, transaction(2, LONG, ONE_ROW))
BEHIND = change_line(len(A) + len(LONG), 2, "log").encode()
# A log that is replaced by one whose first event is longer than the window of 64 KiB that a run begins with. Only for such an event has a
# run that goes on to take a larger window: of its own files it has read all before. One log's first event is a format description of
# 87,349 bytes: it ends where the last of 400 transactions ended. The other's is no format description.
MANY, FORMAT = worked_log(400), parts("past:19:format")
WIDE_FORMAT = event(15, FORMAT[:-5] + bytes(87_349 - len(parts("format"))) + FORMAT[-5:])
WIDE, FORMLESS = appended(MAGIC, WIDE_FORMAT, insert(401)), appended(MAGIC, event(200, bytes(1 << 17), IGNORABLE))
LONG_EVENTS = (
    Case(["many/log"], b"wide/log\n\n", change_lines(400, "log") + MARK + change_line(87_353, 401, "log").encode() + MARK),
    Case(["log"], b"formless/log\n\n", LOG + MARK, 1, "log fault at log:4: NoFormat"),
    Case(["outside/log"], b"\n", LOG + BEHIND + 2 * MARK),
    Case(["log"], b"outside/log\n\n\n", LOG + MARK + BEHIND + 2 * MARK),
    Case(["inside/log"], b"\n", LOG + GAIN + 2 * MARK),
    Case(["log"], b"inside/log\n\n\n", LOG + MARK + GAIN + 2 * MARK),
    Case(["open/log"], b"\ninside/log\n\n", LOG + 2 * MARK + GAIN + MARK),
    Case(["log"], b"open/log\n\ninside/log\n\n", LOG + 2 * MARK + GAIN + MARK),
)
# A shell's lines, and how they end: inputs that can't be read, and outputs that can't be written. Outputs that can be are above.
SHELL = (
    ("a folder as the input", '"$0" read --follow </', Wanted(4, b"", UNREADABLE)),
    ("a folder as the input behind a look", '"$0" read --follow log </', Wanted(4, LOG + MARK, UNREADABLE)),
    ("no room for an empty line alone", 'echo | "$0" read --follow >/dev/full', Wanted(4, b"", WRITE_FAULT)),
    ("no room for an empty line behind no line", '"$0" read --follow none/log >/dev/full </dev/null', Wanted(4, b"", WRITE_FAULT)),
    ("no room for a look's lines", '"$0" read --follow log >/dev/full </dev/null', Wanted(4, b"", WRITE_FAULT)),
    ("a closed output for an empty line", 'echo | "$0" read --follow >&-', Wanted(4, b"", WRITE_FAULT)),
    ("a reader that ends behind a look", READER, Wanted(4, LOG + MARK, WRITE_FAULT)),
    ("a path longer than memory", ENDLESS.format(""), Wanted(5, b"", said("out of memory"))),
    ("a path longer than memory behind a look", ENDLESS.format(" log"), Wanted(5, LOG + MARK, said("out of memory"))),
)

# Texts behind which the input breaks, and what is written for them.
BROKEN = ((b"", b""), (b"\n", MARK), (b"log", b""), (b"log\n", b""), (b"log\n\n", LOG + MARK), (b"log\n\n\nlog\n", LOG + 2 * MARK))


def judge_case(case: Case, program: Path, folder: Path) -> list[str]:
    """The run ends so."""
    lay_out(folder)
    came = run(program, ["read", "--follow", *case.words], folder, text=case.text)
    return differs(came, Wanted(case.status, case.lines, said(case.line) if case.line else b""))


def judge_long(case: Case, program: Path, folder: Path) -> list[str]:
    """A run over logs with a long event ends so."""
    put(folder, ["outside/log"], OUTSIDE)
    put(folder, ["inside/log"], INSIDE)
    put(folder, ["open/log"], INSIDE[: -len(parts("xid"))])
    put(folder, ["many/log"], MANY)
    put(folder, ["wide/log"], WIDE)
    put(folder, ["formless/log"], FORMLESS)
    return judge_case(case, program, folder)


def judge_shell(script: str, wanted: Wanted, program: Path, folder: Path) -> list[str]:
    """A run that a shell's line starts, with the program as its word $0."""
    lay_out(folder)
    shell = subprocess.run(
        ["sh", "-c", script, program], cwd=folder, stdin=subprocess.DEVNULL, capture_output=True, timeout=SECONDS, check=False
    )
    return differs(Outcome(shell.returncode, shell.stdout, shell.stderr), wanted)


def judge_broken(text: bytes, lines: bytes, program: Path, folder: Path) -> list[str]:
    """An input that breaks behind a text has no end: who closes a socket with something unread breaks the other one."""
    lay_out(folder)
    teller, taker = socket.socketpair()
    with teller, taker:
        taker.sendall(b"unread")
        teller.sendall(text)
        teller.close()
        ended = subprocess.run(
            command(["read", "--follow"]), executable=program, cwd=folder, stdin=taker, capture_output=True, timeout=SECONDS, check=False
        )
    return differs(Outcome(ended.returncode, ended.stdout, ended.stderr), Wanted(4, lines, UNREADABLE))


def judge_looks(words: list[str], text: bytes, before: bytes, program: Path, folder: Path) -> list[str]:
    """However many lists one run is told, each has its look; behind them one finds that the log has grown."""
    lay_out(folder)
    came = run(program, ["read", "--follow", *words], folder, text=text * LOOKS + b"more/log\n\n")
    behind = GAIN if LOG in before else LOG + GAIN
    return differs(came, Wanted(0, before + LOOKS * MARK + behind + MARK))


def judge_files(where: str, count: int, program: Path, folder: Path) -> list[str]:
    """A list of so many files is looked at: where it is the first look, and where they come behind one."""
    names = put(folder, log_names(count), A)
    lines = [change_lines(1, name) for name in names]
    told = "".join(f"{name}\n" for name in names).encode() + MARK
    if where == "words":
        came = run(program, ["read", "--follow", *names], folder, text=told)
        return differs(came, Wanted(0, b"".join(lines) + 2 * MARK))
    if where == "first list":
        came = run(program, ["read", "--follow"], folder, text=told + MARK)
        return differs(came, Wanted(0, b"".join(lines) + 2 * MARK))
    came = run(program, ["read", "--follow", names[0]], folder, text=told)
    return differs(came, Wanted(0, lines[0] + MARK + b"".join(lines[1:]) + MARK))


def shown(case: Case) -> str:
    """A case as its check's name has it."""
    text = f"{case.text!r}" if len(case.text) <= SHOWN else f"{case.text[:SHOWN]!r} and so on, {len(case.text)} bytes"
    return f"{' '.join(case.words)} {text}".strip()


def checks() -> list[Check]:
    """The checks of lists."""
    cases = (("an input that ends", ENDING), ("a file that is lost", LOST), ("a list that is refused", REFUSED))
    many = (("empty lists", [], MARK, b""), ("looks", ["log"], MARK, LOG + MARK), ("lists", ["log"], b"log\n\n", LOG + MARK))
    return [
        *[Check(f"{what}: {shown(case)}", partial(judge_case, case)) for what, group in cases for case in group],
        *[Check(f"a long event: {shown(case)}", partial(judge_long, case)) for case in LONG_EVENTS],
        *[Check(f"lists, {name}", partial(judge_shell, script, wanted)) for name, script, wanted in SHELL],
        *[Check(f"lists, an input that breaks behind {text!r}", partial(judge_broken, text, lines)) for text, lines in BROKEN],
        *[Check(f"{LOOKS} {what} in one run", partial(judge_looks, words, text, before)) for what, words, text, before in many],
        *[
            Check(f"a list of {count} files as the {where}", partial(judge_files, where, count))
            for where in ("words", "first list", "second list")
            for count in (FILES, LINES)
        ],
    ]
