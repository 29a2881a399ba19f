"""What the system does to a run: outputs that are closed or full, files that change meanwhile, little memory, long files."""
import os
import select
import subprocess
from collections.abc import Callable
from functools import partial
from pathlib import Path

from built.check import SECONDS, Check, Outcome, Wanted, command, differs, run, said
from logs import (
    FRONT, IGNORABLE, A, appended, change_lines, full_line, full_lines, insert, many_tables, parts, placed, put, unit_line, unit_lines,
    wide_tables, worked_log,
)  # fmt: skip
from pieces import event, header

# The lines of so many transactions fill any pipe, and their log is longer than what is read at once.
MANY = 12_000
WRITE_FAULT = Wanted(4, None, said("write fault"))

# The lines of a short log and of a long one.
BOTH = unit_lines(1, "first") + unit_lines(MANY, "log")


def judge_closed_output(subcommand: str, count: int, program: Path, folder: Path) -> list[str]:
    """The reader of the output is gone: the run ends by itself, and no signal ends it."""
    put(folder, ["log"], worked_log(count))
    reader, writer = os.pipe()
    os.close(reader)
    with os.fdopen(writer, "wb") as output:
        return differs(run(program, [subcommand, "log"], folder, output), WRITE_FAULT)


def judge_full_device(subcommand: str, count: int, program: Path, folder: Path) -> list[str]:
    """The device is full."""
    put(folder, ["log"], worked_log(count))
    with open("/dev/full", "wb") as output:
        return differs(run(program, [subcommand, "log"], folder, output), WRITE_FAULT)


def judge_shell(script: str, wanted: Wanted, program: Path, folder: Path) -> list[str]:
    """A run that a shell's line starts, with the program as its word $0. The log stays as it was."""
    put(folder, ["log"], A)
    shell = subprocess.run(
        ["sh", "-c", script, program], cwd=folder, stdin=subprocess.DEVNULL, capture_output=True, timeout=SECONDS, check=False
    )
    changed = [] if (folder / "log").read_bytes() == A else ["the log was changed"]
    return differs(Outcome(shell.returncode, shell.stdout, shell.stderr), wanted) + changed


# A shell's lines: outputs that are closed or full.
SHELL = (
    ("a closed standard output", '"$0" read log >&-', Wanted(4, b"", said("write fault"))),
    ("a closed standard error", '"$0" read missing 2>&-', Wanted(4, b"", b"")),
    ("a full standard error", '"$0" read missing 2>/dev/full', Wanted(4, b"", b"")),
    ("a closed standard input", '"$0" transactions log <&-', Wanted(0, unit_lines(1, "log"), b"")),
)


def run_changed(program: Path, folder: Path, change: Callable[[Path], None]) -> Outcome:
    """Runs `transactions` over a short log and a long one, which is changed while the run waits: it has read its beginning, and
    nobody takes the lines."""
    put(folder, ["first"], A)
    put(folder, ["log"], worked_log(MANY))
    words = command(["transactions", "first", "log"])
    with subprocess.Popen(
        words, executable=program, cwd=folder, stdin=subprocess.DEVNULL, stdout=subprocess.PIPE, stderr=subprocess.PIPE
    ) as running:
        try:
            if not select.select([running.stdout], [], [], SECONDS)[0]:
                raise TimeoutError("it wrote nothing")
            change(folder / "log")
            stdout, stderr = running.communicate(timeout=SECONDS)
            return Outcome(running.returncode, stdout, stderr)
        finally:
            running.kill()


def grow(log: Path) -> None:
    """Writes more transactions behind the log."""
    length = log.stat().st_size
    with log.open("ab") as more:
        more.write(placed(insert(MANY + 1), length))


def judge_changed(change: Callable[[Path], None], program: Path, folder: Path) -> list[str]:
    """What was there at opening is read."""
    return differs(run_changed(program, folder, change), Wanted(0, BOTH))


def judge_cut(program: Path, folder: Path) -> list[str]:
    """A log that gets shorter while it is read is a read fault, behind lines that hold."""
    came = run_changed(program, folder, lambda log: os.truncate(log, 153))
    begun = came.stdout.endswith(b"\n") and BOTH.startswith(came.stdout)
    reasons = [] if begun else ["what was written is no beginning of the log's lines"]
    return reasons + differs(came, Wanted(4, None, said("read fault: log")))


def put_sparse(path: Path, events: int, length: int) -> int:
    """Writes the front of a log and so many events of this length that are passed over, whose bodies take no place on the disk.
    Answers where they end."""
    place = len(FRONT)
    with path.open("wb") as log:
        log.write(FRONT)
        for _ in range(events):
            log.seek(place)
            log.write(placed(header(200, IGNORABLE, length), place))
            place += length
        log.truncate(place)
    return place


def run_within(mebibytes: int, program: Path, folder: Path, words: str = "read") -> Outcome:
    """Runs `read` over a log with so much memory and no more."""
    script = f'ulimit -v {mebibytes << 10}; exec "$0" {words} log'
    shell = subprocess.run(["sh", "-c", script, program], cwd=folder, capture_output=True, timeout=SECONDS, check=False)
    return Outcome(shell.returncode, shell.stdout, shell.stderr)


def judge_little_memory(program: Path, folder: Path) -> list[str]:
    """An event of 512 MiB has no room in 128 MiB of memory."""
    put_sparse(folder / "log", 1, 512 << 20)
    return differs(run_within(128, program, folder), Wanted(5, b"", said("out of memory")))


def judge_many_tables(program: Path, folder: Path) -> list[str]:
    """The maps of 100,000 tables, one in each transaction, take no more memory than that of a few: a run over one takes 5 MiB."""
    log, lines = many_tables(100_000, "log")
    put(folder, ["log"], log)
    return differs(run_within(8, program, folder), Wanted(0, lines))


def judge_many_tables_in_full(program: Path, folder: Path) -> list[str]:
    """The types and keys of 20,000 tables take no more memory than those of a few, in full lines."""
    log, lines = many_tables(20_000, "log", full_line)
    put(folder, ["log"], log)
    return differs(run_within(8, program, folder, "read --full"), Wanted(0, lines))


def judge_wide_tables(program: Path, folder: Path) -> list[str]:
    """So do the maps of 64 tables with 4,000 columns each. One has a body of 25 KB."""
    put(folder, ["log"], wide_tables(64))
    return differs(run_within(16, program, folder), Wanted(0, b""))


def judge_long_file(program: Path, folder: Path) -> list[str]:
    """A transaction and a fault that stand behind the first 4 GiB of a file."""
    place = put_sparse(folder / "log", 65, 1 << 26)
    with (folder / "log").open("ab") as log:
        log.write(placed(insert(1) + event(40), place))
    wanted = Wanted(1, unit_line(place, 1, "log").encode(), said(f"log fault at log:{place + 218}: KindOutOfProfile(40)"))
    return differs(run(program, ["transactions", "log"], folder), wanted)


def judge_window(program: Path, folder: Path) -> list[str]:
    """An event that is longer than the first window is taken in."""
    place = put_sparse(folder / "log", 1, 3 << 20)
    with (folder / "log").open("ab") as log:
        log.write(placed(insert(1), place))
    return differs(run(program, ["transactions", "log"], folder), Wanted(0, unit_line(place, 1, "log").encode()))


def judge_whole(program: Path, folder: Path) -> list[str]:
    """All lines of a long log come out."""
    put(folder, ["log"], worked_log(MANY))
    return differs(run(program, ["read", "log"], folder), Wanted(0, change_lines(MANY, "log")))


def judge_long_fault(words: list[str], lines: Callable[[int, str], bytes], program: Path, folder: Path) -> list[str]:
    """An event out of place behind the lines of a long log: all of them stand before its fault, and the status is the fault's."""
    log = worked_log(MANY)
    put(folder, ["log"], appended(log, parts("xid")))
    wanted = Wanted(1, lines(MANY, "log"), said(f"log fault at log:{len(log)}: OutOfPlace(16)"))
    return differs(run(program, [*words, "log"], folder), wanted)


def checks() -> list[Check]:
    """The checks of the system."""
    kinds = [(kind, count) for kind in ("transactions", "read") for count in (1, MANY)]
    closed = [Check(f"{kind} of {count} to a closed output", partial(judge_closed_output, kind, count)) for kind, count in kinds]
    full = [Check(f"{kind} of {count} to a full device", partial(judge_full_device, kind, count)) for kind, count in kinds]
    return [
        Check("a file longer than 4 GiB", judge_long_file),
        *closed,
        *full,
        *[Check(name, partial(judge_shell, script, wanted)) for name, script, wanted in SHELL],
        Check("a log that grows", partial(judge_changed, grow)),
        Check("a log that is taken away", partial(judge_changed, Path.unlink)),
        Check("a log that gets shorter", judge_cut),
        Check("little memory", judge_little_memory),
        Check("the maps of many tables", judge_many_tables),
        Check("the types of many tables", judge_many_tables_in_full),
        Check("the maps of wide tables", judge_wide_tables),
        Check("an event longer than the window", judge_window),
        Check("a long log", judge_whole),
        *[
            Check(f"a log fault of {' '.join(words)} behind many lines", partial(judge_long_fault, words, lines))
            for words, lines in ((["transactions"], unit_lines), (["read"], change_lines), (["read", "--full"], full_lines))
        ],
    ]
