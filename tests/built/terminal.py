"""Hints: what stands below the line on standard error at a terminal, and where the environment asks for it, and nowhere else."""
from __future__ import annotations

import os
import pty
import select
import subprocess
import tty
from functools import partial
from pathlib import Path
from typing import NamedTuple

from built.check import SECONDS, Check, Outcome, Wanted, command, differs, run, said
from logs import MAGIC, SMALL, TABLE_MAP, A, appended, change_lines, event, parts, put, query, rotate

# Asks for hints where there is no terminal; whether what runs these checks asks for them isn't to count.
ASKS = "BINLOGFEED_HINTS"
PLAIN = {name: value for name, value in os.environ.items() if name != ASKS}
# Taken from root, so that it may open only what the file's mode lets it, as any other user.
ALL_FILES = "-dac_override,-dac_read_search"


class Case(NamedTuple):
    """Words of a run over the files of `lay_out`, its status, its line, and the hint below that."""

    words: list[str | bytes]
    status: int
    line: str
    hint: str
    stdin: bytes = b""


def run_at_terminal(program: Path, words: list[str | bytes], folder: Path, stdin: bytes = b"") -> Outcome:
    """Runs a program whose standard error is a terminal, and nothing else of it."""
    terminal, its_side = pty.openpty()
    tty.setraw(its_side)
    with open(terminal, "rb", buffering=0), subprocess.Popen(
        words, executable=program, cwd=folder, stdin=subprocess.PIPE, stdout=subprocess.PIPE, stderr=its_side
    ) as running:
        os.close(its_side)
        try:
            running.stdin.write(stdin)
            running.stdin.close()
        except BrokenPipeError:
            pass
        told = read_to_end(terminal)
        if told is None:
            running.kill()
        lines = running.stdout.read()
        status = running.wait(SECONDS)
    return Outcome(None if told is None else status, lines, told or b"")


def read_to_end(terminal: int) -> bytes | None:
    """What is written on a terminal until nobody can write there any more; None where that takes too long."""
    told = b""
    while select.select([terminal], [], [], SECONDS)[0]:
        try:
            told += os.read(terminal, 1 << 16)
        except OSError:  # the other side was closed
            return told
    return None


def lay_out(folder: Path) -> None:
    """Lays out the files that the words of the cases name."""
    begun, xid = SMALL.bytes_of("Begun"), parts("xid")
    put(folder, ["log", "logs/log", "logs/next"], A)
    put(folder, ["less/log"], A[:-1])
    put(folder, ["logs/index"], b"./binlog.000001\n./binlog.000002\n")
    for name, front in FRONTS.items():
        put(folder, [f"logs/{name}"], front)
    for kind in (15, 23, 25, 26, 38, 39, 40, 42, 99, 160, 255):
        put(folder, [f"logs/kind{kind}"], appended(A, event(kind)))
    put(folder, ["logs/xa"], appended(A, query("XA START 'a'")))
    put(folder, ["logs/back"], appended(begun, query("ROLLBACK TO a")))
    put(folder, ["logs/rotated"], appended(A, rotate("other")))
    put(folder, ["logs/stopped"], appended(A, parts("stop"), xid))
    put(folder, ["logs/unnamed"], appended(begun, event(TABLE_MAP, parts("past:19:map-t")[:-10])))
    for column_type in (7, 242, 200):
        body = parts(f"u48:100 u16:1 01 text:s 00 01 text:t 00 01 u8:{column_type} 00 00")
        put(folder, [f"logs/type{column_type}"], appended(begun, event(TABLE_MAP, body)))
    put(folder, ["logs/zeros"], A + bytes(100))
    put(folder, ["logs/headless"], appended(MAGIC, xid))
    put(folder, ["logs/placeless"], appended(A, xid))
    os.mkfifo(folder / "pipe")
    os.symlink("circle", folder / "circle")
    put(folder, ["secret"], A)
    (folder / "secret").chmod(0)


def run_asking(asks: str | None, program: Path, words: list[str | bytes], folder: Path, stdin: bytes = b"") -> Outcome:
    """Runs a program that has no terminal, and whose environment asks for hints by this value, or doesn't."""
    environment = PLAIN if asks is None else {**PLAIN, ASKS: asks}
    ended = subprocess.run(
        words, executable=program, cwd=folder, input=stdin, capture_output=True, timeout=SECONDS, check=False, env=environment
    )
    return Outcome(ended.returncode, ended.stdout, ended.stderr)


def judge_case(case: Case, program: Path, folder: Path) -> list[str]:
    """The line is the same everywhere; the hint is there at a terminal, and where it is asked for."""
    lay_out(folder)
    line, words = said(case.line), command(case.words)
    elsewhere = run_asking(None, program, words, folder, case.stdin)
    hinted = Wanted(case.status, elsewhere.stdout, line + case.hint.encode())
    reasons = differs(elsewhere, Wanted(case.status, None, line))
    reasons += differs(run_at_terminal(program, words, folder, case.stdin), hinted)
    return reasons + differs(run_asking("1", program, words, folder, case.stdin), hinted)


def judge_asked(value: str, program: Path, folder: Path) -> list[str]:
    """Nothing but `1` asks for hints."""
    return differs(run_asking(value, program, command(["read", "missing"]), folder), Wanted(4, b"", said("cannot open missing")))


def judge_secret(program: Path, folder: Path) -> list[str]:
    """A file that the user may not read. Root may read all files, unless that is taken from it."""
    lay_out(folder)
    words: list[str | bytes] = ["setpriv", "--bounding-set", ALL_FILES] if os.geteuid() == 0 else []
    came = run_at_terminal(Path((words or [program])[0]), [*words, str(program), "read", "secret"][0 if words else 0 :], folder)
    wanted = said("cannot open secret") + b"hint: this user may not read it: a user of the group mysql may, "
    return differs(Outcome(came.status, came.stdout, came.stderr[: len(wanted)]), Wanted(4, b"", wanted))


def judge_success(program: Path, folder: Path) -> list[str]:
    """A run that ends well says nothing at a terminal, either."""
    lay_out(folder)
    return differs(run_at_terminal(program, command(["read", "log"]), folder), Wanted(0, change_lines(1, "log")))


def judge_help(program: Path, folder: Path) -> list[str]:
    """Help that is asked for has no hint: it is what it is elsewhere."""
    elsewhere = run(program, ["read", "--help"], folder)
    return differs(run_at_terminal(program, command(["read", "--help"]), folder), Wanted(0, elsewhere.stdout))


def judge_no_line(program: Path, folder: Path) -> list[str]:
    """A history that has found no line ends well, and its hint says what it has looked for."""
    lay_out(folder)
    words = command(["history", "--schema=s", "--table=none", "--key=[1]", "log"])
    reasons = differs(run_asking(None, program, words, folder), Wanted(0, b"", b""))
    reasons += differs(run_at_terminal(program, words, folder), Wanted(0, b"", NO_LINE))
    return reasons + differs(run_asking("1", program, words, folder), Wanted(0, b"", NO_LINE))


def judge_output_alone(program: Path, folder: Path) -> list[str]:
    """Where standard output is a terminal and standard error is none, there is no hint."""
    terminal, its_side = pty.openpty()
    try:
        came = run(program, ["read", "missing"], folder, its_side)
    finally:
        os.close(its_side)
        os.close(terminal)
    return differs(came, Wanted(4, None, said("cannot open missing")))


TRY_HELP = "Try 'binlogfeed --help'\n"
TRY_READ = "Try 'binlogfeed read --help'\n"
REFUSED = "command line refused"
NEW_FILE = "and begin with a new file (FLUSH BINARY LOGS)\n"

# Files that are no logs, by what they begin with, and what is said of them.
FRONTS = {
    "packed.gz": b"\x1f\x8b\x08\0",
    "packed.zst": b"\x28\xb5\x2f\xfd\0",
    "packed.xz": b"\xfd7zXZ\0\0",
    "packed.bz2": b"BZh9",
    "encrypted": b"\xfdbin\1",
    "text": b"Hello, here is binlog 1.\n",
    "numbers": b"1.00000\n",
}
PACKED = "it is a file that {} has packed: unpack it\n"
NO_LOG = "the file is no binary log: give the logs that the server's index names\n"
KINDS = {
    "index": "it is an index, which lists the logs: give the logs in it\n",
    **{f"packed.{ending}": PACKED.format(by) for ending, by in (("gz", "gzip"), ("zst", "zstd"), ("xz", "xz"), ("bz2", "bzip2"))},
    "encrypted": "it is an encrypted log: set binlog_encryption=OFF, " + NEW_FILE,
    "text": NO_LOG,
    "numbers": NO_LOG,
}

# Words that are refused: what clap says of them but for its last line, and the help to try.
WORDS = (
    Case([], 2, REFUSED, "hint: a subcommand is missing: read, history or transactions\n" + TRY_HELP),
    Case([b"\xff", "log"], 2, REFUSED, "hint: a word of the command line isn't UTF-8\n" + TRY_HELP),
    Case(
        ["reed", "log"],
        2,
        REFUSED,
        "error: unrecognized subcommand 'reed'\n\n  tip: a similar subcommand exists: 'read'\n\nUsage: binlogfeed [COMMAND]\n\n" + TRY_HELP,
    ),
    Case(["read"], 2, REFUSED, "hint: a FILE is missing: only with --follow may there be none\n" + TRY_READ),
    Case(
        ["read", "--only-table", "t", "log"],
        2,
        REFUSED,
        "error: unexpected argument '--only-table' found\n\n  tip: a similar argument exists: '--only-tables'\n\n"
        "Usage: binlogfeed read --only-tables <LIST> [file]...\n\n" + TRY_READ,
    ),
    Case(
        ["read", "log", "--from"], 2, REFUSED, "error: a value is required for '--from <TOKEN>' but none was supplied\n\n" + TRY_READ
    ),
    Case(
        ["transactions"],
        2,
        REFUSED,
        "error: the following required arguments were not provided:\n  <file>...\n\nUsage: binlogfeed transactions <file>...\n\n"
        "Try 'binlogfeed transactions --help'\n",
    ),
    Case(
        ["history", "--schema=s", "--table=t", "log"],
        2,
        REFUSED,
        "error: the following required arguments were not provided:\n  --key <JSON>\n\n"
        "Usage: binlogfeed history --schema <NAME> --table <NAME> --key <JSON> <file>...\n\nTry 'binlogfeed history --help'\n",
    ),
    Case(
        ["read", "--only-events", "insert,drop", "log"],
        2,
        "bad --only-events: drop",
        "hint: --only-events takes insert, update and delete, with --profile server also statement, parted by commas and without blanks: insert,update\n" + TRY_READ,
    ),
    Case(
        ["read", "--auto-position", "x", "log"],
        2,
        "bad --auto-position: element 0",
        "hint: --auto-position takes GTID sets, parted by commas and counted from 0, each a source and its numbers: "
        "3e11fa47-71ca-11e1-9e33-c80aa9429562:1-5:7\n" + TRY_READ,
    ),
    Case(
        ["read", "--from", "153@log", "log"],
        3,
        "token refused: BadToken",
        "hint: --from takes the whole token of a line: 3406.1@binlog.000001\n" + TRY_READ,
    ),
    Case(
        ["history", "--schema=s", "--table=t", "--key=1", "log"],
        2,
        "bad --key",
        "hint: --key takes a JSON array of the key's values, in quotes for the shell: '[7]', or '[7,\"a\"]' for a key of two columns\n"
        "Try 'binlogfeed history --help'\n",
    ),
)

NO_FILE = "hint: there is no such file\n"
NOT_A_FOLDER = "hint: a part of the path is a file, and no folder\n"
FOLDER = "hint: it is a folder: name the files in it\n"
NOT_PLAIN = "hint: it is no plain file: a pipe or a device can't be read, since places of a file are read again\n"

# Paths that can't be opened, and why.
PATHS = (
    ("missing", NO_FILE),
    ("no/such/log", NO_FILE),
    ("", NO_FILE),
    ("logs", FOLDER),
    ("logs/", FOLDER),
    ("log/", NOT_A_FOLDER),
    ("log/below", NOT_A_FOLDER),
    ("pipe", NOT_PLAIN),
    ("/dev/null", NOT_PLAIN),
    ("circle", "hint: its symbolic links lead in a circle\n"),
    ("a" * 300, "hint: the path is too long\n"),
)

NOT_ONE_LOG = (
    "the file is a relay log, or two logs in one, or a copy that was written on: give the server's binary logs, or copy them anew\n"
)
OLD_ROWS = "these are rows as before MySQL 5.6: set log_bin_use_v1_row_events=OFF, " + NEW_FILE
MARIADB = "this is a log of MariaDB, and only those of MySQL are read\n"
XA = "XA transactions aren't read\n"
DAMAGED = "the file is damaged: copy it anew\n"

# Logs with a fault, by the name of the file, with the place and the name of the fault, and what the hint says of it.
LOGS = (
    *((name, "0: BadMagic", told) for name, told in KINDS.items()),
    ("headless", "4: NoFormat", "the log is damaged, or of another product: copy it anew\n"),
    ("zeros", "371: BadLength", "the file is damaged (zeros after a full disk, say), or two logs in one: copy it anew\n"),
    ("stopped", "390: EventAfterEnd", NOT_ONE_LOG),
    ("kind15", "371: KindOutOfProfile(15)", NOT_ONE_LOG),
    ("kind23", "371: KindOutOfProfile(23)", OLD_ROWS),
    ("kind25", "371: KindOutOfProfile(25)", OLD_ROWS),
    (
        "kind26",
        "371: KindOutOfProfile(26)",
        "the server itself says here that changes are missing in its log: take a new copy of the tables\n",
    ),
    ("kind38", "371: KindOutOfProfile(38)", XA),
    ("kind39", "371: KindOutOfProfile(39)", "a part of a JSON value was changed: empty binlog_row_value_options, " + NEW_FILE),
    ("kind40", "371: KindOutOfProfile(40)", "the transaction is compressed: set binlog_transaction_compression=OFF, " + NEW_FILE),
    ("kind42", "371: KindOutOfProfile(42)", "GTIDs with tags, as MySQL 8.3 and later write them, aren't read\n"),
    ("kind99", "371: KindOutOfProfile(99)", "events of this kind aren't read\n"),
    ("kind160", "371: KindOutOfProfile(160)", MARIADB),
    ("kind255", "371: KindOutOfProfile(255)", MARIADB),
    ("xa", "371: Xa", XA),
    (
        "back",
        "253: RollbackTo",
        "the transaction took a part of itself back, and had changed a table without transactions (MyISAM): keep such tables out of it\n",
    ),
    ("placeless", "371: OutOfPlace(16)", DAMAGED),
    ("unnamed", "253: NoColumnNames", "the names of the columns aren't in the log: read it with --profile server, or set binlog_row_metadata=FULL, " + NEW_FILE),
    (
        "type7",
        "253: TypeOutOfProfile(7)",
        "a date or a time of a table that was made before MySQL 5.6.4 isn't read: ALTER TABLE .. FORCE makes the column new\n",
    ),
    ("type242", "253: TypeOutOfProfile(242)", "VECTOR columns aren't read by the strict profile: read the log with --profile server\n"),
    ("type200", "253: TypeOutOfProfile(200)", "columns of this type aren't read\n"),
)

OTHER_LOG = "hint: the token is of another log with that name"
GONE = "hint: the token's file isn't among the files: give it, or where it was purged take a new copy of the tables\n"
ONE_NAME = "hint: a token names its file without the folder, so no two files of a list may have one name\nhint: the file is logs/log\n"

NO_LINE = (
    b"hint: no change in the files has this schema, table and key: a key has the value of each key column, of its type and in the key's order, "
    b"as lines have them\n"
)

# Other runs that end early.
RUNS = (
    Case(["read", "--from", "153.1@gone", "log"], 3, "token refused: TokenNoFile", GONE),
    Case(
        ["read", "--from", "154.1@log", "log"],
        3,
        "token refused: TokenNoTransaction",
        OTHER_LOG + ", or the server lost the log's end when its machine lost power or crashed\n",
    ),
    Case(["read", "--from", "153.9@log", "log"], 3, "token refused: TokenNoChange", OTHER_LOG + "\n"),
    Case(["transactions", "log", "logs/log"], 2, "duplicate file log", ONE_NAME),
    Case(
        ["read", "logs/rotated", "logs/next"],
        1,
        "log fault at rotated:371: RotationMismatch",
        "hint: the file names another one as the next than the list does: give all files, in the order of the server's index\n"
        "hint: the file is logs/rotated\n",
    ),
    Case(["read", "--follow"], 4, "cannot open missing", NO_FILE, b"log\n\nmissing\n\n"),
    Case(
        ["read", "--follow"],
        4,
        "cannot read the list of files",
        "hint: standard input has a path on each line, in UTF-8, and an empty line behind each list\n",
        b"log\n\n\xff\n\n",
    ),
    Case(
        ["read", "--follow", "log"],
        3,
        "file gone: log",
        "hint: the last file of the list before must be in the next list, too: where it was purged before, changes are missing\n",
        b"logs/next\n\n",
    ),
    Case(
        ["read", "--follow", "log"],
        3,
        "file shorter: log",
        "hint: the server lost the file's end when its machine lost power or crashed (with sync_binlog=1, too): "
        "it had been read further\n",
        b"less/log\n\n",
    ),
    Case(
        ["read", "--follow", "log", "logs/next"],
        2,
        "file out of order: log",
        "hint: a file that an earlier list had, too, stands behind the last one of the list before: "
        "give the files in the order in which the server wrote them\n",
        b"logs/next\nlog\n\n",
    ),
    Case(["read", "--follow", "log", "logs/log"], 2, "duplicate file log", ONE_NAME),
    Case(["read", "--follow", "log"], 2, "duplicate file log", ONE_NAME, b"log\nlogs/log\n\n"),
    Case(
        ["read", "--follow", "log"],
        1,
        "log fault at placeless:371: OutOfPlace(16)",
        "hint: " + DAMAGED + "hint: the file is logs/placeless\n",
        b"log\nlogs/placeless\n\n",
    ),
)


# What can't be written: a device, a file that may not get longer, and a pipe that nobody reads any more.
OUTPUTS = {
    'exec "$0" read log >/dev/full': (
        b"hint: the disk is full, or who takes the lines has ended: go on from the token of the last line that was taken\n"
    ),
    'trap "" XFSZ; ulimit -f 0; exec "$0" read log >file': (
        b"hint: the disk is full, or the file may not get longer: go on from the token of the last whole line\n"
    ),
    'mkfifo lines; exec 3<>lines 4>lines 3<&-; exec "$0" read log >&4': (
        b"hint: nobody reads the lines any more: go on from the token of the last line that was taken\n"
    ),
}


def judge_output(script: str, program: Path, folder: Path) -> list[str]:
    """The output can't be written, and its hint goes by what it is."""
    lay_out(folder)
    wanted = Wanted(4, b"", said("write fault") + OUTPUTS[script])
    shell = ["sh", "-c", script, str(program)]
    reasons = differs(run_at_terminal(Path("/bin/sh"), shell, folder), wanted)
    for name in ("lines", "file"):
        (folder / name).unlink(missing_ok=True)
    return reasons + differs(run_asking("1", Path("/bin/sh"), shell, folder), wanted)


def fault_case(name: str, fault: str, hint: str) -> Case:
    """The case of a log with a fault, in a folder."""
    return Case(["read", f"logs/{name}"], 1, f"log fault at {name}:{fault}", f"hint: {hint}hint: the file is logs/{name}\n")


def shown(words: list[str | bytes]) -> str:
    """Words as a name has them."""
    return " ".join(word if isinstance(word, str) else repr(word) for word in words)[:60]


def checks() -> list[Check]:
    """The checks of hints."""
    paths = [Case(["read", path], 4, f"cannot open {path}", hint) for path, hint in PATHS]
    cases = [*WORDS, *paths, *(fault_case(*log) for log in LOGS), *RUNS]
    return [
        *[Check(f"hints: {shown(case.words)} {case.line[:40]}", partial(judge_case, case)) for case in cases],
        Check("at a terminal: a file that may not be read", judge_secret),
        *[Check(f"hints of an output: {script}", partial(judge_output, script)) for script in OUTPUTS],
        *[Check(f"no hints for {value!r}", partial(judge_asked, value)) for value in ("", "0", "11", "yes")],
        Check("at a terminal: a run that ends well", judge_success),
        Check("hints: a history without a line", judge_no_line),
        Check("at a terminal: help", judge_help),
        Check("an output at a terminal, and standard error elsewhere", judge_output_alone),
    ]
