"""Command lines of many words and many files, and words that are no text."""
import subprocess
from functools import partial
from pathlib import Path

from built.check import SECONDS, Check, Outcome, Wanted, differs, run, said
from logs import FRONT, A, change_lines, full_lines, put, unit_lines

# The option words of `read` that let every change of the worked logs pass: thirteen words with the subcommand. `--full` isn't among
# them: it has no value, and makes other lines.
ALL_PASS = [
    "read",
    "--only-events", "update,insert",
    "--only-tables", "x,t",
    "--ignored-tables", "x,y",
    "--only-schemas", "s",
    "--ignored-schemas", "x",
    "--auto-position", "3e11fa47-71ca-11e1-9e33-c80aa9429562:2-9",
]  # fmt: skip


def log_names(count: int) -> list[str]:
    """The names of so many logs."""
    return [f"binlog.{number:06}" for number in range(1, count + 1)]


def judge_files(count: int, subcommand: str, program: Path, folder: Path) -> list[str]:
    """Each of many files has its line, in their order."""
    names = put(folder, log_names(count), A)
    lines = unit_lines if subcommand == "transactions" else change_lines
    wanted = b"".join(lines(1, name) for name in names)
    return differs(run(program, [subcommand, *names], folder), Wanted(0, wanted))


def run_with_few_open(program: Path, folder: Path, words: list[str]) -> Outcome:
    """Runs a program that may have 256 files open."""
    shell = ["sh", "-c", 'ulimit -n 256; exec "$0" "$@"', program, *words]
    ended = subprocess.run(shell, cwd=folder, stdin=subprocess.DEVNULL, capture_output=True, timeout=SECONDS, check=False)
    return Outcome(ended.returncode, ended.stdout, ended.stderr)


def judge_many_files(count: int, subcommand: str, program: Path, folder: Path) -> list[str]:
    """A list may have more files than a program may have open."""
    names = put(folder, log_names(count), A)
    lines = unit_lines if subcommand == "transactions" else change_lines
    wanted = b"".join(lines(1, name) for name in names)
    return differs(run_with_few_open(program, folder, [subcommand, *names]), Wanted(0, wanted))


def judge_missing_behind_many(program: Path, folder: Path) -> list[str]:
    """A file that isn't there is named before anything is written, behind however many others it stands."""
    names = put(folder, log_names(1_100), A)
    came = run_with_few_open(program, folder, ["read", *names, "missing"])
    return differs(came, Wanted(4, b"", said("cannot open missing")))


def judge_options(program: Path, folder: Path) -> list[str]:
    """With all options the files stand from the fourteenth word on: none is forgotten."""
    names = put(folder, log_names(12), A)
    wanted = b"".join(change_lines(1, name) for name in names)
    return differs(run(program, [*ALL_PASS, *names], folder), Wanted(0, wanted))


def judge_all_and_full(program: Path, folder: Path) -> list[str]:
    """The flag for full lines has no value: with it, too, the files stand behind all options."""
    names = put(folder, log_names(12), A)
    wanted = b"".join(full_lines(1, name) for name in names)
    return differs(run(program, [*ALL_PASS, "--full", *names], folder), Wanted(0, wanted))


def judge_flag_behind(program: Path, folder: Path) -> list[str]:
    """The flag counts behind many files as it does before them."""
    names = put(folder, log_names(20), A)
    wanted = b"".join(full_lines(1, name) for name in names)
    return differs(run(program, ["read", *names, "--full"], folder), Wanted(0, wanted))


def judge_option_behind(program: Path, folder: Path) -> list[str]:
    """An option counts behind many files as it does before them."""
    names = put(folder, log_names(20), A)
    words = ["read", *names, "--only-events", "delete"]
    return differs(run(program, words, folder), Wanted(0, b""))


def judge_missing_behind(program: Path, folder: Path) -> list[str]:
    """The file in the twentieth place isn't there: nothing is written of the others."""
    names = put(folder, log_names(18), A)
    words = ["transactions", *names, "missing", *names]
    return differs(run(program, words, folder), Wanted(4, b"", said("cannot open missing")))


def judge_fault_behind(program: Path, folder: Path) -> list[str]:
    """The file in the twentieth place is no log: the lines of the others stand before its fault."""
    names = put(folder, log_names(19), A)
    put(folder, ["bad"], b"no log")
    wanted = b"".join(unit_lines(1, name) for name in names)
    came = run(program, ["transactions", *names, "bad"], folder)
    return differs(came, Wanted(1, wanted, said("log fault at bad:0: BadMagic")))


def judge_long_word(program: Path, folder: Path) -> list[str]:
    """A list of thousands of names is read to its end."""
    put(folder, ["log"], A)
    names = ",".join([f"table{number}" for number in range(10_000)] + ["t"])
    wanted = change_lines(1, "log")
    return differs(run(program, ["read", "--only-tables", names, "log"], folder), Wanted(0, wanted))


def judge_behind_dashes(words: list[str], program: Path, folder: Path) -> list[str]:
    """Behind the word `--` each word is a file, whatever it begins with."""
    names = put(folder, ["-log", "--full", "--only-tables=x", "log", "--"], A)
    lines = {"transactions": unit_lines, "read": change_lines, "read --full": full_lines}[" ".join(words)]
    wanted = b"".join(lines(1, name) for name in names)
    return differs(run(program, [*words, "--", *names], folder), Wanted(0, wanted))


def judge_no_text(program: Path, folder: Path) -> list[str]:
    """A word that isn't UTF-8 is refused."""
    came = run(program, ["transactions", b"binlog.\xff"], folder)
    return differs(came, Wanted(2, b"", said("command line refused")))


def judge_empty_files(program: Path, folder: Path) -> list[str]:
    """Hundreds of logs without a transaction have no line."""
    names = put(folder, log_names(400), FRONT)
    return differs(run(program, ["read", *names], folder), Wanted(0, b""))


def checks() -> list[Check]:
    """The checks of words."""
    kinds = ("transactions", "read")
    files = [Check(f"{kind} of {count} files", partial(judge_files, count, kind)) for kind in kinds for count in (8, 9, 30, 500)]
    many = [Check(f"{kind} of 5000 files", partial(judge_many_files, 5_000, kind)) for kind in kinds]
    return [
        *files,
        *many,
        Check("a missing file behind 1100", judge_missing_behind_many),
        Check("all options and twelve files", judge_options),
        Check("all options, the flag for full lines and twelve files", judge_all_and_full),
        Check("an option behind twenty files", judge_option_behind),
        Check("the flag for full lines behind twenty files", judge_flag_behind),
        Check("a missing file in the twentieth place", judge_missing_behind),
        Check("a log fault in the twentieth file", judge_fault_behind),
        Check("a list of thousands of names", judge_long_word),
        *[
            Check(f"files behind {' '.join(words)} --", partial(judge_behind_dashes, words))
            for words in (["transactions"], ["read"], ["read", "--full"])
        ],
        Check("a word that is no text", judge_no_text),
        Check("hundreds of empty logs", judge_empty_files),
    ]
