#!/usr/bin/env python3
"""Runs the tests of tests/unproved/: programs over the libraries, which promise nothing themselves and so have no proof.

usage: tests/unproved.py [--only FILE.cases | --format] [NAME ..]

Their text is Rattle's, in files that end in `.rattle`, since `rt ci` takes each file `.rt` for one that has to be proved. This script lays
them out in a temporary folder, beside copies of the libraries that tests/unproved/libraries.txt says, and runs them there by `rt try`. It
compiles them and the libraries' sources by LLVM, with a check of each access to memory. NAME is `cases`, which carries out the cases of
docs/CASES.md, or `system_files`, tests over files of the system; without one, both are run.

`cases` has to print what its file `stdout` says, and of the tests each has to pass. --only prints what the cases of one file come to.
--format writes the texts anew in the layout of `rt fmt`, which else they have to have. The last line is `N passed, M failed`.
"""
import argparse
import re
import shutil
import subprocess
import sys
import tempfile
from difflib import unified_diff
from pathlib import Path
from typing import NamedTuple

TOP = Path(__file__).resolve().parent.parent
HOME = TOP / "tests/unproved"
SHOP = TOP / "examples/shop"
# How many seconds a program may take.
SECONDS = 1200
# How many failures of a program are shown.
SHOWN = 40
# What `rt try --test` says of a test.
TEST = re.compile(r"^test (\S+) \.\.\. (ok|FAILED)$", re.MULTILINE)


class Came(NamedTuple):
    """What came of a part: how many passed, and what failed."""

    passed: int
    failures: list[str]


def lines_of(path: Path) -> list[str]:
    """The lines of a file of crates."""
    return path.read_text(encoding="utf-8").splitlines()


def names() -> list[str]:
    """The programs, in the order of their file."""
    return [line.partition(":")[0] for line in lines_of(HOME / "libraries.txt") if not line.startswith("#")]


def lay_out(room: Path) -> None:
    """Lays out the programs as crates beside copies of all others."""
    shutil.copytree(TOP / "crates", room / "crates", ignore=shutil.ignore_patterns("out", "proofs", "must-fail", "wrong-bodies"))
    (room / "crates.txt").write_text("\n".join([*lines_of(TOP / "crates.txt"), *lines_of(HOME / "libraries.txt")]) + "\n", encoding="utf-8")
    for file in sorted(HOME.glob("*/src/**/*.rattle")):
        copy = laid_out(room, file)
        copy.parent.mkdir(parents=True, exist_ok=True)
        shutil.copy(file, copy)


def laid_out(room: Path, file: Path) -> Path:
    """Where a program's file lies in the room."""
    return room / "crates" / file.relative_to(HOME).with_suffix(".rt")


def formatted(room: Path, name: str) -> list[Path]:
    """The files of a program that `rt fmt` changes. It does so in the room."""
    subprocess.run(["rt", "fmt"], cwd=room / "crates" / name, check=True, stdout=subprocess.DEVNULL)
    return [file for file in sorted(HOME.glob(f"{name}/src/**/*.rattle")) if laid_out(room, file).read_bytes() != file.read_bytes()]


def tried(room: Path, name: str, words: list[str], text: str = "") -> subprocess.CompletedProcess:
    """What `rt try` says of a program with this input."""
    command = ["rt", "try", "--seconds", str(SECONDS), *words]
    return subprocess.run(command, cwd=room / "crates" / name, input=text, capture_output=True, text=True, check=False)


def data_of(name: str) -> list[str]:
    """The files that lie where a program runs: its own, and the shop's logs."""
    files = {file.name: file for file in sorted((HOME / name / "data").iterdir())}
    files |= {f"shop/{file.name}": file for file in sorted(SHOP.glob("binlog.*"))}
    return [word for place, file in files.items() for word in ("--data", f"{place}={file}")]


def try_program(room: Path, name: str) -> Came:
    """Runs a program, whose output has to be its file `stdout`."""
    ended = tried(room, name, data_of(name), (HOME / name / "stdin").read_text(encoding="utf-8"))
    wanted, came = lines_of(HOME / name / "stdout"), ended.stdout.splitlines()
    failures = [line for line in unified_diff(wanted, came, "wanted", "came", lineterm="", n=0) if line[:1] in "+-"]
    if ended.returncode:
        failures.append(f"status {ended.returncode}: {ended.stderr[-2000:]}")
    return Came(0 if failures else len(came), failures)


def try_tests(room: Path, name: str) -> Came:
    """Runs a library's tests, each of which has to pass."""
    ended = tried(room, name, ["--test"])
    outcomes = TEST.findall(ended.stdout + ended.stderr)
    failures = [test for test, outcome in outcomes if outcome != "ok"]
    if ended.returncode or not outcomes:
        failures.append(f"status {ended.returncode}: {ended.stdout[-2000:]}{ended.stderr[-2000:]}")
    return Came(sum(outcome == "ok" for _, outcome in outcomes), failures)


def judge(room: Path, name: str) -> Came:
    """Runs a program or a library's tests, and looks at the layout of its files."""
    layout = [f"{file.relative_to(TOP)} is not in the layout of rt fmt: tests/unproved.py --format" for file in formatted(room, name)]
    came = (try_program if (HOME / name / "stdout").exists() else try_tests)(room, name)
    return Came(came.passed + (not layout), layout + came.failures)


def format_all(room: Path) -> int:
    """Writes the files of all programs in the layout of `rt fmt`."""
    for name in names():
        for file in formatted(room, name):
            shutil.copy(laid_out(room, file), file)
            print(f"formatted {file.relative_to(TOP)}")
    return 0


def print_cases(room: Path, file: str) -> int:
    """Prints what the cases of one file come to."""
    ended = tried(room, "cases", data_of("cases"), f"from pieces.cases\nfrom {file}\n")
    print(ended.stdout + (ended.stderr if ended.returncode else ""), end="")
    return ended.returncode


def judge_all(room: Path, chosen: list[str]) -> int:
    """Runs what was chosen, and prints what failed and the counts."""
    came = {name: judge(room, name) for name in chosen}
    for name, (passed, failures) in came.items():
        print(f"{name}: {passed} passed, {len(failures)} failed")
        for failure in failures[:SHOWN]:
            print(f"  {failure}")
    failed = sum(len(failures) for _, failures in came.values())
    print(f"{sum(passed for passed, _ in came.values())} passed, {failed} failed")
    return 1 if failed else 0


def main() -> int:
    """Runs the tests that the command line asks for."""
    parser = argparse.ArgumentParser(description=__doc__.split("\n", maxsplit=1)[0])
    what = parser.add_mutually_exclusive_group()
    what.add_argument("--only", metavar="FILE.cases", help="print what the cases of this file come to")
    what.add_argument("--format", action="store_true", help="lay the texts out as rt fmt does")
    parser.add_argument("names", nargs="*", metavar="NAME", help=f"of {', '.join(names())}")
    given = parser.parse_args()
    if unknown := [name for name in given.names if name not in names()]:
        parser.error(f"tests/unproved/libraries.txt names no {' and no '.join(unknown)}")
    with tempfile.TemporaryDirectory(prefix="binlogfeed-") as folder:
        room = Path(folder)
        lay_out(room)
        if given.format:
            return format_all(room)
        if given.only:
            return print_cases(room, given.only)
        return judge_all(room, given.names or names())


if __name__ == "__main__":
    sys.exit(main())
