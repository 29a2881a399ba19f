#!/usr/bin/env python3
"""Runs the built program over every row and over the checks of this folder, and says what differs.

The programs are those that `rt ci` leaves: one built by LLVM, one by Rattle's own compiler. Those that are there are taken.
The last line is `N passed, M failed`; the exit status is 1 where something failed.
"""
from __future__ import annotations

import argparse
import os
import sys
import tempfile
from concurrent.futures import ThreadPoolExecutor
from pathlib import Path
from typing import NamedTuple

sys.dont_write_bytecode = True

from built import (  # noqa: E402
    charsets, collations, costs, faults, floats, following, full_lines, geometry, help_text, json_documents, library_page, lists,
    rare_paths, refusals, rows, server_documents, server_logs, server_profile, statements, system, terminal, tokens, truth, words, wrapper,
)  # fmt: skip
from built.check import Check  # noqa: E402
from least_counts import lacking  # noqa: E402

TOP = Path(__file__).resolve().parent.parent
PROGRAMS = [TOP / "crates/program/out/program", TOP / "crates/program/out/program.by-rattle"]
PARTS = (
    system, rare_paths, rows, words, faults, help_text, terminal, server_logs, server_profile, statements, tokens, truth, geometry, collations,
    charsets, full_lines, floats, json_documents, server_documents, refusals, following, lists, costs,
)  # fmt: skip


class Task(NamedTuple):
    """A check of one program."""

    program: Path
    check: Check


class Failure(NamedTuple):
    """A check that failed, and why."""

    name: str
    reasons: list[str]


def given_words() -> argparse.Namespace:
    """Reads the command line."""
    parser = argparse.ArgumentParser(description=__doc__.split("\n", maxsplit=1)[0])
    parser.add_argument("--program", type=Path, metavar="PATH", help="only this program, in place of those that rt ci built")
    parser.add_argument("--write-costs", action="store_true", help="only write costs.tsv anew, by what the program costs")
    parser.add_argument("--gate", action="store_true", help="a program that isn't there is a failure")
    return parser.parse_args()


def counted(checks: list[Check]) -> Check:
    """Beside the rows, no check of a program got lost."""
    others = len(checks) - len(rows.all_rows())
    return Check("there are checks", lambda _program, _folder: lacking("checks", others))


def tasks_of(programs: list[Path], checks: list[Check], missing: list[Path]) -> list[Task]:
    """Each check of each program. Of the programs, those that aren't there are noted."""
    if not checks:
        return []
    there = [program for program in programs if os.access(program, os.X_OK)]
    missing += [program for program in programs if program not in there]
    return [Task(program, check) for check in checks for program in there]


def judge(task: Task) -> Failure | None:
    """Runs a check of a program in a folder of its own. A check that breaks has failed."""
    with tempfile.TemporaryDirectory(prefix="binlogfeed-") as folder:
        try:
            reasons = task.check.judge(task.program, Path(folder))
        except Exception as error:  # what a wrong program makes of a check is a failure of that program
            reasons = [f"{type(error).__name__}: {error}"]
    return Failure(f"{task.check.name} ({task.program.name})", reasons) if reasons else None


def judged(tasks: list[Task]) -> list[Failure]:
    """Runs the tasks, as many at a time as there are processors."""
    with ThreadPoolExecutor(len(os.sched_getaffinity(0))) as workers:
        return [failure for failure in workers.map(judge, tasks) if failure]


def report(failures: list[Failure], passed: int) -> int:
    """Prints each failure and the last line, and answers the exit status."""
    for failure in failures:
        print(f"FAILED: {failure.name}")
        for reason in failure.reasons:
            print(f"  {reason}")
    print(f"{passed} passed, {len(failures)} failed")
    return 1 if failures else 0


def main() -> int:
    """Judges the programs."""
    given = given_words()
    if given.write_costs:
        costs.write(given.program.absolute() if given.program else costs.PROGRAMS[0])
        return 0
    missing: list[Path] = []
    programs = [given.program.absolute()] if given.program else PROGRAMS
    checks = [check for part in PARTS for check in part.checks()]
    tasks = tasks_of(programs, [counted(checks), *checks], missing)
    tasks += tasks_of([given.program.absolute()] if given.program else costs.PROGRAMS, costs.counted_checks(), missing)
    print(rows.summary(), flush=True)
    if not given.program:
        stories = [*library_page.checks(), *rare_paths.index_checks(), *refusals.index_checks()]
        tasks += tasks_of(library_page.PROGRAMS, stories, missing)
    if given.gate:
        tasks += tasks_of([wrapper.PROGRAM], wrapper.checks(), missing)
    for program in missing:
        print(f"not there: {program}", flush=True)
    failures = judged(tasks)
    passed = len(tasks) - len(failures)
    if given.gate or not tasks:
        failures += [Failure(str(program), ["it isn't there: rt ci builds it"]) for program in missing]
    return report(failures, passed)


if __name__ == "__main__":
    sys.exit(main())
