#!/usr/bin/env python3
"""Times `summary` beside `read`.

    bench/summary.py FOLDER [--bytes N] [--program PATH] [--runs N]

FOLDER gets the logs that bench/make_log.py makes, one after the other. Over each of them `read` and `summary` run five
times in turns, with their output thrown away. It prints the best and the middle of their seconds by the clock, the
seconds of processor time of the best run, and the most memory that one process of a summary took.
"""
import argparse
import os
import pathlib
import statistics
import subprocess
import sys
import time

from run import KINDS, PROGRAM, RUNS, TOP, make

ENVIRONMENT = {**os.environ, "PYTHONPATH": str(TOP / "python")}


def taken(words):
    """Seconds by the clock and of processor time, and the memory in MB of the largest process."""
    start = time.monotonic()
    with open(os.devnull, "wb") as nowhere:
        child = subprocess.Popen([str(word) for word in words], stdout=nowhere, env=ENVIRONMENT)
    _, status, used = os.wait4(child.pid, 0)
    child.returncode = os.waitstatus_to_exitcode(status)
    if child.returncode:
        sys.exit(f"{words}: status {child.returncode}")
    return time.monotonic() - start, used.ru_utime + used.ru_stime, used.ru_maxrss / 1000


def time_log(log, program, runs):
    """The table's row for a log."""
    read = [program, "read", log]
    summary = [sys.executable, "-m", "binlogfeed", "summary", "--program", program, log]
    times = [(taken(read), taken(summary)) for _ in range(runs)]
    cells = []
    for one in zip(*times):
        best = min(one)
        cells += [f"{best[0]:.2f}", f"{statistics.median(clock for clock, _, _ in one):.2f}", f"{best[1]:.2f}"]
    ratios = [summary[0] / read[0] for read, summary in times]
    return [*cells, f"{statistics.median(ratios):.2f}", f"{max(summary[2] for _, summary in times):.0f}"]


def main():
    """Makes the logs, and prints a table."""
    parser = argparse.ArgumentParser(description=__doc__.split("\n", maxsplit=1)[0])
    parser.add_argument("folder", type=pathlib.Path)
    parser.add_argument("--bytes", type=int, default=200_000_000)
    parser.add_argument("--program", type=pathlib.Path, default=PROGRAM)
    parser.add_argument("--runs", type=int, default=RUNS)
    given = parser.parse_args()
    print(f"{os.cpu_count()} processors, load {os.getloadavg()[0]:.1f}, Python {sys.version.split()[0]}\n")
    print("| Log | `read`: best | middle | processor | `summary`: best | middle | processor | Ratio, middle | MB |")
    print("|---|---|---|---|---|---|---|---|---|")
    for kind in KINDS:
        log = make(given.folder, kind, given.bytes)
        print(f"| {kind} | {' | '.join(time_log(log, given.program.absolute(), given.runs))} |", flush=True)
        log.unlink()


if __name__ == "__main__":
    main()
