#!/usr/bin/env python3
"""Times a loop over a reader's events: `bench/events.py PROGRAM LOG..` prints changes a second of processor, the program's with it.

The last two lines are by Python's own json alone, without orjson.
"""
import argparse
import os
import subprocess
import sys
from pathlib import Path

sys.dont_write_bytecode = True
sys.path.insert(0, str(Path(__file__).resolve().parent.parent / "python"))
RUNS = 3


def seconds_of_processor() -> float:
    """What this process and those that it waited for took."""
    return sum(os.times()[:4])


def changes_a_second(program: str, files: list[str], together: bool) -> float:
    """The most of some runs."""
    from binlogfeed import BinLogStreamReader

    most = 0.0
    for _ in range(RUNS):
        begun, count = seconds_of_processor(), 0
        with BinLogStreamReader(files, program=program, together=together) as reader:
            for event in reader:
                count += len(event.rows)
        most = max(most, count / (seconds_of_processor() - begun))
    return most


def main() -> None:
    """Times it, in a process of its own without orjson, too."""
    parser = argparse.ArgumentParser(description=__doc__.splitlines()[0])
    parser.add_argument("--without-orjson", action="store_true", help="only so")
    parser.add_argument("program")
    parser.add_argument("files", nargs="+", metavar="LOG")
    given = parser.parse_args()
    if given.without_orjson:
        sys.modules["orjson"] = None  # an import of it fails
    name = "json" if given.without_orjson else "orjson, where it is installed"
    for together in (True, False):
        found = changes_a_second(given.program, given.files, together)
        print(f"{found:,.0f} changes a second, {'together' if together else 'one by one'}, by {name}", flush=True)
    if not given.without_orjson:
        subprocess.run([sys.executable, *sys.argv[:1], "--without-orjson", *sys.argv[1:]], check=True)


if __name__ == "__main__":
    main()
