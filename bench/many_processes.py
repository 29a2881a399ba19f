#!/usr/bin/env python3
"""Times the reading of many files by one process, by 1, 2 and 4 at once, and by as many workers of dask.distributed.

    bench/many_processes.py FOLDER [--files N] [--bytes N] [--processes 1,2,4] [--runs N] [--program PATH] [--python PATH]

FOLDER gets a log of the shop, as bench/make_log.py makes it (25 MB), under N names (16), and the lines of it: some 31 MB for a
file, three times. Each command runs three times, in turns, and the fastest counts; what it wrote has to be what one
`binlogfeed read` writes. The workers' times have the start of their cluster in them. They are left out where the Python
at --python (/usr/bin/python3) has no dask.distributed. Let nothing else run meanwhile.
"""
import argparse
import os
import pathlib
import shlex
import shutil
import subprocess
import sys
import time

TOP = pathlib.Path(__file__).resolve().parent.parent
PROGRAM = TOP / "crates" / "program" / "out" / "program"
MANY = TOP / "examples" / "many_machines" / "read.py"


def make(folder, count, size):
    """A log under many names: their bytes are stored once. None has a ROTATE, so none has to name the next."""
    logs = folder / "logs"
    shutil.rmtree(logs, ignore_errors=True)
    logs.mkdir(parents=True)
    first = logs / "binlog.000001"
    subprocess.run([TOP / "bench" / "make_log.py", first, str(size), "shop"], stdout=subprocess.DEVNULL, check=True)
    for number in range(2, count + 1):
        os.link(first, logs / f"binlog.{number:06}")
    return [logs / f"binlog.{number:06}" for number in range(1, count + 1)]


def seconds(command, out):
    """How long a command of the shell takes by the clock."""
    start = time.monotonic()
    with open(out, "wb") as file:
        subprocess.run(["bash", "-euc", command], stdout=file, check=True)
    return time.monotonic() - start


def many_at_once(program, logs, parts, processes):
    """The command for one machine: the files' lines go to files of their own, which are joined in their order."""
    names = " ".join(shlex.quote(str(log)) for log in logs)
    one = f"{shlex.quote(str(program))} read \"$1\" > {shlex.quote(str(parts))}/\"${{1##*/}}\".jsonl"
    return f"printf '%s\\n' {names} | xargs -P {processes} -I FILE sh -c {shlex.quote(one)} sh FILE && cat {shlex.quote(str(parts))}/*.jsonl"


def commands(given, logs):
    """The commands by their names in the table."""
    parts = given.folder / "parts"
    shutil.rmtree(parts, ignore_errors=True)
    parts.mkdir()
    found = {"`binlogfeed read FILE..`": shlex.join([str(given.program), "read", *map(str, logs)])}
    for processes in given.processes:
        found[f"`xargs -P {processes}`, and `cat`"] = many_at_once(given.program, logs, parts, processes)
    if subprocess.run([given.python, "-c", "import dask.distributed"], capture_output=True, check=False).returncode == 0:
        pattern = str(logs[0].parent / "binlog.0*")
        for workers in given.processes:
            words = [given.python, str(MANY), "--workers", str(workers), "--parts", str(parts), "--program", str(given.program), pattern]
            found[f"`read.py --workers {workers}`"] = shlex.join(words)
    else:
        print(f"{given.python} has no dask.distributed: its workers are left out", file=sys.stderr)
    return found


def main():
    """Makes the logs, and prints a table."""
    reader = argparse.ArgumentParser(description="Times the reading of many files at once.")
    reader.add_argument("folder", type=pathlib.Path)
    reader.add_argument("--files", type=int, default=16)
    reader.add_argument("--bytes", type=int, default=25_000_000)
    reader.add_argument("--processes", type=lambda text: [int(word) for word in text.split(",")], default=[1, 2, 4])
    reader.add_argument("--runs", type=int, default=3)
    reader.add_argument("--program", type=pathlib.Path, default=PROGRAM)
    reader.add_argument("--python", default="/usr/bin/python3")
    given = reader.parse_args()
    given.folder = given.folder.absolute()
    logs = make(given.folder, given.files, given.bytes)
    best, wanted, came = {}, given.folder / "wanted", given.folder / "came"
    found = commands(given, logs)
    for _ in range(given.runs):
        for name, command in found.items():
            out = came if best else wanted
            best[name] = min(best.get(name, float("inf")), seconds(command, out))
            if out == came and subprocess.run(["cmp", "--silent", wanted, came], check=False).returncode != 0:
                sys.exit(f"{name}: it wrote other bytes")
    size = sum(log.stat().st_size for log in logs)
    print(f"\n{len(logs)} files, {size} bytes of logs, {wanted.stat().st_size} bytes of lines, {os.cpu_count()} processors\n")
    print("| Command | Seconds by the clock |\n|---|---|")
    for name, taken in best.items():
        print(f"| {name} | {taken:.2f} |")


if __name__ == "__main__":
    main()
