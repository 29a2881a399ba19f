#!/usr/bin/env python3
"""Times the program over large logs, beside `cat` and plain copies, and says how much memory each took.

    bench/run.py FOLDER [--bytes N] [--program PATH] [--beside PATH] [--count]

FOLDER gets the logs that bench/make_log.py makes, of the shop, of wide rows, of a bulk load, and of documents and the same bytes
as BLOBs, with a copy and lines; it needs four times the room of a log. Each command runs five times, in turns, and the fastest
counts. --beside names another program that takes the same words, `read FILE` and `transactions FILE`, and is timed in the same turns. It needs no full lines
(`read --full`), which are only asked of the program itself. --count has valgrind count the instructions over logs of 4 MB, too.
The program must have been built (./binlogfeed --help).
"""

import argparse
import json
import os
import pathlib
import re
import subprocess
import sys
import time

TOP = pathlib.Path(__file__).resolve().parent.parent
PROGRAM = TOP / "crates" / "program" / "out" / "program"
KINDS = ("shop", "wide", "bulk", "documents", "blobs")
RUNS = 5
COUNTED_BYTES = 4_000_000


def peak(pid):
    """The greatest memory of a process so far, in kB; 0 where it has ended."""
    try:
        status = pathlib.Path(f"/proc/{pid}/status").read_text()
    except OSError:
        return 0
    return sum(int(line.split()[1]) for line in status.splitlines() if line.startswith("VmHWM"))


def run(words, out):
    """Seconds of processor time, seconds by the clock, and the greatest memory in kB, looked at every few milliseconds."""
    memory = 0
    with open(out, "wb") as file:
        start = time.monotonic()
        child = subprocess.Popen([str(word) for word in words], stdout=file)
        while True:
            memory = max(memory, peak(child.pid))
            ended, status, used = os.wait4(child.pid, os.WNOHANG)
            if ended:
                break
            time.sleep(0.003)
        taken = time.monotonic() - start
    if status != 0:
        sys.exit(f"{words}: status {os.waitstatus_to_exitcode(status)}")
    return used.ru_utime + used.ru_stime, taken, memory


def instructions(words, folder):
    """How many instructions a command takes."""
    words = ["valgrind", "--tool=callgrind", f"--callgrind-out-file={folder / 'counted'}", *map(str, words)]
    said = subprocess.run(words, stdout=subprocess.DEVNULL, stderr=subprocess.PIPE, text=True, check=True).stderr
    return int(re.search(r"Collected : (\d+)", said)[1])


def make(folder, kind, size):
    """A log of this kind in a folder of its own."""
    (folder / kind).mkdir(parents=True, exist_ok=True)
    log = folder / kind / "binlog.000001"
    subprocess.run([TOP / "bench" / "make_log.py", log, str(size), kind], stdout=subprocess.DEVNULL, check=True)
    return log


def late_token(lines):
    """The token of a line near the end of the lines."""
    with open(lines, "rb") as file:
        file.seek(max(0, os.path.getsize(lines) - 200_000))
        return json.loads(file.read().splitlines()[-10])["token"]


def time_log(folder, kind, log, programs):
    """Prints a line for each command over a log. Lines of the first program are kept for the copy, and for a token."""
    lines, copy, nowhere = folder / "lines", folder / "copy", os.devnull
    run([programs[0][1], "read", log], lines)
    with open(lines, "rb") as text:
        changes = sum(1 for _ in text)
    token = late_token(lines)
    commands = [("`cat FILE >/dev/null`", ["cat", log], nowhere), ("`cat FILE >COPY`", ["cat", log], copy), ("`cat LINES >COPY`", ["cat", lines], copy)]
    for name, program in programs:
        for word in ("read", "transactions"):
            commands.append((f"`{name} {word} FILE >/dev/null`", [program, word, log], nowhere))
    name, program = programs[0]
    commands.append((f"`{name} read --full FILE >/dev/null`", [program, "read", "--full", log], nowhere))
    commands.append((f"`{name} read FILE >LINES`", [program, "read", log], folder / "again"))
    commands.append((f"`{name} read --only-tables none FILE`", [program, "read", "--only-tables", "none", log], nowhere))
    commands.append((f"`{name} read --from TOKEN FILE`", [program, "read", "--from", token, log], nowhere))
    best = {}
    for _ in range(RUNS):
        for what, words, out in commands:
            best[what] = min(best.get(what, (float("inf"),)), run(words, out))
    print(f"\n{kind}: {log.stat().st_size} bytes of log, {changes} changes, {lines.stat().st_size} bytes of lines\n")
    print("| Command | Seconds of processor | By the clock | Memory, MB |\n|---|---|---|---|")
    for what, (processor, taken, memory) in best.items():
        print(f"| {what} | {processor:.2f} | {taken:.2f} | {memory / 1000:.1f} |", flush=True)


def output(words):
    """What a command writes."""
    return subprocess.run(words, stdout=subprocess.PIPE, check=True).stdout


def count_log(folder, kind, programs):
    """Prints the instructions for each change of a small log. Full lines are the first program's alone; last stands how many bytes they
    have for each byte of plain ones."""
    log = make(folder / "counted_logs", kind, COUNTED_BYTES)
    ours = programs[0][1]
    lines = output([ours, "read", log])
    changes = lines.count(b"\n")
    longer = len(output([ours, "read", "--full", log])) / len(lines)
    for name, program in programs:
        each = [instructions([program, *words, log], folder) / changes for words in (["read"], ["transactions"])]
        texts = [f"{count:,.0f}" for count in each]
        is_ours = program == ours
        texts += [f"{instructions([program, 'read', '--full', log], folder) / changes:,.0f}", f"{longer:.2f}"] if is_ours else ["", ""]
        print(f"| {kind} | {name} | {' | '.join(texts)} |", flush=True)


def main():
    reader = argparse.ArgumentParser(description="Times the program over large logs.")
    reader.add_argument("folder", type=pathlib.Path)
    reader.add_argument("--bytes", type=int, default=200_000_000)
    reader.add_argument("--program", type=pathlib.Path, default=PROGRAM)
    reader.add_argument("--beside", type=pathlib.Path)
    reader.add_argument("--count", action="store_true")
    given = reader.parse_args()
    programs = [("binlogfeed", given.program)] + ([(given.beside.name, given.beside)] if given.beside else [])
    for kind in KINDS:
        log = make(given.folder, kind, given.bytes)
        time_log(given.folder, kind, log, programs)
        log.unlink()
    if given.count:
        print("\n| Log | Program | Instructions for each change: read | transactions | read --full | bytes of full lines for one of plain ones |")
        print("|---|---|---|---|---|---|")
        for kind in KINDS:
            count_log(given.folder, kind, programs)


if __name__ == "__main__":
    main()
