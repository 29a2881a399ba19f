"""Following logs that grow: with kills at any moment, by a shell's line, and at a cost that doesn't grow with the file."""
from __future__ import annotations

import json
import re
import subprocess
from collections.abc import Sequence
from functools import cache, partial
from pathlib import Path
from random import Random

from built.check import SECONDS, Check, Outcome, Wanted, differs, run, text_differs
from built.growing import Driver, Server
from built.server_logs import BANK, SHOP, logs_of
from logs import change_lines, put, worked_log

# The transactions of a log of 4 MB, and of one of 40 MB.
SIZES = (18_350, 183_500)
# Logs are grown so many times.
ROUNDS = 12
# A look's instructions may differ by this share.
SHARE = 0.05
# So many looks are counted, behind the first.
LOOKS = 50
# A log grows behind so many looks that find nothing new, and behind each fewer.
IDLE = 30

# What a shell's loop over `ls` writes, with the program as its word $0. The log grows behind the second list.
LOOP = """
for look in 1 2 3 4; do
    ls -v logs/binlog.0*; echo
    sleep 0.05
    if [ $look = 2 ]; then mv whole logs/binlog.000002; fi
done | "$0" read --follow
"""


class Reader:
    """Takes the lines of runs that are killed. Each new run begins behind the last line that came whole."""

    def __init__(self, program: Path, words: Sequence[str], chance: Random) -> None:
        """A reader that has nothing yet."""
        self.lines, self.kills = b"", 0
        self._program, self._words, self._chance = program, words, chance
        self._driver = self._begun()
        self._told: list[Path] = []

    def look(self, paths: list[Path]) -> None:
        """Looks at files. One look in five is killed on the way."""
        told, self._told = self._told, paths
        files = () if told == paths else paths
        if self._chance.random() < 0.2:
            self._driver.tell(*files)
            self._take(self._driver.killed(self._chance.choice((0, 0.001, 0.003))))
            self.kills += 1
            self._driver, self._told = self._begun(), []
        else:
            self._take(self._driver.look(*files))

    def token(self) -> str | None:
        """The token of the last line."""
        return json.loads(self.lines.splitlines()[-1])["token"] if self.lines else None

    def ended(self) -> tuple[int, bytes, bytes]:
        """How the last run ends with its input."""
        return self._driver.ended()

    def _take(self, came: bytes) -> None:
        """Keeps the lines that came whole."""
        self.lines += b"".join(line for line in came.splitlines(keepends=True) if len(line) > 1 and line.endswith(b"\n"))

    def _begun(self) -> Driver:
        """A run that begins behind the last line."""
        token = self.token()
        return Driver(self._program, *self._words, *([f"--from={token}"] if token else []))


def grown(seed: int, files: list[Path], words: tuple[str, ...], program: Path, folder: Path) -> tuple[Reader, Outcome]:
    """Grows logs by random steps, rotates and purges them, and kills the runs that follow them. Answers how the last one ended."""
    folder.mkdir()
    chance = Random(seed)
    server, reader, goes_on = Server(folder, files, chance), Reader(program, words, chance), True
    while goes_on:
        goes_on = server.step()
        if chance.random() < 0.2 and (token := reader.token()):
            server.purge(token.partition("@")[2])
        if chance.random() < 0.5:
            reader.look(server.paths)
    reader.look(server.paths)
    return reader, Outcome(*reader.ended())


def judge_kills(where: Path, words: tuple[str, ...], program: Path, folder: Path) -> list[str]:
    """Each line comes once, whatever happens to the logs and to the runs."""
    files = [Path(path) for path in logs_of(where)]
    wanted = run(program, ["read", *words, *map(str, files)], folder).stdout
    reasons, kills = [], 0
    for seed in range(ROUNDS):
        reader, outcome = grown(seed, files, words, program, folder / str(seed))
        kills += reader.kills
        differences = differs(outcome, Wanted(0)) + text_differs("lines", reader.lines, wanted)
        reasons += [f"round {seed}: {reason}" for reason in differences]
    return reasons + ([] if kills > ROUNDS else [f"only {kills} runs were killed"])


def judge_loop(program: Path, folder: Path) -> list[str]:
    """A shell's loop tells the files. The second log is empty at first."""
    put(folder, ["logs/binlog.000001", "whole"], worked_log(2))
    put(folder, ["logs/binlog.000002"], b"")
    shell = subprocess.run(
        ["bash", "-c", LOOP, program], cwd=folder, stdin=subprocess.DEVNULL, capture_output=True, timeout=SECONDS, check=False
    )
    lines = [line for line in shell.stdout.splitlines(keepends=True) if line != b"\n"]
    looks = len(shell.stdout.splitlines()) - len(lines)
    wanted = change_lines(2, "binlog.000001") + change_lines(2, "binlog.000002")
    reasons = [] if looks == 4 else [f"{looks} looks were answered, not 4"]
    return reasons + differs(Outcome(shell.returncode, b"".join(lines), shell.stderr), Wanted(0, wanted))


@cache
def log_of(count: int) -> bytes:
    """A log of so many transactions."""
    return worked_log(count)


def instructions(program: Path, folder: Path, looks: int) -> int:
    """The instructions of a run that looks so often at a log that doesn't grow."""
    words = ["valgrind", "--tool=callgrind", "--callgrind-out-file=/dev/null", program, "read", "--follow", "--only-tables=none", "log"]
    said = subprocess.run(words, cwd=folder, input=b"\n" * looks, capture_output=True, check=True).stderr
    return int(re.search(rb"Collected : (\d+)", said)[1])


def judge_cost(program: Path, folder: Path) -> list[str]:
    """A look that finds nothing new takes as many instructions over a log of 40 MB as over one of 4 MB, the second look, too.

    No change passes the filter: so the reader finds where the lines go on without having given one.
    """
    costs = []
    for count in SIZES:
        put(folder, ["log"], log_of(count))
        costs.append((instructions(program, folder, LOOKS) - instructions(program, folder, 0)) / LOOKS)
    short, long = costs
    return [] if abs(long - short) <= SHARE * short else [f"a look takes {short:,.0f} instructions over 4 MB, and {long:,.0f} over 40 MB"]


def judge_idle(program: Path, folder: Path) -> list[str]:
    """Each look sees the log as it is when it is asked for, however many before it found nothing new."""
    path, whole = folder / "log", worked_log(IDLE + 2)
    path.write_bytes(worked_log(1))
    driver = Driver(program)
    answers = [driver.look(path)]
    for idle in range(IDLE + 1):
        answers += [driver.look() for _ in range(idle)]
        with path.open("ab") as log:
            log.write(whole[path.stat().st_size : len(worked_log(idle + 2))])
        answers.append(driver.look())
    lines = change_lines(IDLE + 2, "log").splitlines(keepends=True)
    wanted = [lines[0]]
    for idle in range(IDLE + 1):
        wanted += [b""] * idle + [lines[idle + 1]]
    late = [str(look) for look, (answer, want) in enumerate(zip(answers, wanted)) if answer != want]
    return ([f"looks {', '.join(late)} tell something else"] if late else []) + differs(Outcome(*driver.ended()), Wanted(0))


def checks() -> list[Check]:
    """The checks of runs that follow logs."""
    growing = ((SHOP, ()), (SHOP, ("--full",)), (BANK, ()), (BANK, ("--only-tables=account",)))
    return [
        *[
            Check(f"{where.name}'s logs grow, and runs are killed{''.join(words) and f' ({words[0]})'}", partial(judge_kills, where, words))
            for where, words in growing
        ],
        Check("a shell's loop tells the files that are followed", judge_loop),
        Check("a look's instructions don't grow with the file", judge_cost),
        Check("a look behind idle ones sees what has grown", judge_idle),
    ]
