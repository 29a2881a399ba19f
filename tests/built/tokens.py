"""Going on after a token: for each line of a run, over its files and over files that continue them, what follows is what stands
behind that line; a token that fits no place is refused by its name."""
from __future__ import annotations

import json
import struct
import subprocess
from collections import Counter
from functools import cache, partial
from pathlib import Path
from typing import NamedTuple

from built.check import SECONDS, Check, Outcome, Wanted, differs, run, said
from built.server_logs import BANK, SHOP, place_of
from logs import FRONT, GTID, MAGIC, A, appended, change_line, change_lines, insert, parts, put, worked_log
from pieces import HEADER_LENGTH

# Files by their names, in the order of the list.
Logs = dict[str, bytes]

# How many reasons a check gives: a program that is wrong at one line is so at many.
REASONS = 4

# Of the bank's lines every one is gone on from over its own files, and one of so many over other lists and with filters.
STEP = 8

# So much memory is given to a run, in KiB: from too little to start the program to more than it needs.
SPACES = range(1 << 10, 1 << 15, 1 << 7)

# Where a transaction is cut in two: behind its first events.
BEGUN = 150


class Place(NamedTuple):
    """The place of a change. Its text is a token."""

    name: str
    position: int
    number: int

    def token(self) -> str:
        """The token's text."""
        return f"{self.position}.{self.number}@{self.name}"


class Continued(NamedTuple):
    """Files that were read, and files that continue them. Of the lines of the file `chosen`, or of all, the last is gone on from,
    and each that stands `step` lines before one of these, with these options."""

    earlier: Logs
    later: Logs
    chosen: str | None = None
    step: int = 1
    options: tuple[str, ...] = ()

    def numbers(self, places: list[Place]) -> list[int]:
        """The numbers of these lines, of all that stand at these places."""
        among = [number for number, place in enumerate(places) if self.chosen in (None, place.name)]
        return among[:: -self.step]


@cache
def logs_in(folder: Path) -> Logs:
    """A folder's logs."""
    return {path.name: path.read_bytes() for path in sorted(folder.glob("binlog.*"))}


def last_unit(log: bytes) -> int:
    """Where the last transaction begins that has a GTID. A log without one has no such place before its end."""
    last, place = len(log), len(MAGIC)
    while place + HEADER_LENGTH <= len(log):
        if log[place + 4] == GTID:
            last = place
        place += struct.unpack_from("<I", log, place + 9)[0]
    return last


def beginning(logs: Logs, count: int, length: int | None = None) -> Logs:
    """The first files, the last of them cut to a length."""
    names = list(logs)[:count]
    return {name: logs[name][: length if name == names[-1] else None] for name in names}


def behind(logs: Logs, count: int) -> Logs:
    """All but the first files."""
    return {name: logs[name] for name in list(logs)[count:]}


def put_logs(folder: Path, logs: Logs) -> list[str]:
    """Writes files, and answers their paths."""
    return [str(folder / name) for name in logs if put(folder, [name], logs[name])]


def read(program: Path, folder: Path, paths: list[str], *options: str) -> Outcome:
    """Runs `read`."""
    return run(program, ["read", *options, *paths], folder)


def lines_of(came: Outcome) -> list[bytes]:
    """The lines that a run wrote."""
    return came.stdout.splitlines(keepends=True)


def place_in(line: bytes) -> Place:
    """The place that a line tells."""
    return Place(*place_of(json.loads(line)))


def at(place: Place, reasons: list[str]) -> list[str]:
    """The same reasons with their token."""
    return [f"from {place.token()}: {reason}" for reason in reasons]


def summed(reasons: list[str]) -> list[str]:
    """The first reasons, and how many there are."""
    return reasons if len(reasons) <= REASONS else [*reasons[:REASONS], f"and so on: {len(reasons)} reasons"]


def judge_continued(case: Continued, program: Path, folder: Path) -> list[str]:
    """The lines up to the token that stand in files that are still there, and those that follow, are all lines of these files."""
    later = put_logs(folder / "later", case.later)
    first = lines_of(read(program, folder, put_logs(folder / "earlier", case.earlier)))
    whole = read(program, folder, later)
    passing = set(lines_of(read(program, folder, later, *case.options)))
    kept = [line for line in first if place_in(line).name in case.later]
    places = [place_in(line) for line in kept]
    lines = lines_of(whole)
    reasons = [] if lines[: len(kept)] == kept else ["the lines up to the token differ"]
    numbers = case.numbers(places)
    for number in numbers:
        follows = [line for line in lines[number + 1 :] if line in passing]
        came = read(program, folder, later, *case.options, "--from", places[number].token())
        reasons += at(places[number], differs(came, whole._replace(stdout=b"".join(follows))))
    return summed(reasons if numbers else ["no line is gone on from"])


def refused(name: str) -> Wanted:
    """How a run ends whose token is refused: nothing was written."""
    return Wanted(3, b"", said(f"token refused: {name}"))


def misfits(unit: Place, rows: int) -> list[tuple[Place, str]]:
    """Tokens that are near a transaction of so many rows and don't fit, with the names of their refusals."""
    return [
        (unit._replace(number=rows + 1), "TokenNoChange"),
        (unit._replace(position=unit.position - 1), "TokenNoTransaction"),
        (unit._replace(position=unit.position + 1, number=rows), "TokenNoTransaction"),
        (unit._replace(name=f"{unit.name}0", number=rows), "TokenNoFile"),
        (unit._replace(name=unit.name[:-1], number=rows), "TokenNoFile"),
    ]


def units_of(program: Path, folder: Path, paths: list[str]) -> list[Place]:
    """Where the transactions and statements begin, each with the number 0."""
    came = run(program, ["transactions", *paths], folder).stdout.decode()
    columns = [line.split("\t") for line in came.splitlines()]
    return [Place(name, int(position), 0) for position, _, _, _, name in columns]


def judge_units(logs: Logs, chosen: str, program: Path, folder: Path) -> list[str]:
    """From before the first change of a transaction of a file its changes follow, too. Tokens that are near it don't fit."""
    paths = put_logs(folder, logs)
    lines = [(line, place_in(line)) for line in lines_of(read(program, folder, paths))]
    rows = Counter(place._replace(number=0) for _, place in lines)
    names = list(logs)
    reasons, passed = [], 0
    units = units_of(program, folder, paths)
    for unit in units:
        follows = b"".join(line for line, _ in lines[passed:])
        passed += rows[unit]
        if unit.name != chosen:
            continue
        needed = paths[names.index(chosen) :]
        reasons += at(unit, differs(read(program, folder, needed, "--from", unit.token()), Wanted(0, follows)))
        for place, name in misfits(unit, rows[unit]):
            reasons += at(place, differs(read(program, folder, needed, "--from", place.token()), refused(name)))
    reasons += [] if passed == len(lines) else ["changes stand in no transaction"]
    return summed(reasons + ([] if any(unit.name == chosen for unit in units) else [f"no transaction stands in {chosen}"]))


def judge_head(logs: Logs, program: Path, folder: Path) -> list[str]:
    """The first five lines, behind which the reader has gone, and what follows the fifth one's token, are the whole."""
    paths = put_logs(folder, logs)
    script = '"$0" read "$@" | head -n 5'
    head = subprocess.run(
        ["sh", "-c", script, program, *paths], cwd=folder, stdin=subprocess.DEVNULL, capture_output=True, timeout=SECONDS, check=False
    ).stdout
    rest = read(program, folder, paths, "--from", place_in(head.splitlines()[4]).token())
    whole = read(program, folder, paths)
    return differs(rest._replace(stdout=head + rest.stdout), Wanted(0, whole.stdout))


def judge_little_memory(logs: Logs, program: Path, folder: Path) -> list[str]:
    """A run behind the first line's token in more and more memory: out of memory behind a beginning of the lines, until all come."""
    paths = put_logs(folder, logs)
    options = ["--from", place_in(read(program, folder, paths).stdout.splitlines()[0]).token()]
    whole = read(program, folder, paths, *options)
    refused = 0
    for kibibytes in SPACES:
        script = f'ulimit -v {kibibytes}; exec "$0" read "$@"'
        words = ["sh", "-c", script, program, *options, *paths]
        shell = subprocess.run(words, cwd=folder, stdin=subprocess.DEVNULL, capture_output=True, timeout=SECONDS, check=False)
        came = Outcome(shell.returncode, shell.stdout, shell.stderr)
        if came == whole and refused:
            return []
        if came.status == 5:
            refused += 1
            begun = whole.stdout.startswith(came.stdout) and came.stdout[-1:] in (b"", b"\n")
            reasons = [] if begun else ["its lines are no beginning"]
            # The line on standard error needs memory, too.
            reasons += differs(came, Wanted(5, None, said("out of memory"))) if came.stderr else []
        else:
            # In too little memory the system doesn't start the program.
            reasons = ["it didn't go on"] if refused else []
        if reasons:
            return [f"in {kibibytes} KiB", *reasons]
    return ["it was never refused memory, or never came to its end"]


def judge_worked(logs: Logs, token: str, wanted: Wanted, program: Path, folder: Path) -> list[str]:
    """A token over worked logs."""
    return differs(read(program, folder, put_logs(folder, logs), f"--from={token}"), wanted)


# Texts that are no token.
NO_TOKEN = (
    "", "x", "153", "153.1", "153.1@", "@log", ".1@log", "153.@log", "0153.1@log", "153.01@log", "00.0@log", "+153.1@log",
    "153.+1@log", "-153.1@log", "153.-1@log", " 153.1@log", "153 .1@log", "153.1 @log", "0x99.1@log", "153,1@log", "153.1.1@log",
    "153.1@a/log", "153.1@/log", "153.1@log/", "18446744073709551616.0@log", "153.18446744073709551616@log",
)  # fmt: skip

# Tokens over a list of a log of two transactions, at 153 and 371, that is called `log`, with how they are refused.
NO_PLACE = (
    ("153.1@log2", "TokenNoFile"),
    ("153.1@Log", "TokenNoFile"),
    ("153.1@log ", "TokenNoFile"),
    ("153.1@log@1", "TokenNoFile"),
    ("0.0@log", "TokenNoTransaction"),
    ("4.0@log", "TokenNoTransaction"),
    ("214.1@log", "TokenNoTransaction"),
    ("589.0@log", "TokenNoTransaction"),
    ("4294967449.1@log", "TokenNoTransaction"),
    ("18446744073709551615.0@log", "TokenNoTransaction"),
    ("18446744073709551615.18446744073709551615@log", "TokenNoTransaction"),
    ("153.2@log", "TokenNoChange"),
    ("153.4294967297@log", "TokenNoChange"),
    ("371.18446744073709551615@log", "TokenNoChange"),
)


def no_token_checks() -> list[Check]:
    """The refusals by name."""
    logs = {"log": worked_log(2)}
    tokens = [(token, "BadToken") for token in NO_TOKEN] + list(NO_PLACE)
    return [Check(f"the token '{token}'", partial(judge_worked, logs, token, refused(name))) for token, name in tokens]


def fault_checks() -> list[Check]:
    """Tokens beside a fault, which stands at 589 of `bad`, behind transactions at 153 and 371."""
    bad, good = appended(worked_log(2), parts("xid")), worked_log(2)
    fault = said("log fault at bad:589: OutOfPlace(16)")
    lines = change_lines(2, "bad").splitlines(keepends=True)
    good_lines = change_lines(2, "good")
    rows = (
        ("153.0@bad", Wanted(1, b"".join(lines), fault)),
        ("153.1@bad", Wanted(1, lines[1], fault)),
        ("371.1@bad", Wanted(1, b"", fault)),
        ("371.2@bad", refused("TokenNoChange")),
        ("152.0@bad", refused("TokenNoTransaction")),
        ("154.1@bad", refused("TokenNoTransaction")),
        ("370.0@bad", refused("TokenNoTransaction")),
        ("372.0@bad", Wanted(1, b"", fault)),
        ("589.1@bad", Wanted(1, b"", fault)),
        ("18446744073709551615.1@bad", Wanted(1, b"", fault)),
        ("153.0@third", Wanted(0, change_lines(2, "third"))),
        ("372.0@third", refused("TokenNoTransaction")),
        ("153.0@good", Wanted(1, good_lines + b"".join(lines), fault)),
        ("372.0@good", refused("TokenNoTransaction")),
    )
    logs = {"good": good, "bad": bad, "third": good}
    unread = {"good": b"\xfdbin", "bad": bad, "third": good}
    whole = [Check(f"the token {token} beside a fault", partial(judge_worked, logs, token, wanted)) for token, wanted in rows]
    own = [
        Check(f"the token {token} behind a bad file", partial(judge_worked, unread, token, wanted))
        for token, wanted in rows
        if not token.endswith("good")
    ]
    return [*whole, *own]


def worked_checks() -> list[Check]:
    """A log whose cut transaction gives way to another one, and logs that are gone, grown and added."""
    half = {"one": worked_log(2), "two": worked_log(3)[:-50]}
    other = {"two": appended(worked_log(2), insert(9)), "three": worked_log(2), "four": FRONT, "five": A}
    rest = change_line(589, 9, "two").encode() + change_lines(2, "three") + change_lines(1, "five")
    long = {name: worked_log(8) for name in ("one", "two", "three")}
    return [
        Check("a cut transaction gives way to another", partial(judge_continued, Continued(half, other))),
        Check("what follows where another came", partial(judge_worked, other, "371.1@two", Wanted(0, rest))),
        Check("a log whose end is cut away", partial(judge_continued, Continued(half, beginning(half, 2, 589)))),
        Check("worked logs", partial(judge_continued, Continued(long, long))),
        Check("worked logs, the first ones gone", partial(judge_continued, Continued(beginning(long, 2), behind(long, 1)))),
        *[Check(f"near the transactions of '{name}'", partial(judge_units, long, name)) for name in long],
    ]


def continued(logs: Logs, step: int) -> list[Continued]:
    """Of each number of files, the last of which ends in a transaction that is cut, lists that continue them: the transaction is
    there as a whole or is gone, so are first files, and further files follow."""
    lists = []
    for count, (name, log) in enumerate(logs.items(), 1):
        unit = last_unit(log)
        earlier = beginning(logs, count, unit + BEGUN)
        if unit == len(log):
            lists.append(Continued(earlier, logs, step=step))
            continue
        later = (logs, {**logs, name: log[:unit]})
        gone = sorted({0, (count - 1) // 2, count - 1})
        lists += [Continued(earlier, behind(whole, first), step=step) for first in gone for whole in later]
    return lists


def server_checks(what: str, logs: Logs, step: int, filters: tuple[tuple[str, ...], ...]) -> list[Check]:
    """The checks over a server's logs. Some of them have no transaction."""
    told = [name for name, log in logs.items() if last_unit(log) < len(log)]
    same = [Continued(logs, logs, chosen=name) for name in told]
    own = [Continued(logs, behind(logs, gone), chosen=name, step=step) for gone, name in enumerate(logs) if gone and name in told]
    filtered = [Continued(logs, logs, step=2 * step, options=options) for options in filters]
    lists = [*same, *own, *filtered, *continued(logs, 1 + step * len(logs) // 2)]
    return [
        *[Check(f"{what}: {title(one)}", partial(judge_continued, one)) for one in lists],
        *[Check(f"{what}: near the transactions of {name}", partial(judge_units, logs, name)) for name in told],
        Check(f"{what}: five lines and what follows", partial(judge_head, logs)),
        Check(f"{what}: little memory behind a token", partial(judge_little_memory, logs)),
    ]


def title(case: Continued) -> str:
    """What a list is continued with, and which lines are gone on from."""
    lengths = [sum(map(len, logs.values())) for logs in (case.earlier, case.later)]
    files = f"{len(case.earlier)} files of {lengths[0]} bytes, then {len(case.later)} of {lengths[1]}"
    return " ".join([files, f"behind lines of {case.chosen or 'all'}", *case.options])


SHOP_FILTERS = (("--only-events", "update"), ("--ignored-tables", "product"))
BANK_FILTERS = (("--only-tables", "journal"), ("--only-events", "update,delete"))


def checks() -> list[Check]:
    """The checks of tokens."""
    return [
        *no_token_checks(),
        *fault_checks(),
        *worked_checks(),
        *server_checks("the shop", logs_in(SHOP), 1, SHOP_FILTERS),
        *server_checks("the bank", logs_in(BANK), STEP, BANK_FILTERS),
    ]
