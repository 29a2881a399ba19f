"""What reading costs: instructions, calls of the system, requests for memory, and the most memory that is held at once.

Nothing proves that the program is fast, or that it holds little. So these counts are held to those of tests/costs.tsv: a run
over small logs may differ from them by three in a hundred, in either direction. Who changes a cost on purpose writes the file
anew, by `tests/program.py --write-costs`, and commits it with the change.

valgrind counts instructions and calls, and what is preloaded (refuse_request.c) the memory. Neither hangs on the machine's speed
or on what else it does. The environment is all but empty: the C library is told to copy memory as any processor of its kind can.
"""
import re
import shutil
import subprocess
import tempfile
from collections.abc import Callable
from functools import cache, partial
from pathlib import Path
from typing import NamedTuple

from built.check import SECONDS, Check
from built.cost_logs import everyday, many_tables, one_table, one_transaction
from built.preloaded import Memory, run_preloaded
from logs import put, wide_tables

TOP = Path(__file__).resolve().parents[2]
FIGURES = TOP / "tests/costs.tsv"
# What LLVM builds is counted. Rattle's own compiler makes other instructions.
PROGRAMS = [TOP / "crates/program/out/program"]
# A count may differ by this share, and by so many more: the system's loader makes some of the calls.
SHARE, FEW = 0.03, 4
ENVIRONMENT = {"GLIBC_TUNABLES": "glibc.cpu.hwcaps=-AVX2,-AVX2_Usable,-AVX512F,-AVX_Fast_Unaligned_Load,-ERMS,-FSRM"}
VALGRIND = ("--tool=callgrind", "--trace-syscalls=yes", "--callgrind-out-file=/dev/null")
CALL = re.compile(rb"^SYSCALL\[\d+,\d+\]\( *\d+\) \w+ \(", re.M)

# The transactions of the log of everyday changes, the looks at it, those at one that grows, the transactions of the log of one table, the
# tables of the log of many, and those of the log of wide ones: these are fewer than the reader keeps maps of, but more
# than it keeps bytes of.
TRANSACTIONS, LOOKS, GROWTHS, MAPPED, TABLES, WIDE_TABLES = 1_000, 1_000, 20, 100, 300, 60
# A transaction of so many rows, and one of twice as many, make as many requests for memory, but for so many.
ROWS, MORE_REQUESTS = 5_000, 4
# The bytes of a log of documents, and how many instructions they may take for each that BLOBs take.
DOCUMENT_BYTES, MOST_OF_BLOBS = 1_000_000, 1.4
# The most memory, in KiB, that may be resident in a run over the log of everyday changes. It takes 2.5 MiB.
MOST_RESIDENT = 4 << 10


class Cost(NamedTuple):
    """What a run costs."""

    instructions: int
    calls: int
    requests: int
    most_bytes: int


class Reading(NamedTuple):
    """A run: its words, its log, its input, and further logs by their paths."""

    words: tuple[str, ...]
    log: Callable[[], bytes]
    text: bytes = b""
    more: Callable[[], dict[str, bytes]] = dict

    def lay_out(self, folder: Path) -> None:
        """Writes its logs."""
        put(folder, ["log"], self.log())
        for path, content in self.more().items():
            put(folder, [path], content)


@cache
def everyday_log() -> bytes:
    """Small changes of five tables."""
    return everyday(TRANSACTIONS).content()


@cache
def one_table_log() -> bytes:
    """Inserts into one table, which is mapped again and again."""
    return one_table(MAPPED).content()


@cache
def many_tables_log() -> bytes:
    """Changes of many tables with long names."""
    return many_tables(TABLES).content()


@cache
def wide_tables_log() -> bytes:
    """The maps of tables with many columns."""
    return wide_tables(WIDE_TABLES)


@cache
def middle() -> str:
    """A token in the middle of the log of everyday changes."""
    return f"{everyday(TRANSACTIONS // 2).places[-1]}.1@log"


@cache
def earlier_log() -> dict[str, bytes]:
    """A log in front of the one of everyday changes."""
    return {"earlier": everyday_log()}


@cache
def grown_logs() -> dict[str, bytes]:
    """A log in front of the one of everyday changes, and this one as it has grown, in a folder for each look."""
    grown = {f"{look}/log": everyday(TRANSACTIONS + look).content() for look in range(1, GROWTHS + 1)}
    return earlier_log() | grown


# At each look the second of two logs has one transaction more.
GROWN = b"".join(b"earlier\n%d/log\n\n" % look for look in range(1, GROWTHS + 1))

READINGS = {
    "read": Reading(("read", "log"), everyday_log),
    "read --full": Reading(("read", "--full", "log"), everyday_log),
    "transactions": Reading(("transactions", "log"), everyday_log),
    "read --from": Reading(("read", f"--from={middle()}", "log"), everyday_log),
    "read --follow": Reading(("read", "--follow", "--only-tables=none", "log"), everyday_log, b"\n" * LOOKS),
    "read --from a second log": Reading(("read", f"--from={middle()}", "earlier", "log"), everyday_log, more=earlier_log),
    "read --follow of a log that grows": Reading(("read", "--follow", "--only-tables=none", "earlier", "log"), everyday_log, GROWN, grown_logs),
    "history": Reading(("history", "--schema=shop", "--table=orders", "--key=[0]", "log"), everyday_log),
    "read one table": Reading(("read", "--only-events=delete", "log"), one_table_log),
    "read many tables": Reading(("read", "log"), many_tables_log),
    "read --full many tables": Reading(("read", "--full", "log"), many_tables_log),
    "read wide tables": Reading(("read", "log"), wide_tables_log),
}  # fmt: skip


def instructions_and_calls(program: Path, reading: Reading, folder: Path) -> tuple[int, int]:
    """Counts the instructions of a run, and its calls of the system."""
    valgrind = shutil.which("valgrind")
    if valgrind is None:
        raise FileNotFoundError("there is no valgrind (apt-get install valgrind)")
    reading.lay_out(folder)
    words = [valgrind, *VALGRIND, program, *reading.words]
    said = subprocess.run(
        words, cwd=folder, input=reading.text, capture_output=True, timeout=SECONDS, check=True, env=ENVIRONMENT
    ).stderr  # fmt: skip
    return int(re.search(rb"Collected : (\d+)", said)[1]), len(CALL.findall(said))


def memory(program: Path, reading: Reading, folder: Path) -> Memory:
    """Counts what memory a run uses."""
    reading.lay_out(folder)
    outcome, used = run_preloaded(program, list(reading.words), folder, text=reading.text)
    if outcome.status != 0:
        raise ValueError(f"status {outcome.status}: {outcome.stderr.decode(errors='replace')}")
    return used


def cost(program: Path, reading: Reading, folder: Path) -> Cost:
    """Counts what a run costs."""
    used = memory(program, reading, folder)
    return Cost(*instructions_and_calls(program, reading, folder), used.requests, used.most_bytes)


def wanted_costs() -> dict[str, Cost]:
    """The costs of the file, by their names."""
    lines = [line.split("\t") for line in FIGURES.read_text(encoding="utf-8").splitlines()[1:]]
    return {name: Cost(*map(int, figures)) for name, *figures in lines}


def write(program: Path) -> None:
    """Writes the file anew, by what a program costs."""
    with tempfile.TemporaryDirectory(prefix="binlogfeed-") as folder:
        costs = {name: cost(program, reading, Path(folder)) for name, reading in READINGS.items()}
    lines = [("reading", *Cost._fields), *((name, *map(str, counts)) for name, counts in costs.items())]
    FIGURES.write_text("".join("\t".join(line) + "\n" for line in lines), encoding="utf-8")


def judge(name: str, program: Path, folder: Path) -> list[str]:
    """Each count is near the one of the file."""
    pairs = zip(Cost._fields, cost(program, READINGS[name], folder), wanted_costs()[name])
    return [
        f"{count:,} {what.replace('_', ' ')}, where {FIGURES.name} has {wanted:,}"
        for what, count, wanted in pairs
        if abs(count - wanted) > max(FEW, SHARE * wanted)
    ]


def judge_long_transaction(options: tuple[str, ...], program: Path, folder: Path) -> list[str]:
    """Each row is lent as it comes: requests for memory don't grow with a transaction, and neither does what is held."""
    short, long = (
        memory(program, Reading(("read", *options, "log"), one_transaction(rows).content), folder) for rows in (ROWS, 2 * ROWS)
    )
    reasons = []
    if long.requests > short.requests + MORE_REQUESTS:
        reasons.append(f"{ROWS} rows take {short.requests} requests, and twice as many rows {long.requests}")
    if long.most_bytes > (1 + SHARE) * short.most_bytes:
        reasons.append(f"{short.most_bytes} bytes are held of {ROWS} rows, and {long.most_bytes} of twice as many")
    return reasons


def documents_log(kind: str, folder: Path) -> bytes:
    """A log of a server's documents (bench/make_log.py), or of the same bytes in BLOBs."""
    path = folder / kind
    subprocess.run([TOP / "bench/make_log.py", path, str(DOCUMENT_BYTES), kind], stdout=subprocess.DEVNULL, timeout=SECONDS, check=True)
    return path.read_bytes()


def judge_documents(program: Path, folder: Path) -> list[str]:
    """Full lines of documents take few more instructions than those of the same bytes in BLOBs."""
    documents, blobs = (
        instructions_and_calls(program, Reading(("read", "--full", "log"), partial(documents_log, kind, folder)), folder)[0]
        for kind in ("documents", "blobs")
    )
    return [] if documents <= MOST_OF_BLOBS * blobs else [f"{documents:,} instructions, and {blobs:,} where they are BLOBs"]


def judge_resident(program: Path, folder: Path) -> list[str]:
    """No more than a few MiB are ever resident, even for a moment."""
    used = memory(program, READINGS["read"], folder)
    return [] if used.most_resident <= MOST_RESIDENT else [f"{used.most_resident} KiB were resident, and {MOST_RESIDENT} may be"]


def checks() -> list[Check]:
    """The checks of costs, for any program."""
    long = [
        Check(f"the memory of {' '.join(('read', *options))} over long transactions", partial(judge_long_transaction, options))
        for options in ((), ("--full",))
    ]
    return [*long, Check("the memory that is resident", judge_resident)]


def counted_checks() -> list[Check]:
    """Those whose counts hang on the compiler."""
    return [*(Check(f"the cost of {name}", partial(judge, name)) for name in READINGS), Check("the cost of documents", judge_documents)]
