"""The wrapper at the top: it runs what was built, and what is in Python, and adds nothing of its own."""
import hashlib
import os
import subprocess
import sys
from functools import partial
from pathlib import Path

from built.check import SECONDS, Check, Outcome, Wanted, differs, said
from built.server_logs import SHOP, logs_of

PROGRAM = Path(__file__).resolve().parents[2] / "binlogfeed"
BUILT = PROGRAM.parent / "crates/program/out/program"
HINT = b"hint: there is no such file\n"


def run_wrapper(program: Path, words: list[str], folder: Path, **environment: str) -> Outcome:
    """Runs the wrapper where it can't build: `rt` isn't found. Python is that of these checks."""
    (folder / "python3").symlink_to(sys.executable)
    without_rt = {**os.environ, "PATH": f"{folder}:/usr/bin:/bin", "PYTHONDONTWRITEBYTECODE": "1", **environment}
    ended = subprocess.run(
        [program, *words], cwd=folder, env=without_rt, stdin=subprocess.DEVNULL, capture_output=True, timeout=SECONDS, check=False
    )
    (folder / "python3").unlink()
    return Outcome(ended.returncode, ended.stdout, ended.stderr)


def judge(words: list[str], wanted: Wanted, program: Path, folder: Path) -> list[str]:
    """The wrapper gives the program's output, line and status, and a hint."""
    return differs(run_wrapper(program, words, folder), wanted)


def judge_no_hint(program: Path, folder: Path) -> list[str]:
    """It gives none to who wants none."""
    came = run_wrapper(program, ["read", "missing"], folder, BINLOGFEED_HINTS="0")
    return differs(came, Wanted(4, b"", said("cannot open missing")))


def judge_version(program: Path, folder: Path) -> list[str]:
    """The version is that of the package, with the program that is run."""
    version = (PROGRAM.parent / "python/binlogfeed/version.py").read_text(encoding="utf-8").split('"')[-2]
    digest = hashlib.sha256(BUILT.read_bytes()).hexdigest()
    wanted = f"binlogfeed {version}\nprogram {BUILT}, sha256 {digest}\n"
    return differs(run_wrapper(program, ["--version"], folder), Wanted(0, wanted.encode()))


def judge_follow(program: Path, folder: Path) -> list[str]:
    """A command in Python takes the program that the wrapper runs, and no other."""
    (folder / "binlogfeed").write_text("#!/bin/sh\nexit 9\n")
    (folder / "binlogfeed").chmod(0o755)
    came = run_wrapper(program, ["follow", "--once", "--state", "state", str(SHOP / "binlog.*")], folder)
    return differs(came, Wanted(0, (SHOP / "read.jsonl").read_bytes(), None))


def judge_help(program: Path, folder: Path) -> list[str]:
    """Help names the wrapper."""
    came = run_wrapper(program, ["read", "--help"], folder)
    named = b"\nUsage: binlogfeed read [OPTIONS]" in came.stdout
    return differs(came, Wanted(0, None)) + ([] if named else ["help doesn't name binlogfeed"])


def judge_all(program: Path, folder: Path) -> list[str]:
    """One help lists all commands."""
    came = run_wrapper(program, ["--help"], folder)
    wanted = (b"transactions", b"read", b"history", b"follow", b"summary", b"replica", b"help")
    missing = [name for name in wanted if b"\n  " + name + b"  " not in came.stdout]
    return differs(came, Wanted(0, None)) + [f"help doesn't list {name.decode()}" for name in missing]


def checks() -> list[Check]:
    """The checks of the wrapper."""
    lines = (SHOP / "read.jsonl").read_bytes()
    return [
        Check("the shop's changes", partial(judge, ["read", *logs_of(SHOP)], Wanted(0, lines))),
        Check("a missing file", partial(judge, ["read", "missing"], Wanted(4, b"", said("cannot open missing") + HINT))),
        Check("a missing file, without hints", judge_no_hint),
        Check("help", judge_help),
        Check("help of all commands", judge_all),
        Check("the version", judge_version),
        Check("follow", judge_follow),
    ]
