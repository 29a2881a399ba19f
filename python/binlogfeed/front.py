"""The command `binlogfeed`: hands the program's words to the program, and runs the commands that are in Python.

The program takes the place of this process then, so that its output, its line and its status are its own.
"""
from __future__ import annotations

import argparse
import hashlib
import importlib
import os
import re
import subprocess
import sys
from collections.abc import Sequence
from pathlib import Path

from binlogfeed import __main__ as commands
from binlogfeed.program import HINTS, LIBEXEC, NAME, use
from binlogfeed.version import VERSION

# What is run from a file of its own, beside the program: its name, and what it does.
REPLICA, KEEPS = "replica", "keeps a copy of a schema's tables in SQLite or PostgreSQL"
VERSION_HELP = "Print the version of the package, and which program it runs"


def main(words: Sequence[str], program: Path = LIBEXEC / NAME, replica: Path = LIBEXEC / REPLICA / "replica.py") -> int:
    """Does what the words ask for, by a program and a script of the replica. The answer is the exit status."""
    words = list(words)
    if words[:1] == ["help"] and words[1:2] and words[1] in own_commands():
        words = [words[1], "--help"]
    command = words[0] if words else ""
    if command == "--version":
        print(f"{NAME} {VERSION}\nprogram {program.resolve()}, sha256 {digest(program)}")
        return 0
    if command in ("-h", "--help") or words == ["help"]:
        print(help_text(program), end="")
        return 0
    use(program)
    if command == REPLICA:
        return run_replica(replica, words[1:])
    if command in own_commands():
        return commands.main(words, NAME)
    return hand_over(program, words)


def own_commands() -> dict[str, str]:
    """The commands that are in Python, each with what it does."""
    (added,) = (it for it in commands.command_line()._actions if isinstance(it, argparse._SubParsersAction))
    return {**{it.dest: it.help or "" for it in added._choices_actions}, REPLICA: KEEPS}


def help_text(program: Path) -> str:
    """The program's own help, with the commands that are in Python behind its own."""
    asked = subprocess.run([NAME, "--help"], executable=program, capture_output=True, text=True, check=True).stdout
    told = {name: f"{about[0].upper()}{about[1:]}" for name, about in own_commands().items()}
    width = max(map(len, [*told, "transactions"]))
    listed = "".join(f"  {name:{width}}  {about}\n" for name, about in told.items())
    text, count = re.subn(r"(?m)^(?=  help +Print)", lambda _: listed, asked, count=1)
    text, others = re.subn(r"(?m)^(  -h, --help)( +)(Print .*)$", rf"\1   \2\3\n      --version\2{VERSION_HELP}", text, count=1)
    if not count or not others:
        raise ValueError(f"{program} lists no commands in its help")
    return text


def digest(program: Path) -> str:
    """What tells this program from any other."""
    return hashlib.sha256(program.read_bytes()).hexdigest()


def run_replica(script: Path, words: list[str]) -> int:
    """Runs the replica, which finds this package and its program as they are here."""
    if not script.is_file():
        print(f"{NAME}: {script}, the replica, isn't there", file=sys.stderr)
        return 70
    sys.argv = [f"{NAME} {REPLICA}", *words]
    sys.path.insert(0, str(script.parent))
    status: int = importlib.import_module(script.stem).main()
    return status


def hand_over(program: Path, words: Sequence[str]) -> int:
    """Has the program take the place of this process. Answers a status where it can't be started."""
    os.environ.setdefault(HINTS, "1")
    try:
        os.execv(program, [NAME, *words])
    except OSError as error:
        print(f"{NAME}: the program can't be started: {program}: {error.strerror}", file=sys.stderr)
        return 70
