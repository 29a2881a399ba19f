"""What the help of the command binlogfeed says: its subcommands, and of each the usage, the arguments, the options and the rest.

That of a command in Python has another form, in which argparse lays it out.
"""
from __future__ import annotations

import os
import re
import subprocess
import sys
from pathlib import Path
from typing import NamedTuple

from binlogfeed.front import help_text, own_commands

TOP = Path(__file__).resolve().parents[1]
SECTIONS = ("Commands", "Arguments", "Options")
# How argparse names them, and versions before that of Python 3.10.
IN_PYTHON = {"positional arguments": "Arguments", "options": "Options", "optional arguments": "Options"}


class Item(NamedTuple):
    """A line of a section: its words (`-h, --help` or `--from <TOKEN>`), and what they do."""

    words: str
    about: str

    @property
    def names(self) -> list[str]:
        """The words that are given, without what stands for a value."""
        return re.findall(r"(?<!\S)[\w-]+", self.words)

    @property
    def value(self) -> str:
        """The name of the option's value; empty where it takes none."""
        found = re.search(r"<(.+?)>", self.words)
        return found[1] if found else ""

    @property
    def names_a_file(self) -> bool:
        """Whether the option's value is the path of a file."""
        return self.value in ("FILE", "PATH")


class Help(NamedTuple):
    """The help of the program, or of one of its subcommands."""

    about: str
    usage: str
    commands: list[Item]
    arguments: list[Item]
    options: list[Item]
    rest: str


def items(block: str) -> list[Item]:
    """The lines of a section. A text too long for its line stands below, further in."""
    found: list[Item] = []
    for line in block.splitlines():
        begun = re.match(r" {2,6}(\S.*?)(?: {2,}(.*))?$", line)
        if begun and not line.startswith(" " * 8):
            found.append(Item(begun[1], begun[2] or ""))
        else:
            found[-1] = Item(found[-1].words, f"{found[-1].about} {line.strip()}".strip())
    return found


def parsed(text: str) -> Help:
    """The parts of a help."""
    about, usage, *blocks = text.rstrip("\n").split("\n\n")
    if not usage.startswith("Usage: "):
        raise ValueError(f"no usage in the help that begins with {about!r}")
    sections: dict[str, list[Item]] = {name: [] for name in SECTIONS}
    while blocks and blocks[0].partition(":\n")[0] in SECTIONS:
        name, _, lines = blocks.pop(0).partition(":\n")
        sections[name] = items(lines)
    return Help(about, usage[len("Usage: ") :], *sections.values(), "\n\n".join(blocks))


def asked(program: Path, *words: str) -> Help:
    """The help that the program gives for these words. It calls itself by the name that it is started with."""
    command = ["binlogfeed", *words, "--help"]
    ended = subprocess.run(command, executable=program, capture_output=True, text=True, check=False)
    if ended.returncode:
        raise ValueError(f"{program} tells no help: {ended.stderr.strip()}")
    return parsed(ended.stdout)


def with_value(item: Item) -> Item:
    """An option of argparse's as the program's help has it: its value in brackets."""
    words = re.sub(r"(-\w) [^\s,]+, ", r"\1, ", item.words)
    words = re.sub(r"(--[\w-]+) \{?([^\s{}]+)\}?$", lambda it: f"{it[1]} <{it[2].replace(',', '|')}>", words)
    return Item(words, item.about[:1].upper() + item.about[1:])


def parsed_in_python(name: str, about: str, text: str) -> Help:
    """The parts of a help that argparse has laid out."""
    usage, *blocks = text.rstrip("\n").split("\n\n")
    sections: dict[str, list[Item]] = {section: [] for section in SECTIONS}
    rest: list[str] = []
    for block in blocks:
        title, _, lines = block.partition(":\n")
        if title in IN_PYTHON:
            sections[IN_PYTHON[title]] = [with_value(item) for item in items(lines)]
        else:
            rest.append(block)
    # Of the options the usage shows those that have to be given.
    wanted = re.sub(r" \[-[^\]]*\]", "", usage[len("usage: ") :])
    wanted = re.sub(r"(\w+) \[\1 \.\.\.\]", r"\1...", wanted).replace(f"binlogfeed {name}", f"binlogfeed {name} [OPTIONS]")
    return Help(about, wanted, *sections.values(), "\n\n".join(rest))


def asked_in_python(program: Path, name: str, about: str) -> Help:
    """The help of a command in Python."""
    replica = TOP / "examples/replica/replica.py"
    command = [sys.executable, "-B", TOP / "python/command.py", program, replica, name, "--help"]
    # So wide that no line is broken.
    environment = {**os.environ, "COLUMNS": "10000"}
    ended = subprocess.run(command, capture_output=True, text=True, check=False, env=environment)
    if ended.returncode:
        raise ValueError(f"binlogfeed {name} tells no help: {ended.stderr.strip()}")
    return parsed_in_python(name, about, ended.stdout)


class Program(NamedTuple):
    """The help of the command, and that of each subcommand. `help` itself has none."""

    top: Help
    commands: dict[str, Help]


def told(program: Path) -> Program:
    """All that the help says, of the program's commands and of those in Python."""
    asked(program)
    top, in_python = parsed(help_text(program)), own_commands()
    commands = {
        item.words: asked_in_python(program, item.words, item.about) if item.words in in_python else asked(program, item.words)
        for item in top.commands
        if item.words != "help"
    }
    return Program(top, commands)
