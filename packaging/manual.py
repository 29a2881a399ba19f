"""The manual page, made from the help of the command."""
from __future__ import annotations

import re
import time

from program_help import Help, Item, Program

SPECIAL = {"\\": r"\e", "-": r"\-", "'": r"\(aq", "`": r"\(ga", "^": r"\(ha", "~": r"\(ti"}


def escaped(text: str) -> str:
    """A text as roff prints it."""
    plain = "".join(SPECIAL.get(letter, letter) for letter in text)
    return re.sub(r"(?m)^\.", r"\\&.", plain)


def listed(entries: list[Item]) -> str:
    """Words, each with what they do below it."""
    return "".join(f".TP\n.B {escaped(entry.words)}\n{escaped(entry.about)}\n" for entry in entries)


def flowing(text: str) -> str:
    """A text, whose lines flow. Lines that are indented stay as they are; `Examples:` above such lines is a heading."""
    shown = ""
    for block in text.split("\n\n"):
        for lines in re.findall(r"(?:^ .*\n?)+|(?:^\S.*\n?)+", block, re.MULTILINE):
            if lines.startswith(" "):
                shown += f".PP\n.nf\n{escaped(lines.rstrip())}\n.fi\n"
            elif re.fullmatch(r"\w+( \w+)?:\n", lines):
                shown += f".SS {escaped(lines[:-2])}\n"
            else:
                shown += f".PP\n{escaped(lines.rstrip())}\n"
    # No paragraph begins behind a heading: that would be empty.
    return re.sub(r"(?m)^(\.SS .*\n)\.PP\n", r"\1", shown)


def subcommand(name: str, said: Help) -> str:
    """The part of a subcommand."""
    shown = f".SH BINLOGFEED {name.upper()}\n{escaped(said.about)}.\n.PP\n.B {escaped(said.usage)}\n"
    return shown + listed(said.arguments) + listed(said.options) + flowing(said.rest)


def page(program: Program, version: str, moment: float) -> str:
    """The whole page."""
    day = time.strftime("%Y-%m-%d", time.gmtime(moment))
    usages = "\n.br\n".join(f".B {escaped(said.usage)}" for said in (program.top, *program.commands.values()))
    parts = [
        f'.TH BINLOGFEED 1 {day} "binlogfeed {version}"\n',
        f".SH NAME\nbinlogfeed \\- {escaped(program.top.about)}\n",
        f".SH SYNOPSIS\n{usages}\n",
        f".SH COMMANDS\n{listed(program.top.commands)}",
        f".SH OPTIONS\n{listed(program.top.options)}",
        re.sub(r"(?m)^\.SS (.*)", lambda heading: f".SH {heading[1].upper()}", flowing(program.top.rest)),
        *(subcommand(name, said) for name, said in program.commands.items()),
    ]
    return "".join(parts)
