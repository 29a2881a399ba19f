"""The character of each byte, in each character set whose characters have one byte each, as a server has it (tests/charsets.tsv): a table
of one VARCHAR column for each set, a row for each byte, and one for all bytes that have a character."""
from __future__ import annotations

import base64
import json
from functools import cache
from pathlib import Path

from built.check import Check, Wanted, differs, run
from logs import CHARSETS, VARCHAR, Column, field, log_of, names_of, packed, put, rows, table_map, transaction

TESTS = Path(__file__).resolve().parents[1]
CHARACTERS, COLLATIONS = TESTS / "charsets.tsv", TESTS / "collations.tsv"

# What a server has for a byte without a character: a question mark, or Unicode's replacement character.
NO_CHARACTER = ("?", "\ufffd")

BYTES, LENGTH = range(256), 300


@cache
def characters() -> dict[str, list[str | None]]:
    """The characters of the bytes 0 to 255, by the sets' names. None stands for a byte without one."""
    sets = {}
    for line in CHARACTERS.read_text(encoding="utf-8").splitlines():
        name, _, told = line.partition("\t")
        texts = [bytes.fromhex(text).decode() for text in told.split(" ")]
        sets[name] = [None if text in NO_CHARACTER and byte != ord("?") else text for byte, text in enumerate(texts)]
    return sets


def collations() -> dict[str, int]:
    """A collation's number, by the name of its character set."""
    lines = [line.split("\t") for line in COLLATIONS.read_text(encoding="utf-8").splitlines()]
    return {charset: int(number) for number, charset, _ in lines}


def value(name: str, content: bytes) -> object:
    """What bytes are in a full line, in a column of this character set."""
    texts = [characters()[name][byte] for byte in content]
    if None in texts:
        return {"base64": base64.b64encode(content).decode(), "charset": name}
    return "".join(texts)


def contents(name: str) -> list[bytes]:
    """The bytes of each row, in a column of this character set."""
    whole = bytes(byte for byte in BYTES if characters()[name][byte] is not None)
    return [whole, *(bytes([byte]) for byte in BYTES)]


def log() -> bytes:
    """A log that inserts the rows into the table `s.t`."""
    numbers = collations()
    columns = [Column(name, VARCHAR, LENGTH.to_bytes(2, "little")) for name in characters()]
    mapped = table_map(columns, field(CHARSETS, b"".join(packed(numbers[name]) for name in characters())), names_of(columns))
    texts = [[len(content).to_bytes(2, "little") + content for content in contents(name)] for name in characters()]
    return log_of([transaction(1, mapped, rows(len(columns), *map(b"".join, zip(*texts))))])


def judge(program: Path, folder: Path) -> list[str]:
    """Each value of each row is the text that the server has, or the bytes where it has none."""
    put(folder, ["log"], log())
    came = run(program, ["read", "--full", "log"], folder)
    reasons = differs(came, Wanted(0, None))
    lines = [json.loads(line)["after"] for line in came.stdout.splitlines()]
    if len(lines) != len(BYTES) + 1:
        return [*reasons, f"there are {len(lines)} lines"]
    for name in characters():
        for line, content in zip(lines, contents(name)):
            if line[name] != value(name, content):
                reasons.append(f"{content.hex()} in {name} is {line[name]!r}, wanted {value(name, content)!r}")
    return reasons


def checks() -> list[Check]:
    """The check of the characters."""
    return [Check("the characters of bytes, by character sets", judge)]
