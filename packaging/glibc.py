"""Which glibc a program needs, by the versions of the symbols that it takes from there."""
from __future__ import annotations

import struct
from pathlib import Path
from typing import NamedTuple

# What glibc brings. A program that needs another library isn't packed.
LIBRARIES = {"libc.so.6", "libm.so.6", "libpthread.so.0", "libdl.so.2", "librt.so.1", "ld-linux-x86-64.so.2"}
DYNAMIC = 6
VERSION_NEEDS = 0x6FFFFFFE
X86_64 = 62


class Section(NamedTuple):
    """A section's header, of ELF with 64 bits."""

    name: int
    kind: int
    flags: int
    address: int
    offset: int
    size: int
    link: int
    count: int
    align: int
    entry: int


def text_at(elf: bytes, offset: int) -> str:
    """A text that ends with a zero."""
    return elf[offset : elf.index(b"\0", offset)].decode()


def version_needs(elf: bytes, needs: Section, texts: int) -> list[str]:
    """The versions that are needed, of all libraries."""
    versions, at = [], needs.offset
    for _ in range(needs.count):
        _, count, _, first, following = struct.unpack_from("<HHIII", elf, at)
        one = at + first
        for _ in range(count):
            *_, name, behind = struct.unpack_from("<IHHII", elf, one)
            versions.append(text_at(elf, texts + name))
            one += behind
        at += following
    return versions


def libraries(elf: bytes, dynamic: Section, texts: int) -> set[str]:
    """The libraries that are needed."""
    entries = struct.iter_unpack("<QQ", elf[dynamic.offset : dynamic.offset + dynamic.size])
    return {text_at(elf, texts + value) for tag, value in entries if tag == 1}


def least(program: Path) -> str:
    """The least glibc with which the program runs, as `2.34`. Raises ValueError where it needs more than glibc."""
    elf = program.read_bytes()
    if elf[:6] != b"\x7fELF\x02\x01" or struct.unpack_from("<H", elf, 18)[0] != X86_64:
        raise ValueError(f"{program} is no program for x86-64")
    (start,) = struct.unpack_from("<Q", elf, 40)
    size, count = struct.unpack_from("<HH", elf, 58)
    sections = [Section._make(struct.unpack_from("<IIQQQQIIQQ", elf, start + number * size)) for number in range(count)]
    versions: list[str] = []
    for section in sections:
        if section.kind == VERSION_NEEDS:
            versions += version_needs(elf, section, sections[section.link].offset)
        elif section.kind == DYNAMIC:
            others = libraries(elf, section, sections[section.link].offset) - LIBRARIES
            if others:
                raise ValueError(f"{program} needs {', '.join(sorted(others))}")
    numbers = [tuple(int(part) for part in version.removeprefix("GLIBC_").split(".")) for version in versions]
    return ".".join(map(str, max(numbers)[:2]))
