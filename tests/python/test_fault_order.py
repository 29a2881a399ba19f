"""docs/FORMAT.md tells the faults in the order in which the definitions of specs/ look for them."""
from __future__ import annotations

import re
import unittest
from functools import cache
from typing import NamedTuple

from support import TOP

PAGE = TOP / "docs/FORMAT.md"

# A word of a definition. One that is behind a point isn't a name of its file.
WORD = re.compile(r"(?<![\w.])[A-Za-z_]\w*(?!\.\w)")
USED = re.compile(r"^use Rattle\.(\w+)\.specs\.([\w.]+)\.\{(.*)\}$", re.MULTILINE)
# Those of a module with parameters are indented.
EQUATION = re.compile(r"^( *)([a-zA-Z_]\w*)\b(.*?) =(?: |$)(.*(?:\n\1 .*)*)", re.MULTILINE)


class Equation(NamedTuple):
    """One line of a definition: what stands on the left behind its name, and its right side."""

    left: str
    right: str


class Module(NamedTuple):
    """A file of specs/: the equations of each name, and the names that it uses, with their module."""

    crate: str
    equations: dict[str, list[Equation]]
    used: dict[str, str]

    def right(self, name: str) -> str:
        """The right sides of a definition."""
        return "\n".join(equation.right for equation in self.equations[name])


@cache
def module(crate: str, path: str) -> Module:
    """A file of specs/, by its crate and its name."""
    text = (TOP / f"crates/{crate}/specs/{path}.antt").read_text(encoding="utf-8")
    equations: dict[str, list[Equation]] = {}
    for _, name, left, right in EQUATION.findall(text):
        equations.setdefault(name, []).append(Equation(left, right))
    used = {name: f"{of}.{where}" for of, where, names in USED.findall(text) for name in names.split(", ")}
    return Module(crate, equations, used)


def faults_in(text: str, where: Module, variants: str, seen: set[str] | None = None) -> list[str]:
    """The variants of an enum that the words of a text come to, by the definitions of its crate, each once."""
    seen = set() if seen is None else seen
    found: list[str] = []
    for word in WORD.findall(text):
        of, _, path = where.used.get(word, "").partition(".")
        if path == variants:
            found.append(word)
            continue
        home = where if word in where.equations else module(of, path) if of == where.crate and "." not in path else None
        if home and word in home.equations and word not in seen:
            seen.add(word)
            found += faults_in(home.right(word), home, variants, seen)
    return list(dict.fromkeys(found))


def listed(text: str, where: Module) -> list[tuple[Module, str]]:
    """What stands in the list of faults that a text is, in its order; a list in a list is taken apart, and so is one that a word is."""
    text = text.strip()
    if inner := re.fullmatch(r"first_of \((.*)\)", text, re.DOTALL):
        return listed(inner[1], where)
    if text.endswith("∷ []"):
        return [found for part in text.split("∷")[:-1] for found in listed(part, where)]
    home, right = meaning(text, where)
    is_list = right.strip().startswith("first_of (") or right.endswith("∷ []") or len(text.split()) == 1
    return listed(right, home) if right and is_list else [(where, text)]


def meaning(text: str, where: Module) -> tuple[Module, str]:
    """The right side of the definition that a text begins with, and its file; an empty text where none has its name."""
    called = text.split()[0]
    of, _, path = where.used.get(called, "").partition(".")
    home = where if called in where.equations else module(of, path) if of else where
    return home, home.right(called) if called in home.equations else ""


def framing() -> list[str]:
    """What can be wrong with a file's framing: with the magic, with the first event, with the length of a later one."""
    cutting = module("binlog_frame", "Cutting")
    names = []
    for name in ("LacksMagic", "IsNoFormat", "Stops"):
        held = [equation.left for equation in cutting.equations[name] if equation.right.strip() != "⊥"]
        names += [word for left in held for word in WORD.findall(left) if cutting.used.get(word, "").endswith("Malformed.TheVariants")]
    return names


def marks(where: Module, text: str) -> list[str]:
    """What a text says in letters and numbers, and its row has to say too: texts, and the least length of a body."""
    says = text + meaning(text, where)[1]
    return re.findall(r'codes "(.*?)"', says) + re.findall(r"length event\.body\) (\d+)", says)


def row_names(row: str) -> list[str]:
    """The faults that a row names, without what they carry."""
    return re.findall(r"`([A-Z]\w+)(?:\(\w\))?`", row)


def table_rows() -> list[tuple[list[str], str]]:
    """The rows of the page's table of faults: the names, and where they hold."""
    part = PAGE.read_text(encoding="utf-8").partition("**The fault** of a list of files")[2].partition("\n## ")[0]
    rows = [line.strip("|").split(" | ") for line in part.splitlines() if line.startswith("| `")]
    return [(row_names(names), where) for names, where in rows]


def page_steps() -> list[set[str]]:
    """What each step of reading a table map may answer, by the page's list."""
    part = PAGE.read_text(encoding="utf-8").partition("\n## Table maps")[2].partition("The answer is the first of these")[2].partition("\n|")[0]
    steps = re.findall(r"^\d\. (.*(?:\n   .*)*)", part, re.MULTILINE)
    return [set(row_names(half)) for step in steps for half in step.split("; then ")]


def defined_steps() -> list[set[str]]:
    """The same by the definitions. Steps behind one another that answer the same count as one."""
    maps = module("binlog_table", "Map")
    calls = ["sections_at", *re.findall(r"← (.*)", maps.right("map_of_by"))]
    answers = [set(faults_in(call, maps, "declared.fault.MapFault.TheVariants")) for call in calls]
    return [answer for before, answer in zip([None, *answers], answers) if answer != before]


class FaultOrder(unittest.TestCase):
    """The faults of a log, and those of a table map."""

    def test_faults_of_a_log(self) -> None:
        """The table has a row for each fault of `any_fault`, in its order, behind one for the framing."""
        found = listed("any_fault", module("binlog_feed", "AllFaults"))
        defined = [framing(), *(faults_in(text, where, "declared.what.What.TheVariants") for where, text in found)]
        rows = table_rows()
        self.assertEqual([names for names, _ in rows], defined)
        for (_, says), (where, text) in zip(rows[1:], found):
            for mark in marks(where, text):
                self.assertIn(mark, says, text)
        # Of the two that share a name, only the first has a least length.
        self.assertEqual([says for names, says in rows if names == ["BadRows"] and " 10 " in says], [rows[-3][1]])

    def test_faults_of_a_table_map(self) -> None:
        """The list of steps has the faults of `map_at_by`, in its order."""
        self.assertEqual(page_steps(), defined_steps())


if __name__ == "__main__":
    unittest.main()
