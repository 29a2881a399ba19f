"""Holds docs/GUARANTEES.md to the code: the calls that its rows name, their clauses, and the parts of these.

A row of a table with the columns Call and Clause names calls, as `Feed::open`, or a type and then its calls. Under Clause stand names of
`ensures`, of which at least one of the row's calls has to have each; behind one and a colon stand fields or words of specs/. A call whose
one clause has no name, or is `after`, is told by these parts alone.
"""
import re
from collections import defaultdict
from collections.abc import Iterator
from pathlib import Path

FUNCTION = re.compile(r"^( *)(?:pub(?:\([^)]*\))? )?(?:const )?fn (\w+)")
OWNER = re.compile(r"^(?:pub(?:\([^)]*\))? )?(?:impl(?:<.*?>)? (?:[\w:]+(?:<.*?>)? for )?|trait |struct )(\w+)")
CLAUSE = re.compile(r"^ *(?:ensures\*? (?:(\w+) )?\{|ghost (\w+)(?: =|:) )")
QUOTED = re.compile(r"`([^`]+)`")
# A clause that is told by its parts, which stand behind a colon.
HEAD = re.compile(r" *`\w+`: ")
PART = re.compile(r"^ *(?:(?:abbrev|record|data|unfoldable|opaque|pub) )*(\w+) :", re.M)
DEFINED = re.compile(r"^ *(?:(?:abbrev|record|data|unfoldable|opaque|pub) )+([^\s:(){}]+)", re.M)
# A row of a table of promises has so many columns, and these are the second and the third.
COLUMNS = 4
# Clauses whose parts stand under Clause by themselves.
BY_PARTS = {"", "after"}


def clauses_of_calls(crates: Path) -> dict[str, set[str]]:
    """The names of the clauses of each call, by its name, and by that behind its type's; those of a type by the type's name."""
    found: dict[str, set[str]] = defaultdict(set)
    for path in sorted(crates.glob("*/src/**/*.rt")):
        owner, names = "", [""]
        for line in path.read_text(encoding="utf-8").splitlines():
            if head := OWNER.match(line):
                owner, names = head[1], [head[1]]
            elif function := FUNCTION.match(line):
                names = [function[2], f"{owner}::{function[2]}", f"{path.stem}::{function[2]}", owner] if function[1] else [function[2], f"{path.stem}::{function[2]}"]
                for name in names:
                    found[name].update()
            elif clause := CLAUSE.match(line):
                for name in names:
                    found[name].add(clause[1] or clause[2] or "")
    return found


def parts_of_specs(crates: Path) -> set[str]:
    """The fields and the words of all definitions."""
    texts = [path.read_text(encoding="utf-8") for path in crates.glob("*/specs/**/*.antt")]
    return {name for text in texts for pattern in (PART, DEFINED) for name in pattern.findall(text)}


def rows_of(document: Path) -> Iterator[tuple[int, str, str]]:
    """The rows of promises: the number of the line, the calls, and the clauses."""
    for number, line in enumerate(document.read_text(encoding="utf-8").splitlines(), 1):
        cells = [cell.strip() for cell in line.strip("|").split(" | ")]
        if line.startswith("| ") and len(cells) == COLUMNS and cells[1] != "Call":
            yield number, cells[1], cells[2]


def known_of(calls: list[str], clauses: dict[str, set[str]]) -> set[str]:
    """The clauses of some calls, of which one without a type has that of the one before it."""
    known: set[str] = set()
    owner = ""
    for call in calls:
        owner = call.rpartition("::")[0] or (call if call[:1].isupper() else owner)
        known |= clauses.get(f"{owner}::{call}", set()) | clauses.get(call, set())
    return known


def unknown_in(named: str, known: set[str], parts: set[str]) -> Iterator[str]:
    """What is quoted under Clause and is no clause, no part of one, nor a part where a call is told by parts; calls pass."""
    for group in named.split("; "):
        head = HEAD.match(group)
        quoted = [text for text in QUOTED.findall(group) if "::" not in text]
        if head and quoted[0] in known:
            yield from (part for text in quoted[1:] for part in text.split(", ") if part not in parts)
        else:
            yield from (text for text in quoted if text not in known and not (text in parts and known & BY_PARTS))


def unknown_clauses(top: Path) -> Iterator[str]:
    """What docs/GUARANTEES.md names under Clause, and no call of its row has."""
    clauses, parts = clauses_of_calls(top / "crates"), parts_of_specs(top / "crates")
    for number, calls, named in rows_of(top / "docs/GUARANTEES.md"):
        known = known_of(QUOTED.findall(calls), clauses)
        if known:
            yield from (f"docs/GUARANTEES.md:{number}: {text}" for text in unknown_in(named, known, parts))
