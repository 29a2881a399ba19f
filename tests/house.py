#!/usr/bin/env python3
"""Measures the repository's texts, and holds each figure to the most that house.txt allows.

usage: tests/house.py [--list NAME]

The figures are of what a reader meets: definitions that share a name, long clauses, calls with many of them, long functions and files,
places that are never reached, wrong bodies that can't be planted, lines of proofs and documents, clauses that docs/GUARANTEES.md names and
the code hasn't, words of the glossary, the calls on the way of a change (way.txt), the types round an event. --list prints what a figure
counts. The last line is `N passed, M failed`.
"""
import argparse
import hashlib
import re
import sys
from collections import Counter, defaultdict
from collections.abc import Iterable, Iterator
from pathlib import Path
from typing import NamedTuple

from edits import FOLDER, read_edits
from promises import unknown_clauses
from wrong_bodies import read_crates

TOP = Path(__file__).resolve().parent.parent
MOST = Path(__file__).resolve().parent / "house.txt"
WAYS = Path(__file__).resolve().parent / "way.txt"
GLOSSARY = TOP / "docs" / "GLOSSARY.md"
CRATES = sorted(path for path in (TOP / "crates").iterdir() if (path / "src").is_dir())

LONG_CLAUSE, LONGEST_CLAUSE = 100, 140
MANY_CLAUSES = 16
LONG_FUNCTION = 40
LONG_FILE = 800

# A definition of specs/, by the line that says its type.
DEFINED = re.compile(r"^(?:(?:abbrev|record|data|unfoldable|opaque|pub) )+(?!mod |use |mutual$)([^\s:(){}]+)")
FUNCTION = re.compile(r"^( *)(pub )?(?:pub\([^)]*\) )?(?:const )?fn (\w+)")
CLAUSE = re.compile(r"^ *(?:requires|ensures|ghost)\b(?! use)")
# What a function answers, by the lines of its head.
ANSWER = re.compile(r"->([^{]*?)(?:\{|\n *(?:requires|ensures|ghost))")
# The functions that hand an event on, from the feed's step to the read of the file's bytes.
EVENT_STEPS = (
    ("binlog_feed/src/feed_step.rt", "step"),
    ("binlog_feed/src/feed_step.rt", "judge"),
    ("binlog_units/src/next_event.rt", "take_found"),
    ("binlog_units/src/next_event.rt", "read_next"),
    ("binlog_frame/src/frames.rt", "next_over"),
    ("binlog_frame/src/reads.rt", "read_event"),
)
# Two of these make the list of `Looks` and add to it, and two say which look is added (docs/DECISIONS.md).
OF_LOOKS = TOP / "crates/binlogfeed"
PROOFS_THAT_SET_LOOKS = {
    OF_LOOKS / "proofs/looks/Looks" / proof
    for proof in ("none/Proof.antt", "add/Proof.antt", "add_for/Invariants.antt", "note/Invariants.antt")
}
# These files say which look is noted, whole, and these lines what it has: another text of them needs another look at docs/DECISIONS.md.
SUMS_OF_LOOKS = {
    "src/looks.rt": "8bb1d45c53e679bc",
    "proofs/looks/Looks/none/Proof.antt": "f4325653a52ccd85",
    "proofs/looks/Looks/add/Proof.antt": "26d0bb6cea4cbf6a",
    "proofs/looks/Looks/add_for/Invariants.antt": "32d3c3b73aa8227d",
    "proofs/looks/Looks/note/Invariants.antt": "7fa810eea04be696",
}
LINES_OF_LOOKS = (
    "use Rattle.binlog_frame.specs.FileLogs.{failures_of, held_of, is_honest, names_of}",
    "use Rattle.binlog_frame.specs.declared.files.FileLogs.{FileLogs}",
    "abbrev pub look_at_files : {R F : Type 0} → FileLogs R F → Look",
    "look_at_files logs = record { names = names_of logs; contents = held_of logs; honest = is_honest logs; failures = failures_of logs }",
)
# The traits of the standard library by which a file of the system is opened and read: an impl of one, or one by another name.
TRAITS = "Files|OpenFile|Read|BufRead|Seek|Runtime"
OF_THE_SYSTEM = re.compile(rf"\bimpl\b[^;{{]*?\b(?:{TRAITS})(?:<[^{{]*?>)?\s+for\b|\b(?:{TRAITS})\s+as\s+\w+")
# What is read of files is noted in a `Transcript`. These are all lines of the crate of files that say so, beside those of its own module.
OF_FILES = TOP / "crates/binlog_frame"
NOTES = re.compile(r"\b(?:[Tt]ranscript|keep|note)\b|\.len\s*=[^=]")
NOTING = Counter(
    {
        "use crate::transcript::Transcript;": 2,
        "mod transcript;": 1,
        "pub use transcript::Transcript;": 1,
        "transcript: Transcript,": 1,
        "transcript: Transcript::new(),": 1,
        "pub(crate) fn keep(": 1,
        "transcript: &mut Transcript,": 1,
        "transcript.note(number, offset, held);": 1,
        "self.buffer.keep(i, offset, count, &mut self.transcript);": 1,
        "self.buffer.keep(i, offset, 0, &mut self.transcript);": 1,
        ".note(i, offset, end_of_read(len, offset, buf.len()));": 1,
        "self.begun.note(i, offset, end);": 1,
    }
)
PROOFS_OF_NOTES = {OF_FILES / "proofs/transcript/Transcript" / name / "Proof.antt" for name in ("new", "note")}
# All lines of code that reach files of the system, by the standard library's words for it, and those of the program that open its files: hints
# look at what a path names, and nothing is made or changed. No other macro is written, and no comment stands inside a line.
OF_A_PATH = (
    r"open_file|open_dir|metadata|symlink_metadata|copy|rename|remove_file|remove_dir\w*|create_dir\w*|hard_link|symlink|set_permissions|l?chown"
    r"|set_len|set_times|pipe|bind_unix|canonicalize|read_link|read_dir|exists|try_exists|set_current_dir"
)
REACHES = re.compile(
    rf"\bfs\b|\bFile::|\bFileLogs(?:\b.*\bopen| as)\b|(?<!fn )(?<![\w.:])open(?:_paths)?\(|(?:\.|::)(?:{OF_A_PATH})\b|\bmacro_rules\b|/\*"
)
REACHING = Counter(
    {
        "use std::fs::OpenFile;": 1,
        "use std::fs::{self, File, Metadata, OpenFile};": 1,
        "use std::os::unix::fs::MetadataExt;": 1,
        "if !fs::metadata(rt, path)?.is_file() {": 1,
        "let file = File::open(rt, path)?;": 1,
        "let metadata = file.metadata()?;": 1,
        "match FileLogs::open(rt, rt.alloc(), paths) {": 1,
        "match open(rt, profile, paths) {": 1,
        "match open(rt, profile, &paths) {": 1,
        "match open_paths(rt, audience, profile, paths) {": 1,
        "let logs = match open_paths(rt, audience, profile, &paths) {": 1,
        "use std::fs::File;": 1,
        "let Ok(mut file) = File::open(rt, path) else {": 1,
        "use std::fs;": 1,
        "use std::os::unix::fs::FileTypeExt;": 1,
        "if let Ok(about) = fs::metadata(rt, OUTPUT) {": 1,
        "match rt.metadata(path) {": 1,
        # those of the worked example, and what only has such a name
        "FileLogs::open(rt, alloc, paths).map_err(Fault::Open)": 1,
        "Ok(self.buffer.copy(offset, &mut buf[..wanted]))": 1,
        "sections.metadata,": 1,
        "let mut rest = sections.metadata;": 1,
        "macro_rules! given {": 1,
    }
)
# These are no types round an event: its own header, what stands where no event does, and the standard library's.
OWN_TYPES = {"Result", "Option", "Header", "Ending"}
# So much counts what a way lacks.
MISSING = 1000


class Step(NamedTuple):
    """A function on a way: its file below crates/, and its name."""

    file: str
    function: str

    def __str__(self) -> str:
        """The step as way.txt has it."""
        return f"{self.file} {self.function}"


MAIN = Step("program/src/main.rt", "main")
FEED = Step("binlog_feed/src/feed.rt", "next")
FILE = Step("std", "read")


class Item(NamedTuple):
    """What a figure counts once, and how much of it."""

    what: str
    count: int = 1


class Function(NamedTuple):
    """A function of a file: its name, whether it is public, its clauses as single lines, and the lines of its body."""

    name: str
    is_public: bool
    clauses: list[str]
    body: int


def short(path: Path) -> str:
    """A path as a reader of the repository writes it."""
    return str(path.relative_to(TOP))


def lines_of(path: Path) -> list[str]:
    """The lines of a file."""
    return path.read_text(encoding="utf-8").splitlines()


def sources() -> Iterator[Path]:
    """The files of code, and those of programs of tests."""
    yield from (path for crate in CRATES for path in sorted(crate.glob("src/**/*.rt")))
    yield from sorted(TOP.glob("tests/unproved/*/src/**/*.rattle"))


def documents() -> list[Path]:
    """The documents of the repository, but for those of its examples."""
    return [*TOP.glob("docs/*.md"), TOP / "README.md", TOP / "tests/README.md", TOP / "bench/README.md"]


def clauses_of(head: list[str]) -> list[str]:
    """The clauses between a function's name and its body, each as one line."""
    clauses: list[str] = []
    for line in head:
        text = line.strip()
        if CLAUSE.match(line):
            clauses.append(text)
        elif clauses and text and not text.startswith("//"):
            clauses[-1] += f" {text}"
    return clauses


def functions_of(path: Path) -> Iterator[Function]:
    """The functions of a formatted file that have a body."""
    lines = lines_of(path)
    for number, line in enumerate(lines):
        head = FUNCTION.match(line)
        if not head:
            continue
        indent = head[1]
        opens = (f"{indent}{{", f"{indent}}}", f"{indent});")
        opening = next((at for at in range(number, len(lines)) if lines[at] in opens or lines[at].endswith((" {", ";"))), number)
        last = next((at for at in range(opening, len(lines)) if lines[at] == f"{indent}}}"), opening)
        has_body = lines[opening].endswith("{")
        yield Function(f"{short(path)}: {head[3]}", bool(head[2]), clauses_of(lines[number + 1 : opening]), last - opening - 1 if has_body else 0)


def functions() -> Iterator[Function]:
    """All functions."""
    return (function for path in sources() for function in functions_of(path))


def names_of(crate: Path) -> dict[str, list[str]]:
    """The names that a crate's specs define, with the files that do."""
    found: dict[str, list[str]] = defaultdict(list)
    for path in sorted(crate.glob("specs/**/*.antt")):
        for line in lines_of(path):
            if defined := DEFINED.match(line):
                found[defined[1]].append(path.stem)
    return found


def shared_names() -> Iterator[Item]:
    """Names that stand for several definitions of one crate."""
    for crate in CRATES:
        for name, files in names_of(crate).items():
            if len(files) > 1:
                yield Item(f"{crate.name}: {name} in {', '.join(files)}")


def clauses_over(length: int) -> Iterator[Item]:
    """Clauses of more columns than this."""
    for function in functions():
        yield from (Item(f"{function.name}: {clause}") for clause in function.clauses if len(clause) > length)


def calls_with_many_clauses() -> Iterator[Item]:
    """Public calls with more clauses than somebody reads at once."""
    for function in functions():
        if function.is_public and len(function.clauses) > MANY_CLAUSES:
            yield Item(f"{function.name}: {len(function.clauses)}")


def long_functions() -> Iterator[Item]:
    """Functions whose body is too long."""
    return (Item(f"{function.name}: {function.body}") for function in functions() if function.body >= LONG_FUNCTION)


def long_files() -> Iterator[Item]:
    """Files of code, definitions, proofs or Python that are too long."""
    kinds = ("crates/*/specs/**/*.antt", "crates/*/proofs/**/*.antt", "python/**/*.py", "tests/**/*.py", "examples/**/*.py")
    found = sorted([*sources(), *(path for kind in kinds for path in TOP.glob(kind))])
    return (Item(f"{short(path)}: {len(lines_of(path))}") for path in found if len(lines_of(path)) > LONG_FILE)


def unreachables() -> Iterator[Item]:
    """Places of the code that are held never to be reached."""
    return (Item(f"{short(path)}:{at}") for path in sources() for at, line in enumerate(lines_of(path), 1) if "unreachable!" in line)


def flat_wrong_bodies() -> Iterator[Item]:
    """Wrong bodies that lie beside no others of their file."""
    return (Item(short(path)) for path in sorted(TOP.glob("crates/*/wrong-bodies/*.edit")))


def bad_wrong_bodies() -> Iterator[Item]:
    """Wrong bodies that can't be planted, since their old text doesn't stand once in its function, and public functions that have none."""
    for crate in read_crates().values():
        if (TOP / "crates" / crate.name / FOLDER).is_dir():
            read_edits(crate, "")
            yield from (Item(f"{crate.name}/{name}: {why}") for name, why in sorted(crate.failed.items()))


def glossary_words() -> list[str]:
    """The words that the glossary's tables define, in their order."""
    rows = (line for line in lines_of(GLOSSARY) if line.startswith("| ") and not line.startswith("| Word |"))
    return [word.strip() for row in rows for word in row.split("|")[1].split(",")]


def words_in(text: str) -> str:
    """The words of a text in small letters, a blank round each. Names of code are taken apart: `UnitState` has two words."""
    parted = re.sub(r"(?<=[a-z])(?=[A-Z])", " ", text)
    return f" {' '.join(re.findall(r'[a-z]+', parted.lower()))} "


def forms_of(word: str) -> set[str]:
    """A word as it stands in a text: of one, or of several."""
    word = words_in(word).strip()
    return {word, f"{word}s", f"{word}es", re.sub("y$", "ies", word), word.replace(" ", "s ", 1)}


def unused_words() -> Iterator[Item]:
    """Words of the glossary that stand in no code, definition or other document."""
    paths = {*sources(), *TOP.glob("crates/*/specs/**/*.antt"), *documents()} - {GLOSSARY}
    texts = [words_in(path.read_text(encoding="utf-8")) for path in paths]
    for word in glossary_words():
        if not any(f" {form} " in text for form in forms_of(word) for text in texts):
            yield Item(word)


def words_defined_again() -> Iterator[Item]:
    """Words that the glossary defines more than once."""
    counts = Counter(glossary_words())
    return (Item(word, counts[word] - 1) for word in counts if counts[word] > 1)


def lines_in(paths: Iterable[Path]) -> Iterator[Item]:
    """The lines of these files."""
    return (Item(short(path), len(lines_of(path))) for path in sorted(paths))


def proof_lines() -> Iterator[Item]:
    """The lines of proofs, by crate."""
    for crate in CRATES:
        yield Item(crate.name, sum(len(lines_of(path)) for path in crate.glob("proofs/**/*.antt")))


def ways() -> dict[str, list[Step]]:
    """The ways of way.txt, by their names."""
    found: dict[str, list[Step]] = {}
    for line in lines_of(WAYS):
        words = line.split()
        if len(words) == 1:
            steps = found.setdefault(words[0], [])
        elif words and not line.startswith("#"):
            steps.append(Step(words[0], words[1]))
    return found


def lines_of_function(step: Step) -> list[str]:
    """The lines of a function without comments, from its head on; none where the file hasn't it."""
    lines = [re.sub(r"//.*", "", line) for line in lines_of(TOP / "crates" / step.file)]
    heads = ((at, head[1]) for at, line in enumerate(lines) if (head := FUNCTION.match(line)) and head[3] == step.function)
    at, indent = next(heads, (len(lines), ""))
    last = next((number for number in range(at, len(lines)) if lines[number] == f"{indent}}}"), len(lines))
    return lines[at:last]


def calls_between(way: str, first: Step, last: Step) -> Iterator[Item]:
    """The functions between the first one of a way and the last one. What the way lacks makes the figure too large."""
    steps = ways().get(way, [])
    if [*steps[:1], *steps[-1:]] != [first, last]:
        yield Item(f"it doesn't go from {first} to {last}", MISSING)
    for step, called in zip(steps, steps[1:]):
        if not any(re.search(rf"\b{called.function}\(", line) for line in lines_of_function(step)[1:]):
            yield Item(f"{step} doesn't call {called}", MISSING)
    yield from (Item(str(step)) for step in steps[1:-1])


def members_of_types() -> dict[str, set[str]]:
    """The types of binlog_frame, binlog_units and binlog_feed, and those that each one's fields name."""
    found = {}
    for path in (path for path in sources() if path.parts[-3] in {"binlog_frame", "binlog_units", "binlog_feed"}):
        text = re.sub(r"//.*", "", path.read_text(encoding="utf-8"))
        for name, body in re.findall(r"\n(?:pub(?:\([^)]*\))? )?(?:struct|enum) (\w+)[^;{]*\{(.*?)\n\}", text, re.DOTALL):
            found[name] = set(re.findall(r"\b[A-Z]\w+", body))
    return found


def types_round_an_event() -> Iterator[Item]:
    """The types that the steps to an event answer, with those in them that hold its header."""
    members = members_of_types()
    steps = [Step(*words) for words in EVENT_STEPS]
    answers = {step: ANSWER.search("\n".join(lines_of_function(step))) for step in steps}
    yield from (Item(f"{step} answers nothing", MISSING) for step, answer in answers.items() if not answer)

    def named_in(types: set[str]) -> set[str]:
        inside = set().union(*(members.get(name, set()) for name in types)) - types
        return types | named_in(types | inside) if inside else types

    def holds_header(name: str) -> bool:
        return "Header" in named_in({name})

    told = {name for answer in answers.values() if answer for name in re.findall(r"\b[A-Z]\w+", answer[1])}
    told = {name for name in told if not name.endswith("Fault") or holds_header(name)}
    yield from (Item(name) for name in sorted((told | {name for name in named_in(told) if holds_header(name)}) - OWN_TYPES))


def other_proofs_that_set_looks() -> Iterator[Item]:
    """The proofs that set what `Looks` has, by hand or by a call that is told the look, but for those that have to.

    Any other could note a look that never was.
    """
    for path in sorted(TOP.glob("crates/*/proofs/**/*.antt")):
        text = path.read_text(encoding="utf-8")
        # A proof by hand of that crate may name the type by way of another module.
        by_hand = path.name == "Proof.antt" and (OF_LOOKS in path.parents or "looks.Looks" in text)
        if by_hand or re.search(r"\bghost-(?:add|none|note)", text):
            if path not in PROOFS_THAT_SET_LOOKS:
                yield Item(str(path.relative_to(TOP)))
    for name, wanted in SUMS_OF_LOOKS.items():
        came = hashlib.sha256((OF_LOOKS / name).read_bytes()).hexdigest()[:16]
        if came != wanted:
            yield Item(f"{name} is another: {came}")
    there = Counter(lines_of(OF_LOOKS / "specs/LookSteps.antt"))
    yield from (Item(f"LookSteps doesn't say: {line}") for line in LINES_OF_LOOKS if there[line] != 1)


def code_of(path: Path) -> Iterator[str]:
    """The lines of code of a file, without comments and clauses."""
    lines = (re.sub(r"//.*", "", line).strip() for line in lines_of(path))
    return (line for line in lines if not re.match(r"(?:ghost|ensures|requires)\b", line))


def lines_that_note() -> Iterator[str]:
    """The lines of code of the crate of files, but for the module of `Transcript`, that speak of what is noted, or set a length."""
    for path in sorted(OF_FILES.glob("src/**/*.rt")):
        if path.name not in {"transcript.rt", "reach.rt"}:
            yield from filter(NOTES.search, code_of(path))


def lines_that_reach() -> Iterator[str]:
    """The lines of code that reach files of the system."""
    for path in (path for path in sources() if path.suffix == ".rt"):
        yield from filter(REACHES.search, code_of(path))


def other_sources_of_bytes() -> Iterator[Item]:
    """What could have a run look at files that aren't there, or make a source dishonest, of which no contract says anything.

    These are impls by which files could give other bytes than the system's, lines of code that note a read or set a length, lines that reach
    files of the system, and proofs by hand of what is noted, but for those that have to.
    """
    for path in (path for path in sources() if path.suffix == ".rt"):
        text = re.sub(r"//.*", "", path.read_text(encoding="utf-8"))
        yield from (Item(f"{path.relative_to(TOP)}: {what}") for what in OF_THE_SYSTEM.findall(text))
    yield from (Item(line, count) for line, count in (Counter(lines_that_note()) - NOTING).items())
    yield from (Item(line, count) for line, count in (Counter(lines_that_reach()) - REACHING).items())
    yield from (Item(short(path)) for path in {*OF_FILES.glob("proofs/transcript/**/Proof.antt")} - PROOFS_OF_NOTES)


FIGURES = {
    "calls_between_main_and_the_feed": lambda: calls_between("calls_between_main_and_the_feed", MAIN, FEED),
    "calls_between_the_feed_and_the_file": lambda: calls_between("calls_between_the_feed_and_the_file", FEED, FILE),
    "calls_between_a_look_behind_rows_and_the_file": lambda: calls_between("calls_between_a_look_behind_rows_and_the_file", FEED, FILE),
    "calls_between_a_second_reading_and_the_file": lambda: calls_between("calls_between_a_second_reading_and_the_file", FEED, FILE),
    "types_round_an_event": types_round_an_event,
    "shared_names": shared_names,
    "clauses_over_100_columns": lambda: clauses_over(LONG_CLAUSE),
    "clauses_over_140_columns": lambda: clauses_over(LONGEST_CLAUSE),
    "public_calls_with_over_16_clauses": calls_with_many_clauses,
    "functions_over_40_lines": long_functions,
    "files_over_800_lines": long_files,
    "other_proofs_that_set_looks": other_proofs_that_set_looks,
    "other_sources_of_bytes": other_sources_of_bytes,
    "unreachables": unreachables,
    "flat_wrong_bodies": flat_wrong_bodies,
    "bad_wrong_bodies": bad_wrong_bodies,
    "lines_of_proofs": proof_lines,
    "lines_of_rows": lambda: lines_in([TOP / "tests/rows.jsonl", TOP / "tests/logs.jsonl"]),
    "lines_of_documents": lambda: lines_in(documents()),
    "guarantees_of_no_clause": lambda: map(Item, unknown_clauses(TOP)),
    "glossary_words_unused": unused_words,
    "glossary_words_defined_again": words_defined_again,
}


def most_allowed() -> dict[str, int]:
    """The most that house.txt allows of each figure."""
    words = (line.split() for line in lines_of(MOST) if line and not line.startswith("#"))
    return {name: int(most) for name, most in words}


def judge() -> int:
    """Prints each figure beside the most that is allowed, and answers the exit status."""
    allowed = most_allowed()
    came = Counter()
    for name in sorted({*FIGURES, *allowed}):
        figure = sum(item.count for item in FIGURES[name]()) if name in FIGURES else None
        is_well = figure is not None and name in allowed and figure <= allowed[name]
        came[is_well] += 1
        print(f"{name}: {figure}, at most {allowed.get(name)}{'' if is_well else ' FAILED'}")
    print(f"{came[True]} passed, {came[False]} failed")
    return 1 if came[False] else 0


def main() -> int:
    """Judges all figures, or lists what one counts."""
    parser = argparse.ArgumentParser(description=__doc__.split("\n", maxsplit=1)[0])
    parser.add_argument("--list", choices=FIGURES, metavar="NAME", help="print what this figure counts")
    given = parser.parse_args()
    if given.list:
        for item in FIGURES[given.list]():
            print(item.what if item.count == 1 else f"{item.what}: {item.count}")
        return 0
    return judge()


if __name__ == "__main__":
    sys.exit(main())
