"""The page for programmers, docs/LIBRARY.md: its quotes stand in the files that it names. Its worked example, the program
`key_story`, tells the story of each key of a server's logs."""
import re
from functools import partial
from pathlib import Path
from textwrap import dedent
from typing import NamedTuple

from built.check import Check, Wanted, differs, run
from built.server_logs import SHOP, SHOP_KEYS, logs_of, stories_of
from logs import A, put

TOP = Path(__file__).resolve().parents[2]
PAGE = TOP / "docs/LIBRARY.md"
EXAMPLE = "crates/key_story/src/main.rt"
PROGRAMS = [TOP / "crates/key_story/out/key_story", TOP / "crates/key_story/out/key_story.by-rattle"]

# A block of the page, between its fences, and a path in the text in front of it. Commands are no quotes.
BLOCK = re.compile(r"^```(\w+)\n(.*?)^```$", re.DOTALL | re.MULTILINE)
PATH = re.compile(r"`(crates(?:\.txt|/[\w/.]+))`")
COMMANDS = "sh"


class Quote(NamedTuple):
    """A text that the page quotes, and the file that it names last in front of it."""

    path: str
    text: str

    def stands_there(self) -> bool:
        """Whether its lines stand in that file, one behind the other, however far they are moved in as a whole."""
        lines = (TOP / self.path).read_text(encoding="utf-8").splitlines()
        count = len(self.text.splitlines())
        parts = ("\n".join(lines[at : at + count]) for at in range(len(lines)))
        return any(dedent(part) == self.text.rstrip("\n") for part in parts)


def quotes() -> list[Quote]:
    """What the page quotes."""
    page = PAGE.read_text(encoding="utf-8")
    blocks = [block for block in BLOCK.finditer(page) if block[1] != COMMANDS]
    return [Quote((PATH.findall(page[: block.start()]) or ["crates.txt"])[-1], block[2]) for block in blocks]


def judge_quotes(_program: Path, _folder: Path) -> list[str]:
    """Each quote stands in its file, and some are of the example."""
    quoted = quotes()
    reasons = [f"{quote.path} hasn't: {quote.text.splitlines()[0]} .." for quote in quoted if not quote.stands_there()]
    is_shown = any(quote.path == EXAMPLE for quote in quoted)
    return reasons + ([] if is_shown else [f"nothing of {EXAMPLE} is quoted"])


def judge_stories(table: str, program: Path, folder: Path) -> list[str]:
    """The story of each key of a table of the shop's. A key without changes has none."""
    stories = {**stories_of(table), '["nobody"]': b""}
    ends = {key: run(program, ["shop", table, key, *logs_of(SHOP)], folder) for key in stories}
    return [f"{key}: {reason}" for key, story in stories.items() for reason in differs(ends[key], Wanted(0, story))]


def judge_fault(words: list[str], line: str, program: Path, folder: Path) -> list[str]:
    """A fault has one line on standard error, and status 1."""
    put(folder, ["log", "below/log"], A)
    put(folder, ["text"], b"no log")
    return differs(run(program, words, folder), Wanted(1, b"", f"Error: {line}\n".encode()))


# Words that come to a fault, with the line that names it.
FAULTS = (
    ([], 'Wanted("SCHEMA TABLE KEY FILE..")'),
    (["s", "t", "[1", "log"], 'Wanted("KEY as JSON")'),
    (["s", "t", "[1]", "log", "missing"], "Open(CannotOpen(1))"),
    (["s", "t", "[1]", "log", "below/log"], "Begin(DuplicateFile(1))"),
    (["s", "t", "[1]", "log", "text"], "Read(Feed(Log(LogFault { file: 1, position: 0, what: BadMagic })))"),
)


def checks() -> list[Check]:
    """The checks of the page and of its example."""
    return [
        Check("the quotes of docs/LIBRARY.md", judge_quotes),
        *[Check(f"key_story tells of {table}", partial(judge_stories, table)) for table in SHOP_KEYS],
        *[Check(f"key_story: {line}", partial(judge_fault, words, line)) for words, line in FAULTS],
    ]
