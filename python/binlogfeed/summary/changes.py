"""Counts of changes, from the lines of `read`.

No line of a row is read as JSON here. Its tail has a fixed form, and no text within JSON has a bare quote. So a pattern that
goes on to the line's end finds the tail and nothing else, whatever names and values a row has. Lines of statements, of which
there are few, are taken out of the others before.
"""
from __future__ import annotations

import json
import re
from collections import Counter
from typing import NamedTuple, Optional

from binlogfeed.faults import ProgramFailed
from binlogfeed.lines import OF_STATEMENT, last_members, said_by
from binlogfeed.statements import first_word
from binlogfeed.summary.sizes import Sizes
from binlogfeed.summary.times import Times

TEXT = rb'(?:[^"\\]|\\.)*'


def tail_pattern(text: bytes) -> re.Pattern[bytes]:
    """The tails of lines whose names are such texts: kind, table and time in one, and the position of the transaction."""
    names = rb'kind":"([^"]*","schema":"%s","table":"%s","timestamp":[^,]*)' % (text, text)
    return re.compile(rb'%s,"token":"(\d+)\.\d+@%s"\}\n' % (names, text))


# Names without a quote are found faster. A line that isn't found so has one with a quote.
TAILS, ANY_TAILS = tail_pattern(rb'[^"]*'), tail_pattern(TEXT)
TOKEN = rb'"token":"((\d+)\.\d+@(%s))"\}\n' % TEXT
LINE = re.compile(
    rb'"gtid":(?:null|"([^"]*)"),"kind":"[a-z]+","schema":"%s","table":"%s","timestamp":(\d+),%s' % (TEXT, TEXT, TOKEN)
)
# The lines of statements.
STATEMENTS = re.compile(rb"^%s[^\n]*\n" % re.escape(OF_STATEMENT), re.MULTILINE)


class Change(NamedTuple):
    """A change: its time, its token, and its GTID where it has one."""

    time: int
    token: str
    gtid: Optional[str]


class Place(NamedTuple):
    """The place of a transaction, as lines spell it."""

    position: bytes
    file: bytes


class Line(NamedTuple):
    """What a line's tail says: the place of its transaction, and the change."""

    place: Place
    change: Change


class Table(NamedTuple):
    """A table, by its names."""

    schema: str
    name: str


class Stretch(NamedTuple):
    """Lines of one file that follow one another."""

    first: Line
    last: Line
    # How many of them are of the first transaction, and of the last. The two may be one, and may have other lines, too.
    first_count: int
    last_count: int
    # The last line of the first transaction.
    first_end: Line
    # The transactions between the two: how many have how many changes, and the largest of them.
    between: dict[int, int]
    large: list[tuple[int, Change]]


class Block(NamedTuple):
    """What is counted in some lines."""

    names: dict[bytes, int]
    times: dict[int, int]
    stretches: list[Stretch]
    # How many statements begin with which word.
    words: dict[str, int]
    # The token of the last line.
    token: str


def counted_block(lines: bytes, least: int) -> Block:
    """Counts lines. It tells more of transactions that have more changes than `least`."""
    names: Counter[bytes] = Counter()
    times: Counter[int] = Counter()
    words: Counter[str] = Counter()
    stretches, token = [], last_token(lines)
    if lines.startswith(OF_STATEMENT) or b"\n" + OF_STATEMENT in lines:
        texts = (said_by(line).text.decode("utf-8", "replace") for line in STATEMENTS.findall(lines))
        words.update(map(first_word, texts))
        lines = STATEMENTS.sub(b"", lines)
    start, end = 0, len(lines)
    while start < end:
        first, last, stop = first_line(lines, start, end), last_line(lines, start, end), end
        if first.place.file != last.place.file:
            stop = end_of_file(lines, first.place.file, start, end)
            last = last_line(lines, start, stop)
        tables, positions = counts_of(lines, start, stop, first.place == last.place)
        for text, count in tables.items():
            table, _, second = text.rpartition(b'","timestamp":')
            names[table] += count
            times[int(second)] += count
        stretches.append(_stretch(lines, start, stop, first, last, positions, least))
        start = stop
    return Block(dict(names), dict(times), stretches, dict(words), token)


def _stretch(
    lines: bytes, start: int, end: int, first: Line, last: Line, counts: dict[bytes, int], least: int
) -> Stretch:
    """What is counted in lines of one file, by the changes of each transaction."""
    if first.place == last.place:
        return Stretch(first, last, sum(counts.values()), 0, last, {}, [])
    first_count, last_count = counts.pop(first.place.position), counts.pop(last.place.position)
    first_end = first_line(lines, start_of(lines, start, end, first_count), end)
    large: Sizes[Change] = Sizes(least)
    if max(counts.values(), default=0) > least:
        for position, count in counts.items():
            if count > large.least:
                large.offer(count, last_line_at(lines, position, start, end).change)
    return Stretch(first, last, first_count, last_count, first_end, dict(Counter(counts.values())), large.largest)


class Changes:
    """What is told of changes. `add` takes blocks in log order, and `end` comes behind the last of them."""

    def __init__(self) -> None:
        """Before the first change."""
        self.first: Optional[Change] = None
        self.last: Optional[Change] = None
        self.times = Times()
        # By the changes in each transaction, with the last of them.
        self.sizes: Sizes[Change] = Sizes()
        # How many statements by themselves begin with which word.
        self.words: Counter[str] = Counter()
        # The token of the last line, be it of a row or of a statement.
        self.token: Optional[str] = None
        self._names: Counter[bytes] = Counter()
        # The last transaction so far, which may go on: its last line, and its changes.
        self._open: Optional[tuple[Line, int]] = None

    def add(self, block: Block) -> None:
        """Takes in what is counted in the lines that come next."""
        for names, count in block.names.items():
            self._names[names] += count
        self.times.add(block.times)
        self.words.update(block.words)
        self.token = block.token
        for stretch in block.stretches:
            self.first = self.first or stretch.first.change
            self.last = stretch.last.change
            self._add_transactions(stretch)

    def _add_transactions(self, stretch: Stretch) -> None:
        """Takes in transactions. The last of them may go on."""
        before = 0
        if self._open and self._open[0].place == stretch.first.place:
            before = self._open[1]
        else:
            self.end()
        self._open = stretch.first_end, before + stretch.first_count
        if stretch.first.place == stretch.last.place:
            return
        self.end()
        self.sizes.count(stretch.between)
        for size, change in stretch.large:
            self.sizes.offer(size, change)
        self._open = stretch.last, stretch.last_count

    def end(self) -> None:
        """Counts the last transaction."""
        if self._open:
            line, count = self._open
            self.sizes.count({count: 1})
            self.sizes.offer(count, line.change)
            self._open = None

    def statements(self) -> list[tuple[str, int]]:
        """The first words of statements, with how many there are. That of the most is the first."""
        return sorted(self.words.items(), key=lambda item: (-item[1], item[0]))

    @property
    def total(self) -> int:
        """How many changes there are."""
        return sum(self._names.values())

    def tables(self) -> dict[Table, Counter[str]]:
        """How many changes of each kind each table has. The table with the most is the first."""
        found: dict[Table, Counter[str]] = {}
        for names, count in self._names.items():
            one = json.loads(b'{"kind":"' + names + b'"}')
            found.setdefault(Table(one["schema"], one["table"]), Counter())[one["kind"]] += count
        return dict(sorted(found.items(), key=lambda item: (-sum(item[1].values()), item[0])))


def counts_of(lines: bytes, start: int, end: int, is_one: bool) -> tuple[dict[bytes, int], ...]:
    """How many lines have which kind, table and time, and which position of their transaction.

    `is_one` says that all are of one transaction, whose lines mostly differ in their rows alone.
    """
    # This takes a fifth of the time that `count` takes.
    count = end - start - len(lines[start:end].replace(b"\n", b""))
    tail = ANY_TAILS.search(lines, start, end) if is_one else None
    # Where no column is called `token`, what is found as often as there are lines stands in the tail of each of them.
    if tail and lines.count(b'"token":"', start, end) == count:
        if lines.count(lines[tail.start() : tail.end(2) + 1], start, end) == count:
            return tuple({text: count} for text in tail.groups())
    for pattern in (TAILS, ANY_TAILS):
        tails = pattern.findall(lines, start, end)
        if len(tails) == count:
            return tuple(Counter(texts) for texts in zip(*tails))
    raise not_a_line()


def first_line(lines: bytes, start: int, end: int) -> Line:
    """The first of these lines."""
    tail = LINE.search(lines, start, end)
    if tail is None:
        raise not_a_line()
    gtid, time, token, position, file = tail.groups()
    change = Change(int(time), json.loads(b'"' + token + b'"'), None if gtid is None else gtid.decode())
    return Line(Place(position, file), change)


def last_line(lines: bytes, start: int, end: int) -> Line:
    """The last of these lines."""
    return first_line(lines, max(start, lines.rfind(b"\n", start, end - 1) + 1), end)


def start_of(lines: bytes, start: int, end: int, number: int) -> int:
    """Where the line with a number begins, counted from 1."""
    for _ in range(number - 1):
        start = lines.find(b"\n", start, end) + 1
    return start


def last_token(lines: bytes) -> str:
    """The token of the last of these lines."""
    try:
        token: str = last_members(lines)["token"]
    except (ValueError, LookupError) as error:
        raise not_a_line() from error
    return token


def last_line_at(lines: bytes, position: bytes, start: int, end: int) -> Line:
    """The last of these lines whose transaction has a position. They are of one file."""
    found, at = b'"token":"%s.' % position, end
    while at > start:
        at = lines.rfind(found, start, at)
        if at < 0:
            break
        line = last_line(lines, start, lines.find(b"\n", at, end) + 1)
        # A column may be named so, too.
        if line.place.position == position:
            return line
    raise not_a_line()


def end_of_file(lines: bytes, file: bytes, start: int, end: int) -> int:
    """Where those of these lines end that are of the file of the first of them."""
    other = re.search(rb'"token":"\d+\.\d+@(?!%s"\}\n)%s"\}\n' % (re.escape(file), TEXT), memoryview(lines)[start:end])
    return end if other is None else lines.rfind(b"\n", start, start + other.start()) + 1


def not_a_line() -> ProgramFailed:
    """The error of a line whose tail has another form."""
    return ProgramFailed("binlogfeed: a line of the program isn't one of a change")
