"""A summary as text, for a terminal."""
from __future__ import annotations

import textwrap
import unicodedata
from collections.abc import Sequence

from binlogfeed.counts import counted
from binlogfeed.summary.changes import Change
from binlogfeed.summary.gtids import interval_text
from binlogfeed.summary.reading import Summary
from binlogfeed.summary.times import spoken, start_text, utc
from binlogfeed.summary.told import (
    ENDINGS,
    FAULT,
    FILTERED,
    GAPS,
    KINDS,
    MOST_PERIODS,
    STATEMENTS,
    Large,
    byte_sizes,
    change_sizes,
    first_words,
    largest_by_bytes,
    largest_by_changes,
    logs_text,
    numbers_text,
    readable,
    size_text,
)

# Eighths of a character, up to a whole one.
EIGHTHS = " ▏▎▍▌▋▊▉█"
MOST_LARGE = 5
MOST_GAPS = 50
# A bar has at most so many characters, and names that would leave fewer than these stand on a line of their own.
BAR, LEAST_BAR = 40, 20
INDENT = "  "


def as_text(summary: Summary, width: int) -> str:
    """The summary, for a terminal that is so many characters wide."""
    parts = [
        _head(summary, width),
        _changes(summary),
        _tables(summary, width),
        _statements(summary, width),
        _times(summary, width),
        _sizes("Transactions by number of changes", change_sizes(summary), width),
        _sizes("Transactions by bytes in the log", byte_sizes(summary), width),
        _large("Largest transactions by changes", ("Changes", "Last change"), largest_by_changes(summary), width),
        _large("Largest transactions by bytes", ("Bytes", "Begins"), largest_by_bytes(summary), width),
        _endings(summary),
        _gtids(summary, width),
        _fault(summary, width),
    ]
    return "\n".join("".join(f"{line}".rstrip() + "\n" for line in part) for part in parts if part)


def _head(summary: Summary, width: int) -> list[str]:
    """Which logs these are."""
    lines = [*_wrapped(f"{logs_text(summary)}: {size_text(summary)}", width, ""), "Times are in UTC."]
    if summary.filters:
        lines += _wrapped(f"Filters: {readable(' '.join(summary.filters))}. {FILTERED}", width, "")
    return lines + _fault(summary, width)


def _fault(summary: Summary, width: int) -> list[str]:
    """What ended the reading early."""
    return [] if summary.fault is None else [readable(summary.fault.line), *_wrapped(FAULT, width, "")]


def _changes(summary: Summary) -> list[str]:
    """How many changes there are, and the first and the last."""
    changes = summary.changes
    lines = [f"{counted(changes.total, 'change')} in {counted(changes.sizes.total, 'transaction')}"]
    for name, change in (("First", changes.first), ("Last ", changes.last)):
        if change is not None:
            lines += _change(name, change)
    peak = changes.times.peak()
    if peak is not None:
        lines.append(f"{INDENT}Most   {utc(peak.start)}  {counted(peak.count, 'change')} in {spoken(peak.width)}")
    return lines


def _change(name: str, change: Change) -> list[str]:
    """A change's time, its token and its GTID."""
    before = f"{INDENT}{name}  {utc(change.time)}  "
    return [f"{before}{readable(change.token)}", " " * len(before) + (change.gtid or "no GTID")]


def _tables(summary: Summary, width: int) -> list[str]:
    """The changes by table and kind."""
    rows = []
    for table, kinds in summary.changes.tables().items():
        numbers = [kinds[kind] for kind in KINDS]
        rows.append((readable(f"{table.schema}.{table.name}"), [*numbers, sum(numbers)]))
    return ["Changes by table", *_rows(["Table", "Inserts", "Updates", "Deletes", "All"], rows, width)] if rows else []


def _statements(summary: Summary, width: int) -> list[str]:
    """The statements by their first words."""
    rows = [(word, [count]) for word, count in first_words(summary)]
    return [STATEMENTS, *_rows(["First word", "Statements"], rows, width)] if rows else []


def _times(summary: Summary, width: int) -> list[str]:
    """The changes over time."""
    periods = summary.changes.times.periods(MOST_PERIODS)
    rows = [(start_text(period), [period.count]) for period in periods]
    if not rows:
        return []
    return [f"Changes over time, {spoken(periods[0].width)} a row", *_rows(["From", "Changes"], rows, width)]


def _sizes(title: str, sizes: Sequence[tuple[str, int]], width: int) -> list[str]:
    """Transactions by their sizes."""
    return [title, *_rows(["Size", "Transactions"], [(name, [count]) for name, count in sizes], width)] if sizes else []


def _rows(heads: Sequence[str], rows: Sequence[tuple[str, Sequence[int]]], width: int) -> list[str]:
    """Rows of a name and numbers, with a bar for the last number."""
    texts = [(name, [f"{number:,}" for number in numbers]) for name, numbers in rows]
    widths = [max(map(len, column)) for column in zip(heads[1:], *(numbers for _, numbers in texts))]
    taken = sum(widths) + 2 * len(widths) + len(INDENT) + 2
    first = max(len(heads[0]), min(max(shown_width(name) for name, _ in texts), width - taken - LEAST_BAR))
    room = max(0, min(BAR, width - taken - first))
    most = max(numbers[-1] for _, numbers in rows)
    lines = [_row(heads[0], heads[1:], first, widths)]
    for (name, numbers), (_, values) in zip(texts, rows):
        if shown_width(name) > first:
            lines.append(INDENT + name)
            name = ""
        lines.append(f"{_row(name, numbers, first, widths)}  {bar(values[-1], most, room)}")
    return lines


def _row(name: str, numbers: Sequence[str], first: int, widths: Sequence[int]) -> str:
    """A name and numbers in their columns."""
    cells = "".join(f"  {number:>{width}}" for number, width in zip(numbers, widths))
    return f"{INDENT}{name}{' ' * (first - shown_width(name))}{cells}"


def bar(value: int, most: int, room: int) -> str:
    """A bar as long as a value is, of a room for the greatest. One that is too short to be seen has an eighth."""
    eighths = max(1, round(8 * room * value / most)) if value and room else 0
    return EIGHTHS[8] * (eighths // 8) + EIGHTHS[eighths % 8].strip()


def shown_width(text: str) -> int:
    """How many columns of a terminal a text takes."""
    wide = sum(unicodedata.east_asian_width(char) in "WF" for char in text)
    return len(text) + wide - sum(unicodedata.combining(char) > 0 for char in text)


def _large(title: str, heads: tuple[str, str], large: Sequence[Large], width: int) -> list[str]:
    """The largest transactions."""
    rows = [(f"{one.size:,}", one.time, one.token, one.gtid) for one in large[:MOST_LARGE]]
    if not rows:
        return []
    rows.insert(0, (*heads, "Token", "GTID"))
    first, second, third, _ = (max(map(len, column)) for column in zip(*rows))
    before = len(INDENT) + first + 2 + second + 2
    is_wide = all(before + third + 2 + len(gtid) <= width for _, _, _, gtid in rows)
    lines = [title]
    for size, when, token, gtid in rows:
        lines.append(f"{INDENT}{size:>{first}}  {when:<{second}}  {token:<{third}}")
        if is_wide:
            lines[-1] += f"  {gtid}"
        elif len(lines) == 2:
            lines[-1] = lines[-1].rstrip() + ", GTID"
        else:
            lines.append(" " * before + gtid)
    return lines


def _endings(summary: Summary) -> list[str]:
    """How transactions end."""
    counts = [(name, f"{summary.units.endings[name]:,}", meaning) for name, meaning in ENDINGS.items()]
    width = max(len(count) for _, count, _ in counts)
    return ["Endings", *(f"{INDENT}{name:<9}  {count:>{width}}  {meaning}" for name, count, meaning in counts)]


def _gtids(summary: Summary, width: int) -> list[str]:
    """The GTIDs, and which are missing."""
    lines = []
    for source, numbers in sorted(summary.units.gtids.items()):
        lines += [INDENT + source, *_wrapped(numbers_text(numbers), width, INDENT * 2)]
        gaps = numbers.gaps()
        if gaps:
            told = ", ".join(map(interval_text, gaps[:MOST_GAPS]))
            more = f", and {counted(len(gaps) - MOST_GAPS, 'gap')} more" if len(gaps) > MOST_GAPS else ""
            lines += _wrapped(f"missing: {told}{more}", width, INDENT * 2)
    if summary.units.without_gtid:
        lines.append(f"{INDENT}without a GTID: {summary.units.without_gtid:,}")
    if any(numbers.gaps() for numbers in summary.units.gtids.values()):
        lines += _wrapped(GAPS, width, INDENT)
    return ["GTIDs by source", *lines] if lines else []


def _wrapped(text: str, width: int, indent: str) -> list[str]:
    """A text in lines."""
    return textwrap.wrap(text, width, initial_indent=indent, subsequent_indent=indent, break_on_hyphens=False)
