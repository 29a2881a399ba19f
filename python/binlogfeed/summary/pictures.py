"""Pictures of a summary, as SVG within a page.

Lengths across are in percent and letters in pixels. So a picture is as wide as the page leaves room for, and its words
stay as large as the page's.
"""
from __future__ import annotations

from collections.abc import Sequence
from html import escape
from typing import NamedTuple

from binlogfeed.summary.gtids import Numbers
from binlogfeed.summary.told import readable

ROW, BAR_TOP, BAR_HEIGHT = 42, 22, 12
PLOT, PLOT_TOP, AXIS = 220, 12, 26
LETTER = 8
# What is longer is shortened in a picture: the page's tables have it whole.
LONGEST_NAME = 34
MOST_GAPS = 500
LEAST_PERCENT, WIDEST_PERCENT = 0.25, 12


class Part(NamedTuple):
    """A part of a bar: its class in the page's style, what it counts, and how many."""

    kind: str
    noun: str
    count: int


class Bar(NamedTuple):
    """A bar with its name."""

    name: str
    parts: Sequence[Part]

    @property
    def count(self) -> int:
        """The sum of its parts."""
        return sum(part.count for part in self.parts)


def safe(text: str) -> str:
    """A text as it can stand in a page."""
    return escape(readable(text))


def shortened(name: str) -> str:
    """A name that is short enough for a picture: without its middle."""
    half = LONGEST_NAME // 2
    return name if len(name) <= LONGEST_NAME else f"{name[:half]}…{name[1 - half :]}"


def bars(title: str, rows: Sequence[Bar]) -> str:
    """Bars below one another, each beneath its name and its number."""
    most = max(row.count for row in rows)
    drawn = "".join(_bar(row, most, ROW * number) for number, row in enumerate(rows))
    described = "; ".join(_described(row) for row in rows)
    return _picture(title, described, ROW * len(rows), drawn)


def _described(row: Bar) -> str:
    """What a bar says, in words."""
    return f"{readable(row.name)}: " + ", ".join(f"{part.count:,} {part.noun}" for part in row.parts)


def _bar(row: Bar, most: int, top: int) -> str:
    """A bar of parts that stand side by side."""
    at, drawn, place = 0.0, "", f'y="{top + BAR_TOP}" height="{BAR_HEIGHT}"'
    for part in row.parts:
        width = 100 * part.count / most
        if part.count:
            drawn += f'<rect class="{part.kind}" x="{at:.3f}%" width="{width:.3f}%" {place}/>'
        at += width
    return (
        f"<g><title>{escape(_described(row))}</title>"
        f'<rect class="room" x="0" width="100%" {place}/>{drawn}'
        f'<text x="0" y="{top + BAR_TOP - 7}">{escape(shortened(readable(row.name)))}</text>'
        f'<text class="end" x="100%" y="{top + BAR_TOP - 7}">{row.count:,}</text></g>'
    )


def columns(title: str, noun: str, counts: Sequence[tuple[str, int]], marks: Sequence[int]) -> str:
    """Columns side by side, with a scale at their left, and below them the names of those that are marked."""
    most = max(count for _, count in counts)
    top = _rounded_up(most)
    described = f"{len(counts):,} columns from {counts[0][0]} to {counts[-1][0]}, the highest {most:,} {noun}"
    each = 100 / len(counts)
    width = min(0.8 * each, WIDEST_PERCENT)
    drawn = "".join(_grid_line(share) for share in (0, 0.5, 1))
    for number, (name, count) in enumerate(counts):
        height = max(1.0, PLOT * count / top) if count else 0
        drawn += (
            f"<g><title>{escape(name)}: {count:,} {noun}</title>"
            f'<rect class="hover" x="{each * number:.3f}%" y="{PLOT_TOP}" width="{each:.3f}%" height="{PLOT}"/>'
            f'<rect class="all" x="{each * (number + 0.5) - width / 2:.3f}%" y="{PLOT_TOP + PLOT - height:.1f}"'
            f' width="{width:.3f}%" height="{height:.1f}"/></g>'
        )
    drawn += _names_below([name for name, _ in counts], marks)
    labels = [f"{round(top * share):,}" for share in (0, 0.5, 1)] if top > 1 else ["0", "", "1"]
    return f'<div class="plot">{_scale(labels)}{_picture(title, described, PLOT_TOP + PLOT + AXIS, drawn)}</div>'


def _rounded_up(count: int) -> int:
    """The next number of 1, 2 or 5 and zeros."""
    power = 10 ** (len(str(count)) - 1)
    return next(power * digit for digit in (1, 2, 5, 10) if power * digit >= count)


def _grid_line(share: float) -> str:
    """A line across the plot."""
    y = PLOT_TOP + PLOT * (1 - share)
    return f'<line class="grid" x1="0" x2="100%" y1="{y:.1f}" y2="{y:.1f}"/>'


def _scale(labels: Sequence[str]) -> str:
    """The numbers at the left of a plot, from the lowest up."""
    width = LETTER * max(map(len, labels)) + 8
    texts = "".join(
        f'<text class="end" x="{width - 8}" y="{PLOT_TOP + PLOT * (1 - number / 2) + 4:.1f}">{label}</text>'
        for number, label in enumerate(labels)
    )
    return f'<svg class="scale" aria-hidden="true" width="{width}" height="{PLOT_TOP + PLOT + AXIS}">{texts}</svg>'


def _names_below(names: Sequence[str], marks: Sequence[int]) -> str:
    """Some of the columns' names, below them. Where there is little room only the first and the last of these are shown."""
    last = len(names) - 1
    drawn = ""
    for number in marks:
        kind = "start" if number == 0 and last else "end" if number == last and last else "middle"
        at = 0 if kind == "start" else 100 if kind == "end" else 100 * (number + 0.5) / len(names)
        rare = " rare" if number not in (marks[0], marks[-1]) else ""
        place = f'x="{at:.3f}%" y="{PLOT_TOP + PLOT + AXIS - 8}"'
        drawn += f'<text class="{kind}{rare}" {place}>{escape(names[number])}</text>'
    return drawn


def strip(title: str, numbers: Numbers) -> str:
    """The numbers from the first to the last, with what is missing between. The largest gaps are drawn."""
    all_numbers = numbers.last - numbers.first + 1
    gaps = sorted(numbers.gaps(), key=lambda gap: gap[0] - gap[1])[:MOST_GAPS]
    drawn = '<rect class="all" x="0" y="0" width="100%" height="14"/>'
    for start, end in sorted(gaps):
        width = max(LEAST_PERCENT, 100 * (end - start + 1) / all_numbers)
        at = min(100 - width, 100 * (start - numbers.first) / all_numbers)
        place = f'x="{at:.3f}%" y="0" width="{width:.3f}%" height="14"'
        drawn += f'<rect class="missing" {place}><title>{start} to {end} missing</title></rect>'
    drawn += f'<text x="0" y="30">{numbers.first}</text><text class="end" x="100%" y="30">{numbers.last}</text>'
    described = f"{all_numbers - numbers.count:,} of {all_numbers:,} numbers are missing"
    return _picture(title, described, 36, drawn)


def sign(kind: str) -> str:
    """What stands beside a word that says what a colour means."""
    return f'<svg width="12" height="12" aria-hidden="true"><rect class="{kind}" width="12" height="12"/></svg>'


def _picture(title: str, described: str, height: int, drawn: str) -> str:
    """A picture with what is read aloud in its place."""
    return (
        f'<svg role="img" aria-label="{escape(f"{title}. {described}")}" width="100%" height="{height}">'
        f"<title>{escape(title)}</title>{drawn}</svg>"
    )
