"""A summary as a page, which needs nothing but itself: no script, and nothing from elsewhere."""
from __future__ import annotations

from collections.abc import Iterable, Sequence

from binlogfeed.counts import counted, named
from binlogfeed.summary.changes import Change
from binlogfeed.summary.gtids import interval_text
from binlogfeed.summary.pictures import Bar, Part, bars, columns, safe, sign, strip
from binlogfeed.summary.reading import Summary
from binlogfeed.summary.style import STYLE
from binlogfeed.summary.times import round_marks, spoken, start_text, utc
from binlogfeed.summary.told import (
    ENDINGS,
    FAULT,
    FILTERED,
    GAPS,
    KINDS,
    MOST_PERIODS,
    STATEMENTS,
    Large,
    byte_sizes,
    change_sizes,
    first_words,
    largest_by_bytes,
    largest_by_changes,
    logs_text,
    numbers_text,
    size_text,
)

MOST_BARS = 15
TICKS = 6
MOST_GAPS = 200


def as_page(summary: Summary) -> str:
    """The page."""
    title = f"What happened in {logs_text(summary)}"
    main = "".join(
        (
            _overview(summary),
            _times(summary),
            _tables(summary),
            _statements(summary),
            '<div class="pair">',
            _sizes("Transactions by number of changes", change_sizes(summary)),
            _sizes("Transactions by bytes in the log", byte_sizes(summary)),
            "</div>",
            _large("Largest transactions by changes", ("Changes", "Last change", "Token"), largest_by_changes(summary)),
            _large("Largest transactions by bytes", ("Bytes", "Begins", "Token before it"), largest_by_bytes(summary)),
            _endings(summary),
            _gtids(summary),
        )
    )
    return (
        '<!DOCTYPE html>\n<html lang="en">\n<head>\n<meta charset="utf-8"/>\n'
        '<meta name="viewport" content="width=device-width, initial-scale=1"/>\n'
        '<meta name="color-scheme" content="light dark"/>\n'
        f"<title>{safe(title)}</title>\n<style>{STYLE}</style>\n</head>\n<body>\n"
        f"<header><h1>{safe(title)}</h1>{_lead(summary)}</header>\n<main>{main}</main>\n</body>\n</html>\n"
    )


def _lead(summary: Summary) -> str:
    """What stands above all."""
    lead = f"<p>{size_text(summary)}. Times are in UTC.</p>"
    if summary.filters:
        lead += f"<p>Filters: <code>{safe(' '.join(summary.filters))}</code>. {FILTERED}</p>"
    if summary.fault is not None:
        lead += f'<p class="fault" role="alert"><strong>{safe(summary.fault.line)}</strong> {FAULT}</p>'
    return lead


def _section(title: str, content: str) -> str:
    """A part of the page."""
    return f"<section><h2>{safe(title)}</h2>{content}</section>\n"


def _table(heads: Sequence[str], rows: Iterable[Sequence[str]], numbers: Sequence[int], kind: str = "") -> str:
    """A table. Its cells are HTML; those of some columns are numbers."""
    marks = [' class="number"' if number in numbers else "" for number in range(len(heads))]
    head = "".join(f'<th scope="col"{mark}>{head}</th>' for head, mark in zip(heads, marks))
    body = ""
    for row in rows:
        cells = (f'<td{mark} data-head="{name}">{cell}</td>' for cell, name, mark in zip(row, heads, marks))
        body += f"<tr>{''.join(cells)}</tr>"
    table = f'<table class="{kind}"><thead><tr>{head}</tr></thead><tbody>{body}</tbody></table>'
    return f'<div class="scroll">{table}</div>'


def _figure(picture: str, caption: str = "") -> str:
    """A picture with what is to be known of it."""
    return f"<figure>{picture}{caption and f'<figcaption>{caption}</figcaption>'}</figure>"


def _overview(summary: Summary) -> str:
    """How much there is, and the first and the last change."""
    changes, tables = summary.changes, summary.changes.tables()
    tiles = [
        (f"{changes.total:,}", named(changes.total, "change")),
        (f"{changes.sizes.total:,}", f"{named(changes.sizes.total, 'transaction')} with them"),
        (f"{len(tables):,}", named(len(tables), "table")),
        (f"{len(summary.logs):,}", named(len(summary.logs), "log")),
        (f"{summary.size:,}", "bytes of logs"),
    ]
    peak = changes.times.peak()
    if peak is not None:
        tiles.append((f"{peak.count:,}", f"{named(peak.count, 'change')} in {spoken(peak.width)}, at most"))
    told = "".join(f"<div><dt>{name}</dt><dd>{number}</dd></div>" for number, name in tiles)
    ends = (("First", changes.first), ("Last", changes.last))
    rows = [_change_row(name, change) for name, change in ends if change is not None]
    table = _table(("Change", "Time", "Token", "GTID"), rows, (), "stacked") if rows else ""
    return _section("Overview", f'<dl class="tiles">{told}</dl>{table}')


def _change_row(name: str, change: Change) -> list[str]:
    """A row for a change."""
    return [name, utc(change.time), _code(change.token), _code(change.gtid or "no GTID")]


def _code(text: str) -> str:
    """A text that stands so in logs or lines."""
    return f"<code>{safe(text)}</code>"


def _times(summary: Summary) -> str:
    """The changes over time."""
    periods = summary.changes.times.periods(MOST_PERIODS)
    if not periods:
        return ""
    counts = [(start_text(period), period.count) for period in periods]
    width = spoken(periods[0].width)
    rows = [(name, f"{count:,}") for name, count in counts]
    numbers = f"<details><summary>Numbers</summary>{_table(('From', 'Changes'), rows, (1,))}</details>"
    picture = columns(f"Changes over time, {width} for each column", "changes", counts, round_marks(periods, TICKS))
    return _section("Changes over time", _figure(picture, f"Each column is {width}.") + numbers)


def _tables(summary: Summary) -> str:
    """The changes by table and kind."""
    tables = summary.changes.tables()
    if not tables:
        return ""
    rows = [(f"{table.schema}.{table.name}", [kinds[kind] for kind in KINDS]) for table, kinds in tables.items()]
    drawn = [_kinds_bar(name, counts) for name, counts in rows[:MOST_BARS]]
    if len(rows) > MOST_BARS:
        others = [sum(column) for column in zip(*(counts for _, counts in rows[MOST_BARS:]))]
        drawn.append(_kinds_bar(counted(len(rows) - MOST_BARS, "other"), others))
    legend = "".join(f"<li>{sign(kind)} {kind}s</li>" for kind in KINDS)
    cells = [(safe(name), *(f"{count:,}" for count in (*counts, sum(counts)))) for name, counts in rows]
    heads = ("Table", "Inserts", "Updates", "Deletes", "All")
    table = _table(heads, cells[:MOST_BARS], (1, 2, 3, 4), "tables")
    if len(cells) > MOST_BARS:
        rest = _table(heads, cells[MOST_BARS:], (1, 2, 3, 4), "tables")
        table += f"<details><summary>{counted(len(cells) - MOST_BARS, 'other')}</summary>{rest}</details>"
    figure = _figure(bars("Changes by table and kind", drawn))
    return _section("Changes by table", f'<ul class="legend">{legend}</ul>{figure}{table}')


def _kinds_bar(name: str, counts: Sequence[int]) -> Bar:
    """A bar of a table's changes."""
    return Bar(name, [Part(kind, f"{kind}s", count) for kind, count in zip(KINDS, counts)])


def _statements(summary: Summary) -> str:
    """The statements by their first words."""
    rows = [(_code(word), f"{count:,}") for word, count in first_words(summary)]
    return _section(STATEMENTS, _table(("First word", "Statements"), rows, (1,))) if rows else ""


def _sizes(title: str, sizes: Sequence[tuple[str, int]]) -> str:
    """Transactions by their sizes."""
    if not sizes:
        return ""
    rows = [Bar(name, [Part("all", "transactions", count)]) for name, count in sizes]
    return _section(title, _figure(bars(title, rows)))


def _large(title: str, heads: Sequence[str], large: Sequence[Large]) -> str:
    """The largest transactions."""
    if not large:
        return ""
    rows = [(f"{one.size:,}", one.time, _code(one.token), _code(one.gtid)) for one in large]
    return _section(title, _table((*heads, "GTID"), rows, (0,), "stacked"))


def _endings(summary: Summary) -> str:
    """How transactions end."""
    rows = [(_code(name), f"{summary.units.endings[name]:,}", meaning) for name, meaning in ENDINGS.items()]
    return _section("Endings of transactions", _table(("Ending", "Count", "Meaning"), rows, (1,)))


def _gtids(summary: Summary) -> str:
    """The GTIDs, and which are missing."""
    content = "".join(
        f"<h3>{_code(source)}</h3><p>{numbers_text(numbers)}</p>"
        + _figure(strip(f"Numbers of {source}", numbers))
        + _missing([interval_text(gap) for gap in numbers.gaps()])
        for source, numbers in sorted(summary.units.gtids.items())
    )
    if summary.units.without_gtid:
        content += f"<p>Without a GTID: {summary.units.without_gtid:,}</p>"
    if any(numbers.gaps() for numbers in summary.units.gtids.values()):
        content += f"<p>{GAPS}</p>"
    return _section("GTIDs by source", content) if content else ""


def _missing(gaps: Sequence[str]) -> str:
    """The missing numbers."""
    if not gaps:
        return ""
    more = f", and {counted(len(gaps) - MOST_GAPS, 'gap')} more" if len(gaps) > MOST_GAPS else ""
    told = ", ".join(f"<span>{gap}</span>" for gap in gaps[:MOST_GAPS])
    return f'<p class="gaps">Missing: {told}{more}</p>'
