"""The rows: those of rows.jsonl, and the long ones. Runs the program over the files of each."""
import json
from collections import Counter
from functools import cache, partial
from pathlib import Path

from built.check import Check, Wanted, differs, run, said
from built.long_rows import long_rows
from built.row import Row
from least_counts import lacking
from logs import SMALL

ROWS = Path(__file__).resolve().parent.parent / "rows.jsonl"


def lengths_of(first: int, last: int, step: int = 1) -> range:
    """The lengths that a line says by the first, the last and the step between them."""
    return range(first, last + 1, step)


def rows_of(line: str) -> list[Row]:
    """The row of a line; where it says lengths, a row for each length that its file is cut to."""
    fields = json.loads(line)
    fields["files"] = {name: SMALL.bytes_of(parts) for name, parts in fields["files"].items()}
    if "lengths" not in fields:
        return [Row(**fields)]
    lengths, ends = fields.pop("lengths"), fields.pop("ends")
    return [Row(**fields).cut_to(length, ends) for length in lengths_of(*lengths)]


@cache
def all_rows() -> list[Row]:
    """Every row of the file, and the long ones. A name stands for one row."""
    lines = ROWS.read_text(encoding="utf-8").splitlines()
    rows = [row for line in lines for row in rows_of(line)] + long_rows()
    twice = [name for name, count in Counter(row.name for row in rows).items() if count > 1]
    if twice:
        raise ValueError(f"rows with one name: {', '.join(twice)}")
    return rows


def summary() -> str:
    """How many rows there are, and how many are set aside for what."""
    rows = all_rows()
    aside = Counter(row.needs() for row in rows if row.needs())
    needs = ", ".join(f"{count} need {word}" for word, count in aside.items())
    return f"rows: {len(rows)}, of which {len(rows) - aside.total()} run and {aside.total()} are set aside ({needs or 'none'})"


def judge_row(row: Row, program: Path, folder: Path) -> list[str]:
    """Runs a program over the files of a row. It leaves them, and their folder, as they were."""
    files = {folder / name: content for name, content in row.files.items()}
    for path, content in files.items():
        path.parent.mkdir(parents=True, exist_ok=True)
        path.write_bytes(content)
    reasons = differs(run(program, row.words, folder), row.wanted())
    there = {path: path.read_bytes() for path in folder.rglob("*") if not path.is_dir()}
    return reasons + ([] if there == files else [f"its folder has other files than before: {sorted(map(str, there))}"])


def judge_not_built(row: Row, program: Path, folder: Path) -> list[str]:
    """What isn't built is no word of the program: once it is, its rows are no longer set aside."""
    refused = Wanted(2, b"", said("command line refused"))
    return differs(run(program, row.words, folder), refused)


def judge_found(_program: Path, _folder: Path) -> list[str]:
    """No row got lost."""
    return lacking("rows", sum(not row.needs() for row in all_rows()))


def checks() -> list[Check]:
    """Each row that is built, and of each word that isn't a row that shows it."""
    rows = all_rows()
    made = [Check(f"row '{row.name}'", partial(judge_row, row)) for row in rows if not row.needs()]
    shows = {row.needs(): row for row in rows if row.needs() and row.status == 0}
    made += [Check(f"{word} isn't built", partial(judge_not_built, row)) for word, row in shows.items()]
    return [Check("there are rows", judge_found), *made]
