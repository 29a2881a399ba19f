"""The counts of least_counts.txt, each of which has to be reached."""
from pathlib import Path

COUNTS = Path(__file__).resolve().parent / "least_counts.txt"


def least(name: str) -> int:
    """The least count of this name. One that isn't there is an error."""
    lines = (line.split() for line in COUNTS.read_text(encoding="utf-8").splitlines() if not line.startswith("#"))
    return int(dict(line for line in lines if line)[name])


def lacking(name: str, count: int) -> list[str]:
    """Says what is too few."""
    wanted = least(name)
    return [] if count >= wanted else [f"{name}: {count}, where {COUNTS.name} wants {wanted} at least"]
