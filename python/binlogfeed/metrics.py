"""How far `follow` is, as a file for Prometheus: the textfile collector of its node exporter takes it from a folder."""
from __future__ import annotations

import os
import threading
from collections.abc import Iterator
from contextlib import contextmanager
from pathlib import Path
from typing import NamedTuple, Optional

from binlogfeed.begin import LOG
from binlogfeed.faults import FileFault
from binlogfeed.files import writing
from binlogfeed.follow import Follower, Measure
from binlogfeed.tokens import token_parts
from binlogfeed.version import VERSION

# The file is written anew after so many seconds.
EVERY = 1.0
HELP = "write how far it is into FILE, for the textfile collector of Prometheus's node exporter (its name has to end in .prom)"


class Metric(NamedTuple):
    """A metric. One whose value isn't known yet isn't written."""

    name: str
    kind: str
    told: str
    value: Optional[int]
    labels: tuple[tuple[str, str], ...] = ()


def metrics_of(measure: Measure, faults: int) -> list[Metric]:
    """What a follower's measure says."""
    place = measure.place
    position = token_parts(place.resume).position if place.resume else 0
    return [
        Metric("info", "gauge", "The version that runs.", 1, (("version", VERSION),)),
        Metric("place_bytes", "gauge", "The place that is kept, in bytes from its log's start.", position, (("log", place.file or ""),)),
        Metric("lines_total", "counter", "Lines that were written since the process began.", measure.lines),
        Metric("behind_bytes", "gauge", "Bytes that the logs have behind the place.", measure.bytes_behind),
        Metric("behind_seconds", "gauge", "Age of what is still to be read, at most; 0 where nothing is.", measure.seconds_behind),
        Metric("faults_total", "counter", "Errors that ended the following: 0, or 1 in the last file of a process.", faults),
    ]


def as_text(metrics: list[Metric], state: str) -> str:
    """Metrics as Prometheus reads them. The state's file tells one follower of a machine from another."""
    return "".join(
        f"# HELP binlogfeed_{it.name} {it.told}\n# TYPE binlogfeed_{it.name} {it.kind}\n"
        f"binlogfeed_{it.name}{{{_labels((*it.labels, ('state', state)))}}} {it.value}\n"
        for it in metrics
        if it.value is not None
    )


def _labels(labels: tuple[tuple[str, str], ...]) -> str:
    """Labels, whose values are in quotes."""
    escaped = ((name, value.replace("\\", "\\\\").replace('"', '\\"').replace("\n", "\\n")) for name, value in labels)
    return ",".join(f'{name}="{value}"' for name, value in escaped)


@contextmanager
def written(path: Path | None, follower: Follower, state: Path) -> Iterator[None]:
    """Writes the file again and again while the block goes on, and at its end. Without a path nothing is written."""
    if path is None:
        yield
        return
    # A file that can't be written is better known at once.
    _write(path, follower, state, 0)
    ended = threading.Event()
    thread = threading.Thread(target=_write_on, args=(path, follower, state, ended), daemon=True)
    thread.start()
    faults = 0
    try:
        yield
    except Exception:
        faults = 1
        raise
    finally:
        ended.set()
        thread.join()
        _try_to_write(path, follower, state, faults)


def _write_on(path: Path, follower: Follower, state: Path, ended: threading.Event) -> None:
    """Writes the file until the end."""
    while not ended.wait(EVERY):
        _try_to_write(path, follower, state, 0)


def _try_to_write(path: Path, follower: Follower, state: Path, faults: int) -> None:
    """Writes the file. The following goes on where that fails."""
    try:
        _write(path, follower, state, faults)
    except FileFault as fault:
        LOG.warning(fault.line.partition(": ")[2])


def _write(path: Path, follower: Follower, state: Path, faults: int) -> None:
    """Puts a new file in the old one's place, so that no reader sees a part."""
    text = as_text(metrics_of(follower.measure(), faults), str(state))
    new = path.with_name(f"{path.name}.new")
    with writing(str(path)):
        new.write_text(text, encoding="utf-8", errors="surrogateescape")
        os.replace(new, path)
