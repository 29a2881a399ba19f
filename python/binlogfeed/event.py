"""The events that aren't of rows, by the module's name in python-mysql-replication."""
from __future__ import annotations

from binlogfeed.events import Event, GtidEvent, QueryEvent, RotateEvent, XidEvent

__all__ = ["Event", "GtidEvent", "QueryEvent", "RotateEvent", "XidEvent"]

NOT_HERE = {
    "BinLogEvent": "the class of all events is Event",
    "FormatDescriptionEvent": "a file's own events aren't given; RotateEvent tells which file follows",
    "HeartbeatLogEvent": "no server is connected to",
    "StopEvent": "a file's own events aren't given; RotateEvent tells which file follows",
}


def __getattr__(name: str) -> object:
    """Says what there is in the place of an event that isn't here."""
    if name in NOT_HERE:
        raise ImportError(f"binlogfeed.event has no {name}: {NOT_HERE[name]}")
    raise AttributeError(f"binlogfeed.event has no {name}")
