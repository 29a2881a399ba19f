"""The events of rows, by the module's name in python-mysql-replication."""
from __future__ import annotations

from binlogfeed.events import DeleteRowsEvent, RowsEvent, UpdateRowsEvent, WriteRowsEvent

__all__ = ["DeleteRowsEvent", "RowsEvent", "UpdateRowsEvent", "WriteRowsEvent"]

NOT_HERE = {"TableMapEvent": "a table's names, types and key come with each row event: `columns` and `primary_key`"}


def __getattr__(name: str) -> object:
    """Says what there is in the place of an event that isn't here."""
    if name in NOT_HERE:
        raise ImportError(f"binlogfeed.row_event has no {name}: {NOT_HERE[name]}")
    raise AttributeError(f"binlogfeed.row_event has no {name}")
