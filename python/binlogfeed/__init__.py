"""Row changes of committed transactions, from MySQL binary log files on disk.

The program `binlogfeed` reads the logs. This package starts it, and gives its lines as events::

    from binlogfeed import BinLogStreamReader, WriteRowsEvent

    with BinLogStreamReader(["binlog.000001"], only_events=[WriteRowsEvent]) as reader:
        for event in reader:
            print(event.table, event.rows[0]["values"])
"""
from binlogfeed.events import (
    DeleteRowsEvent,
    Event,
    GtidEvent,
    QueryEvent,
    RotateEvent,
    RowsEvent,
    Transaction,
    UpdateRowsEvent,
    WriteRowsEvent,
    XidEvent,
)
from binlogfeed.faults import (
    BinlogfeedError,
    ColumnsMismatch,
    ConversionFailed,
    FileFault,
    LogFault,
    LogLost,
    LogsGone,
    OutOfMemory,
    ProgramFailed,
    ProgramMissing,
    TokenRefused,
    WordsRefused,
)
from binlogfeed.logs import Log, listed
from binlogfeed.place import Place
from binlogfeed.reader import BinLogStreamReader
from binlogfeed.values import JSON_NULL, Column
from binlogfeed.version import VERSION as __version__

__all__ = [
    "BinLogStreamReader",
    "BinlogfeedError",
    "Column",
    "ColumnsMismatch",
    "ConversionFailed",
    "DeleteRowsEvent",
    "Event",
    "FileFault",
    "GtidEvent",
    "JSON_NULL",
    "Log",
    "LogFault",
    "LogLost",
    "LogsGone",
    "OutOfMemory",
    "Place",
    "ProgramFailed",
    "ProgramMissing",
    "QueryEvent",
    "RotateEvent",
    "RowsEvent",
    "TokenRefused",
    "Transaction",
    "UpdateRowsEvent",
    "WordsRefused",
    "WriteRowsEvent",
    "XidEvent",
    "__version__",
    "listed",
]
