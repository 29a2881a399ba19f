"""Prints who changed what: a line for each row, with its transaction, and one for each commit."""
from datetime import datetime, timezone

from pymysqlreplication import BinLogStreamReader
from pymysqlreplication.event import GtidEvent, RotateEvent, XidEvent
from pymysqlreplication.row_event import DeleteRowsEvent, UpdateRowsEvent, WriteRowsEvent

SETTINGS = {"host": "localhost", "user": "audit", "passwd": "secret"}
EVENTS = [DeleteRowsEvent, GtidEvent, RotateEvent, UpdateRowsEvent, WriteRowsEvent, XidEvent]


def changed(row):
    """The columns of a row that changed, with both values."""
    before, after = row["before_values"], row["after_values"]
    return {name: (before[name], value) for name, value in after.items() if before[name] != value}


def main():
    stream = BinLogStreamReader(connection_settings=SETTINGS, server_id=9, only_events=EVENTS, ignored_tables=["product"])

    gtid = file = None
    for event in stream:
        when = datetime.fromtimestamp(event.timestamp, timezone.utc).strftime("%Y-%m-%d")
        if isinstance(event, RotateEvent):
            file = event.next_binlog
            print("file", file)
        elif isinstance(event, GtidEvent):
            gtid = event.gtid
        elif isinstance(event, XidEvent):
            print(when, "commit", gtid.rpartition(":")[2])
        else:
            for row in event.rows:
                what = changed(row) if isinstance(event, UpdateRowsEvent) else row["values"]
                print(when, file, event.packet.log_pos, event.event_type, event.table, sorted(what.items()))
    stream.close()


if __name__ == "__main__":
    main()
