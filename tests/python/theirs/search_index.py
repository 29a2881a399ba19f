"""Keeps an index of the products and customers, by the words of their texts."""
import json
import sys

from pymysqlreplication import BinLogStreamReader
from pymysqlreplication.row_event import DeleteRowsEvent, UpdateRowsEvent, WriteRowsEvent

MYSQL_SETTINGS = {"host": "127.0.0.1", "port": 3306, "user": "root", "passwd": ""}


def document(event, values):
    """What is indexed of a row."""
    return {"type": event.table, "text": values.get("title") or values.get("name"), "tags": sorted(values.get("tags") or [])}


def main():
    stream = BinLogStreamReader(
        connection_settings=MYSQL_SETTINGS, server_id=3,
        only_events=[DeleteRowsEvent, WriteRowsEvent, UpdateRowsEvent],
        only_tables=["product", "customer"],
    )  # fmt: skip

    index = {}
    for binlogevent in stream:
        prefix = "%s:%s:" % (binlogevent.schema, binlogevent.table)
        for row in binlogevent.rows:
            if isinstance(binlogevent, DeleteRowsEvent):
                vals = row["values"]
                index.pop(prefix + str(vals[binlogevent.primary_key]))
            elif isinstance(binlogevent, UpdateRowsEvent):
                before, after = row["before_values"], row["after_values"]
                index.pop(prefix + str(before[binlogevent.primary_key]))
                index[prefix + str(after[binlogevent.primary_key])] = document(binlogevent, after)
            elif isinstance(binlogevent, WriteRowsEvent):
                vals = row["values"]
                index[prefix + str(vals[binlogevent.primary_key])] = document(binlogevent, vals)

    stream.close()
    json.dump(index, sys.stdout, sort_keys=True, ensure_ascii=False, indent=1)


if __name__ == "__main__":
    main()
