"""Keeps a list of the tables that were made, and counts the rows that came into each."""
from pymysqlreplication import BinLogStreamReader
from pymysqlreplication.event import QueryEvent
from pymysqlreplication.row_event import WriteRowsEvent

SETTINGS = {"host": "127.0.0.1", "port": 3306, "user": "repl", "passwd": "secret"}


def main():
    stream = BinLogStreamReader(
        connection_settings=SETTINGS, server_id=5,
        only_events=[QueryEvent, WriteRowsEvent],
        only_schemas=["shop"],
    )  # fmt: skip

    counts = {}
    for event in stream:
        if isinstance(event, QueryEvent):
            if event.query == "BEGIN":
                continue
            words = event.query.split()
            print(stream.log_file, event.timestamp, event.schema.decode("utf-8"), " ".join(words[:3]))
            if words[:2] == ["CREATE", "TABLE"]:
                counts[words[2]] = 0
        else:
            counts[event.table] += len(event.rows)

    stream.close()
    print(counts)


if __name__ == "__main__":
    main()
