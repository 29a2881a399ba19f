"""Loads purchases: sums by day, and where the next run begins."""
import sys
from collections import defaultdict
from datetime import date, datetime, timedelta
from decimal import Decimal

from pymysqlreplication import BinLogStreamReader
from pymysqlreplication.row_event import UpdateRowsEvent, WriteRowsEvent

SOURCE = {"host": "db", "port": 3306, "user": "loader", "passwd": "x"}


def main():
    file, position = sys.argv[1], int(sys.argv[2])
    stream = BinLogStreamReader(
        connection_settings=SOURCE, server_id=7,
        log_file=file, log_pos=position, resume_stream=True,
        only_schemas=["shop"], only_events=[WriteRowsEvent, UpdateRowsEvent],
        skip_to_timestamp=1000000000,
    )  # fmt: skip

    sums = defaultdict(Decimal)
    dearest, paid_after, joined = Decimal(0), timedelta(0), []
    for event in stream:
        for row in event.rows:
            values = row["values"] if isinstance(event, WriteRowsEvent) else row["after_values"]
            if event.table == "purchase":
                placed = values["placed"]
                assert isinstance(placed, datetime)
                if isinstance(event, WriteRowsEvent):
                    sums[placed.date()] += values["total"]
                if values["paid"] is not None:
                    paid_after = max(paid_after, values["paid"] - placed)
            elif event.table == "product":
                dearest = max(dearest, values["price"])
            elif event.table == "customer" and isinstance(event, WriteRowsEvent):
                assert isinstance(values["joined"], date)
                joined.append(values["joined"].year)
    for day, total in sorted(sums.items()):
        print(day.isoformat(), total)
    print(dearest, paid_after, joined)
    print(stream.log_file, stream.log_pos)
    stream.close()


if __name__ == "__main__":
    main()
