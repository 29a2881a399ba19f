"""Keeps the rows in a server's logs in a Redis, as JSON by schema, table and key: cache.py HOST PORT LOGS [--follow]"""
import io
import socket
import sys
from pathlib import Path
from typing import Optional

sys.path.insert(0, str(Path(__file__).resolve().parents[2] / "python"))
from binlogfeed import BinLogStreamReader, RowsEvent  # noqa: E402
from binlogfeed.as_json import json_of  # noqa: E402

PLACE = "binlogfeed:place"


def asked(redis: io.BufferedRWPair, *commands: tuple[str, ...]) -> list[bytes]:
    """The first line of each command's answer. An error, or a transaction that isn't taken, ends the process."""
    for words in commands:
        redis.write(b"*%d\r\n" % len(words) + b"".join(b"$%d\r\n%s\r\n" % (len(word), word) for word in map(str.encode, words)))
    redis.flush()
    lines = [redis.readline() for _ in commands]
    return sys.exit(f"{lines}: start again") if any(not line or line.startswith((b"-", b"*-1")) for line in lines) else lines


def watched(redis: io.BufferedRWPair) -> Optional[str]:
    """The place that is kept. A transaction behind this isn't taken where another process changes it meanwhile."""
    is_there = not asked(redis, ("WATCH", PLACE), ("GET", PLACE))[1].startswith(b"$-1")
    return redis.readline().decode().strip() if is_there else None


def changes_of(event: RowsEvent) -> list[tuple[str, ...]]:
    """What takes the old row away, and what sets the new one."""
    old, new = (row and ":".join([event.schema, event.table, *(str(row[it]) for it in event.key)]) for row in (event.before, event.after))
    return ([("DEL", old)] if old else []) + ([("SET", new, json_of(event.after))] if new else [])


def main(host: str, port: str, logs: str, *options: str) -> None:
    """Takes what is new. One transaction of Redis has whole transactions of the log, and the place behind them."""
    redis = socket.create_connection((host, int(port))).makefile("rwb")
    kept = watched(redis)
    with BinLogStreamReader(logs, resume=kept, blocking="--follow" in options, together=False) as reader:
        for batch in reader.batches():
            changes = [change for transaction in batch for event in transaction for change in changes_of(event)]
            if watched(redis) != kept:
                sys.exit("another process has moved the cache on: start again")
            kept = reader.place.to_text()
            asked(redis, ("MULTI",), *changes, ("SET", PLACE, kept), ("EXEC",))
            _ = [redis.readline() for _ in range(len(changes) + 1)]


if __name__ == "__main__":
    main(*sys.argv[1:])
