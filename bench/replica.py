#!/usr/bin/env python3
"""Times the replica (examples/replica) in SQLite and PostgreSQL.

    bench/replica.py FOLDER --program PATH [--postgres CONNECTION] [--rows N] [--clients NAME,..] [--every N,..] [--times N]

makes two logs in FOLDER: `bulk`, whose transactions insert 5,000 rows of five columns, and `mixed`, whose transactions
insert four rows of such a table, update four older ones and delete two. The tables are filled in a file of SQLite in FOLDER,
and in the database that --postgres names, where they are made anew. A run's seconds are by the clock, with the start of
Python and of the program.
"""
from __future__ import annotations

import argparse
import pathlib
import sqlite3
import struct
import subprocess
import sys
import time

import made_rows
import make_log

REPLICA = pathlib.Path(__file__).resolve().parent.parent / "examples/replica/replica.py"
TABLE = b"loaded"
UPDATE_ROWS, DELETE_ROWS = 31, 32
# A row's number is its id, and from this on how often it was changed.
CHANGED = 1 << 32
INSERTED, UPDATED, DELETED = 4, 4, 2
COLUMNS = {
    "sqlite": "id INTEGER PRIMARY KEY, name TEXT, amount TEXT, placed TEXT, count INTEGER",
    "postgres": "id bigint PRIMARY KEY, name text, amount numeric(12, 2), placed timestamp, count integer",
}


def columns() -> list[made_rows.Column]:
    """The columns of the table. All but the id of a row change with it."""
    first = made_rows.Column("id", 8, b"", lambda row: struct.pack("<Q", row % CHANGED), True)
    return [first, *made_rows.loaded()[1:]]


def images(numbers: list[int]) -> bytes:
    """The images of rows."""
    return b"".join(made_rows.image(columns(), number, False) for number in numbers)


def changed(code: int, front: bytes, numbers: list[int]) -> bytes:
    """An event that changes rows."""
    bitmaps = b"\xff" * (2 if code == UPDATE_ROWS else 1)
    body = struct.pack("<Q", 90)[:6] + b"\x01\x00\x02\x00" + made_rows.packed(5) + bitmaps + images(numbers)
    return front[:4] + bytes([code]) + front[5 : make_log.HEADER] + body


def mixed_units(count: int) -> list[list[bytes]]:
    """So many transactions that insert, update and delete rows."""
    real = make_log.shop_units()[0]
    front = real[-1]
    table = front[:4] + bytes([make_log.TABLE_MAP]) + front[5 : make_log.HEADER] + made_rows.table_map(TABLE, columns())
    units = []
    for unit in range(count):
        new = [INSERTED * unit + at + 1 for at in range(INSERTED)]
        body = [table, changed(make_log.WRITE_ROWS, front, new)]
        # What a transaction updates, it has put in some transactions before; the first two of them are deleted then.
        old = [number - 50 * INSERTED for number in new]
        if old[0] > 0:
            body += [table, changed(UPDATE_ROWS, front, [it for number in old for it in (number, number + CHANGED)])]
            body += [table, changed(DELETE_ROWS, front, [number + CHANGED for number in old[:DELETED]])]
        units.append([*real[:2], *body, front])
    return units


def written(path: pathlib.Path, units: list[list[bytes]]) -> None:
    """Writes a log of these transactions."""
    front = (make_log.SHOP / "binlog.000001").read_bytes()
    with open(path, "wb") as out:
        place = out.write(front[:4])
        for event in make_log.events(front):
            if make_log.kind(event) in (make_log.FORMAT, make_log.PREVIOUS_GTIDS):
                place += out.write(make_log.sealed(event, place))
        for number, unit in enumerate(units):
            for event in unit:
                place += out.write(make_log.sealed(make_log.numbered(event, number + 1), place))


def emptied(target: str) -> None:
    """Makes the target's tables anew."""
    kind, _, words = target.partition(":")
    drop = [f"DROP TABLE IF EXISTS {name}" for name in ("loaded", "binlogfeed_place")]
    if kind == "sqlite":
        pathlib.Path(words).unlink(missing_ok=True)
        with sqlite3.connect(words) as connection:
            connection.execute(f"CREATE TABLE loaded ({COLUMNS['sqlite']})")
        connection.close()
        return
    statements = "; ".join([*drop, f"CREATE TABLE loaded ({COLUMNS['postgres']})"])
    quiet = "SET client_min_messages = error"
    subprocess.run(["psql", "-X", "-q", "-d", words, "-c", quiet, "-c", statements], check=True)


def timed(target: str, log: pathlib.Path, program: str, every: int) -> float:
    """The seconds that the replica of a log takes, of which there is nothing in the target."""
    emptied(target)
    began = time.monotonic()
    options = ["--program", program, "--commit-every", str(every)]
    subprocess.run([sys.executable, str(REPLICA), *options, target, "bench", f"{log}*"], check=True)
    return time.monotonic() - began


def main() -> None:
    """Times all."""
    parser = argparse.ArgumentParser(description=__doc__, formatter_class=argparse.RawDescriptionHelpFormatter)
    parser.add_argument("folder", type=pathlib.Path)
    parser.add_argument("--program", default="binlogfeed", metavar="PATH")
    parser.add_argument("--postgres", metavar="CONNECTION")
    parser.add_argument("--rows", type=int, default=200_000, metavar="N", help="how many changes a log has, about")
    parser.add_argument("--clients", default="psycopg,psql")
    parser.add_argument("--every", default="1,1000", help="how many transactions a commit has")
    parser.add_argument("--times", type=int, default=3, metavar="N", help="how often each is run: the fastest counts")
    given = parser.parse_args()
    logs = {name: given.folder / name / "binlog.000001" for name in ("bulk", "mixed")}
    for log in logs.values():
        log.parent.mkdir(exist_ok=True)
    loaded, bulk = made_rows.loaded(), max(1, given.rows // make_log.BULK_ROWS)
    written(logs["bulk"], make_log.made_units(TABLE, loaded, make_log.BULK_ROWS, make_log.BULK_BYTES, False, bulk))
    written(logs["mixed"], mixed_units(given.rows // (INSERTED + UPDATED + DELETED)))
    targets = [f"sqlite:{given.folder}/replica.db"]
    targets += [f"{client}:{given.postgres}" for client in given.clients.split(",") if given.postgres]
    for name, log in logs.items():
        lines = subprocess.run([given.program, "read", str(log)], capture_output=True, check=True).stdout.count(b"\n")
        for target in targets:
            for every in given.every.split(","):
                seconds = min(timed(target, log, given.program, int(every)) for _ in range(given.times))
                words = f"{name}, {target.partition(':')[0]}, --commit-every {every}"
                print(f"{words}: {lines} changes, {seconds:.2f} s, {lines / seconds:,.0f} a second", flush=True)


if __name__ == "__main__":
    main()
