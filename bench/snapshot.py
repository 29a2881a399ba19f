#!/usr/bin/env python3
"""Times `snapshot` by one process and by several.

    MYSQL_PWD=.. bench/snapshot.py mysql://root@localhost/ [--rows N] [--jobs N..] [--runs N]

The server gets the schema `binlogfeed_bench`, with one table of nine columns, which isn't in its log, and loses it again at the end. A
snapshot of it runs with each number of processes in turns, and its lines are thrown away. It prints how many rows a second the best turn
gave, by the clock and of processor time, with the middle in brackets. The server's own work is in the first of them alone.
"""
import argparse
import os
import statistics
import sys

from run import RUNS, TOP
from summary import taken

sys.path.insert(0, str(TOP / "python"))

from binlogfeed.access import connected, driver, of_url, settings_of  # noqa: E402

SCHEMA, TABLE = "binlogfeed_bench", "binlogfeed_bench.sale"
CREATE = f"""CREATE TABLE {TABLE} (id BIGINT PRIMARY KEY, customer INT, sku VARCHAR(20) CHARACTER SET ascii, name VARCHAR(60),
    amount SMALLINT UNSIGNED, total DECIMAL(10, 2), weight DOUBLE, placed DATETIME(3), paid TIMESTAMP NULL)"""
FILL = f"""INSERT INTO {TABLE} WITH RECURSIVE numbers (n) AS (SELECT 1 UNION ALL SELECT n + 1 FROM numbers WHERE n < %s)
    SELECT n, n * 7919 %% 50021, CONCAT('SKU-', LPAD(n %% 9973, 6, '0')), CONCAT('Søren Kierkegaard ', n %% 3571), n %% 500,
        (n * 37 %% 1000000) / 100, n * 0.37, '2024-01-01' + INTERVAL n SECOND + INTERVAL n %% 1000 * 1000 MICROSECOND,
        IF(n %% 4 = 0, NULL, FROM_UNIXTIME(1714982400 + n)) FROM numbers"""


def make(cursor, rows):
    """Makes the table, and has the server count its rows."""
    cursor.execute(CREATE)
    cursor.execute(FILL, [rows])
    cursor.execute(f"ANALYZE LOCAL TABLE {TABLE}")


def rates(url, rows, jobs, runs):
    """How many rows a second each turn gave, by the clock and of processor time, by the number of processes."""
    found = {count: [] for count in jobs}
    for _ in range(runs):
        for count in jobs:
            clock, processor, _ = taken([sys.executable, "-m", "binlogfeed", "snapshot", "--jobs", count, url, SCHEMA])
            found[count].append((rows / clock, rows / processor))
    return found


def main():
    """Makes the table, and prints what the turns gave."""
    parser = argparse.ArgumentParser(description=__doc__.split("\n", maxsplit=1)[0])
    parser.add_argument("url", metavar="URL", help="where the server is, and who may do all there")
    parser.add_argument("--rows", metavar="N", type=int, default=1_200_000)
    parser.add_argument("--jobs", metavar="N", type=int, nargs="+", default=[1, 2])
    parser.add_argument("--runs", metavar="N", type=int, default=RUNS)
    given = parser.parse_args()
    cursor = connected(driver(), settings_of(of_url(given.url)), charset="utf8mb4", autocommit=True).cursor()
    print(f"{os.cpu_count()} processors, load {os.getloadavg()[0]:.1f}, Python {sys.version.split()[0]}", flush=True)
    cursor.execute("SET SESSION sql_log_bin = 0, cte_max_recursion_depth = %s", [given.rows])
    cursor.execute(f"CREATE SCHEMA {SCHEMA}")
    try:
        make(cursor, given.rows)
        found = rates(given.url, given.rows, given.jobs, given.runs)
    finally:
        cursor.execute(f"DROP SCHEMA {SCHEMA}")
    for count, turns in found.items():
        clock, processor = (f"{max(one):,.0f} ({statistics.median(one):,.0f})" for one in zip(*turns))
        print(f"--jobs {count}: {clock} rows a second by the clock, {processor} of processor time")
    print(f"load {os.getloadavg()[0]:.1f}")


if __name__ == "__main__":
    main()
