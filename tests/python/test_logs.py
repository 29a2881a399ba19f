"""Small logs stand in two languages, hex and pieces: where both have a log, they agree."""
import unittest

import logs
from logs import SMALL, event, insert, log_of, parts, placed, rotate, transaction

# The event that updates rows of `s.t`, up to its images.
UPDATE, UPDATE_HEAD = 31, "rows-head ff"
# The bodies of the events that insert rows into two tables.
TWO_TABLES = ("rows-head image-1-a image-2-b", "rows-head-u image-9-z")

MADE = {
    "A": log_of([insert(1)]),
    "A1": parts("magic") + placed(parts("past:4:one-crc"), 4),
    "B": log_of([insert(1), parts("gtid2 begin map-t insert-2-b rollback")]),
    "C": log_of([transaction(1, parts("map-t"), event(UPDATE, parts(f"{UPDATE_HEAD} image-1-a image-1-b image-2-a image-2-b")))]),
    "D": log_of([transaction(1, parts("map-t map-u"), *(event(logs.WRITE_ROWS, parts(rows)) for rows in TWO_TABLES))]),
    "E": log_of([transaction(1, parts("map-t insert-1-a map-w insert-2-b"))]),
    "F1": log_of([insert(1), rotate("binlog.000002")]),
    "F2": log_of([insert(2)]),
    "F3": log_of([insert(3)]),
    "G": log_of([transaction(1, parts("map-t"), event(UPDATE, parts(f"{UPDATE_HEAD} image-1-a image-2-a")))]),
    "H": log_of([insert(1), transaction(2, parts("map-t insert-3-c"))]),
    "Front": log_of([]),
    "Begun": log_of([parts("gtid1 begin")]),
    "Two-ends": log_of([insert(1), parts("stop stop")]),
}


class Logs(unittest.TestCase):
    """The logs that the rows name, and those that are made."""

    def test_both_languages(self) -> None:
        """`placed` fills in the next positions, which the pieces leave 0."""
        for name, made in MADE.items():
            self.assertEqual(SMALL.bytes_of(name).hex(), made.hex(), name)
        self.assertEqual(logs.FRONT, parts("magic") + placed(parts("past:4:front"), 4))


if __name__ == "__main__":
    unittest.main()
