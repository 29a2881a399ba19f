"""Logs whose reading is counted: many small changes, one table or many, and transactions of many rows."""
from collections.abc import Iterator
from itertools import cycle, islice
from typing import NamedTuple

from logs import (
    FRONT, KEY, LONG, USUAL_CHARSET, VARCHAR, Column, counted, field, log_of, names_of, packed, rows, signs_of, table_map, transaction,
)  # fmt: skip

# Texts have up to 80 bytes.
VARCHAR_LENGTH = b"\x50\0"
UTF8MB4 = packed(255)

# Values of everyday: words and sentences in ASCII, as short and as long as names and remarks are.
VALUES = (
    b"new", b"paid", b"shipped", b"Anna Larsen", b"12 Harbour Street", b"anna.larsen@example.org",
    b"The parcel was left with the neighbours at number fourteen", b"left at the door", b"",
)  # fmt: skip
# Each transaction of everyday has so many rows events, of so many rows each.
EVENTS, ROWS = 2, 4


class Table(NamedTuple):
    """A table of the schema `shop` with the columns `id`, an INT and the key, and texts."""

    number: int
    name: str
    texts: tuple[str, ...]

    def map(self) -> bytes:
        """Its table map."""
        columns = [Column("id", LONG), *(Column(name, VARCHAR, VARCHAR_LENGTH) for name in self.texts)]
        fields = (signs_of(columns), field(USUAL_CHARSET, UTF8MB4), names_of(columns), field(KEY, b"\0"))
        return table_map(columns, *fields, table=f"shop.{self.name}", table_id=self.number)

    def rows(self, first: int, count: int, values: Iterator[bytes]) -> bytes:
        """An event that inserts so many rows, with ids from the first one on, and the values that come next."""
        columns = 1 + len(self.texts)
        images = (
            number.to_bytes(4, "little") + b"".join(map(counted, islice(values, len(self.texts)))) for number in range(first, first + count)
        )
        return rows(columns, *images, table_id=self.number, nulls=bytes((columns + 7) // 8))


class Log:
    """A log that is written transaction by transaction."""

    def __init__(self) -> None:
        """A log without transactions."""
        self.units: list[bytes] = []
        self.places = [len(FRONT)]

    def add(self, *inside: bytes) -> None:
        """Writes a transaction with these events."""
        self.units.append(transaction(len(self.places), *inside))
        self.places.append(self.places[-1] + len(self.units[-1]))

    def content(self) -> bytes:
        """Its bytes."""
        return log_of(self.units)


def everyday(count: int) -> Log:
    """Small transactions over five tables, two of them in each."""
    names = ("customer", "product", "orders", "order_line", "remark")
    tables = [Table(100 + at, name, ("name", "state", "note")) for at, name in enumerate(names)]
    log, values = Log(), cycle(VALUES)
    for number in range(count):
        inside = []
        for at in range(EVENTS):
            table = tables[(number + at) % len(tables)]
            inside += [table.map(), table.rows(number * ROWS, ROWS, values)]
        log.add(*inside)
    return log


def one_table(count: int) -> Log:
    """Transactions over one table, a hundred rows in each, behind one over another table. Ids need five bytes."""
    other, table = (Table((1 << 32) + number, name, ()) for number, name in ((100, "product"), (101, "counter")))
    log, values = Log(), cycle(VALUES)
    for at, (mapped, many) in enumerate([(other, ROWS), *[(table, 100)] * count]):
        log.add(mapped.map(), mapped.rows(100 * at, many, values))
    return log


def many_tables(count: int) -> Log:
    """So many tables with long names, each of which is mapped anew in two transactions far apart."""
    texts = tuple(f"a_column_with_a_name_that_is_as_long_as_a_server_allows_{at:08}" for at in range(8))
    tables = [Table(1_000 + 37 * at, f"a_table_with_a_name_that_is_as_long_as_a_server_allows__{at:08}", texts) for at in range(count)]
    log, values = Log(), cycle(VALUES)
    for table in tables * 2:
        log.add(table.map(), table.rows(1, 1, values))
    return log


def one_transaction(count: int) -> Log:
    """A transaction of so many rows, a hundred in each event."""
    table, log, values = Table(100, "orders", ("name", "state", "note")), Log(), cycle(VALUES)
    log.add(table.map(), *(table.rows(first, 100, values) for first in range(0, count, 100)))
    return log
