"""Rows over logs that are too long to write out, with what is wanted by hand: Q, S and the maps of many columns."""
from __future__ import annotations

from typing import NamedTuple

from built.row import Row
from logs import SMALL, SOURCE_ID, TABLE_MAP, TIME, WRITE_ROWS, appended, event, log_of, parts, placed, transaction

NAME = "binlog.000001"
# Where the one transaction of each of these logs begins, and where the map in it does.
BEGIN, MAP_PLACE = 153, 253


def line(after: str, number: int = 1) -> str:
    """The line of an insert into `s.t`: what the row has, and its number in the transaction."""
    return (
        f'{{"after":{{{after}}},"before":null,"gtid":"{SOURCE_ID}:1","kind":"insert","schema":"s","table":"t",'
        f'"timestamp":{TIME},"token":"{BEGIN}.{number}@{NAME}"}}\n'
    )


def row(name: str, log: bytes, words: list[str], stdout: str) -> Row:
    """A row over one log that nothing is wrong of."""
    return Row(name, {NAME: log}, [*words, NAME], stdout, None, 0)


def long_value() -> Row:
    """Q: `v` has up to 65,535 bytes by its metadata, and so many in the row."""
    rows = event(WRITE_ROWS, parts("rows-head fc u32:1 ffff repeat:65535:61"))
    log = log_of([transaction(1, parts("set:37:ffff:map-t"), rows)])
    return row("Q", log, ["read"], line(f'"id":1,"v":"{"a" * 65_535}"'))


def many_events() -> list[Row]:
    """S: 1,000 rows events in one transaction. Each says that it ends where the first does, which nothing reads."""
    log = SMALL.bytes_of("Mapped")
    log = appended(log + placed(parts("insert-1-a"), len(log)) * 1_000, parts("xid"))
    lines = [line('"id":1,"v":"a"', number) for number in range(1, 1_001)]
    return [
        row("S", log, ["read"], "".join(lines)),
        row("S transactions", log, ["transactions"], f"{BEGIN}\t{len(log)}\t{SOURCE_ID}:1\txid\t{NAME}\n"),
        row("S from 153.999", log, ["read", "--from", f"153.999@{NAME}"], lines[-1]),
    ]


class Wide(NamedTuple):
    """A table of so many columns, how its map and its rows event spell their number, and what is wrong of one of these events."""

    columns: int
    in_map: str
    in_rows: str
    fault: str | None = None
    # How the map spells the index of a column of the key, where it has one.
    key: str | None = None

    def name(self) -> str:
        """The name of its row."""
        spelled = f"columns spelled {self.in_map}, {self.in_rows}"
        return f"map of {self.columns} {spelled}" if self.key is None else f"map key index {self.key} of {self.columns} columns"


# A number of up to 250 is one byte, a greater one stands behind fc, fd or fe in 2, 3 or 8 bytes; fb and ff begin none. A table has
# 4,096 columns at most. A key is such numbers, whole ones and each once, of columns that are there. A rows event has the map's number.
WIDE = (
    Wide(250, "fa", "fa"),
    Wide(251, "fc fb 00", "fd fb 00 00"),
    Wide(251, "fb", "fc fb 00", "BadMap"),
    Wide(255, "ff", "fc ff 00", "BadMap"),
    Wide(255, "fc ff 00", "fc ff 00"),
    Wide(251, "fc fb 00", "fb", "BadRows"),
    Wide(255, "fc ff 00", "ff", "BadRows"),
    Wide(4096, "fc 00 10", "fe 00 10 z6"),
    Wide(4097, "fc 01 10", "fc 01 10", "BadMap"),
    Wide(4096, "fe 00 10 z6", "fd 00 10 00"),
    Wide(256, "fc 00 01", "fc 00 01", None, "fa"),
    Wide(256, "fc 00 01", "fc 00 01", "BadMap", "fb"),
    Wide(256, "fc 00 01", "fc 00 01", "BadMap", "ff"),
    Wide(256, "fc 00 01", "fc 00 01", None, "fc fb 00"),
    Wide(256, "fc 00 01", "fc 00 01", "BadMap", "fc 00 01"),
    Wide(256, "fc 00 01", "fc 00 01", "BadMap", "fa fa"),
    Wide(256, "fc 00 01", "fc 00 01", "BadMap", "fc fa 00 fa"),
    Wide(256, "fc 00 01", "fc 00 01", "BadMap", "fc fa"),
    Wide(256, "fc 00 01", "fc 00 01", "BadMap", "fe ff 00 00 00 00 00 00"),
)


def spelled(text: str) -> str:
    """Hex digits with `z6` for six zeros, as parts."""
    return text.replace("z6", "repeat:6:00")


def wide_row(wide: Wide) -> Row:
    """The row of a wide table: TINYs c0, c1 and so on, signed ones; a rows event with the first of them alone, which is 5."""
    columns, size = wide.columns, (wide.columns + 7) // 8
    names = b"".join(bytes([len(name)]) + name for name in (b"c%d" % column for column in range(columns)))
    key = "" if wide.key is None else f"08 u8:{len(parts(spelled(wide.key)))} {spelled(wide.key)}"
    types = f"{spelled(wide.in_map)} repeat:{columns}:01 00 repeat:{size}:00"
    fields = f"01 fd u24:{size} repeat:{size}:00 04 fe u64:{len(names)} {names.hex()} {key}"
    table_map = event(TABLE_MAP, parts(f"u48:100 u16:1 01 text:s 00 01 text:t 00 {types} {fields}"))
    rows = event(WRITE_ROWS, parts(f"u48:100 u16:1 u16:2 {spelled(wide.in_rows)} 01 repeat:{size - 1}:00 fe 05"))
    log = log_of([transaction(1, table_map, rows)])
    read = row(wide.name(), log, ["read"], line('"c0":5'))
    if wide.fault is None:
        return read
    place = MAP_PLACE if wide.fault == "BadMap" else MAP_PLACE + len(table_map)
    return read._replace(stdout="", stderr=f"binlogfeed: log fault at {NAME}:{place}: {wide.fault}", status=1)


def long_rows() -> list[Row]:
    """All of these rows."""
    return [long_value(), *many_events(), *map(wide_row, WIDE)]
