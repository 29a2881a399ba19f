"""Tables as a target makes them itself, by the types and the key that full lines tell. Each type holds all values of a column."""
from __future__ import annotations

import re
from collections.abc import Callable, Sequence

from fitting import charset_of, word

# What a size in a type says, such as the `(8,2)` of `decimal(8,2) unsigned`.
SIZE = re.compile(r"\([\d,]+\)")
# Columns of SQLite without a type hold what is put into them: -0.0, which REAL doesn't, and whole numbers or their texts.
ANY = ""
SQLITE = {
    **dict.fromkeys(("tinyint", "smallint", "mediumint", "int", "bigint", "bit", "year"), "INTEGER"),
    **dict.fromkeys(("binary", "varbinary", "tinyblob", "blob", "mediumblob", "longblob", "geometry"), "BLOB"),
    **dict.fromkeys(("float", "double"), ANY),
}
POSTGRES = {
    **dict.fromkeys(("tinyint", "tinyint unsigned", "smallint", "year"), "smallint"),
    **dict.fromkeys(("smallint unsigned", "mediumint", "mediumint unsigned", "int"), "integer"),
    **dict.fromkeys(("int unsigned", "bigint"), "bigint"),
    **dict.fromkeys(("binary", "varbinary", "tinyblob", "blob", "mediumblob", "longblob", "geometry"), "bytea"),
    **{"bigint unsigned": "numeric(20)", "float": "real", "double": "double precision", "json": "json", "date": "date", "vector": "text"},
}
# Those that keep the size of the log's type.
SIZED = {"bit": "bit", "decimal": "numeric", "time": "interval", "datetime": "timestamp", "timestamp": "timestamptz"}


def sqlite_type(log: str) -> str:
    """SQLite's type for one of the log."""
    if log in ("bigint unsigned", "bit(64)"):
        return ANY
    return SQLITE.get(word(log), "TEXT")


def postgres_type(log: str) -> str:
    """PostgreSQL's type for one of the log."""
    kind = word(log)
    if kind in SIZED:
        size = SIZE.search(log)
        return f"{SIZED[kind]}{size[0] if size else '(0)'}"
    found = POSTGRES.get(log) or POSTGRES.get(kind)
    # Bytes that no character set makes a text of.
    return found or ("text" if charset_of(log) not in ("", "binary") else "bytea")


def statement(
    name: str, columns: Sequence[tuple[str, str]], key: Sequence[str], type_of: Callable[[str], str], quoted: Callable[[str], str]
) -> str:
    """The statement that makes a table of these columns, with their types in the log."""
    parts = [f"{quoted(column)} {type_of(log)}{' NOT NULL' if column in key else ''}" for column, log in columns]
    if key:
        parts.append(f"PRIMARY KEY ({', '.join(map(quoted, key))})")
    return f"CREATE TABLE {quoted(name)} ({', '.join(parts)})"


def alterations(
    name: str, columns: Sequence[tuple[str, str]], there: Sequence[str], type_of: Callable[[str], str], quoted: Callable[[str], str]
) -> list[str]:
    """The statements that make a table with the columns that are there one with these, which have their types in the log."""
    names, front = [column for column, _ in columns], f"ALTER TABLE {quoted(name)}"
    gone = [column for column in there if column not in names]
    new = [(column, log) for column, log in columns if column not in there]
    drops = [f"{front} DROP COLUMN {quoted(column)}" for column in gone]
    adds = [f"{front} ADD COLUMN {quoted(column)} {type_of(log)}".rstrip() for column, log in new]
    if len(gone) == len(new) == 1:
        rename = f"{front} RENAME COLUMN {quoted(gone[0])} TO {quoted(new[0][0])}"
        return [rename, f"or, if it wasn't renamed: {'; '.join([*adds, *drops])}"]
    return [*adds, *drops]
