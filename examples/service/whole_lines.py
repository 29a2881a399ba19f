#!/usr/bin/env python3
"""Cuts a file back to its last whole line, where a kill or a loss of power has cut the one behind it.

    whole_lines.py FILE

A line that is cut comes again, whole. A file that isn't there is left so.
"""
from __future__ import annotations

import os
import sys
from typing import BinaryIO

BLOCK = 1 << 16


def end_of_lines(file: BinaryIO) -> int:
    """Where the last whole line of a file ends."""
    end = file.seek(0, os.SEEK_END)
    while end > 0:
        start = max(0, end - BLOCK)
        file.seek(start)
        found = file.read(end - start).rfind(b"\n")
        if found >= 0:
            return start + found + 1
        end = start
    return 0


def main() -> int:
    """Cuts the file. The answer is the exit status."""
    if len(sys.argv) != 2:
        print(__doc__, file=sys.stderr)
        return 2
    try:
        with open(sys.argv[1], "r+b") as file:
            file.truncate(end_of_lines(file))
    except FileNotFoundError:
        pass
    return 0


if __name__ == "__main__":
    sys.exit(main())
