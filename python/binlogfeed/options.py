"""What the values of this package's options have to be."""
from __future__ import annotations

import argparse
import math
import threading
from collections.abc import Callable
from typing import Any

LAG_HELP = "give no line earlier than so long after its transaction was seen whole in the log (0)"


def add_command(commands: Any, name: str, about: str, ends: str) -> argparse.ArgumentParser:
    """Gives the command line a command, with what it does and what stands below its options."""
    form = argparse.RawDescriptionHelpFormatter
    parser: argparse.ArgumentParser = commands.add_parser(name, help=about, epilog=ends, formatter_class=form)
    return parser


def only_one() -> type[argparse.Action]:
    """What takes one place of logs. A shell makes several words of a pattern without quotes."""

    class OnlyOne(argparse.Action):
        """Takes a list of one."""

        def __call__(self, parser: argparse.ArgumentParser, namespace: argparse.Namespace, values: Any, option: Any = None) -> None:
            """Takes it."""
            if len(values) > 1:
                parser.error(f"LOGS is one index, folder or pattern, and here are {len(values)} words: put a pattern in quotes")
            setattr(namespace, self.dest, values[0])

    return OnlyOne


def is_a_wait(seconds: float) -> bool:
    """Whether one can wait for so many seconds, and does wait: no number below 0 or beyond all clocks, and nan isn't one, either."""
    return 0 < seconds <= threading.TIMEOUT_MAX


def seconds(word: str) -> float:
    """A number of seconds above 0, as argparse takes it."""
    number = _number(word)
    if not is_a_wait(number):
        raise argparse.ArgumentTypeError(f"a number of seconds above 0 is wanted, not {word!r}")
    return number


def lag_seconds(word: str) -> float:
    """A number of seconds, of which 0 is one, as argparse takes it."""
    number = _number(word)
    if number and not is_a_wait(number):
        raise argparse.ArgumentTypeError(f"a number of seconds is wanted, not {word!r}")
    return number


def _number(word: str) -> float:
    """The number that a word is; nan where it is none."""
    try:
        return float(word)
    except ValueError:
        return math.nan


def whole_number(most: int) -> Callable[[str], int]:
    """What takes a whole number from 1 to the most, as argparse takes it."""

    def taken(word: str) -> int:
        """The number."""
        try:
            number = int(word) if word.isdecimal() else 0
        except ValueError:  # Python reads some thousand digits at most
            number = 0
        if not 0 < number <= most:
            raise argparse.ArgumentTypeError(f"a number from 1 to {most} is wanted, not {word!r}")
        return number

    return taken
