"""The commands that are in Python: `python3 -m binlogfeed follow --state FILE LOGS` and others, as COMMANDS has them."""
from __future__ import annotations

import argparse
import os
import signal
import sys
import threading
import time
from collections.abc import Sequence
from functools import partial
from pathlib import Path
from typing import Any

from binlogfeed import begin, metrics
from binlogfeed.begin import FIRST
from binlogfeed.copy.command import add_copy
from binlogfeed.debezium import NAME, lines_of
from binlogfeed.faults import BinlogfeedError
from binlogfeed.filters import add_filters, add_profile, by_default_rows, filter_words, rows_alone
from binlogfeed.follow import Follower
from binlogfeed.options import LAG_HELP, add_command, lag_seconds, only_one, seconds
from binlogfeed.snapshot.command import add_snapshot
from binlogfeed.summary.command import add_summary
from binlogfeed.version import VERSION

# A look that goes on when SIGTERM comes has so many seconds to come to its end.
GRACE = 5.0
PAUSE = 0.1
CALLED = "python3 -m binlogfeed"
FORMATS = PLAIN, FULL, DEBEZIUM = ("plain", "full", "debezium")
# Ends a write of the main thread. The system itself ignores it, so it does no harm where it comes too late.
ENDS_WRITES = signal.SIGURG
ABOUT = "Follows the binary logs of a MySQL server, says what happened in logs, and copies tables and logs from a server."
HELP = """LOGS is the server's index file (binlog.index), the folder that has one, or a pattern in quotes ('/copies/binlog.*').
The place in FILE is kept once the lines before it are written and flushed. After a kill the last lines may come again; a
line's token tells them. One process uses FILE at a time, and FILE.lock says so. SIGTERM ends it behind a look, with status 0.

Exit status: that of `binlogfeed read`; 3 also where FILE keeps no place, 4 where another process uses it; 6 where logs that
were still to be read are gone, and 70 where the program can't be started. docs/USAGE.md says what to do."""


def command_line(called: str = CALLED) -> argparse.ArgumentParser:
    """What reads the command line. `run` of what it answers is the command's function."""
    parser = argparse.ArgumentParser(prog=called, description=ABOUT)
    parser.add_argument("--version", action="version", version=f"binlogfeed {VERSION}", help="print the version")
    commands = parser.add_subparsers(dest="command", required=True)
    for add in COMMANDS:
        add(commands)
    return parser


def add_follow(commands: Any) -> None:
    """Gives the command line the command `follow`."""
    parser = add_command(commands, "follow", "prints the lines of `binlogfeed read` while a server writes its logs", HELP)
    parser.add_argument("logs", metavar="LOGS", nargs="+", action=only_one(), help="where the logs are")
    parser.add_argument("--state", metavar="FILE", required=True, type=Path, help="keeps the place; made where there is none")
    parser.add_argument("--begin", metavar="PLACE", default=FIRST, help=begin.HELP)
    parser.add_argument("--once", action="store_true", help="end where the logs end by now")
    parser.add_argument("--interval", metavar="SECONDS", type=seconds, default=1.0, help="how often to look for more (1)")
    parser.add_argument("--lag", metavar="SECONDS", type=lag_seconds, default=0.0, help=LAG_HELP)
    parser.add_argument("--status", metavar="SECONDS", type=seconds, help="say on standard error how far it is, so often")
    parser.add_argument("--metrics", metavar="FILE", type=Path, help=metrics.HELP)
    parser.add_argument("--program", metavar="PATH", default="binlogfeed", help="the program (binlogfeed)")
    parser.add_argument("--format", choices=FORMATS, default=PLAIN, help="what is printed: plain lines, full ones, or Debezium's (plain)")
    parser.add_argument("--full", dest="format", action="store_const", const=FULL, help="print full lines")
    parser.add_argument("--name", metavar="NAME", default=NAME, help=f"what Debezium's lines call the source ({NAME})")
    add_profile(parser)
    add_filters(parser)
    parser.set_defaults(run=follow)


def follow(given: argparse.Namespace) -> None:
    """Prints lines until something ends it, or the logs end."""
    filters = (rows_alone if given.format == DEBEZIUM else by_default_rows)(filter_words(given))
    words = [*([] if given.format == PLAIN else ["--full"]), f"--profile={given.profile}", *filters]
    begin.say_on_standard_error("binlogfeed")
    form = partial(lines_of, name=given.name) if given.format == DEBEZIUM else None
    follower = Follower(given.logs, given.state, words, given.program, begin=given.begin, lag=given.lag, form=form)
    stopped = threading.Event()
    if given.once:
        stopped.set()
    else:
        # No thread takes SIGTERM but the one that waits for it, and the program doesn't either: what ends all processes of a
        # service must not end the program within a look.
        signal.pthread_sigmask(signal.SIG_BLOCK, [signal.SIGTERM])
        signal.signal(ENDS_WRITES, lambda number, frame: follower.interrupt())
        threading.Thread(target=wait_for_stop, args=(follower, stopped), daemon=True).start()
    if given.status:
        threading.Thread(target=say_status, args=(follower, given.status), daemon=True).start()
    try:
        with metrics.written(given.metrics, follower, given.state):
            follower.catch_up()
            while not follower.wait(given.interval, stopped):
                follower.catch_up()
    finally:
        follower.close()


def wait_for_stop(follower: Follower, stopped: threading.Event) -> None:
    """Waits for SIGTERM. A look that takes too long then is ended behind the lines that it has given."""
    signal.sigwait([signal.SIGTERM])
    stopped.set()
    time.sleep(GRACE)
    follower.stop()
    while True:
        # It may be a full pipe, whose reader takes nothing, that holds the main thread.
        signal.pthread_kill(threading.main_thread().ident or 0, ENDS_WRITES)
        time.sleep(PAUSE)


def say_status(follower: Follower, every: float) -> None:
    """Says again and again how far it is."""
    while True:
        time.sleep(every)
        print(follower.status(), file=sys.stderr, flush=True)


# Each command, by the function that gives it to the command line. Who adds one adds it here alone: help, completions, the manual page
# and the command `binlogfeed` go by this.
COMMANDS = (add_follow, add_summary, add_snapshot, add_copy)


def main(words: Sequence[str] | None = None, called: str = CALLED) -> int:
    """Runs the command that words ask for, by default those of this process. The answer is the exit status."""
    try:
        given = command_line(called).parse_args(words)
        given.run(given)
    except BinlogfeedError as error:
        print("\nhint: ".join((error.line, *error.hints)), file=sys.stderr)
        return error.status if error.status > 0 else 128 - error.status
    except BrokenPipeError:
        # Nobody takes the lines any more. Python's own flush at the end would fail, too.
        os.dup2(os.open(os.devnull, os.O_WRONLY), sys.stdout.fileno())
        print("binlogfeed: write fault: nobody reads the lines any more", file=sys.stderr)
        return 4
    except OSError as error:
        print(f"binlogfeed: {error}", file=sys.stderr)
        return 4
    except KeyboardInterrupt:
        return 130
    return 0


if __name__ == "__main__":
    sys.exit(main())
