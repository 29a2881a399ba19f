"""The command `copy` of the command line."""
from __future__ import annotations

import argparse
import signal
import socket
import zlib
from pathlib import Path
from typing import Any

from binlogfeed import begin
from binlogfeed.access import add_access, settings_of
from binlogfeed.begin import LOG
from binlogfeed.copy.copier import Copier
from binlogfeed.copy.folder import Folder
from binlogfeed.copy.server import Server
from binlogfeed.copy.stopping import Stopped, Stopping
from binlogfeed.options import add_command, whole_number

HELP = """The copies have the names and the bytes of the server's logs. `follow FOLDER` reads them beside it. The password is that of the
option file, or MYSQL_PWD in the environment. USER needs the rights REPLICATION SLAVE and REPLICATION CLIENT. A lost connection is
tried again. SIGTERM ends it, with status 0. One process copies into FOLDER at a time. It needs PyMySQL.

Exit status: 1 where the server sends what is no event of its place, or a damaged one; 2 where it refuses, and without PyMySQL; 3
where its log is shorter than the copy; 4 where FOLDER can't be written, and with --once where there is no connection; 6 where a log
is gone that wasn't copied to its end, where another has its name, and where the copies are another server's. docs/USAGE.md says
what to do."""
MOST_ID = (1 << 32) - 1


def add_copy(commands: Any) -> None:
    """Gives the command line the command."""
    parser = add_command(commands, "copy", "copy a server's logs from another machine, while it writes them", HELP)
    parser.add_argument("folder", metavar="FOLDER", type=Path, help="where the copies are, which is made where it isn't there")
    add_access(parser)
    chosen = "an id that no server, replica or copier has (made of FOLDER)"
    parser.add_argument("--server-id", metavar="NUMBER", type=whole_number(MOST_ID), help=chosen)
    parser.add_argument("--begin", metavar="LOG", help="the log to begin with where FOLDER has none (the server's first)")
    parser.add_argument("--once", action="store_true", help="end where the logs end by now")
    parser.set_defaults(run=copy)


def made_id(folder: Path) -> int:
    """A server id for a folder of this machine, which is the same each time. People mostly give smaller ones."""
    return zlib.crc32(f"{socket.gethostname()}:{folder.resolve()}".encode("utf-8", "surrogateescape")) | 1 << 31


def copy(given: argparse.Namespace) -> None:
    """Copies until something ends it, or the logs end."""
    begin.say_on_standard_error("binlogfeed")
    settings = settings_of(vars(given))
    number = given.server_id or made_id(given.folder)
    stopping = Stopping()
    server = Server(settings, number, stopping)
    folder = Folder(given.folder)
    try:
        if not given.once:
            signal.signal(signal.SIGTERM, stopping.ask)
        LOG.info(f"copies the logs of {settings.place} into {given.folder}, with the server id {number}")
        Copier(server, folder, stopping, given.begin, given.once).run()
    except Stopped:
        pass
    finally:
        folder.close()
