"""Who logs in where: by the command line, an option file as MySQL's own programs take it, and the environment; and connections by PyMySQL."""
from __future__ import annotations

import argparse
import configparser
import getpass
import importlib
import os
import ssl
from collections.abc import Mapping
from pathlib import Path
from typing import Any, NamedTuple, Optional
from urllib.parse import parse_qsl, unquote, urlsplit

from binlogfeed.faults import FileFault, WordsRefused
from binlogfeed.options import whole_number

GROUP, PORT, MOST_PORT = "client", 3306, (1 << 16) - 1
MISSING = "binlogfeed: this needs PyMySQL: apt-get install python3-pymysql, or pip install PyMySQL"
WANTED = "mysql://USER@HOST:PORT/ is wanted, or mysql://USER@localhost/?socket=PATH"
# A password that goes over a network in the clear has to be encrypted by another package.
HOW = "apt-get install python3-cryptography, or connect by --socket or --ssl-ca"


class Settings(NamedTuple):
    """What a connection is made with."""

    host: str
    port: int
    user: str
    password: str
    # The certificate that has to have signed the server's.
    authority: Optional[str] = None
    # The server's socket, in place of host and port.
    socket: Optional[str] = None

    @property
    def place(self) -> str:
        """Where the server is."""
        return self.socket or f"{self.host}:{self.port}"


def add_access(parser: argparse.ArgumentParser) -> None:
    """Gives a command the options."""
    parser.add_argument("--host", metavar="NAME", help="the server's machine (localhost)")
    parser.add_argument("--port", metavar="NUMBER", type=whole_number(MOST_PORT), help=f"its port ({PORT})")
    parser.add_argument("--socket", metavar="PATH", help="its socket, in place of host and port")
    parser.add_argument("--user", metavar="NAME", help="who logs in (the name of who runs this)")
    parser.add_argument("--defaults-file", metavar="FILE", type=Path, help="an option file, whose group [client] has what isn't given here")
    parser.add_argument("--ssl-ca", metavar="FILE", help="the authority that has to have signed the server's certificate")


def settings_of(told: Mapping[str, Any]) -> Settings:
    """What a connection is made with, by the values of these options. As in MySQL's programs an option file goes before the environment."""
    file = told.get("defaults_file")
    kept = options_of(Path(file)) if file else {}
    port = told.get("port") or kept.get("port") or PORT
    if port == "0":  # what an option file says for the usual one
        port = PORT
    try:
        return Settings(
            host=told.get("host") or kept.get("host") or "localhost",
            port=whole_number(MOST_PORT)(str(port)),
            user=told.get("user") or kept.get("user") or getpass.getuser(),
            password=kept.get("password") or os.environ.get("MYSQL_PWD") or "",
            authority=told.get("ssl_ca") or kept.get("ssl-ca"),
            socket=told.get("socket") or kept.get("socket"),
        )
    except argparse.ArgumentTypeError as error:
        raise WordsRefused(f"binlogfeed: {file}: {port!r} is no port") from error


def of_url(url: str) -> dict[str, Any]:
    """The options that `mysql://user@host:port/` gives, or `mysql://user@localhost/?socket=path`."""
    parts = urlsplit(url)
    if parts.password is not None:
        raise WordsRefused("binlogfeed: a password in the words is for everyone to see: set MYSQL_PWD, or give --defaults-file")
    try:
        port = parts.port
    except ValueError:
        port = 0
    more = dict(parse_qsl(parts.query, keep_blank_values=True))
    socket = more.pop("socket", None)
    if parts.scheme != "mysql" or not parts.hostname or port == 0 or parts.path not in ("", "/") or more or parts.fragment:
        raise WordsRefused(f"binlogfeed: {url} is no server: {WANTED}")
    user = None if parts.username is None else unquote(parts.username)
    given = {"host": parts.hostname, "port": port, "user": user, "socket": socket}
    return {name: value for name, value in given.items() if value}


def options_of(path: Path) -> dict[str, str]:
    """The options of an option file's group. Its includes aren't followed."""
    try:
        lines = path.read_text(encoding="utf-8").splitlines()
    except OSError as error:
        raise FileFault(f"binlogfeed: cannot open {path}: {error.strerror}") from error
    parser = configparser.RawConfigParser(allow_no_value=True, strict=False, delimiters=("=",))
    try:
        parser.read_string("\n".join(line.strip() for line in lines if not line.lstrip().startswith("!")))
    except configparser.Error as error:
        raise WordsRefused(f"binlogfeed: {path} is no option file: {str(error).splitlines()[0]}") from error
    found = dict(parser[GROUP]) if parser.has_section(GROUP) else {}
    return {name.replace("_", "-"): _unquoted(value or "") for name, value in found.items()}


def driver() -> Any:
    """PyMySQL, which the package doesn't bring."""
    try:
        return importlib.import_module("pymysql")
    except ImportError as error:
        raise WordsRefused(MISSING) from error


def connected(client: Any, settings: Settings, **more: Any) -> Any:
    """A connection of PyMySQL. It is encrypted where the server can; by an authority it has to be."""
    words = {"host": settings.host, "port": settings.port, "user": settings.user, "password": settings.password}
    if settings.socket:
        words["unix_socket"] = settings.socket
    if settings.authority or not settings.socket:
        words["ssl"] = _encryption(settings.authority)
    try:
        connection = client.connect(**words, **more)
    except RuntimeError as error:  # a password's method that PyMySQL has only with another package
        raise WordsRefused(f"binlogfeed: PyMySQL can't log in: {error}").hinted(HOW) from error
    if settings.authority and not isinstance(connection._sock, ssl.SSLSocket):
        connection._force_close()
        raise WordsRefused(f"binlogfeed: {settings.host} doesn't encrypt, so its certificate can't be checked")
    return connection


def _encryption(authority: str | None) -> ssl.SSLContext:
    """Encrypts where the server can. By an authority the server's certificate is checked, whatever name stands in it."""
    context = ssl.create_default_context(cafile=authority)
    context.check_hostname = False
    if authority is None:
        context.verify_mode = ssl.CERT_NONE
    return context


def _unquoted(value: str) -> str:
    """A value without the quotes round it."""
    is_quoted = len(value) > 1 and value[0] == value[-1] and value[0] in "'\""
    return value[1:-1] if is_quoted else value
