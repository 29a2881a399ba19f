"""The package for Debian and its kin, which dpkg-deb packs."""
from __future__ import annotations

import gzip
import os
import subprocess
import tempfile
from pathlib import Path

from backend import EPOCH, File, Files

CONTROL = """\
Package: binlogfeed
Version: {version}
Architecture: amd64
Maintainer: {maintainer}
Installed-Size: {size}
Depends: libc6 (>= {glibc})
Recommends: python3 (>= 3.9)
Suggests: python3-pymysql
Section: database
Priority: optional
Description: change feed over MySQL binary log files
 It prints each committed row change of a MySQL server's binary log files as a
 line of JSON, once and in log order, and goes on behind a kept place. The
 program is proved to do so. A package for Python, which python3 is
 recommended for, gives the changes as events, and follows a server's logs.
"""

# Python's bytecode goes with its sources: an upgrade's have the same time, so the old bytecode would pass for theirs.
SCRIPTS = {
    "postinst": "if command -v py3compile >/dev/null; then\n    py3compile -p binlogfeed || true\nfi",
    "prerm": "find /usr/lib/python3/dist-packages/binlogfeed /usr/lib/binlogfeed -name __pycache__ -prune -exec rm -rf {} +",
}

COPYRIGHT = """\
This package was made of the sources of binlogfeed {version} by packaging/build.
The sources name no licence, so neither does this package. The program has parts
of the Rattle kit's libraries in it, whose licences stand in the kit.
"""

# What the unit of examples/service names, and where the package has it.
UNIT_PATHS = {
    "README.md beside this file": "/usr/share/doc/binlogfeed/examples/service/README.md",
    "file:///opt/binlogfeed/docs": "file:///usr/share/doc/binlogfeed/docs",
    "PYTHONPATH=/opt/binlogfeed/python ": "",
    "/usr/bin/env python3 /opt/binlogfeed/examples/service": "/usr/bin/python3 /usr/lib/binlogfeed",
    "exec python3 ": "exec /usr/bin/python3 ",
    "/usr/local/bin/binlogfeed": "/usr/bin/binlogfeed",
}


def unit(text: str) -> str:
    """The unit of systemd, with the paths of the package."""
    for old, new in UNIT_PATHS.items():
        if old not in text:
            raise ValueError(f"the unit of examples/service doesn't name {old}")
        text = text.replace(old, new)
    return text


def compressed(content: bytes) -> File:
    """A file that is packed by gzip."""
    return File(gzip.compress(content, 9, mtime=EPOCH))


def control(version: str, glibc: str, files: Files) -> str:
    """What the package says of itself."""
    size = sum(-(-len(file.content) // 1024) for file in files.values())
    return CONTROL.format(version=version, maintainer="binlogfeed <binlogfeed@localhost>", glibc=glibc, size=size)


def put(folder: Path, files: Files) -> None:
    """Writes files into a folder, with their modes and with the one time."""
    for name, file in files.items():
        path = folder / name
        path.parent.mkdir(parents=True, exist_ok=True)
        path.write_bytes(file.content)
        path.chmod(file.mode)
    for path in [folder, *folder.rglob("*")]:
        if path.is_dir():
            path.chmod(0o755)
        os.utime(path, (EPOCH, EPOCH))


def write(path: Path, version: str, glibc: str, files: Files) -> Path:
    """Writes the package of these files, and answers its path."""
    copyright_file = {"usr/share/doc/binlogfeed/copyright": File(COPYRIGHT.format(version=version).encode())}
    files = {**files, **copyright_file}
    about = {"DEBIAN/control": File(control(version, glibc, files).encode())}
    for name, lines in SCRIPTS.items():
        about[f"DEBIAN/{name}"] = File(f"#!/bin/sh\nset -e\n{lines}\n".encode(), 0o755)
    with tempfile.TemporaryDirectory() as room:
        put(Path(room), {**files, **about})
        command = ["dpkg-deb", "--root-owner-group", "-Zxz", "--build", room, path]
        environment = {**os.environ, "SOURCE_DATE_EPOCH": str(EPOCH)}
        subprocess.run(command, env=environment, stdout=subprocess.DEVNULL, check=True)
    return path
