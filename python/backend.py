"""Makes the package's wheel: for pip, which calls the functions behind HOOKS (PEP 517), and for packaging/build.

It needs Python alone, so that nothing has to be downloaded, and leaves nothing beside the sources. A wheel's version is
that of binlogfeed/version.py, and what else it says of itself stands in pyproject.toml.
"""
from __future__ import annotations

import base64
import contextlib
import gzip
import hashlib
import importlib.util
import io
import os
import re
import sys
import tarfile
import time
import zipfile
from pathlib import Path
from typing import Any, NamedTuple

HERE = Path(__file__).resolve().parent
# The one time of all packed files: so two builds of the same files have the same bytes. A zip knows none before 1980.
EPOCH = max(int(os.environ.get("SOURCE_DATE_EPOCH", "1767225600")), 315532800)
PURE = "py3-none-any"
# What an archive of the sources has beside the package.
BESIDE = ("backend.py", "pyproject.toml")


class File(NamedTuple):
    """A file to pack."""

    content: bytes
    mode: int = 0o644


Files = dict[str, File]


def told() -> dict[str, str]:
    """What pyproject.toml says in texts, and the version."""
    texts = dict(re.findall(r'(?m)^([\w-]+) = "(.*)"$', (HERE / "pyproject.toml").read_text(encoding="utf-8")))
    version = (HERE / "binlogfeed/version.py").read_text(encoding="utf-8")
    (texts["version"],) = re.findall(r'(?m)^VERSION = "(.*)"$', version)
    return texts


def extras() -> dict[str, str]:
    """What some commands need, which isn't installed unless their names are given: one package for each."""
    text = (HERE / "pyproject.toml").read_text(encoding="utf-8").partition("[project.optional-dependencies]")[2]
    return dict(re.findall(r'(?m)^([\w-]+) = \["(.*)"\]$', text))


def files_of(folder: Path, prefix: str = "") -> Files:
    """The files of a folder, by their paths behind a prefix. What Python leaves beside its sources isn't among them."""
    files: Files = {}
    for path in sorted(folder.rglob("*")):
        if path.is_file() and "__pycache__" not in path.parts:
            mode = 0o755 if path.stat().st_mode & 0o100 else 0o644
            files[prefix + path.relative_to(folder).as_posix()] = File(path.read_bytes(), mode)
    return files


def package_files(prefix: str = "") -> Files:
    """The files of the package."""
    return files_of(HERE / "binlogfeed", f"{prefix}binlogfeed/")


def metadata() -> str:
    """What a wheel says of the package."""
    said = told()
    fields = {"Name": "name", "Version": "version", "Summary": "description", "Requires-Python": "requires-python"}
    lines = [f"{field}: {said[name]}\n" for field, name in fields.items()]
    for extra, needed in extras().items():
        lines += [f"Provides-Extra: {extra}\n", f'Requires-Dist: {needed}; extra == "{extra}"\n']
    return "Metadata-Version: 2.1\n" + "".join(lines)


def write_wheel(folder: Path, files: Files, tag: str = PURE) -> Path:
    """Writes the wheel of these files, and answers its path."""
    said = told()
    stem = f"{said['name']}-{said['version']}"
    is_pure = str(tag == PURE).lower()
    described = f"Wheel-Version: 1.0\nGenerator: binlogfeed\nRoot-Is-Purelib: {is_pure}\nTag: {tag}\n"
    info = f"{stem}.dist-info"
    packed = {**files, f"{info}/METADATA": File(metadata().encode()), f"{info}/WHEEL": File(described.encode())}
    lines = [f"{name},sha256={digest(file.content)},{len(file.content)}\n" for name, file in packed.items()]
    packed[f"{info}/RECORD"] = File("".join([*lines, f"{info}/RECORD,,\n"]).encode())
    path = folder / f"{stem}-{tag}.whl"
    with zipfile.ZipFile(path, "w", zipfile.ZIP_DEFLATED) as archive:
        for name, file in packed.items():
            entry = zipfile.ZipInfo(name, time.gmtime(EPOCH)[:6])
            entry.compress_type = zipfile.ZIP_DEFLATED
            entry.create_system = 3  # Unix, whose modes stand in the upper bits
            entry.external_attr = (0o100000 | file.mode) << 16
            archive.writestr(entry, file.content)
    return path


def digest(content: bytes) -> str:
    """A digest as RECORD has it."""
    return base64.urlsafe_b64encode(hashlib.sha256(content).digest()).rstrip(b"=").decode()


def write_tar(path: Path, files: Files) -> Path:
    """Writes a .tar.gz of files that belong to root, and answers its path."""
    with open(path, "wb") as out, gzip.GzipFile("", "wb", 9, out, EPOCH) as packed:
        with tarfile.open(fileobj=packed, mode="w", format=tarfile.PAX_FORMAT) as archive:
            for name, file in files.items():
                entry = tarfile.TarInfo(name)
                entry.size, entry.mode, entry.mtime = len(file.content), file.mode, EPOCH
                entry.uname = entry.gname = "root"
                archive.addfile(entry, io.BytesIO(file.content))
    return path


# HOOKS

Settings = Any


def build_wheel(wheel_directory: str, config_settings: Settings = None, metadata_directory: str | None = None) -> str:
    """Makes the wheel of the package alone, which finds the program on PATH."""
    return write_wheel(Path(wheel_directory), package_files()).name


def build_editable(
    wheel_directory: str, config_settings: Settings = None, metadata_directory: str | None = None
) -> str:
    """Makes a wheel that has Python look for the package here (`pip install --editable`)."""
    return write_wheel(Path(wheel_directory), {"binlogfeed.pth": File(f"{HERE}\n".encode())}).name


def build_sdist(sdist_directory: str, config_settings: Settings = None) -> str:
    """Makes an archive of the sources of the package."""
    stem = f"{told()['name']}-{told()['version']}"
    files = {f"{stem}/PKG-INFO": File(metadata().encode()), **package_files(f"{stem}/")}
    files.update({f"{stem}/{name}": File((HERE / name).read_bytes()) for name in BESIDE})
    return write_tar(Path(sdist_directory) / f"{stem}.tar.gz", files).name


def forget_bytecode() -> None:
    """Removes the bytecode that Python has written of this file beside it, before the first line of it ran."""
    bytecode = Path(importlib.util.cache_from_source(__file__))
    with contextlib.suppress(OSError):
        bytecode.unlink()
        bytecode.parent.rmdir()


if not sys.dont_write_bytecode:
    forget_bytecode()
