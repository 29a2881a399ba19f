"""The packages that packaging/build makes: what is in them, and that each is enough for the README's commands."""
import base64
import csv
import gzip
import hashlib
import importlib.util
import os
import pty
import re
import shlex
import shutil
import sqlite3
import subprocess
import sys
import tarfile
import tempfile
import unittest
import zipfile
from pathlib import Path

from support import PROGRAM, TOP, running

PARTS = ("README.md", "docs", "examples", "packaging", "python")
READ = ["read", "examples/shop/binlog.000001", "examples/shop/binlog.000002"]
README = (TOP / "README.md").read_text(encoding="utf-8")
# Python writes bytecode, as it does for most users: it must not stand beside the sources.
SET_ASIDE = ("PYTHON", "PIP_", "SOURCE_DATE_EPOCH")
USUAL = {name: value for name, value in os.environ.items() if not name.startswith(SET_ASIDE)}
BARE = {"HOME": "/nonexistent", "LC_ALL": "C.UTF-8", "PATH": "/usr/bin:/bin", "PYTHONDONTWRITEBYTECODE": "1"}
REPLICA = TOP / "examples/replica/replica.py"
# The program's own commands, and those in Python that there are at least.
OF_PROGRAM = ["read", "history", "transactions"]
IN_PYTHON = ["follow", "summary", "replica"]


def copied(folder):
    """A copy of what the packages are made of."""
    folder.mkdir()
    for name in PARTS:
        if (TOP / name).is_dir():
            shutil.copytree(TOP / name, folder / name, ignore=shutil.ignore_patterns("__pycache__", "out"))
        else:
            shutil.copy2(TOP / name, folder / name)
    return folder


def tree(folder):
    """All that is in a folder, with the files' bytes."""
    return {str(path.relative_to(folder)): path.read_bytes() if path.is_file() else None for path in folder.rglob("*")}


def ran(command, **options):
    """What a command prints. It has to end well, and to say nothing on standard error."""
    ended = subprocess.run(command, capture_output=True, text=True, check=False, **options)
    if ended.returncode or ended.stderr:
        raise AssertionError(f"{command}: status {ended.returncode}: {ended.stdout}{ended.stderr}")
    return ended.stdout


def built(checkout, *words, **environment):
    """The files that packaging/build makes: the wheel, the .tar.gz and the .deb."""
    command = [sys.executable, checkout / "packaging/build", "--program", PROGRAM, *words]
    return [Path(line) for line in ran(command, env={**USUAL, **environment}).splitlines()]


def shell_lines():
    """The README's commands that read the examples, without the program's name."""
    lines = re.findall(r"(?m)^ {4}(?:\./)?binlogfeed (\w[^|>$\n]* examples/shop/[^|>$\n]*)$", README)
    return [READ, *(shlex.split(line) for line in lines)]


def example():
    """The README's example for Python, as it stands. It finds the program by itself."""
    return re.search(r"(?m)^from binlogfeed import .*\n(?:.+\n)+?(?=```$)", README)[0].rstrip("'\n") + "\n"


class Package(unittest.TestCase):
    """Tests with the packages, which are made once."""

    @classmethod
    def setUpClass(cls):
        """Makes the packages of a copy of the checkout."""
        if not shutil.which("dpkg-deb"):
            raise unittest.SkipTest("there is no dpkg-deb (apt-get install dpkg)")
        cls.room = Path(tempfile.mkdtemp(prefix="binlogfeed-"))
        cls.addClassCleanup(shutil.rmtree, cls.room, ignore_errors=True)
        cls.checkout = copied(cls.room / "checkout")
        cls.before = tree(cls.checkout)
        cls.packages = built(cls.checkout, "--out", cls.room / "out")
        cls.wheel, cls.archive, cls.deb = cls.packages
        ran(["dpkg-deb", "-x", cls.deb, cls.room / "deb"])
        with tarfile.open(cls.archive) as archive:
            # Python 3.12 and 3.13 warn where none is chosen, and older ones may have none.
            archive.extraction_filter = getattr(tarfile, "data_filter", None)
            archive.extractall(cls.room / "archive")
        cls.command = cls.room / "deb/usr/bin/binlogfeed"
        cls.program = cls.room / "deb/usr/lib/binlogfeed/binlogfeed"
        cls.unpacked = cls.room / "archive" / f"binlogfeed-{cls.version()}"

    @classmethod
    def version(cls):
        """The version, as the sources have it."""
        text = (TOP / "python/binlogfeed/version.py").read_text(encoding="utf-8")
        return re.search(r'(?m)^VERSION = "(.+)"$', text)[1]

    def judge_program(self, command, program, folder):
        """The program is the one that was built, and the command does by it what the README shows, in a folder with the examples."""
        self.assertEqual(program.read_bytes(), Path(PROGRAM).read_bytes())
        lines = (TOP / "examples/shop/read.jsonl").read_text(encoding="utf-8")
        self.assertEqual(ran([command, *READ], cwd=folder, env=BARE), lines)
        for words in shell_lines():
            self.assertEqual(ran([command, *words], cwd=folder, env=BARE), ran([PROGRAM, *words], cwd=TOP))
        for words in (["read", "a b", ""], ["history", "--key"], ["transactions", "--profile=x", "f"], ["reed"], []):
            wanted = subprocess.run(["binlogfeed", *words], executable=PROGRAM, cwd=folder, env=BARE, capture_output=True, check=False)
            for asks, said in ((None, lambda text: text.partition(b"\n")[0] + b"\n"), ("0", lambda text: text)):
                environment = BARE if asks is None else {**BARE, "BINLOGFEED_HINTS": asks}
                came = subprocess.run([command, *words], cwd=folder, env=environment, capture_output=True, check=False)
                self.assertEqual((came.returncode, came.stdout), (wanted.returncode, wanted.stdout), words)
                self.assertEqual(said(came.stderr), wanted.stderr, words)
                self.assertEqual(asks is None, came.stderr != wanted.stderr, words)
        self.judge_place(command, program, folder)

    def judge_place(self, command, program, folder):
        """The program takes the place of the command."""
        log = folder / "examples/shop/binlog.000001"
        options = {"stdin": subprocess.PIPE, "stdout": subprocess.PIPE, "env": BARE}
        with running([command, "read", "--follow", "--only-tables=none", log], **options) as process:
            self.assertEqual(process.stdout.readline(), b"\n")
            self.assertEqual(Path(f"/proc/{process.pid}/exe").resolve(), program.resolve())
            process.stdin.close()
            self.assertEqual(process.wait(), 0)

    def judge_commands(self, command, program, folder, **environment):
        """What is in Python is there by the same command, and takes the same program."""
        environment, room = {**BARE, **environment}, Path(tempfile.mkdtemp(dir=self.room))
        logs = "examples/shop/binlog.*"
        digest = hashlib.sha256(program.read_bytes()).hexdigest()
        said = ran([command, "--version"], env=environment, cwd=folder)
        self.assertEqual(said, f"binlogfeed {self.version()}\nprogram {program.resolve()}, sha256 {digest}\n")
        told = ran([command, "--help"], env=environment, cwd=folder)
        self.assertEqual([ran([command, word], env=environment, cwd=folder) for word in ("-h", "help")], [told, told])
        for name in [*OF_PROGRAM, *IN_PYTHON]:
            self.assertRegex(told, rf"(?m)^  {name} +[A-Z]")
            usage = ran([command, name, "--help"], env=environment, cwd=folder)
            self.assertRegex(usage, rf"(?m)^[Uu]sage: binlogfeed {name} \[")
            self.assertEqual(ran([command, "help", name], env=environment, cwd=folder), usage)
        words = [command, "follow", "--once", "--state", room / "state", logs]
        ended = subprocess.run(words, env=environment, cwd=folder, capture_output=True, text=True, check=False)
        self.assertEqual((ended.returncode, ended.stdout), (0, (TOP / "examples/shop/read.jsonl").read_text(encoding="utf-8")))
        ended = subprocess.run([*words, "--only-events=x"], env=environment, cwd=folder, capture_output=True, text=True, check=False)
        self.assertEqual((ended.returncode, ended.stdout), (2, ""))
        self.assertIn("binlogfeed: bad --only-events: x\nhint: --only-events takes insert, update and delete, ", ended.stderr)
        wanted = (TOP / "examples/shop/summary.txt").read_text(encoding="utf-8")
        self.assertEqual(ran([command, "summary", logs], env=environment, cwd=folder), wanted)
        made = sqlite3.connect(room / "shop.db")
        made.executescript((TOP / "examples/replica/shop.sql").read_text(encoding="utf-8"))
        words = [command, "replica", f"sqlite:{room}/shop.db", "shop", logs]
        ended = subprocess.run(words, env=environment, cwd=folder, capture_output=True, text=True, check=False)
        self.assertEqual((ended.returncode, ended.stdout), (0, ""), ended.stderr)
        self.assertEqual(made.execute("select id, total from purchase order by id").fetchall(), [(1, "9.80"), (3, "35.55")])
        made.close()

    def judge_python(self, command, folder, **environment):
        """The package says its version, and the README's example finds the program and runs."""
        environment = {**BARE, **environment}
        for words, said in (
            (["-m", "binlogfeed", "--version"], f"binlogfeed {self.version()}\n"),
            (["-c", "import binlogfeed; print(binlogfeed.__version__)"], f"{self.version()}\n"),
        ):
            self.assertEqual(ran([*command, *words], env=environment, cwd=folder), said)
        (self.room / "path").mkdir(exist_ok=True)
        shutil.copy2(PROGRAM, self.room / "path/binlogfeed")
        here = {**BARE, "PYTHONPATH": str(TOP / "python"), "PATH": f"{self.room}/path:{BARE['PATH']}"}
        wanted = ran([sys.executable, "-c", example()], cwd=TOP, env=here)
        self.assertIn("@binlog.000001", wanted)
        self.assertEqual(ran([*command, "-c", example()], cwd=folder, env=environment), wanted)


class Made(Package):
    """What is made, and how."""

    def test_nothing_else_is_made(self):
        self.assertEqual(tree(self.checkout), self.before)
        self.assertEqual(sorted(self.packages), sorted((self.room / "out").iterdir()))

    def test_without_dpkg(self):
        """Where there is no dpkg-deb, the other two are made."""
        command = [sys.executable, self.checkout / "packaging/build", "--program", PROGRAM, "--out", self.room / "two"]
        ended = subprocess.run(command, env={"PATH": ""}, capture_output=True, text=True, check=False)
        self.assertEqual((ended.returncode, ended.stderr), (0, "no .deb is made: dpkg-deb isn't there\n"))
        self.assertEqual(sorted(path.name for path in (self.room / "two").iterdir()), [self.archive.name, self.wheel.name])

    def test_the_same_bytes(self):
        """Another checkout, of another time and under another umask, gives the same packages, beside its sources."""
        other = copied(self.room / "other")
        for path in other.rglob("*"):
            os.utime(path, (1_000_000_000, 1_000_000_000))
        mask = os.umask(0o077)
        try:
            again = built(other)
        finally:
            os.umask(mask)
        self.assertEqual([path.parent for path in again], [other / "packaging/out"] * 3)
        for path, first in zip(again, self.packages):
            self.assertEqual((path.name, path.read_bytes() == first.read_bytes()), (first.name, True))
        shutil.rmtree(other / "packaging/out")
        self.assertEqual(tree(other), self.before)

    def test_names(self):
        version = re.escape(self.version())
        self.assertRegex(self.wheel.name, rf"^binlogfeed-{version}-py3-none-manylinux_2_\d+_x86_64\.whl$")
        self.assertEqual(self.deb.name, f"binlogfeed_{self.version()}_amd64.deb")
        self.assertEqual(self.archive.name, f"binlogfeed-{self.version()}-linux-x86_64.tar.gz")

    def test_record(self):
        """The wheel's list has each of its files, with its digest and its length."""
        with zipfile.ZipFile(self.wheel) as wheel:
            content = {name: wheel.read(name) for name in wheel.namelist()}
        info = f"binlogfeed-{self.version()}.dist-info"
        rows = list(csv.reader(content[f"{info}/RECORD"].decode().splitlines()))
        self.assertEqual([name for name, *_ in rows], list(content))
        for name, digest, length in rows[:-1]:
            wanted = base64.urlsafe_b64encode(hashlib.sha256(content[name]).digest()).decode().rstrip("=")
            self.assertEqual((digest, length), (f"sha256={wanted}", str(len(content[name]))))
        self.assertEqual(rows[-1], [f"{info}/RECORD", "", ""])
        sources = {name.removeprefix("python/") for name, data in self.before.items() if data is not None}
        package = {name for name in sources if name.startswith("binlogfeed/")}
        beside = {"binlogfeed/libexec/binlogfeed", *(f"binlogfeed/libexec/replica/{path.name}" for path in REPLICA.parent.glob("*.py"))}
        self.assertEqual({name for name in content if name.startswith("binlogfeed/")}, package | beside)

    def test_one_time(self):
        """All that is packed has one time, which may be given."""
        wheel, archive, deb = built(self.checkout, "--out", self.room / "timed", SOURCE_DATE_EPOCH="1600000000")
        with zipfile.ZipFile(wheel) as packed:
            self.assertEqual({entry.date_time for entry in packed.infolist()}, {(2020, 9, 13, 12, 26, 40)})
        with tarfile.open(archive) as packed:
            self.assertEqual({entry.mtime for entry in packed}, {1_600_000_000})
        lines = ran(["dpkg-deb", "--contents", deb], env={**BARE, "TZ": "UTC"}).splitlines()
        self.assertEqual({" ".join(line.split()[3:5]) for line in lines}, {"2020-09-13 12:26"})

    def test_version_stands_in_one_place(self):
        """Another version in version.py is that of all packages."""
        other = copied(self.room / "other_version")
        place = other / "python/binlogfeed/version.py"
        place.write_text(place.read_text(encoding="utf-8").replace(self.version(), "9.8.7"), encoding="utf-8")
        wheel, archive, deb = made = built(other)
        wanted = [path.name.replace(self.version(), "9.8.7") for path in self.packages]
        self.assertEqual([path.name for path in made], wanted)
        with zipfile.ZipFile(wheel) as packed:
            said = packed.read("binlogfeed-9.8.7.dist-info/METADATA").decode()
            self.assertIn("\nVersion: 9.8.7\n", said)
            for extra in ("copy", "snapshot"):
                self.assertIn(f'\nProvides-Extra: {extra}\nRequires-Dist: PyMySQL; extra == "{extra}"\n', said)
        self.assertEqual(ran(["dpkg-deb", "--field", deb, "Version"]), "9.8.7\n")
        with tarfile.open(archive) as packed:
            page = packed.extractfile("binlogfeed-9.8.7/share/man/man1/binlogfeed.1.gz").read()
            self.assertEqual({name.partition("/")[0] for name in packed.getnames()}, {"binlogfeed-9.8.7"})
        self.assertIn('"binlogfeed 9.8.7"', gzip.decompress(page).decode().splitlines()[0])

    @unittest.skipUnless(shutil.which("objdump"), "there is no objdump (apt-get install binutils)")
    def test_least_glibc(self):
        """Wheel and .deb ask for the greatest version of the symbols, as objdump tells them. So say the documents."""
        found = re.findall(r"\(?GLIBC_(\d+)\.(\d+)[.\d]*\)?", ran(["objdump", "-T", PROGRAM]))
        major, minor = max((int(major), int(minor)) for major, minor in found)
        self.assertIn(f"-manylinux_{major}_{minor}_x86_64.whl", self.wheel.name)
        self.assertEqual(ran(["dpkg-deb", "--field", self.deb, "Depends"]), f"libc6 (>= {major}.{minor})\n")
        self.assertIn(f"glibc {major}.{minor} or later", (TOP / "docs/USAGE.md").read_text(encoding="utf-8"))

    def test_refused(self):
        """What is no program, needs more than glibc, or isn't there makes no package."""
        script = self.room / "script"
        script.write_text("#!/bin/sh\n" + "#" * 100)
        more = bytearray(Path(PROGRAM).read_bytes()).replace(b"\0libc.so.6\0", b"\0libd.so.6\0")
        (self.room / "more").write_bytes(more)
        other = bytearray(Path(PROGRAM).read_bytes())
        other[18:20] = b"\xb7\0"  # a program for aarch64
        (self.room / "other_machine").write_bytes(other)
        shutil.copy2("/bin/false", self.room / "false")
        reasons = {"script": "is no program for x86-64", "more": "needs libd.so.6", "none": "isn't there"}
        reasons.update({"false": "tells no help", "other_machine": "is no program for x86-64"})
        for name, said in reasons.items():
            words = ["--program", self.room / name, "--out", self.room / "refused"]
            command = [sys.executable, self.checkout / "packaging/build", *words]
            ended = subprocess.run(command, capture_output=True, text=True, check=False)
            self.assertEqual((ended.returncode, ended.stdout), (1, ""))
            self.assertIn(f"{self.room / name} {said}", ended.stderr)
            self.assertEqual(ended.stderr.count("\n"), 1)
            self.assertFalse((self.room / "refused").exists())


class Archive(Package):
    """The .tar.gz."""

    def test_commands(self):
        command, program = self.unpacked / "binlogfeed", self.unpacked / "libexec/binlogfeed"
        self.judge_program(command, program, self.unpacked)
        path = f"{self.unpacked}:{BARE['PATH']}"
        self.judge_python([sys.executable], self.unpacked, PYTHONPATH=str(self.unpacked / "python"), PATH=path)
        (self.room / "python").mkdir()
        (self.room / "python/python3").symlink_to(sys.executable)
        path = f"{self.room}/python:{BARE['PATH']}"
        self.judge_commands(command, program, self.unpacked, PATH=path)
        # By a link, too, and where the folder has modules of other names.
        (self.room / "link").symlink_to(command)
        (self.room / "argparse.py").write_text("raise SystemExit(9)")
        self.assertEqual(ran([self.room / "link", "--version"], cwd=self.room, env={**BARE, "PATH": path})[:11], "binlogfeed ")

    def test_without_python(self):
        """What the program does needs none; the rest says that it is missing."""
        folder = self.room / "tools"
        folder.mkdir()
        for name in ("dirname", "readlink"):
            (folder / name).symlink_to(shutil.which(name))
        environment = {**BARE, "PATH": str(folder)}
        command = self.unpacked / "binlogfeed"
        self.assertEqual(ran([command, *READ], cwd=TOP, env=environment), (TOP / "examples/shop/read.jsonl").read_text(encoding="utf-8"))
        self.assertEqual(ran([command, "--version"], env=environment), f"binlogfeed {self.version()}\n")
        for words in (["--help"], ["help", "read"]):
            self.assertEqual(ran([command, *words], env=environment), ran(["binlogfeed", *words], executable=PROGRAM))
        ended = subprocess.run([command, "follow"], env=environment, capture_output=True, text=True, check=False)
        said = "binlogfeed: follow is none of read, history and transactions, and all else needs python3, which isn't there\n"
        self.assertEqual((ended.returncode, ended.stdout, ended.stderr), (70, "", said))

    def test_content(self):
        """It has what the checkout has, at the same places, and the program, its manual page and its completions."""
        content = {name for name, data in tree(self.unpacked).items() if data is not None}
        sources = {name for name, data in self.before.items() if data is not None and not name.startswith("packaging/")}
        completions = {"share/bash-completion/completions/binlogfeed", "share/zsh/vendor-completions/_binlogfeed"}
        self.assertEqual(content - sources, {"binlogfeed", "libexec/binlogfeed", "share/man/man1/binlogfeed.1.gz", *completions})
        for name in sources:
            self.assertEqual((self.unpacked / name).read_bytes(), self.before[name])
            self.assertEqual(os.access(self.unpacked / name, os.X_OK), os.access(TOP / name, os.X_OK), name)


class Debian(Package):
    """The .deb."""

    def test_commands(self):
        documents = self.room / "deb/usr/share/doc/binlogfeed"
        self.judge_program(self.command, self.program, documents)
        packages = str(self.room / "deb/usr/lib/python3/dist-packages")
        path = f"{self.command.parent}:{BARE['PATH']}"
        self.judge_python([sys.executable], documents, PYTHONPATH=packages, PATH=path)

    @unittest.skipUnless(os.access("/usr/bin/python3", os.X_OK), "there is no /usr/bin/python3 (apt-get install python3)")
    def test_commands_in_python(self):
        self.judge_commands(self.command, self.program, self.room / "deb/usr/share/doc/binlogfeed")

    def test_fields(self):
        wanted = {"Package": "binlogfeed", "Version": self.version(), "Architecture": "amd64"}
        wanted |= {"Recommends": "python3 (>= 3.9)", "Suggests": "python3-pymysql"}
        told = ran(["dpkg-deb", "--field", self.deb, *wanted])
        self.assertEqual(dict(line.split(": ") for line in told.splitlines()), wanted)

    def test_owners_and_modes(self):
        """All is root's, all may be read, and what runs may be run."""
        lines = ran(["dpkg-deb", "--contents", self.deb]).splitlines()
        runs = [line.split()[5] for line in lines if line.startswith("-rwxr-xr-x root/root ")]
        own = {"./usr/bin/binlogfeed", "./usr/lib/binlogfeed/binlogfeed", "./usr/lib/binlogfeed/whole_lines.py"}
        self.assertLessEqual(own, set(runs))
        for line in lines:
            self.assertRegex(line, r"^(drwxr-xr-x|-rw[x-]r-[x-]r-[x-]) root/root ")

    def test_bytecode_goes(self):
        """An upgrade takes the old bytecode away, which has the time of the new sources."""
        ran(["dpkg-deb", "--control", self.deb, self.room / "control"])
        self.assertEqual({path.name for path in (self.room / "control").iterdir()}, {"control", "postinst", "prerm"})
        installed = self.room / "installed"
        shutil.copytree(self.room / "deb/usr/lib/python3/dist-packages", installed)
        shutil.copytree(self.room / "deb/usr/lib/binlogfeed", installed / "lib")
        before = tree(installed)
        for folder in {path.parent for path in installed.rglob("*.py")}:
            (folder / "__pycache__").mkdir()
            (folder / "__pycache__/reader.pyc").touch()
        script = (self.room / "control/prerm").read_text(encoding="utf-8")
        script = script.replace("/usr/lib/python3/dist-packages", str(installed)).replace("/usr/lib/binlogfeed", f"{installed}/lib")
        ran(["sh", "-c", script])
        self.assertEqual(tree(installed), before)
        for name in ("postinst", "prerm"):
            self.assertTrue(os.access(self.room / "control" / name, os.X_OK))
        # Nothing is installed here that it could compile: it does nothing, and ends well.
        ran([self.room / "control/postinst", "configure"], env={"PATH": ""})

    def test_documents(self):
        documents = self.room / "deb/usr/share/doc/binlogfeed"
        self.assertIn("licence", (documents / "copyright").read_text(encoding="utf-8"))
        for name in ("README.md", "docs/USAGE.md", "docs/FORMAT.md", "examples/service/README.md"):
            self.assertEqual((documents / name).read_bytes(), (TOP / name).read_bytes())
        # From there the README has the examples copied.
        self.assertIn("`cp -r /usr/share/doc/binlogfeed/examples .`", README)
        self.assertEqual(tree(documents / "examples"), tree(self.checkout / "examples"))

    def test_unit(self):
        """The unit names what the package brings, and apart from these paths it is that of examples/service."""
        unit = (self.room / "deb/usr/lib/systemd/system/binlogfeed-follow.service").read_text(encoding="utf-8")
        self.assertNotRegex(unit, "/opt|/usr/local|PYTHONPATH|env python3")
        own = re.findall(r"/usr/[\w/.-]*binlogfeed[\w/.-]*", unit)
        self.assertIn("/usr/bin/binlogfeed", own)
        for path in own:
            self.assertTrue((self.room / f"deb{path}").exists(), path)
        original = (TOP / "examples/service/binlogfeed-follow.service").read_text(encoding="utf-8")
        pairs = [(old, new) for old, new in zip(original.splitlines(), unit.splitlines()) if old != new]
        self.assertEqual((len(pairs), original.count("\n")), (6, unit.count("\n")))

    @unittest.skipUnless(shutil.which("systemd-analyze"), "there is no systemd-analyze (apt-get install systemd)")
    def test_systemd_takes_the_unit(self):
        if not os.access("/usr/bin/python3", os.X_OK):
            self.skipTest("there is no /usr/bin/python3, which the unit names (apt-get install python3)")
        unit = self.room / "deb/usr/lib/systemd/system/binlogfeed-follow.service"
        shown = Path(shutil.copy2(unit, self.room))
        shown.write_text(shown.read_text().replace("/usr/lib/binlogfeed", str(self.room / "deb/usr/lib/binlogfeed")))
        self.assertEqual(ran(["systemd-analyze", "verify", shown]), "")


@unittest.skipUnless(importlib.util.find_spec("ensurepip"), "there is no ensurepip (apt-get install python3-venv)")
class Installed(Package):
    """What pip installs, into a fresh venv that nobody has activated. Nothing is downloaded."""

    @classmethod
    def setUpClass(cls):
        """Makes the venv."""
        super().setUpClass()
        cls.venv = cls.room / "venv"
        ran([sys.executable, "-m", "venv", cls.venv], env=USUAL)
        cls.python = [cls.venv / "bin/python"]

    def pip(self, *words):
        """Runs pip."""
        command = [*self.python, "-m", "pip", "--quiet", "--no-input", "--disable-pip-version-check", *words]
        return ran(command, env={**USUAL, "PIP_NO_INDEX": "1", "PIP_ROOT_USER_ACTION": "ignore"}, cwd=self.room)

    def install(self, *words):
        """Installs a package for the time of a test."""
        self.pip("install", "--no-deps", "--force-reinstall", *words)

    def libexec(self):
        """The folder of the program, in the venv."""
        code = "import sysconfig; print(sysconfig.get_path('platlib'))"
        return Path(ran([*self.python, "-c", code], env=BARE).strip(), "binlogfeed/libexec")

    def tearDown(self):
        """Takes it away again."""
        subprocess.run([*self.python, "-m", "pip", "uninstall", "--yes", "binlogfeed"], capture_output=True, check=False)

    def test_wheel(self):
        empty = set(tree(self.venv))
        self.install(self.wheel)
        command, program = self.venv / "bin/binlogfeed", self.libexec() / "binlogfeed"
        self.judge_program(command, program, TOP)
        self.judge_python(self.python, TOP)
        self.judge_commands(command, program, TOP)
        self.pip("check")
        self.pip("uninstall", "--yes", "binlogfeed")
        self.assertEqual({name for name in tree(self.venv) if "__pycache__" not in name} - empty, set())

    def test_sources(self):
        """The sources leave nothing beside them when they are installed, and find the program on PATH."""
        for words in (["--no-build-isolation"], ["--editable"], []):
            self.install(*words, self.checkout / "python")
            self.assertEqual(tree(self.checkout), self.before, words)
            self.judge_python(self.python, TOP, PATH=f"{self.command.parent}:{BARE['PATH']}")
        place = ran([*self.python, "-c", "print(__import__('binlogfeed').__file__)"], env=BARE)
        self.assertTrue(Path(place).is_relative_to(self.venv), place)

    def test_package_of_sources(self):
        """An archive of the sources can be made, and is enough to install them."""
        code = "import sys; sys.dont_write_bytecode = True; import backend; print(backend.build_sdist(sys.argv[1]))"
        name = ran([sys.executable, "-c", code, self.room], cwd=self.checkout / "python", env=USUAL).strip()
        self.assertEqual(name, f"binlogfeed-{self.version()}.tar.gz")
        self.install(self.room / name)
        self.judge_python(self.python, TOP, PATH=f"{self.program.parent}:{BARE['PATH']}")

    def test_own_program_goes_first(self):
        """The program that was installed with the package goes before PATH's; a path is taken as it is."""
        self.install(self.wheel)
        other = self.room / "elsewhere"
        other.mkdir()
        (other / "binlogfeed").write_text("#!/bin/sh\nexit 9\n")
        (other / "binlogfeed").chmod(0o755)
        code = "from binlogfeed.program import found; print(found('binlogfeed'), found('./binlogfeed'), found('sh'))"
        shown = ran([*self.python, "-c", code], env={**BARE, "PATH": f"{other}:{BARE['PATH']}"}, cwd=other)
        self.assertEqual(shown.split(), [str(self.libexec() / "binlogfeed"), "./binlogfeed", "sh"])


def help_of(name):
    """The help of a subcommand, or of the command alone (`""`)."""
    command = [sys.executable, TOP / "python/command.py", PROGRAM, REPLICA, *name.split(), "--help"]
    return ran(command, env={**os.environ, "COLUMNS": "10000"})


def helps():
    """The options of each subcommand, and of the command alone (`""`), as its help has them."""
    def options(name):
        part = re.split(r"\n(?:Options|options|optional arguments):\n", help_of(name))[1].partition("\n\n")[0]
        return set(re.findall(r"(?m)^ {2}(?: {4}|-\w, )?(--[\w-]+)", part))

    part = help_of("").partition("\nCommands:\n")[2].partition("\n\n")[0]
    commands = re.findall(r"(?m)^ {2}(\w+) ", part)
    return {"": options(""), **{name: options(name) for name in commands if name != "help"}}


class FromHelp(Package):
    """The manual page and the completions, which are made from the help of the command."""

    @classmethod
    def setUpClass(cls):
        """Finds them in the .deb."""
        super().setUpClass()
        cls.helps = helps()
        share = cls.room / "deb/usr/share"
        cls.page = gzip.decompress((share / "man/man1/binlogfeed.1.gz").read_bytes()).decode()
        cls.bash = share / "bash-completion/completions/binlogfeed"
        cls.zsh = share / "zsh/vendor-completions/_binlogfeed"

    def test_helps(self):
        """The tests below see what there is to see."""
        self.assertLessEqual({"", *OF_PROGRAM, *IN_PYTHON}, set(self.helps))
        self.assertLessEqual({"--help", "--from", "--only-tables", "--follow"}, self.helps["read"])
        self.assertLessEqual({"--help", "--state", "--begin", "--profile"}, self.helps["follow"])
        self.assertLessEqual({"--help", "--columns", "--commit-every"}, self.helps["replica"])
        self.assertEqual(self.helps[""], {"--help", "--version"})

    def test_manual(self):
        """Each subcommand has its part, with all that its help says."""
        page = self.page
        for written, shown in {r"\-": "-", r"\(aq": "'", r"\(ga": "`", r"\(ha": "^", r"\(ti": "~", r"\&": ""}.items():
            page = page.replace(written, shown)
        for name, options in self.helps.items():
            part = page if not name else page.partition(f"\n.SH BINLOGFEED {name.upper()}\n")[2].partition("\n.SH ")[0]
            for option in options:
                self.assertRegex(part, rf"(?m)^\.TP\n\.B (-\w, )?{option}( <[\w|]+>)?\n\S")
            if name and name not in OF_PROGRAM:
                self.assertRegex(part, rf"\n\.B binlogfeed {name} \[OPTIONS\] ")
                self.assertNotIn("replica.py", part)
            for line in help_of(name).splitlines() if name in ["", *OF_PROGRAM] else []:
                if line not in ("Commands:", "Arguments:", "Options:"):
                    for piece in re.split(r" {2,}", line.removeprefix("Usage: ").strip()):
                        self.assertIn(piece.rstrip(":").lower(), part.lower())

    @unittest.skipUnless(shutil.which("man"), "there is no man (apt-get install man-db)")
    def test_man_takes_it(self):
        (self.room / "page.1").write_text(self.page)
        environment = {**BARE, "MANROFFSEQ": "", "MANWIDTH": "80"}
        words = ["--warnings", "--encoding=UTF-8", "--local-file", "--troff-device=utf8", "--ditroff"]
        self.assertIn("BINLOGFEED", ran(["man", *words, self.room / "page.1"], env=environment))

    @unittest.skipUnless(shutil.which("mandoc"), "there is no mandoc (apt-get install mandoc)")
    def test_mandoc_takes_it(self):
        (self.room / "page.1").write_text(self.page)
        self.assertEqual(ran(["mandoc", "-Tlint", "-Wwarning", self.room / "page.1"]), "")

    def offered(self, *words):
        """What the completion for bash offers for the last of these words."""
        listed = " ".join(map(shlex.quote, ["binlogfeed", *words]))
        script = f'COMP_WORDS=({listed}); COMP_CWORD={len(words)}; _binlogfeed; printf "%s\\n" "${{COMPREPLY[@]}}"'
        shown = ran(["bash", "--norc", "-uc", f"source {shlex.quote(str(self.bash))}; {script}"], env=BARE)
        return shown.split()

    def test_bash(self):
        self.assertEqual(self.offered("rea"), ["read"])
        self.assertEqual(self.offered("fo"), ["follow"])
        self.assertEqual(self.offered("read", "--on"), ["--only-events", "--only-tables", "--only-schemas"])
        self.assertEqual(set(self.offered("")), {*self.helps, "help", "-h", "--help", "--version"} - {""})
        self.assertEqual(set(self.offered("help", "")), {*self.helps, "help"} - {""})
        for name in self.helps.keys() - {""}:
            self.assertEqual(set(self.offered(name, "-")), {*self.helps[name], "-h"})
            self.assertEqual(set(self.offered(name, "FILE", "--")), self.helps[name])
        # Behind an option that takes a value there is nothing to offer, behind a flag there is.
        self.assertEqual(self.offered("read", "--from", "-"), [])
        self.assertIn("--from", self.offered("read", "--full", "-"))

    def test_zsh_has_all(self):
        text = self.zsh.read_text(encoding="utf-8")
        self.assertTrue(text.startswith("#compdef binlogfeed\n"))
        for name in [*self.helps.keys() - {""}, "help"]:
            self.assertRegex(text, rf"(?m)^    '?{name}:")
        for name in self.helps.keys() - {""}:
            part = re.search(rf"(?s)\n    {name}\)\n(.*?);;\n", text)[1]
            self.assertEqual(set(re.findall(r"(?m)^.*?'(?:\([^)]*\))?(--[\w-]+)[=\[]", part)), self.helps[name])
            self.assertIn("'*:file:_files'", part)

    def typed(self, shell, setup, line):
        """Types a line at a shell, behind others, and answers the words with which the program was run by it."""
        folder = Path(tempfile.mkdtemp(dir=self.room))
        (folder / "logs").mkdir()
        for name in ("logs/binlog.000001", "logs/two words"):
            (folder / name).touch()
        (folder / "binlogfeed").write_text("#!/bin/sh\nprintf '%s\\n' \"$@\" > ../words\n")
        (folder / "binlogfeed").chmod(0o755)
        environment = {**BARE, "PATH": f"{folder}:{BARE['PATH']}", "PS1": "ready> ", "TERM": "xterm"}
        parent, child = pty.openpty()
        options = {"stdin": child, "stdout": child, "stderr": child, "env": environment, "cwd": folder / "logs"}
        with running(shell, start_new_session=True, **options) as process:
            os.close(child)
            with open(parent, "r+b", buffering=0) as terminal:
                for text in (*setup, line, "exit"):
                    shown = b""
                    while b"ready> " not in shown:
                        shown += terminal.read(1024)
                    terminal.write(f"{text}\n".encode())
                process.wait()
        return (folder / "words").read_text(encoding="utf-8").splitlines()

    # What is typed, and what the program is then given. A tab completes.
    TYPED = (
        ("binlogfeed rea\t", ["read"]),
        ("binlogfeed fol\t--state binl\t", ["follow", "--state", "binlog.000001"]),
        ("binlogfeed tr\tbinl\t", ["transactions", "binlog.000001"]),
        ("binlogfeed read --fo\tbinl\t", ["read", "--follow", "binlog.000001"]),
        ("binlogfeed history --sch\tshop --k\t1 two\t", ["history", "--schema", "shop", "--key", "1", "two words"]),
    )

    def test_bash_at_a_terminal(self):
        shell, setup = ["bash", "--norc", "--noprofile", "-i"], [f"source {shlex.quote(str(self.bash))}"]
        for line, words in self.TYPED:
            self.assertEqual(self.typed(shell, setup, line), words)
        # A value is no file.
        self.assertEqual(self.typed(shell, setup, "binlogfeed read --from binl\t"), ["read", "--from", "binl"])

    @unittest.skipUnless(shutil.which("zsh"), "there is no zsh (apt-get install zsh)")
    def test_zsh_at_a_terminal(self):
        setup = [f"fpath=({shlex.quote(str(self.zsh.parent))} $fpath); autoload -Uz compinit; compinit -u -D"]
        for line, words in self.TYPED:
            # zsh puts the = behind an option that has a value.
            joined = " ".join(words).replace("--schema ", "--schema=").replace("--key ", "--key=")
            self.assertEqual(" ".join(self.typed(["zsh", "-f", "-i"], setup, line)), joined)
