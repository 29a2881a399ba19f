"""What is said of common mistakes: by the commands, the reader and the replica."""
import errno
import os
import subprocess
import sys
import tempfile
from pathlib import Path
from unittest import mock

import logs
from binlogfeed import BinLogStreamReader, FileFault, LogFault, Place, TokenRefused, listed
from binlogfeed.filters import FILTERS
from binlogfeed.follow import write_state
from binlogfeed.faults import told
from binlogfeed.hints import hints_of
from binlogfeed.watch import Watch
from built.check import command
from built.terminal import LOGS, lay_out, run_at_terminal
from support import PROGRAM, SHOP, TOP, without_beginning
from test_follow import ENVIRONMENT, ServerTest, line, log

REPLICA = TOP / "examples/replica/replica.py"
# Taken from root, so that it may list only what the folder's mode lets it, as any other user.
AS_OTHERS = ["setpriv", "--bounding-set", "-dac_override,-dac_read_search"] if os.geteuid() == 0 else []


class CommandTest(ServerTest):
    """A test of a command that ends."""

    def run_command(self, *words, before=(), **options):
        """The status of a command, its output, and what it says but for where it began."""
        words = [*before, sys.executable, *map(str, words)]
        ended = subprocess.run(words, env=ENVIRONMENT, capture_output=True, check=False, cwd=self.folder, **options)
        return ended.returncode, ended.stdout, without_beginning(ended.stderr.decode())

    def follow(self, *words, **options):
        """A run of `follow` that ends."""
        return self.run_command("-m", "binlogfeed", "follow", "--once", "--state", self.state, "--program", PROGRAM, *words, **options)


class OneTransaction(CommandTest):
    """A server's folder with a log of one transaction."""

    def setUp(self):
        """Makes it."""
        super().setUp()
        self.log("binlog.000001", log(1))
        self.index("binlog.000001")


class Folders(OneTransaction):
    """Folders that aren't there, or may not be listed."""

    def closed(self, mode):
        """The folder with this mode, until the test ends."""
        self.data.chmod(mode)
        self.addCleanup(self.data.chmod, 0o700)

    def test_a_folder_without_rights(self):
        self.closed(0o300)
        said = f"binlogfeed: can't list {self.data}: Permission denied\n"
        for place in (self.data, f"{self.data}/binlog.0*"):
            self.assertEqual(self.follow(place, before=AS_OTHERS), (4, b"", said))
        read = "import sys; from binlogfeed import BinLogStreamReader as R; list(R(sys.argv[1], program=sys.argv[2]))"
        for place in (self.data, f"{self.data}/binlog.0*"):
            status, _, text = self.run_command("-c", read, place, PROGRAM, before=AS_OTHERS)
            self.assertEqual((status, text.splitlines()[-1]), (1, f"binlogfeed.faults.FileFault: {said[:-1]}"))

    def test_a_folder_below_one_without_rights(self):
        self.data.parent.chmod(0o600)
        self.addCleanup(self.folder.chmod, 0o700)
        say = "import sys; from binlogfeed import listed; listed(sys.argv[1])"
        ended = subprocess.run(
            [*AS_OTHERS, sys.executable, "-c", say, f"{self.data}/binlog.0*"], env=ENVIRONMENT, capture_output=True, text=True, check=False
        )
        wanted = f"binlogfeed.faults.FileFault: binlogfeed: can't list {self.data}: Permission denied"
        self.assertEqual(ended.stderr.splitlines()[-1], wanted)

    def test_typos(self):
        """In the name of a folder, and in that of the logs, for a reader that ends with the logs."""
        for place, said in (
            (f"{self.folder}/dtaa/binlog.0*", f"can't list {self.folder}/dtaa: No such file or directory"),
            (f"{self.data}/bnilog.0*", f"no log matches {self.data}/bnilog.0*"),
            (f"{self.data}/bnilog.index", f"cannot open {self.data}/bnilog.index: No such file or directory"),
        ):
            with self.subTest(place=place), self.assertRaises(FileFault) as caught:
                list(BinLogStreamReader(place, program=PROGRAM))
            self.assertEqual(caught.exception.line, f"binlogfeed: {said}")
        self.index()
        with self.assertRaises(FileFault) as caught:
            list(BinLogStreamReader(self.data, program=PROGRAM))
        self.assertEqual(caught.exception.line, f"binlogfeed: there is no log in {self.data}")

    def test_a_pattern_without_quotes(self):
        for words in (("-m", "binlogfeed", "follow", "--state", self.state), (REPLICA, "sqlite:x", "shop")):
            status, out, said = self.run_command(*words, "binlog.000001", "binlog.000002")
            self.assertEqual((status, out), (2, b""))
            self.assertIn("error: LOGS is one index, folder or pattern, and here are 2 words: put a pattern in quotes\n", said)

    def test_an_index_without_its_last_line_feed(self):
        """As a person writes it. A name that is still being written is none of a log that is there."""
        self.log("binlog.000002", log(2))
        index = self.data / "binlog.index"
        for text, wanted in (("./binlog.000001\n./binlog.000002", 2), ("./binlog.000001\n./binlog.00000", 1), ("./binlog.000001\n./binlog.000003", 1)):
            index.write_text(text)
            self.assertEqual([path.name for path in listed(self.data)], ["binlog.000001", "binlog.000002"][:wanted])


class Outputs(OneTransaction):
    """Outputs and states that can't be written."""

    def test_a_full_output(self):
        words = [sys.executable, "-m", "binlogfeed", "follow", "--once", "--state", self.state, "--program", PROGRAM, self.data]
        with open("/dev/full", "wb") as full:
            ended = subprocess.run(words, env=ENVIRONMENT, stdout=full, stderr=subprocess.PIPE, text=True, check=False)
        said = "binlogfeed: can't write the output: No space left on device\n"
        self.assertEqual((ended.returncode, without_beginning(ended.stderr)), (4, said))
        self.assertFalse(self.state.exists())
        self.assertEqual(self.follow(self.data)[1], line(1, 153, "binlog.000001"))

    def test_a_full_state(self):
        full = OSError(errno.ENOSPC, os.strerror(errno.ENOSPC))
        with mock.patch("os.fsync", side_effect=full), self.assertRaises(FileFault) as caught:
            write_state(self.state, Place("binlog.000001"))
        self.assertEqual(caught.exception.line, f"binlogfeed: can't write {self.state}, which keeps the place: No space left on device")

    def test_a_state_in_no_folder(self):
        status, _, said = self.follow(self.data, "--state", "none/state")
        wanted = "binlogfeed: can't write none/state.lock, beside what keeps the place: No such file or directory\n"
        self.assertEqual((status, said), (4, wanted))


class Hints(CommandTest):
    """What stands below an error's line."""

    def test_the_programs_own(self):
        """Each error has the hints that the program gives at a terminal."""
        for name, fault, hint in LOGS:
            with self.subTest(name=name, fault=fault), tempfile.TemporaryDirectory() as room:
                lay_out(Path(room))
                path = Path(room, "logs", name)
                with self.assertRaises(LogFault) as caught:
                    list(BinLogStreamReader([path], program=PROGRAM, profile="strict"))
                self.assertEqual(hints_of(caught.exception), [hint[:-1], f"the file is {path}"])
                self.assertEqual(caught.exception.line, f"binlogfeed: log fault at {name}:{fault}")
        path = self.put("log", logs.A)
        for token in ("154.1@log", "153.9@log", "153.1@other"):
            said = run_at_terminal(Path(PROGRAM), command(["read", "--from", token, "log"]), self.folder).stderr.decode()
            with self.assertRaises(TokenRefused) as caught:
                list(BinLogStreamReader([path], program=PROGRAM, resume=token))
            self.assertEqual([f"hint: {hint}" for hint in hints_of(caught.exception)], said.splitlines()[1:])
            self.assertEqual(len(hints_of(caught.exception)), 1)

    def test_lines_and_hints(self):
        """What the program says is parted into the wrapper's lines, its own and the hints, whatever a file's name has."""
        line, wrapper = "binlogfeed: log fault at a:1: Xa:0: BadMagic", "binlogfeed: built in 900 seconds"
        fault = told(f"{wrapper}\n{line}\nhint: it is an index\nhint: the file is /b/a:1: Xa", 1)
        self.assertIsInstance(fault, LogFault)
        self.assertEqual((fault.file, fault.position, fault.what), ("a:1: Xa", 0, "BadMagic"))
        self.assertEqual(fault.line, line)
        self.assertEqual(fault.hints, ("it is an index", "the file is /b/a:1: Xa"))
        line, wrong = "binlogfeed: command line refused", "unexpected argument '--ful' found"
        refused = told(f"{line}\nerror: {wrong}\n\n  tip: there is --full\n\nTry 'binlogfeed --help'", 2)
        self.assertEqual((refused.line, refused.hints), (line, (wrong,)))
        plain = told("binlogfeed: cannot open a", 4)
        self.assertEqual((plain.line, plain.hints), ("binlogfeed: cannot open a", ()))

    def test_follow(self):
        """No terminal is needed."""
        self.log("binlog.000001", logs.appended(log(1), logs.event(40)))
        self.index("binlog.000001")
        hint = "the transaction is compressed: set binlog_transaction_compression=OFF, and begin with a new file (FLUSH BINARY LOGS)"
        said = f"binlogfeed: log fault at binlog.000001:371: KindOutOfProfile(40)\nhint: {hint}\nhint: the file is {self.data}/binlog.000001\n"
        self.assertEqual(self.follow(self.data), (1, line(1, 153, "binlog.000001"), said))
        self.log("binlog.000001", logs.appended(log(), logs.event(40)))
        said = said.replace(":371:", ":153:")
        self.assertEqual(self.run_command(REPLICA, "--program", PROGRAM, "sqlite:x", "s", self.data), (1, b"", said))

    def test_reader(self):
        """A fault has its file's path, over a list and over a folder, so that its hints can be had."""
        path = self.put("packed.000001", b"\x1f\x8b\x08\0")
        for files in ([path], f"{self.folder}/packed.0*"):
            with self.assertRaises(LogFault) as caught:
                list(BinLogStreamReader(files, program=PROGRAM))
            self.assertEqual(caught.exception.path, path)
            self.assertEqual(hints_of(caught.exception)[0], "it is a file that gzip has packed: unpack it")

    def test_filters(self):
        """The help of the commands says of each filter what the program's own does."""
        theirs = subprocess.run([PROGRAM, "read", "--help"], capture_output=True, text=True, check=True).stdout
        for name, told in FILTERS.items():
            self.assertRegex(theirs, rf"(?im)^ +--{name} <[A-Z]+> +{told}$")
        ours = subprocess.run([sys.executable, "-m", "binlogfeed", "follow", "--help"], env=ENVIRONMENT, capture_output=True, text=True, check=True)
        words = " ".join(ours.stdout.split())
        for name, told in FILTERS.items():
            self.assertRegex(words, f"--{name} [A-Z]+ {told}")

    def test_files_that_are_no_logs(self):
        """Their first bytes tell what they are."""
        for front, told in (
            (b"\x1f\x8b\x08\0", "gzip"),
            (b"\x28\xb5\x2f\xfd", "zstd"),
            (b"\xfd7zXZ\0", "xz"),
            (b"BZh9", "bzip2"),
            (b"\xfdbin\1", "an encrypted log"),
            (b"./binlog.000001\n./binlog.000002\n", "an index"),
            (b"/var/lib/mysql/binlog.000001\n", "an index"),
            (b"Hello, here is binlog 1\n", "no binary log"),
        ):
            with self.subTest(told=told):
                self.log("binlog.000001", front)
                status, _, said = self.follow(f"{self.data}/binlog.0*", "--state", self.folder / told.replace(" ", ""))
                self.assertEqual((status, said.splitlines()[0]), (1, "binlogfeed: log fault at binlog.000001:0: BadMagic"))
                self.assertIn(told, said.splitlines()[1])

    def test_a_log_that_cannot_be_opened(self):
        """The system says why."""
        watch = Watch([self.folder / "none"], [PROGRAM, "read", "--follow"], Place())
        self.addCleanup(watch.end)
        with self.assertRaises(FileFault) as caught:
            list(watch.look())
        self.assertEqual(hints_of(caught.exception), ["No such file or directory"])


class Schemas(CommandTest):
    """A schema that the replica finds nowhere."""

    def replica(self, schema, *words):
        """A run of the replica."""
        return self.run_command(REPLICA, "--program", PROGRAM, "sqlite:shop.db", schema, SHOP[0].parent / "binlog.*", *words)

    def rows(self):
        """How many customers the target has."""
        code = "import sqlite3; print(sqlite3.connect('shop.db').execute('select count(*) from customer').fetchone()[0])"
        return self.run_command("-c", code)[1]

    def test_a_typo(self):
        """It is told before the place moves, so that the right name brings all rows."""
        made = "import sqlite3, sys; sqlite3.connect('shop.db').executescript(open(sys.argv[1]).read())"
        self.run_command("-c", made, TOP / "examples/replica/shop.sql")
        said = "replica: no log has a change of the schema shpo, but of shop: mend the name, or begin with --begin now\n"
        self.assertEqual(self.replica("shpo"), (2, b"", said))
        self.assertEqual(self.rows(), b"0\n")
        self.assertEqual(self.replica("shop"), (0, b"", ""))
        self.assertEqual(self.rows(), b"2\n")

    def test_a_schema_that_has_no_change_yet(self):
        self.assertEqual(self.replica("new", "--begin", "now"), (0, b"", ""))
        self.assertEqual(self.replica("new"), (0, b"", ""))

    def test_logs_without_changes(self):
        """They know no schema."""
        self.log("binlog.000001", log())
        status, _, said = self.run_command(REPLICA, "--program", PROGRAM, "sqlite:x.db", "shpo", f"{self.data}/binlog.0*")
        self.assertEqual((status, said), (0, ""))
