"""Where `follow`, the reader and the replica begin: with the first log, now, with a log that is named, or behind a token."""
import json
import subprocess
import sys
import time

import logs
from binlogfeed import BinLogStreamReader, TokenRefused, WordsRefused
from binlogfeed.follow import read_state
from support import PROGRAM, SECONDS, SHOP, TOP, FolderTest, running
from test_follow import ENVIRONMENT, ServerTest, line, log

REPLICA = TOP / "examples/replica/replica.py"
NAMES = ("binlog.000001", "binlog.000002")


class Begins(ServerTest):
    """The command `follow`."""

    def setUp(self):
        """Two logs, the second of two transactions."""
        super().setUp()
        self.log(NAMES[0], log(1, following=NAMES[1]))
        self.log(NAMES[1], log(2, 3))
        self.index(*NAMES)

    def command(self, *words):
        """The command with some words."""
        command = [sys.executable, "-m", "binlogfeed", "follow", "--program", PROGRAM, "--state", str(self.state), *words]
        return [*command, str(self.data)]

    def once(self, *words):
        """The status of a run that ends, its lines, and what it says."""
        ended = subprocess.run(self.command("--once", *words), env=ENVIRONMENT, capture_output=True, check=False)
        return ended.returncode, ended.stdout, ended.stderr.decode()

    def test_places(self):
        """What is said once, and the lines from there on."""
        lines = [line(1, 153, NAMES[0]), line(2, 153, NAMES[1]), line(3, 371, NAMES[1])]
        for words, said, first in (
            ((), f"begins with {NAMES[0]}, the first log", 0),
            (("--begin", "first"), f"begins with {NAMES[0]}, the first log", 0),
            (("--begin", NAMES[0]), f"begins with {NAMES[0]}", 0),
            (("--begin", NAMES[1]), f"begins with {NAMES[1]}", 1),
            (("--begin", f"/var/lib/mysql/{NAMES[1]}"), f"begins with {NAMES[1]}", 1),
            (("--begin", f"371.0@{NAMES[0]}"), f"begins behind 371.0@{NAMES[0]}", 1),
            (("--begin", f"153.1@{NAMES[1]}"), f"begins behind 153.1@{NAMES[1]}", 2),
            (("--begin", "now"), f"begins behind 589.0@{NAMES[1]}, the logs' end by now", 3),
        ):
            with self.subTest(words=words):
                self.state.unlink(missing_ok=True)
                self.assertEqual(self.once(*words), (0, b"".join(lines[first:]), f"binlogfeed: {said}\n"))
                # A place that is kept goes before.
                kept = read_state(self.state)
                again = f"binlogfeed: goes on behind {kept.token}, as {self.state} has it\n"
                self.assertEqual(self.once(*words), (0, b"", again))

    def test_a_log_without_changes(self):
        """What is kept has no token of this log."""
        self.log(NAMES[1], log())
        self.once()
        self.assertEqual(self.once(), (0, b"", f"binlogfeed: goes on in {NAMES[1]}, as {self.state} has it\n"))

    def test_now_within_a_transaction(self):
        """One that is written later is given, and the place is kept before the program is asked for lines."""
        self.log(NAMES[1], log(2, 3)[:-1])
        self.assertEqual(self.once("--begin=now")[:2], (0, b""))
        self.log(NAMES[1], log(2, 3, 4))
        self.assertEqual(self.once("--begin=now")[:2], (0, line(3, 371, NAMES[1]) + line(4, 589, NAMES[1])))

    def test_now_is_kept_at_once(self):
        """A kill before the first line loses nothing."""
        slow = self.stub(f'if [ "$1" = read ]; then exec sleep {SECONDS}; fi\nexec {PROGRAM} "$@"')
        with running(self.command("--begin=now", "--program", slow), env=ENVIRONMENT, stderr=subprocess.DEVNULL) as process:
            until = time.monotonic() + SECONDS / 2
            while not self.state.exists() and time.monotonic() < until:
                time.sleep(0.01)
            process.kill()
        self.assertEqual(read_state(self.state).token, f"589.0@{NAMES[1]}")

    def test_now_where_no_log_is_yet(self):
        """All that comes comes later."""
        pattern = f"{self.folder}/data/new.0*"
        self.assertEqual(self.in_words(pattern), b"")
        self.assertFalse(self.state.exists())
        # A run that goes on gives what comes.
        command = [*self.command("--interval=0.01", "--begin=now")[:-1], pattern]
        with running(command, env=ENVIRONMENT, stdout=subprocess.PIPE, stderr=subprocess.PIPE) as process:
            self.assertIn(b"no log matches", process.stderr.readline())
            self.log("new.000001", log(1))
            self.assertEqual(process.stdout.readline(), line(1, 153, "new.000001"))
            process.kill()

    def in_words(self, pattern):
        """What a run over a pattern prints that begins now."""
        command = [*self.command("--once", "--begin=now")[:-1], pattern]
        return subprocess.run(command, env=ENVIRONMENT, capture_output=True, check=True).stdout

    def test_a_log_that_is_not_there(self):
        """No place is kept then, so that another one can be named."""
        said = f"binlogfeed: can't begin with binlog.000009: the logs are {NAMES[0]} to {NAMES[1]}\n"
        for word in ("binlog.000009", "4.0@binlog.000009"):
            self.assertEqual(self.once("--begin", word), (2, b"", said))
            self.assertFalse(self.state.exists())
        self.assertEqual(self.once("--begin", f"5.1@{NAMES[1]}")[0], 3)
        self.assertFalse(self.state.exists())
        self.assertEqual(self.once("--begin", NAMES[1])[0], 0)


class Reader(FolderTest):
    """The reader's argument `begin`."""

    def tokens(self, **options):
        """The tokens of the shop's events."""
        return [event.token for event in BinLogStreamReader(SHOP, program=PROGRAM, together=False, **options)]

    def test_places(self):
        wanted = self.tokens()
        second = [token for token in wanted if token.endswith("2")]
        self.assertEqual(self.tokens(begin="first"), wanted)
        self.assertEqual(self.tokens(begin="binlog.000002"), second)
        self.assertEqual(self.tokens(begin=wanted[4]), wanted[5:])
        self.assertEqual(self.tokens(begin="now"), [])
        # What was kept goes before.
        for begin in ("first", "now", "binlog.000002", wanted[2]):
            self.assertEqual(self.tokens(begin=begin, resume=wanted[4]), wanted[5:])

    def test_now(self):
        self.put("binlog.000001", logs.worked_log(2))
        events = BinLogStreamReader(f"{self.folder}/binlog.0*", program=PROGRAM, blocking=True, begin="now", interval=0.01)
        self.in_time(events.close)
        self.addCleanup(events.close)

        with self.once_it_waits(self.write_on, "binlog.000001", logs.worked_log(3)):
            self.assertEqual(next(events).token, "589.1@binlog.000001")

    def test_it_is_logged(self):
        with self.assertLogs("binlogfeed", "INFO") as caught:
            next(BinLogStreamReader(SHOP[0], program=PROGRAM, blocking=True))
        self.assertEqual(caught.output, ["INFO:binlogfeed:begins with binlog.000001, the first log"])

    def test_refused(self):
        with self.assertRaises(WordsRefused):
            self.tokens(begin="binlog.000003")
        with self.assertRaises(TokenRefused):
            self.tokens(begin="5.1@binlog.000001")
        for others in ({"log_file": "binlog.000001"}, {"resume_stream": True, "blocking": True}):
            with self.assertRaises(ValueError):
                self.tokens(begin="first", **others)


class Replica(FolderTest):
    """The replica's option."""

    def test_places(self):
        made = "import sqlite3, sys; sqlite3.connect(sys.argv[1]).executescript(open(sys.argv[2]).read())"
        words = ["--program", PROGRAM, "shop", str(SHOP[0].parent / "binlog.*")]
        kept = "SELECT place FROM binlogfeed_place"
        show = f"import sqlite3, sys; print(sqlite3.connect(sys.argv[1]).execute({kept!r}).fetchone()[0])"
        for begin, status, said, file in (
            ("now", 0, "begins behind 2450.0@binlog.000002, the logs' end by now", "binlog.000002"),
            ("2450.0@binlog.000002", 0, "begins behind 2450.0@binlog.000002", "binlog.000002"),
            ("first", 0, "begins with binlog.000001, the first log", "binlog.000002"),
            ("binlog.000003", 2, None, None),
        ):
            with self.subTest(begin=begin):
                target = self.folder / f"{begin}.db"
                subprocess.run([sys.executable, "-c", made, target, TOP / "examples/replica/shop.sql"], check=True)
                command = [sys.executable, REPLICA, f"sqlite:{target}", *words, "--begin", begin]
                ended = subprocess.run(command, capture_output=True, text=True, check=False)
                self.assertEqual(ended.returncode, status, ended.stderr)
                if said:
                    self.assertEqual(ended.stderr, f"replica: {said}\n")
                place = subprocess.run([sys.executable, "-c", show, target], capture_output=True, text=True, check=True).stdout.strip()
                self.assertEqual(json.loads(place)["file"] if place else None, file)
