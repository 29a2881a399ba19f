"""What ends `follow`, readers and the replica: a program that was killed, SIGTERM, and options that are none."""
import argparse
import contextlib
import json
import math
import os
import signal
import sqlite3
import subprocess
import sys
import threading
import time
from functools import partial
from unittest import mock

import logs
from binlogfeed import BinLogStreamReader, FileFault, Place, ProgramFailed, files
from binlogfeed import watch as watching
from binlogfeed.follow import read_state
from binlogfeed.options import lag_seconds, whole_number
from binlogfeed.watch import Watch
from support import PROGRAM, SECONDS, SHOP, TOP, FolderTest, running
from test_follow import ENVIRONMENT, ServerTest, line, log

REPLICA = TOP / "examples/replica/replica.py"
# A killed program is to be noticed so soon. These tests may run on busy machines, so they allow some seconds more.
NOTICED = 2.0
LATE = 8.0


class CommandTest(ServerTest):
    """A test of the command `follow`."""

    def setUp(self):
        """A log of one transaction."""
        super().setUp()
        self.index("binlog.000001")
        self.log("binlog.000001", log(1))

    def follow(self, *words, program=PROGRAM, code=None, **options):
        """Runs the command, and gives its process."""
        begins = ["-c", code] if code else ["-m", "binlogfeed"]
        command = [sys.executable, *begins, "follow", "--program", program, "--state", str(self.state), *words, str(self.data)]
        return running(command, env=ENVIRONMENT, stdout=subprocess.PIPE, stderr=subprocess.PIPE, **options)

    def noted(self):
        """The program, and a file that has its process."""
        return self.stub(f'echo $$ > {self.folder}/process\nexec {PROGRAM} "$@"')

    def kill(self):
        """Kills the program that was started last."""
        os.kill(int((self.folder / "process").read_text()), signal.SIGKILL)


class Killed(CommandTest):
    """A program that is killed while the logs are quiet."""

    def test_follow(self):
        """It is noticed long before the next look, with the place kept and a status that the service is started again for."""
        with self.follow("--interval", "60", program=self.noted()) as process:
            self.assertEqual(process.stdout.readline(), line(1, 153, "binlog.000001"))
            self.soon(self.state.exists)
            killed = time.monotonic()
            self.kill()
            said = process.communicate(timeout=SECONDS / 2)[1]
        self.assertLess(time.monotonic() - killed, NOTICED + LATE)
        self.assertEqual((process.returncode, said.splitlines()[-1]), (128 + 9, b"binlogfeed: the program ended with status -9"))
        self.assertEqual(read_state(self.state).token, "153.1@binlog.000001")
        unit = (TOP / "examples/service/binlogfeed-follow.service").read_text(encoding="utf-8")
        self.assertRegex(unit, r"(?m)^RestartForceExitStatus=.*\b137\b")

    def test_replica(self):
        self.log("binlog.000001", SHOP[0].read_bytes())
        target = self.folder / "shop.db"
        made = "import sqlite3, sys; sqlite3.connect(sys.argv[1]).executescript(open(sys.argv[2]).read())"
        subprocess.run([sys.executable, "-c", made, target, TOP / "examples/replica/shop.sql"], check=True)
        words = [f"sqlite:{target}", "shop", str(self.data), "--follow", "--interval", "60", "--program", self.noted()]
        with running([sys.executable, REPLICA, *words], stderr=subprocess.PIPE) as process:
            # The last transaction's place is kept behind the look.
            self.soon(lambda: "3506.2@" in self.kept(target))
            killed = time.monotonic()
            self.kill()
            process.communicate(timeout=SECONDS / 2)
        self.assertEqual(process.returncode, 128 + 9)
        self.assertLess(time.monotonic() - killed, NOTICED + LATE)

    def kept(self, target):
        """The place that a target in SQLite keeps, or none."""
        with contextlib.closing(sqlite3.connect(target, timeout=SECONDS)) as connection:
            try:
                return "".join(place for (place,) in connection.execute("SELECT place FROM binlogfeed_place"))
            except sqlite3.OperationalError:  # there is no such table yet
                return ""

    def test_reader(self):
        events = BinLogStreamReader(self.data, program=self.noted(), blocking=True, interval=60)
        self.in_time(events.close)
        self.addCleanup(events.close)
        next(events)
        killed = time.monotonic()
        self.kill()
        with self.assertRaises(ProgramFailed):
            next(events)
        self.assertLess(time.monotonic() - killed, NOTICED + LATE)

    def test_watch(self):
        """A look over quiet logs says it, too, and the next one goes on with a program of its own."""
        watch = Watch(str(self.data), [self.noted(), "read", "--follow"], Place())
        self.addCleanup(watch.end)
        self.in_time(watch.end)
        self.assertEqual(b"".join(watch.look()), line(1, 153, "binlog.000001"))
        self.assertEqual(list(watch.look()), [])
        self.kill()
        with self.assertRaises(ProgramFailed) as caught:
            until = time.monotonic() + SECONDS
            while time.monotonic() < until:
                list(watch.look())
        self.assertEqual(caught.exception.status, -9)
        self.log("binlog.000001", log(1, 2))
        self.assertEqual(b"".join(watch.look()), line(2, 371, "binlog.000001"))

    def test_a_program_that_ends_well(self):
        """It had no reason to."""
        watch = Watch(str(self.data), [self.stub("read line; read line; echo"), "read", "--follow"], Place())
        self.addCleanup(watch.end)
        self.assertEqual(list(watch.look()), [])
        with self.assertRaises(ProgramFailed) as caught:
            until = time.monotonic() + SECONDS
            while time.monotonic() < until:
                list(watch.look())
        self.assertEqual(caught.exception.line, "binlogfeed: the program ended before its input")

    def test_how_often(self):
        """Two seconds are promised, and a look at the program may come late."""
        self.assertLessEqual(watching.CHECK, NOTICED / 2)


class Locks(FolderTest):
    """The lock of who uses a file, for who comes when that one was killed."""

    def test_it_may_end_late(self):
        """What a killed process was starting has it for some milliseconds more."""
        self.assertGreaterEqual(files.PATIENCE, 0.5)
        path = self.folder / "lock"
        late = threading.Timer(0.1, files.locked(path, "").close)
        late.start()
        with mock.patch.object(files, "PATIENCE", SECONDS):
            files.locked(path, "it is in use").close()
        late.join()

    def test_refused(self):
        path = self.folder / "lock"
        with files.locked(path, ""), mock.patch.object(files, "PATIENCE", 0.1), self.assertRaises(FileFault) as caught:
            files.locked(path, "it is in use")
        self.assertEqual(caught.exception.line, "it is in use")
        files.locked(path, "it is in use").close()


class SharedPipe(FolderTest):
    """A pipe that another process has made one that doesn't block."""

    def test_it_is_full_for_a_while(self):
        """All is written, whether a full pipe is told by a fault, as `os.write` does, or by none, as a raw file does."""
        content = os.urandom(300_000)
        for is_raw in (False, True):
            with self.subTest(is_raw=is_raw):
                read, write = os.pipe()
                os.set_blocking(write, False)
                taken = []
                with open(read, "rb") as reader, open(write, "wb", buffering=0) as writer:
                    late = threading.Timer(0.1, lambda file=reader: taken.append(file.read(len(content))))
                    late.start()
                    files.write_all(writer.write if is_raw else partial(os.write, write), content, "the output")
                    late.join()
                self.assertEqual(taken, [content])


class FullPipe(CommandTest):
    """SIGTERM where nobody takes the lines."""

    def judge(self, count, grace):
        """Ends it in time. What it wrote and what comes behind the kept place are all lines."""
        self.log("binlog.000001", logs.worked_log(count))
        code = f"import sys; from binlogfeed import __main__ as main; main.GRACE = {grace}; sys.exit(main.main())"
        with self.follow(code=code) as process:
            first = process.stdout.readline()
            time.sleep(0.5)
            process.send_signal(signal.SIGTERM)
            self.assertEqual(process.wait(grace + LATE), 0)
            taken = first + process.stdout.read()
        token = read_state(self.state).token if self.state.exists() else None
        wanted = logs.change_lines(count, "binlog.000001")
        kept = 0
        if token:
            member = f'"token":"{token}"}}\n'.encode()
            kept = wanted.index(member) + len(member)
        # What is kept was written whole, and it stands at the beginning.
        self.assertTrue(wanted.startswith(taken))
        self.assertLessEqual(kept, len(taken))
        self.assertLess(len(taken), len(wanted))
        self.assertEqual(self.followed(), wanted[kept:])

    def test_within_a_write(self):
        self.judge(3_000, 0.2)

    def test_within_five_seconds(self):
        self.judge(3_000, 5.0)

    def test_the_place_behind_what_was_taken(self):
        """The lines of the write that waits come again, and those before it don't."""
        watch = Watch(str(self.data), [PROGRAM, "read", "--follow"], Place())
        self.addCleanup(watch.end)
        self.log("binlog.000001", logs.worked_log(2_000))
        look = watch.look()
        first, second = next(look), next(look)
        look.close()
        self.assertEqual(watch.place.token, json.loads(first.splitlines()[-1])["token"])
        self.assertEqual(next(iter(watch.look()))[:100], second[:100])


class Options(CommandTest):
    """Values that are none."""

    def test_seconds(self):
        for option in ("--interval", "--status"):
            for word in ("-1", "0", "nan", "inf", "1e300", "often", ""):
                with self.subTest(option=option, word=word), self.follow(option, word) as process:
                    out, said = process.communicate(timeout=SECONDS)
                wanted = f"error: argument {option}: a number of seconds above 0 is wanted, not {word!r}\n"
                self.assertEqual((process.returncode, out), (2, b""))
                self.assertTrue(said.decode().endswith(wanted), said)

    def test_words(self):
        """What the functions take that read an option's word."""
        seconds, whole = "a number of seconds is wanted, not {!r}", "a number from 1 to 64 is wanted, not {!r}"
        for takes, line, words in (
            (lag_seconds, seconds, ("-1", "nan", "inf", "1e300", "x", "")),
            (whole_number(64), whole, ("0", "-1", "65", "9" * 5000, "1.0", "x", "")),
        ):  # fmt: skip
            for word in words:
                with self.assertRaises(argparse.ArgumentTypeError) as caught:
                    takes(word)
                self.assertEqual(str(caught.exception), line.format(word))
        self.assertEqual([lag_seconds(word) for word in ("0", "0.0", "1e-3", "2")], [0.0, 0.0, 0.001, 2.0])
        self.assertEqual([whole_number(64)(word) for word in ("1", "7", "64")], [1, 7, 64])

    def test_replica(self):
        words = ["sqlite:x", "shop", "binlog.*", "--interval"]
        for word in ("0", "nan", "-1"):
            ended = subprocess.run([sys.executable, REPLICA, *words, word], capture_output=True, text=True, check=False, cwd=self.folder)
            self.assertEqual(ended.returncode, 2)
            self.assertIn(f"--interval: a number of seconds above 0 is wanted, not {word!r}", ended.stderr)
        self.assertFalse((self.folder / "x").exists())

    def test_reader(self):
        for interval in (0, -1, math.nan, math.inf):
            with self.assertRaises(ValueError) as caught:
                BinLogStreamReader("f", interval=interval)
            self.assertIn("interval: a number of seconds above 0", str(caught.exception))

