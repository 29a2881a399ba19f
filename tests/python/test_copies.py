"""Copies that others make of logs: mysqlbinlog writes its last one anew from the start. And lines that are held back for a while."""
import io
import math
import os
import signal
import subprocess
import sys
import threading
import time
from functools import partial
from unittest import mock

import logs
from binlogfeed import BinLogStreamReader, LogFault, LogLost, LogsGone, Place, TokenRefused
from binlogfeed import lag as lagging
from binlogfeed.begin import LOG
from binlogfeed.follow import read_state, write_state
from binlogfeed.lines import last_members
from binlogfeed.logs import beginning
from binlogfeed.watch import Watch
from support import PROGRAM, SECONDS, SHOP, TOP, FolderTest, running
from test_follow import ENVIRONMENT, ServerTest, line, log

FIRST, SECOND = "binlog.000001", "binlog.000002"
CUT = f"{FIRST} is shorter than what was read of it: waiting until it is as long again, as a new copy will be"


class Anew(ServerTest):
    """A log that is shorter than it was, and the last one."""

    def setUp(self):
        """A log of two transactions."""
        super().setUp()
        self.whole = log(1, 2)
        self.log(FIRST, self.whole)
        self.index(FIRST)

    def test_while_it_is_followed(self):
        """It grows again by some bytes at a time. Nothing comes twice, and nothing is missing."""
        out = io.BytesIO()
        follower = self.follower(out)
        follower.catch_up()
        wanted = line(1, 153, FIRST) + line(2, 371, FIRST)
        for step in (7, 100, 589):
            with self.assertLogs("binlogfeed", "WARNING") as caught:
                for end in (*range(0, len(self.whole), step), len(self.whole)):
                    self.log(FIRST, self.whole[:end])
                    follower.catch_up()
                    self.assertEqual(out.getvalue(), wanted)
            self.assertEqual(caught.output, [f"WARNING:binlogfeed:{CUT}"])
        self.log(FIRST, log(1, 2, 3))
        follower.catch_up()
        self.assertEqual(out.getvalue(), wanted + line(3, 589, FIRST))

    def test_begun_again(self):
        """A follower that is begun again at any length of the copy prints nothing, and keeps its place."""
        self.followed()
        kept = read_state(self.state)
        for end in (*range(0, len(self.whole), 31), len(self.whole) - 1):
            self.log(FIRST, self.whole[:end])
            with self.assertLogs("binlogfeed", "WARNING"):
                self.assertEqual(self.followed(), b"")
            self.assertEqual(read_state(self.state), kept)
        self.log(FIRST, log(1, 2, 3))
        self.assertEqual(self.followed(), line(3, 589, FIRST))

    def test_a_place_at_the_end_of_a_transaction(self):
        """The log is as long as that place says, so nothing is said; where it is shorter, it is waited for."""
        write_state(self.state, Place(FIRST, beginning(self.data / FIRST), f"589.0@{FIRST}"))
        follower = self.follower()
        with mock.patch.object(LOG, "warning") as said:
            follower.catch_up()
            said.assert_not_called()
            for end in (588, 300, 0):
                self.log(FIRST, self.whole[:end])
                follower.catch_up()
            said.assert_called_once()
        self.log(FIRST, log(1, 2, 3))
        follower.catch_up()
        follower.close()
        self.assertEqual(read_state(self.state).token, f"589.1@{FIRST}")

    def test_where_another_log_stands_behind_it(self):
        """It won't grow any more, so lines were given of what it lost."""
        follower = self.follower()
        follower.catch_up()
        self.log(SECOND, log(3))
        self.index(FIRST, SECOND)
        for end, errors in ((0, LogsGone), (100, LogsGone), (200, (LogLost, TokenRefused)), (588, (LogLost, TokenRefused))):
            self.log(FIRST, self.whole[:end])
            with self.subTest(end=end), self.assertRaises(errors):
                follower.catch_up()
        self.assertEqual(read_state(self.state).token, f"371.1@{FIRST}")

    def test_another_log(self):
        """One whose first event is another, and whole, is no copy of it."""
        self.followed()
        new = bytearray(self.whole)
        new[4:8] = (logs.TIME + 1).to_bytes(4, "little")
        self.log(FIRST, bytes(new[:200]))
        self.assertIn("another log has its name", self.gone())

    def test_a_token_by_hand(self):
        """Without a fingerprint nothing tells that it is of this log."""
        self.state.write_text(f'{{"token": "900.1@{FIRST}"}}')
        with self.assertRaises(TokenRefused):
            self.followed()

    def test_reader(self):
        """It waits, too, and a reader that doesn't wait gives nothing."""
        for files in (self.data, [self.data / FIRST]):
            self.log(FIRST, self.whole)
            with BinLogStreamReader(files, program=PROGRAM) as events:
                place = list(events) and events.place
            self.log(FIRST, b"")
            with self.assertLogs("binlogfeed", "WARNING"):
                self.assertEqual(list(BinLogStreamReader(files, program=PROGRAM, resume=place)), [])
            events = BinLogStreamReader(files, program=PROGRAM, resume=place, blocking=True, interval=0.01)
            self.in_time(events.close)
            with self.once_it_waits(self.log, FIRST, log(1, 2, 3)), self.assertLogs("binlogfeed", "WARNING"):
                self.assertEqual(next(events).token, f"589.1@{FIRST}")
            events.close()

    def test_command(self):
        """It says so once on standard error, and goes on."""
        words = ["--state", str(self.state), "--program", PROGRAM, "--interval", "0.01", str(self.data)]
        command = [sys.executable, "-m", "binlogfeed", "follow", *words]
        with running(command, env=ENVIRONMENT, stdout=subprocess.PIPE, stderr=subprocess.PIPE) as process:
            self.assertEqual([process.stdout.readline() for _ in range(2)], [line(1, 153, FIRST), line(2, 371, FIRST)])
            self.soon(self.state.exists)
            self.assertIn(b"begins with", process.stderr.readline())
            self.log(FIRST, b"")
            self.assertEqual(process.stderr.readline(), f"binlogfeed: {CUT}\n".encode())
            self.log(FIRST, log(1, 2, 3))
            self.assertEqual(process.stdout.readline(), line(3, 589, FIRST))
            process.send_signal(signal.SIGTERM)
            self.assertEqual((process.wait(SECONDS), process.stderr.read()), (0, b""))


class Lags(FolderTest):
    """Lines that are held back."""

    def watch(self, lag):
        """A watch of the folder's logs."""
        watch = Watch(f"{self.folder}/binlog.0*", [PROGRAM, "read", "--follow"], Place(), lag=lag)
        self.addCleanup(watch.end)
        self.in_time(watch.end)
        return watch

    def test_no_line_is_early(self):
        """While the log grows, each comes so late behind the moment at which it was written, and none is missing."""
        whole, lag, count = logs.worked_log(40), 0.3, 40
        self.put(FIRST, whole[:153])
        written = {}

        def write():
            for number in range(count):
                time.sleep(0.02)
                written[f"{153 + 218 * number}.1@{FIRST}"] = time.monotonic()
                self.write_on(FIRST, whole[: 153 + 218 * (number + 1)])

        thread = threading.Thread(target=write)
        watch, found = self.watch(lag), b""
        thread.start()
        until = time.monotonic() + SECONDS / 2
        while found.count(b"\n") < count and time.monotonic() < until:
            for block in watch.look():
                came = time.monotonic()
                for one in block.splitlines():
                    self.assertGreaterEqual(came - written[last_members(one + b"\n")["token"]], lag)
                found += block
            time.sleep(0.005)
        thread.join()
        self.assertEqual(found, logs.change_lines(count, FIRST))

    def test_what_was_there_waits_once(self):
        """All lines of a log that is there already wait for one lag, and not each block for its own."""
        self.put(FIRST, logs.worked_log(4_000))
        waits, wait = [], threading.Event.wait

        def noted(event, seconds=None):
            """Waits, and notes for how long."""
            waits.append(seconds)
            return wait(event, seconds)

        watch = self.watch(0.5)
        started = time.monotonic()
        with mock.patch.object(watch._lag._ended, "wait", partial(noted, watch._lag._ended)):
            blocks = list(watch.look())
        self.assertGreaterEqual(time.monotonic() - started, 0.5)
        # What a busy machine takes for the lines is no wait.
        self.assertLess(sum(waits), 0.5 * len(blocks) / 2)
        self.assertEqual(b"".join(blocks), logs.change_lines(4_000, FIRST))

    def test_which_lines_were_seen(self):
        """Those before a transaction that begins within what was seen, in this log or in a later one."""

        def block(*places):
            return b"".join(b'{"a":1,"timestamp":1,"token":"%s"}\n' % place for place in places)

        sizes = {"a": 100, "b": 50}
        for other, after, wanted in (
            (block(b"4.1@a"), block(b"90.1@a"), True),
            (block(b"4.1@a"), block(b"100.1@a"), True),
            (block(b"4.1@a"), block(b"101.1@a"), False),
            (block(b"4.1@a"), block(b"4.2@a"), False),
            (block(b"4.1@a"), block(b"4.2@a", b"90.1@a"), True),
            (block(b"101.1@a"), block(b"4.1@b"), True),
            (block(b"4.1@a"), block(b"51.1@b"), False),
            (block(b"4.1@a"), block(b"4.1@c"), False),
        ):
            self.assertIs(lagging.is_behind(after, other, sizes), wanted)

    def test_a_long_transaction(self):
        """It isn't held as a whole in memory."""
        self.addCleanup(setattr, lagging, "MOST_HELD", lagging.MOST_HELD)
        lagging.MOST_HELD = 1
        self.put(FIRST, logs.worked_log(3_000))
        self.assertEqual(b"".join(self.watch(0.01).look()), logs.change_lines(3_000, FIRST))

    def test_a_fault(self):
        """It comes behind the lines before it."""
        self.put(FIRST, logs.appended(logs.A, logs.event(40)))
        look, started = self.watch(0.3).look(), time.monotonic()
        self.assertEqual(next(look), logs.change_lines(1, FIRST))
        self.assertGreaterEqual(time.monotonic() - started, 0.3)
        with self.assertRaises(LogFault):
            next(look)

    def test_ended_while_it_waits(self):
        """What is held comes again."""
        self.put(FIRST, logs.A)
        watch = self.watch(SECONDS)
        late = threading.Timer(0.3, watch.end)
        late.start()
        started = time.monotonic()
        self.assertEqual(list(watch.look()), [])
        self.assertLess(time.monotonic() - started, SECONDS / 2)
        self.assertEqual(watch.place, Place())

    def test_options(self):
        """The command, the reader over a list and the replica take it."""
        wanted = subprocess.run([PROGRAM, "read", *map(str, SHOP)], capture_output=True, check=True).stdout
        begun = time.monotonic()
        words = ["--once", "--lag", "0.4", "--state", str(self.folder / "s"), "--program", PROGRAM, str(SHOP[0].parent / "binlog.0*")]
        ended = subprocess.run([sys.executable, "-m", "binlogfeed", "follow", *words], env=ENVIRONMENT, capture_output=True, check=True)
        self.assertEqual(ended.stdout, wanted)
        self.assertGreaterEqual(time.monotonic() - begun, 0.4)
        begun = time.monotonic()
        self.assertEqual(len(list(BinLogStreamReader(SHOP, program=PROGRAM, together=False, lag=0.4))), 19)
        self.assertGreaterEqual(time.monotonic() - begun, 0.4)
        target, begun = self.folder / "shop.db", time.monotonic()
        made = "import sqlite3, sys; sqlite3.connect(sys.argv[1]).executescript(open(sys.argv[2]).read())"
        subprocess.run([sys.executable, "-c", made, target, TOP / "examples/replica/shop.sql"], check=True)
        words = [f"sqlite:{target}", "shop", SHOP[0].parent / "binlog.0*", "--lag", "3", "--program", PROGRAM]
        subprocess.run([sys.executable, TOP / "examples/replica/replica.py", *words], stderr=subprocess.DEVNULL, check=True)
        self.assertGreaterEqual(time.monotonic() - begun, 3)
        for lag in (-1, math.nan, math.inf):
            with self.assertRaises(ValueError):
                BinLogStreamReader(SHOP, lag=lag)
        for word in ("-1", "nan", "x"):
            command = [sys.executable, "-m", "binlogfeed", "follow", "--state", os.devnull, "--lag", word, "x"]
            self.assertEqual(subprocess.run(command, env=ENVIRONMENT, capture_output=True, check=False).returncode, 2)
