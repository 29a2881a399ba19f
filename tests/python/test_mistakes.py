"""Mistakes that somebody made in the package on purpose, and that no other test saw. Each test here refuses one of them."""
import fcntl
import os
import threading
import time
import tracemalloc
import unittest
from unittest import mock

import fitting
import logs
from binlogfeed import (
    BinlogfeedError,
    BinLogStreamReader,
    ConversionFailed,
    FileFault,
    LogFault,
    LogLost,
    LogsGone,
    OutOfMemory,
    Place,
    XidEvent,
)
from binlogfeed import watch as watching
from binlogfeed.follow import read_state
from binlogfeed.logs import beginning, listed
from binlogfeed.watch import Watch
from support import PROGRAM, SECONDS, SHOP, FolderTest

# A line of `read --full`, but for its token.
LINE = (
    '{"after":{"id":1},"before":null,"gtid":null,"key":["id"],"types":{"id":"int"},"kind":"insert","schema":"s","table":"t",'
    '"timestamp":1,"token":"%s"}'
)


class ReaderTest(FolderTest):
    """A test of a reader, whose program is some lines of shell."""

    def reader(self, script, **options):
        """A reader of a program that says its process first."""
        events = BinLogStreamReader("f", program=self.stub(f"echo $$ > {self.folder}/process\n{script}"), **options)
        self.in_time(events.close)
        self.addCleanup(events.close)
        return events

    def runs(self):
        """Whether the program's process is still there."""
        try:
            os.kill(int((self.folder / "process").read_text()), 0)
        except ProcessLookupError:
            return False
        return True


class Cut(ReaderTest):
    """A transaction whose end wasn't seen has no commit, and is no event of rows that would stand together."""

    LINES = "".join(f"echo '{LINE % token}'\n" for token in ("4.1@f", "9.1@f", "9.2@f"))

    def test_no_commit_where_the_file_changed(self):
        """The program found that the file had changed while it was read: what stands behind the last line isn't known."""
        found = []
        with self.assertRaises(LogFault):
            for event in self.reader(f"{self.LINES}echo 'binlogfeed: log fault at f:9: SourceChanged' >&2\nexit 1", only_events=[XidEvent]):
                found.append(event.token)
        self.assertEqual(found, ["4.1@f"])

    def closed_behind_the_lines(self, **options):
        """The tokens that a reader gives until another thread closes it, once it has read the last line and waits for more."""
        read = []
        events = self.reader(f"{self.LINES}exec sleep 60", convert={"t.id": read.append}, **options)

        def close():
            while len(read) < 3:
                time.sleep(0.01)
            time.sleep(0.05)
            events.close()

        closer = threading.Thread(target=close, daemon=True)
        closer.start()
        found = [event.token for event in events]
        closer.join(SECONDS)
        return found

    def test_no_commit_of_a_closed_reader(self):
        self.assertEqual(self.closed_behind_the_lines(only_events=[XidEvent], together=False), ["4.1@f"])

    def test_no_rows_of_a_closed_reader(self):
        """More of these rows might have come."""
        self.assertEqual(self.closed_behind_the_lines(), ["4.1@f"])


class Errors(ReaderTest):
    """What an error leaves, and says."""

    def test_the_program_ends_with_the_reader(self):
        """It would wait for ever for somebody who takes its lines."""
        events = self.reader(f"exec yes '{LINE % '4.1@f'}'", convert={"t.id": lambda value: 1 // 0})
        with self.assertRaises(ConversionFailed):
            next(events)
        self.assertFalse(self.runs())

    def test_a_lost_log_behind_what_a_wrapper_says(self):
        script = "echo 'binlogfeed: proving and building the program' >&2\necho 'binlogfeed: file shorter: f' >&2\nexit 3"
        with self.assertRaises(LogLost) as caught:
            list(self.reader(script))
        self.assertEqual((caught.exception.line, caught.exception.file), ("binlogfeed: file shorter: f", "f"))

    def test_what_is_not_utf_8_on_standard_error(self):
        """A wrapper may say something in another character set. The error stays one."""
        with self.assertRaises(OutOfMemory) as caught:
            list(self.reader("printf 'caf\\351\\n' >&2\necho 'binlogfeed: out of memory' >&2\nexit 5"))
        self.assertEqual(caught.exception.line, "binlogfeed: out of memory")


class Rows(ReaderTest):
    """Rows that stand together."""

    def test_rows_of_two_times_stand_apart(self):
        """Statements of one transaction may have run at different times, and an event has one."""
        times = (1, 1, 2)
        lines = (LINE.replace('"timestamp":1', f'"timestamp":{at}') % f"9.{nr}@f" for nr, at in enumerate(times, 1))
        events = self.reader("".join(f"echo '{line}'\n" for line in lines))
        self.assertEqual([(event.timestamp, len(event.rows), event.token) for event in events], [(1, 2, "9.2@f"), (2, 1, "9.3@f")])

    def test_an_event_has_a_thousand_rows_at_most(self):
        """A transaction of any size is read in little memory."""
        lines = self.put("lines", "".join(f"{LINE % f'9.{nr}@f'}\n" for nr in range(1, 2501)).encode())
        events = self.reader(f"cat {lines}")
        self.assertEqual([(len(event.rows), event.token) for event in events], [(1000, "9.1000@f"), (1000, "9.2000@f"), (500, "9.2500@f")])

    def test_a_pipe_that_stays_small(self):
        """The system may refuse a larger one, or know none."""
        wanted = [event.token for event in BinLogStreamReader(SHOP, program=PROGRAM)]
        self.assertEqual(len(wanted), 13)
        with mock.patch.object(fcntl, "fcntl", side_effect=PermissionError):
            self.assertEqual([event.token for event in BinLogStreamReader(SHOP, program=PROGRAM)], wanted)
        if hasattr(fcntl, "F_SETPIPE_SZ"):
            self.addCleanup(setattr, fcntl, "F_SETPIPE_SZ", fcntl.F_SETPIPE_SZ)
            del fcntl.F_SETPIPE_SZ
        self.assertEqual([event.token for event in BinLogStreamReader(SHOP, program=PROGRAM)], wanted)


class Looks(ReaderTest):
    """Logs that are watched."""

    def watch(self, program):
        """A watch of the folder's logs."""
        watch = Watch(f"{self.folder}/binlog.0*", [program, "read", "--follow"], Place())
        self.addCleanup(watch.end)
        self.in_time(watch.end)
        return watch

    def test_a_log_that_is_put_in_the_place_of_another(self):
        """It is as long as the one before it, and as old, as a copy may be."""
        path = self.put("binlog.000001", logs.A)
        watch, found = self.watch(PROGRAM), path.stat()
        self.assertEqual(b"".join(watch.look()), logs.change_lines(1, path.name))
        new = bytearray(logs.A)
        new[4:8] = (logs.TIME + 1).to_bytes(4, "little")
        other = self.put("new", bytes(new))
        os.utime(other, ns=(found.st_atime_ns, found.st_mtime_ns))
        os.replace(other, path)
        self.assertEqual((path.stat().st_size, path.stat().st_mtime_ns), (found.st_size, found.st_mtime_ns))
        with self.assertRaises(LogsGone):
            list(watch.look())

    def test_ended_while_the_program_starts(self):
        """Another thread ends the watch, and sees no run yet."""
        self.put("binlog.000001", logs.A)
        watch = self.watch(self.stub(f"echo $$ > {self.folder}/process\nexec sleep {SECONDS}"))
        begin = watching.LookingRun

        def late(command):
            run = begin(command)
            while not ((self.folder / "process").exists() and (self.folder / "process").read_text().endswith("\n")):
                time.sleep(0.01)
            watch.end()
            return run

        started = time.monotonic()
        with mock.patch.object(watching, "LookingRun", late):
            self.assertEqual(list(watch.look()), [])
        self.assertFalse(self.runs())
        self.assertLess(time.monotonic() - started, SECONDS / 2)

    def test_a_place_within_a_log(self):
        """It still says which log that is."""
        self.assertEqual(Place("f", "digest", "4.1@f").behind("9.1@f", []), Place("f", "digest", "9.1@f"))

    def test_a_kept_place_that_cannot_be_read(self):
        """It is none at the beginning of all logs."""
        with self.assertRaisesRegex(FileFault, f"cannot open {self.folder}: Is a directory"):
            read_state(self.folder)
        self.assertEqual(read_state(self.folder / "missing"), Place())

    def test_a_kept_place_that_is_damaged(self):
        """The file is named below the line."""
        for content, told in ((b"", ""), (b"[7]", "[7]"), (b"\xff\0", r"\udcff\x00")):
            path = self.put("state", content)
            with self.assertRaises(BinlogfeedError) as caught:
                read_state(path)
            found = caught.exception
            line = f"binlogfeed: this is no kept place: '{told}'"
            self.assertEqual((found.line, found.hints, found.status), (line, (f"the file is {path}",), 3))

    def test_an_index_whose_names_are_not_utf_8(self):
        """They are told as Python tells such names."""
        index = self.put("binlog.index", b"./caf\xe9.000001\n")
        self.assertEqual([os.fsencode(path.name) for path in listed(index)], [b"caf\xe9.000001"])

    def test_a_first_event_that_says_it_is_long(self):
        """As much isn't read of a log that is damaged there: no server's first event has so many bytes."""
        front = bytearray(logs.FRONT[:23])
        front[13:17] = (64 << 20).to_bytes(4, "little")
        path = self.put("binlog.000001", bytes(front))
        os.truncate(path, 128 << 20)
        tracemalloc.start()
        try:
            self.assertIsNone(beginning(path))
            peak = tracemalloc.get_traced_memory()[1]
        finally:
            tracemalloc.stop()
        self.assertLess(peak, 1_000_000)


class Hours(unittest.TestCase):
    """A TIME for a target that has hours of a day alone."""

    def test_more_than_a_hundred_hours(self):
        """As a text it stands before 24:00:00."""
        self.assertEqual(fitting.hour("23:59:59.5"), "23:59:59.5")
        for value in ("24:00:00", "100:00:00", "-00:00:01", "838:59:59"):
            with self.assertRaises(fitting.UnfitError):
                fitting.hour(value)
