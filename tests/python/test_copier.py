"""Copying a server's logs from another machine. What a real server sent stands in for it."""
import os
import random
import shutil
import signal
import socket
import subprocess
import sys
import time
from unittest import mock

from binlogfeed.access import Settings, options_of
from binlogfeed.copy import copier as copying
from binlogfeed.copy import packets as packing
from binlogfeed.copy import server as serving
from binlogfeed.copy.command import made_id
from binlogfeed.copy.copier import Copier
from binlogfeed.copy.folder import Folder
from binlogfeed.copy.packets import Lost, Packets
from binlogfeed.copy.server import Server, judged
from binlogfeed.copy.stopping import Stopped, Stopping
from binlogfeed.faults import BinlogfeedError, FileFault, LogFault, LogLost, LogsGone, WordsRefused
from fake_server import GTID, HEARTBEAT, LOGS, SESSION, FakeError, FakeServer, again, error, events_of, numbered, sent, turn, with_checksum
from support import SECONDS, TOP, FolderTest, running

FIRST, SECOND, THIRD = LOGS
ENVIRONMENT = {**os.environ, "PYTHONPATH": str(TOP / "python"), "MYSQL_PWD": "a secret"}
# PyMySQL, as far as a process needs it that waits for its server.
STUB = """
import os, sys
sys.path.insert(0, {tests!r})
from fake_server import FakeServer
server = FakeServer()
server.at_end = lambda number: os.read(os.pipe()[0], 1)
connect, MySQLError = server.connect, server.MySQLError
"""


def flipped(content, at):
    """Bytes with another bit at a place."""
    return content[:at] + bytes([content[at] ^ 1]) + content[at + 1 :]


def starts(log, kind=None):
    """The places of a log's events, or of those of a kind."""
    return [at for at, event in events_of(log) if kind in (None, event[4])]


class CopyTest(FolderTest):
    """A test with a server, and a folder for the copies."""

    def setUp(self):
        """Makes the folder's name. Nothing is waited for, no disk either."""
        super().setUp()
        self.server = FakeServer()
        self.copies = self.folder / "copies"
        self.slept = []
        for name, stand_in in (("binlogfeed.copy.stopping.time.sleep", self.slept.append), ("os.fsync", lambda file: None)):
            patched = mock.patch(name, stand_in)
            patched.start()
            self.addCleanup(patched.stop)

    def copy(self, once=True, begin=None, connections=1):
        """Copies until the logs end; or else until so many connections came to their end, while the last one waits for more."""
        stopping = Stopping()
        before = len(self.server.words)
        self.server.at_end = lambda number: once or number < before + connections or stopping.ask()
        with mock.patch.object(serving, "driver", lambda: self.server):
            server = Server(Settings("server", 3306, "feed", "a secret"), 4711, stopping)
        folder = Folder(self.copies)
        try:
            Copier(server, folder, stopping, begin, once).run()
        except Stopped:
            pass
        finally:
            folder.close()

    def copied(self):
        """The copies that are there."""
        return {name: (self.copies / name).read_bytes() for name in sorted(os.listdir(self.copies)) if name[-6:].isdecimal()}

    def assert_copied(self, *names):
        """All logs are copied, or these."""
        wanted = {name: sent(log) for name, log in self.server.logs.items() if not names or name in names}
        self.assertEqual(self.copied(), wanted)
        self.assertEqual((self.copies / "binlog.index").read_text(), "".join(f"./{name}\n" for name in wanted))

    def refused(self, kind, **words):
        """The error that a copier ends with. The copies are as they were before."""
        before = self.copied()
        with self.assertRaises(kind) as caught:
            self.copy(**words)
        self.assertEqual(self.copied(), before)
        return caught.exception

    def changed(self, number, change):
        """Has the packets of a connection be others."""
        self.server.changes[number] = change


class TheFake(CopyTest):
    """The server that stands in for a real one."""

    def test_it_sends_what_the_real_one_sent(self):
        for asked, wanted in SESSION["dumps"].items():
            name, at = asked.split()
            self.assertEqual(numbered(self.server.packets(name, int(at), False)), bytes.fromhex(wanted))


class Whole(CopyTest):
    """Copies that nothing disturbs."""

    def test_into_an_empty_folder(self):
        self.copy()
        self.assert_copied()
        self.assertEqual((self.copies / "copy.server").read_text(), SESSION["uuid"] + "\n")
        self.assertEqual(self.server.dumps, [(FIRST, 4, 1)])
        self.assertEqual(self.server.words[0]["password"], "a secret")

    def test_the_real_files(self):
        """The closed ones are the server's, byte for byte. In the last one a flag says that the server has it open."""
        self.copy()
        found = self.copied()
        self.assertEqual([found[name] == LOGS[name] for name in LOGS], [True, True, False])
        self.assertEqual([at for at, (ours, theirs) in enumerate(zip(found[THIRD], LOGS[THIRD])) if ours != theirs], [21])

    def test_questions(self):
        """Without a session's checksum a server refuses logs with checksums, and without heartbeats a dead one isn't told from a silent one."""
        self.copy()
        for prefix in ("source", "master"):
            words = f"SET @{prefix}_binlog_checksum = @@global.binlog_checksum, @{prefix}_heartbeat_period = 10000000000"
            self.assertIn(words, self.server.questions)

    def test_begun_in_another_log(self):
        self.copy(begin=SECOND)
        self.assert_copied(SECOND, THIRD)

    def test_a_log_that_is_not_there_to_begin_with(self):
        with self.assertRaises(WordsRefused) as caught:
            self.copy(begin="binlog.000009")
        self.assertEqual(caught.exception.line, f"binlogfeed: can't begin with binlog.000009: the logs are {FIRST} to {THIRD}")

    def test_heartbeats(self):
        """They stand in no file."""
        beat = b"\0" + HEARTBEAT[1:]
        self.changed(1, lambda packets: [packet for one in packets[:-1] for packet in (one, beat)] + packets[-1:])
        self.copy()
        self.assert_copied()

    def test_in_pieces(self):
        """However the network cuts what it brings, each call of the system writes whole events, and all that came together."""
        for piece in (1, 7, 50, 400, 1 << 18):
            self.copies = self.folder / str(piece)
            self.server.piece = piece
            writes = []
            with mock.patch("binlogfeed.copy.folder.os.write", self.noting(writes, os.write)):
                self.copy()
            self.assert_copied()
            ends = {end for name in LOGS for end in (*starts(LOGS[name])[1:], len(LOGS[name]))}
            at = 0
            for content in writes:
                at = len(content) if content.startswith(b"\xfebin") else at + len(content)
                self.assertIn(at, ends)
            self.assertEqual(len(writes), sum(map(len, map(starts, LOGS.values()))) if piece == 1 else len(writes))
        self.assertEqual(len(writes), 2 * len(LOGS))

    def noting(self, notes, call):
        """A call that is noted by its last word."""

        def noted(*words):
            notes.append(bytes(words[-1]))
            return call(*words)

        return noted

    def test_the_disk_has_a_log_before_the_next_one_appears(self):
        """The order of the calls: a log's fsync, the next one with its first event, its name, the folder, and the index."""
        calls = []

        def noted(name, call, told):
            def called(*words, **others):
                calls.append(f"{name} {told(*words)}")
                return call(*words, **others)

            return mock.patch(f"os.{name}", called)

        def of_file(file, *_):
            path = os.path.basename(os.readlink(f"/proc/self/fd/{file}"))
            return "copy.new" if path.startswith("binlog.0") else path

        with noted("open", os.open, lambda path, *_: os.path.basename(path)), noted("fsync", os.fsync, of_file):
            with noted("write", os.write, of_file), noted("replace", os.replace, lambda old, new: os.path.basename(new)):
                self.copy()
        at = calls.index(f"replace {SECOND}")
        self.assertEqual(
            calls[at - 5 : at + 7],
            [
                "write copy.new",
                "fsync copy.new",
                "open copy.new",
                "write copy.new",
                "fsync copy.new",
                f"replace {SECOND}",
                "open copies",
                "fsync copies",
                "fsync binlog.index.new",
                "replace binlog.index",
                "open copies",
                "fsync copies",
            ],
        )
        # The last log is on the disk when it ends.
        self.assertEqual(calls[-1], "fsync copy.new")


class Again(CopyTest):
    """Copiers that are begun again."""

    def test_cut_in_each_event(self):
        """What is whole stays, what is cut is cut off, and no more is written than what lacks."""
        whole = sent(LOGS[SECOND])
        self.server.logs = {SECOND: LOGS[SECOND]}
        ends = [*starts(whole), len(whole)]
        self.copies.mkdir()
        (self.copies / "copy.server").write_text(SESSION["uuid"])
        for length in sorted({0, 3, *(end + more for end in ends for more in (-1, 0, 1, 20))}):
            self.server = FakeServer(self.server.logs)
            (self.copies / SECOND).write_bytes(whole[:length])
            kept = max((end for end in ends if 4 < end <= length), default=0)
            written, cuts = [], []
            with mock.patch("os.write", lambda file, content: written.append(len(content)) or WRITE(file, content)):
                with mock.patch("os.ftruncate", lambda file, size: cuts.append(size) or TRUNCATE(file, size)):
                    with mock.patch.object(copying.LOG, "warning") as said:
                        self.copy()
            self.assert_copied()
            self.assertEqual(sum(written), len(whole) - kept, length)
            self.assertEqual(cuts, [kept] if kept < min(length, len(whole)) else [])
            self.assertEqual(said.call_count, len(cuts))
            self.assertLessEqual(self.server.dumps[-1][1], max(4, kept))

    def test_a_damaged_end(self):
        """As a loss of power may leave it. What is behind the last sound event is cut off."""
        self.copy()
        whole = sent(LOGS[THIRD])
        places = (len(whole) - 1, len(whole) - 40, 130)
        zeros = [whole[:at] + bytes(len(whole) - at) for at in places]
        for damaged in (*zeros, *(flipped(whole, at) for at in (*places, 100)), whole + bytes(100)):
            (self.copies / THIRD).write_bytes(damaged)
            with self.assertLogs("binlogfeed", "WARNING"):
                self.copy()
            self.assert_copied()

    def test_a_whole_one(self):
        """It asks from the last transaction on, compares that, and writes nothing."""
        self.copy()
        before = (self.copies / THIRD).stat()
        self.copy()
        self.assertEqual(self.server.dumps[1], (THIRD, starts(LOGS[THIRD], GTID)[-1], 1))
        self.assertEqual((self.copies / THIRD).stat(), before)

    def test_the_next_log_where_the_last_is_purged(self):
        """It was copied to its end, by its last event, so nothing is lost."""
        third = self.server.logs.pop(THIRD)
        self.copy()
        self.server.logs = {THIRD: third}
        self.copy()
        self.assertEqual(self.server.dumps[1:], [(THIRD, 4, 1)])
        self.assertEqual(self.copied(), {name: sent(log) for name, log in LOGS.items()})

    def test_a_log_that_a_stop_ends(self):
        """A server that is shut down names no next log."""
        event = bytearray(LOGS[THIRD][-31:])
        event[4], event[9:17] = 3, (23).to_bytes(4, "little") + (len(LOGS[THIRD]) + 23).to_bytes(4, "little")
        self.server.logs = {THIRD: LOGS[THIRD] + with_checksum(bytes(event[:19]) + bytes(4))}
        self.copy()
        self.server.logs = {"binlog.000004": LOGS[FIRST]}
        self.copy()
        self.assertEqual(self.server.dumps[1:], [("binlog.000004", 4, 1)])

    def test_an_index_that_a_kill_left_behind(self):
        self.copy()
        (self.copies / "binlog.index").write_text(f"./{FIRST}\n")
        self.copy()
        self.assert_copied()

    def test_a_servers_own_folder(self):
        """Its logs are as they were, whatever their ends are."""
        self.copies.mkdir()
        (self.copies / FIRST).write_bytes(LOGS[FIRST] + b"cut")
        self.assertIn("has logs that no copier wrote", self.refused(FileFault).line)
        self.assertEqual(os.listdir(self.copies), [FIRST])

    def test_two_at_once(self):
        folder = Folder(self.copies)
        self.addCleanup(folder.close)
        with self.assertRaises(FileFault) as caught:
            Folder(self.copies)
        self.assertEqual(caught.exception.line, f"binlogfeed: another process copies into {self.copies}")


WRITE, TRUNCATE = os.write, os.ftruncate


class Gone(CopyTest):
    """Logs that aren't there any more, or are others."""

    def test_purged(self):
        self.copy()
        self.server.logs = {"binlog.000005": LOGS[FIRST]}
        gone = self.refused(LogsGone, once=False)
        self.assertEqual(gone.status, 6)
        self.assertEqual(
            gone.line, f"binlogfeed: the server has no {THIRD} any more, and it wasn't copied to its end: the first that is left is binlog.000005"
        )

    def test_purged_between_the_list_and_the_dump(self):
        """The server refuses, and its next list says what is gone."""
        self.copy()

        def purged(packets):
            self.server.logs = {"binlog.000005": LOGS[FIRST]}
            return [error("purged")]

        self.changed(2, purged)
        with self.assertLogs("binlogfeed", "WARNING"):
            self.refused(LogsGone, once=False, connections=3)

    def test_another_log(self):
        """Of another time; of the same second, with a first transaction of another microsecond; longer or shorter than the copy."""
        self.server.logs = {THIRD: LOGS[THIRD]}
        self.copy()
        whole = sent(LOGS[THIRD])
        later, other = self.edited(whole, 4, 0), self.edited(whole, starts(whole, GTID)[-1], 66)
        for log in (later, later[: starts(later)[-1]], later[: starts(later)[1]], other, other + self.moved(other)):
            self.server.logs = {THIRD: log}
            gone = self.refused(LogsGone, once=False)
            self.assertEqual((gone.status, gone.line), (6, f"binlogfeed: {THIRD} is gone: another log has its name"))

    def edited(self, log, at, within):
        """A log one of whose events has another byte."""
        length = int.from_bytes(log[at + 9 : at + 13], "little")
        event = with_checksum(flipped(log[at : at + length], within))
        return log[:at] + event + log[at + length :]

    def moved(self, log):
        """The last event of a log once more, behind it."""
        event = log[starts(log)[-1] :]
        return with_checksum(event[:13] + (len(log) + len(event)).to_bytes(4, "little") + event[17:])

    def test_another_server(self):
        self.copy()
        self.server.uuid = "00000000-0000-0000-0000-000000000000"
        gone = self.refused(LogsGone, once=False)
        self.assertEqual(gone.status, 6)
        self.assertIn(f"its UUID is {SESSION['uuid']}, and {self.server.uuid} answers now", gone.line)

    def test_a_log_that_lost_its_end(self):
        """As a server that wasn't killed alone, but its machine, too."""
        self.copy()
        last = starts(LOGS[THIRD])[-1]
        self.server.logs[THIRD] = LOGS[THIRD][:last]
        lost = self.refused(LogLost, once=False)
        self.assertEqual((lost.status, lost.file), (3, THIRD))
        self.assertEqual(lost.line, f"binlogfeed: file shorter: the server has {last} bytes of {THIRD}, and its copy {len(LOGS[THIRD])}")
        self.server.logs["binlog.000004"] = LOGS[FIRST]
        self.refused(LogLost, once=False)

    def test_a_gap(self):
        del self.server.logs[SECOND]
        with self.assertRaises(LogsGone) as caught:
            self.copy()
        self.assertEqual(caught.exception.line, f"binlogfeed: {SECOND} is gone: the server sends {THIRD} in its place")
        self.assert_copied(FIRST)

    def test_reset_while_nothing_comes(self):
        """The server waits for its new log to be longer than the old one. So it is asked, where it is silent for long."""
        beat = b"\0" + HEARTBEAT[1:]

        def reset(packets):
            self.server.logs = {THIRD: LOGS[THIRD][:198]}
            return [*packets, beat]

        self.server.logs = {THIRD: LOGS[THIRD]}
        self.server.piece = 1
        self.changed(1, reset)
        with mock.patch.object(copying, "QUIET", 0.0), self.assertLogs("binlogfeed", "WARNING") as said:
            with self.assertRaises(LogLost):
                self.copy(once=False, connections=3)
        self.assertEqual(said.output, [f"WARNING:binlogfeed:the server's {THIRD} is another one, or shorter than its copy: trying again until it goes on"])


class Disturbed(CopyTest):
    """Networks and servers that fail."""

    def test_a_connection_that_ends_in_each_packet(self):
        """It goes on at the byte, waits a second, and says so once."""
        logs = {SECOND: LOGS[SECOND]}
        packets = FakeServer(logs).packets(SECOND, 4, True)
        ends = [len(numbered(packets[:count])) for count in range(len(packets) + 1)]
        for end in sorted({max(0, end + more) for end in ends for more in (-1, 0, 30)}):
            self.server = FakeServer(logs)
            self.copies, self.slept[:] = self.folder / str(end), []
            taken = self.cut(end)
            with self.assertLogs("binlogfeed", "WARNING") as said, mock.patch.object(serving, "Packets", taken):
                self.copy(once=False, connections=2)
            self.assert_copied()
            self.assertEqual(said.output, ["WARNING:binlogfeed:the server closed the connection: trying again until it goes on"])
            self.assertEqual((self.slept, len(self.server.words)), ([1.0], 2))

    def cut(self, end):
        """What takes packets: the first connection ends after so many bytes, and the second is ended by its reader."""
        begun = []

        def taken(read):
            begun.append(read)
            if len(begun) > 1:
                return Packets(read)
            left = [end]

            def less(size):
                found = read(min(size, left[0]))
                left[0] -= len(found)
                return found

            return Packets(less)

        return taken

    def test_a_server_that_is_away(self):
        """It waits for twice as long each time, up to half a minute, says so once, and says where it goes on."""
        refused = FakeError(2003, "Can't connect to MySQL server on 'server' ([Errno 111] Connection refused)")
        self.server.refusals = dict.fromkeys(range(2, 9), refused)
        self.changed(1, lambda packets: packets[:3])
        with self.assertLogs("binlogfeed", "INFO") as said:
            self.copy(once=False, connections=9)
        self.assertEqual(self.slept, [1.0, 2.0, 4.0, 8.0, 16.0, 30.0, 30.0, 30.0])
        self.assertEqual([line.split(":", 2)[2] for line in said.output], [
            f"begins with {FIRST}",
            "the server closed the connection: trying again until it goes on",
            f"goes on behind byte 158 of {FIRST}",
        ])
        self.assert_copied()

    def test_a_silent_server(self):
        """One that doesn't even say that it is there is lost, as behind a network that fails without a word."""

        def silent(read):
            def less(size):
                found = read(size)
                if not found and len(self.server.words) == 1:
                    raise socket.timeout("timed out")
                return found

            return Packets(less)

        with mock.patch.object(serving, "Packets", silent), self.assertLogs("binlogfeed", "WARNING") as said:
            self.copy(once=False, connections=2)
        self.assertEqual(said.output, ["WARNING:binlogfeed:the server said nothing for 30 seconds: trying again until it goes on"])
        self.assertEqual(self.server.patience, [30, 30])
        self.assert_copied()

    def test_a_password_that_pymysql_cannot_send(self):
        self.server.refusals = {1: RuntimeError("'cryptography' package is required for sha256_password or caching_sha2_password auth methods")}
        with self.assertRaises(BinlogfeedError) as caught:
            self.copy(once=False)
        self.assertEqual(caught.exception.status, 2)
        self.assertIn("PyMySQL can't log in: 'cryptography' package is required", caught.exception.line)

    def test_once(self):
        """Nothing is tried again."""
        self.server.refusals = {1: FakeError(2003, "Can't connect")}
        with self.assertRaises(FileFault) as caught:
            self.copy()
        self.assertEqual((caught.exception.status, caught.exception.line), (4, "binlogfeed: Can't connect"))

    def test_a_checksum_that_is_wrong(self):
        """The damaged event isn't written, whichever it is. What was before it is, and the second time it comes well."""
        for damaged in range(len(starts(LOGS[FIRST]))):
            self.server = FakeServer({FIRST: LOGS[FIRST]})
            self.copies = self.folder / str(damaged)
            place = starts(LOGS[FIRST])[damaged]
            self.changed(1, self.damage(damaged))
            with self.assertLogs("binlogfeed", "WARNING") as said:
                self.copy(once=False, connections=2)
            self.assertEqual(said.output, [f"WARNING:binlogfeed:log fault at {FIRST}:{place}: BadChecksum: trying again until it goes on"])
            self.assert_copied()

    def damage(self, number):
        """Packets one of whose events has another byte. The first packet turns to the log."""

        def change(packets):
            return [*packets[: number + 1], flipped(packets[number + 1], 25), *packets[number + 2 :]]

        return change

    def test_a_checksum_that_stays_wrong(self):
        """The server's own log is damaged."""
        log, at = LOGS[FIRST], starts(LOGS[FIRST])[5]
        self.server.logs = {FIRST: flipped(log, at + 30)}
        with self.assertLogs("binlogfeed", "WARNING"), self.assertRaises(LogFault) as caught:
            self.copy(once=False, connections=3)
        fault = caught.exception
        self.assertEqual((fault.status, fault.file, fault.position, fault.what), (1, FIRST, at, "BadChecksum"))
        self.assertEqual(self.copied(), {FIRST: log[:at]})

    def test_an_event_of_another_place(self):
        """One that is missing, one that comes twice, one that is shorter than it says, one without a header, and one sent again too early."""
        for change in (
            lambda packets: [*packets[:4], packets[4][:15], *packets[5:]],
            lambda packets: [packets[0], b"\0" + again(packets[1][1:]), *packets[1:]],
            lambda packets: packets[:4] + packets[5:],
            lambda packets: packets[:4] + packets[3:],
            lambda packets: [*packets[:4], packets[4][:-1], *packets[5:]],
        ):
            self.server = FakeServer()
            self.copies = self.folder / str(id(change))
            self.changed(1, change)
            with self.assertRaises(LogFault) as caught:
                self.copy()
            place = caught.exception.position
            self.assertEqual(caught.exception.what, "OutOfPlace")
            self.assertEqual(self.copied(), {FIRST: sent(LOGS[FIRST])[:place]} if place > 4 else {})

    def test_a_name_that_leads_elsewhere(self):
        first = dict(events_of(LOGS[FIRST]))[4]
        for name in ("../binlog.000001", "/tmp/x.000001", "binlog.index", "a\0.000001"):
            self.changed(len(self.server.words) + 1, lambda packets, name=name: [b"\0" + turn(name, 4, first), *packets[1:]])
            with self.assertRaises(LogFault) as caught:
                self.copy()
            self.assertEqual(caught.exception.what, "BadName")
        self.assertEqual(sorted(os.listdir(self.folder)), ["copies"])

    def test_refused(self):
        """Rights, a password, and an id that another copier has: a person mends them."""
        for code, text in ((1227, "Access denied; you need (at least one of) the REPLICATION SLAVE privilege(s)"), (1045, "Access denied")):
            self.server.refusals = {len(self.server.words) + 1: FakeError(code, text)}
            with self.assertRaises(WordsRefused) as caught:
                self.copy(once=False)
            self.assertEqual(caught.exception.line, f"binlogfeed: the server refuses ({code}): {text}: {serving.RIGHTS}")
        self.server.refusals = {}
        self.changed(len(self.server.words) + 1, lambda packets: [*packets[:-1], error("same id")])
        with self.assertRaises(WordsRefused) as caught:
            self.copy(once=False)
        self.assertEqual(caught.exception.status, 2)
        self.assertIn("another copier or replica has this server id", caught.exception.line)
        signed = "Can't connect to MySQL server on 'server' ([SSL: CERTIFICATE_VERIFY_FAILED] certificate verify failed)"
        self.assertIsInstance(judged((2003, signed)), WordsRefused)
        self.assertIsInstance(judged((1053, "Server shutdown in progress")), Lost)

    def test_a_full_disk(self):
        """What of an event fits is cut off by the next start."""
        self.server.logs = {SECOND: LOGS[SECOND]}
        left = [300]

        def full(file, content):
            if not left[0]:
                raise OSError(28, "No space left on device")
            count = WRITE(file, content[: left[0]])
            left[0] -= count
            return count

        with mock.patch("os.write", full), self.assertRaises(FileFault) as caught:
            self.copy()
        self.assertEqual(caught.exception.line, f"binlogfeed: can't write {self.copies / SECOND}: No space left on device")
        self.assertEqual(self.copied(), {SECOND: sent(LOGS[SECOND])[:300]})
        with self.assertLogs("binlogfeed", "WARNING"):
            self.copy()
        self.assert_copied()

    def test_a_disk_that_does_not_take_a_file(self):
        """The file is named."""
        self.server.logs = {SECOND: LOGS[SECOND]}
        for takes, name in ((0, "binlog.index"), (2, "copy.server"), (4, SECOND), (6, "binlog.index"), (8, SECOND)):
            taken = []

            def sync(file, takes=takes, taken=taken):
                """Takes all but one."""
                taken.append(file)
                if len(taken) == takes + 1:
                    raise OSError(28, "No space left on device")

            with mock.patch("os.fsync", sync), self.assertRaises(FileFault) as caught:
                self.copy()
            self.assertEqual(caught.exception.line, f"binlogfeed: can't write {self.copies / name}: No space left on device")
            shutil.rmtree(self.copies)


class Bytes(FolderTest):
    """Packets, and who logs in."""

    def test_packets(self):
        """Long ones come in parts, and each byte may come alone."""
        chance, wanted = random.Random(3), [b"", b"a" * 4, b"b" * 5, b"c" * 10, b"d" * 23, b"e"]
        stream = numbered(wanted, longest=5)
        with mock.patch.object(packing, "LONGEST", 5):
            for most in (1, 3, 100):
                left, found = [stream], []

                def read(_, left=left, most=most):
                    size = chance.randint(1, most)
                    piece, left[0] = left[0][:size], left[0][size:]
                    return piece

                packets = Packets(read)
                while len(found) < len(wanted):
                    found += packets.batch()
                self.assertEqual(found, wanted)
                with self.assertRaises(Lost):
                    packets.batch()

    def test_packets_out_of_order(self):
        stream = numbered([b"a", b"b"])
        with self.assertRaises(Lost):
            Packets(lambda _: stream[5:]).batch()

    def test_option_file(self):
        path = self.put("my.cnf", b"[mysqld]\nuser=mysql\n!includedir /etc\n[client]\nuser = feed\npassword=\"a # b\"\nssl_ca='ca.pem'\nquick\n")
        self.assertEqual(options_of(path), {"user": "feed", "password": "a # b", "ssl-ca": "ca.pem", "quick": ""})

    def test_server_id(self):
        """It is the same each time, differs by folder, and isn't one of the small numbers that people give."""
        found = [made_id(self.folder / name) for name in ("a", "b", "a")]
        self.assertEqual((found[0] == found[2], found[0] == found[1]), (True, False))
        self.assertTrue(all(1 << 31 <= number < 1 << 32 for number in found))


class Command(FolderTest):
    """The command itself, over a stub in PyMySQL's place."""

    def setUp(self):
        """Makes the stub."""
        super().setUp()
        self.put("pymysql.py", STUB.format(tests=str(TOP / "tests/python")).encode())
        self.environment = {**ENVIRONMENT, "PYTHONPATH": f"{self.folder}:{ENVIRONMENT['PYTHONPATH']}"}

    def command(self, *words):
        """The command's words."""
        return [sys.executable, "-m", "binlogfeed", "copy", "--host", "server", "--user", "feed", *words, str(self.folder / "copies")]

    def test_once(self):
        ended = subprocess.run(self.command("--once", "--server-id", "77"), env=self.environment, capture_output=True, text=True, check=False)
        said = f"binlogfeed: copies the logs of server:3306 into {self.folder}/copies, with the server id 77\nbinlogfeed: begins with {FIRST}\n"
        self.assertEqual((ended.returncode, ended.stdout, ended.stderr), (0, "", said))
        self.assertEqual((self.folder / "copies" / THIRD).read_bytes(), sent(LOGS[THIRD]))

    def seconds_to_end(self):
        """How long SIGTERM takes to end it, with status 0, while it waits for the server."""
        path = self.folder / "copies" / THIRD
        shutil.rmtree(path.parent, ignore_errors=True)
        with running(self.command(), env=self.environment, stderr=subprocess.PIPE) as process:
            self.soon(lambda: path.exists() and path.stat().st_size == len(LOGS[THIRD]))
            time.sleep(0.2)
            begun = time.monotonic()
            process.send_signal(signal.SIGTERM)
            self.assertEqual(process.wait(SECONDS), 0)
            seconds = time.monotonic() - begun
            self.assertNotIn(b"Traceback", process.stderr.read())
        return seconds

    def test_sigterm(self):
        """It ends within a second. A busy machine may take as long to end any process, so one of five is enough."""
        self.assertTrue(any(self.seconds_to_end() < 1.0 for _ in range(5)))

    def test_without_pymysql(self):
        self.put("pymysql.py", b"raise ImportError(\"No module named 'pymysql'\")\n")
        ended = subprocess.run(self.command(), env=self.environment, capture_output=True, text=True, check=False)
        wanted = "binlogfeed: this needs PyMySQL: apt-get install python3-pymysql, or pip install PyMySQL\n"
        self.assertEqual((ended.returncode, ended.stderr), (2, wanted))

    def test_no_password_among_the_words(self):
        """Anybody on the machine may read them."""
        ended = subprocess.run(self.command("--password=x"), env=self.environment, capture_output=True, text=True, check=False)
        self.assertEqual(ended.returncode, 2)
        for word in ("0", "-1", "4294967296", "x"):
            ended = subprocess.run(self.command("--server-id", word), env=self.environment, capture_output=True, text=True, check=False)
            self.assertEqual((word, ended.returncode), (word, 2))
