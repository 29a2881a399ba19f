"""Following logs that a server writes, rotates and purges."""
import io
import json
import os
import random
import re
import signal
import stat
import subprocess
import sys
import threading
import time
from pathlib import Path
from unittest import mock

import logs
from binlogfeed import BinlogfeedError, FileFault, LogFault, LogLost, LogsGone, Place, TokenRefused
from binlogfeed import follow as following
from binlogfeed import watch as watching
from binlogfeed.follow import Follower, read_state, write_state
from binlogfeed.logs import check_without_gap
from built.growing import Server
from support import BANK, PATIENT_COMMAND, PROGRAM, SECONDS, SHOP, TOP, FolderTest, running, told, without_beginning, without_hints

ENVIRONMENT = {**os.environ, "PYTHONPATH": str(TOP / "python")}
# How long an index is waited for that is away. Most tests have none that comes back, and wait for less.
PATIENCE = watching.PATIENCE


def log(*numbers, following=None):
    """A log of transactions with these GTIDs' numbers, and a ROTATE where another log follows."""
    return logs.log_of([*map(logs.insert, numbers), *([logs.rotate(following)] if following else [])])


def line(number, place, name):
    """The line of one of these transactions."""
    return logs.change_line(place, number, name).encode()


def read(files, *words):
    """The lines of one `read`."""
    return subprocess.run([PROGRAM, "read", *words, *map(str, files)], capture_output=True, check=True).stdout


class Refusing(io.BytesIO):
    """An output that takes what is written, and refuses to hand it on."""

    def flush(self):
        """Fails."""
        raise BrokenPipeError


class Watched(io.BytesIO):
    """An output that notes something as each block comes."""

    def __init__(self, note):
        """Calls this before it takes a block."""
        super().__init__()
        self.note = note

    def write(self, block):
        """Notes it, and takes the block."""
        self.note()
        return super().write(block)


class ServerTest(FolderTest):
    """A test with a server's folder, whose index it writes."""

    def setUp(self):
        """Makes the folder, and a place for the state outside of it."""
        super().setUp()
        self.data = self.folder / "data"
        self.data.mkdir()
        self.state = self.folder / "state"
        self.addCleanup(setattr, watching, "PATIENCE", watching.PATIENCE)
        watching.PATIENCE = 0.1

    def index(self, *names):
        """Puts the index in its place, as a server does."""
        self.put("data/binlog.index", "".join(f"./{name}\n" for name in names).encode())

    def log(self, name, content):
        """Gives a log this content."""
        self.write_on(f"data/{name}", content)

    def follower(self, out=None, words=(), program=PROGRAM, place=None, state=None, seconds=SECONDS):
        """A follower. It ends with the test."""
        follower = Follower(str(place or self.data), state or self.state, words, program, out or io.BytesIO())
        self.addCleanup(follower.close)
        self.in_time(follower.stop, seconds)
        return follower

    def followed(self, out=None, place=None, words=()):
        """What a follower that starts now prints until the logs end."""
        out = out or io.BytesIO()
        follower = self.follower(out, words, place=place)
        try:
            follower.catch_up()
        finally:
            follower.close()
        return out.getvalue()

    def gone(self):
        """The line of a follower that finds logs gone. It prints nothing, and keeps its place."""
        before, out = read_state(self.state), io.BytesIO()
        with self.assertRaises(LogsGone) as caught:
            self.followed(out)
        self.assertEqual(caught.exception.status, 6)
        self.assertEqual((out.getvalue(), read_state(self.state)), (b"", before))
        return caught.exception.line


class Growing(ServerTest):
    """Logs that grow and rotate."""

    def test_each_byte_of_a_transaction(self):
        whole = log(1, 2)
        self.index("binlog.000001")
        self.assertEqual(len(whole), 589)
        for end in range(len(whole) + 1):
            self.log("binlog.000001", whole[:end])
            wanted = {371: line(1, 153, "binlog.000001"), 589: line(2, 371, "binlog.000001")}.get(end, b"")
            self.assertEqual(self.followed(), wanted, end)

    def test_each_byte_by_one_follower(self):
        """Two logs grow by a byte, and rotate. One follower takes each line as soon as its transaction is whole."""
        whole, out = log(1, 2, following="binlog.000002"), io.BytesIO()
        # It looks about a thousand times.
        follower = self.follower(out, seconds=10 * SECONDS)
        self.index("binlog.000001")
        ends, lines = {371: (1, 153), 589: (2, 371)}, b""
        for name, content in (("binlog.000001", whole), ("binlog.000002", log(1, 2))):
            self.log(name, b"")
            self.index(*(path.name for path in sorted(self.data.glob("binlog.0*"))))
            for end in range(1, len(content) + 1):
                self.log(name, content[:end])
                follower.catch_up()
                lines += line(*ends[end], name) if end in ends else b""
                self.assertEqual(out.getvalue(), lines, end)

    def test_servers_in_pieces(self):
        """At random moments between the server's writes one follower goes on, or a new one starts."""
        for seed, files, words in ((7, BANK, ()), (8, SHOP, ("--full",)), (9, SHOP, ("--only-tables=line",))):
            with self.subTest(seed=seed):
                folder = self.folder / str(seed)
                folder.mkdir()
                state, chance, out = folder / "state", random.Random(seed), io.BytesIO()
                server, follower, goes_on = Server(folder, files, chance), None, True
                while goes_on:
                    goes_on = server.step()
                    if follower is None or chance.random() < 0.2:
                        if follower:
                            follower.close()
                        follower = self.follower(out, words, place=folder, state=state)
                    follower.catch_up()
                    # The server purges what was read.
                    if chance.random() < 0.2:
                        server.purge(read_state(state).file)
                follower.close()
                self.assertEqual(out.getvalue(), read(files, *words))

    def test_a_server_whose_index_is_away(self):
        """The server rotates and purges while the follower looks. Its index is away for 20 ms each time."""
        watching.PATIENCE = SECONDS
        out, ended = io.BytesIO(), threading.Event()
        server = Server(self.data, BANK[:6], random.Random(5), away=0.02)

        def serve():
            try:
                while server.step():
                    if self.state.exists():
                        server.purge(read_state(self.state).file)
            finally:
                ended.set()

        thread = threading.Thread(target=serve)
        follower = self.follower(out)
        thread.start()
        while not ended.is_set():
            follower.catch_up()
        thread.join()
        follower.catch_up()
        follower.close()
        self.assertEqual(out.getvalue(), read(BANK[:6]))

    def test_an_index_that_is_away(self):
        """Without an index, or with an empty one, nothing is said at once; and a log that isn't there is looked for again."""
        self.assertGreaterEqual(PATIENCE, 1.0)
        watching.PATIENCE = SECONDS
        self.log("binlog.000001", log(1))
        self.index("binlog.000001")
        out = io.BytesIO()
        follower = self.follower(out)
        follower.catch_up()
        index, kept = self.data / "binlog.index", self.data / "binlog.index.kept"
        self.log("binlog.000001", log(1, 2))
        for away in (index.unlink, lambda: index.write_bytes(b""), lambda: index.write_text("./binlog.000001\n./binlog.000002\n")):
            kept.write_bytes(index.read_bytes())
            away()
            back = threading.Timer(0.02, os.replace, (kept, index))
            back.start()
            follower.catch_up()
            back.join()
        self.assertEqual(out.getvalue(), line(1, 153, "binlog.000001") + line(2, 371, "binlog.000001"))

    def test_a_place_at_the_logs_end(self):
        """As mysqldump names it: no change's token, but the end of a transaction."""
        self.log("binlog.000001", log(1))
        self.index("binlog.000001")
        self.state.write_text('{"token": "371.0@binlog.000001"}')
        self.assertEqual(self.followed(), b"")
        self.log("binlog.000001", log(1, 2))
        self.assertEqual(self.followed(), line(2, 371, "binlog.000001"))

    def test_within_a_long_look(self):
        """The place is kept behind lines that are out, before the look comes to its end."""
        self.addCleanup(setattr, following, "KEEP_BYTES", following.KEEP_BYTES)
        following.KEEP_BYTES = 1
        self.index("binlog.000001")
        self.log("binlog.000001", logs.worked_log(3_000))
        kept = []
        out = Watched(lambda: kept.append((read_state(self.state).token, out.getvalue())))
        follower = self.follower(out)
        follower.catch_up()
        self.assertEqual(out.getvalue(), logs.change_lines(3_000, "binlog.000001"))
        self.assertGreater(len(kept), 3)
        for token, before in kept:
            self.assertEqual(json.loads(before.splitlines()[-1])["token"] if before else None, token)

    def test_bytes_behind_within_a_long_look(self):
        """Those behind the last whole look, until the place that is kept is further on."""
        self.addCleanup(setattr, following, "KEEP_BYTES", following.KEEP_BYTES)
        following.KEEP_BYTES = 1
        said = []
        follower = self.follower(Watched(lambda: said.append((read_state(self.state).token, follower.status()))))
        self.index("binlog.000001")
        for count, done in ((1_500, 0), (3_000, len(logs.worked_log(1_500)))):
            self.log("binlog.000001", logs.worked_log(count))
            said.clear()
            follower.catch_up()
            self.assertGreater(len(said), 3)
            for token, status in said:
                place = max(done, int(token.partition(".")[0]) if token else 0)
                self.assertIn(f" {len(logs.worked_log(count)) - place} bytes behind,", status)
        self.assertIn(" 0 bytes behind,", follower.status())
        # The end of the log before says nothing of the next one.
        self.log("binlog.000002", logs.worked_log(1_400))
        self.index("binlog.000001", "binlog.000002")
        said.clear()
        follower.catch_up()
        within = [(token, status) for token, status in said if token.endswith("2")]
        self.assertGreater(len(within), 3)
        for token, status in within:
            self.assertIn(f" {len(logs.worked_log(1_400)) - int(token.partition('.')[0])} bytes behind,", status)

    def test_nothing_new(self):
        self.index("binlog.000001")
        self.log("binlog.000001", log(1))
        out = io.BytesIO()
        follower = self.follower(out, program=self.counted())
        for _ in range(3):
            follower.catch_up()
        self.log("binlog.000001", log(1, 2))
        follower.catch_up()
        follower.close()
        # One run goes on.
        self.assertEqual((self.folder / "runs").read_text(), "run\n")
        self.assertEqual(out.getvalue(), line(1, 153, "binlog.000001") + line(2, 371, "binlog.000001"))

    def test_close(self):
        """The program ends with its follower."""
        self.index("binlog.000001")
        self.log("binlog.000001", log(1))
        follower = self.follower(program=self.stub(f'echo $$ > {self.folder}/process\nexec {PROGRAM} "$@"'))
        follower.catch_up()
        process = int((self.folder / "process").read_text())
        os.kill(process, 0)
        follower.close()
        with self.assertRaises(ProcessLookupError):
            os.kill(process, 0)

    def counted(self):
        """The program, and a file that has a line for each of its runs."""
        return self.stub(f'echo run >> {self.folder}/runs\nexec {PROGRAM} "$@"')

    def test_filters(self):
        self.index("binlog.000001")
        self.log("binlog.000001", log(1))
        self.assertEqual(self.followed(words=["--ignored-tables=t"]), b"")
        # What didn't pass is taken, too.
        self.log("binlog.000001", log(1, following="binlog.000002"))
        self.log("binlog.000002", log(2))
        self.index("binlog.000001", "binlog.000002")
        self.assertEqual(self.followed(words=["--ignored-tables=t"]), b"")
        self.log("binlog.000002", log(2, 3))
        (self.data / "binlog.000001").unlink()
        self.index("binlog.000002")
        self.assertEqual(self.followed(), line(2, 153, "binlog.000002") + line(3, 371, "binlog.000002"))

    def test_a_fault_comes_behind_the_lines_before_it(self):
        self.index("binlog.000001")
        self.log("binlog.000001", logs.appended(log(1), logs.event(40)))
        out = io.BytesIO()
        with self.assertRaises(LogFault):
            self.followed(out)
        self.assertEqual(out.getvalue(), line(1, 153, "binlog.000001"))
        self.assertEqual(read_state(self.state).token, "153.1@binlog.000001")
        self.log("binlog.000001", log(1, 2))
        self.assertEqual(self.followed(), line(2, 371, "binlog.000001"))

    def test_within_a_slow_look(self):
        """Lines are out at once, and the place is kept behind each second, though the look goes on."""
        self.addCleanup(setattr, following, "KEEP_SECONDS", following.KEEP_SECONDS)
        self.index("binlog.000001")
        self.log("binlog.000001", log(1, 2))
        lines = [line(1, 153, "binlog.000001").decode(), line(2, 371, "binlog.000001").decode()]
        # A place that is to be kept may take its time to the disk.
        waits = f"until [ -e {self.state} ]; do sleep 0.01; done"
        for seconds, until, kept in ((0.0, waits, "153.1@binlog.000001"), (2.0 * SECONDS, "sleep 0.2", None)):
            following.KEEP_SECONDS = seconds
            self.state.unlink(missing_ok=True)
            said = f"cat {self.state} > {self.folder}/kept 2>/dev/null"
            program = self.stub(f"read line\ncat <<'END'\n{lines[0]}END\n{until}\n{said}\ncat <<'END'\n{lines[1]}\nEND\nread line")
            follower = self.follower(program=program)
            follower.catch_up()
            follower.close()
            text = (self.folder / "kept").read_text()
            self.assertEqual(Place.from_text(text).token if text else None, kept)
            self.assertEqual(read_state(self.state).token, "371.1@binlog.000001")


class Purged(ServerTest):
    """Logs that are gone."""

    def setUp(self):
        """The first log was read."""
        super().setUp()
        self.index("binlog.000001")
        self.log("binlog.000001", log(1))
        self.followed()

    def rotate(self, last):
        """The logs rotate up to this number. Each but the first has a transaction."""
        for number in range(1, last + 1):
            following = f"binlog.{number + 1:06}" if number < last else None
            self.log(f"binlog.{number:06}", log(number, following=following))

    def test_the_log_of_the_token(self):
        self.rotate(3)
        self.index("binlog.000002", "binlog.000003")
        (self.data / "binlog.000001").unlink()
        self.assertIn("binlog.000001 is gone, and wasn't read to its end: the first that is left is binlog.000002", self.gone())

    def test_all_logs(self):
        self.index()
        self.assertIn("none is left", self.gone())

    def test_a_log_between(self):
        self.rotate(4)
        self.index("binlog.000001", "binlog.000003", "binlog.000004")
        self.assertIn("binlog.000002 is gone: it should stand between binlog.000001 and binlog.000003", self.gone())

    def test_logs_that_do_not_go_on(self):
        """Each log but the first has the number behind that of the one before it, and the same name before the number."""
        self.rotate(2)
        for following in ("binlog.000001", "other.000002", "binlog.000000", "another.000003"):
            with self.assertRaises(LogsGone):
                check_without_gap([self.data / "binlog.000001", self.data / following])
        with self.assertRaises(LogsGone):
            check_without_gap([self.data / "binlog.000001", self.data / "binlog.000002", self.data / "binlog.000002"])
        check_without_gap([self.data / "binlog.000001", self.data / "binlog.000002"])
        check_without_gap([self.data / "binlog.999999", self.data / "binlog.1000000"])

    def test_two_servers_logs_under_one_pattern(self):
        self.rotate(1)
        self.log("other.000002", log(2))
        with self.assertRaises(LogsGone) as caught:
            self.followed(place=f"{self.data}/*.0*")
        self.assertIn("binlog.000002 is gone: it should stand between binlog.000001 and other.000002", caught.exception.line)

    def test_a_log_between_after_a_kill(self):
        """The first log has no ROTATE, so the program would take any other behind it."""
        self.log("binlog.000003", log(3))
        self.index("binlog.000001", "binlog.000003")
        self.assertIn("binlog.000002 is gone", self.gone())

    def test_a_rotate_to_another_log(self):
        """The numbers have no gap, but the log says another name: the program's own fault."""
        self.log("binlog.000001", log(1, following="binlog.000007"))
        self.log("binlog.000002", log(2))
        self.index("binlog.000001", "binlog.000002")
        with self.assertRaises(LogFault) as caught:
            self.followed()
        self.assertEqual((caught.exception.what, caught.exception.position), ("RotationMismatch", 371))

    def test_logs_that_begin_anew(self):
        """After RESET BINARY LOGS another log has the name, and even a transaction at the token's place."""
        new = bytearray(log(9, 10))
        new[4:8] = (logs.TIME + 1).to_bytes(4, "little")
        self.log("binlog.000001", bytes(new))
        self.assertIn("binlog.000001 is gone: another log has its name", self.gone())

    def test_a_log_that_the_server_closed(self):
        """The flag of a log in use isn't part of what tells it from another."""
        closed = bytearray(log(1, 2))
        closed[4 + 17] |= 1
        self.log("binlog.000001", bytes(closed))
        self.assertEqual(self.followed(), line(2, 371, "binlog.000001"))

    def test_logs_that_begin_anew_while_they_are_followed(self):
        follower = self.follower()
        follower.catch_up()
        new = bytearray(log(9, 10, 11))
        new[4:8] = (logs.TIME + 1).to_bytes(4, "little")
        self.log("binlog.000001", bytes(new))
        with self.assertRaises(LogsGone) as caught:
            follower.catch_up()
        self.assertIn("another log has its name", caught.exception.line)

    def test_a_log_that_lost_its_end_while_it_is_followed(self):
        """The server began another one behind it."""
        follower = self.follower()
        self.log("binlog.000001", log(1, 2))
        follower.catch_up()
        self.log("binlog.000001", log(1))
        self.log("binlog.000002", log(3))
        self.index("binlog.000001", "binlog.000002")
        with self.assertRaises(LogLost) as caught:
            follower.catch_up()
        self.assertEqual(caught.exception.line, "binlogfeed: file shorter: binlog.000001")

    def test_a_log_that_lost_its_end(self):
        """The server began another one behind it."""
        self.log("binlog.000001", log(1)[:370])
        self.log("binlog.000002", log(2))
        self.index("binlog.000001", "binlog.000002")
        with self.assertRaises(TokenRefused) as caught:
            self.followed()
        self.assertEqual(caught.exception.name, "TokenNoTransaction")

    def test_read_and_then_purged(self):
        """A log without changes came behind the token's, and both were read: nothing is lost."""
        self.log("binlog.000001", log(1, following="binlog.000002"))
        self.log("binlog.000002", log())
        self.index("binlog.000001", "binlog.000002")
        self.assertEqual(self.followed(), b"")
        (self.data / "binlog.000001").unlink()
        self.log("binlog.000002", log(2))
        self.index("binlog.000002")
        self.assertEqual(self.followed(), line(2, 153, "binlog.000002"))

    def test_purged_while_it_is_read(self):
        """The index still had the log, and then it was gone. A new look at the index tells."""
        self.log("binlog.000001", log(1, following="binlog.000002"))
        self.log("binlog.000002", log(2))
        self.index("binlog.000001", "binlog.000002")
        program = self.stub(
            f"rm -f {self.data}/binlog.000001; printf './binlog.000002\\n' > {self.data}/binlog.index\nexec {PROGRAM} \"$@\""
        )
        follower = self.follower(program=program)
        with self.assertRaises(LogsGone):
            follower.catch_up()
        follower.close()

    def test_a_log_that_the_index_has_and_the_folder_has_not(self):
        (self.data / "binlog.000001").unlink()
        with self.assertRaises(FileFault):
            self.followed()


class States(ServerTest):
    """What is kept, and when."""

    def setUp(self):
        """A log of two transactions."""
        super().setUp()
        self.index("binlog.000001")
        self.log("binlog.000001", log(1, 2))

    def test_lines_that_nobody_took(self):
        with self.assertRaises(BrokenPipeError):
            self.followed(Refusing())
        self.assertFalse(self.state.exists())
        self.assertEqual(len(self.followed().splitlines()), 2)

    def test_an_output_that_takes_a_part(self):
        """Of what is written, a pipe or a full disk may take some bytes alone. The rest is written then."""

        class Taking(io.BytesIO):
            """An output that takes so many bytes at most."""

            def write(self, block):
                """Takes some."""
                return super().write(bytes(block[:most]))

        for most in (7, 10):
            self.assertEqual(self.followed(Taking()), line(1, 153, "binlog.000001") + line(2, 371, "binlog.000001"))
            self.state.unlink()

    def test_by_hand(self):
        self.state.write_text('{"token": "153.1@binlog.000001"}')
        self.assertEqual(self.followed(), line(2, 371, "binlog.000001"))

    def test_what_is_no_place(self):
        for text in ("", "{}", "[]", "7", '{"token": "x"}', '{"token": 7}', '{"token": "153.1@binlog.000001"'):
            self.state.write_text(text)
            with self.subTest(text=text), self.assertRaises(BinlogfeedError) as caught:
                self.followed()
            self.assertEqual(caught.exception.status, 3)
            self.assertEqual(self.state.read_text(), text)

    def test_text_and_back(self):
        for place in (Place("f", None, None), Place("binlog.000002", "00", "4.1@binlog.000001")):
            self.assertEqual(Place.from_text(place.to_text()), place)
            write_state(self.state, place)
            self.assertEqual(read_state(self.state), place)

    def test_kept_on_the_disk(self):
        """The new file's bytes are on the disk before it takes the old one's name, and the folder's behind that."""
        said = []

        def sync(descriptor):
            """Says what is synchronised: a file with its size, or a folder."""
            found = os.fstat(descriptor)
            said.append(("folder", 0) if stat.S_ISDIR(found.st_mode) else ("file", found.st_size))

        def replace(new, old):
            """Says which file takes which name."""
            said.append((Path(new).name, Path(old).name))

        with mock.patch.object(os, "fsync", sync), mock.patch.object(os, "replace", replace):
            write_state(self.state, Place("binlog.000001"))
        size = len(Place("binlog.000001").to_text()) + 1
        self.assertEqual(said, [("file", size), (f"{self.state.name}.new", self.state.name), ("folder", 0)])

    def test_two_followers(self):
        first = self.follower()
        with self.assertRaises(FileFault) as caught:
            self.follower()
        self.assertIn("another process uses", caught.exception.line)
        first.close()
        self.assertEqual(len(self.followed().splitlines()), 2)


class CommandLine(ServerTest):
    """The command."""

    def run_follow(self, *words, code=None, **options):
        """Runs the command, or code that does, and gives its process."""
        begins = ["-c", code] if code else ["-m", "binlogfeed"]
        command = [sys.executable, *begins, "follow", "--program", PROGRAM, "--state", str(self.state), *words]
        return running(command, env=ENVIRONMENT, stderr=subprocess.PIPE, **options)

    def bank(self):
        """The bank's lines, and where its logs are."""
        return read(BANK), str(BANK[0].parent / "binlog.0*")

    def test_once(self):
        lines, place = self.bank()
        with self.run_follow("--once", place, stdout=subprocess.PIPE) as process:
            self.assertEqual(told(process), (lines, b""))
        self.assertEqual(process.returncode, 0)
        with self.run_follow("--once", place, stdout=subprocess.PIPE) as process:
            self.assertEqual(told(process), (b"", b""))

    def test_a_program_that_is_killed(self):
        """The status is that which a shell has for it. The lines before it stand."""
        self.index("binlog.000001")
        self.log("binlog.000001", log(1))
        first = line(1, 153, "binlog.000001")
        killed = self.stub(f"read line\ncat <<'END'\n{first.decode()}END\nkill -9 $$")
        with self.run_follow("--once", "--program", killed, str(self.data), stdout=subprocess.PIPE) as process:
            self.assertEqual(told(process), (first, b"binlogfeed: the program ended with status -9\n"))
        self.assertEqual((process.returncode, read_state(self.state).token), (128 + 9, "153.1@binlog.000001"))

    def test_lines_are_out_at_once(self):
        """None waits in a buffer for the end of a look."""
        self.index("binlog.000001")
        self.log("binlog.000001", log(1))
        first = line(1, 153, "binlog.000001")
        slow = self.stub(f"read line\ncat <<'END'\n{first.decode()}END\nexec sleep {SECONDS}")
        command = [sys.executable, "-m", "binlogfeed", "follow", "--program", slow, "--state", str(self.state), str(self.data)]
        with running(command, env=ENVIRONMENT, stdout=subprocess.PIPE, start_new_session=True) as process:
            self.assertEqual(process.stdout.readline(), first)
            os.killpg(process.pid, signal.SIGKILL)

    def test_gone(self):
        self.index("binlog.000002")
        write_state(self.state, Place("binlog.000001"))
        with self.run_follow("--once", str(self.data), stdout=subprocess.PIPE) as process:
            out, said = told(process)
        self.assertEqual((process.returncode, out), (6, b""))
        self.assertTrue(said.startswith(b"binlogfeed: binlog.000001 is gone"), said)

    def test_log_fault(self):
        self.log("binlog.000001", logs.appended(log(1), logs.event(40)))
        self.index("binlog.000001")
        with self.run_follow(str(self.data), stdout=subprocess.PIPE) as process:
            out, said = told(process)
        self.assertEqual((process.returncode, out), (1, line(1, 153, "binlog.000001")))
        self.assertEqual(without_hints(said), b"binlogfeed: log fault at binlog.000001:371: KindOutOfProfile(40)\n")

    def test_a_reader_that_goes_away(self):
        lines, place = self.bank()
        # What was written before a busy machine let it go on is to be kept no earlier.
        code = f"from binlogfeed import follow; follow.KEEP_SECONDS = 2 * {SECONDS}; {PATIENT_COMMAND}"
        with self.run_follow("--once", place, code=code, stdout=subprocess.PIPE) as process:
            first = process.stdout.readline()
            process.stdout.close()
            said = without_beginning(process.stderr.read())
        self.assertEqual((process.returncode, said), (4, b"binlogfeed: write fault: nobody reads the lines any more\n"))
        self.assertTrue(lines.startswith(first))
        # What the pipe still held is lost, so nothing of it is kept.
        self.assertFalse(self.state.exists())

    def test_full_lines(self):
        with self.run_follow("--once", "--full", str(SHOP[0].parent / "binlog.0*"), stdout=subprocess.PIPE) as process:
            self.assertEqual(told(process), (read(SHOP, "--full"), b""))

    def test_a_pattern_that_matches_nothing_yet(self):
        """It says so once, and goes on."""
        pattern = f"{self.data}/binlog.0*"
        with self.run_follow("--interval", "0.01", pattern, stdout=subprocess.PIPE) as process:
            self.assertEqual(process.stderr.readline(), f"binlogfeed: no log matches {pattern} yet\n".encode())
            time.sleep(0.1)
            self.log("binlog.000001", log(1))
            self.assertEqual(process.stdout.readline(), line(1, 153, "binlog.000001"))
            process.send_signal(signal.SIGTERM)
            self.assertEqual(told(process), (b"", b""))

    def test_status(self):
        """It says the place that is kept, and how far it is behind."""
        self.index("binlog.000001")
        self.log("binlog.000001", log())
        words = ("--interval", "0.01", "--status", "0.05", str(self.data))
        with self.run_follow(*words, stdout=subprocess.PIPE) as process:
            self.said(process, rb"binlogfeed: place binlog\.000001, 0 bytes behind, 0 seconds behind\n")
            # What is cut is behind, too, and nothing is left to be read, though the last line is years old.
            self.log("binlog.000001", log(1) + b"cut")
            self.said(process, rb"binlogfeed: place 153\.1@binlog\.000001, 0 bytes behind, 0 seconds behind\n")
            process.send_signal(signal.SIGTERM)
            self.assertEqual(process.wait(SECONDS), 0)

    def test_bytes_behind(self):
        """The bytes of the logs behind the last whole look, or behind the place that is kept."""
        follower = self.follower()
        self.assertIn("place -, - bytes behind, - seconds", follower.status())
        self.index("binlog.000001")
        self.log("binlog.000001", log(1))
        self.assertIn("place -, 371 bytes behind, - seconds", follower.status())
        follower.catch_up()
        self.assertIn("place 153.1@binlog.000001, 0 bytes behind, 0 seconds", follower.status())
        self.log("binlog.000001", log(1, 2, following="binlog.000002"))
        self.log("binlog.000002", log())
        self.index("binlog.000001", "binlog.000002")
        self.assertIn(f"place 153.1@binlog.000001, {218 + 19 + 21 + 153} bytes behind", follower.status())
        follower.catch_up()
        self.assertIn("place binlog.000002, 0 bytes behind, 0 seconds", follower.status())
        follower.close()
        # A new follower knows only what is kept.
        again = self.follower()
        self.assertIn("place binlog.000002, 153 bytes behind, - seconds", again.status())
        again.close()

    def said(self, process, pattern):
        """The first line on standard error that a pattern matches."""
        until = time.monotonic() + SECONDS
        for text in iter(process.stderr.readline, b""):
            found = re.fullmatch(pattern, text)
            if found or time.monotonic() > until:
                break
        self.assertTrue(found, text)
        return found

    def test_sigterm(self):
        """It ends behind a look, also where all processes of a service are told."""
        self.index("binlog.000001")
        for many, tell in enumerate((os.kill, os.killpg), 1):
            self.log("binlog.000001", log(*range(1, many + 1)))
            with self.run_follow("--interval", "60", str(self.data), stdout=subprocess.PIPE, start_new_session=True) as process:
                place = 153 + 218 * (many - 1)
                self.assertEqual(process.stdout.readline(), line(many, place, "binlog.000001"))
                tell(process.pid, signal.SIGTERM)
                self.assertEqual(told(process, timeout=SECONDS), (b"", b""))
            self.assertEqual(process.returncode, 0)
            self.assertEqual(read_state(self.state).token, f"{place}.1@binlog.000001")

    def test_sigterm_within_a_long_look(self):
        """The look is ended behind lines that are out, and the place is kept behind them."""
        self.index("binlog.000001")
        self.log("binlog.000001", log(1))
        text = line(1, 153, "binlog.000001").decode()
        endless = self.stub(f"read line\nwhile :; do\ncat <<'END'\n{text}END\nsleep 0.01\ndone")
        code = "import sys; from binlogfeed import __main__ as main; main.GRACE = 0.1; sys.exit(main.main())"
        command = [sys.executable, "-c", code, "follow", "--program", endless, "--state", str(self.state), str(self.data)]
        with running(command, env=ENVIRONMENT, stdout=subprocess.PIPE, stderr=subprocess.PIPE) as process:
            out = process.stdout.readline()
            process.send_signal(signal.SIGTERM)
            out += process.stdout.read()
            said = without_beginning(process.stderr.read())
        self.assertEqual((process.returncode, said, out[-1:]), (0, b"", b"\n"))
        self.assertEqual(read_state(self.state).token, "153.1@binlog.000001")

    def test_sigint(self):
        self.index("binlog.000001")
        self.log("binlog.000001", log(1))
        # Where these tests run in the background of a shell, SIGINT is ignored, and the command would take that over.
        heeded = {"preexec_fn": lambda: signal.signal(signal.SIGINT, signal.SIG_DFL)}
        with self.run_follow("--interval", "60", str(self.data), stdout=subprocess.PIPE, **heeded) as process:
            process.stdout.readline()
            process.send_signal(signal.SIGINT)
            self.assertEqual(told(process, timeout=SECONDS), (b"", b""))
        self.assertEqual(process.returncode, 130)

    def cut_back(self, taken):
        """Cuts what was taken back to the kept place. What is kept was taken."""
        text, token = taken.read_bytes(), read_state(self.state).token
        if token is None:
            taken.write_bytes(b"")
            return
        member = f'"token":"{token}"}}\n'.encode()
        self.assertEqual(text.count(member), 1)
        taken.write_bytes(text[: text.index(member) + len(member)])

    def test_killed(self):
        """Kills it while a server writes, rotates and purges. Up to the kept place, what it wrote is what `read` writes."""
        taken, chance, ended = self.folder / "taken", random.Random(11), threading.Event()
        server, rounds = Server(self.data, BANK, chance, away=0.01), threading.Semaphore(0)

        def serve():
            try:
                steps = 0
                while server.step():
                    steps += 1
                    time.sleep(0.01)
                    # So it isn't at its end before there were some kills, however long a busy machine takes for each.
                    if steps % 30 == 0:
                        rounds.acquire(timeout=SECONDS)
                    if self.state.exists():
                        server.purge(read_state(self.state).file)
            finally:
                ended.set()

        thread, kills = threading.Thread(target=serve, daemon=True), 0
        thread.start()
        while not ended.is_set():
            with open(taken, "ab") as out, self.run_follow("--interval", "0.001", str(self.data), code=PATIENT_COMMAND, stdout=out) as process:
                time.sleep(0.1 + chance.random() * 0.3)
                process.kill()
                self.assertEqual(without_beginning(process.stderr.read()), b"")
            self.cut_back(taken)
            kills += 1
            rounds.release()
        thread.join()
        with open(taken, "ab") as out, self.run_follow("--once", str(self.data), stdout=out) as process:
            self.assertEqual((process.wait(), without_beginning(process.stderr.read())), (0, b""))
        self.assertEqual(taken.read_bytes(), read(BANK))
        self.assertGreater(kills, 5)

    def test_killed_within_a_look(self):
        """Kills it where one look has all lines to give, and keeps its place often."""
        taken, chance = self.folder / "taken", random.Random(12)
        self.index("binlog.000001")
        self.log("binlog.000001", logs.worked_log(20_000))
        code = "import sys; from binlogfeed import __main__ as main, follow; follow.KEEP_BYTES = 1; sys.exit(main.main())"
        command = [sys.executable, "-c", code, "follow", "--program", PROGRAM, "--state", str(self.state), str(self.data)]
        for _ in range(8):
            with open(taken, "ab") as out, running(command, env=ENVIRONMENT, stdout=out) as process:
                time.sleep(0.1 + chance.random() * 0.15)
                process.kill()
            self.cut_back(taken)
        with open(taken, "ab") as out, self.run_follow("--once", str(self.data), stdout=out) as process:
            self.assertEqual((process.wait(), without_beginning(process.stderr.read())), (0, b""))
        self.assertEqual(taken.read_bytes(), logs.change_lines(20_000, "binlog.000001"))
