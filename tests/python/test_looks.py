"""A run of the program that goes on, look after look: by its own protocol, and by the package."""
import random
import subprocess

import logs
from binlogfeed import FileFault, LogFault, LogLost, LogsGone, OutOfMemory, Place, ProgramFailed, TokenRefused, WordsRefused
from binlogfeed import watch as watching
from binlogfeed.program import LookingRun
from binlogfeed.watch import Watch
from built.growing import Driver, Server
from support import BANK, PROGRAM, SHOP, FolderTest
from test_follow import read

FOLLOW = [PROGRAM, "read", "--follow"]


class Protocol(FolderTest):
    """What the program answers to what it is told on standard input."""

    def test_servers_that_grow(self):
        """By random steps, with lists and without, and with logs purged: each line once, and in the end all of them."""
        for seed, files, words in ((1, SHOP, []), (2, SHOP, ["--full"]), (3, BANK, []), (4, BANK, ["--only-tables=account"])):
            with self.subTest(seed=seed):
                folder = self.folder / str(seed)
                folder.mkdir()
                chance = random.Random(seed)
                server, driver = Server(folder, files, chance), Driver(PROGRAM, *words)
                lines, listed, goes_on = b"", [], True
                while goes_on:
                    goes_on = server.step()
                    if chance.random() < 0.2 and listed == server.paths:
                        # The last log alone was begun.
                        server.purge(listed[-1].name)
                    tell = server.paths != listed or chance.random() < 0.3
                    listed = server.paths
                    lines += driver.look(*(listed if tell else ()))
                self.assertEqual(driver.ended(), (0, b"", b""))
                self.assertEqual(lines, read(files, *words))

    def test_files_on_the_command_line(self):
        path = self.put("binlog.000001", logs.A)
        driver = Driver(PROGRAM, str(path))
        self.assertEqual(driver.answer(), logs.change_lines(1, "binlog.000001"))
        self.put("binlog.000001", logs.worked_log(3))
        self.assertEqual(driver.look(), logs.change_lines(3, "binlog.000001")[len(logs.change_lines(1, "binlog.000001")) :])
        self.assertEqual(driver.ended(), (0, b"", b""))

    def test_no_file_yet(self):
        driver = Driver(PROGRAM)
        self.assertEqual([driver.look() for _ in range(2)], [b"", b""])
        path = self.put("binlog.000001", logs.A)
        self.assertEqual(driver.look(path), logs.change_lines(1, "binlog.000001"))
        self.assertEqual(driver.ended(), (0, b"", b""))

    def test_a_list_that_is_cut(self):
        path = self.put("binlog.000001", logs.A)
        for text in (b"", str(path).encode(), f"{path}\n".encode()):
            ended = subprocess.run(FOLLOW, input=text, capture_output=True, check=False)
            self.assertEqual((ended.returncode, ended.stdout, ended.stderr), (0, b"", b""))

    def test_refused(self):
        path = self.put("binlog.000001", logs.A)
        other = self.put("binlog.000002", logs.A)
        folder = self.folder / "more"
        folder.mkdir()
        twice = folder / "binlog.000001"
        twice.write_bytes(b"")
        missing = self.folder / "missing"
        cases = [
            (f"{path}\n{twice}\n\n", 2, "duplicate file binlog.000001"),
            (f"{path}\n\n{other}\n\n", 3, "file gone: binlog.000001"),
            (f"{missing}\n\n", 4, f"cannot open {missing}"),
            (f"{path}\n\n{path}\n{missing}\n\n", 4, f"cannot open {missing}"),
        ]
        for text, status, said in cases:
            ended = subprocess.run(FOLLOW, input=text.encode(), capture_output=True, check=False)
            self.assertEqual((ended.returncode, ended.stderr), (status, f"binlogfeed: {said}\n".encode()))
        ended = subprocess.run(FOLLOW, input=b"\xff\n\n", capture_output=True, check=False)
        self.assertEqual((ended.returncode, ended.stderr), (4, b"binlogfeed: cannot read the list of files\n"))

    def test_a_log_that_got_shorter(self):
        path = self.put("binlog.000001", logs.worked_log(2) + b"cut")
        driver = Driver(PROGRAM)
        self.assertEqual(driver.look(path), logs.change_lines(2, "binlog.000001"))
        self.put("binlog.000001", logs.worked_log(2))
        self.assertEqual(driver.look(), b"")
        self.put("binlog.000001", logs.worked_log(2)[:-1])
        with self.assertRaises(EOFError):
            driver.look()
        self.assertEqual(driver.ended(), (3, b"", b"binlogfeed: file shorter: binlog.000001\n"))

    def test_a_place_at_the_end(self):
        """Following begins at the end of a transaction, which no change's token names."""
        path = self.put("binlog.000001", logs.A)
        driver = Driver(PROGRAM, "--from=371.0@binlog.000001")
        self.assertEqual(driver.look(path), b"")
        self.put("binlog.000001", logs.worked_log(2))
        self.assertEqual(driver.look(), logs.change_lines(2, "binlog.000001")[len(logs.change_lines(1, "binlog.000001")) :])
        self.assertEqual(driver.ended(), (0, b"", b""))

    def test_a_token_that_fits_no_place(self):
        path = self.put("binlog.000001", logs.A)
        driver = Driver(PROGRAM, "--from=370.0@binlog.000001")
        with self.assertRaises(EOFError):
            driver.look(path)
        self.assertEqual(driver.ended(), (3, b"", b"binlogfeed: token refused: TokenNoTransaction\n"))


class Blocks(FolderTest):
    """How an answer is parted."""

    def blocks(self, script):
        """The blocks of a look that a stub answers, and whether it came to its end."""
        run = LookingRun([self.stub(f"read line\n{script}\nread line")])
        self.addCleanup(run.end)
        self.in_time(run.end)
        look, found = run.look([]), []
        while True:
            try:
                found.append(next(look))
            except StopIteration as ended:
                return found, ended.value

    def test_whole_lines(self):
        pause = "sleep 0.05"
        cases = [
            ("echo", []),
            ("echo a; echo b; echo", [b"a\nb\n"]),
            (f"echo a; {pause}; echo", [b"a\n"]),
            (f"printf 'a\\nb'; {pause}; printf c; {pause}; printf '\\n'; {pause}; echo", [b"a\n", b"bc\n"]),
            (f"printf a; {pause}; printf '\\n\\n'", [b"a\n"]),
            (f"printf 'a\\nb'; {pause}; printf '\\n\\n'", [b"a\n", b"b\n"]),
        ]
        for script, wanted in cases:
            with self.subTest(script):
                found, whole = self.blocks(script)
                # Two writes may come at once.
                self.assertEqual((b"".join(found), whole), (b"".join(wanted), True))
                self.assertTrue(all(block.endswith(b"\n") for block in found))

    def test_a_long_line(self):
        found, whole = self.blocks("head -c 3000000 /dev/zero | tr '\\0' x; echo; echo")
        self.assertEqual((found, whole), ([b"x" * 3_000_000 + b"\n"], True))

    def test_a_run_that_ends(self):
        """Its error comes behind its whole lines. A cut one isn't given."""
        cases = [
            ("echo 'binlogfeed: log fault at f:4: BadLength' >&2; exit 1", LogFault),
            ("echo 'binlogfeed: duplicate file f' >&2; exit 2", WordsRefused),
            ("echo 'binlogfeed: token refused: TokenNoFile' >&2; exit 3", TokenRefused),
            ("echo 'binlogfeed: file shorter: f' >&2; exit 3", LogLost),
            ("echo 'binlogfeed: cannot open f' >&2; exit 4", FileFault),
            ("echo 'binlogfeed: out of memory' >&2; exit 5", OutOfMemory),
            ("kill -9 $$", ProgramFailed),
            ("exit 0", ProgramFailed),
        ]
        for script, kind in cases:
            with self.subTest(script):
                run = LookingRun([self.stub(f"read line\nprintf 'a\\nb'\n{script}")])
                look = run.look([])
                self.assertEqual(next(look), b"a\n")
                with self.assertRaises(kind):
                    next(look)

    def test_a_run_that_ended_before(self):
        """It doesn't take the list any more."""
        run = LookingRun([self.stub("echo 'binlogfeed: out of memory' >&2; exit 5")])
        run._process.wait()
        with self.assertRaises(OutOfMemory):
            list(run.look([self.folder / "f"]))

    def test_a_path_with_a_line_feed(self):
        run = LookingRun([self.stub("exec sleep 60")])
        with self.assertRaises(FileFault):
            list(run.look([self.folder / "a\nb"]))
        run.end()


class Watching(FolderTest):
    """Looks at logs, from a place on."""

    def watch(self, place=Place(), program=PROGRAM, where=None):
        """A watch of the folder's logs."""
        watch = Watch(where or str(self.folder), [program, "read", "--follow"], place)
        self.addCleanup(watch.end)
        self.in_time(watch.end)
        return watch

    def index(self, *names):
        """Writes the index."""
        self.put("binlog.index", "".join(f"./{name}\n" for name in names).encode())

    def lines(self, watch):
        """The lines of a look."""
        return b"".join(watch.look())

    def asking(self):
        """The program, and a file that has what it is told."""
        told = f'while IFS= read -r line; do echo "$line" >> {self.folder}/told; echo "$line"; done'
        return self.stub(f'{told} | {PROGRAM} "$@"')

    def test_what_the_program_is_told(self):
        """A list where the logs are others, an empty line where they have grown, and else nothing."""
        watch = self.watch(program=self.asking())
        first, second = self.folder / "binlog.000001", self.folder / "binlog.000002"
        self.put("binlog.000001", logs.A)
        self.index("binlog.000001")
        for _ in range(3):
            self.lines(watch)
        self.put("binlog.000001", logs.worked_log(2))
        self.assertEqual(watch.place.token, "153.1@binlog.000001")
        self.lines(watch)
        self.put("binlog.000002", logs.A)
        self.index("binlog.000001", "binlog.000002")
        self.lines(watch)
        self.lines(watch)
        self.put("binlog.000002", logs.worked_log(2))
        self.lines(watch)
        told = (self.folder / "told").read_text()
        # Behind a look at both, the first log is done.
        self.assertEqual(told, f"{first}\n\n\n{first}\n{second}\n\n{second}\n\n")
        self.assertEqual(watch.place.token, "371.1@binlog.000002")

    def test_digests_are_read_where_a_log_has_changed(self):
        read_of, before = [], watching.beginning

        def counted(path):
            read_of.append(path.name)
            return before(path)

        watching.beginning = counted
        self.addCleanup(setattr, watching, "beginning", before)
        watch = self.watch()
        self.put("binlog.000001", logs.A)
        self.put("binlog.000002", logs.A)
        self.index("binlog.000001", "binlog.000002")
        for _ in range(3):
            self.lines(watch)
        self.assertEqual(read_of, ["binlog.000001", "binlog.000002"])
        self.put("binlog.000002", logs.worked_log(2))
        self.lines(watch)
        self.assertEqual(read_of, ["binlog.000001", "binlog.000002", "binlog.000002"])

    def test_a_log_that_got_shorter(self):
        """The server lost the log's end in a crash. What wasn't read may be lost, what was read may not."""
        self.put("binlog.000001", logs.worked_log(2)[:-1])
        self.index("binlog.000001")
        watch = self.watch()
        self.assertEqual(self.lines(watch), logs.change_lines(1, "binlog.000001"))
        self.put("binlog.000001", logs.A)
        self.assertEqual(self.lines(watch), b"")
        self.put("binlog.000001", logs.A[:-1])
        self.put("binlog.000002", logs.A)
        self.index("binlog.000001", "binlog.000002")
        with self.assertRaises(LogLost) as caught:
            self.lines(watch)
        self.assertEqual((caught.exception.status, caught.exception.file), (3, "binlog.000001"))

    def test_another_log_under_the_name(self):
        """After RESET BINARY LOGS: shorter, as long, and longer than the one that was read."""
        for count in (1, 2, 3):
            with self.subTest(count=count):
                self.put("binlog.000001", logs.worked_log(2))
                self.index("binlog.000001")
                watch = self.watch()
                self.assertEqual(self.lines(watch), logs.change_lines(2, "binlog.000001"))
                new = bytearray(logs.worked_log(count))
                new[4:8] = (logs.TIME + 1).to_bytes(4, "little")
                self.put("binlog.000001", bytes(new))
                with self.assertRaises(LogsGone):
                    self.lines(watch)

    def test_a_fault_and_a_new_run(self):
        """A log that can't be opened is tried once more, behind the lines that were given."""
        self.put("binlog.000001", logs.worked_log(2))
        self.index("binlog.000001")
        line = logs.change_line(153, 1, "binlog.000001")
        program = self.stub(
            f"if mkdir {self.folder}/once 2>/dev/null; then\nread line\ncat <<'END'\n{line}END\n"
            f"echo 'binlogfeed: cannot open x' >&2\nexit 4\nfi\nexec {PROGRAM} \"$@\""
        )
        self.assertEqual(self.lines(self.watch(program=program)), logs.change_lines(2, "binlog.000001"))
        always = self.watch(program=self.stub("echo 'binlogfeed: cannot open x' >&2\nexit 4"))
        with self.assertRaises(FileFault) as caught:
            self.lines(always)
        self.assertEqual(caught.exception.line, "binlogfeed: cannot open x")

    def test_lines_that_nobody_took(self):
        """They come again."""
        self.put("binlog.000001", logs.worked_log(2))
        self.index("binlog.000001")
        watch = self.watch()
        look = watch.look()
        self.assertEqual(next(look), logs.change_lines(2, "binlog.000001"))
        look.close()
        self.assertEqual(watch.place, Place())
        self.assertEqual(self.lines(watch), logs.change_lines(2, "binlog.000001"))

    def test_named_files(self):
        """They need no names of a server's, and no index."""
        first, second = self.put("a", logs.A), self.put("b", logs.A)
        watch = self.watch(where=[first, second])
        self.assertEqual(self.lines(watch), logs.change_lines(1, "a") + logs.change_lines(1, "b"))
        self.put("b", logs.worked_log(2))
        self.assertEqual(self.lines(watch), logs.change_line(371, 2, "b").encode())
