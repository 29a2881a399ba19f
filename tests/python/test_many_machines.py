"""The example that reads file by file on many workers: it writes the bytes that one `binlogfeed read` writes."""
import importlib.util
import io
import os
import shutil
import subprocess
import sys
import unittest
from pathlib import Path

from support import BANK, PROGRAM, SHOP, TOP, FolderTest

READ = TOP / "examples/many_machines/read.py"


def python_with_distributed():
    """This Python, or the system's, if dask.distributed is there for it."""
    for python in (sys.executable, "/usr/bin/python3"):
        try:
            if subprocess.run([python, "-c", "import dask.distributed"], capture_output=True, check=False).returncode == 0:
                return python
        except OSError:
            pass
    return None


PYTHON = python_with_distributed()


class Words(unittest.TestCase):
    """Words that are judged before any worker is looked for. Its libraries may be missing."""

    def test_a_token_is_refused(self):
        for words in (("--from", "4.1@binlog.000001"), ("--from=4.1@binlog.000001",)):
            ended = subprocess.run([PYTHON or sys.executable, READ, "logs", "--", *words], capture_output=True, check=False)
            self.assertEqual((ended.returncode, ended.stdout), (2, b""))
            self.assertIn(b"--from isn't taken", ended.stderr)

    def test_the_program_of_other_machines(self):
        """Its path is that of the workers' machines. On this one it may be missing."""
        read = example()
        self.assertEqual(read.absolute("./nothing", is_local=False), str(Path("nothing").absolute()))
        self.assertEqual(read.absolute("nothing-on-path", is_local=False), "nothing-on-path")
        self.assertEqual(read.absolute("sh", is_local=False), read.absolute("sh", is_local=True))
        with self.assertRaises(read.ProgramMissing):
            read.absolute("nothing-on-path", is_local=True)


def example():
    """The example as a module. It looks for dask.distributed only where it begins workers."""
    spec = importlib.util.spec_from_file_location("read_on_many_machines", READ)
    module = importlib.util.module_from_spec(spec)
    spec.loader.exec_module(module)
    return module


class Pieces(FolderTest):
    """What single readings come to, without workers."""

    def joined(self, logs):
        """The status and the lines of these logs, read one by one. What is written is gone from the folder."""
        read, out = example(), io.BytesIO()
        following = [log.name for log in logs[1:]] + [None]
        pieces = [read.Piece(*read.read_alone(str(log), name, PROGRAM, [], self.folder)) for log, name in zip(logs, following)]
        self.assertEqual(len(list(self.folder.iterdir())), len(logs))
        stopped = read.join(iter(pieces), out)
        behind = pieces[pieces.index(stopped) + 1 :] if stopped else []
        self.assertEqual(sorted(self.folder.iterdir()), sorted(Path(piece.lines) for piece in behind))
        return stopped.status if stopped else 0, out.getvalue()

    def test_joined(self):
        """Each file has an empty one of the next name behind it: logs that are missing between two are a fault, as in one run."""
        for logs in (BANK, [BANK[0], *BANK[3:]]):
            wanted = subprocess.run([PROGRAM, "read", *logs], capture_output=True, check=False)
            self.assertEqual(wanted.returncode, 0 if logs is BANK else 1)
            with self.subTest(logs=len(logs)):
                self.assertEqual(self.joined(logs), (wanted.returncode, wanted.stdout))
            for path in self.folder.iterdir():
                path.unlink()

    def test_joined_up_to_a_fault(self):
        read, out = example(), io.BytesIO()
        files = [self.put(name, f"{name}\n".encode()) for name in ("first", "second", "third")]
        pieces = [read.Piece(str(file), status, b"") for file, status in zip(files, (0, 1, 0))]
        self.assertIs(read.join(iter(pieces), out), pieces[1])
        self.assertEqual(out.getvalue(), b"first\nsecond\n")
        self.assertEqual([file.exists() for file in files], [False, False, True])


# Stands in for dask.distributed: one process, which does all as soon as it is asked, so that what the example does itself is tested
# where there is no cluster.
STAND_IN = """
import os


class LocalCluster:
    def __init__(self, n_workers, threads_per_worker, dashboard_address):
        assert (n_workers, threads_per_worker, dashboard_address) == (2, 1, None)

    def __enter__(self):
        return self

    def __exit__(self, *error):
        pass


class Client(LocalCluster):
    def __init__(self, place):
        self.readings = []
        if isinstance(place, str):
            # The machines of a cluster have a program that this one has not.
            os.environ["PATH"] = f"{place}:{os.environ['PATH']}"

    def map(self, function, *lists, pure, **same):
        assert not pure
        self.readings = [Done(function(*words, **same)) for words in zip(*lists)]
        return self.readings

    def cancel(self, readings):
        assert readings is self.readings


class Done:
    def __init__(self, answer):
        self.answer = answer

    def result(self):
        return self.answer
"""


class InOneProcess(FolderTest):
    """The example's own work."""

    python = sys.executable

    def setUp(self):
        """Puts the stand-in where the example finds it."""
        super().setUp()
        (self.folder / "path/dask").mkdir(parents=True)
        for name, text in (("__init__", ""), ("distributed", STAND_IN)):
            self.put(f"path/dask/{name}.py", text.encode())

    def environment(self):
        """That of the commands."""
        return {**os.environ, "PYTHONDONTWRITEBYTECODE": "1", "PYTHONPATH": str(self.folder / "path")}

    def ended(self, *words):
        """How a command ended: its status, its output, its line on standard error."""
        words = list(map(str, words))
        ended = subprocess.run(words, cwd=self.folder, env=self.environment(), input=b"mine", capture_output=True, check=False)
        return ended.returncode, ended.stdout, ended.stderr

    def same(self, logs, *options):
        """Reads logs in both ways. Answers how both ended."""
        wanted = self.ended(PROGRAM, "read", *options, *logs)
        index = self.put("logs.index", "".join(f"{log}\n" for log in logs).encode())
        came = self.ended(self.python, READ, "--workers", 2, "--program", PROGRAM, index, "--", *options)
        self.assertEqual(came, wanted)
        return wanted

    def test_all_files(self):
        status, lines, said = self.same(BANK)
        self.assertEqual((status, said), (0, b""))
        self.assertGreater(lines.count(b"\n"), 200)

    def test_filters(self):
        status, lines, _ = self.same(SHOP, "--only-tables", "purchase,customer", "--only-events=update,delete")
        self.assertEqual(status, 0)
        self.assertGreater(lines.count(b"\n"), 0)

    def test_a_fault_ends_it(self):
        """A file that is damaged, and one that is missing. What stands behind isn't written."""
        logs = [self.folder / log.name for log in BANK[:6]]
        for log in BANK[:6]:
            shutil.copy(log, self.folder)
        content = bytearray(logs[2].read_bytes())
        content[len(content) // 2 :] = bytes(len(content) - len(content) // 2)
        logs[2].write_bytes(content)
        status, lines, said = self.same(logs)
        self.assertEqual(status, 1)
        self.assertIn(b"log fault at binlog.000003:", said)
        self.assertGreater(lines.count(b"\n"), 0)
        status, _, said = self.same([*logs[:1], *logs[3:]])
        self.assertIn(b"RotationMismatch", said)

    def test_a_cluster(self):
        """Its machines have the program, and this one needn't. A folder is named that all share."""
        there, parts = self.folder / "there", self.folder / "parts"
        for folder in (there, parts):
            folder.mkdir()
        os.link(self.stub(f'exec {PROGRAM} "$@"'), there / "theirs")
        words = ["--scheduler", there, "--program", "theirs", SHOP[0].parent / "binlog.0*"]
        self.assertEqual(self.ended(self.python, READ, *words, "--parts", parts), self.ended(PROGRAM, "read", *SHOP))
        status, lines, said = self.ended(self.python, READ, *words)
        self.assertEqual((status, lines), (2, b""))
        self.assertIn(b"--scheduler wants --parts", said)

    def test_no_logs(self):
        for logs in (self.put("binlog.index", b""), f"{self.folder}/binlog.0*"):
            self.assertEqual(self.ended(self.python, READ, "--program", PROGRAM, logs), (0, b"", b""))

    def test_equal_names(self):
        status, lines, said = self.same([SHOP[0], BANK[1], BANK[0]])
        self.assertEqual((status, lines, said), (2, b"", b"binlogfeed: duplicate file binlog.000001\n"))

    def test_no_program(self):
        came = self.ended(self.python, READ, "--program", "./nothing", SHOP[0].parent / "binlog.0*")
        self.assertEqual(came, (70, b"", b"binlogfeed: the program can't be started: there is no ./nothing\n"))

    def test_the_input_is_not_taken(self):
        """What stands at the command's standard input isn't the program's."""
        program = self.stub(f'cat >> {self.folder}/taken\nexec {PROGRAM} "$@"')
        came = self.ended(self.python, READ, "--program", program, SHOP[0].parent / "binlog.0*")
        self.assertEqual(came, self.ended(PROGRAM, "read", *SHOP))
        self.assertEqual((self.folder / "taken").read_bytes(), b"")

    def test_the_folder_for_pieces_is_left_empty(self):
        parts = self.folder / "parts"
        parts.mkdir()
        came = self.ended(self.python, READ, "--program", PROGRAM, "--parts", parts, SHOP[0].parent / "binlog.0*")
        self.assertEqual(came, self.ended(PROGRAM, "read", *SHOP))
        self.assertEqual(list(parts.iterdir()), [])


@unittest.skipUnless(PYTHON, "there is no dask.distributed (apt-get install python3-distributed)")
class Cluster(InOneProcess):
    """The same with two workers on this machine."""

    python = PYTHON
    # It would need other machines.
    test_a_cluster = None

    def environment(self):
        """That of the commands, with the libraries of this machine."""
        return {**os.environ, "PYTHONDONTWRITEBYTECODE": "1"}
