"""The command `binlogfeed`: what it hands over to the program, and what it does in Python."""
import contextlib
import io
import os
import re
import shutil
import subprocess
import sys
from pathlib import Path
from unittest import mock

from binlogfeed import __main__ as commands
from binlogfeed import front
from binlogfeed.faults import WordsRefused
from support import PROGRAM, SHOP, TOP, FolderTest

COMMAND = TOP / "python/command.py"
REPLICA = TOP / "examples/replica/replica.py"
# Whether what runs the tests asks for hints isn't to count.
ENVIRONMENT = {**{name: value for name, value in os.environ.items() if name != "BINLOGFEED_HINTS"}, "PYTHONDONTWRITEBYTECODE": "1"}


class FrontTest(FolderTest):
    """A test of the command."""

    def run_command(self, *words, program=PROGRAM, replica=REPLICA, python=sys.executable, command=None, **environment):
        """The status of the command, or of another one, its output, and what it says."""
        ended = subprocess.run(
            [python, *([command] if command else [COMMAND, program, replica]), *words],
            env={**ENVIRONMENT, **environment}, cwd=self.folder, capture_output=True, text=True, check=False,
        )  # fmt: skip
        return ended.returncode, ended.stdout, ended.stderr


class HandedOver(FrontTest):
    """Words for the program."""

    def test_words(self):
        """They are as they were given; the name, too. Status and texts are the program's own."""
        program = self.stub('printf "<%s>" "$@"; echo "hints $BINLOGFEED_HINTS" >&2; exit 3')
        given = ["read", "", "a b", "--help", "-", "é", "*", "$HOME"]
        shown = "".join(f"<{word}>" for word in given)
        self.assertEqual(self.run_command(*given, program=program), (3, shown, "hints 1\n"))
        self.assertEqual(self.run_command(*given, program=program, BINLOGFEED_HINTS="0"), (3, shown, "hints 0\n"))

    def test_all_that_is_not_in_python(self):
        """Words that neither has are refused by the program, in its own way."""
        program = self.stub('echo "program $*"')
        for words in ([], ["read"], ["reed"], ["--state"], ["help", "read"], ["help", "reed"], ["-V"]):
            self.assertEqual(self.run_command(*words, program=program), (0, f"program {' '.join(words)}\n", ""))

    def test_same_process(self):
        """The program takes the place of the command, so a signal is told as it is."""
        self.assertEqual(self.run_command("read", program=self.stub("kill -9 $$"))[0], -9)

    def test_no_program(self):
        missing = self.folder / "none"
        said = f"binlogfeed: the program can't be started: {missing}: No such file or directory\n"
        self.assertEqual(self.run_command("read", program=missing), (70, "", said))


class InPython(FrontTest):
    """Words for the package."""

    def test_follow(self):
        words = ["follow", "--once", "--state", "state", str(SHOP[0].parent / "binlog.*")]
        status, out, _ = self.run_command(*words, PATH="/nonexistent")
        self.assertEqual((status, out), (0, (SHOP[0].parent / "read.jsonl").read_text(encoding="utf-8")))

    def test_an_error(self):
        """It has the program's line, and its hint."""
        status, out, said = self.run_command("summary", "--program", PROGRAM, "--only-events=x", *map(str, SHOP))
        self.assertEqual((status, out), (2, ""))
        line, hint = said.splitlines()
        self.assertEqual(line, "binlogfeed: bad --only-events: x")
        self.assertTrue(hint.startswith("hint: --only-events takes insert, update and delete, "), hint)

    def test_usage(self):
        """A mistake in a command's own words is told by the command's name."""
        status, _, said = self.run_command("follow")
        self.assertEqual(status, 2)
        self.assertRegex(said, r"\Ausage: binlogfeed follow ")
        status, _, said = self.run_command("replica")
        self.assertEqual(status, 2)
        self.assertRegex(said, r"\Ausage: binlogfeed replica ")

    def test_the_replicas_name(self):
        """Its help calls it by the name that it is started with."""
        examples = ["%s sqlite:FILE SCHEMA LOGS", "%s postgres:CONNECTION SCHEMA LOGS"]
        for name, (status, out, said) in (
            ("binlogfeed replica", self.run_command("replica", "--help")),
            ("binlogfeed replica", self.run_command("help", "replica")),
            ("replica.py", self.run_command("--help", command=REPLICA)),
        ):
            self.assertEqual((status, said), (0, ""))
            self.assertEqual(re.findall(r"(?m)^    (.* LOGS)$", out), [example % name for example in examples])
            self.assertRegex(out, rf"\Ausage: {name} \[")
            self.assertEqual("replica.py" in out, name == "replica.py")

    def test_no_replica(self):
        said = f"binlogfeed: {self.folder}/none, the replica, isn't there\n"
        self.assertEqual(self.run_command("replica", replica=self.folder / "none"), (70, "", said))

    def test_one_table(self):
        """A command that is added to the table of commands is known to all of this."""

        def add(parsers):
            parser = parsers.add_parser("archive", help="takes a copy")
            parser.add_argument("--fail", action="store_true")
            parser.set_defaults(run=run)

        def run(given):
            if given.fail:
                raise WordsRefused("binlogfeed: no").hinted("try again")
            print("taken")

        with mock.patch.object(commands, "COMMANDS", (*commands.COMMANDS, add)):
            self.assertEqual(front.own_commands()["archive"], "takes a copy")
            self.assertRegex(front.help_text(Path(PROGRAM)), r"\n  copy .*\n  archive +Takes a copy\n  replica .*\n  help ")
            for words, wanted in (
                (["archive"], (0, "taken\n", "")),
                (["archive", "--fail"], (2, "", "binlogfeed: no\nhint: try again\n")),
            ):
                out, said = io.StringIO(), io.StringIO()
                with contextlib.redirect_stdout(out), contextlib.redirect_stderr(said):
                    self.assertEqual((front.main(words, Path(PROGRAM)), out.getvalue(), said.getvalue()), wanted)

    def test_another_help(self):
        """A program with another help isn't taken for this one."""
        with self.assertRaises(ValueError):
            front.help_text(Path(self.stub("echo Usage")))

    def test_an_old_python(self):
        python = shutil.which("python3.8")
        if not python or subprocess.run([python, "-c", ""], capture_output=True, check=False).returncode:
            self.skipTest("there is no Python 3.8")
        said = "binlogfeed: Python 3.9 or later is needed for this, and here is 3.8\n"
        self.assertEqual(self.run_command("follow", python=python), (70, "", said))
