"""The unit of systemd: what systemd says of it, and what its commands do."""
import re
import shlex
import shutil
import signal
import subprocess
import sys
import time
import unittest
from pathlib import Path

from support import PROGRAM, SECONDS, SHOP, TOP, FolderTest, running

UNIT = TOP / "examples/service/binlogfeed-follow.service"


def settings():
    """The unit's settings, by their names."""
    text = UNIT.read_text(encoding="utf-8").replace("\\\n", " ")
    return dict(line.split("=", 1) for line in text.splitlines() if re.match(r"\w+=", line))


class Service(FolderTest):
    """The unit."""

    @unittest.skipUnless(shutil.which("systemd-analyze"), "there is no systemd-analyze (apt-get install systemd)")
    def test_systemd_takes_it(self):
        ended = subprocess.run(["systemd-analyze", "verify", str(UNIT)], capture_output=True, text=True, check=False)
        self.assertEqual((ended.returncode, ended.stdout, ended.stderr), (0, "", ""))

    def test_statuses(self):
        """It is started again for 4 and 5, and where it was killed. The README says what to do for each status."""
        statuses = set(re.findall(r"^\| (\d+) \|", (TOP / "docs/USAGE.md").read_text(encoding="utf-8"), re.MULTILINE))
        self.assertLessEqual({"0", "1", "2", "3", "4", "5", "6", "70"}, statuses)
        found = settings()
        self.assertEqual(found["RestartForceExitStatus"].split(), ["4", "5", "137", "143"])
        self.assertFalse(set(found["RestartForceExitStatus"].split()) & set(found["RestartPreventExitStatus"].split()))
        self.assertLessEqual(statuses - {"0", "4", "5"}, set(found["RestartPreventExitStatus"].split()))
        told = (TOP / "examples/service/README.md").read_text(encoding="utf-8")
        for status in statuses:
            self.assertRegex(told, rf"(?m)^\| {status} \| .* \| {'yes' if status in ('4', '5') else 'no'} \|")

    def words(self, name):
        """A command of the unit's, with the paths of this test."""
        paths = {"%S": str(self.folder), "/opt/binlogfeed": str(TOP), "/usr/local/bin/binlogfeed": PROGRAM}
        paths.update({"/var/lib/mysql": str(self.data), "/usr/bin/env python3": sys.executable, "exec python3": f"exec {sys.executable}"})
        command = settings()[name]
        for old, new in paths.items():
            command = command.replace(old, new)
        return shlex.split(command.replace("$$", "$"))

    def test_commands(self):
        """The lines and the place are kept. A cut line is taken off before the next start, and comes again."""
        self.data = self.folder / "data"
        shutil.copytree(SHOP[0].parent, self.data)
        (self.data / "binlog.index").write_text("./binlog.000001\n")
        (self.folder / "binlogfeed").mkdir()
        lines = self.folder / "binlogfeed/lines.jsonl"
        wanted = subprocess.run([PROGRAM, "read", "--full", *map(str, SHOP)], capture_output=True, check=True).stdout
        first = subprocess.run([PROGRAM, "read", "--full", str(SHOP[0])], capture_output=True, check=True).stdout
        environment = dict(pair.split("=") for pair in settings()["Environment"].replace("/opt/binlogfeed", str(TOP)).split())
        for text in (first, wanted):
            subprocess.run(self.words("ExecStartPre"), check=True)
            with running(self.words("ExecStart"), env=environment) as process:
                until = time.monotonic() + SECONDS
                while (not lines.exists() or lines.stat().st_size < len(text)) and time.monotonic() < until:
                    time.sleep(0.01)
                process.send_signal(signal.SIGTERM)
                self.assertEqual(process.wait(SECONDS), 0)
            self.assertEqual(lines.read_bytes(), text)
            with open(lines, "ab") as file:
                file.write(wanted[:20])
            (self.data / "binlog.index").write_text("./binlog.000001\n./binlog.000002\n")

    def test_whole_lines(self):
        script = TOP / "examples/service/whole_lines.py"
        long = b"x" * 200_000
        for text, wanted in ((b"", b""), (b"a", b""), (b"a\n", b"a\n"), (b"a\nb", b"a\n"), (b"a\n" + long, b"a\n"), (long, b"")):
            path = self.put("lines", text)
            self.assertEqual(subprocess.run([sys.executable, script, path], check=True).returncode, 0)
            self.assertEqual(path.read_bytes(), wanted)
        subprocess.run([sys.executable, script, self.folder / "none"], check=True)
        self.assertFalse(Path(self.folder / "none").exists())
