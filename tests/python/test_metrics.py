"""What `follow --metrics` writes for Prometheus."""
import re
import signal
import subprocess
import sys
import time
from unittest import mock

import logs
from binlogfeed import LogFault, Place, metrics
from binlogfeed.follow import Measure
from binlogfeed.metrics import as_text, metrics_of, written
from binlogfeed.version import VERSION
from support import PROGRAM, SECONDS, SHOP, running
from test_follow import ENVIRONMENT, ServerTest, log

# Python 3.9 compares no lengths.
STRICT = {"strict": True} if sys.version_info >= (3, 10) else {}
SAMPLE = re.compile(r'(binlogfeed_[a-z_]+)\{((?:[a-z]+="(?:[^"\\\n]|\\["\\n])*",?)*)\} (-?\d+)')
LABEL = re.compile(r'([a-z]+)="((?:[^"\\]|\\.)*)"')


def parsed(text):
    """The samples of a file, by their names: labels and value. Each has one HELP and one TYPE, which stand before it."""
    found, lines = {}, text.split("\n")
    if lines.pop() != "":
        raise AssertionError("the last line isn't whole")
    for help_line, type_line, sample in zip(lines[::3], lines[1::3], lines[2::3], **STRICT):
        name, labels, value = SAMPLE.fullmatch(sample).groups()
        if not help_line.startswith(f"# HELP {name} ") or type_line not in (f"# TYPE {name} gauge", f"# TYPE {name} counter"):
            raise AssertionError(f"{help_line}, {type_line}: {sample}")
        if type_line.endswith("counter") != name.endswith("_total") or name in found:
            raise AssertionError(sample)
        found[name] = dict(LABEL.findall(labels)), int(value)
    return found


class Metrics(ServerTest):
    """The file."""

    def setUp(self):
        """Names it."""
        super().setUp()
        self.path = self.folder / "feed.prom"

    def command(self, *words):
        """The command, over the folder of the server's logs."""
        words = ["--state", str(self.state), "--program", PROGRAM, "--metrics", str(self.path), "--interval", "0.01", *words]
        return [sys.executable, "-m", "binlogfeed", "follow", *words]

    def values(self):
        """The file's values."""
        return {name: value for name, (_, value) in parsed(self.path.read_text()).items()}

    def test_the_shop(self):
        """Its last change is that of byte 2072 in its second log, and nothing is behind it."""
        ended = subprocess.run(self.command("--once", f"{SHOP[0].parent}/binlog.0*"), env=ENVIRONMENT, stdout=subprocess.PIPE, check=True)
        found = parsed(self.path.read_text())
        state = {"state": str(self.state)}
        self.assertEqual(
            found,
            {
                "binlogfeed_info": ({"version": VERSION, **state}, 1),
                "binlogfeed_place_bytes": ({"log": "binlog.000002", **state}, 2072),
                "binlogfeed_lines_total": (state, 19),
                "binlogfeed_behind_bytes": (state, 0),
                "binlogfeed_behind_seconds": (state, 0),
                "binlogfeed_faults_total": (state, 0),
            },
        )
        self.assertEqual(ended.stdout.count(b"\n"), 19)
        self.assertEqual(sorted(path.name for path in self.folder.glob("feed*")), ["feed.prom"])

    def test_while_it_follows(self):
        """It is written again within a second or two, by a new file in its place, and at the end."""
        self.index("binlog.000001")
        self.log("binlog.000001", log(1))
        with running(self.command(str(self.data)), env=ENVIRONMENT, stdout=subprocess.PIPE, stderr=subprocess.DEVNULL) as process:
            process.stdout.readline()
            self.until(lambda: self.values().get("binlogfeed_place_bytes") == 153)
            with open(self.path, encoding="utf-8") as old:
                self.log("binlog.000001", log(1, 2))
                process.stdout.readline()
                self.until(lambda: self.values()["binlogfeed_place_bytes"] == 371)
                self.assertEqual(parsed(old.read())["binlogfeed_place_bytes"][1], 153)
            self.log("binlog.000001", log(1, 2, 3))
            process.stdout.readline()
            process.send_signal(signal.SIGTERM)
            self.assertEqual(process.wait(SECONDS), 0)
        found = self.values()
        self.assertEqual([found[f"binlogfeed_{name}"] for name in ("place_bytes", "lines_total", "faults_total")], [589, 3, 0])

    def test_seconds_behind(self):
        """None, where nothing is left to be read, though the last line is years old. Else the lesser of two bounds."""
        self.index("binlog.000001")
        self.log("binlog.000001", log(1))
        follower = self.follower()
        for size in (1, 2):
            self.assertNotEqual(follower.measure().seconds_behind, 0)
            follower.catch_up()
            # A look that finds nothing new counts, too.
            follower.catch_up()
            self.assertEqual(follower.measure()[2:], (0, 0))
            self.assertLess(time.monotonic() - follower._watch.caught_up, SECONDS)
            self.assertIn('binlogfeed_behind_seconds{state="s"} 0\n', as_text(metrics_of(follower.measure(), 0), "s"))
            self.log("binlog.000001", log(*range(1, size + 2)))
            follower._watch.caught_up -= 1000
            self.assertAlmostEqual(follower.measure().seconds_behind, 1000, delta=SECONDS)
        follower._watch.caught_up = None
        self.assertAlmostEqual(follower.measure().seconds_behind, time.time() - logs.TIME, delta=SECONDS)

    def until(self, holds):
        """Waits for what comes soon."""
        end = time.monotonic() + SECONDS / 2
        while not (self.path.exists() and holds()):
            self.assertLess(time.monotonic(), end)
            time.sleep(0.02)

    def test_a_fault(self):
        """It counts, and the place stays behind the lines before it."""
        self.index("binlog.000001")
        self.log("binlog.000001", logs.appended(log(1), logs.event(40)))
        follower = self.follower()
        with self.assertRaises(LogFault), written(self.path, follower, self.state):
            follower.catch_up()
        found = self.values()
        self.assertEqual([found[f"binlogfeed_{name}"] for name in ("place_bytes", "lines_total", "faults_total")], [153, 1, 1])

    def test_what_is_not_known(self):
        """It isn't written. Before the first line there is no time of one, and logs that can't be listed have no length."""
        measure = Measure(Place(), 0, None, None)
        found = parsed(as_text(metrics_of(measure, 0), "state"))
        self.assertEqual(sorted(name[11:] for name in found), ["faults_total", "info", "lines_total", "place_bytes"])
        self.assertEqual(found["binlogfeed_place_bytes"], ({"log": "", "state": "state"}, 0))

    def test_names_with_quotes(self):
        text = as_text(metrics_of(Measure(Place('a"\\b\n.000001'), 0, 0, 0), 0), "state")
        self.assertIn('binlogfeed_place_bytes{log="a\\"\\\\b\\n.000001",state="state"} 0\n', text)
        parsed(text)

    def test_a_file_that_cannot_be_written(self):
        """At the beginning that ends it. Later it goes on, and says so."""
        self.path = self.folder / "nothing/feed.prom"
        ended = subprocess.run(self.command("--once", f"{SHOP[0].parent}/binlog.0*"), env=ENVIRONMENT, capture_output=True, text=True, check=False)
        said = f"binlogfeed: can't write {self.path}: No such file or directory\n"
        self.assertEqual((ended.returncode, ended.stdout, ended.stderr), (4, "", said))
        self.path = self.folder / "feed.prom"
        self.index("binlog.000001")
        self.log("binlog.000001", log(1))
        follower = self.follower()
        # It isn't written anew between the two calls that put a folder in its place.
        seldom = mock.patch.object(metrics, "EVERY", 2 * SECONDS)
        with seldom, self.assertLogs("binlogfeed", "WARNING"), written(self.path, follower, self.state):
            follower.catch_up()
            self.path.unlink()
            self.path.mkdir()
