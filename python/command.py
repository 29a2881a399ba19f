"""Runs what of the command binlogfeed is in Python: `command.py PROGRAM REPLICA WORDS`, with the paths of the program and of replica.py."""
import sys
from pathlib import Path

OLDEST = (3, 9)

if sys.version_info < OLDEST:
    sys.stderr.write("binlogfeed: Python 3.9 or later is needed for this, and here is %d.%d\n" % sys.version_info[:2])
    sys.exit(70)

# Where the package for Debian has the package in Python, beside the folder of this file: it may be unpacked elsewhere.
sys.path.append(str(Path(__file__).resolve().parents[1] / "python3/dist-packages"))

from binlogfeed.front import main  # noqa: E402

sys.exit(main(sys.argv[3:], Path(sys.argv[1]), Path(sys.argv[2])))
