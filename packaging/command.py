#!python
"""The command binlogfeed, of the wheel. What the program does isn't kept waiting until Python has read the package."""
import os
import sys
from contextlib import suppress
from importlib.util import find_spec

words = sys.argv[1:]
if words[:1] in ([], ["read"], ["history"], ["transactions"]):
    found = find_spec("binlogfeed")
    if found and found.submodule_search_locations:
        os.environ.setdefault("BINLOGFEED_HINTS", "1")
        with suppress(OSError):  # which the package tells
            os.execv(os.path.join(found.submodule_search_locations[0], "libexec/binlogfeed"), ["binlogfeed", *words])

from binlogfeed.front import main  # noqa: E402

sys.exit(main(words))
