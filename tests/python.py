#!/usr/bin/env python3
"""Runs the tests of the Python package, and of what is made with it. They need Python alone, and the built program.

A test that needs what isn't there is skipped, with a message. The last line is `N passed, M failed`; the exit status is 1 where
something failed. A run of all tests fails where there are fewer than least_counts.txt wants.
"""
import argparse
import os
import sys
import unittest
from pathlib import Path

sys.dont_write_bytecode = True

HERE = Path(__file__).resolve().parent
sys.path[:0] = [str(HERE / "python"), str(HERE), str(HERE.parent / "python"), str(HERE.parent / "examples/replica")]

from least_counts import lacking  # noqa: E402


class Counted(unittest.TextTestResult):
    """A result that counts what passed."""

    passed = 0

    def addSuccess(self, test: unittest.TestCase) -> None:  # noqa: N802, the name is unittest's
        """Counts a test."""
        super().addSuccess(test)
        self.passed += 1


def main() -> int:
    """Runs the tests."""
    parser = argparse.ArgumentParser(description=__doc__.split("\n", maxsplit=1)[0])
    parser.add_argument("--program", type=Path, metavar="PATH", help="this program, in place of the one that rt ci built")
    parser.add_argument("--only", metavar="TEXT", help="only tests with TEXT in their names")
    given = parser.parse_args()
    if given.program:
        os.environ["BINLOGFEED_PROGRAM"] = str(given.program.absolute())
    loader = unittest.TestLoader()
    loader.testNamePatterns = [f"*{given.only}*"] if given.only else None
    tests = loader.discover(str(HERE / "python"), top_level_dir=str(HERE / "python"))
    reasons = [] if given.only else lacking("python_tests", tests.countTestCases())
    result = unittest.TextTestRunner(stream=sys.stdout, resultclass=Counted).run(tests)
    for test, reason in result.skipped:
        print(f"skipped: {test.id()}: {reason}")
    for reason in reasons:
        print(f"FAILED: {reason}")
    failed = len(result.failures) + len(result.errors) + len(reasons)
    print(f"{result.passed} passed, {failed} failed")
    return 1 if failed or not result.passed else 0


if __name__ == "__main__":
    sys.exit(main())
