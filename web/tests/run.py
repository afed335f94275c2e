"""Runs the tests of the table: run.py [NAME]..

The last line is 'N passed, M failed', as the gate reads it.
"""
import sys
import time
import unittest
from pathlib import Path

NAMES = ("test_requests", "test_lines", "test_start", "test_browser", "test_kept", "test_looks", "test_load")


class Telling(unittest.TextTestResult):
    """A result that says how long each test took."""

    def startTest(self, test: unittest.TestCase) -> None:
        self.began = time.monotonic()
        super().startTest(test)

    def addSuccess(self, test: unittest.TestCase) -> None:
        super().addSuccess(test)
        print(f"passed in {time.monotonic() - self.began:.0f} s: {test.id()}", flush=True)


def main() -> None:
    sys.path.insert(0, str(Path(__file__).parent))
    names = sys.argv[1:] or NAMES
    suite = unittest.defaultTestLoader.loadTestsFromNames(names)
    result = unittest.TextTestRunner(sys.stdout, resultclass=Telling, verbosity=0).run(suite)
    bad = len({test.id() for test, _ in result.failures + result.errors})
    print(f"{result.testsRun - bad if result.testsRun > bad else 0} passed, {bad} failed")
    sys.exit(bad > 0)


main()
