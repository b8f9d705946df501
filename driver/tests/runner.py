"""Runs tests as `python3 -m unittest` does: `python3 -m runner test_page`. Its status is 77 where none
failed and some were passed over; the last line says why. With PASSED_OVER set none is run, and that line
alone is printed."""

import os
import sys
import unittest
from typing import Iterator

PASSED_OVER = 77


def cannot(tests: unittest.TestSuite) -> Iterator[str]:
    """Why those of the tests cannot run here that say so before they are run."""
    for test in tests:
        if isinstance(test, unittest.TestSuite):
            yield from cannot(test)
        elif isinstance(test, unittest.TestCase):
            method = getattr(test, getattr(test, "_testMethodName", ""), None)
            for said in (type(test), method):
                if getattr(said, "__unittest_skip__", False):
                    yield getattr(said, "__unittest_skip_why__", "")


def main() -> int:
    """Runs the tests that the words name."""
    tests = unittest.defaultTestLoader.loadTestsFromNames(sys.argv[1:])
    if os.environ.get("PASSED_OVER"):
        reasons = list(cannot(tests))
    else:
        result = unittest.TextTestRunner().run(tests)
        if not result.wasSuccessful() or not result.testsRun:
            return 1
        reasons = [reason for _, reason in result.skipped]
    for reason in reasons:
        print(f"passed over: {reason}")
    return PASSED_OVER if reasons else 0


if __name__ == "__main__":
    sys.exit(main())
