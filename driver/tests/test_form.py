"""How the driver, its tests and their runner are written, by the programs that say so: shellcheck,
mypy, flake8 and black, each where it is installed."""
from __future__ import annotations

import os
import shutil
import subprocess
import tempfile
import unittest

from helpers import TOP, begins_first

FOLDER = os.path.join(TOP, "driver")
RUNNER = os.path.join(TOP, "tests", "check.py")


def needs(program: str) -> bool:
    """Whether it is installed."""
    return shutil.which(program) is not None


class Form(unittest.TestCase):
    """Each of these says nothing."""

    def says_nothing(self, *words: str) -> None:
        """A program that looks at files of the driver."""
        done = subprocess.run(
            words,
            cwd=FOLDER,
            stdout=subprocess.PIPE,
            stderr=subprocess.STDOUT,
            text=True,
            check=False,
        )
        self.assertEqual((done.returncode, done.stdout), (0, ""))

    @unittest.skipUnless(needs("shellcheck"), "shellcheck is not here")
    def test_scripts(self) -> None:
        """Those that start the driver and the model."""
        for script in ("bin/git-farmdawn", "model/farmdawn"):
            with self.subTest(script):
                self.says_nothing("shellcheck", "-o", "all", script)

    @begins_first
    @unittest.skipUnless(needs("mypy"), "mypy is not here")
    def test_types(self) -> None:
        """All types, strictly."""
        with tempfile.TemporaryDirectory() as cache:
            words = ("mypy", "--no-error-summary", "--cache-dir", cache)
            self.says_nothing(*words)
            # by itself: what else stands in its folder has no types
            self.says_nothing(*words, RUNNER)

    @begins_first
    @unittest.skipUnless(needs("flake8"), "flake8 is not here")
    def test_style(self) -> None:
        """The rules of .flake8."""
        self.says_nothing("flake8", ".", RUNNER)

    @begins_first
    @unittest.skipUnless(needs("black"), "black is not here")
    def test_black(self) -> None:
        """Lines as black breaks them."""
        words = ("black", "--config", "pyproject.toml", "-q", "--check")
        self.says_nothing(*words, "git_farmdawn", "model", "tests", RUNNER)


if __name__ == "__main__":
    unittest.main()
