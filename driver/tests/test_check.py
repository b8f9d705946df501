"""tests/check.py, the runner of all tests, over a few made ones."""
from __future__ import annotations

import os
import shutil
import signal
import subprocess
import sys
import tempfile
import unittest
from typing import Any, List, Tuple

from helpers import ENV, SECONDS, TOP, wait_until

HERE = os.path.dirname(os.path.abspath(__file__))
SCRIPT = r"""#!/bin/sh
. "$(dirname "$0")/helpers.sh"
needs_good() { :; }
test_good() { echo unseen; }
needs_table() { :; }
is_even() { expect "even: $number" [ $((number % 2)) -eq 0 ]; }
test_table() { for number in 1 2 3 4; do row is_even; done; }
needs_absent() { has no-such-program; }
test_absent() { :; }
needs_late() { :; }
test_late() { echo try >>"$NOTES/late"; by_clock expect 'in time' [ "$(wc -l <"$NOTES/late")" -eq 2 ]; }
needs_wrong() { :; }
test_wrong() { echo try >>"$NOTES/wrong"; by_clock true; expect 'right' false; }
test_alone() { :; }
needs_slow() { :; }
test_slow() { : >"$NOTES/slow"; [ ! -e "$NOTES/sleeps" ] || exec $SLEEPS; }
long='slow'
run_test "$@"
"""
MODULE = '''"""Some tests."""
import unittest


class Some(unittest.TestCase):
    def test_rows(self):
        for row in (1, 2, 3):
            with self.subTest(row):
                self.assertEqual(row % 2, 0)

    @unittest.skip("nothing is here")
    def test_absent(self):
        pass

    def test_good(self):
        pass
'''
SHORT = '''"""Some short ones."""
import unittest

SHORT_TESTS = True


class Short(unittest.TestCase):
    def test_one(self):
        pass

    def test_two(self):
        pass
'''


class Check(unittest.TestCase):
    """What is run, told and counted."""

    def setUp(self) -> None:
        room = tempfile.TemporaryDirectory()
        self.addCleanup(room.cleanup)
        self.room = os.path.realpath(room.name)
        units = os.path.join(self.room, "driver", "tests")
        os.makedirs(units)
        os.makedirs(os.path.join(self.room, "tests"))
        for name in ("check.py", "helpers.sh"):
            shutil.copy(os.path.join(TOP, "tests", name), os.path.join(self.room, "tests"))
        shutil.copy(os.path.join(HERE, "runner.py"), units)
        for path, text in (
            ("tests/made.sh", SCRIPT),
            ("driver/tests/test_some.py", MODULE),
            ("driver/tests/test_tiny.py", SHORT),
        ):
            with open(os.path.join(self.room, path), "w", encoding="utf-8") as file:
                file.write(text)
        self.sleeps = f"sleep 778.{os.getpid()}"

    def begin(self, *names: str, **more: str) -> "subprocess.Popen[str]":
        """The runner, under way, with these variables."""
        env = {name: text for name, text in ENV.items() if name not in ("TIMES", "PASSED_OVER")}
        env.update(NOTES=self.room, SLEEPS=self.sleeps, JOBS="4", FARMDAWN_DRIVER="/nowhere")
        env.update(TMPDIR=self.room)
        words = [sys.executable, os.path.join(self.room, "tests", "check.py"), *names]
        how: Any = {"stdout": subprocess.PIPE, "stderr": subprocess.STDOUT, "text": True}
        return subprocess.Popen(words, env={**env, **more}, **how)

    def lines(self, *names: str, **more: str) -> List[str]:
        """What it prints, with its status as the last line."""
        process = self.begin(*names, **more)
        told = process.communicate(timeout=SECONDS)[0].splitlines()
        left = [name for name in os.listdir(self.room) if name.startswith("tmp")]
        self.assertEqual(left, [])
        return [*told, str(process.returncode)]

    def test_all(self) -> None:
        """All, in their order: a table goes on behind its first row, and what a clock decided is
        tried again, last, and alone."""
        told = self.lines()
        heads = [line for line in told if not line.startswith("    ")]
        self.assertEqual(
            heads,
            [
                "FAILED: test_some.Some.test_rows",
                "skipped: test_some.Some.test_absent (nothing is here)",
                "ok: test_some.Some.test_good",
                "ok: test_tiny",
                "ok: made.good",
                "FAILED: made.table",
                "skipped: made.absent (no-such-program is not here)",
                "has a second try: made.late",
                "FAILED: made.wrong",
                "FAILED: made.alone",
                "ok: made.slow",
                "ok at the second try: made.late",
                "5 passed (1 at the second try), 4 failed, 2 skipped",
                "1",
            ],
        )
        for text in ("even: 1", "even: 3", "in time", "right", "needs_alone is not there"):
            self.assertIn(text, "\n".join(told))
        self.assertEqual(sum("AssertionError: 1 != 0" in line for line in told), 2)
        self.assertNotIn("unseen", "\n".join(told))
        with open(self.room + "/wrong", encoding="ascii") as file:
            self.assertEqual(file.read(), "try\n")

    def test_names(self) -> None:
        """Files, folders, tests and ends of them; one that no test has is an error of usage."""
        rows: List[Tuple[Tuple[str, ...], List[str]]] = [
            (("made.good",), ["ok: made.good"]),
            (("tests/made.sh", "nothing"), []),
            (
                ("Some.test_good", "test_tiny.Short.test_two", "slow"),
                ["ok: test_some.Some.test_good", "ok: test_tiny", "ok: made.slow"],
            ),
        ]
        for names, due in rows:
            with self.subTest(names):
                told = self.lines(*names)
                passed = f"{len(due)} passed (0 at the second try), 0 failed, 0 skipped"
                said = f"check.py: no test has the name {names[-1]}; nothing was run"
                self.assertEqual(told, [*due, passed, "0"] if due else [said, "2"])
        for name, count in (("driver/tests/test_some.py", 1), ("driver/tests", 2)):
            with self.subTest(name):
                last = f"{count} passed (0 at the second try), 1 failed, 1 skipped"
                self.assertEqual(self.lines(name)[-2:], [last, "1"])

    def test_passed_over(self) -> None:
        """No test is run, and those are named that cannot."""
        self.assertEqual(
            self.lines("test_some", "good", "absent", "slow", PASSED_OVER="1"),
            [
                "skipped: test_some.Some.test_absent (nothing is here)",
                "skipped: made.absent (no-such-program is not here)",
                "4 can run here, 2 cannot",
                "0",
            ],
        )
        self.assertFalse(os.path.exists(self.room + "/slow"))

    def test_times(self) -> None:
        """Seconds of a clock, and of processors."""
        told = self.lines("made.good", TIMES="1")
        self.assertRegex(told[0], r"^ok: made\.good \[[0-9.]+ s, of processors [0-9.]+ s\]$")

    def test_signals(self) -> None:
        """Each ends all that runs, and leaves nothing."""
        with open(self.room + "/sleeps", "w", encoding="ascii"):
            pass
        for number in (signal.SIGHUP, signal.SIGINT, signal.SIGTERM):
            with self.subTest(number):
                process = self.begin("slow")
                wait_until(lambda: os.path.exists(self.room + "/slow"), "the test")
                process.send_signal(number)
                process.communicate(timeout=SECONDS)
                self.assertEqual(process.returncode, 128 + number)
                self.assertEqual([name for name in os.listdir(self.room) if "tmp" in name], [])
                found = subprocess.run(["pgrep", "-f", "^" + self.sleeps], stdout=subprocess.PIPE)
                self.assertEqual(found.stdout, b"")
                os.unlink(self.room + "/slow")


if __name__ == "__main__":
    unittest.main()
