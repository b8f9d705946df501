"""Checkouts that stay: what the next search finds in them, and what it does not."""
from __future__ import annotations

import fcntl
import os
import signal
import unittest
from typing import List

from helpers import SECONDS, Repository, needs_engine, wait_until


@needs_engine
class Pool(unittest.TestCase):
    """One place, and several searches after each other."""

    def setUp(self) -> None:
        """A repository whose builds leave ignored files, and a pool beside it."""
        self.repo = Repository(self)
        self.repo.sh('printf "stamp\\ncheck.sh\\n" >.git/info/exclude')
        self.pool, self.told = self.repo.room + "/pool", self.repo.room + "/told"
        self.place = self.pool + "/repository.farmdawn.1"

    def search(self, first: int, *words: str, test: str = "") -> List[int]:
        """A search for a commit; gives how often a build was made in the folder of each build."""
        if os.path.exists(self.told):
            os.unlink(self.told)
        got = self.repo.search(
            "--fresh",
            "--trust-ends",
            "--workers",
            "1",
            "--pool",
            self.pool,
            "--build",
            f"echo x >>stamp; wc -l <stamp >>{self.told}",
            *words,
            *self.repo.ends(),
            "--",
            "sh",
            "-c",
            f'{test} test "$(cat number)" -lt {first}',
        )
        self.assertEqual(got.returncode, 0, got.stderr)
        self.assertIn(self.repo.name(f"c{first}") + " is the first bad commit", got.stdout)
        with open(self.told, encoding="utf-8") as file:
            return [int(line) for line in file]

    def test_builds_stay(self) -> None:
        """Ignored files stay, at the same path; what else a test left does not. With --clean
        nothing stays."""
        first = self.search(7, test='touch left "$FARMDAWN_BUILD/kept";')
        self.assertEqual(first, list(range(1, len(first) + 1)))
        self.assertTrue(os.path.exists(self.place + "/stamp"))
        again = self.search(
            5, test='test ! -e left || exit 200; test -e "$FARMDAWN_BUILD/kept" || exit 201;'
        )
        self.assertEqual(again, list(range(len(first) + 1, len(first) + len(again) + 1)))
        self.assertEqual(
            set(self.search(5, "--clean", test='test ! -e "$FARMDAWN_BUILD/kept" || exit 201;')),
            {1},
        )

    def test_half_done(self) -> None:
        """A checkout in which something was ended, or that git would check out otherwise now, is
        made anew."""
        self.search(7)
        process = self.repo.begin(
            "--fresh",
            "--workers",
            "1",
            "--pool",
            self.pool,
            *self.repo.ends(),
            "--",
            "sh",
            "-c",
            f"touch {self.repo.room}/began; sleep 600",
        )
        wait_until(lambda: os.path.exists(self.repo.room + "/began"), "a test", 3 * SECONDS)
        self.assertFalse(os.path.exists(self.place + ".whole"))
        process.send_signal(signal.SIGINT)
        process.communicate(timeout=60)
        self.assertFalse(os.path.exists(self.place + ".whole"))
        self.assertEqual(self.search(7)[0], 1)
        self.repo.run("git", "config", "core.autocrlf", "true")
        self.assertEqual(self.search(7)[0], 1)
        self.assertGreater(self.search(7)[0], 1)
        for words, test in (  # what a signal ends, whoever sends it, as the system without memory
            (["--build", "echo x >>stamp; kill -9 $$"], "true"),
            (["--build", "echo x >>stamp"], "kill -9 $$"),
        ):
            line = ["--fresh", "-j", "1", "--trust-ends", "--pool", self.pool, *words]
            got = self.repo.search(*line, *self.repo.ends(), "--", "sh", "-c", test)
            self.assertEqual(got.returncode, 6, got.stderr)
            self.assertFalse(os.path.exists(self.place + ".whole"))
            self.assertEqual(self.search(7)[0], 1)

    def test_what_is_brought(self) -> None:
        """A script that was brought, and is ignored by git, is the one of this search."""
        for first in (7, 5):
            with self.subTest(first):
                with open(self.repo.path + "/check.sh", "w", encoding="utf-8") as file:
                    file.write(f'test "$(cat number)" -lt {first}\n')
                got = self.repo.search(
                    "--trust-ends",
                    "--workers",
                    "1",
                    "--pool",
                    self.pool,
                    *self.repo.ends(),
                    "--",
                    "sh",
                    "check.sh",
                )
                self.assertIn(
                    self.repo.name(f"c{first}") + " is the first bad commit", got.stdout, got.stderr
                )

    def test_others(self) -> None:
        """A place that another search has, and a folder that is none of ours, are left alone."""
        os.makedirs(self.pool + "/repository.farmdawn.2")
        with open(self.place + ".lock", "w", encoding="utf-8") as lock:
            fcntl.flock(lock, fcntl.LOCK_EX)
            self.search(7)
        self.assertFalse(os.path.exists(self.place))
        self.assertEqual(os.listdir(self.pool + "/repository.farmdawn.2"), [])
        self.assertTrue(os.path.exists(self.pool + "/repository.farmdawn.3/stamp"))

    def test_keep(self) -> None:
        """What is too much is removed, with what git has noted of it."""
        self.search(7, "--keep", "1G")
        self.assertTrue(os.path.exists(self.place + "/stamp"))
        self.search(7, "--keep", "1")
        self.assertEqual(os.listdir(self.pool), [])
        self.assertEqual(len(self.repo.run("git", "worktree", "list").stdout.splitlines()), 1)

    def test_refused(self) -> None:
        """A pool in the work tree, and --keep without one."""
        for words, due in (
            (["--pool", "inside"], "is in the work tree"),
            (["--keep", "1G"], "--keep is for the folder of --pool"),
        ):
            with self.subTest(row=(words, due)):
                got = self.repo.search(*words, *self.repo.ends(), "--", "true")
                self.assertEqual(got.returncode, 1)
                self.assertIn(due, got.stderr)


if __name__ == "__main__":
    unittest.main()
