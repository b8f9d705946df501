"""What a search costs, as it is promised: one build a commit, and one test of a commit for each
search; for answers that are tested again one more build of the answer and of its parents, for all
tests of them together. By itself a search tests these alone once, where tests ran beside them."""
from __future__ import annotations

import collections
import os
import re
import subprocess
import unittest
from typing import Counter, List, NamedTuple, Sequence, Tuple

from helpers import ENV, Repository, needs_engine

BUILD = "echo c$(cat number) >>%s/built; cp number built"
# a test by the number of its first bad commit, and its own behind a dot
TEST = (
    'echo "$1 c$(cat number)" >>%s/tested; test "$(cat built)" = "$(cat number)" || exit 255;'
    ' test "$(cat built)" -lt "${1%%.*}"'
)
ALONE, TIMES = 1, 3  # so often is an answer tested alone, and in doubt
MOST_SEARCHES = 3
SLOW = re.compile(r"\([1-9][0-9]* s\)")  # a test that took a second or more


class Cost(NamedTuple):
    """A search, and how often each test may test its answer and the parent again."""

    tests: int
    commits: int
    broken: Tuple[int, ...]  # the first bad commits, one test after the other
    words: Tuple[str, ...] = ()
    workers: int = 4
    again: int = TIMES


ONE = (
    Cost(1, 7, (2,)),
    Cost(1, 7, (7,), ("--confirm=0",), again=0),
    Cost(1, 7, (4,), again=ALONE),
    Cost(1, 7, (4,), workers=1, again=0),
    Cost(1, 7, (4,), ("--confirm=alone",), again=ALONE),
    Cost(1, 7, (4,), ("--confirm",)),
)
TWELVE = tuple(
    Cost(12, 7, (broken,), words, again=again)
    for broken in (2, 4, 7)
    for words, again in (
        ((), ALONE if broken == 4 else TIMES),
        (("--confirm=0",), 0),
        (("--confirm",), TIMES),
    )
) + (
    Cost(12, 7, (2, 4, 7), ("--confirm",), 1),
    Cost(12, 7, (2, 4, 7), ("--confirm",), 2),
    Cost(12, 7, (3, 5), again=ALONE),
    Cost(12, 7, (2, 4, 7), ("--confirm", "--together"), 6),
    Cost(12, 7, (2, 7), ("--confirm", "--check-ends"), 6),
)
MANY = (
    Cost(64, 12, (3, 8), ("--confirm=0",), again=0),
    Cost(66, 12, (2, 8, 12)),
    Cost(130, 12, (3, 8), again=ALONE),
)


def names_of(row: Cost) -> List[str]:
    """The names of the tests."""
    return [f"{row.broken[at % len(row.broken)]}.{at}" for at in range(row.tests)]


@needs_engine
class Costs(unittest.TestCase):
    """Whole searches, whose builds and tests are counted."""

    def test_one(self) -> None:
        """One test."""
        self.look_at_all(ONE)

    def test_twelve(self) -> None:
        """As many as a night has, with the culprit first, in the middle and last."""
        self.look_at_all(TWELVE)

    def test_many(self) -> None:
        """More than an engine searches for."""
        self.look_at_all(MANY)

    def look_at_all(self, rows: Sequence[Cost]) -> None:
        """Each of some rows."""
        repo = Repository(self, rows[0].commits)
        for row in rows:
            with self.subTest(row=row):
                self.look_at(row, repo)

    def look_at(self, row: Cost, repo: Repository) -> None:
        """Searches, and counts builds by commit and tests by commit and name. A test that takes a
        second is not run ahead, and may cost more: such a search has another one."""
        names, dear = names_of(row), ["no search"]
        for _ in range(MOST_SEARCHES):
            got = self.search(row, repo)
            found = [
                line.split()[0] for line in got.stdout.splitlines() if " is the first " in line
            ]
            due = [repo.name("c" + name.split(".")[0]) for name in names]
            self.assertEqual(found, due, got.stderr)
            repo.check_left()
            dear = self.dear(row, repo)
            if not dear or not SLOW.search(got.stderr):
                break
        self.assertEqual(dear, [], got.stderr)

    def dear(self, row: Cost, repo: Repository) -> List[str]:
        """What was built or tested more often than it is promised."""
        again = {f"c{at - less}" for at in row.broken for less in (0, 1) if row.again}
        built, tested = self.counted(repo, "built"), self.counted(repo, "tested")
        often = [f"built {commit}" for commit in built if built[commit] > 1 + (commit in again)]
        for key, count in tested.items():
            if count > 1 + row.again * (key.split()[1] in again):
                often.append(f"tested {key}")
        return often

    @staticmethod
    def search(row: Cost, repo: Repository) -> subprocess.CompletedProcess[str]:
        """Such a search."""
        for name in ("built", "tested"):
            with open(f"{repo.room}/{name}", "w", encoding="ascii"):
                pass
        names = names_of(row)
        with open(repo.room + "/list", "w", encoding="ascii") as file:
            file.write("".join(name + "\n" for name in names))
        words = ["--fresh", "--workers", str(row.workers), *row.words]
        words += ["--build", BUILD % repo.room, *([] if row.tests == 1 else ["--tests", "../list"])]
        command = ["sh", "-c", TEST % repo.room, "sh", names[0] if row.tests == 1 else "{}"]
        # a needless test that takes longer than a build is ended, which costs one
        env = {**ENV, "FARMDAWN_NEEDED": "never"}
        return repo.search(*words, *repo.ends(), "--", *command, env=env)

    @staticmethod
    def counted(repo: Repository, name: str) -> Counter[str]:
        """The lines of a file, and how often each stands there."""
        with open(os.path.join(repo.room, name), encoding="ascii") as file:
            return collections.Counter(file.read().splitlines())


if __name__ == "__main__":
    unittest.main()
