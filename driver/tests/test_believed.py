"""What a test ended with counts for its commit where nothing else bore on it: the room on its disk,
its folder, and the files of the command."""
from __future__ import annotations

import unittest
from typing import List, NamedTuple

from helpers import Repository, needs_engine
from test_trees import MOUNTS, needs_mounts


class Row(NamedTuple):
    """What a test does; how the search ends, and what it says; its words, and what is made."""

    test: str
    status: int = 0
    told: str = ""
    words: str = "--workers 1"
    made: str = "true"


AT = "[ $n != 7 ] || "
GIVEN = "mkdir given; echo 1 >given/x; echo given >.git/info/exclude"
ROWS = (
    Row(AT + "rm -rf $FARMDAWN_WORKTREE", 6, "lost its folder"),
    Row(AT + "{ mv $PWD $PWD.x; mkdir $PWD; }", 6, "lost its folder"),
    Row("rm -rf .git"),
    Row(AT + "echo >>../check.sh", 6, "has changed meanwhile", "--workers 1"),
    Row(AT + "echo 2 >../repository/given/x", 6, "has changed meanwhile", "--copy given", GIVEN),
    Row(AT + "echo 2 >given/x", 0, "", "--copy given", GIVEN),
    Row(AT + "[ $(cat given/x) = 1 ] && echo 2 >given/x || exit 9", 0, "", "--link given", GIVEN),
)
# a test of 1 MB, of which the disk has room for three; one that is tidy removes it at its end
TIDY = "t=$(mktemp -d -p .); trap 'rm -rf $t' EXIT; head -c 1100000 /dev/zero >$t/out || exit 1"
DISKS = (
    Row("head -c 1100000 /dev/zero >out-$n || exit 1", 14, "no room in", "--pool ../pool"),
    Row(TIDY + "; sleep 2", 14, "no room in", "--workers 4"),
    Row(TIDY),
)


@needs_engine
class Believed(unittest.TestCase):
    """Whole searches, a row each."""

    def search(self, row: Row, enter: List[str], at: str = "") -> None:
        """One search, by a script that is no file of the repository; or in a work tree on a small
        disk, where the process may mount one."""
        repo = Repository(self)
        repo.sh(row.made)
        with open(repo.room + "/check.sh", "w", encoding="utf-8") as file:
            file.write(f"n=$(cat number); {row.test}; [ $n -lt 7 ]\n")
        script = f"git farmdawn --fresh {row.words} c12 c1 -- sh ../check.sh"
        if at:
            script = (
                f"mkdir {at}; mount -t tmpfs -o size=4m none {at}; cp ../check.sh {at};"
                f"git worktree add -q --detach {at}/tree c12; cd {at}/tree; {script}"
            )
        got = repo.run(*enter, "sh", "-c", script, check=False)
        self.assertEqual(got.returncode, row.status, got)
        self.assertIn(row.told, got.stderr)
        answer = repo.name("c7") + " is the first bad commit"
        self.assertEqual(answer in got.stdout, row.status == 0, got)

    def test_rows(self) -> None:
        """A folder that is gone, and files of the command that changed."""
        for row in ROWS:
            with self.subTest(row):
                self.search(row, [])

    @needs_mounts
    def test_disks(self) -> None:
        """The disk of the checkouts is full, if only for a moment."""
        for row in DISKS:
            with self.subTest(row):
                self.search(row, MOUNTS, "../disk")


if __name__ == "__main__":
    unittest.main()
