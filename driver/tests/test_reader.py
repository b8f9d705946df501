"""What a report says of running it again: its lines are run by sh, and do what it says of them."""
from __future__ import annotations

import json
import os
import unittest
from typing import Any, Dict

from helpers import Repository, needs_engine

# commits c13 to c18 below a folder with a blank; the test prints what it found, and wants a file
# that no commit has
MAKE = r"""mkdir -p 'sub/a b'; for n in 13 14 15 16 17 18; do
    echo $n >number; echo $n >'sub/a b/x'
    echo 'test -e ../../given/y || exit 125; test $(cat ../../number) -lt 16 || { echo "broken by $(cat x)"; exit 3; }' >'sub/a b/t.sh'
    git add -A; git commit -q -m "change $n"; git tag c$n
done; mkdir given; : >given/y"""


@needs_engine
class Again(unittest.TestCase):
    """The lines of `again`, each in the work tree from its top on."""

    def result(self, repo: Repository, folder: str) -> Dict[str, Any]:
        """What result.json has."""
        with open(os.path.join(repo.room, folder, "result.json"), encoding="utf-8") as file:
            found: Dict[str, Any] = json.load(file)
        return found

    def check(self, repo: Repository, folder: str, commit: str, status: int, printed: str) -> None:
        """Both lines of a report: one finds the same commit from nothing, the other shows how its
        test ends."""
        found = self.result(repo, folder)
        self.assertEqual(found["answer"]["name"], repo.name(commit))
        searched = repo.sh(
            found["again"]["search"].replace("git farmdawn", "git farmdawn --fresh", 1)
        )
        self.assertEqual(
            searched.split("\n")[-2],
            "%s is the first %s commit" % (repo.name(commit), found["terms"]["new"]),
        )
        seen = repo.run("sh", "-c", found["again"]["see"], check=False)
        self.assertEqual((seen.returncode, seen.stdout), (status, printed))
        repo.run("git", "checkout", "-q", "main")

    def test_below(self) -> None:
        """From a folder below the top, with paths of it and a copy from above it."""
        repo = Repository(self)
        repo.sh(MAKE)
        got = repo.run(
            "git",
            "farmdawn",
            "--report",
            repo.room + "/report",
            "--path",
            "x",
            "--path",
            "../../number",
            "--copy",
            "../../given",
            "c18",
            "c13",
            "--",
            "sh",
            "t.sh",
            cwd=repo.path + "/sub/a b",
        )
        self.assertIn("is the first bad commit", got.stdout)
        self.check(repo, "report", "c16", 3, "broken by 16\n")

    def test_options(self) -> None:
        """With words of its own in the log, commits that are skipped, a build, and signs that sh
        would take for its own."""
        repo = Repository(self)
        repo.search(
            "--report",
            repo.room + "/report",
            "--first-parent",
            "--term-new",
            "slow",
            "--term-old",
            "fast",
            "--skip",
            "c3..c5",
            "--repeat",
            "2",
            "--build",
            "echo 'a \"b\"' >built",
            "c12",
            "c1",
            "--",
            "sh",
            "-c",
            'cat built; test $(cat number) -lt "$1"',
            "it's",
            "8",
        )
        self.check(repo, "report", "c8", 1, 'a "b"\n')

    def test_several(self) -> None:
        """Of several tests each has its own lines."""
        repo = Repository(self)
        with open(repo.path + "/list", "w", encoding="utf-8") as file:
            file.write("5\n9\n")
        repo.search(
            "--report",
            repo.room + "/named",
            "--test",
            "first",
            'echo "one"; test $(cat number) -lt 7',
            "--test",
            "second",
            "test $(cat number) != 11",
            "c11",
            "c1",
        )
        self.check(repo, "named/first", "c7", 1, "one\n")
        self.check(repo, "named/second", "c11", 1, "")
        repo.search(
            "--report",
            repo.room + "/listed",
            "--tests",
            "list",
            "c12",
            "c1",
            "--",
            "sh",
            "-c",
            "test $(cat number) -lt $0",
            "{}",
        )
        for name in ("5", "9"):
            self.check(repo, "listed/" + name, "c" + name, 1, "")


if __name__ == "__main__":
    unittest.main()
