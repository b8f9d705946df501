"""What differs between two commits is what one git of its own says of them, and who gets nothing
said asks that."""
from __future__ import annotations

import os
import signal
import sys
import unittest
from typing import Generator, Optional
from unittest import mock

from helpers import DRIVER, ENV, Repository

sys.path.insert(0, os.path.dirname(DRIVER))
from git_farmdawn.repository.differences import DIFFER, Differences  # noqa: E402
from git_farmdawn.repository.original import Original  # noqa: E402
from git_farmdawn.repository.repository import Repository as SourceRepository  # noqa: E402

SHORT_TESTS = True

# what has a name with the end of a line, a link, a mode, a submodule, a merge
MADE = """mkdir -p d 'a
b'; echo x >'a
b/c'; echo x >d/x; ln -s d/x l; git add .; git commit -qm more; git branch other
git update-index --add --cacheinfo 160000,$(git rev-parse c1),lib; chmod +x d/x; git add d
git commit -qm module; git checkout -q other; git rm -q l; git commit -qm less
git merge -q main -m merge"""


def said(says: Generator[float, object, Optional[bytes]]) -> Optional[bytes]:
    """What a task gives back."""
    while True:
        try:
            next(says)
        except StopIteration as end:
            answer: Optional[bytes] = end.value
            return answer


class OneGit(unittest.TestCase):
    """A repository, and who says what differs there."""

    def setUp(self) -> None:
        self.made = Repository(self, 3)
        self.addCleanup(os.chdir, os.getcwd())
        os.chdir(self.made.path)
        self.names = [self.made.name(commit) for commit in ("c1", "c2", "c3")]

    def begin(self) -> Differences:
        """Who says it of the repository as it is now."""
        with mock.patch.dict(os.environ, ENV):
            differences = Differences(Original(SourceRepository()))
        self.addCleanup(differences.close)
        return differences

    def test_rows(self) -> None:
        """Of each two commits the same as one git that is asked of them alone, from whatever folder
        the search was begun in."""
        self.made.sh(MADE)
        differences = self.begin()
        os.chdir("/")
        names = self.made.sh("git rev-list --all").split()
        for before in names:
            for commit in names:
                with self.subTest((before, commit)):
                    due = self.made.run("git", *DIFFER, before, commit).stdout.encode()
                    self.assertEqual(
                        (said(differences.between(before, commit)) or b"").partition(b"\0")[2], due
                    )

    def test_many(self) -> None:
        """More than fits into a pipe."""
        self.made.sh("for n in $(seq 3000); do echo $n >f$n; done; git add .; git commit -qm many")
        found = said(self.begin().between(self.names[2], self.made.name("main")))
        self.assertEqual((found or b"").count(b" A\0"), 3000)

    def test_ended(self) -> None:
        """One that was killed says nothing more, nor does one that was left in the middle."""
        differences, (first, second, third) = self.begin(), self.names
        self.assertIn(b"number", said(differences.between(first, second)) or b"")
        assert differences.git is not None
        differences.git.kill()
        differences.git.wait()
        self.assertEqual([said(differences.between(first, third)) for _ in range(2)], [None, None])
        others = self.begin()
        said(others.between(first, second))
        assert others.git is not None
        others.git.send_signal(signal.SIGSTOP)
        asked = others.between(second, third)
        next(asked)
        self.assertIsNone(said(others.between(first, third)), "while another one asks")
        asked.close()
        self.assertIsNone(said(others.between(first, third)))

    def test_nobody(self) -> None:
        """Where commits are replaced, each asks for himself; and that is so if they were when the
        search began: what is replaced later bears on nothing."""
        before = self.begin()
        due = self.made.run("git", *DIFFER, *self.names[:2]).stdout.encode()
        self.made.run("git", "replace", self.names[1], self.names[2])
        self.assertIsNone(said(self.begin().between(*self.names[:2])))
        self.assertEqual((said(before.between(*self.names[:2])) or b"").partition(b"\0")[2], due)


if __name__ == "__main__":
    unittest.main()
