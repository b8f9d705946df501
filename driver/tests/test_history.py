"""The stream that is made of what git lists, and the files that checkouts get."""
from __future__ import annotations

import os
import subprocess
import sys
import unittest
from typing import Dict, List, NamedTuple, Sequence
from unittest import mock

sys.path.insert(0, os.path.dirname(os.path.dirname(os.path.abspath(__file__))))

from git_farmdawn.repository import history as module  # noqa: E402
from git_farmdawn.checkouts.copies import Copies, NotBrought, signs  # noqa: E402
from git_farmdawn.repository.history import Ends, History  # noqa: E402
from git_farmdawn.repository.repository import Repository  # noqa: E402
from git_farmdawn.checkouts.run import Run, read_place  # noqa: E402
from git_farmdawn.telling.voice import Stop  # noqa: E402

from helpers import ENV, Repository as Made  # noqa: E402

SHORT_TESTS = True


class Row(NamedTuple):
    """The ends of a search, and the commits of its stream with their parents, by subjects."""

    what: str
    bad: str
    goods: Sequence[str]
    commits: str
    first_parent: bool = False
    paths: Sequence[str] = ()


# a, then b and c side by side, d that joins them, and e behind; x stands alone; m joins b and x
SHAPE = """
commit refs/heads/a|1|a||file a
commit refs/heads/b|2|b|:1|file b
commit refs/heads/c|3|c|:1|other c
commit refs/heads/d|4|d|:2 :3|other c
commit refs/heads/e|5|e|:4|file e
commit refs/heads/x|6|x||file x
commit refs/heads/m|7|m|:2 :6|
"""
ROWS = [
    Row("a line", "b", ["a"], "a() b(a)"),
    Row("two sides", "e", ["a"], "a() b(a) c(a) d(b c) e(d)"),
    Row("first parents", "e", ["a"], "a() b(a) d(b) e(d)", first_parent=True),
    Row("a good one beside", "e", ["x", "a"], "a() x(a) b(a) c(a) d(b c) e(d)"),
    Row("a good one on one side", "e", ["c"], "c() b(c) d(b c) e(d)"),
    Row("the end is good", "a", ["a"], "a()"),
    Row("by path", "e", ["a"], "a() b(a) e(b)", paths=["file"]),
    Row("by a path that the end does not change", "e", ["a"], "a() c(a) e(c)", paths=["other"]),
    Row("no common history", "x", ["a"], "a() x()"),
    Row("a root beside", "m", ["a"], "a() b(a) x() m(b x)"),
]


class Streams(unittest.TestCase):
    """A repository of seven commits."""

    def setUp(self) -> None:
        self.made = Made(self, 1)
        text = ""
        for line in SHAPE.split("\n")[1:-1]:
            ref, mark, subject, parents, change = line.split("|")
            text += (
                f"reset {ref.split()[1]}\n\n{ref}\nmark :{mark}\ncommitter g <g> {mark}000"
                f" +0000\ndata 1\n{subject}\n"
            )
            text += "".join(
                f'{"merge" if number else "from"} {parent}\n'
                for number, parent in enumerate(parents.split())
            )
            text += (
                "M 100644 inline %s\ndata <<.\n%s\n.\n" % tuple(change.split()) if change else ""
            )
        self.made.run("git", "fast-import", "--quiet", input=text)
        self.old = os.getcwd()
        os.chdir(self.made.path)
        self.addCleanup(os.chdir, self.old)
        with mock.patch.dict(os.environ, ENV):
            self.repo = Repository()

    def history(self, row: Row) -> History:
        """The history of a row."""
        return History(
            self.repo,
            Ends(
                self.made.name(row.bad),
                [self.made.name(good) for good in row.goods],
                row.first_parent,
                row.paths,
            ),
        )

    def test_rows(self) -> None:
        """The shape, the same stream a second time, and that it is one for git."""
        for row in ROWS:
            with self.subTest(row.what):
                history = self.history(row)
                stream = b"".join(history.stream())
                self.assertEqual(self.shape(history), row.commits)
                self.assertEqual(stream, b"".join(history.again()))
                self.assertEqual(self.names(stream), history.order)
                self.assertEqual(
                    history.among([self.made.name("b"), "f" * 40, self.made.name("b")]),
                    [name for name in history.order if name == self.made.name("b")],
                )
                subprocess.run(
                    ["git", "fast-import", "--quiet", "--force"],
                    input=stream + b"done\n",
                    check=True,
                    cwd=self.made.sh("rm -rf ../t && git init -q ../t && cd ../t && pwd").strip(),
                )

    @staticmethod
    def shape(history: History) -> str:
        """The commits with their parents, by subjects."""

        def subject(at: int) -> str:
            return history.subject[history.order[at]].decode()

        return " ".join(
            f'{subject(at)}({" ".join(subject(parent) for parent in parents)})'
            for at, parents in enumerate(history.parents)
        )

    @staticmethod
    def names(stream: bytes) -> List[str]:
        """The names that the commits of a stream have."""
        return [
            line.split()[1].decode()
            for line in stream.split(b"\n")
            if line.startswith(b"original-oid ")
        ]

    def test_limit(self) -> None:
        """More commits than the engine takes are counted and told."""
        with mock.patch.object(module, "LIMIT", 3), self.assertRaisesRegex(
            Stop, "4 commits are between the ends; the limit is 3"
        ):
            list(self.history(ROWS[1]).stream())


class Files(unittest.TestCase):
    """Copies, and folders that are removed."""

    def setUp(self) -> None:
        self.made = Made(self, 1)
        for name in ("work", "given", "checkout"):
            os.mkdir(os.path.join(self.made.room, name))
        self.top, self.given, self.checkout = (
            os.path.join(self.made.room, name) for name in ("work", "given", "checkout")
        )

    def sh(self, script: str) -> str:
        """A script in the room of this test."""
        return self.made.sh(script, cwd=self.made.room)

    def test_kinds(self) -> None:
        """What stands in a checkout of what stands in the work tree, by `find` and `cat`."""
        rows: Dict[str, List[str]] = {
            "echo 1 >work/a": ["a"],
            "mkdir -p work/d/e checkout/d && echo 1 >work/d/e/a": ["d/e/a"],
            "echo 1 >outside && ln -s ../outside work/a": ["a"],
            "echo 1 >checkout/b && echo 2 >work/b && ln -s b work/a && ln -sf b checkout/due": [
                "a"
            ],
            "mkdir work/d && echo 1 >work/d/a && ln -s a work/d/l && ln -s ../../outside work/d/o && echo 2 >outside": [
                "d"
            ],
        }
        due = ["a=1", "d/e/a=1", "a=1", "a->b b=1 due->b", "d/a=1 d/l->a d/o=2"]
        for (script, paths), text in zip(rows.items(), due):
            with self.subTest(script):
                self.sh(
                    "rm -rf work checkout outside given && mkdir work checkout given\n" + script
                )
                Copies(self.top, paths, self.given).bring(self.checkout, {})
                found = self.sh(
                    "cd checkout && find . -type f -o -type l | sort | while read f; do [ -h $f ]"
                    " && echo $f'->'$(readlink $f) || echo $f=$(cat $f); done"
                )
                self.assertEqual(found.replace("./", "").split(), text.split())

    def test_copied_once(self) -> None:
        """A file that is edited meanwhile is brought as it was; one that a test changed is brought
        anew, and another one is not."""
        self.sh("echo 1 >work/a")
        copies, brought = Copies(self.top, ["a"], self.given), {}  # type: Copies, Dict[str, str]
        self.sh("echo 2 >work/a")
        copies.bring(self.checkout, brought)
        self.assertEqual(self.sh("cat checkout/a"), "1\n")
        before = signs(self.checkout + "/a")
        copies.bring(self.checkout, brought)
        self.assertEqual(signs(self.checkout + "/a"), before)
        self.sh("echo 3 >checkout/a")
        copies.bring(self.checkout, brought)
        self.assertEqual(self.sh("cat checkout/a"), "1\n")
        self.sh("rm checkout/a; echo 4 >checkout/a")
        copies.bring(self.checkout, {})
        self.assertEqual(self.sh("cat checkout/a"), "4\n")  # of the commit

    def test_nothing_outside(self) -> None:
        """A link in the path of a copy leads nowhere else."""
        self.sh("mkdir victim work/d && echo 1 >work/d/a && ln -s ../victim checkout/d")
        with self.assertRaises(NotBrought):
            Copies(self.top, ["d/a"], self.given).bring(self.checkout, {})
        self.assertEqual(os.listdir(self.made.room + "/victim"), [])

    def test_places(self) -> None:
        """The folder of a checkout is ours by its number on the disk, and not by its name."""
        self.sh("mkdir a.farmdawn.1 b.farmdawn.1 plain && touch b.farmdawn.1/x")
        number = self.sh('stat -c "%d %i" a.farmdawn.1').strip()
        rows = [
            ("a.farmdawn.1", number, True),
            ("a.farmdawn.1", "1 2", False),
            ("a.farmdawn.1", "", True),
            ("b.farmdawn.1", "", False),
            ("plain", "", False),
            ("none.farmdawn.1", "", False),
        ]
        for name, text, is_ours in rows:
            with self.subTest((name, text)):
                folder = os.path.join(self.made.room, name)
                with open(self.made.room + "/note", "w", encoding="utf-8") as file:
                    file.write(folder + "\n" + (text + "\n" if text else ""))
                self.assertEqual(read_place(self.made.room + "/note"), folder if is_ours else "")

    def test_new_places(self) -> None:
        """A checkout keeps its name where git has removed its folder, and nobody else's folder is
        removed."""
        os.makedirs(self.made.path + "/.git/farmdawn")
        os.mkdir(self.made.room + "/repository.farmdawn.2")
        with mock.patch.dict(os.environ, ENV):
            old = os.getcwd()
            os.chdir(self.made.path)
            run = Run(Repository())
            os.chdir(old)
        first, other = run.new_place(0), run.new_place(1)
        self.assertEqual(
            [os.path.basename(name) for name in (first, other)],
            ["repository.farmdawn.1", "repository.farmdawn.3"],
        )
        os.rmdir(first)  # as a git that is ended does
        self.assertEqual(os.path.basename(run.new_place(2)), "repository.farmdawn.4")
        self.assertEqual(run.new_place(0), first)
        self.sh("touch repository.farmdawn.1/x")
        self.assertEqual((run.new_place(0), os.listdir(first)), (first, []))
        self.sh(
            "rmdir repository.farmdawn.1 && mkdir repository.farmdawn.9 repository.farmdawn.1 &&"
            " touch repository.farmdawn.1/theirs"
        )
        with open(os.path.join(run.state, "places", "0"), "w", encoding="utf-8") as file:
            file.write(first + "\n1 2\n")
        self.assertEqual(os.path.basename(run.new_place(0)), "repository.farmdawn.5")
        run.remove()
        self.assertEqual(
            self.sh('ls -d repository.farmdawn.* | tr "\\n" " "'),
            "repository.farmdawn.1 repository.farmdawn.2 repository.farmdawn.9 ",
        )


if __name__ == "__main__":
    unittest.main()
