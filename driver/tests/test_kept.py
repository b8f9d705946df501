"""What is kept: outcomes that travel with their folder, files that are whole or not there, outputs
that are cut; and logs to go on from."""
from __future__ import annotations

import os
import shutil
import sys
import tempfile
import unittest
from typing import List
from unittest import mock

sys.path.insert(0, os.path.dirname(os.path.dirname(os.path.abspath(__file__))))

from git_farmdawn.known import outcomes  # noqa: E402
from git_farmdawn.host import files  # noqa: E402
from git_farmdawn.line.replaying import read_log  # noqa: E402
from git_farmdawn.telling.voice import Stop  # noqa: E402

SHORT_TESTS = True

ONE, TWO = "a" * 40, "b" * 64


class Room(unittest.TestCase):
    """A folder of its own for each test."""

    def setUp(self) -> None:
        """The folder."""
        room = tempfile.TemporaryDirectory()
        self.addCleanup(room.cleanup)
        self.room = os.path.realpath(room.name)
        self.said: List[str] = []

    def write(self, name: str, data: bytes) -> str:
        """A file in the folder."""
        path = os.path.join(self.room, name)
        os.makedirs(os.path.dirname(path), exist_ok=True)
        with open(path, "wb") as file:
            file.write(data)
        return path

    def kept(self, number: str = "0123456789ab", folder: str = "") -> outcomes.Outcomes:
        """The outcomes of a command."""
        found = outcomes.Outcomes(folder or self.room, lambda: number, self.said.append)
        self.addCleanup(os.close, found.lock)
        return found


class Outcomes(Room):
    """A status by commit."""

    def test_kept(self) -> None:
        """0 to 125 are kept, and what stops a search is not."""
        kept = self.kept()
        for status in range(256):
            kept.keep(ONE, status)
            self.assertEqual(kept.load([ONE]).get(ONE), min(status, 125))
        kept.keep(TWO, 0)
        self.assertEqual(kept.load([ONE, TWO, "c" * 40]), {ONE: 125, TWO: 0})
        self.assertEqual(kept.load([]), {})
        self.assertEqual(kept.count(), 2)
        kept.forget([ONE, "c" * 40])
        self.assertEqual(kept.names(), [TWO])
        self.assertEqual(self.said, [])

    def test_again(self) -> None:
        """Of a commit that was tested again each status is kept, in its order, and most of them
        decide; one of 126 and above is none."""
        kept = self.kept()
        kept.keep(ONE, 3)
        for status, due in ((0, 3), (127, 3), (125, 3), (0, 0), (9, 3), (9, 3), (0, 3), (0, 0)):
            with self.subTest(row=(status, due)):
                kept.keep(ONE, status, True)
                self.assertEqual(self.kept().load([ONE]), {ONE: due})
        with open(kept.path(ONE), encoding="ascii") as file:
            self.assertRegex(file.read(), "^%s 3 0 125 0 9 9 0 0 [0-9a-f]{16} end\n$" % ONE)
        other = self.kept()
        other.load([ONE])
        self.assertEqual(other.runs, {ONE: [3, 0, 125, 0, 9, 9, 0, 0]})
        other.keep(ONE, 1)
        self.assertEqual((other.load([ONE]), other.runs), ({ONE: 1}, {ONE: [1]}))
        other.forget([ONE])
        self.assertEqual(other.runs, {})

    def test_often(self) -> None:
        """However often a commit was tested, its outcome is whole."""
        kept = self.kept()
        kept.runs[ONE], kept.besides[ONE] = [124] * 9999, [None] * 9999
        kept.keep(ONE, 124, True)
        self.assertEqual((self.kept().load([ONE]), self.said), ({ONE: 124}, []))
        with open(kept.path(ONE), encoding="ascii") as file:
            self.assertEqual(file.read().split()[1:-2], ["124"] * 10000)

    def test_beside(self) -> None:
        """A test beside others is kept with its seconds, and two alone that deny it decide."""
        kept = self.kept()
        kept.keep(ONE, 3, beside=7)
        rows = [(None, 0, 3), (0, 4, 3), (9, 4, 3), (None, 0, 0), (None, 1, 0)]
        for beside, status, due in rows:
            with self.subTest(row=(beside, status, due)):
                kept.keep(ONE, status, True, beside)
                self.assertEqual(self.kept().load([ONE]), {ONE: due})
        with open(kept.path(ONE), encoding="ascii") as file:
            self.assertRegex(file.read(), "^%s 3[+]7 0 4[+]0 4[+]9 0 1 [0-9a-f]{16} end\n$" % ONE)
        other = self.kept()
        other.load([ONE])
        self.assertEqual(
            (other.runs, other.besides),
            ({ONE: [3, 0, 4, 4, 0, 1]}, {ONE: [7, None, 0, 9, None, None]}),
        )

    def test_travel(self) -> None:
        """A copy of the folder is believed; an outcome in the folder of another command is not."""
        kept = self.kept()
        kept.keep(ONE, 1)
        shutil.copytree(self.room, self.room + "/copy/inner")
        self.assertEqual(self.kept(folder=self.room + "/copy/inner").load([ONE]), {ONE: 1})
        other = self.kept("ba9876543210")
        shutil.copy(kept.path(ONE), other.path(ONE))
        self.assertEqual(other.load([ONE]), {})
        self.assertEqual(len(self.said), 1)

    def test_torn(self) -> None:
        """What is not whole is forgotten, and told."""
        kept = self.kept()
        kept.keep(ONE, 1)
        with open(kept.path(ONE), "rb") as file:
            whole = file.read()
        wrong = [whole[:length] for length in range(len(whole))]
        wrong += [whole + b"x", whole * 2, b"%s 1 end\n" % ONE.encode(), b"\0" * 40]
        wrong += [whole.replace(b" 1 ", b" 0 "), whole.replace(b"a", b"b", 1), whole.upper()]
        for data in wrong:
            self.write("results-0123456789ab/%s.outcome" % ONE, data)
            self.assertEqual(kept.load([ONE]), {}, data)
            self.assertFalse(os.path.exists(kept.path(ONE)))
        self.assertEqual(len(self.said), len(wrong))
        self.write("elsewhere", whole)
        os.symlink(self.room + "/elsewhere", kept.path(ONE))
        self.assertEqual(kept.load([ONE]), {})
        os.mkfifo(kept.path(ONE))
        self.assertEqual(kept.load([ONE]), {})

    def test_lasts(self) -> None:
        """The disk has a long test before it is told: its file, and then the name of that."""
        kept = self.kept()
        synced: List[str] = []
        with mock.patch("os.fsync", lambda fd: synced.append(os.readlink("/proc/self/fd/%d" % fd))):
            kept.keep(ONE, 1)
            self.assertEqual(synced, [])
            kept.keep(ONE, 1, lasts=True)
        self.assertEqual(synced, [kept.path(ONE) + ".new.%d" % os.getpid(), kept.folder])

    def test_links(self) -> None:
        """No link stands in for the folder."""
        os.symlink(self.room, self.room + "/results-0123456789ab")
        self.assertRaises(Stop, self.kept)


class Numbers(Room):
    """A command and what its files hold."""

    def number(self, words: List[str], copies: List[str], outside: List[str]) -> str:
        """The number of a command in this folder."""
        return outcomes.test_number(words, self.room, copies, outside)

    def test_differences(self) -> None:
        """Each change is another number; the folder where all stands is no part of it."""
        self.write("in/script", b"one")
        script = self.write("out/script", b"one")
        numbers = [self.number(["sh", "x"], ["in"], [script])]
        numbers += [
            self.number(words, ["in"], [script])
            for words in (["sh"], ["sh x"], ["sh", "x", ""], ["x", "sh"])
        ]
        self.write("in/script", b"two")
        numbers.append(self.number(["sh", "x"], ["in"], [script]))
        os.chmod(self.room + "/in/script", 0o755)
        numbers.append(self.number(["sh", "x"], ["in"], [script]))
        self.write("in/more", b"")
        numbers.append(self.number(["sh", "x"], ["in"], [script]))
        self.write("out/script", b"two")
        numbers.append(self.number(["sh", "x"], ["in"], [script]))
        os.symlink("script", self.room + "/in/link")
        numbers.append(self.number(["sh", "x"], ["in"], [script]))
        self.write("in/script", b"three")
        numbers.append(self.number(["sh", "x"], ["in"], [script]))
        self.assertEqual(len(set(numbers)), len(numbers))
        shutil.copytree(self.room, self.room + "/copy", symlinks=True)
        self.assertEqual(
            outcomes.test_number(
                ["sh", "x"], self.room + "/copy", ["in"], [self.room + "/copy/out/script"]
            ),
            numbers[-1],
        )


class Files(Room):
    """Files that are whole, or not there."""

    def test_whole(self) -> None:
        """Where the disk is full in the middle, the old file stands and nothing is beside it."""
        path = self.write("file", b"old")
        with mock.patch("os.replace", side_effect=OSError):
            self.assertRaises(OSError, files.write_whole, path, b"new")
        self.assertEqual(os.listdir(self.room), ["file"])
        files.write_whole(path, b"new")
        with open(path, "rb") as file:
            self.assertEqual(file.read(), b"new")
        os.symlink(path, self.room + "/link")
        files.write_whole(self.room + "/link", b"own")
        self.assertFalse(os.path.islink(self.room + "/link"))
        with open(path, "rb") as file:
            self.assertEqual(file.read(), b"new")

    def test_room(self) -> None:
        """Nothing is left of a look, by either way."""
        self.assertTrue(files.has_room(self.room))
        self.assertFalse(files.has_room(self.room + "/nowhere"))
        with mock.patch("os.O_TMPFILE", os.O_TMPFILE | os.O_DIRECTORY | os.O_CREAT):
            self.assertTrue(files.has_room(self.room))
        self.assertEqual(os.listdir(self.room), [])

    def test_cut(self) -> None:
        """The begin and the end are left of what is too long."""
        for length in (0, 99, 100, 101, 5000):
            with self.subTest(length):
                text = (b"0123456789" * 500)[:length]
                path = self.write("log", text)
                files.cut_log(path, 100)
                with open(path, "rb") as file:
                    got = file.read()
                if length <= 100:
                    self.assertEqual(got, text)
                else:
                    self.assertEqual(
                        got,
                        text[:50]
                        + b"\ngit farmdawn: %d bytes are cut out here (--log-limit)\n"
                        % (length - 100)
                        + text[-50:],
                    )
        self.assertEqual(os.listdir(self.room), ["log"])

    def test_last_lines(self) -> None:
        """With and without a last line break."""
        for text, due in (
            (b"", []),
            (b"a", [b"a"]),
            (b"a\n", [b"a"]),
            (b"a\n\n", [b"a", b""]),
            (b"a\nb\nc", [b"b", b"c"]),
        ):
            with self.subTest(row=(text, due)):
                self.assertEqual(files.last_lines(self.write("log", text), 2), due)
        self.assertEqual(files.last_lines(self.room + "/nowhere", 2), [])


LOGS = (
    # the log, the bad commit, the good ones, and the lines for the engine
    (
        "# bad: [x] y\ngit bisect start 'B' 'G'\n# x\ngit bisect bad M\n",
        "B",
        ["G"],
        ["git bisect start 'B' 'G'", "git bisect bad M"],
    ),
    (
        (
            "git bisect start\ngit bisect bad B\ngit bisect good G\ngit bisect good M\ngit bisect"
            " bad N\ngit bisect good O\n"
        ),
        "B",
        ["G", "M"],
        [
            "git bisect start",
            "git bisect bad B",
            "git bisect good G",
            "git bisect good M",
            "git bisect bad N",
            "git bisect good O",
        ],
    ),
    (
        (
            "git bisect start '--first-parent' '--term-new' 'fixed' '--term-old' 'broken' 'B' 'G'"
            " '--' 'a b' ':(top,literal)c*'\ngit bisect skip M"
        ),
        "B",
        ["G"],
        [
            "git bisect start '--first-parent' '--term-new' 'fixed' '--term-old' 'broken' 'B' 'G'",
            "git bisect skip M",
        ],
    ),
    (
        "git bisect start --term-new=n2 B G H G\n git-bisect n2 M\n",
        "B",
        ["G", "H"],
        ["git bisect start '--term-new' 'n2' 'B' 'G' 'H' 'G'", "git bisect n2 M"],
    ),
    ("git bisect start X Y\ngit bisect start B G\n", "B", ["G"], ["git bisect start 'B' 'G'"]),
)


class Logs(unittest.TestCase):
    """A log to go on from."""

    def test_taken(self) -> None:
        """By full names, and without paths."""
        for text, bad, goods, lines in LOGS:
            with self.subTest(row=(text, bad, goods, lines)):
                log = read_log("log", text.encode(), lambda name: name * 2)
                doubled = [
                    " ".join(
                        (
                            word
                            if word in ("git", "bisect", "start", "bad", "good", "skip", "n2")
                            or word.startswith("'-")
                            or word in ("'fixed'", "'broken'", "'n2'")
                            else (
                                "'%s'" % (word.strip("'") * 2) if word.startswith("'") else word * 2
                            )
                        )
                        for word in line.split(" ")
                    )
                    for line in lines
                ]
                self.assertEqual(
                    (log.bad, log.goods), (bad * 2, [good * 2 for good in goods]), text
                )
                self.assertEqual(log.text.decode().split("\n")[:-1], doubled)

    def test_paths(self) -> None:
        """The paths of the start line, as they are."""
        log = read_log("log", LOGS[2][0].encode(), str)
        self.assertEqual(
            (log.paths, log.first_parent, log.new, log.old),
            (["a b", ":(top,literal)c*"], True, "fixed", "broken"),
        )

    def test_refused(self) -> None:
        """What is none."""
        for text in (
            "",
            "x\n",
            "git bisect good A\n",
            "git bisect start\n",
            "git bisect start B\n",
            "git bisect start 'B G\n",
            "git bisect start B G\ngit bisect good A B\n",
        ):
            with self.subTest(text):
                with self.assertRaises(Stop) as found:
                    read_log("log", text.encode(), str)
                self.assertIn(found.exception.status, (10, 17))


if __name__ == "__main__":
    unittest.main()
