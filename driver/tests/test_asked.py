"""What a search may be asked for beside the first bad commit between two that are named."""
from __future__ import annotations

import fcntl
import glob
import os
import pty
import re
import select
import sys
import termios
import unittest
from collections import Counter
from typing import Callable, List, NamedTuple, Tuple
from unittest import mock

from helpers import ENV, SECONDS, Repository, needs_engine, needs_program, wait_until

sys.path.insert(0, os.path.dirname(os.path.dirname(os.path.abspath(__file__))))

from git_farmdawn.checkouts.asking import Asking  # noqa: E402
from git_farmdawn.line.named import NamedFiles  # noqa: E402
from git_farmdawn.repository.repository import Repository as SourceRepository  # noqa: E402
from git_farmdawn.telling.voice import Telling  # noqa: E402

NUMBER = "n=$(cat number); "


class Fixed(NamedTuple):
    """A search for a fix, and what comes of it."""

    test: str
    options: str = ""
    status: int = 0
    out: str = "is the first fixed commit"
    told: str = ""


FIXED = (
    Fixed("test $n -ge 7"),
    Fixed("test $n -ge 7 || exit 3", told="its parent {c6} was broken"),
    Fixed("test $n -ge 7", "--term-new quick", out="is the first quick commit"),
    Fixed("test $n -gt 4 || exit 4; test $n -ge 7", "--missing 4=bad"),
    Fixed("test $n -gt 9 && exit 4; test $n -ge 7", "--missing 4=good"),
    # what is not there is not fixed
    Fixed("cat none", "", 1, "", "was called fixed, and its test failed"),
    Fixed("exec ./none", "--check-ends", 1, "", "was called fixed, and its test ended with 127"),
    Fixed("true", "--check-ends", 1, "", "was called broken, and its test ended with 0"),
    Fixed("test $n = 7 && exit 125; test $n -ge 7", "", 2, "We cannot bisect more!"),
    Fixed("test $n = 7 && exit 126; test $n -ge 7", "", 6, "bisect aborted"),
)


@needs_engine
class Fixes(unittest.TestCase):
    """The commit that fixed it: a test that succeeds has the fix, whatever else a test does."""

    def test_rows(self) -> None:
        """Answers, statuses, and what is told."""
        repo = Repository(self)
        names = {f"c{n}": repo.name(f"c{n}")[:12] for n in range(1, 13)}
        for row in FIXED:
            with self.subTest(row):
                line = ["--fixed", *row.options.split(), *repo.ends(), "--"]
                done = repo.search(*line, "sh", "-c", NUMBER + row.test)
                self.assertEqual(done.returncode, row.status, done.stderr)
                self.assertIn(row.out, done.stdout)
                self.assertIn(row.told.format(**names), done.stderr)
                if not row.status:
                    self.assertIn(f"\n{repo.name('c7')} is the first ", done.stdout)

    @needs_program
    def test_certified(self) -> None:
        """A certificate says so, and whoever tests it again turns the outcomes, too."""
        repo = Repository(self)
        path = os.path.join(repo.room, "answer")
        command = ["--", "sh", "-c", NUMBER + "test $n -ge 7"]
        repo.search("--fixed", "--certificate", path, *repo.ends(), *command)
        told = repo.search("--check", path)
        self.assertIn("it claims: its test ended with 0, by ", told.stdout, told.stderr)
        self.assertIn("it claims: searched with --fixed\n", told.stdout)
        tested = repo.search("--retest", path, *command)
        self.assertEqual((tested.returncode, tested.stdout.count("  as claimed")), (0, 2))


class Back(NamedTuple):
    """A search without GOOD over twelve commits, and what becomes of it: its status, the bad and
    the good commit between which it searches, and what is told."""

    words: str
    test: str
    ends: str = ""
    told: str = ""
    status: int = 0
    has_tags: bool = True


BACK = (
    Back("", "test $n -lt 7", "c8 c4", "c4 is good, and c8 is bad: the search is between them"),
    Back("", "test $n -lt 7", "c8 c4", "HEAD~8 is good, and HEAD~4 is bad", 0, False),
    Back("--first-parent", "test $n -lt 7", "c8 c4", "HEAD~8 is good, and HEAD~4 is bad"),
    Back("c9", "test $n -lt 7", "c7 c5", "looking back from c9 at c8, c7, c5, c1;"),
    Back("--fixed c9", "test $n -ge 7", "c7 c5", "c5 is broken, and c7 is fixed"),
    Back("--skip c4", "test $n -lt 7", "c8 c1", "c1 is good, and c8 is bad"),
    Back("--trust-ends", "test $n -lt 12", "c12 c11", "c11 is good, and HEAD is bad"),
    Back("", "test $n = 10 && exit 125; test $n -lt 7", "c8 c4"),
    # old commits cannot be tested
    Back("", "test $n -lt 6 && exit 125; test $n -lt 7", "c7 c6"),
    Back("", "true", "", "was called bad, and its test ended with 0", 1),
    Back("", "exit 125", "", "an end that is skipped says nothing", 1),
    Back("", "false", "", "no commit is good that was looked at, back to c1 (", 1),
    Back("", "test $n = 11 && exec ./none; test $n -lt 7", "", "c11) ended with 127, which", 6),
)


@needs_engine
class LooksBack(unittest.TestCase):
    """Where no GOOD is named, one is found."""

    def test_rows(self) -> None:
        """Tags, first parents, and what cannot be searched."""
        repo = Repository(self)
        names = {repo.name(f"c{n}"): f"c{n}" for n in range(1, 13)}
        for row in sorted(BACK, key=lambda row: not row.has_tags):
            with self.subTest(row):
                if not row.has_tags:
                    repo.sh("git tag | xargs git tag -d")
                line = ["--fresh", "--workers", "3", *row.words.split(), "--"]
                words = [*line, "sh", "-c", NUMBER + row.test]
                done = repo.search(*words)
                self.assertEqual(done.returncode, row.status, done.stderr)
                self.assertIn(row.told, done.stderr)
                log = [line for line in done.stdout.split("\n") if "bisect start" in line]
                ends = [names[one] for line in log for one in re.findall("[0-9a-f]{40}", line)]
                self.assertEqual(" ".join(ends), row.ends)
        repo.check_left()

    def test_again(self) -> None:
        """Each outcome serves the search; the answer and its parent are tested alone, but for one
        that had nothing beside it; and another run of the line tests nothing."""
        repo = Repository(self)
        ran = os.path.join(repo.room, "ran")
        script = NUMBER + f"echo $n >>{ran}; test $n -lt 7"
        line = ["--workers", "2", "--", "sh", "-c", script]
        first, later = repo.search(*line), repo.search(*line)
        with open(ran, encoding="ascii") as file:
            tested = file.read().split()
        again = Counter(tested) - Counter(set(tested))
        said = sum(map(int, re.findall("are tested alone: ([0-9]+) test", first.stderr)))
        self.assertEqual(again - Counter(["6", "7"]), Counter(), first.stderr)
        self.assertEqual(sum(again.values()), said, first.stderr)
        self.assertIn(f"{repo.name('c7')} is the first bad commit", first.stdout)
        self.assertEqual(first.stdout, later.stdout)
        self.assertNotIn("of earlier runs", first.stderr)
        self.assertIn("of earlier runs", later.stderr)


class Replayed(NamedTuple):
    """A search that goes on from a log, and what becomes of it."""

    words: str
    has_bisect: bool = True
    status: int = 0
    told: str = ""


REPLAYED = (
    Replayed("--replay - -- {test} <../log"),
    Replayed("--replay=/dev/stdin -- {test} <../log"),
    Replayed("--replay ../log -- {test}"),
    Replayed("--replay -- {test}"),
    Replayed("--replay --workers 2 -- {test}"),
    Replayed("-- {test}", told="a git bisect is under way here; --replay alone goes on from it"),
    Replayed("--replay -- {test}", False, 16, "no git bisect is under way here"),
    Replayed("--replay - -- {test} </dev/null", True, 17, "-: this log names no bad or no good"),
)


@needs_engine
class Replays(unittest.TestCase):
    """A log from wherever it comes."""

    def test_rows(self) -> None:
        """The answer of git's own bisect, of which two marks are taken over."""
        repo = Repository(self)
        repo.sh("git bisect start c12 c1; git bisect good c4; git bisect log >../log")
        for row in sorted(REPLAYED, key=lambda row: not row.has_bisect):
            with self.subTest(row):
                if not row.has_bisect:
                    repo.sh("git bisect reset")
                line = row.words.format(test="sh -c '" + NUMBER + "test $n -lt 7'")
                done = repo.run("sh", "-c", "git farmdawn " + line, check=False)
                self.assertEqual(done.returncode, row.status, done.stderr)
                self.assertIn(row.told, done.stderr)
                if not row.status:
                    self.assertIn(f"\n{repo.name('c7')} is the first bad commit", done.stdout)
                    is_own = "--replay" not in row.words  # looks back, from the commit at hand
                    self.assertEqual(f"good {repo.name('c4')}" in done.stdout, not is_own)


class Hand(NamedTuple):
    """A search by hand: what is typed at the question of a commit, by its number, the status, and
    the answer."""

    words: str
    typed: Callable[[int], str]
    status: int
    answer: str = ""
    told: str = ""


HAND = (
    Hand("c12 c1", lambda n: "bad" if n >= 7 else "good", 0, "{c7} is the first bad commit"),
    Hand("c1..c12", lambda n: "b" if n >= 7 else "g", 0, "{c7} is the first bad commit"),
    Hand("--fixed c12 c1", lambda n: "f" if n >= 7 else "b", 0, "{c7} is the first fixed commit"),
    Hand("c12 c1", lambda n: "s" if n == 7 else "bad" if n > 7 else "g", 2, "We cannot bisect"),
    Hand("c12 c1", lambda n: "bad" if n >= 7 else "what\ng", 0, "{c7} is the first bad commit"),
    Hand(
        "c12 c1",
        lambda n: "shell\necho in $(cat number) of $FARMDAWN_COMMIT\nexit\n" + "gb"[n >= 7],
        0,
        "{c7} is the first bad commit",
        "in 7 of {c7}",
    ),
    Hand("c12 c1", lambda n: "quit", 130, "", "stopped; the same line goes on from 0 outcomes"),
    Hand("c12 c1", lambda n: "\4", 130, "", "stopped; the same line goes on from 0 outcomes"),
    Hand("c12 mak", lambda n: "g", 8, "", "mak: no commit of that name"),
    Hand("--certificate /dev/null c12 c1", lambda n: "g", 1, "", "--certificate wants a command"),
)
# other lines may come behind it, such as that of a build that begins
QUESTION = re.compile(r"\n([0-9a-f]{12})  change (\d+)\r?\n    cd (\S+)\r?\n[^?]*quit\? ")


def on_terminal() -> None:
    """In a new session whose terminal is the standard error."""
    os.setsid()
    fcntl.ioctl(2, termios.TIOCSCTTY, 0)


@needs_engine
class ByHand(unittest.TestCase):
    """Without a command a person says what the commits are."""

    def answer(
        self, repo: Repository, words: str, typed: Callable[[int, str], str]
    ) -> Tuple[int, str, str]:
        """The status, what was printed, and what came to the terminal, of a person who types."""
        ours, theirs = pty.openpty()
        line = ["--workers", "2", *words.split()]
        begun = repo.begin(
            *line,
            stdin=theirs,
            stderr=theirs,
            preexec_fn=on_terminal,
            env=dict(ENV, SHELL="/bin/sh"),
        )
        os.close(theirs)
        seen = told = ""
        while True:
            try:
                if not select.select([ours], [], [], SECONDS)[0]:
                    raise AssertionError("nothing comes behind: " + told)
                part = os.read(ours, 1000).decode()
            except OSError:
                break
            told, seen = told + part, seen + part
            asked = QUESTION.search("\n" + seen.replace("\r", ""))
            if asked:
                seen = ""
                for word in typed(int(asked.group(2)), asked.group(3)).split("\n"):
                    os.write(ours, word.encode() + (b"" if word == "\4" else b"\n"))
        printed = begun.communicate(timeout=60)[0]
        os.close(ours)
        return begun.returncode, printed, told

    def test_rows(self) -> None:
        """What is typed, shortened, unclear, or ends it."""
        repo = Repository(self)
        names = {f"c{n}": repo.name(f"c{n}") for n in range(1, 13)}
        for row in HAND:
            with self.subTest(row):
                status, printed, told = self.answer(repo, row.words, lambda n, _: row.typed(n))
                self.assertEqual(status, row.status, told)
                self.assertIn(row.answer.format(**names), printed)
                self.assertIn(row.told.format(**names), told)
        repo.check_left()

    def test_built_ahead(self) -> None:
        """A commit stands built where it is asked about, and the next one is built meanwhile."""
        repo = Repository(self)
        folders: List[str] = []

        def typed(number: int, folder: str) -> str:
            """Looks at what was built, and at how many stand built."""
            with open(os.path.join(folder, "built"), encoding="ascii") as file:
                self.assertEqual(file.read(), f"{number}\n")
            pattern = repo.path + ".farmdawn.*/built"
            wait_until(lambda: folders or len(glob.glob(pattern)) == 2, "what is built ahead")
            folders.append(folder)
            return "bad" if number >= 7 else "good"

        repo.sh("echo built >.git/info/exclude; printf 'cat number >built' >../build.sh")
        build = f"--build=sh$IFS{repo.room}/build.sh"
        status, printed, told = self.answer(repo, f"{build} c12 c1", typed)
        self.assertEqual(status, 0, told)
        self.assertIn(f"{repo.name('c7')} is the first bad commit", printed)
        self.assertGreater(len(folders), 1)

    def test_turns(self) -> None:
        """A commit whose turn comes by an answer is not asked about at once: the answer may have
        made it needless."""
        with mock.patch("git_farmdawn.checkouts.asking.Terminal") as terminal:
            terminal.return_value.typed.side_effect = [None, "good", None]
            asking = Asking(mock.Mock(), mock.Mock(), ("bad", "good"))
        with mock.patch.object(asking, "show") as show:
            first, second = [asking.ask(mock.Mock(), mock.Mock(), {}) for _ in range(2)]
            for steps in (first, second, first, second):
                next(steps)
            with self.assertRaises(StopIteration) as end:
                next(first)
            self.assertEqual(end.exception.value, 0)
            next(second)
            show.assert_called_once()
            next(second)
            self.assertEqual(show.call_count, 2)

    def test_nobody(self) -> None:
        """Without a terminal a command is wanted."""
        repo = Repository(self, 2)
        done = repo.search("c2", "c1", start_new_session=True)
        self.assertEqual(done.returncode, 1)
        self.assertIn("-- and a command are missing", done.stderr)


class Named(NamedTuple):
    """The words of a command, and what is told of a file that they name, if anything is."""

    words: Tuple[str, ...]
    told: str = ""


COPY = "new.sh is not tracked, and no checkout has it; --copy new.sh brings it"
TREE = "is in the work tree: each checkout would test that"
NAMED = (
    Named(("sh", "new.sh"), "new.sh is not tracked; each checkout gets a copy of it"),
    Named(("sh", "-c", "make || exit 125; sh new.sh"), COPY),
    Named(("sh", "-c", "sh ./new.sh"), "./new.sh is not tracked, and no checkout has it"),
    Named(("pytest", "new.sh::Tests::test_one"), COPY),
    Named(("make", "FILE=new.sh"), COPY),
    Named(("tool", "--config=new.sh"), COPY),
    Named(("sh", "-c", "cat 'new.sh'"), COPY),
    Named(("sh", "-c", "cd {top} && make"), "{top} " + TREE),
    Named(("sh", "{top}/number"), "{top}/number " + TREE),
    Named(("cat", "number::x"), "number has changes that are not committed"),
    # no copy of these is wanted
    Named(("sh", "-c", "make >new.sh 2>&1; cat new.sh")),
    Named(("sh", "-c", "./ignored; ./built; none.sh; make number")),
    Named(("sh", "{top}/new.sh")),
    Named(("sh", "-c", "PATH={top}/.venv/bin:$PATH make")),
    Named(("sh", "-c", "cat /etc/hostname; : -n -- '' $")),
    # nor of what is behind a link of --link
    Named(("sh", "linked/new.sh", "linked")),
    Named(("sh", "-c", "sh linked/new.sh")),
)


class Heard(Telling):
    """What is told."""

    def __init__(self) -> None:
        Telling.__init__(self)
        self.lines: List[str] = []

    def line(self, text: str) -> None:
        """Keeps a line."""
        self.lines.append(text.partition(": ")[2])


class Names(unittest.TestCase):
    """Files that a line of sh, a test in a file or an option names."""

    def test_rows(self) -> None:
        """A line tells what no checkout has, and what is the same in all of them."""
        made = Repository(self, 2)
        made.sh(
            "mkdir linked; echo true | tee linked/new.sh >new.sh; printf 'a\\0b' >built;"
            "echo >ignored; mkdir -p .venv/bin;"
            "printf 'ignored\n.venv\n' >.git/info/exclude"
        )
        self.addCleanup(os.chdir, os.getcwd())
        os.chdir(made.path)
        for row in NAMED:
            with self.subTest(row):
                made.sh("echo so >number" if "changes" in row.told else "git checkout -q number")
                voice = Heard()
                files = NamedFiles(SourceRepository(), voice)
                files.ends, files.links = [made.name("c2"), made.name("c1")], ["linked"]
                for word in row.words:
                    files.settle(word.format(top=made.path))
                told = row.told.format(top=made.path)
                self.assertEqual(len(voice.lines), bool(told), voice.lines)
                self.assertTrue(all(line.startswith(told) for line in voice.lines), voice.lines)


if __name__ == "__main__":
    unittest.main()
