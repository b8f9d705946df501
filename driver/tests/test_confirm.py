"""Answers that are tested again: whole searches with a test that lies by a plan, which says it of
each run of a commit, and never by chance."""
from __future__ import annotations

import json
import os
import random
import re
import subprocess
import sys
import tempfile
import unittest
from typing import Dict, List, Tuple

sys.path.insert(0, os.path.dirname(os.path.dirname(os.path.abspath(__file__))))

from git_farmdawn.known.record import Tally, is_sure, sentence  # noqa: E402
from git_farmdawn.telling.facts import counts_of, decided, is_denied, that_count  # noqa: E402
from helpers import LIMITS, Repository, begins_first, needs_engine  # noqa: E402

# the N-th run of a commit ends as the plan says, and else good before the first bad one
LIES = """n=$(cat number) run=1
while ! mkdir "$0/runs/$n.$run" 2>/dev/null; do run=$((run + 1)); done
echo "run $run of $n"
status=$(sed -n "s/^$n $run //p" "$0/plan")
exit "${status:-$((n >= $1))}"
"""


class Pure(unittest.TestCase):
    """What several runs of a commit say."""

    def test_decided(self) -> None:
        """Most of them, and else the first; a skip says nothing beside others."""
        for statuses, due in (
            ([0], 0),
            ([3], 3),
            ([125], 125),
            ([125, 0], 0),
            ([0, 1], 0),
            ([2, 0], 2),
            ([0, 1, 2], 1),
            ([9, 0, 0], 0),
            ([1, 0, 125, 0], 0),
            ([125, 125], 125),
            ([0, 1, 1, 0], 0),
            ([0, 1, 1, 0, 124], 1),
        ):
            with self.subTest(row=(statuses, due)):
                self.assertEqual(decided(statuses), due, statuses)
        self.assertEqual(counts_of([0, 1, 125, 124, 0, 126]), (2, 2))

    def test_alone(self) -> None:
        """Runs beside others (here above 1000) do not count where two alone deny what all say."""
        for runs, due, open_ in (
            ([1001], [1], False),
            ([1001, 1], [1, 1], False),
            ([1001, 0], [1, 0], True),
            ([1001, 0, 0], [1, 0, 0], False),
            ([1001, 0, 1], [1, 0, 1], False),
            ([1001, 0, 125], [1, 0, 125], True),
            ([1001, 1001, 1001, 0], [1, 1, 1, 0], True),
            ([1001, 1001, 1001, 0, 0], [0, 0], False),
            ([1001, 1, 1000, 1000, 1000], [1, 1, 0, 0, 0], True),
            ([1001, 1, 1000, 1000, 1000, 1000, 1], [1, 1], False),
            ([0, 1, 1], [0, 1, 1], False),
        ):
            with self.subTest(runs):
                statuses = [run % 1000 for run in runs]
                besides = [1 if run >= 1000 else None for run in runs]
                self.assertEqual(that_count(statuses, besides), due)
                counted = that_count(statuses, besides)
                is_open = counted is statuses and is_denied(statuses, besides)
                self.assertEqual(is_open, open_)

    def test_sentence(self) -> None:
        """In words, with the terms of the log."""
        one, two = Tally("a" * 40, True, 4, 4), Tally("e" * 40, False, 3, 4)
        self.assertEqual(
            sentence([one, two], True, ("bad", "good")),
            "confirmed: aaaaaaaaaaaa bad 4 of 4, eeeeeeeeeeee good 3 of 4",
        )
        self.assertEqual(
            sentence([one, Tally("e" * 40, False, 0, 0)], False, ("new", "old")),
            "not confirmed: aaaaaaaaaaaa new 4 of 4, eeeeeeeeeeee called old",
        )

    def test_sure(self) -> None:
        """Often enough, and mostly so."""
        for times, runs, due in (
            (4, 4, True),
            (3, 4, True),
            (2, 4, False),
            (3, 3, False),
            (0, 0, True),
            (3, 5, True),
            (2, 5, False),
        ):
            with self.subTest(row=(times, runs, due)):
                self.assertEqual(
                    is_sure([Tally("a" * 40, True, 4, 4), Tally("b" * 40, False, times, runs)], 4),
                    due,
                    (times, runs),
                )


class Noisy(unittest.TestCase):
    """A repository with a plan."""

    folder = ""

    def plan(self, repo: Repository, lies: Dict[Tuple[int, int], int]) -> None:
        """What the runs of commits end with; all are to be made yet, in a folder that no test of an
        earlier plan knows."""
        self.folder = tempfile.mkdtemp(prefix="plan.", dir=repo.room)
        os.mkdir(self.folder + "/runs")
        with open(self.folder + "/plan", "w", encoding="utf-8") as file:
            file.write(
                "".join(
                    "%d %d %d\n" % (commit, run, status) for (commit, run), status in lies.items()
                )
            )

    def search(self, repo: Repository, first: int, *words: str) -> subprocess.CompletedProcess[str]:
        """A search with that test."""
        got = repo.search(*words, *repo.ends(), "--", "sh", "-c", LIES, self.folder, str(first))
        self.assertIn(got.returncode, (0, 1, 2), got.stderr)
        return got

    def runs(self) -> int:
        """How many runs there were."""
        return len(os.listdir(self.folder + "/runs"))

    def check(
        self, repo: Repository, got: subprocess.CompletedProcess[str], first: int, sure: str
    ) -> None:
        """The answer, its sentence, and a log that has one outcome a commit."""
        self.assertEqual(
            got.stdout.splitlines()[-1],
            repo.name("c%d" % first) + " is the first bad commit",
            got.stderr,
        )
        self.assertIn(
            sure % (repo.name("c%d" % first)[:12], repo.name("c%d" % (first - 1))[:12]), got.stderr
        )
        marks: List[str] = re.findall("^git bisect (?:good|bad) ([0-9a-f]+)", got.stdout, re.M)
        self.assertEqual(len(marks), len(set(marks)))


@needs_engine
class Confirmed(Noisy):
    """--confirm."""

    @begins_first
    def test_taken_back(self) -> None:
        """A good commit that failed once, a bad one that passed once, with one worker and more; and
        what is kept of it."""
        repo = Repository(self, 20)
        for workers, lies in (
            ("1", {(9, 1): 3, (10, 1): 3, (11, 1): 3}),
            ("4", {(10, 1): 3, (9, 1): 3, (11, 1): 3}),
            ("1", {(17, 1): 0, (16, 1): 0, (15, 1): 0}),
        ):
            with self.subTest(lies=lies):
                self.plan(repo, lies)
                first = self.search(repo, 14, "--fresh", "--confirm=0", "-j", workers)
                self.assertNotIn(repo.name("c14") + " is the first bad commit", first.stdout)
                self.plan(repo, lies)
                got = self.search(
                    repo, 14, "--fresh", "--confirm", "-j", workers, "--report", "../report"
                )
                self.check(repo, got, 14, "confirmed: %s bad 4 of 4, %s good 4 of 4")
                self.assertIn("is taken back: it was ", got.stderr)
                count = self.runs()
                again = self.search(repo, 14, "--confirm", "-j", workers)
                self.assertEqual((again.stdout, self.runs()), (got.stdout, count))
                self.check(repo, again, 14, "confirmed: %s bad 4 of 4, %s good 4 of 4")
                off = self.search(repo, 14, "--confirm=0", "-j", workers)
                self.assertEqual((off.stdout, self.runs()), (got.stdout, count))
                self.check_report(repo, lies)
        repo.check_left()

    def check_report(self, repo: Repository, lies: Dict[Tuple[int, int], int]) -> None:
        """The facts of what was taken back, with the output of each run."""
        with open(repo.room + "/report/result.json", encoding="utf-8") as file:
            facts = json.load(file)
        for name in {
            one["commit"] for one in facts["tests"]
        }:  # its tests are counted without a gap
            runs = {one["run"] for one in facts["tests"] if one["commit"] == name}
            self.assertEqual(runs, set(range(1, len(runs) + 1)))
        self.assertEqual(
            (
                facts["sure"],
                [(one["outcome"], one["times"], one["runs"]) for one in facts["confirmed"]],
            ),
            (True, [("bad", 4, 4), ("good", 4, 4)]),
        )
        denied = 0
        for one in facts["tests"]:
            if one["status"] is None:  # on a busy machine one is ended that nobody needs any more
                continue
            with open("%s/report/%s" % (repo.room, one["log"]), encoding="utf-8") as file:
                run, commit = [int(word) for word in re.findall("[0-9]+", file.read())]
            due = lies.get((commit, run), int(commit >= 14))
            self.assertEqual((repo.name("c%d" % commit), due), (one["commit"], one["status"]))
            again = [
                other
                for other in facts["tests"]
                if other["commit"] == one["commit"] and other["run"] > 1
            ]
            if one["run"] == 1 and again and due != int(commit >= 14):
                denied += 1
                self.assertFalse(one["used"])
        self.assertGreaterEqual(denied, 1)

    def test_tie(self) -> None:
        """Where it is as often good as bad, one more test decides; where it is mostly so, the
        answer stands."""
        repo = Repository(self, 12)
        for lies, first, sure in (
            ({(7, 2): 0, (7, 3): 0}, 7, "confirmed: %s bad 3 of 5, %s good 4 of 4"),
            ({(7, 2): 0}, 7, "confirmed: %s bad 3 of 4, %s good 4 of 4"),
            ({(6, 2): 9, (6, 3): 9, (6, 4): 9}, 6, "confirmed: %s bad 3 of 4, %s good 4 of 4"),
        ):
            with self.subTest(lies=lies):
                self.plan(repo, lies)
                self.check(
                    repo, self.search(repo, 7, "--fresh", "--confirm", "-j", "3"), first, sure
                )

    def test_says_nothing(self) -> None:
        """Tests that skip, or stop, say nothing; the answer stands, and is not confirmed."""
        repo = Repository(self, 12)
        self.plan(repo, {(7, run): 125 if run % 2 else 127 for run in range(2, 30)})
        got = self.search(repo, 7, "--fresh", "--confirm", "-j", "3")
        self.check(repo, got, 7, "not confirmed: %s bad 1 of 1, %s good 4 of 4")
        self.assertLess(self.runs(), 30)

    def test_by_itself(self) -> None:
        """Where an outcome contradicts, or the answer stands next to an end; and else not."""
        repo = Repository(self, 12)
        rows: List[Tuple[int, Dict[Tuple[int, int], int], Tuple[str, ...], bool]] = [
            (7, {}, (), False),
            (2, {}, (), True),
            (12, {}, (), True),
            (2, {}, ("--trust-ends",), False),
            (2, {}, ("--confirm=0",), False),
            (7, {}, ("--confirm", "--trust-ends"), True),
        ]
        for first, lies, words, due in rows:
            with self.subTest(first=first, words=words):
                self.plan(repo, lies)
                got = self.search(repo, first, "--fresh", *words)
                self.assertEqual("confirmed: " in got.stderr, due, got.stderr)
        self.plan(repo, {(3, 1): 1})
        repo.search(
            "--fresh",
            "--check-ends",
            "--confirm=0",
            "c3",
            "c2",
            "--",
            "sh",
            "-c",
            LIES,
            self.folder,
            "7",
        )  # so that its outcome is known
        got = self.search(repo, 7)
        self.assertIn("1 outcome contradicts the answer", got.stderr)
        self.check(repo, got, 7, "confirmed: %s bad 4 of 4, %s good 4 of 4")

    def test_end(self) -> None:
        """An end that most tests deny leaves nothing to search; a trusted one is not tested."""
        repo = Repository(self, 6)
        self.plan(repo, {(1, run): 4 for run in range(2, 9)})
        got = self.search(repo, 2, "--fresh")
        self.assertEqual(got.returncode, 1, got.stderr)
        self.assertIn("%s was called good, and its test ended with 4" % repo.name("c1"), got.stderr)
        got = self.search(repo, 2, "--fresh", "--confirm", "--trust-ends")
        self.check(repo, got, 2, "confirmed: %s bad 4 of 4, %s called good")

    def test_skipped(self) -> None:
        """A parent that is not to be tested is not, with the option as without."""
        repo = Repository(self, 6)
        repo.sh(
            "git checkout -q c2; for n in 3 4 5; do git commit -q --allow-empty -m beside; done;"
            " git tag side; git checkout -q main; git reset -q --hard c3; git merge -q side"
        )
        alarm = "[ $FARMDAWN_COMMIT != %s ] || touch ../alarm; " % repo.name("c2")
        command = ["sh", "-c", alarm.replace("..", repo.room) + "test $(cat number) -lt 3"]
        for words in ((), ("--confirm",)):
            with self.subTest(words):
                got = repo.search("--fresh", *words, "--skip", "c2", "main", "c1", "--", *command)
                self.assertIn(repo.name("c3") + " is the first bad commit", got.stdout, got.stderr)
                sure = "confirmed: %s bad 4 of 4\n" % repo.name("c3")[:12]
                self.assertEqual(sure in got.stderr, bool(words), got.stderr)
                self.assertFalse(os.path.exists(repo.room + "/alarm"))

    def test_end_that_lies(self) -> None:
        """With the option an end is tested again before it stops the search, beside the search,
        first, and where it is known."""
        repo = Repository(self, 12)
        for words in (("--fresh",), ("--fresh", "--check-ends"), ()):
            for lies, status in (
                ({(1, 1): 4}, 0),
                ({(12, 1): 0}, 0),
                ({(1, run): 4 for run in (1, 2, 4)}, 1),
            ):
                if status and "--check-ends" not in words:
                    continue  # the search may have its answer before
                with self.subTest(words=words, lies=lies):
                    self.plan(repo, lies)
                    if not words:
                        self.search(
                            repo, 7, "--fresh", "--confirm=0"
                        )  # so that its outcome is kept
                    got = self.search(repo, 7, "--confirm", *words)
                    self.assertEqual(got.returncode, status, got.stderr)
                    due = (
                        "%s was called good, and its test ended with 4" % repo.name("c1")
                        if status
                        else repo.name("c7") + " is the first bad commit"
                    )
                    self.assertIn(due, got.stderr if status else got.stdout)
        repo.check_left()

    def test_fresh_checkouts(self) -> None:
        """What one test leaves behind is no part of the next one of the same commit, with a build
        that they share as without."""
        repo = Repository(self, 12)
        leaves = "test ! -e left || exit 9; touch left; test $(cat number) -lt 7"
        build = ("--build", "cp number built")
        rows: List[Tuple[str, ...]] = [("--", "sh", "-c", leaves)]
        rows += [(*build, *rows[0])]
        for more in ((), ("--together",)):
            rows += [
                (
                    *build,
                    *more,
                    "--test",
                    "a",
                    leaves,
                    "--test",
                    "b",
                    "test ! -e left2 && touch left2; test $(cat built) -lt 7",
                )
            ]
        for words in rows:
            with self.subTest(words):
                got = repo.search("--confirm", "-j", "2", *repo.ends(), *words)
                sure = "confirmed: %s bad 4 of 4, %s good 4 of 4" % (
                    repo.name("c7")[:12],
                    repo.name("c6")[:12],
                )
                self.assertEqual(got.stderr.count(sure), words.count("--test") or 1, got.stderr)

    def test_deadline(self) -> None:
        """Where nobody asked for it the answer is told, with what is known of it; else the search
        is stopped, and goes on."""
        repo = Repository(self, 3)
        slow = [
            "sh",
            "-c",
            (
                'test -e "$0/known.$FARMDAWN_COMMIT" && sleep 600; touch'
                ' "$0/known.$FARMDAWN_COMMIT"; test $(cat number) -lt 2'
            ),
            repo.room,
        ]
        got = repo.search("--trust-ends", "--confirm=0", "-j", "1", *repo.ends(), "--", *slow)
        self.assertEqual(got.returncode, 0, got.stderr)
        for limit in LIMITS:
            got = repo.search("--deadline", str(limit), "-j", "4", *repo.ends(), "--", *slow)
            if got.returncode != 25:
                break
        self.assertEqual(
            (got.returncode, got.stdout.splitlines()[-1]),
            (0, repo.name("c2") + " is the first bad commit"),
            got.stderr,
        )
        self.assertIn("not confirmed: %s bad 1 of 1" % repo.name("c2")[:12], got.stderr)
        got = repo.search("--confirm", "--deadline", "6", "-j", "4", *repo.ends(), "--", *slow)
        self.assertEqual(got.returncode, 25, got.stderr)
        repo.check_left()

    def test_seeded(self) -> None:
        """One of the first three runs of each second good commit fails, by a plan of a seed: the
        answer is the right one all the same."""
        repo = Repository(self, 30)
        choice = random.Random(20)
        for turn in range(4):
            first = choice.randrange(3, 29)
            lies = {
                (commit, choice.randrange(1, 4)): 5
                for commit in range(2, first)
                if choice.random() < 0.5
            }
            self.plan(repo, lies)
            got = self.search(repo, first, "--fresh", "--confirm", "-j", str(choice.choice([1, 4])))
            self.check(repo, got, first, "confirmed: %s bad 4 of 4, %s good ")

    def test_several(self) -> None:
        """Each of several searches by itself; one that takes an outcome back leaves the others what
        they were."""
        repo = Repository(self, 20)
        self.plan(repo, {(9, 1): 1, (10, 1): 1, (11, 1): 1})
        honest = "test $(cat number) -lt 5"
        got = repo.search(
            "--confirm",
            *repo.ends(),
            "--test",
            "odd",
            "sh -c '%s' %s 14" % (LIES.replace("'", "'\\''"), self.folder),
            "--test",
            "plain",
            honest,
        )
        self.assertEqual(
            [line[:40] for line in got.stdout.splitlines() if "is the first bad" in line],
            [repo.name("c14"), repo.name("c5")],
            got.stderr,
        )
        for due in (
            "odd: confirmed: %s bad 4 of 4" % repo.name("c14")[:12],
            "plain: confirmed: %s bad 4 of 4" % repo.name("c5")[:12],
        ):
            with self.subTest(due):
                self.assertIn(due, got.stderr)

    def plans(self, repo: Repository, lies: Dict[str, Dict[Tuple[int, int], int]]) -> List[str]:
        """A list of tests by their first bad commits, each with a plan of its own; the words that
        search for all of them."""
        folders = {}
        for name, own in lies.items():
            self.plan(repo, own)
            folders[name] = self.folder
        self.folder = tempfile.mkdtemp(prefix="plans.", dir=repo.room)
        for name, folder in folders.items():
            os.rename(folder, self.folder + "/" + name)
        with open(self.folder + "/list", "w", encoding="utf-8") as file:
            file.write("".join(name + "\n" for name in lies))
        return [
            "--build",
            "true",
            "--tests",
            self.folder + "/list",
            *repo.ends(),
            "--",
            "sh",
            "-c",
            LIES,
            self.folder + "/{}",
            "{}",
        ]

    def test_list(self) -> None:
        """Of the tests of a list one lies; its answer alone goes on, and the others stand."""
        repo = Repository(self, 20)
        for workers in ("1", "4"):
            with self.subTest(workers):
                words = self.plans(repo, {"14": {(10, 1): 3, (9, 1): 3, (11, 1): 3}, "6": {}})
                got = repo.search(
                    "--fresh", "--confirm", "--workers", workers, "--report", "../of-list", *words
                )
                self.assertEqual(got.returncode, 0, got.stderr)
                self.assertEqual(
                    re.findall("^([0-9a-f]+) is the first bad", got.stdout, re.M),
                    [repo.name("c14"), repo.name("c6")],
                    got.stderr,
                )
                for first in (14, 6):
                    due = "%d: confirmed: %s bad 4 of 4, %s good 4 of 4" % (
                        first,
                        repo.name("c%d" % first)[:12],
                        repo.name("c%d" % (first - 1))[:12],
                    )
                    self.assertIn(due, got.stderr)
                with open(repo.room + "/of-list/14/result.json", encoding="utf-8") as file:
                    self.assertTrue(json.load(file)["sure"])
                self.assertTrue(os.path.isfile(repo.room + "/of-list/report.css"))
        repo.check_left()

    def test_left_out(self) -> None:
        """Of several tests, one whose end is not as it was called in most of its tests is left out;
        one whose end lied once is not."""
        repo = Repository(self, 20)
        words = self.plans(repo, {"14": {(20, 1): 0}, "99": {}})
        got = repo.search("--confirm", "--check-ends", "--workers", "4", *words)
        self.assertEqual(got.returncode, 1, got.stderr)
        self.assertEqual(
            re.findall("^([0-9a-f]+) is the first bad", got.stdout, re.M),
            [repo.name("c14")],
            got.stderr,
        )
        self.assertEqual(re.findall("^.*: ([0-9]+) is left out: ", got.stderr, re.M), ["99"])
        self.assertIn("14: confirmed: %s bad 4 of 4" % repo.name("c14")[:12], got.stderr)
        repo.check_left()

    def test_do_not_go_together(self) -> None:
        """A search by odds, and a test of a certificate, have one test."""
        repo = Repository(self, 3)
        words = self.plans(repo, {"2": {}})
        self.assertIn(
            "--noise and --tests do not go together", repo.search("--noise=0.1", *words).stderr
        )
        self.assertIn(
            "--retest wants a file, and takes no tests",
            repo.search(
                "--retest", "file", "--tests", self.folder + "/list", "--", "true", "{}"
            ).stderr,
        )


@needs_engine
class Often(Noisy):
    """--retry and --repeat."""

    def test_runs(self) -> None:
        """A failure that does not count, a good run that is not enough; each with its own kept
        outcomes."""
        repo = Repository(self, 12)
        for words, lies, due in (
            (("--retry", "1"), {(n, 1): 8 for n in range(2, 7)}, 7),
            (("--retry=2",), {(n, run): 8 for n in range(2, 7) for run in (1, 2)}, 7),
            (("--repeat", "3"), {(n, run): 0 for n in range(7, 12) for run in (1, 2)}, 7),
            (("--repeat", "2"), {(4, 2): 8}, 7),
        ):
            with self.subTest(words=words):
                self.plan(repo, lies)
                got = self.search(repo, due, *words, "--confirm=0", "-j", "1")
                self.assertEqual(
                    got.stdout.splitlines()[-1],
                    repo.name("c%d" % due) + " is the first bad commit",
                    got.stderr,
                )
                self.assertNotIn("of earlier runs", got.stderr)
        for words in (
            ("--retry", "1", "--repeat", "2"),
            ("--retry", "0"),
            ("--confirm=100",),
            ("--repeat", "x"),
        ):
            with self.subTest(words):
                self.assertEqual(repo.search(*words, *repo.ends(), "--", "true").returncode, 1)

    def test_said(self) -> None:
        """Its output has all of the runs."""
        repo = Repository(self, 3)
        self.plan(repo, {(2, 1): 8})
        self.search(repo, 3, "--retry", "1", "--log-dir", "../logs", "--trust-ends")
        with open("%s/logs/%s.log" % (repo.room, repo.name("c2")), encoding="utf-8") as file:
            self.assertEqual(
                file.read(),
                (
                    "run 1 of 2\ngit farmdawn: run 1 ended with 8, and the test is run again\nrun 2"
                    " of 2\n"
                ),
            )


if __name__ == "__main__":
    unittest.main()
