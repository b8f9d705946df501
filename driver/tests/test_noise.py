"""Searches by odds: the odds beside a plain computation over random histories, and whole searches
with a test that lies by a plan."""
from __future__ import annotations

import json
import os
import random
import re
import signal
import subprocess
import sys
import unittest
from typing import Dict, List, Optional, Set, Tuple

sys.path.insert(0, os.path.dirname(os.path.dirname(os.path.abspath(__file__))))

from git_farmdawn.known.odds import Lies, Noise, Odds, tell_lies  # noqa: E402
from git_farmdawn.line.options import share  # noqa: E402
from git_farmdawn.telling.numbers import of_hundred  # noqa: E402
from git_farmdawn.telling.voice import Stop  # noqa: E402
from helpers import SECONDS, TOP, Repository, needs_engine, wait_until  # noqa: E402
from test_confirm import LIES, Noisy  # noqa: E402


def random_parents(choice: random.Random, count: int) -> List[List[int]]:
    """A history in which parents stand before."""
    return [
        sorted(
            choice.sample(range(at), min(at, choice.choice([1, 1, 1, 2, 3]))),
            reverse=choice.random() < 0.5,
        )
        for at in range(count)
    ]


def above(parents: List[List[int]], at: int) -> Set[int]:
    """A commit and all that it stands on."""
    found = {at}
    for parent in parents[at]:
        found |= above(parents, parent)
    return found


class Pure(unittest.TestCase):
    """The odds, and what is tested next."""

    def test_random(self) -> None:
        """As by Bayes, candidate by candidate; and the next test has the largest gain of all, also
        beside tests under way."""
        choice = random.Random(8)
        for _ in range(200):
            parents = random_parents(choice, choice.randrange(2, 14))
            candidates = sorted(
                choice.sample(range(len(parents)), choice.randrange(1, len(parents) + 1))
            )
            noise = Noise(choice.choice([0.01, 0.1, 0.3]), choice.choice([0.01, 0.2]))
            odds = Odds(parents, candidates, noise)
            due = {at: 1.0 for at in candidates}
            has = {at: above(parents, at) for at in range(len(parents))}
            for _ in range(choice.randrange(6)):
                commit, bad = choice.randrange(len(parents)), choice.random() < 0.5
                odds.learn(commit, bad)
                for at in due:
                    is_bad = at in has[commit]
                    due[at] *= (
                        ((1 - noise.passes) if bad else noise.passes)
                        if is_bad
                        else (noise.fails if bad else 1 - noise.fails)
                    )
            total = sum(due.values())
            for at in candidates:
                self.assertAlmostEqual(odds.odds[at], due[at] / total)
            under_way = [choice.randrange(len(parents)) for _ in range(choice.randrange(3))]
            self.check_gains(odds, has, under_way)

    def check_gains(self, odds: Odds, has: Dict[int, Set[int]], under_way: List[int]) -> None:
        """The gain of each commit, by a sum over pairs of candidates that it tells apart and those
        under way do not."""
        gains = odds.gains(under_way)
        for commit, found in enumerate(gains):
            due = sum(
                odds.odds[one] * odds.odds[other]
                for one in odds.candidates
                for other in odds.candidates
                if one in has[commit]
                and other not in has[commit]
                and all((one in has[test]) == (other in has[test]) for test in under_way)
            )
            self.assertAlmostEqual(found, due, 6)
        best = odds.next_test(under_way)
        if max(gains) >= odds.least_gain:
            self.assertIsNotNone(best)
            self.assertAlmostEqual(gains[best or 0], max(gains))

    def test_line(self) -> None:
        """Of a line the middle comes first, then the quarters beside it; commits that cannot be
        tested never come."""
        odds = Odds([[at - 1] if at else [] for at in range(16)], range(16), Noise(0.05, 0.05))
        self.assertEqual(
            [odds.next_test([]), odds.next_test([7]), odds.next_test([7, 3])], [7, 3, 11]
        )
        odds.skip(7)
        self.assertIn(odds.next_test([]), (6, 8))
        self.assertEqual(odds.best(), (0, 1 / 16))
        for at in range(16):
            odds.skip(at)
        self.assertIsNone(odds.next_test([]))

    def test_again(self) -> None:
        """Where one has most of the odds, it and its parent are tested again, two times at once at
        most."""
        odds = Odds([[at - 1] if at else [] for at in range(8)], range(1, 8), Noise(0.05, 0.05))
        for _ in range(2):
            odds.learn(5, True)
            odds.learn(4, False)
        self.assertGreater(odds.best()[1], 0.98)
        rows: List[Tuple[List[int], Tuple[Optional[int], ...]]] = [
            ([], (4, 5)),
            ([5], (4,)),
            ([5, 4], (4, 5)),
            ([5, 4, 5], (4,)),
            ([5, 4, 4], (5,)),
            ([5, 4, 5, 4], (None,)),
        ]
        for under_way, due in rows:
            self.assertIn(odds.next_test(under_way), due, under_way)

    def test_ends(self) -> None:
        """Where a commit that cannot be tested leaves two, it ends, however sure it is to be."""
        for sure in (0.9, 0.99, 0.9999):
            with self.subTest(sure):
                odds, count = (
                    Odds(
                        [[at - 1] if at else [] for at in range(12)],
                        range(1, 12),
                        Noise(0.05, 0.01),
                        sure,
                    ),
                    0,
                )
                odds.skip(6)
                while odds.best()[1] < sure:
                    at = odds.next_test([])
                    if at is None:
                        break
                    odds.learn(at, at >= 7)
                    count += 1
                self.assertIsNone(at)
                self.assertEqual({at for at, _ in odds.ranked(0.9)}, {6, 7})
                self.assertLess(count, 30)

    def test_right(self) -> None:
        """Of 300 searches whose answers are to be right in 99 of 100 some 297 are."""
        choice, wrong = random.Random(5), 0
        for _ in range(300):
            noise = Noise(choice.choice([0.02, 0.1, 0.2]), choice.choice([0.02, 0.1]))
            parents = random_parents(choice, 24)
            odds, first = Odds(parents, range(24), noise), choice.randrange(24)
            while odds.best()[1] < 0.99:
                at = odds.next_test([])
                if at is None:
                    break  # no commit tells those apart that are left
                is_bad = first in above(parents, at)
                odds.learn(
                    at, is_bad != (choice.random() < (noise.passes if is_bad else noise.fails))
                )
            wrong += odds.best()[1] >= 0.99 and odds.best()[0] != first
        self.assertLess(wrong, 8)

    def test_words(self) -> None:
        """Shares as they are written, and odds in words."""
        for word, due in (
            ("0.05", 0.05),
            ("5%", 0.05),
            (".5%", 0.005),
            ("49.9%", 0.499),
            ("0.000001", 0.000001),
        ):
            with self.subTest(row=(word, due)):
                self.assertAlmostEqual(share("--noise", word, 0, 0.5), due)
        for word in ("0", "0.5", "50%", "1", "-1", "x", "", "%", ".", "5 %", "0.0", "1e-3"):
            with self.subTest(word):
                self.assertRaises(Stop, share, "--noise", word, 0, 0.5)
        for (good, bad), fits in (
            (((0, 20), (0, 20)), ""),
            (((2, 20), (2, 20)), ""),
            (((6, 20), (0, 20)), "6 of 20 of good commits failed, and 0 of 20 of bad ones passed"),
            (((1, 20), (5, 20)), "--noise 5%,25% fits"),
            (((20, 20), (0, 0)), "--noise 49%,5% fits"),
        ):
            told = tell_lies((Lies(*good), Lies(*bad)), Noise(0.05, 0.05))
            self.assertIn(fits, told)
            self.assertEqual(bool(fits), bool(told))
        for odds, text in (
            (0.5, "50 of 100"),
            (0.9931, "99.31 of 100"),
            (1.0, "99.99 of 100"),
            (0.00004, "0 of 100"),
        ):
            with self.subTest(row=(odds, text)):
                self.assertEqual(of_hundred(odds), text)


@needs_engine
class Searches(Noisy):
    """--noise."""

    def test_finds(self) -> None:
        """The first bad one, whatever single runs say; what is kept is evidence for the same line,
        which then tests nothing."""
        repo = Repository(self, 24)
        for first, lies, workers in (
            (14, {(12, 1): 3, (13, 1): 3, (6, 1): 3, (11, 1): 3}, "1"),
            (5, {(12, 1): 0, (13, 1): 0, (6, 1): 0, (7, 1): 0}, "4"),
        ):
            with self.subTest(first=first):
                self.plan(repo, lies)
                got = self.search(
                    repo, first, "--fresh", "--noise", "5%", "-j", workers, "--report", "../report"
                )
                lines = got.stdout.splitlines()
                self.assertEqual(
                    (got.returncode, lines[-1]),
                    (0, repo.name("c%d" % first) + " is the first bad commit"),
                    got.stderr,
                )
                self.assertIn("no log of git bisect", lines[1])
                self.assertRegex(
                    got.stdout, r"# odds: 99\.[0-9]+ of 100: \[%s\]" % repo.name("c%d" % first)
                )
                self.assertFalse(re.search("^git bisect", got.stdout, re.M))
                count = self.runs()
                again = self.search(repo, first, "--noise", "5%", "-j", workers)
                self.assertEqual(
                    (again.stdout.splitlines()[-1], self.runs()),
                    (lines[-1], count + 0),
                    again.stderr,
                )
                with open(repo.room + "/report/result.json", encoding="utf-8") as file:
                    facts = json.load(file)
                self.assertGreaterEqual(facts["odds"][0]["odds"], 0.99)
        repo.check_left()

    def test_ends(self) -> None:
        """Ends that are not as they were called, and ends whose tests lie; a commit that cannot be
        tested; a test that stops it; no commit that is sure enough."""
        repo = Repository(self, 12)
        wrong = r"%s was called %s, and (\d+) of its \d+ tests deny it: odds 99"
        good, bad = wrong % (repo.name("c1"), "good"), wrong % (repo.name("c12"), "bad")
        rows: List[Tuple[int, Dict[Tuple[int, int], int], int, str]] = [
            (1, {}, 1, good),
            (13, {}, 1, bad),
            (2, {(1, 1): 4}, 0, ""),
            (12, {(12, 1): 0}, 0, ""),
            (7, {(6, run): 125 for run in range(1, 9)}, 2, ""),
            (7, {(n, 1): 127 for n in range(1, 13)}, 6, ""),
        ]
        for first, lies, status, told in rows:
            with self.subTest(first=first, lies=lies):
                self.plan(repo, lies)
                got = self.search_all(repo, first, "--fresh", "--noise", "0.05,0.04", "-j", "2")
                self.assertEqual(got.returncode, status, got.stderr)
                self.assertRegex(got.stderr, told or "tests? in")
                if status == 0:
                    self.assertIn(repo.name("c%d" % first) + " is the first bad", got.stdout)
                    self.assertTrue(all(self.ran(*one) for one in lies))
                if status == 2:
                    self.assertIn("No commit has 99 of 100", got.stdout)
                    self.assertIn("\n%s\n" % repo.name("c7"), got.stdout)
        same = repo.search("--trust-ends", "--noise", "5%", "c5", "c5", "--", "true")
        self.assertEqual((same.returncode, same.stdout), (5, ""))
        self.assertIn("one commit is both bad and good", same.stderr)

    def ran(self, commit: int, run: int) -> bool:
        """Whether a run of the plan was made."""
        return os.path.exists("%s/runs/%d.%d" % (self.folder, commit, run))

    def search_all(
        self, repo: Repository, first: int, *words: str
    ) -> subprocess.CompletedProcess[str]:
        """A search whose status may be any."""
        return repo.search(*words, *repo.ends(), "--", "sh", "-c", LIES, self.folder, str(first))

    def test_stopped(self) -> None:
        """What ends it in the middle leaves the outcomes and the odds so far, and the same line
        goes on from there."""
        repo = Repository(self, 12)
        hangs = '[ ! -e "$0/once" ] || { touch "$0/began"; sleep 600; }; touch "$0/once"; '
        script = hangs + "test $(cat number) -lt 7"
        words = ["-j", "1", "--noise", "5%", "--report", "../report", *repo.ends(), "--", "sh"]
        process = repo.begin(*words, "-c", script, repo.room)
        wait_until(lambda: os.path.exists(repo.room + "/began"), "a second test", 3 * SECONDS)
        process.send_signal(signal.SIGINT)
        log, told = process.communicate(timeout=60)
        self.assertEqual(process.returncode, 130, told)
        self.assertEqual(len(re.findall("^# (?:good|bad): ", log, re.M)), 1, log)
        odds = re.search(r"^# odds: (\S+) of 100: \[([0-9a-f]{12})", log, re.M)
        assert odds is not None, log
        self.assertIn("odds so far: %s %s of 100" % (odds.group(2), odds.group(1)), told)
        with open(repo.room + "/report/result.json", encoding="utf-8") as file:
            facts = json.load(file)
        self.assertEqual(facts["odds"][0]["commit"][:12], odds.group(2))
        self.assertEqual(facts["log"], log.splitlines())

    def test_told_too_little(self) -> None:
        """Where far more tests lie than it was told, it says so, and which share fits."""
        repo = Repository(self, 12)
        self.plan(repo, {(n, 1): 3 for n in range(1, 7)})
        words = ["--fresh", "--noise", "1%", "-j", "1", "--report", "../report"]
        got = self.search_all(repo, 7, *words)
        self.assertIn(repo.name("c7") + " is the first bad commit", got.stdout, got.stderr)
        said = re.search("git farmdawn: (more tests deny .*; --noise .*,1% fits)\n", got.stderr)
        assert said is not None, got.stderr
        for name in ("result.json", "index.html", "summary.md", "junit.xml"):
            with open(os.path.join(repo.room, "report", name), encoding="utf-8") as file:
                self.assertIn(said.group(1), file.read().replace("\\", ""), name)

    def test_refused(self) -> None:
        """What has no meaning beside it."""
        repo = Repository(self, 3)
        for words in (
            ("--noise", "5%", "--confirm"),
            ("--noise", "5%", "--certificate", "../a"),
            ("--sure", "0.9"),
            ("--noise", "0.7"),
            ("--noise", "5%", "--sure", "0.4"),
            ("--noise", "5%", "--check-ends"),
        ):
            with self.subTest(words):
                self.assertEqual(
                    repo.search(*words, *repo.ends(), "--", "true").returncode, 1, words
                )
        self.assertEqual(
            repo.search("--noise", "5%", *repo.ends(), "--test", "a", "true").returncode, 1
        )


def shares(cell: str) -> List[float]:
    """How many of 100 searches were wrong, and how many refused."""
    return [float(part) for part in cell.split(" / ")[0].split(" + ")]


class Simulated(unittest.TestCase):
    """The table of docs/TRUST.md, made by benches/trust.py."""

    @needs_engine
    def test_table(self) -> None:
        """A few searches of the first row end as the table has it, but for what chance does: as
        many name a wrong commit, or are refused, and they run as many tests."""
        with open(os.path.join(TOP, "docs", "TRUST.md"), encoding="utf-8") as file:
            row = next(line.strip("|\n ") for line in file if line.startswith("| 5, 0 | 1 |"))
        columns = ("plain", "`--retry 1`", "`--repeat 3`")
        words = [sys.executable, os.path.join(TOP, "benches", "trust.py"), "40", "0", "5,0,1"]
        said = subprocess.run(
            [*words, *columns], stdout=subprocess.PIPE, universal_newlines=True, check=True
        ).stdout
        rows = [line.split(" | ") for line in said.splitlines()]
        self.assertEqual([one[2] for one in rows], list(columns))
        for name, due, found in zip(columns, row.split(" | ")[2:], (one[3] for one in rows)):
            with self.subTest(name=name):
                for wanted, seen in zip(shares(due), shares(found)):
                    chance = 4 * (max(wanted, 1) * (100 - wanted) / 40) ** 0.5
                    self.assertLessEqual(abs(seen - wanted), chance, (due, found))
                tests = [int(cell.rpartition(" / ")[2]) for cell in (due, found)]
                self.assertLessEqual(abs(tests[1] - tests[0]), 0.2 * tests[0], (due, found))

    def test_manual(self) -> None:
        """What the manual says of --retry and --repeat is what the table has, with one worker."""
        with open(os.path.join(TOP, "docs", "TRUST.md"), encoding="utf-8") as file:
            rows = {
                line.split(" | ")[0][2:]: [shares(cell)[0] for cell in line.split(" | ")[2:5]]
                for line in file
                if re.match(r"\| \d+, \d+ \| 1 \|", line)
            }
        with open(os.path.join(TOP, "man", "git-farmdawn.1"), encoding="utf-8") as file:
            text = file.read()
        for option, at, good, other in (
            ("retry", 1, "5, 0", "0, 30"),
            ("repeat", 2, "0, 30", "5, 0"),
        ):
            with self.subTest(row=(option, at, good, other)):
                item = text.split(".It Fl -%s " % option)[1].split(".It ")[0]
                said = [
                    int(number)
                    for pair in re.findall(
                        r"(\d+) of 100 searches [^.]*?and (\d+)\s+without this", item
                    )
                    for number in pair
                ]
                due = [
                    int(rows[lies][column] + 0.5) for lies in (good, other) for column in (at, 0)
                ]
                self.assertEqual(said, due, option)


if __name__ == "__main__":
    unittest.main()
