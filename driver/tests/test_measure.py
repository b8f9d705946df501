"""--measure: the numbers that are read, the tests of statistics, and whole searches with a command
that prints numbers by a plan, which say it of each run of a commit, and never by chance."""
from __future__ import annotations

import importlib.util
import itertools
import json
import os
import random
import re
import shutil
import subprocess
import sys
import unittest
import xml.etree.ElementTree as ElementTree
from typing import Any, Dict, List, Optional, Tuple

sys.path.insert(0, os.path.dirname(os.path.dirname(os.path.abspath(__file__))))

from git_farmdawn.known import measured  # noqa: E402
from git_farmdawn.line.options import threshold  # noqa: E402
from git_farmdawn.telling.numbers import (  # noqa: E402
    Measured,
    Threshold,
    brief,
    last_number,
    listed,
)
from git_farmdawn.telling.voice import Stop  # noqa: E402
from helpers import TOP, Repository, needs_engine, needs_program  # noqa: E402

# the N-th run of a commit prints what the plan says, and else 100 to 104, or from the first bad
# commit on 120 to 124; what is on the standard error does not count
PLAN = """n=$(cat number) run=1
while ! mkdir "$0/runs/$n.$run" 2>/dev/null; do run=$((run + 1)); done
printed=$(sed -n "s/^$n $run //p" "$0/plan")
[ -n "$printed" ] || printed="$((100 + 20 * (n >= $1) + run * 7 % 5)) steps"
echo "9 and 999999" >&2
echo "$printed"
[ "$printed" != fails ]
"""
# counts what it compares; from the 23rd commit on each word is compared with all before it
PROGRAM = """#include <stdio.h>
#include <string.h>
static char words[400][16];
static unsigned long steps;
static int is_new(int at) {
    for (int other = %s; other < at; other++)
        if (steps++, !strcmp(words[other], words[at]))
            return 0;
    return 1;
}
int main(void) {
    int kinds = 0;
    for (int at = 0; at < 400; at++)
        sprintf(words[at], "w%%d", at / 4);
    for (int at = 0; at < 400; at++)
        kinds += is_new(at);
    printf("%%d kinds of words of release %d, %%lu steps\\n", kinds, steps);
}
"""


class Pure(unittest.TestCase):
    """Without a process."""

    def test_last_number(self) -> None:
        """What stands last counts, in seconds or bytes where it has such a unit; what may be read in
        two ways does not."""
        rows: List[Tuple[str, Optional[float]]] = [
            ("1.3s", 1.3),
            ("3 tests in 120ms\nOK\n", 0.12),
            ("7 us", 7e-6),
            ("7 \u00b5s", 7e-6),
            ("123 ns/op", 1.23e-7),
            ("2 min", 120),
            ("real\t0m1.300s", 1.3),
            ("1m2.5s", 62.5),
            ("5 seconds.", 5),
            ("4.5MB", 4500000),
            ("12 KiB", 12288),
            ("1.5 k", 1500),
            ("1e3", 1000),
            ("-5", -5),
            ("x=.5", 0.5),
            ("\033[32m12.5\033[0m ms", 0.0125),
            ("45 widgets, 7 dwarfs", 7),
            ("12%", 12),
            ("1,234", None),
            ("1,5", None),
            ("v1.2.3", None),
            ("main2", None),
            ("1e999", None),
            ("none", None),
            ("", None),
        ]
        for text, due in rows:
            with self.subTest(text):
                self.assertEqual(last_number(text.encode()), due)
        self.assertEqual(last_number(b"\xff 3"), 3)

    def test_thresholds(self) -> None:
        """As they stand in a line, and what they say of a number."""
        rows: List[Tuple[str, str, float, bool]] = [
            (">1.3s", ">1.3", 1.3, False),
            (">120ms", ">0.12", 0.121, True),
            ("<20", "<20", 20, False),
            ("<4.5MB", "<4500000", 4499999, True),
            (">-1e-7", ">-1e-07", 0, True),
        ]
        for word, again, number, is_bad in rows:
            with self.subTest(word):
                found = threshold("--measure", word)
                self.assertEqual((found.word, found.is_bad(number)), (again, is_bad))
                self.assertEqual(threshold("--measure", again), found)
        self.assertEqual(threshold("--measure", "ends"), Threshold())
        for word in ("", ">", "1.3", ">x", ">=1", "=1", ">1,3", ">1 2", "> ends", ">1e999"):
            with self.subTest(word):
                self.assertRaises(Stop, threshold, "--measure", word)

    def test_texts(self) -> None:
        """Numbers for a person."""
        for number, due in (
            (1.30001, "1.3"),
            (0.0012345, "0.001234"),
            (1048576.0, "1048576"),
            (99999.5, "100000"),
            (0.0, "0"),
            (1e-9, "1e-09"),
        ):
            with self.subTest(number):
                self.assertEqual(brief(number), due)
        self.assertEqual(listed([1.0] * 11), "1 1 1 1 1 1 1 1 1 and 2 more")
        for above, is_bad, due in (
            (True, True, "2 3 > 1.5"),
            (True, False, "2 3 <= 1.5"),
            (False, True, "2 3 < 1.5"),
            (False, False, "2 3 >= 1.5"),
        ):
            one = Measured((2.0, 3.0), Threshold(1.5, above), is_bad)
            self.assertEqual(one.text(), due)

    def test_chance(self) -> None:
        """The U test is that of all ways to part the numbers, with equal ones or without."""
        choice = random.Random(3)
        for _ in range(60):
            most = choice.choice([3, 100])
            one = [float(choice.randrange(most)) for _ in range(choice.randrange(1, 5))]
            other = [float(choice.randrange(most)) for _ in range(choice.randrange(1, 5))]

            def far(parts: Tuple[int, ...], numbers: List[float] = [*one, *other]) -> float:
                """How far the greater pairs are from half of all, of the numbers at these places."""
                rest = [numbers[at] for at in range(len(numbers)) if at not in parts]
                pairs = [(numbers[at], number) for at in parts for number in rest]
                return abs(sum((a > b) + (a == b) / 2 for a, b in pairs) - len(pairs) / 2)

            ways = list(itertools.combinations(range(len(one) + len(other)), len(one)))
            due = sum(far(way) >= far(ways[0]) for way in ways) / len(ways)
            self.assertAlmostEqual(measured.chance(one, other), due, 9, (one, other))
        low, high = [float(number) for number in range(20)], [99.0] * 20
        self.assertLess(measured.chance(low, high), 1e-6)

    def test_ends(self) -> None:
        """Whether they differ by a few runs, by more, or not; and half way, in few digits."""
        near, far, same = [2.0, 3, 4, 1, 5], [30.0, 31, 32, 31, 30], [1.0, 2, 3, 1, 2]
        for one, other, first, later in (
            (same, far, True, True),
            (same, near, False, False),
            ([1.0, 2, 3, 2, 1], [3.5, 4, 5, 6, 7], False, True),
            ([5.0] * 5, [5.0] * 5, False, False),
            ([5.0] * 5, [6.0] * 5, True, True),
        ):
            with self.subTest((one, other)):
                self.assertEqual(measured.are_apart(one, other, True), first)
                self.assertEqual(measured.are_apart(one * 2, other * 2, False), later)
        rows: List[Tuple[List[float], List[List[float]], Optional[str]]] = [
            ([1.62, 1.59, 1.6], [[1.02, 1.0, 1.05]], ">1.3"),
            ([1.0], [[2.003]], "<1.5"),
            ([1000001.0], [[1000000.0]], ">1000000.5"),
            ([10.0], [[1.0], [6.0]], ">8"),
            ([5.0], [[1.0], [6.0]], None),
        ]
        for bad, goods, due in rows:
            with self.subTest((bad, goods)):
                found = measured.between(bad, goods)
                self.assertEqual(found and found.word, due)
                middle = measured.median(bad)
                self.assertTrue(found is None or found.is_bad(middle))
                self.assertTrue(found is None or not any(found.is_bad(one[0]) for one in goods))

    def test_decide(self) -> None:
        """Five more on one side than on the other, or most of 21; a wild one is but one."""
        rows: List[Tuple[str, Optional[bool]]] = [
            ("bbbb", None),
            ("bbbbb", True),
            ("ggggg", False),
            ("bgggg", None),
            ("bgggggg", False),
            ("Wgggggg", False),
            ("bg" * 10, None),
            ("bg" * 10 + "b", True),
            ("bg" * 10 + "g", False),
        ]
        for runs, due in rows:
            with self.subTest(runs):
                numbers = [{"b": 2.0, "g": 0.0, "W": 1e9}[run] for run in runs]
                self.assertIs(measured.decide(numbers, Threshold(1.0)), due)
        self.assertEqual(measured.decide([1.0] * 5, Threshold(1.0)), False)  # it is not above it


class Simulated(unittest.TestCase):
    """The table of docs/TRUST.md, made by benches/slower.py."""

    def test_table(self) -> None:
        """The cell of a difference of 4 is what the script says; the page and the code agree on the
        runs, and on how often a commit is decided wrong that has 3 of 4 numbers on its side."""
        with open(os.path.join(TOP, "docs", "TRUST.md"), encoding="utf-8") as file:
            text = file.read()
        spec = importlib.util.spec_from_file_location(
            "slower", os.path.join(TOP, "benches", "slower.py")
        )
        assert spec is not None and spec.loader is not None
        sys.path.insert(0, os.path.join(TOP, "benches"))
        slower = importlib.util.module_from_spec(spec)
        spec.loader.exec_module(slower)
        found = re.search("^[|] 4 [|] (.*?) [|]", text, re.M)
        self.assertEqual(found and found.group(1), slower.cell(4, 0, 4, 1000))
        drift = slower.drifting_cell(2, (2, 0), (True, False), 1000)
        self.assertIn("| is 2 slower, a third of the time | %s |" % drift, text)
        ways, wrong = {0: 1.0}, 0.0  # of so much of a lead
        for run in range(1, measured.MOST_RUNS + 1):
            further: Dict[int, float] = {}
            for lead, share in ways.items():
                for step, part in ((1, measured.SHARE), (-1, 1 - measured.SHARE)):
                    further[lead + step] = further.get(lead + step, 0.0) + share * part
            over = [
                lead for lead in further if abs(lead) >= measured.LEAD or run == measured.MOST_RUNS
            ]
            wrong += sum(further.pop(lead) for lead in over if lead < 0)
            ways = {lead: share for lead, share in further.items() if lead not in over}
        self.assertIn("a lead of %d runs" % measured.LEAD, text)
        self.assertIn("the majority of %d" % measured.MOST_RUNS, text)
        self.assertIn("1 of %d commits" % round(1 / wrong), text)


@needs_engine
class Searches(unittest.TestCase):
    """Whole searches."""

    def setUp(self) -> None:
        """Twelve commits, and no plan."""
        self.repo = Repository(self, 12)
        self.plan({})

    def plan(self, printed: Dict[Tuple[int, int], str]) -> None:
        """What runs of commits print; all are to be made yet."""
        self.folder = os.path.join(self.repo.room, "plan")
        shutil.rmtree(self.folder, ignore_errors=True)
        os.makedirs(self.folder + "/runs")
        with open(self.folder + "/plan", "w", encoding="utf-8") as file:
            file.writelines("%d %d %s\n" % (*run, text) for run, text in printed.items())

    def search(self, *words: str, first: int = 7) -> subprocess.CompletedProcess[str]:
        """A search with that test and a report."""
        report = ["--report", "../report", "-j", "2"]
        line = [*report, *words, *self.repo.ends(), "--", "sh", "-c", PLAN, self.folder]
        return self.repo.search(*line, str(first))

    def runs(self, commit: str = "") -> int:
        """How many runs there were, of a commit or of all."""
        names = os.listdir(self.folder + "/runs")
        return sum(not commit or name.split(".")[0] == commit for name in names)

    def facts(self) -> Dict[str, Any]:
        """The facts of the report, whose page is whole."""
        ElementTree.parse(self.repo.room + "/report/index.html")
        with open(self.repo.room + "/report/result.json", encoding="utf-8") as file:
            found: Dict[str, Any] = json.load(file)
        return found

    def check(self, got: subprocess.CompletedProcess[str], commit: str) -> None:
        """The answer."""
        due = self.repo.name(commit) + " is the first bad commit"
        self.assertEqual(got.stdout.splitlines()[-1:], [due], got.stderr)

    def test_ends(self) -> None:
        """The threshold comes from the ends; the same line knows it and all outcomes, and so does
        the line of the report, which has it. Another threshold knows none of them."""
        got = self.search("--measure")
        self.check(got, "c7")
        self.assertIn("git farmdawn: --measure='>112': half way from 102 (", got.stderr)
        line = r"\nbad   %s  change 7  \(122 124 121 123 120 > 112, \d+ s\)\n"
        self.assertRegex(got.stderr, line % self.repo.name("c7")[:12])
        self.assertRegex(got.stderr, r"its parent %s was good \(1" % self.repo.name("c6")[:12])
        facts, made = self.facts(), self.runs()
        self.assertEqual((facts["threshold"], self.runs("1"), self.runs("7")), (">112", 5, 20))
        for one in facts["tests"]:
            self.assertEqual(len(one["numbers"]), 5 if one["status"] is not None else 0)
            self.assertTrue(
                one["status"] is None or one["measured"] in got.stderr.replace("  ", " ")
            )
        self.assertEqual([end["status"] for end in facts["ends"]], [1, 0])
        with open(self.repo.room + "/report/index.html", encoding="utf-8") as file:
            page = file.read()
        dots = re.findall('<rect [^>]* width="6" height="6" class="(?:good|bad)"', page)
        self.assertEqual(len(dots), sum(len(one["numbers"]) for one in facts["tests"]))
        again = facts["again"]["search"].replace(" farmdawn ", " farmdawn --report ../report ")
        for words in (["--measure"], ["--measure", ">112"], ["--measure=>112.0"], None):
            with self.subTest(words):
                got = self.repo.run("sh", "-c", again) if words is None else self.search(*words)
                self.check(got, "c7")
                self.assertEqual(self.runs(), made, got.stderr)
                self.assertIn("its test measured 12", got.stderr)
                known = [one["numbers"] for one in self.facts()["tests"] if one["kept"]]
                self.assertTrue(known and all(len(numbers) == 5 for numbers in known))
        got = self.search("--measure=>111", "--check-ends")
        self.check(got, "c7")
        self.assertGreater(self.runs(), made)
        self.repo.check_left()

    def test_less_is_bad(self) -> None:
        """The other direction, with a threshold that is given and with one that is found."""
        less = {(n, run): "9%d" % (run % 8) for n in range(9, 13) for run in range(1, 60)}
        self.plan(less)
        for words in (["--measure"], ["--measure", "<99", "--fresh"]):
            with self.subTest(words):
                got = self.search(*words, first=99)
                self.check(got, "c9")
                self.assertRegex(got.stderr, r"\(9. 9. 9. 9. 9. < 9\d(?:\.\d)?, ")
                self.plan(less)

    def test_varies(self) -> None:
        """Ends that lie near each other are measured more often; a commit is, where its numbers are
        on both sides; one number that is far away is but one."""
        plan = {(12, run): "%d" % (103 + run % 4) for run in range(1, 21)}
        plan.update({(6, 1): "100000", (6, 2): "108", (7, 3): "1"})
        self.plan(plan)
        got = self.search("--measure", "--confirm=0")
        self.check(got, "c7")
        self.assertEqual((self.runs("1"), self.runs("12")), (20, 20))
        self.assertEqual((self.runs("6"), self.runs("7")), (11, 7))
        self.assertIn("(100000 108 101 ", got.stderr)

    def test_refused(self) -> None:
        """Ends that do not differ, that cannot be measured, or that are not as they were called; it
        is in the report, too."""
        equal = {(12, run): "%d" % (100 + run % 5) for run in range(1, 21)}
        same = {(n, run): "7" for n in (1, 12) for run in range(1, 21)}
        rows: List[Tuple[Dict[Tuple[int, int], str], str, int, str, int]] = [
            (equal, "", 1, "was called bad, and its test measured 1.* does not differ from", 20),
            (same, "", 1, "measured 7 7 7 7 7, which does not differ from 7 7 7 7 7 of", 5),
            ({(12, 2): "nothing"}, "", 1, "was called bad, and its test printed no number", 2),
            ({(12, 1): "fails"}, "", 1, "was called bad, and its test ended with 1", 1),
            ({}, "=>130", 1, "was called bad, and its test measured 12.* <= 130", 5),
            ({}, "=<130", 1, "was called good, and its test measured 10.* < 130", 0),
        ]
        for plan, value, status, told, runs in rows:
            with self.subTest(told):
                self.plan(plan)
                got = self.search("--fresh", "--check-ends", "--measure" + value)
                self.assertEqual((got.returncode, got.stdout), (status, ""), got.stderr)
                self.assertRegex(got.stderr, told)
                self.assertRegex(self.facts()["reason"], told)
                self.assertEqual(self.runs("12"), runs or self.runs("12"))
        self.repo.check_left()

    def test_no_number(self) -> None:
        """Who prints no number, or fails, is skipped, with the reason; 126 and above stop it."""
        self.plan({(6, 1): "nothing", (7, 1): "120", (7, 2): "fails"})
        got = self.search("--measure=>110")
        self.assertEqual(got.returncode, 2, got.stderr)
        facts = {(one["commit"], one["measured"]) for one in self.facts()["tests"]}
        for commit, why in (("c6", "printed no number"), ("c7", "ended with 1")):
            name = self.repo.name(commit)
            self.assertRegex(got.stderr, r"skip  %s  change \d  \(%s, " % (name[:12], why))
            self.assertIn((name, why), facts)
        got = self.repo.search("--measure", *self.repo.ends(), "--", "sh", "-c", "echo 1; exit 126")
        self.assertEqual(got.returncode, 6, got.stderr)

    def test_confirmed(self) -> None:
        """A machine that was slower for a while misleads all runs of a commit: so the answer is
        tested again, without the option, too; it is confirmed where all of these agree."""
        slow = {(6, run): "125" for run in range(1, 6)}
        late = {(7, run): "101" for run in range(6, 11)}
        rows: List[Tuple[Dict[Tuple[int, int], str], List[str], str, str]] = [
            (slow, [], "c7", "is taken back: it was bad, and is good 3 of 4"),
            (late, [], "c7", "not confirmed: %s bad 3 of 4, " % self.repo.name("c7")[:12]),
            (slow, ["--confirm=0"], "c6", ""),
        ]
        for plan, words, answer, told in rows:
            with self.subTest(told):
                self.plan(plan)
                got = self.search("--measure", "--fresh", *words, "-j", "1")
                self.check(got, answer)
                self.assertIn(told, got.stderr)
                self.assertEqual("confirmed: " in got.stderr, bool(told))

    def test_in_turns(self) -> None:
        """The answer and its parent are measured in turns, in the same minutes, with one worker and
        with a build, too: each is built once more, in a checkout that stays."""
        room = self.repo.room
        script = 'n=$(cat number); echo $n >>"$0/order"; echo $((100 + 20 * (n >= 7)))'
        build = "echo $(cat number) >>%s/built" % room
        rows: List[List[str]] = [[], ["--build", build]]
        for words in rows:
            with self.subTest(words):
                for name in ("order", "built"):
                    with open(os.path.join(room, name), "w", encoding="utf-8"):
                        pass
                line = ["--fresh", "--measure", "-j", "1", *words, *self.repo.ends()]
                got = self.repo.search(*line, "--", "sh", "-c", script, room)
                self.check(got, "c7")
                self.assertIn("confirmed: %s bad 4 of 4" % self.repo.name("c7")[:12], got.stderr)
                with open(os.path.join(room, "order"), encoding="utf-8") as file:
                    runs = file.read().split()[-30:]
                due = [n for turn in range(3) for n in ("7", "6") for _ in range(5)]
                self.assertEqual(runs, due)
                with open(os.path.join(room, "built"), encoding="utf-8") as file:
                    built = file.read().split()
                often = {n for n in built if built.count(n) > 1 + (n in ("6", "7"))}
                self.assertEqual(often, set())
        self.repo.check_left()

    def test_lines(self) -> None:
        """What does not go together with it."""
        ends = self.repo.ends()
        rows: List[Tuple[List[str], str]] = [
            (["--measure", "--noise", "5%", *ends], "--measure and --noise do not go together"),
            (["--measure", "--retry", "1", *ends], "--measure and --retry do not go together"),
            (["--measure", "--repeat", "2", *ends], "--measure and --repeat do not go together"),
            (["--measure", "--fixed", *ends], "--measure and --fixed do not go together"),
            (["--measure", "--trust-ends", *ends], "--trust-ends wants one"),
            (["--measure", "c12"], "--measure wants BAD and GOOD, and GOOD is missing"),
            (["--measure=5", *ends], "--measure wants what is bad, as '>1.3s' or '<20', not '5'"),
            (["--retest", "file", "--measure"], "--retest measures no ends"),
        ]
        for words, told in rows:
            with self.subTest(words):
                got = self.repo.search(*words, "--", "true")
                self.assertEqual(got.returncode, 1)
                self.assertIn(told, got.stderr)
        got = self.repo.search("--measure", *ends, "--test", "a", "true")
        self.assertIn("--measure and --test do not go together", got.stderr)

    @needs_program
    def test_certified(self) -> None:
        """A certificate has the threshold, and it is tested again by that."""
        path = os.path.join(self.repo.room, "answer")
        self.check(self.search("--measure", "--certificate", path), "c7")
        told = self.repo.search("--check", path).stdout
        self.assertIn("it claims: its test measured > 112, by ", told)
        self.assertIn("it claims: searched with --measure=>112\n", told)
        command = ["--", "sh", "-c", PLAN, self.folder]
        for words, status, due in (
            ([*command, "7"], 0, r"bad   \S+  as claimed \(measured 12.* > 112\)"),
            ([*command, "8"], 1, r"good  \S+  NOT as claimed \(measured 10.* <= 112\)"),
            (["--measure", ">130", *command, "7"], 1, r"NOT as claimed \(measured 12.* <= 130\)"),
        ):
            with self.subTest(words):
                got = self.repo.search("--retest", path, *words)
                self.assertEqual(got.returncode, status, got.stderr)
                self.assertRegex(got.stdout, due)

    @unittest.skipUnless(shutil.which("cc"), "no C compiler is here")
    def test_program(self) -> None:
        """Of forty commits of a C program, the one that made a loop quadratic, by what it counts."""
        stream = "".join(
            "commit refs/heads/program\ncommitter g <g> %d +0000\ndata 2\nd\n"
            "M 100644 inline main.c\ndata <<.\n%s.\nreset refs/tags/p%d\nfrom refs/heads/program\n"
            % (1700000000 + n, PROGRAM % ("0" if n >= 23 else "at > 4 ? at - 4 : 0", n), n)
            for n in range(1, 41)
        )
        self.repo.run("git", "fast-import", "--quiet", input=stream)
        build = ["--build", "cc -O1 -o prog main.c"]
        got = self.repo.search("--measure", *build, "p40", "p1", "--", "./prog")
        self.check(got, "p23")
        self.assertRegex(got.stderr, r"its test measured (\d{5}) \1 \1 \1 \1 > \d+\n")


if __name__ == "__main__":
    unittest.main()
