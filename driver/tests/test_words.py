"""The words of a line, and the values of options: tables, without a repository."""
from __future__ import annotations

import itertools
import os
import sys
import time
import unittest
from typing import Dict, List, Tuple

sys.path.insert(0, os.path.dirname(os.path.dirname(os.path.abspath(__file__))))

from git_farmdawn.line import machines, options  # noqa: E402
from git_farmdawn.line.options import KNOWN, full_option, nearest, read  # noqa: E402
from git_farmdawn.line.table import OTHER_NAMES  # noqa: E402
from git_farmdawn.telling.voice import Stop, quoted  # noqa: E402

SHORT_TESTS = True

TAIL = ["main", "v1", "--", "make", "test"]
# words before the tail, and the options and values that they are
TAKEN = (
    (["--workers", "4"], [("--workers", "4")]),
    (["--workers=4"], [("--workers", "4")]),
    (["-j", "4"], [("--workers", "4")]),
    (["-j4"], [("--workers", "4")]),
    (["-j=4"], [("--workers", "4")]),
    (["--work", "4"], [("--workers", "4")]),
    (["--wo=4"], [("--workers", "4")]),
    (["--jobs", "4"], [("--workers", "4")]),
    (["--term-bad", "fixed"], [("--term-new", "fixed")]),
    (["--term-good=broken"], [("--term-old", "broken")]),
    (["--time", "5m", "--dead=2h"], [("--timeout", "5m"), ("--deadline", "2h")]),
    (["--skip", "-x", "--skip=a..b"], [("--skip", "-x"), ("--skip", "a..b")]),
    (["--path="], [("--path", "")]),
    (["--log-l", "10M"], [("--log-limit", "10M")]),
    (["--cert", "file"], [("--certificate", "file")]),
    (["--confirm"], [("--confirm", "3")]),
    (["--confirm=5"], [("--confirm", "5")]),
    (["--conf=0", "--retry", "2"], [("--confirm", "0"), ("--retry", "2")]),
    (["--confirm", "--repeat=3"], [("--confirm", "3"), ("--repeat", "3")]),
)
# lines that are none, and what is said of them
REFUSED: Tuple[Tuple[List[str], str], ...] = (
    ([], "BAD and GOOD are missing|-- and a command are missing"),
    (["main"], "-- and a command are missing; see git farmdawn -h"),
    (["main", "--test", "one", "make"], "--test wants BAD and GOOD, and GOOD is missing"),
    (["--noise", "5%", "--", "make"], "--noise wants BAD and GOOD, and both are missing"),
    (["--tests", "list", "main", "--", "make", "{}"], "--tests wants BAD and GOOD, and GOOD is"),
    (["main", "v1", "--"], "BAD, GOOD and a command are wanted"),
    (["main", "v1", "make", "test"], "is it: git farmdawn main v1 -- make test ?"),
    (["main", "v1", "sh", "a b"], "is it: git farmdawn main v1 -- sh 'a b' ?"),
    (["main", "v1", "make", "-s"], "unknown option -s; is a -- missing before the command?"),
    (["--wokers", "4"] + TAIL, "unknown option --wokers; did you mean --workers?"),
    (["--reprot", "x"] + TAIL, "unknown option --reprot; did you mean --report?"),
    (["--fist-parent"] + TAIL, "did you mean --first-parent?"),
    (["--nothing-like-it"] + TAIL, "unknown option --nothing-like-it; see git farmdawn -h"),
    (["--term", "x"] + TAIL, "--term may be --term-new or --term-old"),
    (["--log", "x"] + TAIL, "--log may be --log-dir or --log-limit"),
    (["--quiet=1"] + TAIL, "--quiet takes no value"),
    (["--workers"], "--workers wants a value; see git farmdawn -h"),
    (["--repeat"], "--repeat wants a value"),
    (["-x"] + TAIL, "unknown option -x"),
    (["--check"], "--check wants a value|--check wants a file alone"),
    (["--check", "a", "b"], "--check wants a file alone"),
    (["--check="], "--check wants a file alone"),
    (["--prune"] + TAIL, "--prune stands alone"),
    (["--test", "unit", "make", "--test", "unit"], "--test wants a value"),
    (["--test", "unit", "make"] + TAIL, "a command stands behind --, or in --test"),
    (["--tests-from", "junit.xml", "main", "v1"], "--tests-from wants a command behind --"),
    (["--tests", "list", "main", "v1", "--"], "BAD, GOOD and a command are wanted"),
    (["--replay", "log"] + TAIL, "--replay has the ends from the log"),
    (["--state="] + TAIL, "--state wants a value"),
    (["run", "make", "test"], "the line is: git farmdawn BAD GOOD -- make test"),
    (["run"], "the line is: git farmdawn BAD GOOD -- COMMAND"),
    (["start", "HEAD", "HEAD~20"], "the line is: git farmdawn HEAD HEAD~20 -- COMMAND"),
    (["start", "HEAD"], "the line is: git farmdawn BAD GOOD -- COMMAND"),
    (["bad", "HEAD"], "the line is: git farmdawn BAD GOOD -- COMMAND"),
)


class Lines(unittest.TestCase):
    """What the words of a line are."""

    def test_options(self) -> None:
        """By their names, shortened, with = and without."""
        for words, due in TAKEN:
            for behind in (False, True):
                with self.subTest(words=words, behind=behind):
                    line = read(TAIL[:2] + words + TAIL[2:] if behind else words + TAIL)
                    self.assertEqual(line.values, due)
                    self.assertEqual([end.text for end in line.ends], ["main", "v1"])
                    self.assertEqual(line.command, ["make", "test"])

    def test_refusals(self) -> None:
        """Each with what may help."""
        for words, due in REFUSED:
            with self.subTest(words=words):
                with self.assertRaises(Stop) as found:
                    read(words)
                self.assertEqual(found.exception.status, 1)
                self.assertTrue(
                    any(text in found.exception.text for text in due.split("|")),
                    found.exception.text,
                )
                self.assertNotIn("\n", found.exception.text)

    def test_beginnings(self) -> None:
        """A beginning that is clear means its option; one that is not is refused with all that it
        may be."""
        for option in KNOWN:
            for length in range(3, len(option)):
                begin = option[:length]
                others = {
                    OTHER_NAMES.get(other, other) for other in KNOWN if other.startswith(begin)
                }
                with self.subTest(begin=begin):
                    if begin in KNOWN or len(others) == 1:
                        self.assertIn(full_option(begin), others)
                    else:
                        self.assertRaisesRegex(Stop, "may be", full_option, begin)

    def test_misspelt(self) -> None:
        """A letter that is left out, doubled, or changed with the next one: the option is meant all
        the same."""
        names, found = [option[2:] for option in KNOWN], []
        for name in names:
            for at in range(len(name) - 1):
                for wrong in (
                    name[:at] + name[at + 1 :],
                    name[:at] + name[at] + name[at:],
                    name[:at] + name[at + 1] + name[at] + name[at + 2 :],
                ):
                    if not any(other.startswith(wrong) for other in names):
                        found.append(nearest(wrong, names) == name)
        self.assertGreater(len(found), 700)
        self.assertLessEqual(found.count(False), 5)

    def test_actions(self) -> None:
        """What is asked for in place of a search."""
        for words, due in (
            (["-h"], "help"),
            (["--help", "x"], "help"),
            (["--version"], "version"),
            (["--check", "f"], "check"),
            (["--prune"], "prune"),
            (["--prune", "--state", "d"], "prune"),
            (TAIL, "search"),
            (["v1..main", "--", "x"], "search"),
        ):
            with self.subTest(row=(words, due)):
                self.assertEqual(read(words).action, due, words)
        self.assertEqual(read(["--prune", "--state", "d"]).state, "d")

    def test_command_is_left(self) -> None:
        """No word behind -- is one of ours."""
        for words in itertools.product(["--workers", "--", "-j", "x", ""], repeat=3):
            self.assertEqual(read(["a", "b", "--", *words]).command, list(words))


class Values(unittest.TestCase):
    """Numbers, sizes, times and terms."""

    def test_numbers(self) -> None:
        """From 1 to the most."""
        for most in (1, 9, 64, 1000):
            with self.subTest(most):
                for word in [str(n) for n in range(-2, 1100)] + [
                    "",
                    "x",
                    "01",
                    "1.5",
                    " 1",
                    "1 ",
                    "+1",
                    "1e3",
                    "\u0661",
                    "9999999999",
                ]:
                    good = (
                        word.isascii() and word.isdigit() and word[0] != "0" and int(word) <= most
                    )
                    if good:
                        self.assertEqual(options.number("--x", word, most), int(word))
                    else:
                        self.assertRaises(Stop, options.number, "--x", word, most)

    def test_times(self) -> None:
        """Seconds, and what has a unit."""
        for word, due in (
            ("90", 90),
            ("90s", 90),
            ("5m", 300),
            ("2h", 7200),
            ("1d", 86400),
            ("999999999", 999999999),
        ):
            with self.subTest(row=(word, due)):
                self.assertEqual(options.seconds("--timeout", word), due)
        for word in (
            "",
            "0",
            "0s",
            "-1",
            "5x",
            "m",
            "5 m",
            "1.5h",
            "5M",
            "1h30m",
            "999999999h",
            "01m",
            "9999999999",
        ):
            with self.subTest(word):
                with self.assertRaisesRegex(Stop, "wants seconds", msg=word):
                    options.seconds("--timeout", word)

    def test_moments(self) -> None:
        """The next time of day, and spans."""
        noon = time.mktime((2026, 11, 30, 12, 0, 0, 0, 0, -1))
        for word, due in (
            ("12:01", 60),
            ("13:00", 3600),
            ("12:00", 86400),
            ("11:59", 86340),
            ("0:00", 43200),
            ("55m", 3300),
            ("30", 30),
        ):
            with self.subTest(row=(word, due)):
                self.assertEqual(options.until("--deadline", word, noon), due, word)
        for word in ("24:00", "12:60", "12", "1:2", "noon", "-5m", "12:00:00"):
            with self.subTest(word):
                if word != "12":
                    with self.assertRaisesRegex(Stop, "--deadline wants", msg=word):
                        options.until("--deadline", word, noon)

    def test_sizes(self) -> None:
        """Bytes, and what has a unit."""
        for word, due in (("1", 1), ("500k", 500000), ("10M", 10000000), ("2G", 2000000000)):
            with self.subTest(row=(word, due)):
                self.assertEqual(options.size("--log-limit", word), due)
        for word in ("", "0", "1x", "10m", "-1", "1.5M", "M", "1 k"):
            with self.subTest(word):
                self.assertRaises(Stop, options.size, "--log-limit", word)

    def test_terms(self) -> None:
        """What may stand for bad and good."""
        for new, old in (
            (None, None),
            ("fixed", "broken"),
            ("new", None),
            (None, "old"),
            ("bad", "good"),
            ("a" * 40, "b-2"),
        ):
            options.check_terms(new, old)
        for term in (
            "broken p5",
            "*",
            "it's",
            "",
            "-x",
            "a..b",
            "start",
            "bad",
            "new",
            "a" * 41,
            "uml\u00e4ut",
            "a\n",
        ):
            with self.subTest(term):
                self.assertRaises(Stop, options.check_terms, None, term)
        self.assertRaises(Stop, options.check_terms, "same", "same")

    def test_workers_of_a_command(self) -> None:
        """Those that its hosts take, or the tasks of an allocation; of Slurm the number is
        wanted."""
        inside = {"SLURM_JOB_ID": "7", "SLURM_NTASKS": "12"}
        for line, workers in (
            ("make test", None),
            ("farmdawn-ssh a b:4 c:16 -- make -j 8 d:9", 21),
            ("/opt/bin/farmdawn-ssh --ssh -p22 --tries 5 --skip-lost a:2 -- make", 2),
            ("farmdawn-ssh --help", None),
            ("farmdawn-srun -p build -- make", 12),
        ):
            with self.subTest(row=(line, workers)):
                self.assertEqual(machines.workers_of(line.split(), inside), workers, line)
        rows: Tuple[Dict[str, str], ...] = (
            {},
            {"SLURM_NTASKS": "12"},
            {"SLURM_JOB_ID": "7", "SLURM_NTASKS": "x"},
        )
        for outside in rows:
            self.assertRaises(Stop, machines.workers_of, ["farmdawn-srun", "--", "make"], outside)

    def test_quoted(self) -> None:
        """A word is what sh makes of it."""
        import shlex

        for word in ("", "a", "a b", "it's", "$x", "a/b.c:d@e=f", "\n", '"', "\\", "*", "ä"):
            with self.subTest(word):
                self.assertEqual(shlex.split(quoted(word)), [word])


if __name__ == "__main__":
    unittest.main()
