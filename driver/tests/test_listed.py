"""Searches for the tests of lists and of files of JUnit: whole ones, each with the answers that it has
for its tests."""
from __future__ import annotations

import os
import sys
import unittest
from typing import Dict, Tuple
from xml.etree import ElementTree

sys.path.insert(0, os.path.dirname(os.path.abspath(__file__)))

from helpers import ENV, Repository, needs_engine  # noqa: E402

FAILED = '<testsuite name="s">%s</testsuite>'
CASE = '<testcase classname="%s" name="%s"><failure/></testcase>'
FINE = '<testcase classname="a.C" name="9"/>'
TEST = ["--", "sh", "-c", 'test $(cat number) -lt "${1##*[!0-9]}"', "sh", "{name}"]
# files, what of them is named, and the commits that are found by the names that are shown
FOUND: Tuple[Tuple[str, Dict[str, str], Tuple[str, ...], Dict[str, str]], ...] = (
    (
        "a file for each class, one of them without a failure",
        {"r/TEST-a.B.xml": CASE % ("a.B", "3"), "r/TEST-a.C.xml": FINE},
        ("r/TEST-a.C.xml", "r/TEST-a.B.xml"),
        {"a.B::3": "c3"},
    ),
    (
        "a folder with others below",
        {
            "r/TEST-a.B.xml": CASE % ("a.B", "3"),
            "r/TEST-a.C.xml": FINE,
            "r/more/x.xml": CASE % ("a.D", "5"),
            "r/more/x.txt": "no file of JUnit",
        },
        ("r",),
        {"a.B::3": "c3", "a.D::5": "c5"},
    ),
    (
        "two testcases of one name",
        {"j.xml": CASE % ("crate", "b::c 3") + CASE % ("crate::b", "c 5")},
        ("j.xml",),
        {"crate::b::c 3": "c3", "crate::b::c 5": "c5"},
    ),
    (
        "two of which all is the same but where the class ends",
        {"j.xml": CASE % ("crate", "b::4") + CASE % ("crate::b", "4")},
        ("j.xml",),
        {"crate::b::4": "c4", "crate::b::4 (2)": "c4"},
    ),
    (
        "names with what no terminal may show",
        {"j.xml": CASE % ("a", "two&#10;lines&#x202e;3") + CASE % ("a", "&#x85;4")},
        ("j.xml",),
        {"a::two^Jlines[U+202E]3": "c3", "a::[U+0085]4": "c4"},
    ),
    (
        "a testcase without a name beside one that has one",
        {"j.xml": "<testcase><failure/></testcase>" + CASE % ("a", "3")},
        ("j.xml",),
        {"a::3": "c3"},
    ),
)


@needs_engine
class Listed(unittest.TestCase):
    """Whole searches."""

    def setUp(self) -> None:
        """A repository of six commits."""
        self.repo = Repository(self, 6)

    def write(self, name: str, text: str) -> str:
        """A file beside the repository; gives its path from there."""
        path = os.path.join(self.repo.room, name)
        os.makedirs(os.path.dirname(path), exist_ok=True)
        with open(path, "w", encoding="utf-8", errors="surrogateescape") as file:
            file.write(text)
        return "../" + name

    def test_junit(self) -> None:
        """Each test that failed has its answer, on the terminal and in the report."""
        for number, (what, files, named, due) in enumerate(FOUND):
            folder = "%d/" % number
            for name, text in files.items():
                self.write(folder + name, FAILED % text if name.endswith(".xml") else text)
            words = [word for name in named for word in ("--tests-from", "../" + folder + name)] + [
                "--report",
                "../%sreport" % folder,
                *self.repo.ends(),
            ]
            with self.subTest(what):
                got = self.repo.search("--quiet", *words, *TEST)
                self.assertEqual(got.returncode, 0, got.stderr)
                report = os.path.join(self.repo.room, folder, "report")
                cases = ElementTree.parse(report + "/junit.xml").iter("testcase")
                messages = [case[0].get("message", "") for case in cases]
                self.assertEqual(len(messages), len(due))
                for (name, commit), message in zip(due.items(), messages):
                    self.assertIn("# search of %s: sh -c" % name, got.stdout)
                    self.assertIn(self.repo.name(commit), message)

    def test_bytes(self) -> None:
        """A name that is no UTF-8, with a report that is written while the search goes on."""
        words = ["--tests", self.write("list", "caf\udce9 3\nplain 4\n"), "--report", "../report"]
        command = ["--", "sh", "-c", 'sleep 0.6; test $(cat number) -lt "${1##* }"', "sh", "{}"]
        got = self.repo.search(
            *words, *self.repo.ends(), *command, env={**ENV, "FARMDAWN_WATCH": "1"}
        )
        self.assertEqual(got.returncode, 0, got.stderr)
        for name, commit in (("caf\\xE9 3", "c3"), ("plain 4", "c4")):
            with self.subTest(row=(name, commit)):
                self.assertIn("# search of %s: " % name, got.stdout)
                self.assertIn(self.repo.name(commit) + " is the first bad commit", got.stdout)

    def test_input(self) -> None:
        """A list, and a file of JUnit, from the standard input, which no test has."""
        command = ["--", "sh", "-c", 'cat; test $(cat number) -lt "$1"', "sh", "{name}"]
        for name in ("-", "/dev/stdin"):
            for option, text, word in (
                ("--tests", "3\n5\n", "{}"),
                ("--tests-from", FAILED % (CASE % ("a", "3") + CASE % ("a", "5")), "{name}"),
            ):
                words = [option, name, "--fresh", *self.repo.ends(), *command[:-1], word]
                with self.subTest(name, option=option):
                    got = self.repo.search("--quiet", *words, input=text)
                    self.assertEqual(
                        [line[:40] for line in got.stdout.splitlines() if " is the first" in line],
                        [self.repo.name("c3"), self.repo.name("c5")],
                        got.stderr,
                    )

    def test_refused(self) -> None:
        """Where no file has a failure, there is nothing to search for."""
        first = self.write("a.xml", FAILED % FINE)
        second = self.write("b.xml", FAILED % "")
        got = self.repo.search(
            "--tests-from", first, "--tests-from", second, *self.repo.ends(), *TEST
        )
        self.assertEqual(got.returncode, 1)
        self.assertIn("%s, %s: no test failed there" % (first, second), got.stderr)


if __name__ == "__main__":
    unittest.main()
