"""What a search tells on standard error, in each file of its report; and the folder of an earlier
one."""
from __future__ import annotations

import json
import os
import sys
import unittest
from typing import Any, Dict, List, NamedTuple, Tuple
from urllib.parse import unquote

sys.path.insert(0, os.path.dirname(os.path.abspath(__file__)))

from helpers import ENV, Repository, needs_engine, wait_until  # noqa: E402

FILES = ("index.html", "summary.md", "junit.xml", "result.json")
LATER = "test $(cat number) -ge 4 || exit 5; exit 1"
AHEAD = "sleep 0.3; [ $(cat number) = 7 ] && exit 0; test $(cat number) -lt 4"
# options, the test, the status, and what each file has of what is told
TOLD: Tuple[Tuple[List[str], str, int, str], ...] = (
    (["--missing", "5=good"], LATER, 0, "the commit that was found is the first one that has it"),
    (["--confirm=0", "--workers", "8"], AHEAD, 0, "contradicts: it is good, and has the first bad"),
    (["--trust-ends"], "exit 1", 0, "no test was good, and "),
    (["--check-ends"], "exit 1", 1, "the command fails here, too: is something missing on"),
)


class Opened(NamedTuple):
    """The options of a search, what names the browser, the end of the page's path, where one is
    opened, and how the search ends."""

    words: str
    by: str
    page: str = ""
    status: int = 0
    test: str = "test $(cat number) -lt 4"


OPENED = (
    # what is opened all the same is there when the others were
    Opened("--report ../b", "BROWSER"),
    Opened("--open", "git", "", 130, "kill -2 $(ps -o ppid= $$)"),
    Opened("--open --report ../a'%20é", "BROWSER", "/a'%20é/index.html"),
    Opened("--open --report ../b", "git", "/b/index.html"),
    Opened("--open", "BROWSER", "/repository/.git/farmdawn/results-[0-9a-f]+/report/index.html"),
    Opened("--open --quiet --check-ends", "git", "/report/index.html", 1, "true"),
)
# it tells what it is given, and stays as long as it may
BROWSER = """#!/bin/sh
echo "$*" >"$OPENED.new" && mv "$OPENED.new" "$OPENED.page"
for at in $(seq 600); do [ ! -e "$OPENED.go" ] || break; sleep 0.1; done
echo >"$OPENED.closed"
"""


@needs_engine
class Reported(unittest.TestCase):
    """Whole searches."""

    def setUp(self) -> None:
        """A repository of eight commits."""
        self.repo = Repository(self, 8)

    def facts(self, name: str = "result.json") -> Dict[str, Any]:
        """What a result has."""
        with open("%s/report/%s" % (self.repo.room, name), encoding="utf-8") as file:
            read: Dict[str, Any] = json.load(file)
        return read

    def test_doubts(self) -> None:
        """Of several tests each file of the whole report has it."""
        for options, test, status, due in TOLD:
            words = ["--report", "../report", *options, *self.repo.ends(), "--test", "t", test]
            got = self.repo.search("--quiet", "--fresh", *words)
            self.assertEqual(got.returncode, status, got.stderr)
            for name in FILES:
                with self.subTest(due, file=name):
                    with open("%s/report/%s" % (self.repo.room, name), encoding="utf-8") as file:
                        self.assertIn(due, file.read())

    def test_earlier_folder(self) -> None:
        """A report is written over one of other tests, of several and of one."""
        nights: List[List[str]] = [["add", "mul"], ["mul", "sub"], [], ["add"]]
        for tests in nights:
            each = [word for test in tests for word in ("--test", test, "test $(cat number) -lt 4")]
            command = each or ["--", "sh", "-c", "test $(cat number) -lt 4"]
            with self.subTest(tests):
                got = self.repo.search(
                    "--quiet", "--report", "../report", *self.repo.ends(), *command
                )
                self.assertEqual(got.returncode, 0, got.stderr)
                there = os.listdir(self.repo.room + "/report")
                due = tests or ["outputs"]
                self.assertEqual(
                    sorted(there), sorted(["report.css", *FILES, *due]), "what is there"
                )
        os.mkdir(self.repo.room + "/report/own")
        with open(self.repo.room + "/report/own/notes", "w", encoding="utf-8") as file:
            file.write("mine")
        got = self.repo.search("--report", "../report", *self.repo.ends(), "--", "false")
        self.assertEqual(got.returncode, 1)
        self.assertIn("own is not of a report", got.stderr)

    def test_opened(self) -> None:
        """The page is opened at the end, and nothing waits for the browser; where the search is
        stopped, and without --open, it is not."""
        room, browser = self.repo.room, self.repo.room + "/browser"
        with open(browser, "w", encoding="ascii") as file:
            file.write(BROWSER)
        os.chmod(browser, 0o755)
        settings = ["-c", "web.browser=mine", "-c", f"browser.mine.cmd={browser}"]
        for at, row in enumerate(OPENED):
            with self.subTest(row):
                opened = f"{room}/opened.{at}"
                env = {**ENV, "OPENED": opened, "BROWSER": "false" if row.by == "git" else browser}
                words = ["git", *(settings if row.by == "git" else []), "farmdawn", "--fresh"]
                words += [*row.words.split(), *self.repo.ends(), "--", "sh", "-c", row.test]
                got = self.repo.run(*words, env=env, check=False)
                self.assertEqual(got.returncode, row.status, got.stderr)
                if row.page:
                    self.look_at_page(row, opened, got.stderr)
        found = [int(name.split(".")[1]) for name in os.listdir(room) if name.endswith(".page")]
        self.assertEqual(sorted(found), [at for at, row in enumerate(OPENED) if row.page])

    def look_at_page(self, row: Opened, opened: str, told: str) -> None:
        """The page that a browser was given, which runs yet."""
        wait_until(lambda: os.path.exists(opened + ".page"), "the browser")
        self.assertFalse(os.path.exists(opened + ".closed"), "it was waited for")
        with open(opened + ".go", "w", encoding="ascii"), open(
            opened + ".page", encoding="ascii"
        ) as file:
            path = unquote(file.read().strip().partition("file://")[2])
        self.assertRegex(path[len(self.repo.room) :], row.page + "$")
        self.assertEqual(path in told, "--quiet" not in row.words, told)
        with open(path, encoding="utf-8") as file:
            self.assertIn("git farmdawn", file.read())
        wait_until(lambda: os.path.exists(opened + ".closed"), "the end of the browser")

    def test_output_of_wrong_end(self) -> None:
        """The output is that of the end that is not as it was called."""
        command = ["--", "sh", "-c", 'echo "this is $(cat number)"; exit 1']
        got = self.repo.search("--workers", "4", "--report", "../report", "c8", "c5", *command)
        self.assertEqual(got.returncode, 1)
        output = self.facts()["output"]
        self.assertEqual(output, {"commit": self.repo.name("c5"), "lines": ["this is 5"]})


if __name__ == "__main__":
    unittest.main()
