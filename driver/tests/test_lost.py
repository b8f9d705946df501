"""An engine that is lost in any state changes nothing: another one comes to the same log and answer, and
no test says less than it would have said."""
from __future__ import annotations

import os
import random
import re
import stat
import unittest
from typing import Dict, List, NamedTuple, Tuple

from helpers import ENGINE, ENV, PYTHON, Repository, begins_first, needs_engine

HERE = os.path.dirname(os.path.abspath(__file__))
CASES = int(os.environ.get("FARMDAWN_CASES", "2"))
SEED = int(os.environ.get("FARMDAWN_SEED", "1"))
MOST_LOST = 3  # engines of a search, behind which it gives up
# the tests by their names; what lies does so in the first of its runs of a commit
CHECK = """n=$(cat number)
[ ! -e built ] || [ "$(cat built)" = $n ] || exit 99
again=$RECORD/ran.$1.$n
echo run >>$again
case $1 in
plain) test $n -lt 7 ;;
low) test $n -lt 3 ;;
high) test $n -lt 11 ;;
slow) [ $n -lt 9 ] || sleep 600; test $n -lt 5 ;;
fit) exit 0 ;;
odd-end) [ $n != 12 ] || [ $(wc -l <$again) -gt 1 ]; test $? = 0 -a $n -ge 9 && exit 1; exit 0 ;;
liar) [ $n != 6 ] || [ $(wc -l <$again) -gt 1 ] || exit 1; test $n -lt 10 ;;
skipped) [ $n != 6 ] || exit 125; test $n -lt 8 ;;
esac
"""


# the good end is built without end, where there was an earlier search
BUILD_LATER = "cat number >built; [ $(cat number) != 1 -o ! -e $RECORD/is.later ] || sleep 600"


class Form(NamedTuple):
    """A search: its options, its build, and its tests; one alone has no list. `before` has the words
    of an earlier search for the test `plain`."""

    words: str
    build: str
    tests: str
    before: str = ""


FORMS = {
    "one": Form("-j 3 --certificate certificate", "", "plain"),
    "kept": Form("-j 2", "", "plain", "--trust-ends c12 c1"),
    "needless": Form("-j 4 --trust-ends", "", "slow"),
    "several": Form("-j 4", "cat number >built", "plain low high skipped"),
    "left out": Form("-j 4", "cat number >built", "plain fit low"),
    "unbuilt": Form("-j 2", "cat number >built; test $(cat number) -ne 7", "plain low high"),
    "together": Form("-j 4 --together", "cat number >built", "plain low high"),
    "ends": Form("-j 2 --check-ends", BUILD_LATER, "fit plain", "--check-ends c11 c1"),
    "confirmed": Form("-j 2 --confirm=2", "cat number >built", "liar plain odd-end low"),
    "confirmed alone": Form("-j 3 --confirm=2", "", "liar"),
}


class Row(NamedTuple):
    """A state of a search, and the requests at which its engines are lost."""

    state: str
    form: str
    lost: str


ROWS = [
    Row("the history is handed over", "one", "done 1"),
    Row("it is so twice", "several", "done 1 done 2"),
    Row("one of several searches begins", "several", "search 3"),
    Row("what is known is learned", "kept", "learn 2"),
    Row("nothing is under way", "one", "pick 1"),
    Row("tests run and wait", "several", "pick 4"),
    Row("a test is done, and others run", "one", "post 1"),
    Row("a test is done, and others wait", "several", "post 2"),
    Row("tests run that were of an engine before", "several", "post 2 post 3"),
    Row("what was of an engine before is done", "several", "post 1 learn 3"),
    Row("a needless test is given back", "needless", "give 1"),
    Row("it is asked what stands built", "several", "wanted 1"),
    Row("a test is left out, and its others end", "left out", "post 2"),
    Row("a failed build is told to the first test", "unbuilt", "post 1"),
    Row("a failed build is told to the second one", "unbuilt", "post 2"),
    Row("a failed build is told to those that do not wait", "unbuilt", "learn 1"),
    Row("tests run at once in a checkout", "together", "post 2"),
    Row("an end waits for its build", "ends", "wanted 1"),
    Row("an end is tested again", "confirmed", "post 2 post 4 post 6"),
    Row("an outcome is taken back", "confirmed alone", "done 2"),
    Row("the search goes on without it", "confirmed alone", "search 2 pick 6"),
    Row("the certificate is asked for", "one", "certificate 1"),
]


class Ended(NamedTuple):
    """How a search ended: its status, its log, and what it said of its tests."""

    status: int
    out: str
    said: List[str]


@needs_engine
class Lost(unittest.TestCase):
    """Searches of one repository, and what each came to with no engine lost."""

    def setUp(self) -> None:
        """The repository, and an engine that can be lost."""
        self.repo = Repository(self)
        self.engine, self.check = self.repo.room + "/engine", self.repo.room + "/check"
        line = f'exec "{PYTHON}" -S -E "{HERE}/lost_engine.py" "$@"'
        self.write(self.engine, f"#!/bin/sh\n{line}\n")
        self.write(self.check, CHECK)
        self.due: Dict[str, Ended] = {}
        self.counts: Dict[str, Dict[str, int]] = {}

    @staticmethod
    def write(path: str, text: str) -> None:
        """A file that may be run."""
        with open(path, "w", encoding="utf-8") as file:
            file.write(text)
        os.chmod(path, stat.S_IRWXU)

    def search(self, form: Form, lost: str) -> Tuple[Ended, str, Dict[str, int]]:
        """A search, all that it said, and how often each request came."""
        record = self.repo.room + "/record"
        self.repo.sh(f"rm -rf {record} .git/farmdawn; mkdir {record}")
        env = {**ENV, "RECORD": record, "LOST": "", "REAL": ENGINE, "FARMDAWN_NEEDED": "0"}
        build = ["--build", form.build] if form.build else []
        names = self.repo.room + "/names"
        self.write(names, form.tests.replace(" ", "\n") + "\n")
        words = ["--", "sh", self.check]
        if form.before:
            self.repo.search("-q", *form.before.split(), *build, *words, "plain", env=env)
            self.repo.sh(f"touch {record}/is.later")
        listed = ["--tests", names] if " " in form.tests else []
        line = [*form.words.split(), *build, *listed, *self.repo.ends(), *words]
        env.update(LOST=lost, FARMDAWN=self.engine)
        got = self.repo.search(*line, "{}" if listed else form.tests, env=env)
        said = re.findall("(?m)^.*(?:confirmed|left out|taken back|Traceback).*$", got.stderr)
        counts = {
            name: os.path.getsize(f"{record}/{name}")
            for name in os.listdir(record)
            if "." not in name
        }
        return Ended(got.returncode, got.stdout, sorted(said)), got.stderr, counts

    def look(self, name: str, lost: str) -> None:
        """The same search with and without a loss."""
        if name not in self.due:
            self.due[name], _, self.counts[name] = self.search(FORMS[name], "")
        got, told, _ = self.search(FORMS[name], lost)
        self.assertIn("; another one goes on", told)
        self.assertEqual(got, self.due[name], told)
        self.repo.check_left()

    @begins_first
    def test_rows(self) -> None:
        """Each state."""
        for row in ROWS:
            with self.subTest(row.state):
                self.look(row.form, row.lost)

    def test_random(self) -> None:
        """Lost at any requests."""
        for seed in range(SEED, SEED + CASES):
            choice = random.Random(seed)
            name = choice.choice(sorted(FORMS))
            if name not in self.due:
                self.due[name], _, self.counts[name] = self.search(FORMS[name], "")
            lost = []
            for _ in range(choice.randrange(1, MOST_LOST + 1)):
                verb = choice.choice(sorted(self.counts[name]))
                lost.append(f"{verb} {choice.randrange(1, self.counts[name][verb] + 1)}")
            with self.subTest((seed, name, lost)):
                got, told, _ = self.search(FORMS[name], " ".join(lost))
                self.assertEqual(got, self.due[name], told)


if __name__ == "__main__":
    unittest.main()
