"""Outcomes that can be seen to be wrong, beside a plain walk over random histories; and what leads
back into a work tree."""
from __future__ import annotations

import os
import random
import sys
import tempfile
import unittest
from typing import Dict, List, Set, Tuple

sys.path.insert(0, os.path.dirname(os.path.dirname(os.path.abspath(__file__))))

from git_farmdawn.known import evidence  # noqa: E402
from git_farmdawn.repository.history import Shape  # noqa: E402
from git_farmdawn.line import named  # noqa: E402
from git_farmdawn.telling.facts import End, agrees, outcome_of  # noqa: E402

SHORT_TESTS = True

BAD, GOOD = End("b" * 40, "bad", True), End("a" * 40, "good", False)


def random_history(choice: random.Random) -> Shape:
    """Commits whose parents stand before them."""
    count = choice.randrange(1, 25)
    order = ["%040d" % at for at in range(count)]
    parents = [
        sorted(choice.sample(range(at), min(at, choice.choice([0, 1, 1, 1, 2, 3]))))
        for at in range(count)
    ]
    return Shape(order, parents, {name: at for at, name in enumerate(order)})


def ancestors(shape: Shape, at: int) -> Set[int]:
    """A commit and all that it stands on."""
    found, waiting = {at}, [at]
    while waiting:
        for parent in shape.parents[waiting.pop()]:
            if parent not in found:
                found.add(parent)
                waiting.append(parent)
    return found


class Contradictions(unittest.TestCase):
    """An outcome contradicts where it is bad without the answer, or good with it."""

    def test_random(self) -> None:
        """As a walk down from each commit says."""
        choice = random.Random(11)
        for _ in range(2000):
            shape = random_history(choice)
            outcomes = {
                name: choice.choice([0, 0, 1, 2, 124, 125])
                for name in shape.order
                if choice.random() < 0.6
            }
            answer = choice.choice(shape.order)
            due = [
                name
                for name in shape.order
                if name in outcomes
                and outcomes[name] < 125
                and (outcomes[name] != 0)
                != (shape.place[answer] in ancestors(shape, shape.place[name]))
            ]
            found = evidence.contradictions(shape, answer, outcomes)
            self.assertEqual([one.commit for one in found], due)
            self.assertEqual([one.status for one in found], [outcomes[name] for name in due])

    def test_words(self) -> None:
        """Nothing is said of none; of many the first ones."""
        self.assertEqual(evidence.tell_contradictions([], "bad", "good"), [])
        many = [evidence.Contradiction("%040d" % at, at % 2) for at in range(8)]
        lines = evidence.tell_contradictions(many, "bad", "good")
        self.assertIn("8 outcomes contradict the answer", lines[0])
        self.assertEqual(len(lines), 7)
        self.assertIn(
            "1 outcome contradicts", evidence.tell_contradictions(many[:1], "bad", "good")[0]
        )

    def test_unknown_answer(self) -> None:
        """A commit outside of the history has none."""
        self.assertEqual(evidence.contradictions(Shape([], [], {}), "x", {"y": 1}), [])


class Ends(unittest.TestCase):
    """What the user called good or bad."""

    def test_agree(self) -> None:
        """By each status."""
        for status in range(256):
            for end in (BAD, GOOD):
                with self.subTest(end):
                    due = None if status >= 125 else (status != 0) if end.is_bad else status == 0
                    self.assertIs(agrees(end, status), due)
            self.assertIn(outcome_of(status), ("good", "bad", "skipped", "stopped"))

    def test_unseen(self) -> None:
        """Those of whose kind there is no outcome."""
        rows: List[Tuple[Dict[str, int], List[End]]] = [
            ({}, [BAD, GOOD]),
            ({"x": 1}, [GOOD]),
            ({"x": 0}, [BAD]),
            ({"x": 0, "y": 2}, []),
            ({"x": 125}, [BAD, GOOD]),
            ({GOOD.commit: 125}, [BAD]),
            ({BAD.commit: 3}, [GOOD]),
        ]
        for outcomes, due in rows:
            self.assertEqual(evidence.unseen(outcomes, [BAD, GOOD]), due, outcomes)
            self.assertEqual(evidence.tell_unseen(outcomes, [BAD, GOOD]) is None, not due)

    def test_wrong(self) -> None:
        """The text begins as it ever did, and each has something to do."""
        for end, status in ((GOOD, 1), (BAD, 0), (GOOD, 125), (BAD, 127)):
            with self.subTest(row=(end, status)):
                stop = evidence.WrongEnd(end, status)
                self.assertEqual(
                    (stop.status, stop.text),
                    (
                        1,
                        "%s was called %s, and its test ended with %d"
                        % (end.commit, end.called, status),
                    ),
                )
                self.assertTrue(evidence.what_to_do(end, status))
        self.assertEqual(evidence.wrong_of([BAD, GOOD], {GOOD.commit: 1, BAD.commit: 125}), GOOD)
        self.assertIsNone(evidence.wrong_of([BAD, GOOD], {GOOD.commit: 0, BAD.commit: 1}))


class Environs(unittest.TestCase):
    """What leads back into a work tree."""

    def setUp(self) -> None:
        """A work tree and an environment of Python beside it."""
        room = tempfile.TemporaryDirectory()
        self.addCleanup(room.cleanup)
        self.room = os.path.realpath(room.name)
        self.top, self.venv = self.room + "/tree", self.room + "/venv"
        self.packages = self.venv + "/lib/python3.11/site-packages"
        for folder in (self.top + "/src", self.top + "-other", self.packages, self.venv + "/bin"):
            os.makedirs(folder)
        for path in ("/pyvenv.cfg", "/bin/python"):
            self.write(self.venv + path, "")

    @staticmethod
    def write(path: str, text: str) -> None:
        """A file."""
        with open(path, "w", encoding="utf-8", errors="surrogateescape") as file:
            file.write(text)

    def test_variables(self) -> None:
        """Lists of folders."""
        for value, due in (
            ("", 0),
            (self.top, 1),
            (self.top + "/src", 1),
            ("/usr:" + self.top, 1),
            (self.top + "-other", 0),
            ("/", 0),
            ("src", 0),
        ):
            with self.subTest(row=(value, due)):
                found = named.paths_into(self.top, "", {"PYTHONPATH": value})
                self.assertEqual(len(found), due, value)
                self.assertTrue(all(name == "PYTHONPATH" for name, _ in found))

    def test_installs(self) -> None:
        """As pip install -e writes them."""
        self.assertEqual(named.venv_of(self.venv + "/bin/python"), self.venv)
        self.assertEqual(named.venv_of("/usr/bin/python3"), "")
        for name, text, due in (
            ("a.pth", self.top + "/src\n", True),
            ("b.pth", "/usr/lib\nimport x\n", False),
            ("c.egg-link", self.top + "\n.", True),
            ("__editable___x_finder.py", "MAPPING = {'x': '%s/src'}\n" % self.top, True),
            ("d.pth", self.top + "-other\n", False),
        ):
            with self.subTest(row=(name, text, due)):
                self.write(os.path.join(self.packages, name), text)
                found = named.paths_into(self.top, self.venv, {})
                self.assertEqual(bool(found), due, name)
                os.unlink(os.path.join(self.packages, name))
        self.write(self.packages + "/a.pth", self.top + "/src\n")
        self.assertEqual(
            named.paths_into(self.top, "", {"VIRTUAL_ENV": self.venv}),
            [(self.packages + "/a.pth", self.top + "/src")],
        )


if __name__ == "__main__":
    unittest.main()
