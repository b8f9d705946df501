"""Files of answers: what their lines claim, and that the program refuses each change of one, and says
why."""
from __future__ import annotations

import os
import random
import sys
import tempfile
import unittest
from typing import Dict, List, cast

sys.path.insert(0, os.path.dirname(os.path.dirname(os.path.abspath(__file__))))

from git_farmdawn.certificate import certificate  # noqa: E402
from git_farmdawn.certificate.answer_file import answer_of, encoded, with_sum  # noqa: E402
from git_farmdawn.repository.repository import Repository  # noqa: E402
from git_farmdawn.telling.status import Status  # noqa: E402
from git_farmdawn.telling.voice import Stop  # noqa: E402
from helpers import ENGINE, needs_engine  # noqa: E402

SHORT_TESTS = True

A, B, C, D, E, F = (sign * 40 for sign in "abcdef")
PARENTS = {D: [C], B: [C], E: [D], F: [D]}
HEAD = [
    "word sh",
    "word -c",
    "word test ! -e bug",
    "folder deep/",
    "term-new fixed",
    "term-old broken",
    "build make",
    "retry 2",
    "made 2026-11-30T10:00:00Z",
    "machine Linux 6.1 x86_64",
]
OPTIONS = ["option --clean", "option --missing", "option 5=good"]
CONFIRMED = ["confirmed %s bad 3 of 4" % D, "confirmed %s good 4 of 4" % C]
LINES = (
    HEAD
    + OPTIONS
    + [
        "called-bad %s 1" % E,
        "called-good %s 0" % A,
        "outcome %s 0" % B,
        "outcome %s 125" % C,
        "outcome %s 1" % D,
        "against %s 2" % F,
    ]
    + CONFIRMED
    + [
        "certificate 1",
        "bad %s" % D,
        "good %s" % A,
        "good %s" % B,
        "reach %s from %s" % (C, B),
        "end",
    ]
)


class Lines(unittest.TestCase):
    """The lines of a file."""

    def test_whole(self) -> None:
        """What stands in it."""
        answer = answer_of(with_sum(LINES))
        self.assertEqual(
            (answer.bad, answer.term, answer.words, answer.start),
            (D, "fixed", ["sh", "-c", "test ! -e bug"], 24),
        )
        self.assertEqual(
            (answer.outcomes, answer.tested_ends, answer.listed),
            ({B: 0, C: 125, D: 1}, {E: 1, A: 0}, {A, B}),
        )
        self.assertEqual(sorted(answer.commits()), sorted([A, B, C, D, E, F]))
        self.assertEqual(answer.certificate()[0], "certificate 1")
        self.assertEqual(answer.marked_bad(), [E, D])
        self.assertEqual(
            (answer.build, answer.retry, answer.repeat, answer.folder, answer.machine),
            ("make", 2, 1, "deep/", "Linux 6.1 x86_64"),
        )
        self.assertEqual(answer.confirmed, [(D, "bad", 3, 4), (C, "good", 4, 4)])
        said = "\n".join(certificate.told(answer))
        for due in (
            "it claims: made 2026-11-30T10:00:00Z on Linux 6.1 x86_64",
            "built by: make, a failure counts behind 2 others",
            "%s was called fixed, and its test ended with 1" % E[:12],
            "it claims: searched with --clean --missing 5=good",
            "tested again: %s fixed 3 of 4, %s broken 4 of 4" % (D[:12], C[:12]),
            "1 further outcome contradicts it: ffffffffffff",
            "not checked: whether the tests ended so",
        ):
            with self.subTest(due):
                self.assertIn(due, said)
        untested = answer_of(
            with_sum([line[:52] if line.startswith("called-good") else line for line in LINES])
        )
        self.assertIn(
            "%s was called broken, and not tested" % A[:12], "\n".join(certificate.told(untested))
        )

    @needs_engine
    def test_encoded(self) -> None:
        """Any byte, by letters that are printed."""
        line = encoded("word", bytes(range(1, 256)))
        self.assertTrue(all(32 <= ord(sign) < 127 for sign in line))
        self.assertEqual(refusal_of([line] + LINES[1:]), "")


def refusal_of_bytes(data: bytes) -> str:
    """Why the program refuses a file; nothing where it does not."""
    names = [A, B, C, D, E, F]
    with tempfile.TemporaryDirectory() as folder:
        checker = certificate.Checker(cast(Repository, None), folder, ENGINE, "it")
        stream = certificate.stream_of(certificate.in_order(names, PARENTS), PARENTS)
        try:
            certificate.run_check(checker, stream, data)
        except Stop as stop:
            if stop.status != Status.NOT_HELD:
                raise
            return stop.text
        return ""


def refusal_of(lines: List[str]) -> str:
    """The same of lines, with the sum put right."""
    return refusal_of_bytes(with_sum(lines))


@needs_engine
class Refused(unittest.TestCase):
    """What the program refuses, at which line, and what it says to it."""

    def test_holds(self) -> None:
        """The file itself, also with names of 64 digits."""
        self.assertEqual(refusal_of(LINES), "")
        long = {name: name + name[:24] for name in (A, B, C, D, E, F)}
        lines = [" ".join(long.get(word, word) for word in line.split(" ")) for line in LINES]
        self.assertEqual(refusal_of(lines), "")
        self.assertIn(
            "line 2, sum:", refusal_of_bytes(with_sum(lines).replace(b"word -c", b"word -d"))
        )

    def test_changed(self) -> None:
        """A byte of each line, each line that is left out, and a file that ends there, with the sum
        as it was."""
        whole = with_sum(LINES)
        lines = whole.splitlines(True)
        for at, line in enumerate(lines):
            with self.subTest(line=line):
                for wrong in (b"", line[:-2] + bytes([line[-2] ^ 1]) + b"\n", line[:-1] + b" \n"):
                    data = b"".join(lines[:at] + [wrong] + lines[at + 1 :])
                    self.assertIn("it does not hold: line ", refusal_of_bytes(data))
                self.assertIn("it does not hold: line ", refusal_of_bytes(b"".join(lines[:at])))

    def test_places(self) -> None:
        """Lines that are left out, doubled, or changed with the next one, with the sum put right."""
        may_double = {*LINES[:3], *OPTIONS, "against %s 2" % F, "reach %s from %s" % (C, B)}
        may_lack = {*LINES[:13], "outcome %s 125" % C, "against %s 2" % F, *CONFIRMED}
        for at, line in enumerate(LINES):
            with self.subTest(line=line):
                if line not in may_lack:
                    self.assertIn("line ", refusal_of(LINES[:at] + LINES[at + 1 :]))
                if line not in may_double:
                    self.assertIn("line ", refusal_of(LINES[:at] + [line] + LINES[at:]))
                following = LINES[at + 1 : at + 2]
                if following and following[0].split()[0] != line.split()[0]:
                    swapped = LINES[:at] + following + [line] + LINES[at + 2 :]
                    self.assertIn("line ", refusal_of(swapped))

    def test_words_of_refusals(self) -> None:
        """Each says what would be right."""
        for at, line, why in (
            (15, "outcome %s 126" % B, "a status from 0 to 125"),
            (15, "outcome %s 0" % C, ""),
            (15, "outcome %s 0" % A, "not called good or bad"),
            (22, "bad %s" % B, ""),
            (23, "good %s" % C, ""),
            (24, "good %s" % A, ""),
            (26, "end ", ""),
            (14, "called-good %s 1" % A, "which is 0"),
            (14, "called-good %s 00" % A, "which is 0"),
            (19, "confirmed %s bad 5 of 4" % D, "N of M tests"),
            (20, "confirmed %s good 4 of 4" % D, "named once"),
            (19, "confirmed %s good 3 of 4" % D, "as the lines above say"),
            (20, "confirmed %s bad 3 of 4" % C, "as the lines above say"),
            (20, "confirmed %s bad 03 of 4" % D, "N of M tests"),
            (13, "called-bad %s 0" % E, "from 1 to 124"),
            (13, "called-bad %s 125" % E, "from 1 to 124"),
            (15, "outcome %s 01" % B, "a status from 0 to 125"),
            (18, "against %s 125" % F, "a status from 0 to 124"),
            (4, "term-new -fixed", "a term that git bisect takes"),
            (7, "retry 0", "from 1 to 99"),
            (8, "made today", "a time as"),
            (8, "unmade today", "no line of an answer"),
            (13, "called-bad %s 1" % ("0" * 40), "of this history"),
        ):
            with self.subTest(line=line):
                said = refusal_of(LINES[:at] + [line] + LINES[at + 1 :])
                self.assertIn("line ", said)
                if why:
                    self.assertIn("line %d" % (at + 3), said)
                    self.assertIn(why, said)
                    self.assertNotIn(line, said)
        self.assertIn("line 1: no line", refusal_of_bytes(b"{\n}\n"))
        self.assertIn("line 1 is missing", refusal_of_bytes(b""))


class Steps(unittest.TestCase):
    """What is made of the engine's certificate, and for the check of it."""

    def test_kept(self) -> None:
        """Steps that the repository has, and the parents that none of them reaches."""
        parents = {D: [C, E], C: [B], B: [A]}
        lines = [
            "certificate 1",
            "bad " + D,
            "good " + C,
            "reach %s from %s" % (B, C),
            "reach %s from %s" % (E, C),
            "reach %s from %s" % (A, B),
            "end",
        ]
        self.assertEqual(certificate.keep_steps(lines, parents), (lines[:4] + lines[5:6], [E]))
        first = lines[:2] + ["first-parent"] + lines[2:]
        self.assertEqual(certificate.keep_steps(first, parents)[1], [])

    def test_order(self) -> None:
        """Parents stand before their children, also in deep histories."""
        choice = random.Random(5)
        for _ in range(300):
            names = ["%040d" % at for at in range(choice.randrange(1, 40))]
            parents: Dict[str, List[str]] = {
                name: choice.sample(names[:at], min(at, choice.randrange(3)))
                for at, name in enumerate(names)
            }
            some = choice.sample(names, choice.randrange(1, len(names) + 1))
            order = certificate.in_order(some, parents)
            self.assertEqual(len(order), len(set(order)))
            place = {name: at for at, name in enumerate(order)}
            self.assertTrue(
                all(place[parent] < place[name] for name in order for parent in parents[name])
            )
        deep = {"%040d" % at: ["%040d" % (at - 1)] for at in range(1, 20000)}
        self.assertEqual(len(certificate.in_order(["%040d" % 19999], deep)), 20000)


if __name__ == "__main__":
    unittest.main()
