"""What is told, as tables: spans, what is left, subjects, and the live line at every width."""
from __future__ import annotations

import os
import random
import sys
import unittest
import unicodedata
from typing import List
from unittest import mock

sys.path.insert(0, os.path.dirname(os.path.dirname(os.path.abspath(__file__))))

from git_farmdawn.known.several import one_at_a_time  # noqa: E402
from git_farmdawn.report.drawing import plain  # noqa: E402
from git_farmdawn.telling import voice as telling  # noqa: E402
from git_farmdawn.telling.facts import Progress, Row, Running, Shares, usual  # noqa: E402
from git_farmdawn.telling.text import shown, visible  # noqa: E402

SHORT_TESTS = True

SUBJECTS = (
    b"",
    b"plain",
    "ümläut".encode(),
    "日本語の件名がここにあります".encode(),
    b"bell \a \033[2J",
    b"\xff\xfe",
    "e\u0301\u0301 😀😀😀".encode(),
    b"x" * 300,
    "\u202ereversed \u200b".encode(),
)


def width_of(text: str) -> int:
    """The columns that a terminal gives a text."""
    return sum(
        0 if unicodedata.combining(sign) else 2 if unicodedata.east_asian_width(sign) in "WF" else 1
        for sign in text
    )


class Texts(unittest.TestCase):
    """Words for numbers."""

    def test_rounds(self) -> None:
        """So often is a number halved."""
        for count in list(range(300)) + [1 << 16, (1 << 16) + 1, 100000]:
            due, left = 0, float(count)
            while left > 1:
                left, due = left / 2, due + 1
            self.assertEqual(telling.rounds(count), due, count)

    def test_left(self) -> None:
        """What is left, in one line."""
        for words, due in (
            ((1, 0, None), "1 commit left, about 0 rounds"),
            ((2, 0, 3.0), "2 commits left, about 1 round, some seconds"),
            ((59, 9, 44.0), "59 commits left, 9 of them skipped, about 6 rounds, some 40 seconds"),
        ):
            with self.subTest(row=(words, due)):
                self.assertEqual(telling.left_text(*words), due)

    def test_spans(self) -> None:
        """In the unit that tells something."""
        for seconds, due in (
            (0, "0 s"),
            (99.9, "99 s"),
            (100, "2 min"),
            (5999, "100 min"),
            (6000, "2 h"),
            (86400, "24 h"),
        ):
            with self.subTest(row=(seconds, due)):
                self.assertEqual(telling.lasting(seconds), due)
        for seconds, due in (
            (-1, "0.0 s"),
            (1.25, "1.2 s"),
            (100, "1 min 40 s"),
            (6000, "1 h 40 min"),
        ):
            with self.subTest(row=(seconds, due)):
                self.assertEqual(telling.span(seconds), due)
        for seconds, due in (
            (3, "some seconds"),
            (44, "some 40 seconds"),
            (600, "some 10 minutes"),
            (7200, "some 2 hours"),
        ):
            with self.subTest(row=(seconds, due)):
                self.assertEqual(telling.estimate(seconds), due)

    def test_long(self) -> None:
        """How long it took so far, where there is room for it; and a bell at the end."""
        for spent, due in ((0.4, "5 done, "), (5.0, "5 done in 5 s, "), (99.0, "in 99 s, ")):
            progress = Progress(40, 20, 5, None, [], None, spent)
            self.assertTrue(telling.fronts(progress)[0].endswith(due), spent)
        for rings, spent, rung in ((True, 59.0, 0), (True, 60.0, 1), (False, 600.0, 0)):
            voice = telling.Telling()
            voice.rings = rings
            with mock.patch.object(voice, "write") as write:
                voice.ring(spent)
            self.assertEqual(write.call_args_list, [mock.call(b"\a")] * rung)

    def test_first_ones_apart(self) -> None:
        """What is built from nothing, the first in each checkout, is none of what a commit takes,
        and one worker has one such."""
        for checkouts, seconds, each, together in (
            ((), (), None, 0.0),
            ((0, 1), (9.0, 7.0), 8.0, 17.0),
            ((0, 1, 0, 1), (9.0, 8.0, 1.0, 3.0), 2.0, 15.0),
            ((0, 0, 1), (2.0, 4.0, 3.0), 4.0, 12.0),
        ):
            rows = [
                Row("%040d" % at, checkout, float(at), at + took, 0)
                for at, (checkout, took) in enumerate(zip(checkouts, seconds))
            ]
            with self.subTest(checkouts=checkouts, seconds=seconds):
                self.assertEqual(usual(rows), each)
                self.assertEqual(one_at_a_time(rows), together)

    def test_shown(self) -> None:
        """No control comes through, and nothing is longer than it may be."""
        for raw in SUBJECTS:
            with self.subTest(raw):
                for columns in range(0, 40):
                    text = shown(raw, columns)
                    self.assertLessEqual(width_of(text), columns)
                    self.assertEqual(visible(text), text)

    def test_hidden(self) -> None:
        """What Unicode says is not drawn, or changes how others are drawn, is hidden on the
        terminal and in the page alike; letters, signs and marks are not."""
        formats = {*range(0x600, 0x606), 0x6DD, 0x70F, 0x890, 0x891, 0x8E2, 0x110BD, 0x110CD}
        for code in (*range(0x3400), *range(0xA000, 0x20000), *range(0xE0000, 0xE0200)):
            with self.subTest(code):
                sign = chr(code)
                kind = unicodedata.category(sign)
                is_hidden = kind in ("Cc", "Cs", "Zl", "Zp") or kind == "Cf" and code not in formats
                if is_hidden:
                    self.assertEqual(visible(sign), "?", hex(code))
                elif kind[0] in "LNPS" and visible(sign) != sign:
                    self.assertEqual(unicodedata.name(sign).split()[-1], "FILLER", hex(code))
                if sign not in "\t\n":
                    self.assertEqual(visible(sign) == sign, plain(sign) == sign, hex(code))
        self.assertEqual(
            plain("a\u200bb\ufeff \u2060\u202e\x07\t\n"),
            "a[U+200B]b[U+FEFF] [U+2060][U+202E]^G\t\n",
        )


class LiveLine(unittest.TestCase):
    """How far, how long, and who."""

    def test_every_width(self) -> None:
        """It fits, and names a test as soon as there is room for one; how far comes before who."""
        choice = random.Random(7)
        for _ in range(3000):
            running = [
                Running(
                    choice.uniform(0, 5000),
                    "%040x" % choice.getrandbits(160),
                    choice.choice(SUBJECTS),
                )
                for _ in range(choice.randrange(9))
            ]
            total = choice.randrange(1, 5000)
            progress = Progress(
                total,
                choice.choice([None, choice.randrange(1, total + 1)]),
                choice.randrange(90),
                choice.choice([None, choice.uniform(0, 9000)]),
                running,
                choice.choice([None, None, Shares(choice.randrange(513), 512, choice.random())]),
            )
            width = choice.randrange(30, 200)
            text = telling.live_line(progress, width, 5000.0)
            self.assertLessEqual(width_of(text), width, text)
            if running and width > 36:
                self.assertIn(min(running).commit[:12], text)
                self.assertIn("%d under test: " % len(running), text)
            if running and (progress.left is not None or progress.searches) and width >= 60:
                self.assertLess(text.index(" left"), text.index("under test"))

    def test_bar(self) -> None:
        """By rounds: half of the rounds is half of the bar."""
        for total, left, due in (
            (1024, 1024, 0),
            (1024, 32, 5),
            (1024, 1, 10),
            (2, 2, 0),
            (1, 1, 10),
            (3, 3, 0),
        ):
            with self.subTest(row=(total, left, due)):
                self.assertEqual(telling.bar(total, left).count("#"), due, (total, left))

    def test_wide(self) -> None:
        """All of it, where there is room."""
        line = telling.live_line(
            Progress(59, 7, 12, 40.0, [Running(0.0, "a" * 40, b"Note 34")]), 150, 6.0
        )
        self.assertEqual(
            line,
            (
                "[#####-----] 7 of 59 left, ~3 rounds, ~40 s | 12 done, 1 under test: aaaaaaaaaaaa"
                " 6 s Note 34"
            ),
        )
        line = telling.live_line(
            Progress(0, None, 12, 40.0, [Running(0.0, "a" * 40, b"t04")], Shares(9, 12, 0.42)),
            150,
            6.0,
        )
        self.assertEqual(
            line,
            "[####------] 9 of 12 tests left, ~40 s | 12 done, 1 under test: aaaaaaaaaaaa 6 s t04",
        )


class Verdicts(unittest.TestCase):
    """What is told of a test that has ended."""

    def test_words(self) -> None:
        """By its status, in the words of the search."""
        lines: List[str] = []
        voice = telling.Telling()
        with mock.patch.object(voice, "line", lines.append):
            for status in (0, 1, 124, 125, 126, 255, None):
                voice.verdict(Row("a" * 40, 0, 1.0, 3.5, status), b"subject", ("broken", "ok"))
        self.assertEqual(
            [" ".join(line.split()) for line in lines],
            [
                "%s aaaaaaaaaaaa subject (%s2 s)" % (word, how)
                for word, how in (
                    ("ok", ""),
                    ("broken", ""),
                    ("broken", ""),
                    ("skip", ""),
                    ("stop", "exit 126, "),
                    ("stop", "exit 255, "),
                    ("no longer needed", ""),
                )
            ],
        )
        voice.quiet = True
        voice.verdict(Row("a" * 40, 0, 1.0, 3.5, 0), b"subject", ("bad", "good"))
        self.assertEqual(len(lines), 7)


if __name__ == "__main__":
    unittest.main()
