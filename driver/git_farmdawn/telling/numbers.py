"""Numbers that tests print: which one counts, how it is read and shown, and on which side of a
threshold it lies.

The last number of an output counts. A unit of time or of size behind it makes it seconds or bytes,
so that 900 ms and 1.1 s, or 900 kB and 1.1 MB, can be compared; another one is passed over. What
may be read in two ways, as 1,234, is no number."""
from __future__ import annotations

import re
from math import floor, isfinite, log10
from typing import NamedTuple, Optional, Sequence, Tuple

from .text import COLOURS

# by what a number is divided to be seconds, or else multiplied, so that 123 ms is 0.123 exactly
PARTS = {"ms": 1e3, "us": 1e6, "ns": 1e9}
TIMES = {"s": 1, "min": 60, "h": 3600}
WORDS = {
    "sec": "s",
    "second": "s",
    "msec": "ms",
    "millisecond": "ms",
    "usec": "us",
    "microsecond": "us",
    "nsec": "ns",
    "nanosecond": "ns",
    "minute": "min",
    "hour": "h",
}
# forms, which few searches need: so they are compiled where they are used
SIZE = "([KMGT])?(i)?(b|bytes?)?"
POWERS = {"": 0, "k": 1, "m": 2, "g": 3, "t": 4}
FIGURE = r"[+-]?(?:[0-9]+(?:[.][0-9]*)?|[.][0-9]+)(?:[eE][+-]?[0-9]+)?"
# no part of a word, of a version or of a number with commas
NUMBER = (
    r"(?<![\w.])(?<![0-9],)(?:([0-9]+)m[ ]?([0-9]+(?:[.][0-9]+)?)s(?!\w)"
    r"|(%s)(?![.]?[0-9]|,[0-9])[ ]?([^\W\d_]*))" % FIGURE
)
SHOWN, MOST_SHOWN = 4, 9  # digits of a number, and numbers of a test


def scaled(number: float, unit: str) -> float:
    """A number in seconds or bytes, where its unit is one of these."""
    unit = unit.replace("\u00b5", "u").replace("\u03bc", "u")
    word = WORDS.get(unit[:-1] if unit.endswith("s") and len(unit) > 3 else unit, unit)
    if word in PARTS:
        return number / PARTS[word]
    if word in TIMES:
        return number * TIMES[word]
    size = re.fullmatch(SIZE, unit, re.IGNORECASE)
    if size and (size.group(3) or not size.group(2)) and unit != "m":
        base = 1024 if size.group(2) else 1000
        return float(number * base ** POWERS[(size.group(1) or "").lower()])
    return number


def number_of(match: re.Match[str]) -> float:
    """What a match says."""
    if match.group(1):
        return float(match.group(1)) * 60 + float(match.group(2))
    return scaled(float(match.group(3)), match.group(4))


def last_number(output: bytes) -> Optional[float]:
    """The last number that an output shows; None where there is none."""
    text = re.sub(COLOURS, "", output.decode("utf-8", "replace"))
    found = None
    for match in re.finditer(NUMBER, text):
        found = match
    number = number_of(found) if found else None
    return number if number is not None and isfinite(number) else None


def exact(number: float) -> str:
    """A number as it is read again."""
    whole = isfinite(number) and number == floor(number) and abs(number) < 1e15
    return "%d" % number if whole else repr(number)


def brief(number: float) -> str:
    """A number for a person: in few digits, without an exponent where that is short."""
    if not number or not 1e-4 <= abs(number) < 1e15:
        return "%.*g" % (SHOWN, number)
    digits = max(0, SHOWN - 1 - floor(log10(abs(number))))
    text = "%.*f" % (digits, number)
    return text.rstrip("0").rstrip(".") if "." in text else text


def of_hundred(odds: float) -> str:
    """Odds in words; never all of them, as no number of tests gives that."""
    return "%s of 100" % ("%.2f" % min(odds * 100, 99.99)).rstrip("0").rstrip(".")


class Threshold(NamedTuple):
    """The number that parts good commits from bad ones, and whether it is bad to be above it; None
    where the ends are still to be measured."""

    number: Optional[float] = None
    is_above: bool = True

    @property
    def sign(self) -> str:
        """On which side a bad commit lies."""
        return ">" if self.is_above else "<"

    @property
    def word(self) -> str:
        """As it stands in a line."""
        return "ends" if self.number is None else self.sign + exact(self.number)

    def is_bad(self, number: float) -> bool:
        """Whether it lies on that side. One that is the threshold itself is good."""
        assert self.number is not None
        return number > self.number if self.is_above else number < self.number

    def text(self, is_bad: bool) -> str:
        """What a commit is."""
        sign = self.sign if is_bad else "<=" if self.is_above else ">="
        return "%s %s" % (sign, exact(self.number or 0.0))


def threshold_of(word: str) -> Optional[Threshold]:
    """A threshold as it stands in a line: >1.3s, <20, or the word `ends`."""
    if word == "ends":
        return Threshold()
    match = re.fullmatch(NUMBER, word[1:].strip())
    if word[:1] not in ("<", ">") or not match or not isfinite(number_of(match)):
        return None
    return Threshold(number_of(match), word[0] == ">")


class Measured(NamedTuple):
    """What a test has measured: its numbers, beside the threshold; or what it is `lacking`."""

    numbers: Tuple[float, ...]
    threshold: Threshold
    is_bad: bool = False
    lacking: str = ""

    def is_of_end(self) -> bool:
        """Whether it is to find the threshold."""
        return not self.lacking and self.threshold.number is None

    def ended(self) -> str:
        """How the test ended, behind `its test`."""
        return self.lacking or "measured " + self.text()

    def text(self) -> str:
        """In words, beside the outcome."""
        if self.lacking:
            return self.lacking
        text = listed(self.numbers)
        if self.threshold.number is not None:
            text += " " + self.threshold.text(self.is_bad)
        return text


def listed(numbers: Sequence[float]) -> str:
    """Numbers for a person, the first ones of many."""
    shown = " ".join(brief(number) for number in numbers[:MOST_SHOWN])
    more = len(numbers) - MOST_SHOWN
    return shown + (" and %d more" % more if more > 0 else "")
