"""Text of others, as a subject, a name or the output of a test, before a person sees it: the one
place that says which characters are hidden.

Hidden is what a terminal or a browser does not draw, and what changes how the rest is drawn: with
such a character one commit can look like another, or a line can be drawn over. What stands in its
place is for those who show the text."""
from __future__ import annotations

import re
from typing import Callable

HIDDEN = (
    "[\x00-\x1f\x7f-\x9f"  # controls
    "\xad\u034f\u115f\u1160\u17b4\u17b5\u180e\u3164\uffa0"  # no sign of their own
    "\u200b-\u200d\u2060-\u2065\ufeff\ufff9-\ufffb\U000e0000-\U000e007f"  # of no width
    "\U00013430-\U0001343f\U0001bca0-\U0001bca3\U0001d173-\U0001d17a"  # say how others stand
    "\u061c\u200e\u200f\u202a-\u202e\u2066-\u206f"  # turn the direction of a text
    "\u2028\u2029"  # other ends of a line
    "\ud800-\udfff\ufffe\uffff\U0001fffe\U0001ffff]"  # no characters
)
COLOURS = "\033\\[[0-9;]*[A-Za-z]"


def visible(text: str, sign: Callable[[int], str] = lambda code: "?", keeps: str = "") -> str:
    """A text without colours, and with a sign for each hidden character that is not of `keeps`."""

    def shown_one(found: re.Match[str]) -> str:
        return found.group() if found.group() in keeps else sign(ord(found.group()))

    return re.sub(HIDDEN, shown_one, re.sub(COLOURS, "", text))


def by_number(code: int) -> str:
    """A hidden character by its key or its number, for those who want to know what it is."""
    if 0xDC80 <= code < 0xDD00:  # a byte that is no UTF-8, as Python has it
        return "\\x%02X" % (code - 0xDC00)
    return "^" + chr(64 + code) if code < 32 else "^?" if code == 127 else "[U+%04X]" % code


def columns_of(text: str) -> int:
    """At most so many columns does a text take: what is not ASCII may take two."""
    return sum(2 if ord(sign) > 126 else 1 for sign in text)


def shown(raw: bytes, columns: int) -> str:
    """Bytes for a line of a terminal, with ? for what is hidden, cut to so many columns."""
    text = visible(raw.decode("utf-8", "surrogateescape"))
    for at, sign in enumerate(text):
        columns -= columns_of(sign)
        if columns < 0:
            return text[:at]
    return text
