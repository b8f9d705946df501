"""Names of commits, as git reads them: a ref or digits, then steps as ~2, ^2 and ^{commit}."""
from __future__ import annotations

import re
from typing import TYPE_CHECKING, List, Tuple

from forms import decimal, is_hex, object_name
from graphs import ancestors

if TYPE_CHECKING:
    from history import History

FORMS = (
    b"%s",
    b"refs/%s",
    b"refs/tags/%s",
    b"refs/heads/%s",
    b"refs/remotes/%s",
    b"refs/remotes/%s/HEAD",
)
Parsed = Tuple[bytes, List[Tuple[bytes, int]]]
STEP = re.compile(rb"(\^\{(?:commit)?\})|([~^])([0-9]*)")


class Unnamed(Exception):
    """A text names no commit; the text says why."""

    def __init__(self, why: bytes) -> None:
        Exception.__init__(self, why)
        self.why = why


def parse(text: bytes) -> Parsed:
    """What a name begins at, and its steps: pairs of a sign and a number."""
    begin = re.split(rb"[~^]", text, maxsplit=1)[0]
    if begin == b"" or b" " in begin or b":" in begin or b"@{" in begin:
        raise Unnamed(b"bad form")
    steps: List[Tuple[bytes, int]] = []
    at = len(begin)
    while at < len(text):
        step = STEP.match(text, at)
        if step is None:
            raise Unnamed(b"bad form")
        if step.group(2):
            number = decimal(step.group(3)) if step.group(3) else 1
            if number is None:
                raise Unnamed(b"bad form")
            steps.append((step.group(2), number))
        at = step.end()
    return begin, steps


def begin_of(history: History, text: bytes) -> int:
    """The place that a name begins at."""
    text = b"HEAD" if text == b"@" else text
    name = object_name(text)
    if name is not None:
        if name in history.place_of:
            return history.place_of[name]
        raise Unnamed(b"unknown")
    for form in FORMS:
        if form % text in history.refs:
            return history.refs[form % text]
    if not history.original and 4 <= len(text) <= 39 and is_hex(text):
        digits = text.lower().decode()
        found = [place for place, name in enumerate(history.names) if name.hex().startswith(digits)]
        if len(found) == 1:
            return found[0]
        if found:
            raise Unnamed(b"ambiguous %d" % len(found))
    raise Unnamed(b"unknown")


def walk(history: History, parsed: Parsed) -> int:
    """The place behind the steps of a name."""
    begin, steps = parsed
    place = begin_of(history, begin)
    for sign, number in steps:
        if sign == b"~":
            for _ in range(min(number, len(history) + 1)):
                if not history.parents[place]:
                    raise Unnamed(b"no parent")
                place = history.parents[place][0]
        elif number > 0:
            if len(history.parents[place]) < number:
                raise Unnamed(b"no parent")
            place = history.parents[place][number - 1]
    return place


def place_of(history: History, text: bytes) -> int:
    """The place that a name stands for."""
    return walk(history, parse(text))


def places_of(history: History, text: bytes) -> List[int]:
    """The places that a name or a range A..B stands for, by place."""
    if b".." not in text:
        return [place_of(history, text)]
    low, _, high = text.partition(b"..")
    if low == b"" or high == b"" or high.startswith(b".") or b".." in high:
        raise Unnamed(b"bad form")
    parsed = parse(low), parse(high)
    low_place, high_place = walk(history, parsed[0]), walk(history, parsed[1])
    return sorted(ancestors(history, high_place) - ancestors(history, low_place))
