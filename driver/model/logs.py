"""Logs: the lines that a search tells, the answer behind them, and the reading of a log.

An entry is ('start', first parents, terms given, bad, goods), ('mark', verdict, place), ('skipped
base', place), ('found', place) or ('only skipped', places)."""
from __future__ import annotations

from typing import TYPE_CHECKING, Any, Iterable, List, Optional, Sequence, Set, Tuple

from names import Unnamed, place_of
from refusals import log_refused
from states import (
    BAD,
    GOOD,
    KILLED,
    SKIP,
    STANDARD,
    Asked,
    State,
    Terms,
    ask,
    begun,
    mark,
    terms_fault,
)

if TYPE_CHECKING:
    from history import History

BLANK = b" \t"
TERM_OPTIONS = {b"--term-new": 0, b"--term-bad": 0, b"--term-old": 1, b"--term-good": 1}


# -- writing -------------------------------------------------------------------------


def waiting_line(terms: Terms, has_bad: bool, goods: int) -> bytes:
    """What is wanted before a search can begin."""
    if not has_bad and goods == 0:
        return b"waiting for both %s and %s commits" % (terms[1], terms[0])
    if not has_bad:
        return b"waiting for %s commit, %d %s known" % (terms[0], goods, terms[1])
    return b"waiting for %s commits, %s commit known" % (terms[1], terms[0])


class Writer:
    """Writes the entries of a search in turn."""

    def __init__(self, history: History, terms: Terms) -> None:
        self.history, self.terms = history, terms
        self.has_bad = False
        self.goods: Set[int] = set()

    def label(self, place: int) -> bytes:
        """A commit in a comment."""
        return b"[" + self.history.hex(place) + b"] " + self.history.subjects[place]

    def lines(self, entry: Asked) -> List[bytes]:
        """The lines of an entry."""
        new, old = self.terms
        if entry[0] == "skipped base":
            return [b"# skipped merge base: " + self.label(entry[1])]
        if entry[0] == "found":
            return [b"# first " + new + b" commit: " + self.label(entry[1])]
        if entry[0] == "only skipped":
            return [b"# only skipped commits left to test"] + [
                b"# possible first " + new + b" commit: " + self.label(place) for place in entry[1]
            ]
        if entry[0] == "start":
            lines = self.start(*entry[1:])
        else:
            _, verdict, place = entry
            word = {GOOD: old, BAD: new, SKIP: b"skip"}[verdict]
            lines = [
                b"# " + word + b": " + self.label(place),
                b"git bisect " + word + b" " + self.history.hex(place),
            ]
            self.has_bad = self.has_bad or verdict == BAD
            self.goods |= {place} if verdict == GOOD else set()
        if not self.has_bad or not self.goods:
            lines.append(b"# status: " + waiting_line(self.terms, self.has_bad, len(self.goods)))
        return lines

    def start(
        self, first_parent: bool, are_given: bool, bad: Optional[int], goods: Iterable[int]
    ) -> List[bytes]:
        """The lines of a start."""
        new, old = self.terms
        lines = [b"# " + new + b": " + self.label(bad)] if bad is not None else []
        lines += [b"# " + old + b": " + self.label(good) for good in goods]
        words = [b"--first-parent"] if first_parent else []
        words += [b"--term-new", new, b"--term-old", old] if are_given else []
        words += [self.history.hex(place) for place in ([] if bad is None else [bad]) + list(goods)]
        self.has_bad, self.goods = bad is not None, set(goods)
        return lines + [b"git bisect start" + b"".join(b" '" + word + b"'" for word in words)]


def answer_lines(history: History, terms: Terms, end: Asked) -> List[bytes]:
    """The lines of the answer."""
    new, old = terms
    if end[0] == "only skipped":
        return (
            [
                b"There are only 'skip'ped commits left to test.",
                b"The first " + new + b" commit could be any of:",
            ]
            + [history.hex(place) for place in end[1]]
            + [b"We cannot bisect more!"]
        )
    name = history.hex(end[1])
    if end[0] == "found":
        return [name + b" is the first " + new + b" commit"]
    if end[0] == "merge base":
        return [
            b"The merge base " + name + b" is " + new + b".",
            b"The change was undone between it and one of the " + old + b" commits.",
        ]
    if end[0] == "no ancestor":
        return [
            b"Some " + old + b" commits are not ancestors of the " + new + b" commit " + name + b"."
        ]
    if end[0] == "both":
        return [name + b" was both " + old + b" and " + new]
    return [
        b"bisect aborted: "
        + (b"killed" if end[2] == KILLED else b"exit %d" % end[2])
        + b" on "
        + name
    ]


# -- reading -------------------------------------------------------------------------


def split_words(text: bytes) -> Optional[List[bytes]]:
    """The words of a line of sh with single quotes; None where a quote is open at its end."""
    words: List[bytes] = []
    at = 0
    while True:
        while at < len(text) and text[at] in BLANK:
            at += 1
        if at >= len(text):
            return words
        word = bytearray()
        while at < len(text) and text[at] not in BLANK:
            if text[at : at + 1] == b"'":
                end = text.find(b"'", at + 1)
                if end < 0:
                    return None
                word += text[at + 1 : end]
                at = end + 1
            else:
                at += text[at : at + 1] == b"\\" and text[at + 1 : at + 2] in (b"'", b"!")
                word += text[at : at + 1]
                at += 1
        words.append(bytes(word))


def read_start(words: List[bytes], line: int) -> Tuple[bool, List[Optional[bytes]], List[bytes]]:
    """The words of a start: whether first parents alone, the two terms or None, and the names."""
    terms: List[Optional[bytes]] = [None, None]
    names: List[bytes] = []
    first_parent, at = False, 0
    while at < len(words):
        word, at = words[at], at + 1
        option, has_value, value = word.partition(b"=")
        if option in TERM_OPTIONS:
            if not has_value:
                if at >= len(words):
                    raise log_refused(line)
                value, at = words[at], at + 1
            terms[TERM_OPTIONS[option]] = value
        elif word == b"--first-parent":
            first_parent = True
        elif (
            word == b"--"
            and at < len(words)
            or word.startswith(b"-")
            and word not in (b"--", b"--no-checkout")
        ):
            raise log_refused(line)
        elif not word.startswith(b"-"):
            names.append(word)
    return first_parent, terms, names


def read_log(data: bytes) -> List[Tuple[int, Tuple[Any, ...]]]:
    """The commands of a log: pairs of the number of a line and its words, ('start', ..) or ('mark',
    term, name)."""
    out: List[Tuple[int, Tuple[Any, ...]]] = []
    rows = data.split(b"\n")
    for number, row in enumerate(rows[:-1] if rows[-1] == b"" else rows, 1):
        row = row.lstrip(BLANK)
        if row[:10] not in (b"git bisect", b"git-bisect") or row[10:11] not in (b" ", b"\t"):
            continue
        words = split_words(row[10:])
        if words and words[0] == b"start":
            out.append((number, ("start", *read_start(words[1:], number))))
        elif not words or len(words) != 2 or words[0].startswith(b"-") or words[1].startswith(b"-"):
            raise log_refused(number)
        else:
            out.append((number, ("mark", *words)))
    return out


class Replayed:
    """What the commands of a log leave: a state and entries."""

    def __init__(self, history: History) -> None:
        self.history = history
        self.state: Optional[State] = None
        self.entries: List[Asked] = []

    def start(
        self, first_parent: bool, terms: Sequence[Optional[bytes]], names: List[bytes]
    ) -> bool:
        """A start begins anew; the words for bad and good are open where it has neither terms nor
        names. False where it is refused."""
        are_given = terms != [None, None]
        new, old = (
            given if given is not None else standard for given, standard in zip(terms, STANDARD)
        )
        if terms_fault(new, old) is not None:
            return False
        places = [place_of(self.history, name) for name in names]
        self.state = begun(
            (new, old),
            not are_given and not names,
            first_parent,
            places[0] if places else None,
            places[1:],
        )
        self.entries = [("start", first_parent, are_given, self.state.bad, self.state.goods)]
        return True

    def mark(self, term: bytes, name: bytes) -> bool:
        """A mark. False where it is refused."""
        if self.state is None:
            return False
        if self.state.are_open and term in (b"new", b"old"):
            self.state = self.state._replace(terms=(b"new", b"old"))
        verdict = {b"skip": SKIP, self.state.terms[1]: GOOD, self.state.terms[0]: BAD}.get(term)
        if verdict is None:
            return False
        place = place_of(self.history, name)
        state, passed_by, _ = ask(self.history, self.state)
        state = mark(state, verdict, place)
        self.state = state if verdict == SKIP else state._replace(are_open=False)
        self.entries += [("skipped base", base) for base in passed_by] + [("mark", verdict, place)]
        return True


def replay(history: History, data: bytes) -> Tuple[State, List[Asked]]:
    """The state and the entries of a log; raises Refused at the first line that cannot be."""
    commands = read_log(data)
    if not commands:
        raise log_refused(1)
    replayed = Replayed(history)
    for line, (kind, *words) in commands:
        try:
            taken = replayed.start(*words) if kind == "start" else replayed.mark(*words)
        except Unnamed:
            taken = False
        if not taken:
            raise log_refused(line)
    assert replayed.state is not None  # the first command is a start
    return replayed.state, replayed.entries
