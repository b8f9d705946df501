"""The words of a search, and the state at which it begins."""
from __future__ import annotations

import os
from typing import TYPE_CHECKING, Callable, Dict, List, Optional, TypeVar

import states
from logs import replay, waiting_line
from names import Unnamed, place_of, places_of
from refusals import LONGEST_LOG, MOST_WORDS, Refused, name_refused, too_large, usage
from states import SKIP, STANDARD, Asked, Terms, look_at_bases, mark, terms_fault

if TYPE_CHECKING:
    from history import History

Found = TypeVar("Found")

FLAGS = (b"--first-parent", b"--lenient-exit")
VALUES = (b"--term-new", b"--term-old", b"--skip", b"--replay")
FORBIDDEN_BY_LOG = (b"--first-parent", b"--term-new", b"--term-old")


class Words:
    """The words of a search, by their numbers; that of the request is word 0."""

    def __init__(self, words: List[bytes]) -> None:
        self.words = [b"search"] + words
        self.options: Dict[bytes, int] = {}  # an option, and the number of its word
        self.values: Dict[bytes, int] = {}  # an option, and the number of its value
        self.skips: List[int] = []
        self.ends: List[int] = []
        if len(self.words) > MOST_WORDS:
            raise usage(MOST_WORDS)
        self.read()
        self.terms = self.check_terms()
        self.check_ends()

    def read(self) -> None:
        """From left to right: what each word is."""
        at = 1
        while at < len(self.words):
            word = self.words[at]
            if not word.startswith(b"-"):
                self.ends.append(at)
                at += 1
                continue
            if word not in FLAGS + VALUES or word in self.options and word != b"--skip":
                raise usage(at)
            self.options[word] = at
            if word in VALUES:
                if at + 1 >= len(self.words):
                    raise usage(len(self.words))
                at += 1
                self.values[word] = at
                self.skips += [at] if word == b"--skip" else []
            at += 1

    def check_terms(self) -> Optional[Terms]:
        """The terms where one is given, else None."""
        new_at, old_at = self.values.get(b"--term-new"), self.values.get(b"--term-old")
        if new_at is None and old_at is None:
            return None
        new = self.words[new_at] if new_at is not None else STANDARD[0]
        old = self.words[old_at] if old_at is not None else STANDARD[1]
        fault = terms_fault(new, old)
        if fault is not None:
            raise usage(
                {"new": new_at or 0, "old": old_at or 0, "same": max(new_at or 0, old_at or 0)}[
                    fault
                ]
            )
        return new, old

    def check_ends(self) -> None:
        """A log has the ends, the terms and the parents; without one a bad and a good commit are
        named."""
        if b"--replay" in self.options:
            forbidden = [
                self.options[option] for option in FORBIDDEN_BY_LOG if option in self.options
            ]
            if forbidden:
                raise usage(min(forbidden))
            if self.ends:
                raise usage(self.ends[0])
        elif len(self.ends) < 2:
            raise usage(len(self.words))

    def resolved(self, call: Callable[[History, bytes], Found], history: History, at: int) -> Found:
        """What a word names."""
        try:
            return call(history, self.words[at])
        except Unnamed as fault:
            raise name_refused(at, fault.why) from None


def read_file(name: bytes) -> bytes:
    """The bytes of a log."""
    try:
        with open(os.fsdecode(name), "rb") as file:
            data = file.read(LONGEST_LOG + 1)
    except FileNotFoundError:
        raise Refused(16, b"no such file") from None
    except (OSError, ValueError):
        raise Refused(14, b"file fault") from None
    if len(data) > LONGEST_LOG:
        raise too_large(b"log")
    return data


class Begun:
    """A search that has begun: its state, its entries, and how many of them are those of a log."""

    def __init__(self, words: Words, history: History) -> None:
        self.entries: List[Asked]
        if b"--replay" in words.options:
            self.state, self.entries = replay(
                history, read_file(words.words[words.values[b"--replay"]])
            )
            self.replayed = len(self.entries)
        else:
            bad, *goods = [words.resolved(place_of, history, at) for at in words.ends]
            first_parent, terms = b"--first-parent" in words.options, words.terms or STANDARD
            self.state = states.begun(terms, False, first_parent, bad, goods)
            self.entries = [("start", first_parent, words.terms is not None, bad, self.state.goods)]
            self.replayed = 0
        skips = [words.resolved(places_of, history, at) for at in words.skips]
        if self.state.bad is None or not self.state.goods:
            raise Refused(
                17,
                waiting_line(self.state.terms, self.state.bad is not None, len(self.state.goods)),
            )
        for place in (place for places in skips for place in places):
            # nothing more of it outlasts a skip
            state, passed_by, _ = look_at_bases(history, self.state)
            self.state = mark(state, SKIP, place)
            self.entries += [("skipped base", base) for base in passed_by] + [("mark", SKIP, place)]
