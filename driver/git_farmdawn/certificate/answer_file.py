"""The file of an answer that others can check: its lines, and what they claim. Whether it holds,
and at which line it fails, says `farmdawn check`.

    farmdawn-answer 1
    sum SHA-256                     of all lines behind it
    word WORD                       for each word of the command; a byte that is not printable
                                    is \\ and three octal digits
    folder FOLDER                   where the command was run below the top
    term-new TERM, term-old TERM    where they were given
    build WORD                      the line of sh that builds a commit before its test
    retry N, repeat N               where they were given
    made TIME                       when the answer was found, by the clock of that machine, in UTC
    machine WORD                    what that was: system, release and kind, without its name
    option WORD                     for each word of the other options on which it depends what a
                                    test ends with; older files have them behind that machine and
                                    `, searched with `
    called-bad NAME [STATUS]        with what its test ended, where that was bad
    called-good NAME [STATUS]       for each, where that was good
    outcome NAME STATUS             for each test that the answer stands on, as they are marked
    against NAME STATUS             for each further outcome that contradicts the answer
    confirmed NAME OUTCOME N of M   the answer, and each parent of it, that was tested again: N of M
                                    tests were bad, as the lines above say of it, or good
    certificate 1                   and so on to the line `end`: the certificate of farmdawn(1)
"""
from __future__ import annotations

import hashlib
import re
from typing import Dict, List, Optional, Set, Tuple

from ..telling.facts import SKIP

FIRST = "farmdawn-answer 1"
NAME = "[0-9a-f]{40}(?:[0-9a-f]{24})?"
COUNT = "[1-9][0-9]{0,18}"
STATUS = "(0|%s)" % COUNT
TERM = "[A-Za-z0-9][A-Za-z0-9-]{0,39}"
WORD = r"([ -\[\]-~]|\\[0-3][0-7][0-7])*"
# the kinds of lines in their order, and their forms
FORMS = {
    "word": "word " + WORD,
    "folder": "folder " + WORD,
    "term-new": "term-new " + TERM,
    "term-old": "term-old " + TERM,
    "build": "build " + WORD,
    "retry": "retry [1-9][0-9]?",
    "repeat": "repeat [1-9][0-9]?",
    "made": "made [0-9]{4}-[0-9]{2}-[0-9]{2}T[0-9]{2}:[0-9]{2}:[0-9]{2}Z",
    "machine": "machine " + WORD,
    "option": "option " + WORD,
    "called-bad": "called-bad %s(?: %s)?" % (NAME, STATUS),
    "called-good": "called-good %s(?: %s)?" % (NAME, STATUS),
    "outcome": "outcome %s %s" % (NAME, STATUS),
    "against": "against %s %s" % (NAME, STATUS),
    "confirmed": "confirmed %s (?:good|bad) %s of %s" % (NAME, STATUS, COUNT),
    "certificate": "certificate 1",
    "bad": "bad " + NAME,
    "first-parent": "first-parent",
    "good": "good " + NAME,
    "reach": "reach %s from %s" % (NAME, NAME),
    "end": "end",
}
KINDS = list(FORMS)
# the kinds that name no commit, whatever stands in them
FREE = ("word ", "folder ", "build ", "machine ", "option ")


# what older files have between the machine and the options without lines of their own
BEHIND = ", searched with "


def encoded(kind: str, word: bytes) -> str:
    """A word on one line of printable letters."""
    return (
        kind
        + " "
        + "".join(
            chr(byte) if 32 <= byte <= 126 and byte != 92 else "\\%03o" % byte for byte in word
        )
    )


def sum_of(below: bytes) -> str:
    """The line of the sum of all lines behind it."""
    return "sum " + hashlib.sha256(below).hexdigest()


def with_sum(lines: List[str]) -> bytes:
    """The whole file."""
    below = "".join(line + "\n" for line in lines).encode()
    return ("%s\n%s\n" % (FIRST, sum_of(below))).encode() + below


def fits(called: str, status: int) -> bool:
    """Whether a commit that is called good, or bad, may have a test that ended so."""
    return status == 0 if called == "good" else 0 < status < SKIP


class Answer:
    """What stands in a file, as far as it is read."""

    def __init__(self, lines: List[str]) -> None:
        self.lines = lines
        self.called: Dict[str, str] = {}  # good or bad, by commit
        self.tested_ends: Dict[str, int] = {}
        self.outcomes: Dict[str, int] = {}
        self.against: Dict[str, int] = {}
        self.listed: Set[str] = set()  # the good ones of the certificate
        self.words: List[str] = []
        self.build: Optional[str] = None
        self.folder, self.retry, self.repeat = "", 0, 1
        self.made, self.machine = "", ""
        self.options: List[str] = []  # those that have no lines of their own
        # a commit, good or bad, and so many of so many tests
        self.confirmed: List[Tuple[str, str, int, int]] = []
        self.bad, self.term, self.old, self.first_parent = "", "bad", "good", False
        self.start = 0  # the number of the line `certificate 1`

    def commits(self) -> List[str]:
        """All that are named, each once."""
        names = [
            name
            for line in self.lines
            for name in re.findall(r"(?<= )%s(?= |$)" % NAME, line)
            if not line.startswith(FREE + ("sum ",))
        ]
        return list(dict.fromkeys(names))

    def certificate(self) -> List[str]:
        """The lines of the certificate."""
        return self.lines[self.start - 1 :]

    def marked_bad(self) -> List[str]:
        """The commits that were called or tested bad."""
        return [name for name, called in self.called.items() if called == "bad"] + [
            name for name, status in self.outcomes.items() if 0 < status < SKIP
        ]

    # -- line by line ----------------------------------------------------------------

    def take(self, number: int, kind: str, line: str) -> None:
        """What a line claims that has its form; whether it may stand there says the program."""
        parts = line.split(" ")
        if kind == "word":
            self.words.append(line[len("word ") :])
        elif kind == "machine":
            self.machine, _, options = line[len(kind) + 1 :].partition(BEHIND)
            self.options = options.split()
        elif kind == "option":
            self.options.append(line[len("option ") :])
        elif kind in ("build", "folder", "made"):
            setattr(self, kind, line[len(kind) + 1 :])
        elif kind in ("retry", "repeat"):
            setattr(self, kind, int(parts[1]))
        elif kind == "term-new":
            self.term = parts[1]
        elif kind == "term-old":
            self.old = parts[1]
        elif kind == "certificate":
            self.start = number
        elif kind == "first-parent":
            self.first_parent = True
        elif kind == "bad":
            self.bad = parts[1]
        elif kind == "good":
            self.listed.add(parts[1])
        else:
            self.take_test(kind, parts)

    def take_test(self, kind: str, parts: List[str]) -> None:
        """What a line claims of the tests of a commit."""
        if kind in ("called-bad", "called-good"):
            self.called[parts[1]] = kind[len("called-") :]
            if len(parts) > 2:
                self.tested_ends[parts[1]] = int(parts[2])
        elif kind == "outcome":
            self.outcomes[parts[1]] = int(parts[2])
        elif kind == "against":
            self.against[parts[1]] = int(parts[2])
        elif kind == "confirmed":
            self.confirmed.append((parts[1], parts[2], int(parts[3]), int(parts[5])))


def kind_of(line: str) -> Optional[str]:
    """The kind of a line that has its form."""
    kind = line.split(" ")[0]
    return kind if kind in FORMS and re.fullmatch(FORMS[kind], line) else None


def answer_of(data: bytes) -> Answer:
    """What the lines of a file claim, whatever they are; one that is in no form claims nothing."""
    lines = data.decode("latin-1").split("\n")
    answer = Answer(lines[:-1] if lines[-1] == "" else lines)
    for number, line in enumerate(answer.lines, 1):
        kind = line.split(" ")[0] if line.startswith(FREE) else kind_of(line)
        if kind is not None:
            answer.take(number, kind, line)
    return answer
