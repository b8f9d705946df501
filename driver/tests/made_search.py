"""Searches that never ran, of which a report is made, and the folder of such a test."""
from __future__ import annotations

import json
import os
import sys
import tempfile
import unittest
import xml.etree.ElementTree as ElementTree
from typing import Any, List, NamedTuple, Optional, Sequence

sys.path.insert(0, os.path.dirname(os.path.dirname(os.path.abspath(__file__))))

from git_farmdawn.known.evidence import WrongEnd  # noqa: E402
from git_farmdawn.known.outcomes import Outcomes  # noqa: E402
from git_farmdawn.known.record import Searched, Seen, Test, Told  # noqa: E402
from git_farmdawn.line.settings import Settings  # noqa: E402
from git_farmdawn.report.facts import Collector, Facts  # noqa: E402
from git_farmdawn.report.overview import Overview, OverviewFacts  # noqa: E402
from git_farmdawn.report.page import Page  # noqa: E402
from git_farmdawn.report.report import Report, open_folder  # noqa: E402
from git_farmdawn.report.source import Source  # noqa: E402
from git_farmdawn.repository.history import Commits  # noqa: E402
from git_farmdawn.telling.facts import End, Row, ends_of  # noqa: E402

HOSTILE_NAMES = [
    "tests/a.py::B::c[<1>]",
    '&lt;b&gt; "quoted"',
    "]]> --> </svg>",
    "ümläut `日本`",
    "%s {} *",
]


class Made(NamedTuple):
    """A search that never ran, and what git says of its repository."""

    known: Searched
    source: Source

    @property
    def tests(self) -> Sequence[Test]:
        """Its tests."""
        return self.known.tests

    @property
    def order(self) -> List[str]:
        """Its commits."""
        return self.known.commits.order

    def facts(
        self, test: Test, status: Optional[int], reason: str = "", with_answer: bool = True
    ) -> Facts:
        """What a report has of one search."""
        collector = Collector(self.known, test, self.source, "0.1.0")
        return collector.collect(status, reason, with_answer)

    def overview(self, status: Optional[int], reason: str = "") -> OverviewFacts:
        """What a report has of all of them."""
        searches = {test.name: self.facts(test, test.status) for test in self.tests}
        return Overview(self.known, self.source, "0.1.0", searches).facts(status, reason)

    def page(self, test: Test, facts: Facts) -> str:
        """The page of one search."""
        return Page(facts, test.seen, self.known.commits.place, self.source).text()


def source(room: str, data: bytes) -> Source:
    """A repository that shows the same of each commit."""

    def run(*words: str, **more: Any) -> bytes:
        """What git shows."""
        return b"Ann <a&b>\n1700000000\n%s\0\n---\n%s\n\n%s" % (data, data, data)

    web = "https://gitlab.example.org/team/tool"
    return Source(room + "/tree", "deep/", web, "", run)


def make_search(room: str, texts: List[str], answer: Optional[int], data: bytes = b"") -> Made:
    """A search of a line of commits whose subjects are these; the answer is the number of one, or
    None where it was stopped. git shows the data of each commit."""
    order = ["%040x" % (at + 1) for at in range(len(texts))]
    known = {name: int(at >= (answer or 0)) for at, name in enumerate(order[1:-1], 1)}
    outcomes = Outcomes(room, lambda: "0" * 12, lambda text: None)
    for name in known:
        os.close(outcomes.open_log(name)[1])
        with open(outcomes.open_log(name)[0], "wb") as file:
            file.write(os.fsencode(texts[order.index(name)]) * 3 + b"\n\0\n")
    rows = [
        Row(name, at % 3, 5.0 + at, 6.5 + at, None if at == 2 else known[name])
        for at, name in enumerate(known)
    ]
    log = [b"git bisect start x"] + [
        b"git bisect %s %s" % (b"bad" if known[name] else b"good", name.encode()) for name in known
    ]
    last = [b"%s is the first bad commit" % order[answer].encode()] if answer else []
    seen, told = Seen(outcomes, known, rows), Told(log, last, 0 if answer else None)
    test = Test("", ["sh", "-c"] + texts, seen, told=told)
    settings = Settings()
    settings.bad, settings.goods, settings.workers = order[-1], [order[0]], 3
    settings.build = ["/bin/sh", "-c", "make"]
    ends = ends_of(order[-1], [order[0]], settings.terms)
    commits = Commits()
    for at, name in enumerate(order):
        commits.add(name, (at - 1,) if at else ())
        commits.subject[name] = os.fsencode(texts[at])
    commits.total = len(order) - 1
    return Made(Searched(settings, commits, [test], ends, [], 1.0), source(room, data))


def make_several(
    room: str,
    texts: List[str],
    answers: List[Optional[int]],
    names: Sequence[str] = (),
    data: bytes = b"",
) -> Made:
    """Searches for several tests, each with the number of its answer; None is one that is left
    out."""
    made = make_search(room, texts, 1, data)
    order, log, outcomes = made.order, made.tests[0].told.log, made.tests[0].outcomes
    tests: List[Test] = []
    names_of = names or HOSTILE_NAMES
    for number, answer in enumerate(answers):
        known = {
            name: int(at >= (answer or 0))
            for at, name in enumerate(order[1:-1], 1)
            if at % 4 != number % 4 or at == answer
        }
        found = [b"%s is the first bad commit" % order[answer].encode()] if answer else []
        seen, told = Seen(outcomes, known), Told(log, found, 0)
        test = Test(names_of[number], ["sh", "-c"] + texts, seen, "t%d" % number, told)
        if not answer:
            test.leave_out(WrongEnd(End(order[-1], "bad", True), 0))
        tests.append(test)
    return Made(made.known._replace(tests=tests), made.source)


def open_report(folder: str, made: Made) -> Report:
    """The report of a search that never ran."""
    top = made.source.path
    opened = open_folder(folder, made.known, top, top + "/.git")
    return Report(opened, made.known, made.source, "0.1.0")


class Room(unittest.TestCase):
    """A folder of its own for each test."""

    def setUp(self) -> None:
        """The folder."""
        room = tempfile.TemporaryDirectory()
        self.addCleanup(room.cleanup)
        self.room = os.path.realpath(room.name)
        os.makedirs(self.room + "/tree/.git")

    def whole(self, folder: str) -> int:
        """Whether what is there of a report is whole; how many of these files are."""
        there = 0
        for name, read in (
            ("result.json", json.load),
            ("index.html", ElementTree.parse),
            ("junit.xml", ElementTree.parse),
        ):
            path = os.path.join(folder, name)
            if os.path.exists(path):
                with open(path, encoding="utf-8") as file:
                    read(file)  # type: ignore[operator]
                there += 1
        return there
