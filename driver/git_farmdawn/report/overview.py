"""The report of several searches: what result.json has of all of them together."""
from __future__ import annotations

import os
import time
from typing import TYPE_CHECKING, Dict, List, Mapping, Optional, TypedDict

from ..telling.facts import outcome_of
from .facts import AnswerFact, Collector, CommitFact, Facts, NoteFact, doubts_of
from .source import text_of

if TYPE_CHECKING:
    from ..known.record import Searched, Test
    from ..telling.facts import Row
    from .source import Source


class SearchFact(TypedDict):
    """One search, whose own report is in a folder."""

    test: str
    folder: str
    command: List[str]
    state: str
    status: Optional[int]
    answer: Optional[str]
    reason: Optional[str]
    candidates: List[str]
    missing: int
    doubts: List[str]
    notes: List[NoteFact]


class BrokenFact(TypedDict):
    """A first bad commit, and the tests that it broke."""

    commit: AnswerFact
    tests: List[str]


class OutcomesFact(TypedDict):
    """A commit, and what it is by each test that says something of it: good, bad, skipped or
    stopped."""

    commit: str
    subject: str
    tests: Dict[str, str]


class BuildFact(TypedDict):
    """A build; the status is null where it was ended before it was done."""

    commit: str
    worker: int
    began: float
    ended: float
    status: Optional[int]


class OverviewFacts(TypedDict):
    """All of it, in the order of result.json."""

    report: int
    generator: str
    version: str
    repository: str
    bad: str
    good: List[str]
    status: Optional[int]
    reason: Optional[str]
    started: float
    ended: Optional[float]
    workers: int
    commits: int
    answers: List[BrokenFact]
    searches: List[SearchFact]
    outcomes: List[OutcomesFact]
    builds: List[BuildFact]


class Overview:
    """The facts of all searches together."""

    def __init__(
        self, known: Searched, source: Source, version: str, searches: Mapping[str, Facts]
    ) -> None:
        self.known, self.source, self.version = known, source, version
        self.searches = searches
        self.offset = time.time() - time.monotonic()

    def facts(self, status: Optional[int], reason: str) -> OverviewFacts:
        """What result.json has; a status of None is that of searches that run."""
        known, settings = self.known, self.known.settings
        return {
            "report": 1,
            "generator": "git farmdawn",
            "version": self.version,
            "repository": self.source.path,
            "bad": settings.bad,
            "good": settings.goods,
            "status": status,
            "reason": text_of(os.fsencode(reason)) or None,
            "started": round(known.began + self.offset - 0.01, 2),
            "ended": None if status is None else round(time.time() + 0.01, 2),
            "workers": settings.workers,
            "commits": known.commits.total,
            "answers": self.answers(),
            "searches": [self.search_of(test, status, reason) for test in known.tests],
            "outcomes": self.outcomes(),
            "builds": [self.build_of(row) for row in known.builds],
        }

    def answers(self) -> List[BrokenFact]:
        """The first bad commits in the order of the history."""
        found: List[BrokenFact] = []
        for name, tests in self.known.by_commit().items():
            log = ["%s is the first bad commit" % name]
            answer = Collector(self.known, tests[0], self.source, self.version).answer(log)
            if answer is not None:
                found.append(
                    {"commit": answer, "tests": [text_of(os.fsencode(test.name)) for test in tests]}
                )
        return found

    def search_of(self, test: Test, status: Optional[int], why: str) -> SearchFact:
        """One search, as far as it is; where it has no end of its own, that of all says why."""
        own = test.status if test.status is not None else status
        name = test.found(self.known.commits)
        collector = Collector(self.known, test, self.source, self.version)
        state = (
            "left out"
            if test.wrong is not None
            else "found"
            if name
            else Collector.state(own, None)
        )
        reason = (
            test.wrong.text
            if test.wrong is not None
            else None
            if name
            else self.reason_of(test, own, why)
        )
        candidates: List[CommitFact] = collector.candidates()
        return {
            "test": text_of(os.fsencode(test.name)),
            "folder": test.short,
            "command": [text_of(os.fsencode(word)) for word in test.words],
            "state": state,
            "status": own,
            "answer": name,
            "reason": reason,
            "candidates": [one["name"] for one in candidates],
            "missing": len(test.seen.missing),
            "doubts": doubts_of(self.searches[test.name]),
            "notes": self.searches[test.name]["notes"],
        }

    def reason_of(self, test: Test, status: Optional[int], why: str) -> str:
        """Why a search has no answer."""
        if test.status is None and why:
            return text_of(os.fsencode(why))
        log = [text_of(line) for line in self.known.log_lines(test, True)]
        return Collector(self.known, test, self.source, self.version).reason(status, log)

    def outcomes(self) -> List[OutcomesFact]:
        """The commits that have an outcome for some test, in the order of the history."""
        history = self.known.commits
        found: Dict[str, Dict[str, str]] = {}
        for test in self.known.tests:
            for commit, status in test.seen.statuses.items():
                found.setdefault(commit, {})[text_of(os.fsencode(test.name))] = outcome_of(status)
        return [
            {"commit": commit, "subject": text_of(history.subject[commit]), "tests": found[commit]}
            for commit in sorted(
                (name for name in found if name in history.place),
                key=lambda name: history.place[name],
            )
        ]

    def build_of(self, row: Row) -> BuildFact:
        """One build."""
        return {
            "commit": row.commit,
            "worker": row.checkout + 1,
            "began": round(row.began + self.offset, 2),
            "ended": round(row.ended + self.offset, 2),
            "status": row.status,
        }
