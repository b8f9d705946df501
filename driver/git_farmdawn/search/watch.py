"""The turns of a search: the clock, signals, the report and the live line."""
from __future__ import annotations

import os
import time
from typing import TYPE_CHECKING, Iterator, Optional

from ..checkouts.places import Claim
from ..host.loop import Cancelled
from ..known import several
from ..telling.facts import Progress, Running

if TYPE_CHECKING:
    from ..checkouts.places import Job, Places
    from ..known.record import Searched
    from ..report.report import Report
    from ..telling.voice import Telling

TURN = 1.0


class Deadline(Exception):
    """The time of --deadline is over."""


class Watch:
    """Turns the loop. `report` is written anew from time to time; `parent` is the process of git
    that started this one."""

    def __init__(
        self,
        known: Searched,
        places: Places,
        voice: Telling,
        report: Optional[Report] = None,
        parent: Optional[int] = None,
    ) -> None:
        self.known, self.settings, self.places = known, known.settings, places
        self.voice, self.loop, self.report = voice, places.shop.loop, report
        self.parent = parent
        self.next_look = self.next_report = 0.0
        self.writing: Iterator[None] = iter(())  # the steps of a report that is written now

    def turn(self) -> None:
        """One turn of the loop, and what the clock asks for."""
        now = time.monotonic()
        wait = (
            TURN
            if self.settings.deadline is None
            else max(0.0, min(TURN, self.settings.deadline - now))
        )
        self.loop.turn(0.0 if self.goes_on_writing() else wait)
        if self.loop.heard is not None:
            raise Cancelled(self.loop.heard)
        if self.parent and os.getppid() != self.parent:
            raise Cancelled(15)  # git was killed
        now = time.monotonic()
        if self.settings.deadline is not None and now >= self.settings.deadline:
            raise Deadline
        if now >= self.next_look:
            self.next_look = now + TURN
            self.look(now)

    def goes_on_writing(self) -> bool:
        """Writes the next step of a report; whether there was one. So no event waits for a report
        of many tests."""
        try:
            return next(self.writing, self) is None
        except OSError:
            return False

    def look(self, now: float) -> None:
        """The report, tests that run long, and the live line."""
        if self.report is not None and now >= self.next_report:
            self.next_report = now + self.settings.watch
            self.writing = self.report.writing(None)
        for job in self.places.jobs():
            self.places.trials.look(job)
            self.tell_long(job, now)
        self.voice.draw(self.progress())

    def tell_long(self, job: Job, now: float) -> None:
        """How long a test or a build runs already, or waits for a machine: behind so many seconds,
        and whenever they have doubled."""
        if self.settings.by_hand and not job.is_build:
            return
        spent = now - (job.began if job.waits is None else job.waits)
        if job.is_long(spent, float(self.settings.watch)):
            what = "the build of " if job.is_build else ""
            does = "has run" if job.waits is None else "has waited"
            self.voice.tell(f"{what}{job.commit[:12]} {does} for {int(spent)} s")

    def progress(self) -> Progress:
        """How far the search is, for the live line."""
        tests = self.known.tests
        running = [
            self.running(job)
            for job in self.places.jobs()
            if isinstance(job, Claim) or job.is_build
        ]
        ended = [row for test in tests for row in test.seen.done()]
        left, spent = tests[0].told.candidates, time.monotonic() - self.known.began
        if len(tests) > 1:
            shares, seconds = several.shares_of(self.known)
            return Progress(0, None, len(ended), seconds, running, shares, spent)
        begin = tests[0].told.candidates_at_begin
        total, rest = begin.commits if begin else 0, left.commits if left else None
        seconds = several.seconds_left(self.known, left) if left else None
        return Progress(total, rest, len(ended), seconds, running, spent=spent)

    def running(self, job: Job) -> Running:
        """What a job is shown by."""
        if job.waits is not None:
            return Running(job.waits, job.commit, b"waits for a machine")
        return Running(job.began, job.commit, b"is built" if job.is_build else self.subject_of(job))

    def subject_of(self, job: Job) -> bytes:
        """What a test is shown by: its name where it has one, else its commit."""
        subject = self.known.commits.subject[job.commit]
        return name_of(job) or subject if isinstance(job, Claim) else subject


def name_of(claim: Claim) -> bytes:
    """The name of the test of a claim, where it has one."""
    return os.fsencode(claim.test.name)
