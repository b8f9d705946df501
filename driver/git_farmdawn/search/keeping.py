"""What became of a test: its outcome is kept, then told, and then posted to the engine. So nothing
that a log stands on is lost with the driver, and no long test with the machine."""
from __future__ import annotations

import time
from typing import TYPE_CHECKING, Optional, Set

from ..host.files import cut_log, last_lines
from ..known import several
from ..telling.facts import FIRST_STOP, SKIP, Row, outcome_of, turned
from ..telling.voice import left_text

if TYPE_CHECKING:
    from ..checkouts.places import Claim, Preparation, Slot
    from ..checkouts.trial import Trials
    from ..known.record import Searched, Test
    from ..telling.voice import Telling
    from .claims import Claims
    from .ends import Ends

LONG = 1.0  # seconds of a test beside which it costs nothing that the disk has its outcome at once
SHOWN_LINES = 3  # of the output of the first test that fails, and of the first one that is skipped


class Keeping:
    """Takes the tests and builds that are done. `shown` has the outcomes whose reason was told."""

    def __init__(
        self, known: Searched, claims: Claims, ends: Ends, trials: Trials, voice: Telling
    ) -> None:
        self.known, self.settings, self.claims, self.ends = known, known.settings, claims, ends
        self.trials, self.voice, self.dialogue = trials, voice, claims.dialogue
        self.shown: Set[str] = set()

    # -- builds ------------------------------------------------------------------

    def take_build(self, slot: Slot, work: Preparation, status: Optional[int]) -> None:
        """A build, done or cancelled."""
        row = Row(work.commit, slot.number, work.began, time.monotonic(), status, work.at_limit)
        self.known.builds.append(row)
        if self.trials.built is not None:
            cut_log(work.log, self.settings.log_limit)

    def keep_unbuilt(self, slot: Slot, work: Preparation, status: int) -> None:
        """The outcome of a commit that could not be made ready, for those that wait; one that
        cannot be built is skipped for all."""
        waiting = list(slot.queue)
        slot.queue.clear()
        for claim in waiting:
            self.trials.say_unbuilt(claim, work, status)
            row = Row(
                work.commit,
                slot.number,
                work.began,
                time.monotonic(),
                status,
                work.at_limit,
                ran=False,
                run=claim.run,
            )
            self.keep(claim, row, status)
        if (
            work.is_build
            and status == SKIP
            and all(claim.run == 1 for claim in waiting)
            and self.dialogue.has_begun()
        ):
            self.skip_for_all(work.commit)

    def skip_for_all(self, commit: str) -> None:
        """A commit that cannot be built is skipped for all that do not know it."""
        for test in self.known.tests:
            if test.wrong is None and commit not in test.seen.statuses:
                test.seen.note_outcome(commit, SKIP)
                test.outcomes.keep(commit, SKIP)
                self.dialogue.of(test).learn(test, commit, SKIP)

    # -- tests -------------------------------------------------------------------

    def take(self, claim: Claim, slot: Slot, status: Optional[int], is_needless: bool) -> None:
        """A test, done or cancelled: its outcome is kept, or its claim is given back."""
        if claim.log:
            cut_log(claim.log, self.settings.log_limit)
        row = Row(
            claim.commit,
            slot.number,
            claim.began,
            time.monotonic(),
            status,
            claim.at_limit,
            run=claim.run,
            host=claim.host,
            lost=claim.lost,
            beside=claim.beside,
            measured=claim.measured,
        )
        if status is not None:
            self.keep(claim, row, status)
            return
        claim.test.seen.note(row)
        if not is_needless:
            self.claims.drop(claim)
            return
        if claim.test.status is None:
            self.tell_verdict(claim.test, row)
        self.claims.give_back(claim)

    def keep(self, claim: Claim, row: Row, status: int) -> None:
        """Keeps an outcome, and then tells it: what was told is not lost, whoever ends the search
        now."""
        test = claim.test
        if status:
            self.trials.look_for_room(claim)
        if claim.missing:
            test.seen.note_missing(claim.commit)
        is_again = claim.run > 1 or bool(test.seen.runs_of(claim.commit))
        if self.settings.measure is not None and status < FIRST_STOP:
            numbers = row.measured.numbers if row.measured else ()
            test.outcomes.keep_numbers(claim.commit, numbers, is_again)
        spent = int(row.seconds) if row.beside else None
        test.outcomes.keep(claim.commit, status, is_again, spent, row.seconds >= LONG)
        if row.ran or not self.known.has_names:
            self.tell_verdict(test, row)
        test.seen.note(row)
        self.show_first(claim, status)
        self.warn_of_skips(claim)
        worker, talk = self.claims.drop(claim), self.dialogue.of(test)
        if claim.run > 1 or not self.dialogue.has_begun():
            return  # what it means is said when all of them are done
        asked = talk.engine
        self.ends.check(claim, status)  # it may give picks back
        self.ends.tell_answer_later(test)
        if worker and talk.engine is asked:
            talk.post(worker, status)
        elif not claim.is_end:
            talk.learn(test, claim.commit, status)
        self.tell_candidates(test)

    # -- what is told of them ------------------------------------------------------

    def tell_verdict(self, test: Test, row: Row) -> None:
        """What a test meant."""
        subject, terms = self.known.commits.subject[row.commit], self.settings.terms
        self.voice.verdict(row, subject, terms, test.mark)

    def show_first(self, claim: Claim, status: int) -> None:
        """Why the first test that fails does, and the first one that is skipped is, with the last
        lines of its output. With --fixed those fail whose commit is not fixed."""
        kind = outcome_of(status)
        is_plain = self.settings.quiet or self.settings.by_hand or claim.times
        succeeds = status == (turned(0) if self.settings.fixed else 0)
        if claim.run > 1 or status > SKIP or succeeds or kind in self.shown or is_plain:
            return
        self.shown.add(kind)
        self.voice.line("    " + claim.test.seen.how(claim.commit, self.known.builds))
        self.voice.show(last_lines(claim.log, SHOWN_LINES), "    ")

    def warn_of_skips(self, claim: Claim) -> None:
        """Where all tests are skipped, something may be wrong."""
        rows = claim.test.seen.done()
        if len(rows) >= 10 and all(row.status == SKIP for row in rows[-10:]):
            self.voice.once(
                "skips",
                "ten tests one after the other were skipped; is something wrong? The last one's"
                " output is in " + claim.log,
            )
        if len(rows) >= 3 and all(row.at_limit for row in rows):
            self.voice.once(
                "limit",
                (
                    f"each test so far took longer than {self.settings.timeout} s; is"
                    " --timeout too short, or does something hang? The last output is in"
                    f" {claim.log}"
                ),
            )

    def tell_candidates(self, test: Test) -> None:
        """How many commits are left, where that has changed. Of several tests the live line says
        how far all are, where there is one."""
        settings = self.settings
        if test.wrong is not None or settings.quiet or test.status is not None:
            return
        candidates = test.told.candidates
        if candidates is None or not test.shown.is_new(candidates):
            return
        seconds = None
        if not self.known.has_names:
            seconds = several.seconds_left(self.known, candidates)
        elif self.voice.live:
            return
        self.voice.line(f"{left_text(*candidates, seconds)}  {test.mark}".rstrip())
