"""The ends: whether each commit that was called good or bad is as it was called."""
from __future__ import annotations

from typing import TYPE_CHECKING, List, Tuple

from ..known import several
from ..known.evidence import BESIDE, WrongEnd, skipped_alone, unseen, wrong_of
from ..known.notes import end_says_nothing
from ..telling.facts import SKIP, agrees
from ..telling.status import Status

if TYPE_CHECKING:
    from ..checkouts.places import Claim
    from ..host.loop import Loop
    from ..known.record import Searched, Test
    from ..telling.voice import Telling
    from .claims import Claims
    from .needless import Needless

UNKNOWN = 255  # stands for an end of which nothing is known
MANY = 6  # workers from which on ends are tested with the first commits
SEARCHING = 4  # of these so many are left to the engine, which is about as fast with them
SKIPS = 10  # commits that were skipped, without another outcome, before the ends are tested


class Ends:
    """Has ends tested where workers are idle, and refuses what cannot be searched. `odd` are ends
    that are to be tested again before they stop the search."""

    def __init__(
        self, known: Searched, claims: Claims, needless: Needless, voice: Telling, loop: Loop
    ) -> None:
        self.known, self.settings, self.claims, self.needless = (
            known,
            known.settings,
            claims,
            needless,
        )
        self.voice, self.loop = voice, loop
        self.odd: List[Tuple[Test, WrongEnd]] = []

    # -- tests of ends -----------------------------------------------------------

    def fill(self) -> None:
        """What is idle gets work: ends that are not to wait, what the engine picks, and then the
        ends that nobody has tested."""
        claims = self.claims
        self.fill_early()
        if claims.fill() or self.settings.trust_ends:
            return
        for end in self.known.ends:
            for test in self.known.tests:
                if test.status is None and claims.is_free_for(end.commit):
                    self.test(test, end.commit)

    def fill_early(self) -> None:
        """Tests ends before further commits: those of one search as far as workers are hardly
        missed, and all ends where nothing but skips was seen."""
        claims, workers = self.claims, self.settings.workers
        if self.settings.trust_ends or not claims.may_pick():
            return
        is_alone = workers >= MANY and len(self.known.tests) == 1
        for test in self.known.tests:
            is_lost = skipped_alone(test.seen.statuses, self.known.ends) >= SKIPS
            count = len(self.known.ends) if is_lost else is_alone * (workers - SEARCHING)
            for end in self.known.ends[:count]:
                if test.status is None and claims.is_free_for(end.commit):
                    self.test(test, end.commit)

    def test(self, test: Test, commit: str) -> None:
        """Tests an end, where that was not done."""
        if (
            test.wrong is None
            and commit not in test.seen.statuses
            and not self.claims.is_under_way(test, commit)
        ):
            self.claims.put_end(test, commit)

    def untested(self) -> List[Tuple[Test, str]]:
        """The ends that nobody has tested, by test."""
        return [
            (test, end.commit)
            for end in self.known.ends
            for test in self.known.tests
            if end.commit not in test.seen.statuses
        ]

    def wanted(self) -> List[Tuple[Test, str]]:
        """The ends that answers stand on, and that are to be tested: where no test was good each
        good one, where none was bad the bad one."""
        return [
            (test, end.commit)
            for test in self.known.tests
            if test.status in (Status.FOUND, Status.ONLY_SKIPPED)
            for end in unseen(test.seen.statuses, self.known.ends)
        ]

    # -- what they are -----------------------------------------------------------

    def check(self, claim: Claim, status: int) -> None:
        """An end that is not as it was called leaves nothing to search; of several tests, one is
        left out."""
        self.check_skips(claim.test)
        for end in self.known.ends:
            if end.commit != claim.commit or not claim.is_end or claim.test.wrong is not None:
                continue
            how = claim.test.seen.how(claim.commit, self.known.builds)
            wrong = WrongEnd(end, status, claim.log, how)
            if agrees(end, status) is False:
                self.doubt(claim.test, wrong)
            elif status >= SKIP:
                self.voice.once("end", end_says_nothing(wrong))

    def check_skips(self, test: Test) -> None:
        """Where nothing but skips was seen, and an end is skipped, too, no commit can be tested."""
        statuses = test.seen.statuses
        count = skipped_alone(statuses, self.known.ends)
        if count < SKIPS or self.settings.trust_ends:
            return
        for end in self.known.ends:
            if statuses.get(end.commit) == SKIP and test.wrong is None:
                how = test.seen.how(end.commit, self.known.builds)
                how += f"; {count} commits were skipped, and none was good or bad"
                self.refuse(test, WrongEnd(end, SKIP, test.outcomes.log_of(end.commit), how))

    def check_kept(self) -> None:
        """What earlier runs found of the ends."""
        for test in self.known.tests:
            end = wrong_of(self.known.ends, test.seen.statuses)
            if end is not None:
                how = test.seen.how(end.commit, self.known.builds)
                self.doubt(test, WrongEnd(end, test.seen.statuses[end.commit], how=how))
            self.check_skips(test)

    def check_seen(self) -> None:
        """Refuses the ends that were not seen to be what they were called."""
        for test in self.known.tests:
            for end in self.known.ends:
                status = test.seen.statuses.get(end.commit, UNKNOWN)
                if not agrees(end, status) and test.wrong is None:
                    is_known = end.commit in test.seen.statuses
                    how = test.seen.how(end.commit, self.known.builds) if is_known else ""
                    self.refuse(test, WrongEnd(end, status, how=how))

    def next_odd(self) -> Tuple[Test, WrongEnd]:
        """An end that is to be tested again; it is not odd any more."""
        return self.odd.pop()

    def doubt(self, test: Test, wrong: WrongEnd) -> None:
        """Refuses an end that was tested once: with --confirm not before it was tested again."""
        if self.settings.confirm:
            self.odd.append((test, wrong))
        else:
            self.refuse(test, wrong)

    def refuse(self, test: Test, wrong: WrongEnd) -> None:
        """Leaves a test out of several, and cancels what runs for it; raises the fault where there
        is but one."""
        if len(self.known.tests) == 1:
            raise wrong
        test.leave_out(wrong)
        self.voice.say(f"{several.left_out(test)}; {test.advice[0]}")
        if test.seen.ran_beside(wrong.end.commit) and not self.settings.private:
            test.advise(*test.advice, BESIDE)
            self.voice.once("beside", BESIDE)
        self.needless.cancel_all(test)
        self.loop.later(0, self.fill)

    def tell_answer_later(self, test: Test) -> None:
        """An answer is told as soon as it stands on ends that were seen."""
        self.loop.later(0, several.tell_answer, self.known, self.voice, test)
