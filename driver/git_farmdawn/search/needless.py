"""What nobody needs any more: tests and builds that are cancelled."""
from __future__ import annotations

import time
from typing import TYPE_CHECKING, Sequence, Set

from ..telling.facts import mean_of

if TYPE_CHECKING:
    from ..checkouts.places import Claim, Preparation, Slot
    from ..host.loop import Loop
    from ..known.record import Test
    from ..telling.voice import Telling
    from .claims import Claims


class Needless:
    """Cancels it: what waits at once, what runs when it has run some seconds."""

    def __init__(self, claims: Claims, voice: Telling, loop: Loop) -> None:
        self.claims, self.places, self.voice, self.loop = claims, claims.places, voice, loop
        self.seconds = claims.known.settings.needed  # None for never
        self.marked: Set[Claim] = set()
        self.due: Set[Preparation] = set()  # builds that will be looked at

    # -- tests -------------------------------------------------------------------

    def mark(self, test: Test, workers: Set[int]) -> None:
        """The engine names the workers of a search whose tests are needless now; it wants those of
        the others."""
        for worker, claim in self.claims.by_worker.items():
            if claim.test is test and worker in workers:
                self.marked.add(claim)
                self.loop.later(0, self.review, claim)
            elif claim.test is test:
                self.marked.discard(claim)

    def review(self, claim: Claim) -> None:
        """A needless test is cancelled when it has run some seconds, or its search has its answer;
        with a build not before it has taken as long as that: the checkout of a test that is
        cancelled is made anew, and has to be built again."""
        if claim not in self.claims.under_way() or claim not in self.marked:
            return
        known, is_over = self.claims.known, claim.test.status is not None
        waits = claim.waits is not None and not known.settings.build
        if claim.task is None or waits or known.settings.by_hand:
            self.cancel(claim)
        elif self.seconds is not None:
            least = max(0 if is_over else self.seconds, mean_of(known.builds) or 0.0)
            rest = claim.began + least - time.monotonic()
            if rest <= 0:
                self.cancel(claim)
            else:
                self.loop.later(rest, self.review, claim)
        elif is_over and not known.settings.build:
            self.cancel(claim)

    def review_alone(self, test: Test) -> None:
        """Where a search has its answer, nobody asks for its tests without a worker any more, but
        for those that are wanted all the same."""
        for claim in list(self.claims.alone):
            if claim.test is test and not claim.is_wanted and test.status is not None:
                self.marked.add(claim)
                self.review(claim)
        self.review_builds()

    def give_up(self, claim: Claim) -> None:
        """A test that the engine does not know of is needless now."""
        if claim not in self.marked:
            self.marked.add(claim)
            self.review(claim)

    def cancel(self, claim: Claim) -> None:
        """Cancels a test, or drops one that waits."""
        if claim.task is not None:
            claim.task.cancel("needless")
            return
        self.claims.give_back(claim)
        self.review_builds()

    def forget_workers(self, tests: Sequence[Test]) -> None:
        """Another engine of these tests says anew which picks are needless."""
        self.marked -= {claim for claim in self.claims.by_worker.values() if claim.test in tests}

    def cancel_all(self, test: Test) -> None:
        """Cancels all tests of a search."""
        for claim in self.claims.of(test):
            self.cancel(claim)

    # -- builds ------------------------------------------------------------------

    def review_builds(self) -> None:
        """Looks at what is prepared while no test waits for it."""
        for slot in self.places.slots:
            if slot.preparing is not None and not slot.queue:
                self.review_build(slot, slot.preparing)

    def review_build(self, slot: Slot, work: Preparation) -> None:
        """A build that no search may ask for any more is cancelled when it has run some seconds."""
        claims = self.claims
        if slot.preparing is not work or slot.queue or self.places.closed:
            return
        if self.seconds is None or work.task is None or work.task.cancelled:
            return
        if claims.dialogue.asking(work.commit):
            return  # it is looked at again behind the next outcome
        rest = work.began + self.seconds - time.monotonic()
        if rest > 0:
            if work not in self.due:
                self.due.add(work)
                self.loop.later(rest, self.review_build, slot, work)
            return
        if work.is_build:
            self.voice.tell(f"the build of {work.commit[:12]} is no longer needed")
        work.task.cancel("needless")
