"""The searches: the order of what is done. The engine is asked what to test, it is tested in the
checkouts, and the engine is told what came of it."""
from __future__ import annotations

import time
from typing import TYPE_CHECKING, Callable, Optional, Sequence

from ..checkouts.places import Places
from ..checkouts.trial import Trials
from ..engine.dialogue import Dialogue
from ..host.ended import LONGEST
from ..host.process import GRACE, end_holders
from ..telling.voice import counted
from .alone import Alone
from .claims import Claims
from .confirm import Confirming
from .ends import Ends
from .keeping import Keeping
from .needless import Needless
from .watch import Deadline

if TYPE_CHECKING:
    from ..checkouts.checkouts import Shop
    from ..checkouts.places import Claim, Preparation, Slot
    from ..host.loop import Task
    from ..known.outcomes import Outcomes
    from ..known.record import Searched, Test
    from ..repository.history import History
    from ..telling.voice import Telling

LONGEST_STOP = 2 * GRACE + 6  # seconds: a test's group has the grace, and then what left it
TOLD_STOP = 1.0  # seconds behind which it is told that tests are waited for


class Search:
    """All searches over one history. It is told what becomes of the tests, and what the engine
    says."""

    def __init__(
        self,
        known: Searched,
        history: History,
        shop: Shop,
        voice: Telling,
        built: Optional[Outcomes] = None,
    ) -> None:
        self.known, self.settings, self.history = known, known.settings, history
        self.shop, self.loop, self.voice = shop, shop.loop, voice
        trials = Trials(known.settings, shop.run, voice, built)
        self.places = Places(known.settings, shop, trials, known.commits.place, self)
        self.dialogue = Dialogue(known, history, shop.run, voice, self)
        self.claims = Claims(known, self.dialogue, self.places)
        self.needless = Needless(self.claims, voice, self.loop)
        self.ends = Ends(known, self.claims, self.needless, voice, self.loop)
        self.keeping = Keeping(known, self.claims, self.ends, trials, voice)

    # -- the order of things -----------------------------------------------------

    def begin(self) -> None:
        """Begins the searches, and looks for outcomes of earlier runs."""
        self.dialogue.begin()
        for test in self.known.tests:
            test.told.has_begun()
            test.seen.load(self.known.commits.place)
            test.seen.load_missing()

    def search_all(self, turn: Callable[[], None]) -> None:
        """All searches, up to their answers; `turn` is one turn of the loop. Raises Cancelled for a
        signal, Deadline, or what a test or an end makes of it."""
        self.loop.note_signals()
        if self.settings.noise is not None:
            from .noisy import Noisy

            Noisy(self.known, self.claims, self.voice, turn).search_all()
            return
        confirming = self.confirming(turn)
        alone = Alone(confirming, self.needless)
        if not self.settings.trust_ends:
            self.look_at_ends(confirming, turn)
        self.claims.begin_picks()
        self.dialogue.learn_known()
        self.ends.fill()
        while True:
            while any(test.status is None for test in self.known.tests):
                turn()
                confirming.settle_ends()
            self.wait_for_ends(turn)
            confirming.settle_ends()
            if self.is_confirmed(confirming, alone):
                confirming.settle_ends()  # those whose tests ended meanwhile
                return

    def confirming(self, turn: Callable[[], None]) -> Confirming:
        """Who tests answers and ends again."""
        return Confirming(self.known, self.claims, self.ends, self.voice, turn)

    def look_at_ends(self, confirming: Confirming, turn: Callable[[], None]) -> None:
        """What earlier runs found of the ends; with --check-ends each is tested first, and must be
        what it was called."""
        ends, is_checked = self.ends, self.settings.check_ends
        ends.check_kept()
        waiting = ends.untested() if is_checked else []
        while waiting or is_checked and self.claims.under_way():
            while waiting and self.claims.is_free_for(waiting[0][1]):
                ends.test(*waiting.pop(0))
            turn()
        confirming.settle_ends()
        if is_checked:
            ends.check_seen()

    def wait_for_ends(self, turn: Callable[[], None]) -> None:
        """An answer stands on ends, which are tested before it is told."""
        if self.settings.trust_ends:
            return
        wanted = self.ends.wanted()
        while wanted:
            for test, commit in wanted:
                if self.claims.is_free_for(commit):
                    self.ends.test(test, commit)
            turn()
            wanted = self.ends.wanted()

    def is_confirmed(self, confirming: Confirming, alone: Alone) -> bool:
        """Whether the answers stand. Where nobody asked for it, the time for it may be over."""
        tests, settings = self.known.tests, self.settings
        try:
            if alone.all_stand(tests) and confirming.all_confirmed(tests):
                return True
        except Deadline:
            is_asked = settings.confirm or settings.alone
            if is_asked or any(test.status is None for test in tests):
                raise
            confirming.stop(tests)
            alone.note(tests)
            return True
        self.dialogue.begin_again()
        return False

    def stop_all(self) -> None:
        """Cancels all that runs; whatever then still has a lock of the run open, is ended, too."""
        loop, run = self.loop, self.shop.run
        loop.note_signals()
        self.voice.clear_live()
        self.places.close()
        longest = LONGEST_STOP + (LONGEST if self.settings.ended else 0)
        now = time.monotonic()
        until, told = now + longest, now + TOLD_STOP
        while self.places.jobs() and time.monotonic() < until:
            loop.turn(0.05)
            if self.places.jobs() and time.monotonic() >= told:
                told = until
                jobs = counted(len(self.places.jobs()), "test")
                self.voice.tell(f"{jobs} may take up to {GRACE:.0f} s to end")
        if not run.is_left_alone():
            for pause in end_holders(run.state + "/lock"):
                time.sleep(pause)

    def close(self) -> None:
        """Ends the engine, and the git of the checkouts."""
        self.dialogue.close()
        self.shop.close()

    # -- what the engine says ----------------------------------------------------

    def hear(self, test: Test, kind: bytes, rest: bytes) -> None:
        """Takes an event. It asks for nothing: what is to be done comes in a later turn."""
        if kind == b"needless":
            self.needless.mark(test, {int(word) for word in rest.split()})
        elif kind == b"end":
            self.loop.later(0, self.needless.review_alone, test)
            self.ends.tell_answer_later(test)

    def forget_workers(self, tests: Sequence[Test]) -> None:
        """Another engine of these tests knows of no picks."""
        self.needless.forget_workers(tests)
        self.claims.forget_workers(tests)
        self.loop.later(0, self.ends.fill)

    # -- what becomes of tests ---------------------------------------------------

    def wants(self, claim: Claim) -> bool:
        """Whether a test that waited is still of use."""
        return self.claims.wants(claim)

    def begins(self, claim: Claim) -> None:
        """A test begins."""
        if not self.voice.live and not self.settings.by_hand:
            self.voice.tell(f"testing {claim.commit[:12]} {claim.test.mark}".rstrip())

    def prepared(self, slot: Slot, work: Preparation, status: Optional[int]) -> None:
        """A commit stands ready, or cannot be: then all tests that wait for it have that status."""
        if work.is_build:
            self.keeping.take_build(slot, work, status)
        if self.places.closed:
            return
        if status:
            self.keeping.keep_unbuilt(slot, work, status)
        elif status is not None:
            self.places.go_on(slot)
            self.claims.fill_here(slot)
        self.go_on()

    def done(self, claim: Claim, task: Task, status: Optional[int]) -> None:
        """A test is done: behind its checkout's other tests the next one begins there."""
        slot = claim.slot
        assert slot is not None
        self.keeping.take(claim, slot, status, task.cancelled == "needless")
        if not self.places.closed:
            self.places.go_on(slot)
            if slot.is_idle():
                self.claims.fill_here(slot)
            self.go_on()

    def go_on(self) -> None:
        """Behind whatever is done: what waits begins, and what is free gets work."""
        self.places.go_on_all()
        self.ends.fill()
        self.needless.review_builds()
