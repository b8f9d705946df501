"""Who tests what: the claims of a search. The engine picks tests, and some are of no pick."""
from __future__ import annotations

from typing import TYPE_CHECKING, Dict, List, Sequence

from ..checkouts.places import Claim
from ..known.evidence import unseen
from ..known.record import UnderWay, pays
from ..telling.status import Status

if TYPE_CHECKING:
    from ..checkouts.places import Places, Slot
    from ..engine.dialogue import Dialogue
    from ..known.record import Searched, Test

MOST_CLAIMS = 1024  # workers that the engine numbers
STOPPED = 255  # stops a search that is left out


class Claims:
    """The claims by the numbers of their workers, and `alone` those that are of no pick. The engine
    is asked for tests from `begin_picks` on."""

    def __init__(self, known: Searched, dialogue: Dialogue, places: Places) -> None:
        self.known, self.dialogue, self.places = known, dialogue, places
        self.by_worker: Dict[int, Claim] = {}
        self.alone: List[Claim] = []
        self.picks = False

    # -- those that there are ----------------------------------------------------

    def under_way(self) -> List[Claim]:
        """All claims: those that run and those that wait."""
        return [*self.by_worker.values(), *self.alone]

    def of(self, test: Test) -> List[Claim]:
        """Those of a test."""
        return [claim for claim in self.under_way() if claim.test is test]

    def is_under_way(self, test: Test, commit: str) -> bool:
        """Whether somebody tests a commit for a search."""
        return any(claim.commit == commit for claim in self.of(test))

    def running_of(self, test: Test) -> List[UnderWay]:
        """The tests of a search that run, for its report."""
        return [
            UnderWay(
                claim.commit, claim.run, claim.slot.number if claim.slot else None, claim.began
            )
            for claim in self.places.running()
            if claim.test is test
        ]

    def is_free(self) -> bool:
        """Whether a further commit may be tested now."""
        return self.places.is_free()

    def is_free_for(self, commit: str) -> bool:
        """Whether a commit may be tested now: a checkout has or gets it, or is idle."""
        return self.places.slot_of(commit) is not None or self.places.is_free()

    def is_ready_again(self, commit: str) -> bool:
        """Whether a checkout was made anew for further tests of a commit."""
        return self.places.slot_anew(commit) is not None

    def is_free_again(self, commit: str) -> bool:
        """Whether a commit may be tested again now: such a checkout is there, or one is idle."""
        return self.is_ready_again(commit) or self.places.is_free()

    def free_worker(self) -> int:
        """A number that no claim has."""
        worker = 1
        while worker in self.by_worker:
            worker += 1
        return worker

    def worker_of(self, claim: Claim) -> int:
        """The number of its worker; 0 where it has none."""
        return next((worker for worker, one in self.by_worker.items() if one is claim), 0)

    # -- picks -------------------------------------------------------------------

    def begin_picks(self) -> None:
        """From now on the engine is asked for tests; before that the ends alone are tested."""
        self.picks = True

    def may_pick(self) -> bool:
        """Whether the engine is asked for tests: there is none where a search is by odds."""
        return self.picks and not self.places.closed and self.dialogue.has_begun()

    def fill(self) -> bool:
        """Picks as long as a checkout is idle. False where the engine has no more work for it."""
        while self.may_pick() and self.places.is_free() and len(self.by_worker) < MOST_CLAIMS:
            worker = self.free_worker()
            picked = self.dialogue.pick(worker)
            if picked is None:
                return False
            self.take(worker, *picked)
        return True

    def take(self, worker: int, test: Test, commit: str) -> None:
        """Takes a pick. One that is under test already without a worker gets this one; a commit
        that a checkout has or gets waits for that one, so that it is built once. A search that is
        left out is stopped where it asks for a test."""
        if test.wrong is not None:
            self.dialogue.of(test).post(worker, STOPPED)
            return
        for claim in self.alone:
            if claim.test is test and claim.commit == commit and claim.run == 1:
                self.alone.remove(claim)
                self.by_worker[worker] = claim
                return
        claim = self.by_worker[worker] = Claim(test, commit)
        self.places.put(claim)

    def forget_workers(self, tests: Sequence[Test]) -> None:
        """Another engine of these tests knows of no picks: what waits for one is forgotten. What
        runs, or is wanted whatever an engine asks for, goes on without a worker."""
        for claim in self.under_way():
            if claim.test in tests and claim.task is None and not claim.is_wanted:
                self.drop(claim)
        for worker, claim in list(self.by_worker.items()):
            if claim.test in tests:
                self.alone.append(self.by_worker.pop(worker))

    # -- tests that are of no pick -----------------------------------------------

    def put_end(self, test: Test, commit: str) -> None:
        """Begins a test of an end."""
        claim = Claim(test, commit, is_end=True)
        self.alone.append(claim)
        self.places.put(claim)

    def put_measured(self, test: Test, commit: str, run: int, times: int) -> None:
        """Begins a test of an end whose command is run so often, before the search."""
        claim = Claim(test, commit, run, is_end=True)
        claim.run_times(times)
        self.alone.append(claim)
        self.places.put(claim)

    def put_again(self, test: Test, commit: str, run: int) -> Claim:
        """Begins one more test of a commit, in a checkout that is made anew."""
        claim = Claim(test, commit, run, is_wanted=True)
        self.alone.append(claim)
        self.places.put_anew(claim)
        return claim

    def fill_here(self, slot: Slot) -> None:
        """What stands built is tested for each search that may ask for it, where the test costs
        little beside the build, before the checkout goes on: so a commit is built once."""
        commit, settings = slot.ready, self.known.settings
        if not settings.build or not commit or self.places.closed:
            return
        is_end = any(end.commit == commit for end in self.known.ends)
        for test in self.standing_on(commit) if is_end else self.dialogue.asking(commit):
            if (
                commit not in test.seen.statuses
                and not self.is_under_way(test, commit)
                and (
                    is_end
                    and test.status is not None
                    or pays(test, self.known.tests, self.known.builds, settings.workers)
                )
            ):
                claim = Claim(test, commit, is_end=is_end)
                self.alone.append(claim)
                self.places.put_into(slot, claim)

    def standing_on(self, commit: str) -> List[Test]:
        """The tests whose answers stand on an end, or may do so: nothing of its kind was seen."""
        if self.known.settings.trust_ends:
            return []
        return [
            test
            for test in self.known.tests
            if test.wrong is None
            and test.status in (None, Status.FOUND, Status.ONLY_SKIPPED)
            and any(end.commit == commit for end in unseen(test.seen.statuses, self.known.ends))
        ]

    # -- their ends --------------------------------------------------------------

    def wants(self, claim: Claim) -> bool:
        """Whether a test that waited is still of use; else it is forgotten."""
        if (
            self.worker_of(claim)
            or claim.is_wanted
            or claim.test.status is None
            and claim.test in self.dialogue.asking(claim.commit)
        ):
            return True
        self.drop(claim)
        return False

    def drop(self, claim: Claim) -> int:
        """Forgets a claim, which waits in a queue or is done; gives the number of its worker."""
        self.places.forget(claim)
        worker = self.worker_of(claim)
        if worker:
            del self.by_worker[worker]
        elif claim in self.alone:
            self.alone.remove(claim)
        return worker

    def give_back(self, claim: Claim) -> None:
        """Forgets a claim that was not done; the engine may pick its commit again."""
        worker = self.drop(claim)
        if worker:
            self.dialogue.of(claim.test).give(worker)
