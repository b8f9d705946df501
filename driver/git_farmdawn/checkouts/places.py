"""The checkouts of a search: which of them has, or gets, the commit of a test, which tests run
there at once, and what waits for them."""
from __future__ import annotations

import collections
import time
from typing import TYPE_CHECKING, Deque, Dict, List, Optional, Sequence

from ..host.loop import Task, Work
from ..known.record import Test
from .checkouts import Checkout, Shop

if TYPE_CHECKING:
    from typing import Protocol

    from ..host.process import Child
    from ..line.settings import Settings
    from ..telling.numbers import Measured

    class Works(Protocol):
        """Who prepares checkouts, and runs tests in them."""

        def prepare(self, slot: Slot, work: Preparation, claim: Claim) -> Work:
            """A commit is checked out and built; gives 0, or the status that all its tests get."""

        def one(self, slot: Slot, claim: Claim) -> Work:
            """A test is run; gives its status."""

        def look(self, job: Job) -> None:
            """Takes what the command of a job has told of the machine that it runs on."""

    class Heeds(Protocol):
        """Who is told what becomes of the tests: the search."""

        def wants(self, claim: Claim) -> bool:
            """Whether a test that waits is still of use."""

        def begins(self, claim: Claim) -> None:
            """A test begins."""

        def done(self, claim: Claim, task: Task, status: Optional[int]) -> None:
            """A test has ended."""

        def prepared(self, slot: Slot, work: Preparation, status: Optional[int]) -> None:
            """A commit stands ready, or cannot be."""


class Job:
    """What runs in a checkout: a test, or what makes it ready for tests. `seat` is a number that no
    other job has at the same time. `is_build` says that a build has begun. `waits` says since when
    its command waits for a machine; that time is none of its own: `began`, and `ran` of its last
    command, are as much later. `host` is the machine, `told` what else the command told. `beside`
    says whether other commands ran since its commit was made ready."""

    def __init__(self, commit: str) -> None:
        self.commit, self.seat = commit, 0
        self.began, self.mark, self.log = 0.0, 0.0, ""
        self.ran, self.waits = 0.0, None  # type: float, Optional[float]
        self.host, self.told, self.lost = "", 0, 0
        self.task: Optional[Task] = None
        self.child: Optional[Child] = None
        self.at_limit = self.is_build = self.beside = False
        self.lacked_room = ""  # the folder whose disk was all but full while it ran

    def note_beside(self, is_beside: bool) -> None:
        """Notes whether other commands ran since its commit was made ready."""
        self.beside = is_beside

    def is_long(self, spent: float, first: float) -> bool:
        """Whether it takes so many seconds already: more than the first ones, and twice as many as
        when that was said before."""
        self.mark = self.mark or first
        if spent < self.mark:
            return False
        while self.mark <= spent:
            self.mark *= 2
        return True

    def begin_command(self) -> None:
        """One of its commands begins, and has told nothing yet."""
        self.ran, self.waits, self.told = time.monotonic(), None, 0

    def lacks_room(self, place: str) -> None:
        """Notes a folder whose disk is all but full."""
        self.lacked_room = self.lacked_room or place


class Claim(Job):
    """A test that is to be run: picked -> (queued for a checkout that has, or gets, its commit) ->
    running -> ended -> kept -> posted; or given back, where it is needless. One without a worker is
    of no pick: of an end, of a commit that stands built, or of an engine that was lost; its outcome
    is told by `learn`. One that tests a commit again is told to nobody."""

    def __init__(
        self,
        test: Test,
        commit: str,
        run: int = 1,
        is_end: bool = False,
        is_wanted: bool = False,
    ) -> None:
        Job.__init__(self, commit)
        self.test, self.is_end = test, is_end
        self.slot: Optional[Slot] = None
        self.missing = False
        # whatever its search asks for: of an end, or one that is tested again
        self.is_wanted = is_wanted or is_end
        self.run = run  # above 1 the commit has an outcome, and is tested again
        self.measured: Optional[Measured] = None
        self.times = 0  # so often it is run where there is no threshold yet

    def measure(self, measured: Optional[Measured]) -> None:
        """Takes what its test has measured."""
        self.measured = measured

    def run_times(self, times: int) -> None:
        """It is of an end that is measured before the search."""
        self.times = times


class Preparation(Job):
    """A commit that is checked out and built."""


class Slot(Checkout):
    """A checkout, what is prepared in it, the tests that run there, and those that wait for the
    same commit. `wants` is the commit that it has or gets, `ready` the one that stands built,
    `anew` the one for whose further tests it was made ready anew, `used_by` whose tests began there
    since, and `output` the file that has what was printed while it was built."""

    def __init__(self, shop: Shop, number: int) -> None:
        Checkout.__init__(self, shop, number)
        self.preparing: Optional[Preparation] = None
        self.running: List[Claim] = []
        self.queue: Deque[Claim] = collections.deque()
        self.wants = self.ready = self.anew = self.output = ""
        self.used_by: List[Test] = []
        self.is_beside = False  # whether commands ran elsewhere since its commit was made ready

    def is_idle(self) -> bool:
        """Whether nobody uses it."""
        return self.preparing is None and not self.running and not self.queue

    @property
    def is_used(self) -> bool:
        """Whether a test began there since it was made ready."""
        return bool(self.used_by)

    def note_ready(self, commit: str) -> None:
        """Its commit stands built, and no test began there."""
        self.ready, self.used_by, self.before = commit, [], None

    def forget_ready(self) -> bool:
        """It is to be made ready for what it wants; whether that stood there up to now."""
        stands, self.ready, self.output = self.ready == self.wants, "", ""
        return stands

    def spoil(self) -> None:
        """What stands in it is no commit's: nothing is ready there, and it is made anew."""
        self.ready, self.broken = "", True

    def begin(self, claim: Claim, is_beside: bool) -> None:
        """A test begins there, with what it stands on beside others or not."""
        self.is_beside = is_beside
        self.used_by.append(claim.test)
        self.running.append(claim)

    def end(self, claim: Claim) -> None:
        """A test has ended."""
        self.running.remove(claim)
        claim.note_beside(self.is_beside)

    def note_beside(self, is_beside: bool) -> None:
        """Notes whether commands ran elsewhere since its commit was made ready."""
        self.is_beside = is_beside

    def jobs(self) -> List[Job]:
        """What runs in it."""
        return [*self.running, *([self.preparing] if self.preparing is not None else [])]


class Places:
    """A test goes where its commit stands built, or is just built; else a checkout that is idle
    gets it. As many jobs run as there are workers. With --together the tests of a commit run in its
    checkout at once, else one after the other."""

    def __init__(
        self, settings: Settings, shop: Shop, trials: Works, place: Dict[str, int], search: Heeds
    ) -> None:
        self.settings, self.shop, self.trials, self.place = settings, shop, trials, place
        self.search = search
        self.slots: List[Slot] = []
        self.closed = False

    def take_over(self, before: Places) -> None:
        """Takes the checkouts of an earlier search, in which nothing runs."""
        self.slots = before.slots

    # -- what runs ---------------------------------------------------------------

    def jobs(self) -> List[Job]:
        """All that runs."""
        return [job for slot in self.slots for job in slot.jobs()]

    def running(self) -> List[Claim]:
        """The tests that run."""
        return [claim for slot in self.slots for claim in slot.running]

    def has_room(self) -> bool:
        """Whether one more job may run."""
        return len(self.jobs()) < self.settings.workers

    def is_free(self) -> bool:
        """Whether a further commit may be tested: there is room, and a checkout is idle, or one
        more may be made."""
        return self.has_room() and (
            len(self.slots) < self.settings.workers or any(slot.is_idle() for slot in self.slots)
        )

    def seat(self, slot: Slot) -> int:
        """A number for a job: that of its checkout, where one runs there at a time, else the lowest
        that is free."""
        if not self.settings.together:
            return slot.number
        taken = {job.seat for job in self.jobs()}
        return next(number for number in range(len(taken) + 1) if number not in taken)

    # -- where a test goes ---------------------------------------------------------

    def slot_of(self, commit: str) -> Optional[Slot]:
        """The checkout in use that has this commit, or gets it."""
        return next(
            (slot for slot in self.slots if slot.wants == commit and not slot.is_idle()), None
        )

    def idle_slot(self, commit: str, spared: Sequence[Slot] = ()) -> Slot:
        """A checkout that nobody uses: one that has the commit, a new one, else the nearest in the
        history: it has least to build. Those that are to be spared come last."""
        at, place = self.place[commit], self.place
        idle = [slot for slot in self.slots if slot.is_idle() and slot not in spared]
        if not idle and len(self.slots) >= self.settings.workers:
            idle = [slot for slot in self.slots if slot.is_idle()]
        best = min(
            idle,
            key=lambda slot: (slot.ready != commit, abs(place.get(slot.commit, -len(place)) - at)),
            default=None,
        )
        if best is None or (
            best.commit != commit and not best.commit and len(self.slots) < self.settings.workers
        ):
            best = Slot(self.shop, len(self.slots))
            self.slots.append(best)
        return best

    def slot_anew(self, commit: str) -> Optional[Slot]:
        """The checkout that was made ready anew for further tests of a commit, where builds are
        shared: so they cost one more build."""
        if not self.settings.build:
            return None
        return next((slot for slot in self.slots if slot.anew == slot.wants == commit), None)

    def put_anew(self, claim: Claim) -> None:
        """Puts a further test of a commit behind those of its kind, or into an idle checkout that
        is made ready anew: what an earlier test of the commit left is no part of it."""
        slot = self.slot_anew(claim.commit)
        if slot is None:
            others = [one for one in self.slots if one.anew and one.anew == one.wants]
            slot = self.slot_in_turns(others) or self.idle_slot(
                claim.commit, others if self.settings.build else ()
            )
            slot.anew = claim.commit
            if self.settings.build:
                slot.ready = ""
        self.put_into(slot, claim)

    def slot_in_turns(self, others: Sequence[Slot]) -> Optional[Slot]:
        """One more checkout, where numbers are measured in turns, and those that are idle stand
        built for the other commits: so each of these is built once more, however often it has its
        turn."""
        settings = self.settings
        is_idle = any(slot.is_idle() and slot not in others for slot in self.slots)
        if settings.measure is None or not settings.build or not others or is_idle:
            return None
        self.slots.append(Slot(self.shop, len(self.slots)))
        return self.slots[-1]

    def put(self, claim: Claim) -> None:
        """Puts a test behind those of the same commit, or into an idle checkout."""
        self.put_into(self.slot_of(claim.commit) or self.idle_slot(claim.commit), claim)

    def put_into(self, slot: Slot, claim: Claim) -> None:
        """Puts a test into the queue of a checkout."""
        slot.wants = claim.commit
        slot.anew = slot.anew if slot.anew == claim.commit else ""
        slot.queue.append(claim)
        self.go_on(slot)

    def forget(self, claim: Claim) -> None:
        """Takes a test out of its queue."""
        for slot in self.slots:
            if claim in slot.queue:
                slot.queue.remove(claim)

    # -- what begins, and what ends --------------------------------------------------

    def go_on(self, slot: Slot) -> None:
        """Begins what may begin in a checkout: its commit is made ready, and then its tests."""
        while slot.queue and slot.preparing is None and self.has_room() and not self.closed:
            claim = self.next_claim(slot)
            if claim is None:
                if not slot.running:
                    self.prepare(slot)
                return
            slot.queue.remove(claim)
            if self.search.wants(claim):
                self.begin(slot, claim)

    def next_claim(self, slot: Slot) -> Optional[Claim]:
        """The next test that may begin in a checkout as it stands: none behind another one, and
        with --together none behind one of its own search."""
        if slot.ready != slot.wants:
            return None
        if not self.settings.together:
            return None if slot.is_used else slot.queue[0]
        return next((claim for claim in slot.queue if claim.test not in slot.used_by), None)

    def go_on_all(self) -> None:
        """The same for all checkouts."""
        for slot in self.slots:
            self.go_on(slot)

    def look_beside(self, slot: Slot) -> None:
        """A command begins in a checkout: those in others have it beside them, and it has theirs.
        One that began elsewhere behind a build bears on what that has built, too."""
        others = [other for other in self.slots if other is not slot]
        if any(other.running or self.is_building(other) for other in others):
            slot.note_beside(True)
        for other in others:
            other.note_beside(True)

    def is_building(self, slot: Slot) -> bool:
        """Whether a build runs in a checkout, or is to begin at once."""
        return slot.preparing is not None and bool(self.settings.build)

    def prepare(self, slot: Slot) -> None:
        """Begins to check a commit out, and to build it."""
        if self.settings.build and slot.ready != slot.wants:
            slot.note_beside(False)
            self.look_beside(slot)
        preparation = Preparation(slot.wants)
        preparation.seat, preparation.began = self.seat(slot), time.monotonic()
        slot.preparing = preparation

        def done(_: Task, status: Optional[int]) -> None:
            """It has ended."""
            slot.preparing = None
            if status == 0:
                slot.note_ready(preparation.commit)
            self.search.prepared(slot, preparation, status)

        preparation.task = self.shop.loop.spawn(
            self.trials.prepare(slot, preparation, slot.queue[0]), done
        )

    def begin(self, slot: Slot, claim: Claim) -> None:
        """Begins a test."""
        claim.slot, claim.began, claim.seat = slot, time.monotonic(), self.seat(slot)
        slot.begin(claim, bool(slot.running or self.settings.build and slot.is_beside))
        self.look_beside(slot)
        self.search.begins(claim)

        def done(task: Task, status: Optional[int]) -> None:
            """It has ended."""
            slot.end(claim)
            self.search.done(claim, task, status)

        claim.task = self.shop.loop.spawn(self.trials.one(slot, claim), done)

    def close(self) -> None:
        """Begins the end of all that runs, and forgets what waits."""
        self.closed = True
        for slot in self.slots:
            slot.queue.clear()
            for job in slot.jobs():
                if job.task is not None:
                    job.task.cancel("end")
