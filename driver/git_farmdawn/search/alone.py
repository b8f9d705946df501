"""One look alone: tests that ran at the same time may have disturbed each other, by a port or a
file that all of them use. So the answer and its parents are tested once more with nothing beside
them. What two such tests deny is taken back, and the search goes on from there."""
from __future__ import annotations

import time
from typing import TYPE_CHECKING, Dict, List, Optional, Sequence, Set, Tuple

from ..known.evidence import with_answer
from ..line.machines import are_others
from ..telling.facts import NAME, counts_of
from ..telling.voice import counted

if TYPE_CHECKING:
    from ..known.record import Test
    from .confirm import Confirming
    from .needless import Needless

SECONDS = 300  # that all of these tests may take, where nobody asked for them
TIMES = 2  # so often is a commit tested alone whose first such test denies its outcome


class Alone:
    """Has answers tested alone. What is taken back there, and what is not, says `Confirming`."""

    def __init__(self, confirming: Confirming, needless: Needless) -> None:
        self.confirming, self.needless = confirming, needless
        self.known, self.settings = confirming.known, confirming.settings
        self.voice, self.claims, self.turn = confirming.voice, confirming.claims, confirming.turn
        self.until: Optional[float] = None
        # what was tested alone here, whatever came of it: by the name of the test and the commit
        self.looked_at: Set[Tuple[str, str]] = set()

    # -- what is to be tested ----------------------------------------------------

    def bears(self) -> bool:
        """Whether tests could disturb each other at all, or it is asked for."""
        settings = self.settings
        is_apart = settings.private or settings.noise is not None
        return settings.alone or not is_apart and settings.confirm != 0

    def lacking(self, test: Test) -> List[str]:
        """The answer and its parents, as far as they are to be tested alone."""
        if test.wrong is not None or not self.confirming.answer(test):
            return []
        commits = self.confirming.answer_and_parents(test)
        return [commit for commit in commits if self.is_lacking(test, commit)]

    def is_lacking(self, test: Test, commit: str) -> bool:
        """Whether a commit was never tested alone, or once, and then was not what it was beside
        others. One that is good by the commits behind it alone rests on their tests."""
        statuses, besides = test.seen.all_runs(commit)
        if self.confirming.is_trusted(commit):
            return False
        if not statuses:
            is_known = (test.name, commit) in self.looked_at
            return test.seen.ran_beside() and self.settings.replay is None and not is_known
        alone = test.seen.ran_alone(commit)
        if not alone:
            return (test.name, commit) not in self.looked_at
        return len(statuses) > len(alone) == 1 == self.denials(test, commit)

    def denials(self, test: Test, commit: str) -> int:
        """How many of its tests alone deny what the answer says of a commit."""
        good, bad = counts_of(test.seen.ran_alone(commit))
        return good if commit == self.confirming.answer(test) else bad

    def fits(self, test: Test) -> bool:
        """Whether there is time for one more test."""
        if self.settings.alone:
            return True
        if are_others(test.words) or any(row.host for row in test.seen.rows):
            return False
        spent = 0.0 if self.until is None else SECONDS - (self.until - time.monotonic())
        return spent + test.seen.seconds() < SECONDS

    # -- testing them ------------------------------------------------------------

    def all_stand(self, tests: Sequence[Test]) -> bool:
        """Tests the answers alone; False where an outcome was taken back, so that the search goes
        on."""
        if not self.bears():
            return True
        wanted: Dict[str, List[Test]] = {}  # a commit is built once for all of its tests
        for test in tests:
            for commit in self.lacking(test) if self.fits(test) else []:
                wanted.setdefault(commit, []).append(test)
        if wanted:
            count = counted(sum(map(len, wanted.values())), "test")
            self.voice.tell("the answer and its parents are tested alone: " + count)
            self.clear()
        changed: List[Test] = []
        is_last = bool(self.settings.build) and len(wanted) > self.settings.workers
        for commit, those in wanted.items():
            for test in those:
                if test not in changed and test.wrong is None and self.is_denied(test, commit):
                    changed.append(test)
            if is_last:  # what it has built does not stay until all are confirmed
                self.confirm([test for test in those if test not in changed], commit)
        self.note(tests)
        if changed:
            self.voice.tell("the search goes on without what was taken back")
        return not changed

    def confirm(self, tests: List[Test], commit: str) -> None:
        """Tests a commit as often as its answers are to be confirmed."""
        wanted = [(test, commit) for test in tests if self.confirming.is_wanted(test)]
        self.confirming.test_again(wanted)

    def note(self, tests: Sequence[Test]) -> None:
        """Notes whether the answers were tested alone."""
        for test in tests if self.bears() else ():
            test.look_apart(not self.lacking(test) if self.confirming.answer(test) else None)

    def clear(self) -> None:
        """All searches have their answers: what still runs is needless, and is ended."""
        self.until = self.until or time.monotonic() + SECONDS
        for test in self.known.tests:
            self.needless.cancel_all(test)
        for slot in self.claims.places.slots:
            if slot.preparing is not None and slot.preparing.task is not None:
                slot.preparing.task.cancel("needless")
        self.wait()

    def wait(self) -> None:
        """Waits until nothing runs."""
        while self.claims.places.jobs():
            self.turn()

    def is_denied(self, test: Test, commit: str) -> bool:
        """Tests a commit alone; whether that takes its outcome back."""
        for _ in range(TIMES):
            is_due = self.is_lacking(test, commit) and self.fits(test)
            if not is_due or not self.look(test, commit):
                break
        denials, count = self.denials(test, commit), len(test.seen.ran_alone(commit))
        is_bad = commit == self.confirming.answer(test)
        return denials > 1 and 2 * denials > count and self.take_back(test, commit, is_bad)

    def look(self, test: Test, commit: str) -> bool:
        """One test with nothing beside it; False where there was no time for it."""
        self.wait()
        claim = self.confirming.begin(test, commit)
        is_late = False
        while claim in self.claims.alone:
            self.turn()
            late = self.until is not None and time.monotonic() >= self.until
            if late and not is_late and not self.settings.alone:
                is_late = True
                self.needless.cancel(claim)
        if not is_late:
            self.looked_at.add((test.name, commit))
        return not is_late

    # -- what it says --------------------------------------------------------------

    def take_back(self, test: Test, commit: str, is_bad: bool) -> bool:
        """Takes the outcome back of a commit that was disturbed. A parent that was good by commits
        behind it alone says that these were."""
        was_tested = commit in test.seen.statuses
        if was_tested:
            new, old = self.settings.terms
            text = "%s was %s beside other tests, and is %s alone: tests disturb each other"
            words = (new, old) if is_bad else (old, new)
            test.disturbed.append(text % (commit[:NAME], *words))
            self.voice.say(
                "%s%s; --private or --workers 1 keeps them apart" % (test.front, test.disturbed[-1])
            )
        is_taken = self.confirming.take_back(test, commit, is_bad)
        if is_taken and not was_tested:
            self.look_behind(test, commit)
        return is_taken

    def look_behind(self, test: Test, commit: str) -> None:
        """The commits that were good, and have a parent that is not, are tested alone, too."""
        shape = self.known.commits.shape
        has = with_answer(shape.order, shape.parents, shape.place, commit)
        for name in sorted(test.seen.statuses, key=lambda name: shape.place.get(name, 0)):
            if test.seen.statuses[name] == 0 and shape.place.get(name) in has:
                self.is_denied(test, name)
