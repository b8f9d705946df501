"""Where the search is exact, what is left to doubt is the test: the answer and its parents are
tested again. What most of the runs of a commit deny is taken back, and the search goes on from
there."""
from __future__ import annotations

import os
from typing import TYPE_CHECKING, Callable, Dict, List, NamedTuple, Optional, Sequence, Set, Tuple

from ..host.files import FIRST_RUN, kind_of_log
from ..known.evidence import WrongEnd, with_answer
from ..known.notes import taken_back
from ..known.record import Tally, is_sure
from ..telling.facts import SKIP, agrees, counts_of, decided, is_denied
from ..telling.voice import counted

if TYPE_CHECKING:
    from ..checkouts.places import Claim
    from ..known.record import Searched, Test
    from ..telling.voice import Telling
    from .claims import Claims
    from .ends import Ends

TIMES = 3  # where the search says by itself that it is to be done


class Further(NamedTuple):
    """A further test of a commit; its `turn` is how many began before it."""

    test: Test
    commit: str
    turn: int


class Confirming:
    """Tests answers again. `turn` is one turn of the loop."""

    def __init__(
        self,
        known: Searched,
        claims: Claims,
        ends: Ends,
        voice: Telling,
        turn: Callable[[], None],
    ) -> None:
        self.known, self.settings, self.commits = known, known.settings, known.commits
        self.claims, self.ends, self.voice, self.turn = claims, ends, voice, turn
        self.skipped = {*known.commits.among(known.settings.skips)}  # by the user
        # tests of a commit
        self.wanted = 1 + (TIMES if self.settings.confirm is None else self.settings.confirm)
        # tests that began here, by the name of the test and the commit
        self.tried: Dict[Tuple[str, str], int] = {}
        self.before: Dict[Tuple[str, str], int] = {}  # those that there were before
        self.doubted: Set[str] = set()  # tests whose answers are to be confirmed
        # whether further tests are made one at a time: they contradict each other
        self.is_apart = known.settings.alone
        self.is_in_turns = known.settings.measure is not None

    # -- what is to be tested ----------------------------------------------------

    def is_wanted(self, test: Test) -> bool:
        """Whether an answer is to be confirmed: where that was asked for, or an outcome contradicts
        it, or it stands next to an end. The marks of a log that is gone on from are not tested
        again by themselves. Numbers always are: all runs of a commit may be those of a moment in
        which the machine was slower."""
        settings, answer = self.settings, self.answer(test)
        if not answer or settings.confirm == 0:
            return False
        if settings.confirm or test.name in self.doubted or test.contradictions(self.commits):
            return True
        if settings.measure is not None:
            return True
        beside = settings.bad == answer or any(
            parent in settings.goods for parent in self.commits.parents_of(answer)
        )
        return beside and not settings.trust_ends and settings.replay is None

    def answer(self, test: Test) -> str:
        """The first bad commit, where there is one."""
        return test.found(self.commits) or ""

    def answer_and_parents(self, test: Test) -> List[str]:
        """The answer and its parents; one that cannot be tested says nothing, and one that is not
        to be tested is not."""
        answer = self.answer(test)
        return [answer] + [
            parent
            for parent in self.commits.parents_of(answer)
            if test.seen.status_of(parent) != SKIP and parent not in self.skipped
        ]

    def settle_ends(self) -> None:
        """Ends that were not as they were called are tested again: most of their tests decide
        whether the search is stopped."""
        while self.ends.odd:
            test, wrong = self.ends.next_odd()
            self.test_again([(test, wrong.end.commit)])
            status = decided(test.seen.runs_of(wrong.end.commit) or [wrong.test_status])
            test.seen.note_outcome(wrong.end.commit, status)
            if agrees(wrong.end, status) is False and test.wrong is None:
                self.ends.refuse(test, wrong)

    def is_trusted(self, commit: str) -> bool:
        """Whether it is an end that is as it is called."""
        return self.settings.trust_ends and (
            commit == self.settings.bad or commit in self.settings.goods
        )

    def lacking(self, test: Test, commit: str, wanted: int) -> int:
        """How many tests of a commit are lacking of those that are wanted; where the runs are as
        often good as bad, one more decides."""
        if self.is_trusted(commit):
            return 0
        good, bad = counts_of(test.seen.runs_of(commit))
        is_open = good == bad or is_denied(*test.seen.all_runs(commit))
        lacking = max(wanted - good - bad, 1 if is_open else 0)
        room = 2 * wanted - self.tried.get((test.name, commit), 0)  # some may say nothing
        return min(lacking, max(0, room))

    # -- one round -----------------------------------------------------------------

    def test_again(self, commits: List[Tuple[Test, str]], wanted: Optional[int] = None) -> None:
        """All tests that are lacking of these commits, beside each other as far as there are
        workers. Of each there are to be as many as are `wanted`."""
        wanted = self.wanted if wanted is None else wanted
        while True:
            waiting: List[Further] = []
            busy = 0
            for test, commit in commits:
                if test.wrong is not None:
                    continue  # it was left out meanwhile
                under_way = sum(
                    claim.run > 1 and claim.test is test and claim.commit == commit
                    for claim in self.claims.alone
                )
                busy += under_way
                more = self.lacking(test, commit, wanted) - under_way
                begun = self.tried.get((test.name, commit), 0)
                waiting += [Further(test, commit, begun + at) for at in range(more)]
            self.look_for_contradictions(commits)
            for test, commit, _ in sorted(waiting, key=self.order):
                if self.may_begin(commit):
                    self.begin(test, commit)
                    busy += 1
                elif self.is_in_turns:
                    break  # none begins before those whose turn comes first
            if not waiting and not busy:
                return
            self.turn()

    def look_for_contradictions(self, commits: List[Tuple[Test, str]]) -> None:
        """Where the tests of a commit contradict each other, they may disturb each other, too: from
        then on they are made one at a time."""
        self.is_apart = self.is_apart or any(
            all(counts_of(test.seen.all_runs(commit)[0])) for test, commit in commits
        )

    def may_begin(self, commit: str) -> bool:
        """Whether one more test of a commit may begin now. One that has its turn waits for no place
        in a checkout: it would come behind those of its own commit."""
        places = self.claims.places
        if self.is_apart and places.jobs() or self.is_in_turns and not places.has_room():
            return False
        return self.claims.is_free_again(commit)

    def order(self, one: Further) -> Tuple[bool, int]:
        """Which of several tests begins first: those whose checkout was made anew already, as it
        may be another commit's next, and then those that have the fewest. Numbers are compared
        that were measured in the same minutes: there each commit has its turn."""
        is_ready = self.is_in_turns or self.claims.is_ready_again(one.commit)
        return not is_ready, one.turn

    def begin(self, test: Test, commit: str) -> Claim:
        """One more test of a commit, in a checkout that was made anew for it, or is idle."""
        key = test.name, commit
        self.tried[key] = self.tried.get(key, 0) + 1
        before = self.before.setdefault(key, max(1, len(test.seen.all_runs(commit)[0])))
        return self.claims.put_again(test, commit, before + self.tried[key])

    # -- what it says ----------------------------------------------------------------

    def all_confirmed(self, searched: Sequence[Test]) -> bool:
        """Tests the answers again; False where an outcome was taken back, so that the search goes
        on."""
        tests = [test for test in searched if self.is_wanted(test)]
        for test in searched:
            test.confirm([], False)
        if not tests:
            return True
        wanted = [(test, commit) for test in tests for commit in self.answer_and_parents(test)]
        self.tell_begin(wanted)
        self.test_again(wanted)
        changed = [test for test in tests if test.wrong is None and self.settle(test)]
        if changed:
            self.voice.tell("the search goes on without what was taken back")
        return not changed

    def settle(self, test: Test) -> bool:
        """Takes back what the tests of an answer deny; whether its search has to go on."""
        self.doubted.add(test.name)
        answer = self.answer(test)
        taken = [
            commit
            for commit in self.answer_and_parents(test)
            if self.take_back(test, commit, commit == answer)
        ]
        implied = [commit for commit in taken if not test.seen.said_before(commit)]
        changed = bool(self.look_behind(test, implied)) or len(taken) > len(implied)
        if test.wrong is not None:
            return False  # it was left out, for an end
        self.weigh(test)
        return changed

    def weigh(self, test: Test) -> None:
        """Notes how often the answer and its parents were what it says, so far."""
        answer = self.answer(test)
        tallies = [
            self.tally(test, commit, commit == answer) for commit in self.answer_and_parents(test)
        ]
        is_measured = self.settings.measure is not None
        test.confirm(tallies, is_sure(tallies, self.wanted, is_measured))

    def stop(self, searched: Sequence[Test]) -> None:
        """There is no time for more: what is lacking stays so."""
        for test in searched:
            if self.is_wanted(test):
                self.weigh(test)

    def tell_begin(self, wanted: List[Tuple[Test, str]]) -> None:
        """How much there is to do."""
        count = sum(self.lacking(test, commit, self.wanted) for test, commit in wanted)
        if count:
            self.voice.tell(
                "the answer and its parents are tested again: " + counted(count, "test")
            )

    def tally(self, test: Test, commit: str, is_bad: bool) -> Tally:
        """How often a commit was what the answer says of it."""
        good, bad = counts_of(test.seen.runs_of(commit))
        return Tally(commit, is_bad, bad if is_bad else good, good + bad)

    def take_back(self, test: Test, commit: str, is_bad: bool) -> bool:
        """Whether most runs of a commit deny what the answer says of it; then its outcome is that
        of the runs. For an end that leaves nothing to search."""
        good, bad = counts_of(test.seen.runs_of(commit))
        if test.wrong is not None or self.is_trusted(commit) or not good + bad:
            return False
        status = decided(test.seen.runs_of(commit))
        if good == bad or (status != 0) == is_bad:
            if test.seen.statuses.get(commit, SKIP) >= SKIP:
                test.seen.note_outcome(commit, status)  # what was not tested before
            return False
        for end in self.known.ends:
            if end.commit == commit:
                self.ends.refuse(test, WrongEnd(end, status))
                return False
        if commit in test.seen.statuses and (test.seen.statuses[commit] != 0) != is_bad:
            return False  # the search knows it
        self.voice.say(taken_back(test, commit, self.settings.terms))
        test.seen.turn_outcome(commit, status)
        self.turn_output(test, commit, status)
        return True

    @staticmethod
    def turn_output(test: Test, commit: str, status: int) -> None:
        """The output of a commit is that of a test which ended as its outcome says; the first one
        is kept beside it."""
        front = os.path.join(test.outcomes.log_dir, commit)
        run = next(
            (
                row.run
                for row in test.seen.rows
                if row.commit == commit and row.status == status and row.run > 1
            ),
            0,
        )
        try:
            if run:
                os.replace(front + kind_of_log(1), front + FIRST_RUN)
                os.link(front + kind_of_log(run), front + kind_of_log(1))
        except OSError:
            pass  # it was not there

    def look_behind(self, test: Test, implied: List[str]) -> List[str]:
        """A parent that was good by a commit behind it alone, and is bad: so those that were good
        behind it are tested again. Gives those of them that are taken back."""
        shape = self.commits.shape
        behind: Set[str] = set()
        for commit in implied:
            has = with_answer(shape.order, shape.parents, shape.place, commit)
            behind |= {
                name
                for name, status in test.seen.statuses.items()
                if status == 0 and shape.place.get(name) in has
            }
        names = sorted(behind, key=lambda name: shape.place[name])
        self.test_again([(test, name) for name in names])
        return [name for name in names if self.take_back(test, name, False)]
