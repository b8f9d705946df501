"""A search that knows that tests lie: --noise. Outcomes are evidence, commits have odds, and it
ends when one commit has enough of them.

Nothing here is proved, and the engine is not asked: what is printed says so, and is no log of git
bisect."""
from __future__ import annotations

import os
from typing import TYPE_CHECKING, Callable, List

from ..known.evidence import WrongEnd
from ..known.odds import MOST_COMMITS, Noise, Odds, tell_lies
from ..telling.facts import FIRST_STOP, NAME, SKIP, End, Row, agrees, decided
from ..telling.numbers import of_hundred
from ..telling.status import Status
from ..telling.voice import Stop, counted

if TYPE_CHECKING:
    from ..known.record import Searched, Test
    from ..repository.history import History
    from ..telling.voice import Telling
    from .claims import Claims

MOST_TESTS = 2000
SHARE, MOST_TOLD = 0.999, 10  # of the odds, and commits that are told


def begin(known: Searched, history: History) -> None:
    """The places of the history, and the outcomes of earlier runs: each of them is evidence."""
    if history.beside:
        raise Stop(
            Status.REFUSED,
            "--noise wants good commits that come before the bad one; %s does not"
            % history.beside[0],
        )
    new, old = known.settings.terms
    if history.bad in history.goods:
        raise Stop(Status.BAD_AND_GOOD, "one commit is both %s and %s" % (new, old))
    for _ in history.stream():  # nobody asks for it, but the commits have their places by it
        pass
    if history.total > MOST_COMMITS:
        raise Stop(
            Status.TOO_MUCH,
            "%d commits are between the ends; the limit of --noise is %d"
            % (history.total, MOST_COMMITS),
        )
    for test in known.tests:
        test.seen.load(history.place)


class Noisy:
    """The search of one test. `turn` is one turn of the loop."""

    def __init__(
        self, known: Searched, claims: Claims, voice: Telling, turn: Callable[[], None]
    ) -> None:
        self.known, self.claims, self.voice, self.turn = known, claims, voice, turn
        self.settings, self.commits, self.test = known.settings, known.commits, known.tests[0]
        self.seen = self.test.seen
        commits, goods = self.commits, self.settings.goods
        ends = {*goods, *commits.bases}
        assert self.settings.noise is not None
        self.noise = Noise(*self.settings.noise)
        self.odds = Odds(
            commits.parents,
            [at for at, name in enumerate(commits.order) if name not in ends],
            self.noise,
            self.settings.sure,
            [] if self.settings.trust_ends else [commits.place[good] for good in goods],
        )
        # the ends that are wrong where a candidate is the first bad one that none can be
        self.wrong = {commits.place[end.commit]: end for end in known.ends if not end.is_bad}
        self.wrong[self.odds.nowhere] = known.ends[0]
        self.taken = 0  # rows of the record that are taken
        self.told = ""

    # -- the search ----------------------------------------------------------------

    def search_all(self) -> None:
        """Tests until one commit has the odds that are wanted, or no test tells anything any
        more. Where it is stopped, its log has the odds so far."""
        try:
            self.take_known()
            while (
                self.take_ended()
                and self.odds.best()[1] < self.settings.sure
                and len(self.seen.rows) < MOST_TESTS
            ):
                self.fill()
                if not self.claims.alone:
                    break
                self.turn()
        except BaseException:
            self.weigh()
            self.test.told.take(self.log(), (), None)
            raise
        self.answer()

    def take_known(self) -> None:
        """The outcomes that there are: each is evidence, those of the ends like all others."""
        for commit in self.commits.among(self.settings.skips):
            self.odds.skip(self.commits.place[commit])
        for commit in list(self.seen.statuses):
            for status in self.seen.runs_of(commit):
                self.take(commit, status)
        self.taken = len(self.seen.rows)

    def fill(self) -> None:
        """Begins the tests that tell most, as long as a checkout is idle."""
        place = self.commits.place
        while self.claims.is_free():
            under_way = [place[claim.commit] for claim in self.claims.alone]
            at = self.odds.next_test(under_way)
            if at is None:
                return
            commit = self.commits.order[at]
            before = sum(row.commit == commit for row in self.seen.rows) + under_way.count(at)
            run = 1 + before + (commit in self.seen.kept)
            self.claims.put_again(self.test, commit, run)

    # -- outcomes --------------------------------------------------------------------

    def take_ended(self) -> bool:
        """Takes the outcomes of tests that have ended; False where one of them stops the search."""
        rows, self.taken = self.seen.rows[self.taken :], len(self.seen.rows)
        for row in rows:
            if row.status is None:
                continue
            if row.status >= FIRST_STOP:
                self.stop(row)
                return False
            self.take(row.commit, row.status)
            self.tell()
        return True

    def take(self, commit: str, status: int) -> None:
        """Takes one outcome."""
        at = self.commits.place[commit]
        if status == SKIP:
            self.odds.skip(at)
        else:
            self.odds.learn(at, status != 0)
        self.seen.note_outcome(commit, decided(self.seen.runs_of(commit) or [status]))

    def tell(self) -> None:
        """The best odds, where they have changed."""
        at, odds = self.odds.best()
        text = "odds: %s %s" % (self.name(at)[:NAME], of_hundred(odds))
        if text != self.told and not self.settings.quiet:
            self.told = text
            self.voice.line(text)

    def name(self, at: int) -> str:
        """A candidate, or nothing where it is that no commit is bad."""
        return "none" if at == self.odds.nowhere else self.commits.order[at]

    # -- the answer ------------------------------------------------------------------

    def stop(self, row: Row) -> None:
        """A test that stops the search."""
        self.weigh()
        why = b"bisect aborted: exit %d on %s" % (row.status or 0, row.commit.encode())
        self.test.told.take(self.log(), [why], Status.TEST_STOPPED)

    def weigh(self) -> None:
        """Notes the commits that have most of the odds, and whether the answer is as the shares
        that were told let expect."""
        best, commits = self.odds.best()[0], self.commits
        outcomes = [
            (commits.place[commit], status != 0)
            for commit in self.seen.statuses
            for status in self.seen.runs_of(commit)
            if status < SKIP
        ]
        ranked = [(self.name(at), share) for at, share in self.odds.ranked(SHARE)]
        self.test.weigh(
            [one for one in ranked if one[0] in commits.place],
            tell_lies(self.odds.lies(best, outcomes), self.noise),
        )

    def answer(self) -> None:
        """The answer, with the odds of those that are beside it. That an end is wrong is none."""
        test, order = self.test, self.commits.order
        if test.status is not None:
            return
        self.weigh()
        best, odds = self.odds.best()
        new = self.settings.terms[0].encode()
        left = [name for name, _ in test.odds if self.commits.place[name] not in self.wrong]
        if best in self.wrong and (odds >= self.settings.sure or not left):
            raise self.wrong_end(self.wrong[best], odds)
        if odds >= self.settings.sure:
            found = b"%s is the first %s commit" % (order[best].encode(), new)
            test.told.take(self.log(), [found], Status.FOUND)
            return
        sure = of_hundred(self.settings.sure).encode()
        why = b"No commit has %s; the first %s commit could be any of:" % (sure, new)
        answer = [why, *(name.encode() for name in left)]
        test.told.take(self.log(), answer, Status.ONLY_SKIPPED)

    def wrong_end(self, end: End, odds: float) -> WrongEnd:
        """An end that its tests, and those of other commits, deny."""
        runs = self.seen.runs_of(end.commit)
        status = decided(runs or [0 if end.is_bad else 1])
        denied = sum(agrees(end, one) is False for one in runs)
        how = "%d of its %s deny it: odds %s" % (
            denied,
            counted(len(runs), "test"),
            of_hundred(odds),
        )
        return WrongEnd(end, status, self.test.outcomes.log_of(end.commit), how)

    def log(self) -> List[bytes]:
        """What was tested, and the odds: lines that say what they are."""
        test, subject = self.test, self.commits.subject
        fails, passes = of_hundred(self.noise.fails), of_hundred(self.noise.passes)
        lines = [
            b"# a search by odds (--noise): the test of a good commit fails in %s, that of a bad"
            b" one passes in %s" % (fails.encode(), passes.encode()),
            b"# this is no log of git bisect, and no proof of the program stands behind it",
        ]
        lines += self.test_lines()
        for name, odds in test.odds[:MOST_TOLD]:
            lines.append(
                b"# odds: %s: [%s] %s" % (of_hundred(odds).encode(), name.encode(), subject[name])
            )
        if len(test.odds) > MOST_TOLD:
            lines.append(b"# odds: and %d more" % (len(test.odds) - MOST_TOLD))
        return lines

    def test_lines(self) -> List[bytes]:
        """A line for each outcome: those of earlier runs, and then the others as they ended."""
        test, subject = self.test, self.commits.subject
        rows = [
            (commit, status) for commit in test.seen.kept for status in self.kept_of(test, commit)
        ]
        rows += [(row.commit, row.status) for row in test.seen.rows if row.status is not None]
        return [
            b"# %s: [%s] %s" % (os.fsencode(self.word(status)), name.encode(), subject[name])
            for name, status in rows
        ]

    @staticmethod
    def kept_of(test: Test, commit: str) -> List[int]:
        """The statuses that earlier runs found of a commit."""
        made = sum(
            row.commit == commit and row.status is not None and row.status < FIRST_STOP
            for row in test.seen.rows
        )
        runs = test.seen.runs_of(commit)
        return runs[: len(runs) - made]

    def word(self, status: int) -> str:
        """The word of the log for an outcome."""
        return (
            self.settings.terms[1]
            if status == 0
            else "skip"
            if status == SKIP
            else self.settings.terms[0]
            if status < SKIP
            else "stop"
        )
