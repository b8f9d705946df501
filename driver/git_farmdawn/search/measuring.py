"""--measure without a threshold: the ends are measured before the search, which then goes on with
the threshold that lies between them.

Their numbers are kept for these two ends, so that the same line has the same threshold, and knows
the outcomes that were decided by it."""
from __future__ import annotations

import os
from typing import TYPE_CHECKING, Callable, List

from ..host.files import kind_of_log
from ..known.evidence import WrongEnd
from ..known.measured import COUNTS, are_apart, between, chance, is_hopeless, median
from ..known.outcomes import open_kept
from ..known.record import Seen
from ..line.table import BY_WORD
from ..telling.facts import FIRST_STOP, NAME, SKIP, End, Row
from ..telling.numbers import Measured, Threshold, brief, listed
from ..telling.status import Status
from ..telling.voice import Stop

if TYPE_CHECKING:
    from ..known.outcomes import Outcomes
    from .search import Search

NOISY = (
    "are there fewer things that run beside it with --workers 1, or is a number steadier that is"
    " the least of several runs?"
)


class MeasuringEnds:
    """Measures the ends of one test. `turn` is one turn of the loop."""

    def __init__(self, search: Search, turn: Callable[[], None]) -> None:
        self.claims, self.voice, self.loop = search.claims, search.voice, search.loop
        self.history, self.settings = search.history, search.settings
        self.repo, self.known, self.turn = search.shop.repo, search.known, turn
        self.test = search.known.tests[0]
        self.bad, self.goods = search.known.ends[0], list(search.known.ends[1:])

    # -- measuring -----------------------------------------------------------------

    def find(self) -> None:
        """Gives the search its threshold; raises Stop where the ends do not differ."""
        self.loop.note_signals()
        names = [end.commit for end in self.known.ends]
        for name in names:
            self.history.add(name, ())
        self.history.read_subjects(names)
        self.test.outcomes.load(names)
        threshold = None
        for count in COUNTS:
            self.measure(count)
            samples = [self.numbers(end) for end in self.known.ends]
            bad, *goods = samples
            if all(are_apart(bad, good, count == COUNTS[0]) for good in goods):
                threshold = between(bad, goods)
            if threshold is not None or is_hopeless(samples):
                break
        if threshold is None:
            raise self.refused()
        self.take(threshold)

    def numbers(self, end: End) -> List[float]:
        """All that was measured of an end."""
        tests = self.test.outcomes.numbers.get(end.commit, [])
        return [number for numbers in tests for number in numbers]

    def measure(self, count: int) -> None:
        """Has each end measured so often, beside each other as far as there are workers."""
        lacking = [(end, count - len(self.numbers(end))) for end in self.known.ends]
        waiting = [(end, times) for end, times in lacking if times > 0]
        while waiting or self.claims.under_way():
            while waiting and self.claims.is_free_for(waiting[0][0].commit):
                end, times = waiting.pop(0)
                run = 1 + len(self.test.seen.runs_of(end.commit))
                self.claims.put_measured(self.test, end.commit, run, times)
            self.turn()
            self.check()

    def check(self) -> None:
        """An end that cannot be measured is none."""
        for row in self.test.seen.done():
            end = next(end for end in self.known.ends if end.commit == row.commit)
            log = self.test.outcomes.log_of(row.commit, kind_of_log(row.run))
            status = row.status or 0
            if status >= FIRST_STOP:
                raise Stop(
                    Status.TEST_STOPPED,
                    "the test of %s ended with %d, which stops a search; its output is in %s"
                    % (row.commit[:NAME], status, log),
                )
            if row.measured is None or row.measured.lacking:
                how = self.test.seen.how(row.commit, self.known.builds)
                how = "its test " + row.measured.lacking if row.measured else how
                raise WrongEnd(end, status, log, how, "an end that has no number says nothing")

    def nearest_good(self) -> End:
        """The good end that differs least from the bad one."""
        bad = median(self.numbers(self.bad))
        return min(self.goods, key=lambda end: abs(bad - median(self.numbers(end))))

    # -- what it comes to ------------------------------------------------------------

    def refused(self) -> WrongEnd:
        """The ends do not differ by more than they vary."""
        bad = self.numbers(self.bad)
        good = self.nearest_good()
        how = "its test measured %s, which does not differ from %s of %s (p = %.2g)" % (
            listed(bad),
            listed(self.numbers(good)),
            good.commit[:NAME],
            chance(bad, self.numbers(good)),
        )
        return WrongEnd(self.bad, SKIP, None, how, NOISY)

    def take(self, threshold: Threshold) -> None:
        """The search goes on with it, and with outcomes that were decided by it; the ends are
        tested."""
        self.settings.take(BY_WORD["--measure"], threshold)
        good, bad = self.nearest_good(), self.bad
        self.voice.tell(
            "--measure='%s': half way from %s (%s) to %s (%s)"
            % (
                threshold.word,
                brief(median(self.numbers(good))),
                good.commit[:NAME],
                brief(median(self.numbers(bad))),
                bad.commit[:NAME],
            )
        )
        before = self.test.outcomes
        outcomes = open_kept(self.settings, self.repo, self.test.name, self.voice.say)
        rows = [self.decided(row, threshold) for row in self.test.seen.rows]
        for end in self.known.ends:
            if outcomes.read(end.commit) is None or end.commit in {row.commit for row in rows}:
                self.keep(before, outcomes, end)
        seen = Seen(outcomes, rows=rows, threshold=threshold)
        self.test.begin_measured(seen)

    def decided(self, row: Row, threshold: Threshold) -> Row:
        """A test of an end, which says what the end was called."""
        is_bad = row.commit == self.bad.commit
        numbers = row.measured.numbers if row.measured else ()
        return row._replace(
            status=int(is_bad), measured=Measured(tuple(numbers), threshold, is_bad)
        )

    def keep(self, before: Outcomes, outcomes: Outcomes, end: End) -> None:
        """Keeps what an end is, with its numbers and its outputs."""
        for at, numbers in enumerate(before.numbers[end.commit]):
            outcomes.keep_numbers(end.commit, numbers, at > 0)
            outcomes.keep(end.commit, int(end.is_bad), at > 0)
            kind = kind_of_log(at + 1)
            bring(before.log_of(end.commit, kind), outcomes.log_of(end.commit, kind))


def bring(path: str, to: str) -> None:
    """Gives an output another name, too, in place of what had that."""
    if path == to or not os.path.isfile(path):
        return
    try:
        if os.path.lexists(to):
            os.unlink(to)
        os.link(path, to)
    except OSError:
        pass  # it stays where it is
