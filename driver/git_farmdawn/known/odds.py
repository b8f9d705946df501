"""The odds of each commit to be the first bad one where tests lie now and then, and which commit is
to be tested next.

An outcome is evidence and no proof: a commit that has the first bad one, itself or behind it, is
bad, and its test passes with one probability; any other one is good, and its test fails with
another one. By that the odds of each candidate change with each outcome."""
from __future__ import annotations

from math import exp, lgamma, log, log1p
from typing import Dict, Iterable, List, NamedTuple, Optional, Sequence, Set, Tuple

MOST_COMMITS = 20000  # their sets of ancestors have so many bits each
LEAST_CELL = 0.0005  # of the odds; what is less tells nothing
LEAST_ODDS = 1e-9  # of a candidate; what is less tells nothing
LEAST_GAIN = 0.05  # what a test must tell apart at least, as a part of what may be left to doubt
AGAIN = 2  # tests of one commit at a time, where nothing is to be told apart any more
DOUBT = 0.05  # of the odds at the begin: that one of the ends is not as it was called
RARE = 0.01  # what happens less often by chance is told
MOST_FIT = 0.49  # the largest share of lies that can be named


class Noise(NamedTuple):
    """How often a test lies, from 0 to 1."""

    fails: float  # of a good commit
    passes: float  # of a bad one


class Lies(NamedTuple):
    """How many tests of some commits lie, and of how many."""

    denied: int
    tests: int

    def is_rare(self, share: float) -> bool:
        """Whether so many seldom lie, where this share does."""
        return chance(self.denied, self.tests, share) < RARE

    def fit(self, share: float) -> float:
        """The share that fits, which is at least the one that was told."""
        return min(MOST_FIT, max(share, self.denied / self.tests if self.tests else 0.0))


class Odds:
    """The odds of the candidates. Commits are places in a history in which parents stand before
    their children, and the bad end is the last one. Where an end may be wrong, each of the
    `doubted` good ones is a candidate, too; and so is `nowhere`, which no commit has: that none is
    bad."""

    def __init__(
        self,
        parents: Sequence[Sequence[int]],
        candidates: Iterable[int],
        noise: Noise,
        sure: float = 0.99,
        doubted: Sequence[int] = (),
    ) -> None:
        self.parents, self.noise, self.nowhere = parents, noise, len(parents)
        self.least_gain = LEAST_GAIN * (1 - sure)
        self.away: Set[int] = set()  # commits that cannot be tested
        first = odds_at_begin(set(candidates), doubted, self.nowhere)
        self.candidates = sorted(first)
        self.odds = [first.get(at, 0.0) for at in range(self.nowhere + 1)]  # by place
        self.all = sum(1 << at for at in self.candidates)
        self.reach: List[int] = []  # by place: the candidates that it has, as bits
        # by place: the candidates that it has and its first parent has not
        self.brought: List[List[int]] = []
        for at, above in enumerate(parents):
            inherited = bits = self.reach[above[0]] if above else 0
            for parent in above[1:]:
                bits |= self.reach[parent]
            self.brought.append(list(places_of(bits & ~inherited)))
            if at in first:
                bits |= 1 << at
                self.brought[-1].append(at)
            self.reach.append(bits)
        self.walk = [
            (at, self.first(at), self.brought[at if at >= 0 else ~at]) for at in walk(parents)
        ]
        self.split: List[int] = []  # tests under way, and by candidate its cell
        self.cell_of = [0] * (self.nowhere + 1)

    # -- outcomes ----------------------------------------------------------------

    def learn(self, commit: int, is_bad: bool) -> None:
        """Takes an outcome."""
        with_it = 1 - self.noise.passes if is_bad else self.noise.passes
        without = self.noise.fails if is_bad else 1 - self.noise.fails
        odds = [
            share * (with_it if has == "1" else without)
            for share, has in zip(self.odds, self.has(commit))
        ]
        total = sum(odds)
        self.odds = [share / total for share in odds]

    def skip(self, commit: int) -> None:
        """Takes that a commit cannot be tested: it may be the first bad one all the same."""
        self.away.add(commit)

    def first(self, commit: int) -> int:
        """The first parent of a commit, or -1."""
        return self.parents[commit][0] if commit >= 0 and self.parents[commit] else -1

    def has(self, commit: int) -> str:
        """By candidate whether a commit has it, as a digit."""
        return format(self.reach[commit], "0%db" % (self.nowhere + 1))[::-1]

    def best(self) -> Tuple[int, float]:
        """The candidate with the best odds, of equal ones the first."""
        odds = max(self.odds)
        return self.odds.index(odds), odds

    def ranked(self, share: float) -> List[Tuple[int, float]]:
        """The candidates with the best odds, as many as have this share of them together."""
        found: List[Tuple[int, float]] = []
        left = share
        for commit in sorted(self.candidates, key=lambda at: (-self.odds[at], at)):
            found.append((commit, self.odds[commit]))
            left -= self.odds[commit]
            if left <= 0:
                break
        return found

    def lies(self, answer: int, outcomes: Iterable[Tuple[int, bool]]) -> Tuple[Lies, Lies]:
        """Of some outcomes those that deny an answer: of good commits, and of bad ones."""
        denied, tests = [0, 0], [0, 0]
        for commit, is_bad in outcomes:
            has_it = self.reach[commit] >> answer & 1
            tests[has_it] += 1
            denied[has_it] += is_bad != bool(has_it)
        return Lies(denied[0], tests[0]), Lies(denied[1], tests[1])

    # -- what is tested next -------------------------------------------------------

    def cells(self, under_way: Sequence[int]) -> List[int]:
        """By candidate the number of its cell, in which are those that tests under way do not tell
        apart."""
        tests = list(dict.fromkeys(under_way))
        if tests[: len(self.split)] != self.split:
            self.split, self.cell_of = [], [0] * (self.nowhere + 1)
        for commit in tests[len(self.split) :]:
            numbers: Dict[Tuple[int, str], int] = {}
            pairs = zip(self.cell_of, self.has(commit))
            self.cell_of = [numbers.setdefault(pair, len(numbers)) for pair in pairs]
        self.split = tests
        return self.cell_of

    def gains(self, under_way: Sequence[int]) -> List[float]:
        """By place: how well a test tells candidates apart, beside those under way. It is best
        where the candidates that a commit has have half of the odds.

        Along first parents the odds of the cells that a commit has change by what it brings: so
        one walk does it, which comes to each commit behind its first parent."""
        cell_of = self.cells(under_way)
        wholes, masses = [0.0] * (max(cell_of) + 1), [0.0] * (max(cell_of) + 1)
        for cell, share in zip(cell_of, self.odds):
            wholes[cell] += share
        shares = [
            share if share > LEAST_ODDS and wholes[cell] >= LEAST_CELL else 0.0
            for cell, share in zip(cell_of, self.odds)
        ]
        gains = [0.0] * (self.nowhere + 1)  # the last one is that of no commit
        for at, first, brought in self.walk:
            gain = gains[first]
            for place in brought:
                share = shares[place]
                if share:
                    cell = cell_of[place]
                    if at < 0:  # back to what it stands on
                        masses[cell] -= share
                        continue
                    gain += share * (wholes[cell] - 2 * masses[cell] - share)
                    masses[cell] += share
            if at >= 0:
                gains[at] = gain
        gains.pop()
        return gains

    def next_test(self, under_way: Sequence[int]) -> Optional[int]:
        """The commit that is best tested next, or None where no test tells anything."""
        best = self.best_test(under_way)
        if best is not None or not under_way or self.best_test(()) is None:
            return best
        again = [  # all that tells something is under way
            at
            for at in self.beside(self.best()[0])
            if at not in self.away and under_way.count(at) < AGAIN and self.says(at)
        ]
        return min(again, key=under_way.count, default=None)

    def best_test(self, under_way: Sequence[int]) -> Optional[int]:
        """The commit whose test tells most beside those under way, where that is enough."""
        gains = self.gains(under_way)
        for at in self.away:
            gains[at] = 0.0
        best = max(gains)
        return gains.index(best) if best >= self.least_gain else None

    def beside(self, answer: int) -> List[int]:
        """The commits whose tests tell an answer from those next to it."""
        if answer == self.nowhere:
            return [answer - 1]  # the bad end
        return [answer, *self.parents[answer]]

    def says(self, commit: int) -> bool:
        """Whether a commit has some of the candidates, and not all."""
        return self.reach[commit] not in (0, self.all)


# -- sets, and the walk --------------------------------------------------------


def odds_at_begin(candidates: Set[int], doubted: Sequence[int], nowhere: int) -> Dict[int, float]:
    """The odds without an outcome: those of a wrong end are small, the others have equal ones."""
    known = 1.0 - DOUBT if doubted else 1.0
    odds = {at: known / len(candidates) for at in candidates}
    if doubted:
        odds[nowhere] = DOUBT / 2
        for good in doubted:
            odds[good] = DOUBT / 2 / len(doubted)
    return odds


def walk(parents: Sequence[Sequence[int]]) -> List[int]:
    """Each commit behind its first parent, and ~commit where what stands on it is done, as long as
    another one follows."""
    found: List[int] = []
    children: List[List[int]] = [[] for _ in parents]
    waiting: List[int] = []
    for at, above in enumerate(parents):
        (children[above[0]] if above else waiting).append(at)
    while waiting:
        at = waiting.pop()
        found.append(at)
        if at >= 0:
            waiting += [~at, *children[at]]
    while found and found[-1] < 0:
        found.pop()
    return found


def places_of(bits: int) -> Iterable[int]:
    """The numbers of the bits of a set."""
    while bits:
        last = bits & -bits
        yield last.bit_length() - 1
        bits ^= last


# -- shares and odds in words --------------------------------------------------


def chance(count: int, tests: int, share: float) -> float:
    """How likely it is that at least so many of some tests lie, where this share does."""
    return sum(
        exp(
            lgamma(tests + 1)
            - lgamma(one + 1)
            - lgamma(tests - one + 1)
            + one * log(share)
            + (tests - one) * log1p(-share)
        )
        for one in range(count, tests + 1)
    )


def tell_lies(lies: Tuple[Lies, Lies], told: Noise) -> str:
    """Where far more tests lie than was told: how many, and the shares that fit; else nothing."""
    if not any(one.is_rare(share) for one, share in zip(lies, told)):
        return ""
    good, bad = lies
    fit = [one.fit(share) for one, share in zip(lies, told)]
    return (
        "more tests deny the answer than --noise lets expect: %d of %d of good commits failed, and"
        " %d of %d of bad ones passed; --noise %s fits"
        % (
            good.denied,
            good.tests,
            bad.denied,
            bad.tests,
            ",".join("%.2g%%" % (100 * one) for one in fit),
        )
    )
