"""What numbers say that vary from run to run: whether two ends differ, the threshold between them,
and on which side of it a commit is.

Ends are compared by the U test of Mann and Whitney, exactly. A commit is decided by Wald's
sequential test on signs, of which a wild number is only one. benches/slower.py shows how often a
whole search is wrong by these numbers of runs."""
from __future__ import annotations

from math import ceil, log
from typing import List, Optional, Sequence

from ..telling.numbers import Threshold

COUNTS = (5, 10, 20)  # runs of each end, until the ends differ
RARE = 0.001  # what equal ends show less often than this
# of a commit: at least so many of its numbers lie on its side, by one hypothesis or the other
SHARE = 0.75
SURE = 99.0  # odds of the one over the other that end it
LEAD = ceil(log(SURE) / log(SHARE / (1 - SHARE)))  # so many more on one side have these odds
MOST_RUNS = 21  # of a commit; then most of them decide
DIGITS = 17  # of a number, at most
NEAR = 0.05  # of the way between the ends: so far may the threshold be rounded


def median(numbers: Sequence[float]) -> float:
    """The middle one, or that between the two in the middle."""
    ordered, half = sorted(numbers), len(numbers) // 2
    return ordered[half] if len(ordered) % 2 else (ordered[half - 1] + ordered[half]) / 2


def ranks_of(numbers: Sequence[float]) -> List[int]:
    """Twice the rank of each; equal ones share theirs."""
    ordered = sorted(numbers)
    first = {number: at for at, number in reversed(list(enumerate(ordered)))}
    return [2 * first[number] + ordered.count(number) + 1 for number in numbers]


def chance(one: Sequence[float], other: Sequence[float]) -> float:
    """How often two samples lie at least so far apart that are of the same numbers: the two-sided p
    of the U test. All ways to part the numbers are counted, by the sum of ranks: each count stands
    in its own bits of one large number."""
    ranks = ranks_of([*one, *other])
    wide = len(ranks)  # bits of a count: no more ways are there
    middle = len(one) * (len(ranks) + 1)
    far = abs(sum(ranks[: len(one)]) - middle)
    ways = [1] + [0] * len(one)
    for rank in ranks:
        for size in range(len(one), 0, -1):
            ways[size] += ways[size - 1] << (wide * rank)
    counts, all_ways, far_ways = ways[-1], 0, 0
    for total in range(counts.bit_length() // wide + 1):
        count = counts >> (wide * total) & ((1 << wide) - 1)
        all_ways += count
        far_ways += count * (abs(total - middle) >= far)
    return far_ways / all_ways


def width(numbers: Sequence[float]) -> float:
    """From the least to the greatest."""
    return max(numbers) - min(numbers)


def are_far(one: Sequence[float], other: Sequence[float]) -> bool:
    """Whether two samples are further from each other than either is wide: then few runs tell where
    the middle between them is."""
    gap = max(min(one) - max(other), min(other) - max(one))
    return gap > 0 and gap >= max(width(one), width(other))


def are_apart(one: Sequence[float], other: Sequence[float], is_first: bool) -> bool:
    """Whether two ends differ; the first few runs show it where they are far from each other."""
    return are_far(one, other) if is_first else chance(one, other) < RARE


def is_hopeless(samples: Sequence[Sequence[float]]) -> bool:
    """Whether all numbers are the same: further runs tell nothing."""
    return len({number for numbers in samples for number in numbers}) == 1


def between(bad: Sequence[float], goods: Sequence[Sequence[float]]) -> Optional[Threshold]:
    """Half way from the bad end to the nearest good one, by their medians, in as few digits as tell
    it; None where not all good ones are on one side."""
    high, lows = median(bad), [median(good) for good in goods]
    if not all(low < high for low in lows) and not all(low > high for low in lows):
        return None
    low = min(lows, key=lambda one: abs(high - one))
    middle, gap = (low + high) / 2, abs(high - low)
    for digits in range(2, DIGITS):
        number = float("%.*g" % (digits, middle))
        if abs(number - middle) <= NEAR * gap:
            return Threshold(number, high > low)
    return Threshold(middle, high > low)


def decide(numbers: Sequence[float], threshold: Threshold) -> Optional[bool]:
    """Whether a commit is bad by its numbers so far; None where one more is to be measured."""
    bad = sum(threshold.is_bad(number) for number in numbers)
    lead = 2 * bad - len(numbers)
    return lead > 0 if abs(lead) >= LEAD or len(numbers) >= MOST_RUNS else None
