#!/usr/bin/env python3
"""Searches with a command that prints a number which varies (`--measure`): how many of 100 name the wrong commit, how many are refused,
and how often the command is run. slower.py [SEARCHES]

A line of 300 commits, the first bad one anywhere; from there on the number is greater by 1, 2 or 4 times its spread (the standard
deviation), and 5 of 100 numbers, or none, are 10 times the spread above. The ends are measured, commits decided, and the ends compared by
the driver's own functions; what a search tests next, with so many workers, is that of rounds.py, and so is how the answer and its parent are
tested again.

slower.py SEARCHES drift: the same on a machine that is slower for a while, by 1 or 2 times the spread, in blocks of 20 to 60 runs that are a
third of the time, or slower and slower. One worker; the answer and its parent are tested again in turns, as search/confirm.py has it, or one
behind the other. Wrong answers that are told as confirmed, those that are told as not confirmed, right ones that are, refused searches, runs.
`a quotient` is a command that runs a build of the good end beside each commit and prints how the two compare.
"""
import bisect
import collections
import os
import random
import sys

sys.path.insert(0, os.path.join(os.path.dirname(os.path.dirname(os.path.abspath(__file__))), "driver"))
sys.dont_write_bytecode = True

from git_farmdawn.known.measured import COUNTS, are_apart, between, decide, is_hopeless  # noqa: E402
from rounds import COMMITS, TIMES, confirmed, search  # noqa: E402

DIFFERENCES, WILD, WORKERS = (1, 2, 4), (0, 5), (4, 16)
FAR = 10


class Tester:
    """A commit 0 to 300: its numbers are greater from the first bad one on. Counts runs."""

    def __init__(self, seed, difference, wild):
        self.choice = random.Random(seed)
        self.first, self.count = self.choice.randint(1, COMMITS), 0
        self.difference, self.wild, self.threshold = difference, wild / 100, None

    def number(self, commit):
        self.count += 1
        wild = FAR if self.choice.random() < self.wild else 0
        return self.choice.gauss(self.difference if commit >= self.first else 0, 1) + wild

    def measure_ends(self):
        """Whether they differ; as search/measuring.py has it."""
        good, bad = [], []
        for count in COUNTS:
            good += [self.number(0) for _ in range(count - len(good))]
            bad += [self.number(COMMITS) for _ in range(count - len(bad))]
            if are_apart(bad, good, count == COUNTS[0]):
                self.threshold = between(bad, [good])
            if self.threshold or is_hopeless([bad, good]):
                break
        return self.threshold is not None

    def is_bad(self, commit):
        numbers, found = [], None
        while found is None:
            numbers.append(self.number(commit))
            found = decide(numbers, self.threshold)
        return found


def cell(difference, wild, workers, searches):
    """Wrong answers and refused searches of 100, and the runs of the command in a search that is not refused."""
    wrong, refused, runs = 0, 0, 0
    for seed in range(searches):
        tester = Tester(seed, difference, wild)
        if not tester.measure_ends():
            refused += 1
            continue
        wrong += confirmed(tester, workers) != tester.first
        runs += tester.count
    return f"{100 * wrong / searches:.1f} / {100 * refused / searches:.1f} / {runs / max(1, searches - refused):.0f}"


class Refused(Exception):
    """Most tests of an end deny what it was called."""


class Drifting(Tester):
    """One whose machine is not always the same: `drift` is of a block, and of each run. A quotient cancels it, and varies twice."""

    def __init__(self, seed, difference, drift, is_quotient):
        Tester.__init__(self, seed, difference, 0)
        (self.step, self.slope), self.is_quotient, self.clock = drift, is_quotient, random.Random(-1 - seed)
        self.is_slow, self.bounds, self.tests = self.clock.random() < 1 / 3, [], collections.defaultdict(list)

    def number(self, commit):
        number = Tester.number(self, commit)
        if self.is_quotient:
            return number + self.choice.gauss(0, 1)
        while not self.bounds or self.bounds[-1] <= self.count:
            is_slow = self.is_slow != bool(len(self.bounds) % 2)
            self.bounds.append((self.bounds or [0])[-1] + (1 if is_slow else 2) * self.clock.uniform(20, 60))
        is_slow = self.is_slow != bool(bisect.bisect(self.bounds, self.count) % 2)
        return number + self.step * is_slow + self.slope * self.count

    def ask(self, commit):
        self.tests[commit].append(self.is_bad(commit))
        return self.tests[commit][-1]

    def is_denied(self, commit, is_bad):
        return 2 * self.tests[commit].count(is_bad) < len(self.tests[commit])

    def confirmed(self, in_turns):
        """The answer, and whether each test of it and its parent agrees."""
        known, self.tests[0], self.tests[COMMITS] = {}, [False], [True]
        while True:
            answer = search(self.ask, known, 1)
            pair = (answer, answer - 1)
            while True:
                open_ones = [one for one in pair if len(self.tests[one]) < 1 + TIMES or self.is_denied(one, True) == self.is_denied(one, False)]
                if not open_ones:
                    break
                self.ask(min(open_ones, key=lambda one: len(self.tests[one]) if in_turns else pair.index(one)))
            denied = [one for one in pair if self.is_denied(one, one == answer)]
            if {0, COMMITS} & set(denied):
                raise Refused
            if all(known.get(one) == (one != answer) for one in denied):
                return answer, all(bad == (one == answer) for one in pair for bad in self.tests[one])
            known.update((one, one != answer) for one in denied)


DRIFTS = {"none": (0, 0), "blocks of 1": (1, 0), "blocks of 2": (2, 0), "1 in 100 runs": (0, 0.01)}
WAYS = {"one behind the other": (False, False), "in turns": (True, False), "a quotient": (True, True)}


def drifting_cell(difference, drift, way, searches):
    found, runs = collections.Counter(), 0
    in_turns, is_quotient = way
    for seed in range(searches):
        tester = Drifting(seed, difference, drift, is_quotient)
        try:
            if not tester.measure_ends():
                raise Refused
            answer, is_sure = tester.confirmed(in_turns)
        except Refused:
            found["refused"] += 1
            continue
        found[answer == tester.first, is_sure] += 1
        runs += tester.count
    shares = [100 * found[kind] / searches for kind in ((False, True), (False, False), (True, False), "refused")]
    return " / ".join("%.1f" % share for share in shares) + f" / {runs / max(1, searches - found['refused']):.0f}"


def drifting(searches):
    print("| Difference | Drift |", " | ".join(WAYS), "|")
    print("|---" * (len(WAYS) + 2) + "|")
    for difference in DIFFERENCES[1:]:
        for name, drift in DRIFTS.items():
            cells = [drifting_cell(difference, drift, way, searches) for way in WAYS.values()]
            print(f"| {difference} | {name} |", " | ".join(cells), "|", flush=True)


def main(searches="1000", kind=""):
    if kind:
        drifting(int(searches))
        return
    columns = [(workers, wild) for workers in WORKERS for wild in WILD]
    print("| Difference |", " | ".join(f"{workers} workers" + ", wild" * bool(wild) for workers, wild in columns), "|")
    print("|---" * (len(columns) + 1) + "|")
    for difference in DIFFERENCES:
        cells = [cell(difference, wild, workers, int(searches)) for workers, wild in columns]
        print(f"| {difference} |", " | ".join(cells), "|", flush=True)


if __name__ == "__main__":
    main(*sys.argv[1:])
