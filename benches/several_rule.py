#!/usr/bin/env python3
"""Whether a test that its search may ask for later is worth its time where its commit stands built: several searches over a line of
commits, reckoned and not run.

benches/several_rule.py [SEARCHES]
benches/several_rule.py ways [SEARCHES]: what the searches cost in one, one after the other, and as many at once as there are workers; tests
of one to three minutes, as benches/several.py has them

300 commits, 12 tests that five commits broke. A pick is that of the search with fewest tests under way, and of its commits the most
probable one. A test that waits is given back where its search has come to ask for other commits, and so is a build. Behind a build, and
behind each test of it, the tests that may ask for the commit are run there, too, where they take at most a share of a build; the last
share is the rule of the driver. Prints the means over so many searches."""
import heapq
import random
import statistics
import sys

COMMITS, TESTS, CULPRITS = 300, 12, 5
SHARES = (0, 0.25, 1, 9, None)          # None: any, where there are fewer workers than searches without an end, else a quarter
SCENES = ((20, 1, 5), (20, 5, 20), (2, 1, 5))       # minutes of a build, and of tests from the shortest to the longest


class Search:
    """What is known of one test: all up to `good` is good, all from `bad` on is bad; `known` has what was found ahead."""

    def __init__(self, culprit):
        self.good, self.bad, self.culprit, self.known, self.pending = 0, COMMITS, culprit, {}, set()

    def is_over(self):
        return self.bad - self.good <= 1

    def take_in(self):
        while not self.is_over() and (middle := (self.good + self.bad) // 2) in self.known:
            self.good, self.bad = self.halves(self.good, self.bad, middle)[0]

    def halves(self, good, bad, middle):
        if middle not in self.known:
            return [(good, middle), (middle, bad)]
        return [(middle, bad) if self.known[middle] else (good, middle)]

    def best(self):
        heap, count = [(-1.0, 0, self.good, self.bad)], 0
        while heap:
            weight, _, good, bad = heapq.heappop(heap)
            middle = (good + bad) // 2
            if bad - good <= 1:
                continue
            if middle not in self.known and middle not in self.pending:
                return middle
            halves = self.halves(good, bad, middle)
            for half in halves:
                count += 1
                heapq.heappush(heap, (weight / len(halves), count, *half))
        return None

    def asks_for(self, commit):
        good, bad = self.good, self.bad
        while not self.is_over() and good < commit < bad:
            middle = (good + bad) // 2
            if middle == commit:
                return commit not in self.known
            good, bad = next((half for half in self.halves(good, bad, middle) if half[0] < commit < half[1]), (0, 0))
        return False


class Slot:
    """A checkout: its commit, whether that stands built, who waits and who runs."""

    def __init__(self):
        self.commit, self.ready, self.building, self.queue, self.running = None, False, False, [], set()

    def is_idle(self):
        return not (self.queue or self.running or self.building)


class Farm:
    """All searches, and so many workers."""

    def __init__(self, choice, workers, scene, share, together):
        self.choice, self.workers, self.share, self.together = choice, workers, share, together
        self.build = scene[0]
        self.minutes = [choice.uniform(*scene[1:]) for _ in range(TESTS)]
        distinct = choice.sample(range(1, COMMITS + 1), CULPRITS)
        self.searches = [Search(culprit) for culprit in distinct + [choice.choice(distinct) for _ in range(TESTS - CULPRITS)]]
        self.slots, self.heap, self.jobs = [], [], {}
        self.now = self.work = 0.0
        self.builds = self.tests = self.count = 0

    def start(self, slot, number, minutes):
        self.count += 1
        self.jobs[self.count] = slot, number, self.now
        heapq.heappush(self.heap, (self.now + minutes, self.count))
        if number is None:
            slot.building, self.builds = True, self.builds + 1
        else:
            slot.running.add(number)
            self.tests += 1

    def go_on(self, slot):
        while slot.queue and not slot.building and len(self.jobs) < self.workers:
            if not slot.ready:
                if not slot.running:
                    self.start(slot, None, self.build * self.choice.uniform(0.85, 1.15))
                return
            if slot.running and not self.together:
                return
            number = slot.queue.pop(0)
            self.start(slot, number, self.minutes[number] * self.choice.uniform(0.9, 1.1))

    def put(self, number, commit):
        self.searches[number].pending.add(commit)
        slot = next((slot for slot in self.slots if slot.commit == commit and not slot.is_idle()), None)
        slot = slot or next((slot for slot in self.slots if slot.is_idle()), None)
        if slot is None:
            slot = Slot()
            self.slots.append(slot)
        if slot.commit != commit:
            slot.commit, slot.ready = commit, False
        slot.queue.append(number)
        self.go_on(slot)

    def fill_here(self, slot):
        few = self.workers < sum(not search.is_over() for search in self.searches)
        share = self.share if self.share is not None else 1e9 if few else 0.25
        for number, search in enumerate(self.searches):
            if self.minutes[number] <= share * self.build and slot.commit not in search.pending and search.asks_for(slot.commit):
                search.pending.add(slot.commit)
                slot.queue.append(number)
        self.go_on(slot)

    def give_back(self):
        for slot in self.slots:
            for number in [number for number in slot.queue if not self.searches[number].asks_for(slot.commit)]:
                slot.queue.remove(number)
                self.searches[number].pending.discard(slot.commit)
        for job, (slot, number, began) in list(self.jobs.items()):
            if number is None and not any(search.asks_for(slot.commit) for search in self.searches):
                self.work += self.now - began
                del self.jobs[job]
                slot.building, slot.commit = False, None

    def fill(self):
        while len(self.jobs) < self.workers and (len(self.slots) < self.workers or any(slot.is_idle() for slot in self.slots)):
            picks = [(len(search.pending), number, search.best()) for number, search in enumerate(self.searches) if not search.is_over()]
            picks = [pick for pick in picks if pick[2] is not None]
            if not picks:
                return
            self.put(*min(picks)[1:])

    def end_one(self):
        while True:
            self.now, job = heapq.heappop(self.heap)
            if job in self.jobs:
                break
        slot, number, began = self.jobs.pop(job)
        self.work += self.now - began
        if number is None:
            slot.building, slot.ready = False, True
        else:
            search = self.searches[number]
            slot.running.discard(number)
            search.pending.discard(slot.commit)
            search.known[slot.commit] = slot.commit < search.culprit
            search.take_in()
        self.go_on(slot)
        if number is None or slot.is_idle():
            self.fill_here(slot)

    def run(self):
        """Hours, hours of all work, builds and tests."""
        while True:
            self.give_back()
            if all(search.is_over() for search in self.searches):
                rest = sum(self.now - began for _, _, began in self.jobs.values())
                return self.now / 60, (self.work + rest) / 60, self.builds, self.tests
            for slot in self.slots:
                self.go_on(slot)
            self.fill()
            self.end_one()


def each(seed, workers, scene):
    """The same searches, each alone."""
    found = []
    for number in range(TESTS):
        farm = Farm(random.Random(seed), workers, scene, 0, False)
        farm.searches, farm.minutes = [farm.searches[number]], [farm.minutes[number]]
        found.append(farm.run())
    return found


def apart(seed, workers, scene):
    """The searches one after the other, which share nothing."""
    return tuple(map(sum, zip(*each(seed, workers, scene))))


def at_once(seed, workers, scene):
    """As many searches at once as there are workers, which share nothing."""
    found, ends = each(seed, max(1, workers // TESTS), scene), [0.0] * min(workers, TESTS)
    for hours, *_ in found:
        heapq.heapreplace(ends, ends[0] + hours)
    return (max(ends), *(sum(column) for column in list(zip(*found))[1:]))


def means(found):
    return "| {:.1f} | {:.0f} | {:.0f} | {:.0f} |".format(*(statistics.mean(column) for column in zip(*found)))


def ways(searches, scene=(20, 1, 3)):
    """What the searches cost together, one after the other, and at once; one after the other with one worker is git bisect run."""
    print("| Way | Workers | Hours | Hours of work | Builds | Tests |\n|---|---|---|---|---|---|")
    for workers in (1, 4, 16):
        print(f"| one after the other | {workers}", means([apart(seed, workers, scene) for seed in range(searches)]), flush=True)
    for workers in (4, 16):
        print(f"| all at once | {workers}", means([at_once(seed, workers, scene) for seed in range(searches)]), flush=True)
    for workers in (4, 16):
        for together in (False, True):
            found = [Farm(random.Random(seed), workers, scene, None, together).run() for seed in range(searches)]
            print(f"| one search{', --together' if together else ''} | {workers}", means(found), flush=True)


def main():
    if sys.argv[1:2] == ["ways"]:
        ways(int(sys.argv[2]) if len(sys.argv) > 2 else 20)
        return
    searches = int(sys.argv[1]) if len(sys.argv) > 1 else 20
    print("| Build, tests | Workers | Together | Share | Hours | Hours of work | Builds | Tests |\n|---|---|---|---|---|---|---|---|")
    for scene in SCENES:
        for workers in (4, 16):
            for together in (False, True):
                for share in SHARES:
                    found = [Farm(random.Random(seed), workers, scene, share, together).run() for seed in range(searches)]
                    hours, work, builds, tests = (statistics.mean(column) for column in zip(*found))
                    print(f"| {scene[0]} min, {scene[1]} to {scene[2]} | {workers} | {'yes' if together else 'no'} | {'rule' if share is None else share} | {hours:.2f} | {work:.1f} "
                          f"| {builds:.0f} | {tests:.0f} |", flush=True)


if __name__ == "__main__":
    main()
