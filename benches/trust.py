#!/usr/bin/env python3
"""Whole searches of the driver with a test that lies: the rows of a table in docs/TRUST.md.
trust.py [SEARCHES [FROM [ROW.. [COLUMN..]]]]

Each search is one of git farmdawn, with its engine and all that it keeps, over a line of 301
commits, the first bad one anywhere. It is begun in a copy of this process, and its tests are no
processes: a commit is not checked out, and what a test ends with is drawn here, once for each time
that the command would run. So a search takes some tenths of a second. A cell has, of 100 searches,
how many name a wrong commit and how many are refused, and how often one runs the command. FROM is
the first seed, ROW as 5,0,4, COLUMN as plain. JOBS says how many searches run at once; each is as
without the others. FARMDAWN names the program, or it is the one that was built.
"""
import collections
import concurrent.futures
import importlib
import os
import pkgutil
import random
import subprocess
import sys
import tempfile

TOP = os.path.dirname(os.path.dirname(os.path.abspath(__file__)))
sys.path.insert(0, os.path.join(TOP, "driver"))
sys.dont_write_bytecode = True

COMMITS = 300  # beside the good end
ROWS = [
    (5, 0, 1),
    (5, 0, 4),
    (5, 0, 16),
    (5, 5, 4),
    (10, 10, 4),
    (30, 30, 4),
    (0, 30, 1),
    (0, 30, 4),
]
JOBS = int(os.environ.get("JOBS") or os.cpu_count() or 1)
os.environ.setdefault("FARMDAWN", os.path.join(TOP, "crates", "farmdawn", "out", "farmdawn"))
MOST = 0.005  # is told in place of 0, with which no odds can be counted


def columns(lies):
    told = ",".join(str(max(MOST, lie / 100)) for lie in lies)
    return {
        "plain": ["--confirm=0"],
        "`--retry 1`": ["--retry", "1"],
        "`--repeat 3`": ["--repeat", "3"],
        "by itself": [],
        "`--confirm`": ["--confirm"],
        "`--noise`": ["--noise", told],
    }


class Lying:
    """A test that lies. `count` is how often it ran."""

    def __init__(self, first, lies, seed):
        self.first, self.lies, self.count = first, [lie / 100 for lie in lies], 0
        self.choice = random.Random(seed)

    def status(self, place):
        self.count += 1
        is_bad = place >= self.first
        return int(is_bad != (self.choice.random() < self.lies[is_bad]))


def without_processes(lying, places):
    """Tests end with what is drawn."""
    from git_farmdawn.checkouts import trial

    def prepare(self, slot, work, claim):
        yield 0.0
        return 0

    def command(self, slot, job, words, log):
        yield 0.001 + 0.001 * random.random()
        return lying.status(places[job.commit])

    def one(self, slot, claim):
        try:
            return (yield from self.run_often(slot, claim, null))
        finally:
            slot.ready = claim.commit

    null = os.open(os.devnull, os.O_WRONLY)
    trial.Trials.prepare, trial.Trials.command, trial.Trials.one = prepare, command, one


def search(words, lying, places):
    """One search, in a process of its own; gives its status, the place of the answer and how often
    the test ran."""
    inside, outside = os.pipe()
    child = os.fork()
    if not child:
        from git_farmdawn import main

        null = os.open(os.devnull, os.O_RDWR)
        for fd in (0, 1, 2):
            os.dup2(null, fd)
        without_processes(lying, places)
        programs, make_one = [], main.Program
        main.Program = lambda: programs.append(make_one()) or programs[0]
        status = main.main(words)
        known = programs[0].search.known
        found = known.tests[0].found(known.commits)
        os.write(outside, b"%d %d %d\n" % (status, places.get(found, -1), lying.count))
        os._exit(0)
    os.close(outside)
    with open(inside, "rb") as file:
        text = file.read()
    os.waitpid(child, 0)
    return [int(word) for word in text.split()] if text else [-1, -1, 0]


def make(folder):
    """A line of commits; gives their names."""
    subprocess.run(["git", "init", "-q", folder], check=True)
    stream = "".join(
        "commit refs/heads/c\ncommitter a <a@b> %d +0000\ndata 0\n%s\n"
        % (at, "M 644 inline n\ndata 1\n1\n" if not at else "")
        for at in range(COMMITS + 1)
    )
    subprocess.run(
        ["git", "-C", folder, "fast-import", "--quiet"], input=stream.encode(), check=True
    )
    listed = subprocess.run(
        ["git", "-C", folder, "rev-list", "--reverse", "c"], stdout=subprocess.PIPE, check=True
    )
    return listed.stdout.decode().split()


def ended(name, row, seed):
    """How a search of a cell ended: its status, whether it named a wrong commit, and its tests; in
    the repository of this process."""
    if not REPOSITORY:
        for module in pkgutil.walk_packages([TOP + "/driver/git_farmdawn"], "git_farmdawn."):
            importlib.import_module(module.name)  # once, and not in each search
        room = tempfile.TemporaryDirectory()
        names = make(room.name + "/w")
        os.chdir(room.name + "/w")
        REPOSITORY.extend([room, {name: at for at, name in enumerate(names)}])
    places = REPOSITORY[1]
    *lies, workers = row
    first = random.Random(seed).randint(1, COMMITS)
    names, words = list(places), ["-q", "--fresh", "--workers", str(workers)]
    words += [*columns(lies)[name], names[-1], names[0], "--", "true"]
    status, found, count = search(words, Lying(first, lies, seed), places)
    if not count:
        raise RuntimeError("a search ended with %d, and ran no test" % status)
    return status, status == 0 and found != first, count


REPOSITORY = []


def cell(name, row, seeds, jobs):
    """A cell, with the statuses that are neither an answer nor a refusal."""
    rows = list(jobs.map(ended, *zip(*((name, row, seed) for seed in seeds))))
    statuses = collections.Counter(status for status, _, _ in rows)
    others = {status: count for status, count in statuses.items() if status not in (0, 1)}
    wrong, tests = sum(one[1] for one in rows), sum(one[2] for one in rows)
    part = 100 / len(rows)
    return "%.1f + %.1f / %.0f" % (part * wrong, part * statuses[1], tests / len(rows)) + (
        " %s" % others if others else ""
    )


def main(searches="1000", start="0", *words):
    seeds = range(int(start), int(start) + int(searches))
    rows = [tuple(map(int, word.split(","))) for word in words if "," in word]
    asked = [word for word in words if "," not in word]
    with concurrent.futures.ProcessPoolExecutor(JOBS) as jobs:
        for row in rows or ROWS:
            for name in asked or columns(row[:2]):
                print(
                    "%d, %d | %d | %s | %s" % (*row, name, cell(name, row, seeds, jobs)), flush=True
                )


if __name__ == "__main__":
    main(*sys.argv[1:])
