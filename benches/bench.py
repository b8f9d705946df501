#!/usr/bin/env python3
"""What the programs of this checkout cost, beside git where it is installed.

Usage: benches/bench.py SUBJECT [SIZE ..] [--quick] [--program FILE]

  import    COMMITS FILES MEGABYTES     short commits, a folder, contents, beside git fast-import; one mark of nine digits
  stream    MEGABYTES COMMANDS          MB/s of contents and of short commands that are counted, beside cat and git fast-import
  forest    DIRECTORIES SUBDIRECTORIES FILES EDITS    single edits of a tree, beside git fast-import
  entries   FILES ENTRIES ..            imports whose trees have so many entries together, of so many files each; one above
                                        40,000,000 is too many
  weights   COMMITS ..                  all weights of three shapes of history, beside git rev-list
                                        --bisect-all
  search    COMMITS ..                  the asks of whole searches, beside git rev-list --bisect; 1,000 skips in a row
  topics    COMMITS                     whole searches by 1, 8 and 64 workers over a history with a hundred open branches, one commit in
                                        ten a merge, beside its import, and git rev-list --bisect for the first ask
  workers   COMMITS                     processor time of simulate --workers 1, 2, 8 and 64
  many      COMMITS                     64 searches in one call, by 64 workers beside one
  serve     COMMITS OUTCOMES            requests by few and many workers, so many outcomes that are learned, and waits; the events of
                                        simulate --workers 1, 8 and 64 beside simulate
  farm      COMMITS ..                  picks, posts, runs and runs of skips by 1, 8 and 64 workers, beside one
                                        weighing of all candidates
  run       COMMITS MILLISECONDS TESTS  searches by tests of such a length, by 1 to 8 workers, beside git bisect run; tests of
                                        uneven length; the overhead of a test
  wall      COMMITS FILES RUNS          git farmdawn on a project in C that is built, by 1 to 8 workers, beside git bisect run
  sample    COMMITS ..                  farmdawn sample
  hostile   DIVISOR                     time and memory of what was made to cost much, at a size and at twice the size; the
                                        sizes are divided by the number
  certify   COMMITS                     certificates of so many steps, made and checked, beside an import; 16 MiB of steps
  folders   FILES COMMITS               a search that tests in folders, beside git farmdawn and git bisect run
  logs      MARKS                       whether git and farmdawn know the same behind each other's logs
  real      REPOSITORY [PAIRS]          whether they name the same commits in a repository
  gate      [LOG ..] TIMES.json         a table of the merge gate, of what was watched beside it, and of its logs
  gates     OLD NEW                     what two such tables say of the crates, beside each other
  watch     TIMES.json                  watches the merge gate until it is interrupted: the processor time of its checks
  all                                   each of these that needs no file

Sizes stand in for the full ones, or with --quick for small ones. FILE is the program that is measured: bench for stream,
forest, weights and farm, else farmdawn. Without it, it is the one that a proved build left, which is made where there is
none; FARMDAWN may name another farmdawn.

Ratios say how many times as fast as git a program is; times are of processors, where nothing else is said, and memory is
the greatest that the program alone had. Imports below five seconds are run fifteen times, in turns with git, and the least
counts. The status is 1 where something is not as it must be; where a program ends with a status that is not due, nothing
more is measured.
"""
import argparse
import os
import random
import re
import shutil
import statistics
import subprocess
import sys
import tempfile
from dataclasses import dataclass
from typing import Callable

import agree
import certificates as certificate_costs
import dialogues
import farm as farm_costs
import folders as folder_costs
import gate
import repository
import streams
import watch
from measure import STOPPED, least, measure
from repository import git

TOP = os.path.dirname(os.path.dirname(os.path.abspath(__file__)))
HAS_GIT = shutil.which("git") is not None
MAIN, OLD = "refs/heads/main", "refs/heads/old"
# one commit is both bad and good, which ends with status 5
NOTHING_TO_ASK = ["simulate", MAIN, MAIN, ""]
REPLAY = ["replay", "--replay", "log"]
# a name that means no commit is refused once the stream is read, with status 8
NOTHING_BUT_IMPORT = ["next", "no-commit", OLD]
NO_COMMIT = b"name refused at word 1: unknown\n"


class Missing(Exception):
    """What a subject needs and is not here."""


def program(name):
    """The path of a program of this checkout, built where it was not."""
    crate = os.path.join(TOP, "crates", name)
    built = os.path.join(crate, "out", name)
    if not os.path.isdir(crate):
        raise Missing(f"a crate {name}")
    if not os.path.exists(built):
        done = subprocess.run(["rt", "run"], cwd=crate, stdin=subprocess.DEVNULL, stdout=subprocess.PIPE,
                              stderr=subprocess.STDOUT)
        if not os.path.exists(built):
            sys.exit(done.stdout.decode(errors="replace"))
    return built


def ratio(theirs, ours):
    return f"ratio {theirs / max(ours, 0.001):.1f}"


class Bench:
    """A temporary folder with a stream, and the program that is measured."""

    def __init__(self, work, name, path=None):
        self.work, self.name, self.given = work, name, path
        self.stream = self.path("stream")
        open(self.stream, "wb").close()

    @property
    def program(self):
        return self.given or program(self.name)

    def path(self, name):
        return os.path.join(self.work, name)

    def write(self, make, *words, to="stream"):
        """Writes what is generated, and tells its size in bytes."""
        with open(self.path(to), "wb", buffering=1 << 20) as out:
            make(out, *words)
        return os.path.getsize(self.path(to))

    def ask(self, *words, **options):
        """What the program costs over the stream, and its output."""
        return measure([self.program, *words], self.stream, keep=self.path("output"), folder=self.work, **options)

    def git_import(self):
        """What git takes to import the stream, and the repository."""
        folder = self.path("repository")
        shutil.rmtree(folder, ignore_errors=True)
        repository.empty(folder)
        return measure(["git", "-C", folder, "fast-import", "--quiet", "--depth=0"], self.stream), folder

    def beside_git(self, label, cost):
        """Prints what a program takes beside what git takes to import the stream, and gives git's repository. They take turns,
        for what else is done on a machine, or on the one that lends it, lasts for seconds, and what is done sooner would meet all
        of it or none. Where git takes five seconds of a processor, there is one turn."""
        ours, theirs, folder = [], [], None
        while len(ours) < 15 and all(cost.processor < 5 for cost in theirs):
            ours.append(cost())
            imported, folder = self.git_import()
            theirs.append(imported)
        ours, theirs = (min(costs, key=lambda cost: cost.processor) for costs in (ours, theirs))
        print(f"{label}: in turns, {self.name} {ours}, git fast-import {theirs}; {ratio(theirs.processor, ours.processor)}")
        return folder


def needs_git():
    if not HAS_GIT:
        raise Missing("git")


# ---- streams and trees


def import_(bench, commits, files, megabytes):
    for make, size in ((streams.generated, commits), (streams.folder, files), (streams.contents, megabytes)):
        label = f"{make.__name__} {size}"
        count = bench.write(make, size)

        def cost():
            return bench.ask(*NOTHING_BUT_IMPORT, due=(8,))

        ours = least(cost)
        if ours.output != NO_COMMIT:
            print(f"{label}: {bench.name} says {ours.output.decode(errors='replace').strip()}")
            return False
        plain = least(lambda: measure(["sha1sum"], bench.stream))
        print(f"{label}: {count} bytes; farmdawn {ours}; sha1sum of the stream {plain.processor:.2f} s")
        if HAS_GIT:
            bench.beside_git(label, cost)
    bench.write(streams.mark_far, commits // 2)
    one_mark = bench.ask(*NOTHING_BUT_IMPORT, due=(8,))
    bench.write(streams.generated, commits // 2)
    without = bench.ask(*NOTHING_BUT_IMPORT, due=(8,))
    print(f"mark 536870911: farmdawn {one_mark}; without it {without}")
    bench.write(streams.generated, 100001)
    answer = bench.ask(*NOTHING_BUT_IMPORT, due=(9,)).output.decode().strip()
    print(f"100001 commits: {answer}")
    return one_mark.peak < without.peak + 10240 and answer == "too large: commits"


def stream(bench, megabytes, count):
    def piped(*command, **options):
        return measure(["sh", "-c", 'file=$1; shift; cat "$file" | "$@"', "sh", bench.stream, *command], **options)

    for make, size in ((streams.contents, megabytes), (streams.commands, count)):
        label = f"{make.__name__} {size}"
        million = bench.write(make, size) / 1e6
        cost = piped(bench.program, "stream", keep=bench.path("output"))
        if not re.fullmatch(rb"\d+ commands\n", cost.output):  # a refusal ends with status 0, too
            print(f"{label}: bench says {cost.output.decode(errors='replace').strip()}")
            return False
        ours, plain = cost.seconds, piped("cat").seconds
        print(f"{label}: {million:.0f} MB; bench {million / ours:.0f} MB/s, cat {million / plain:.0f} MB/s, by the clock")
        if HAS_GIT:
            theirs = piped("git", "-C", repository.empty(bench.path(make.__name__)), "fast-import", "--quiet").seconds
            print(f"{label}: git fast-import {million / theirs:.0f} MB/s; {ratio(theirs, ours)}")
    return True


def shaped(bench, shape):
    """What the program takes for the numbers of its shape, and what it prints."""
    ours = bench.ask("forest", *map(str, shape))
    print(f"{' '.join(map(str, shape))}: {bench.name} {ours}, {ours.output.decode().strip()}")
    return ours


def forest(bench, *shape):
    ours = shaped(bench, shape)
    if not HAS_GIT:
        return True
    bench.write(streams.forest, *shape)
    words = [str(count) for count in shape]
    folder = bench.beside_git(" ".join(words), lambda: bench.ask("forest", *words))
    return ours.output.decode() == f"{shape[3]} edits: {git(folder, 'rev-parse', 'main^{tree}')}\n"


def entries(bench, files, *counts):
    right = True
    for count in counts:
        bench.write(streams.pool, files, count)
        status, due = (8, NO_COMMIT) if count <= 40000000 else (9, b"too large: entries\n")
        ours = bench.ask(*NOTHING_BUT_IMPORT, due=(status,))
        print(f"{count} entries: farmdawn {ours}, {ours.output.decode(errors='replace').strip()}", flush=True)
        right &= ours.output == due and ours.peak < 400 << 10
    return right


def farm(bench, *sizes):
    return farm_costs.costs(bench, sizes)


# ---- searches


def weights(bench, *sizes):
    for kind in ("line", "mixed", "merges"):
        for size in sizes:
            ours = bench.ask("weights", kind, str(size))
            print(f"{kind} {size}: bench {ours}")
            if HAS_GIT:
                bench.write(streams.shape, kind, size)
                _, folder = bench.git_import()
                first = git(folder, "rev-list", "--max-parents=0", "main")
                theirs = measure(["git", "-C", folder, "rev-list", "--bisect-all", "main", f"^{first}"], limit=300,
                                 due=(0, STOPPED))
                print(f"{kind} {size}: git rev-list --bisect-all {theirs}; {ratio(theirs.processor, ours.processor)}")


def marks_of(output):
    """How many marks a log has behind its start."""
    return len(re.findall(rb"^git bisect (?!start)", output, re.M))


def plan_of(size):
    """The last third is bad."""
    return "g" * (size * 2 // 3) + "b" * (size - size * 2 // 3)


def searched(bench, plan, due=0):
    """How many tests a search over a plan makes, and its processor seconds above those of the import."""
    alone = bench.ask(*NOTHING_TO_ASK, due=(5,))
    whole = bench.ask("simulate", MAIN, OLD, plan, due=(due,))
    return f"{marks_of(whole.output)} tests; farmdawn {max(whole.processor - alone.processor, 0):.3f} s for all their asks"


def search(bench, *sizes):
    for make in (streams.line, streams.generated):
        for size in sizes:
            bench.write(make, size)
            print(f"{make.__name__} {size}: {searched(bench, plan_of(size))}")
            if HAS_GIT:
                _, folder = bench.git_import()
                theirs = measure(["git", "-C", folder, "rev-list", "--bisect", "main", "^old"], limit=300, due=(0, STOPPED))
                print(f"{make.__name__} {size}: git rev-list --bisect {theirs} for the first of them")
    size = sizes[0]
    bench.write(streams.line, size)
    side = max(size // 2 - 500, 0)
    print(f"line {size} with skips: {searched(bench, 'g' * side + 's' * (size - 2 * side) + 'b' * side, due=2)}")


# how many times the import a search may take, by its workers, over a history of many open branches
TOPICS = {1: 1.5, 8: 2.0, 64: 2.0}


def topics(bench, size):
    """Whether a search costs little beside the import, whatever its workers."""
    bench.write(streams.topics, size)
    alone = least(lambda: bench.ask(*NOTHING_TO_ASK, due=(5,)))
    right, due = True, None
    for count, most in TOPICS.items():
        ours = least(lambda count=count: bench.ask("simulate", "--workers", str(count), MAIN, OLD, plan_of(size)))
        due = due or ours.output
        times = ours.processor / max(alone.processor, 0.05)
        is_right = times <= most and ours.output == due
        print(f"{size} commits with open branches, {count} workers: farmdawn {ours}, {times:.2f} times the import's"
              f"{'' if is_right else '; NOT AS IT MUST BE'}", flush=True)
        right &= is_right
    if HAS_GIT:
        _, folder = bench.git_import()
        theirs = measure(["git", "-C", folder, "rev-list", "--bisect", "main", "^old"], limit=300, due=(0, STOPPED))
        print(f"{size} commits with open branches: git rev-list --bisect {theirs} for the first of them; {ratio(theirs.processor, ours.processor)}")
    return right


def workers(bench, size):
    bench.write(streams.generated, size)
    one, same = None, True
    for count in (1, 2, 8, 64):
        ours = bench.ask("simulate", "--workers", str(count), MAIN, OLD, plan_of(size))
        one = one or ours
        same &= (ours.status, ours.output) == (one.status, one.output)
        of_one = ours.processor / max(one.processor, 0.001)
        print(f"{size} commits, {count} workers: farmdawn {ours}, {of_one:.2f} times one worker's, "
              f"{ours.seconds:.2f} s by the clock{'' if same else '; ANOTHER OUTPUT'}")
    return same


def many(bench, size):
    """64 searches for first bad commits that are spread over a line. Nothing is to wait for, so one worker is the best there is."""
    bench.write(streams.line, size)
    with open(bench.path("searches"), "w") as file:
        for number in range(64):
            bad = (number * 2654435761 % 64 + 1) * size // 65
            file.write(f"{MAIN} {OLD} {'g' * bad}{'b' * (size - bad)}\n")
    one, same = None, True
    for count in (1, 64):
        ours = least(lambda count=count: bench.ask("many", str(count), "searches"))
        one = one or ours
        same &= (ours.status, ours.output) == (one.status, one.output)
        print(f"64 searches over {size} commits, {count} workers: farmdawn {ours}, "
              f"{ours.processor / max(one.processor, 0.001):.2f} times one worker's{'' if same else '; ANOTHER OUTPUT'}", flush=True)
    return same


def serve(bench, commits, outcomes):
    return dialogues.costs(bench, commits, outcomes)


def sample(bench, *sizes):
    for size in sizes:
        ours = bench.ask("sample", "1", str(size))
        print(f"sample 1 {size}: farmdawn {ours}; {'; '.join(ours.output.decode().splitlines()[:2])}")


# ---- tests

# Each line of the table is the name of a commit, its status, and the seconds of its test.
TEST = """commit=${1:-$(git rev-parse HEAD)}
set -- $(grep "^$commit" '%s')
sleep "$3"
exit "$2"
"""
COUNTS = (1, 2, 4, 8)


def table(bench, folder, seconds):
    """Writes the script of a test, whose seconds a call gives; the last third of the commits is bad. The script's path."""
    names = git(folder, "rev-list", "--reverse", "main").split()
    with open(bench.path("table"), "w") as file:
        for place, name in enumerate(names):
            file.write(f"{name} {int(place >= len(names) * 2 // 3)} {seconds():.3f}\n")
    with open(bench.path("test.sh"), "w") as file:
        file.write(TEST % bench.path("table"))
    return bench.path("test.sh")


def by_bisect_run(bench, folder, command, due=0):
    """What `git bisect run` costs, how many tests it makes, and its answer."""
    git(folder, "bisect", "start", "main", git(folder, "rev-list", "--max-parents=0", "main"))
    cost = measure(["git", "-C", folder, "bisect", "run", *command], keep=bench.path("output"), environment=repository.CALM,
                   due=(due,))
    git(folder, "bisect", "reset")
    return cost, len(re.findall(rb"^running", cost.output, re.M)), answer_of(cost.output)


def workers_text(count):
    return f"{count} worker{'s' * (count > 1)}"


def answer_of(output):
    return re.findall(rb"^([0-9a-f]{40}) is the first bad commit$", output, re.M)


def run_tests(bench, label, folder, seconds):
    """The clock of a search by tests, for each number of workers, beside git."""
    command = ["sh", table(bench, folder, seconds)]
    theirs, count, due = by_bisect_run(bench, folder, command)
    print(f"{label}: git bisect run {theirs.seconds:.2f} s by the clock, {count} tests")
    right = True
    for number in COUNTS:
        ours = bench.ask("run", "--workers", str(number), MAIN, OLD, "--", *command)
        right &= answer_of(ours.output) == due
        print(f"{label}: farmdawn with {workers_text(number)} {ours.seconds:.2f} s by the clock, {marks_of(ours.output)} tests "
              f"in its log; {ratio(theirs.seconds, ours.seconds)}{'' if right else '; ANOTHER ANSWER'}", flush=True)
    return right


def overhead(bench, count):
    """What a test costs beside its command, where each of so many commits is skipped."""
    bench.write(streams.line, count)
    folder = repository.filled(bench.path("skipped"), bench.stream)
    command = ["sh", "-c", "exit 125"]
    plain = measure(["sh", "-c", f"i=0; while [ $i -lt {count} ]; do sh -c 'exit 125'; i=$((i + 1)); done"])
    search_alone = bench.ask("simulate", MAIN, OLD, "", due=(2,))
    ours = bench.ask("run", MAIN, OLD, "--", *command, due=(2,))
    theirs, tests, _ = by_bisect_run(bench, folder, command, due=2)
    alone = plain.processor / count
    per_test = max(ours.processor - search_alone.processor, 0) / max(marks_of(ours.output), 1) - alone
    of_git = theirs.processor / max(tests, 1) - alone
    print(f"overhead of a test: farmdawn {1000 * per_test:.2f} ms, git bisect run {1000 * of_git:.2f} ms; "
          f"ratio {of_git / max(per_test, 0.0001):.1f}; its command alone {1000 * alone:.2f} ms")


def run(bench, commits, milliseconds, tests):
    needs_git()
    bench.write(streams.line, commits)
    folder = repository.filled(bench.path("tested"), bench.stream)
    length, choice = milliseconds / 1000, random.Random(1)
    even = run_tests(bench, f"{commits} commits, tests of {length} s", folder, lambda: length)
    uneven = run_tests(bench, f"{commits} commits, tests of {length / 4:g} to {length * 3:g} s", folder,
                       lambda: length * choice.choice([0.25, 0.25, 0.5, 3]))
    overhead(bench, tests)
    return even and uneven


def machine():
    """The machine in a line."""
    with open("/proc/cpuinfo") as file:
        model = re.findall(r"model name\s*: (.*)", file.read())[:1] or ["an unknown processor"]
    with open("/proc/meminfo") as file:
        memory = int(file.readline().split()[1]) // 1048576
    return f"{os.cpu_count()} processors ({model[0]}), {memory} GB, {git('.', '--version')}"


BUILD = ["sh", "-c", "make -s && ./check"]


def by_git_farmdawn(bench, folder, commits, count):
    """What `git farmdawn` costs, how many tests it makes, and its answer."""
    words = [os.path.join(TOP, "driver", "bin", "git-farmdawn"), "--workers", str(count), "main", f"main~{commits - 1}", "--", *BUILD]
    with open(bench.path("told"), "wb") as told:
        cost = measure(["sh", "-c", 'exec 2>"$1"; shift; exec "$@"', "sh", told.name, *words], keep=bench.path("output"),
                       folder=folder, environment={**repository.CALM, "FARMDAWN": os.path.abspath(bench.program)})
    with open(bench.path("told"), "rb") as told:
        return cost, len(re.findall(rb": testing ", told.read())), answer_of(cost.output)


def wall(bench, commits, files, runs):
    needs_git()
    columns = {"`git bisect run`": lambda folder: by_bisect_run(bench, folder, BUILD)}
    columns.update({workers_text(count): lambda folder, count=count: by_git_farmdawn(bench, folder, commits, count)
                    for count in COUNTS})
    seconds, tests = {name: [] for name in columns}, {name: [] for name in columns}
    for turn in range(runs):
        bug = max(1, commits * (2 * turn + 1) // (2 * runs))
        bench.write(streams.project, commits, files, bug, 1, turn)
        for name, search_by in columns.items():
            folder = repository.filled(bench.path("project"), bench.stream)
            cost, count, answer = search_by(folder)
            due = git(folder, "rev-parse", f"main~{commits - 1 - bug}").encode()
            shutil.rmtree(folder)
            if answer != [due]:
                print(f"{name} says {answer}; the first bad commit is {due}")
                return False
            seconds[name].append(cost.seconds)
            tests[name].append(count)
            print(f"run {turn + 1}, {name}: {cost.seconds:.1f} s, {count} tests", file=sys.stderr, flush=True)
    print(f"{commits} commits, {files} files of C, a second of processor time in each test; "
          f"the middle of {runs} runs, by the clock.")
    print(f"{machine()}.\n")
    print("| | " + " | ".join(columns) + " |")
    print("|---" * (len(columns) + 1) + "|")
    print("| seconds | " + " | ".join(f"{statistics.median(seconds[name]):.1f}" for name in columns) + " |")
    print("| tests run | " + " | ".join(f"{statistics.median(tests[name]):.0f}" for name in columns) + " |")
    return True


# ---- what was made to cost much

GROWTH = 2.5  # what time and memory may grow by, where the size doubles


def middle_name(bench):
    """The name of a commit in the middle of the line that the stream has."""
    return bench.ask("next", MAIN, OLD).output.split()[-1]


def of_abbreviations(bench, size):
    """A log of so many abbreviations over a line of fifty times as many commits."""
    bench.write(streams.line, 50 * size)
    return bench.write(streams.named_again, size, middle_name(bench)[:10], to="log")


def of_repeated_goods(bench, size, skipped=()):
    """A log of so many marks of a good commit over a line of fifty times as many."""
    bench.write(streams.line, 50 * size)
    return bench.write(streams.good_again, size, skipped, to="log")


def of_far_ancestors(bench, size):
    """A log of so many marks of the root of a line of a fifth as many commits, by its distance from the tip."""
    bench.write(streams.line, size // 5)
    return bench.write(streams.good_again, size, (), b"main~%d" % (size // 5 - 1), to="log")


LONG_LOGS = {
    "abbreviations": of_abbreviations,
    "repeated goods": of_repeated_goods,
    "repeated goods behind a skip": lambda bench, size: of_repeated_goods(bench, size, [b"main~1"]),
}


def costly(bench, divisor):
    """Each kind with its smaller size, and a call that writes one of a size and gives its bytes and the words that ask."""
    for make, size in streams.KINDS.items():
        yield make.__name__, size // divisor, lambda n, make=make: (bench.write(make, n), NOTHING_TO_ASK)
    yield "skips in a plan", 50000 // divisor, lambda n: (bench.write(streams.line, n), ["simulate", MAIN, OLD, "s" * n])
    for make, size in streams.LOGS.items():
        yield f"log of {make.__name__}", size // divisor, lambda n, make=make: (
            bench.write(streams.ten) and bench.write(make, n, to="log"), REPLAY)
    for label, make in LONG_LOGS.items():
        yield f"log of {label}", 1000 // divisor, lambda n, make=make: (make(bench, n), REPLAY)
    yield "log of far ancestors", 250000 // divisor, lambda n: (of_far_ancestors(bench, n), REPLAY)
    for count in (8, 64):
        yield f"skips by {count} workers", 400 // divisor, lambda n, count=count: (
            bench.write(streams.line, n), ["run", "--workers", str(count), MAIN, OLD, "--", "sh", "-c", "exit 125"])


def grown(first, second, least):
    return max(second, least) / max(first, least)


def costs_of(bench, make, size):
    """The bytes and the costs at a size and at twice the size, with a stack of 256 KiB."""
    counts, costs = [], []
    for times in (1, 2):
        count, words = make(size * times)
        counts.append(count)
        costs.append(bench.ask(*words, limit=60, stack=256 << 10, due=None))
    return counts, costs


def hostile(bench, divisor):
    wrong, tried = [], 0
    for label, size, make in costly(bench, divisor):
        counts, (first, second) = costs_of(bench, make, size)
        slower, larger = grown(first.processor, second.processor, 0.05), grown(first.peak, second.peak, 1024)
        if slower > GROWTH:  # once more, as another program may have come between
            _, again = costs_of(bench, make, size)
            slower = min(slower, grown(again[0].processor, again[1].processor, 0.05))
        ended = all(cost.status in range(18) and cost.status != 15 for cost in (first, second))
        right = slower <= GROWTH and larger <= GROWTH and ended
        print(f"{label} {size}: {counts[0]} and {counts[1]} bytes; {first} and {second}; time grows by {slower:.1f}, "
              f"memory by {larger:.1f}; status {first.status} and {second.status}"
              f"{'' if right else '; NOT AS IT MUST BE'}", flush=True)
        tried += 1
        wrong += [] if right else [label]
    print(f"{tried} kinds, not as they must be: {', '.join(wrong) or 'none'}")
    return not wrong


# ---- the command line


def certify(bench, commits):
    return certificate_costs.certificates(bench, commits, GROWTH, NO_COMMIT)


def folders(bench, files, commits):
    needs_git()
    return folder_costs.folders(bench, files, commits, machine(), os.path.join(TOP, "driver", "bin", "git-farmdawn"))


def logs(bench, turns):
    needs_git()
    return agree.logs(bench, turns)


@dataclass
class Subject:
    call: Callable
    full: tuple
    quick: tuple
    program: str = "farmdawn"
    is_list: bool = False  # whether any number of sizes will do


SUBJECTS = {
    "import": Subject(import_, (100000, 10000, 500), (5000, 500, 20)),
    "stream": Subject(stream, (300, 1000000), (20, 50000), "bench"),
    "forest": Subject(forest, (40, 50, 25, 20000), (10, 10, 10, 1000), "bench"),
    "entries": Subject(entries, (550, 39000000, 40000000, 40000001), (550, 550000), is_list=True),
    "weights": Subject(weights, (20000, 100000), (2000,), "bench", is_list=True),
    "search": Subject(search, (20000, 100000), (3000,), is_list=True),
    "topics": Subject(topics, (100000,), (5000,)),
    "workers": Subject(workers, (100000,), (5000,)),
    "many": Subject(many, (100000,), (5000,)),
    "serve": Subject(serve, (100000, 50000), (3000, 1000)),
    "farm": Subject(farm, (50000, 100000), (1000, 2000), "bench", is_list=True),
    "run": Subject(run, (1000, 200, 300), (60, 100, 20)),
    "wall": Subject(wall, (300, 40, 3), (30, 8, 1)),
    "sample": Subject(sample, (20000, 100000), (3000,), is_list=True),
    "hostile": Subject(hostile, (1,), (20,)),
    "certify": Subject(certify, (100000,), (3000,)),
    "folders": Subject(folders, (1000, 300), (60, 20)),
    "logs": Subject(logs, (10,), (3,)),
}


def measured(name, words, is_quick, path=None):
    """Measures a subject; whether all is as it must be."""
    subject = SUBJECTS[name]
    sizes = tuple(map(int, words)) or (subject.quick if is_quick else subject.full)
    if len(sizes) != len(subject.full) and not subject.is_list:
        sys.exit(f"the sizes of {name} are {len(subject.full)}")
    if subject.program == "farmdawn":
        path = path or os.environ.get("FARMDAWN")
    with tempfile.TemporaryDirectory() as work:
        return subject.call(Bench(work, subject.program, path and os.path.abspath(path)), *sizes) is not False


def all_measured(is_quick, path):
    """Measures each subject whose needs are here; whether all is as it must be."""
    right = True
    for name, subject in SUBJECTS.items():
        print(f"-- {name}", flush=True)
        try:
            right &= measured(name, [], is_quick, path if subject.program == "farmdawn" else None)
        except Missing as missing:
            print(f"passed over, as {missing} is not here")
    return right


def real(words, is_quick, path):
    folder, pairs = (*words, 3 if is_quick else 10)[:2]
    path = path or os.environ.get("FARMDAWN")
    with tempfile.TemporaryDirectory() as work:
        return agree.real(Bench(work, "farmdawn", path and os.path.abspath(path)), folder, int(pairs))


def read_arguments():
    parser = argparse.ArgumentParser(usage="benches/bench.py SUBJECT [SIZE ..] [--quick] [--program FILE]", add_help=False)
    parser.add_argument("subject", choices=[*SUBJECTS, "real", "gate", "gates", "watch", "all"])
    parser.add_argument("words", nargs="*")
    parser.add_argument("--quick", action="store_true")
    parser.add_argument("--program")
    return parser.parse_intermixed_args()


def main():
    if len(sys.argv) < 2 or sys.argv[1] in ("-h", "--help"):
        print(__doc__)
        return True
    given = read_arguments()
    if given.subject == "watch":
        watch.watch(*given.words)
        return True
    if given.subject == "gate":
        print(gate.table(TOP, given.words), end="")
        return True
    if given.subject == "gates":
        print(gate.beside(*given.words), end="")
        return True
    if given.subject == "all":
        return all_measured(given.quick, given.program)
    try:
        if given.subject == "real":
            return real(given.words, given.quick, given.program)
        return measured(given.subject, given.words, given.quick, given.program)
    except Missing as missing:
        sys.exit(f"{given.subject} needs {missing}")


if __name__ == "__main__":
    sys.exit(not main())
