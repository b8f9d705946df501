#!/usr/bin/env python3
"""What `git farmdawn` costs of its own for each test, beside what git needs to check a commit out.

Usage: benches/cost.py [--commits N,..] [--workers N,..] [--runs N] [--lengths SECONDS,..] [--names] [--own] [--beside FOLDER]
                       [--program FILE] [--driver FOLDER]

Makes lines of so many commits with one file each in a temporary folder, and searches them with a test of nothing, `true`:
so each test is good, and nearly all that is measured is the search's own. Another search over the same commits is stopped by
its first test. All start alike, so that what one test more costs is the difference of their processor times, divided by that
of their numbers of tests. Where a control group can be made, as by root, the times count from the moment at which the first
test begins: over many commits the start takes so long that its own differences would hide the rest. What `git checkout` and
`git clean` cost, as a test runs them, is taken off, and so is what the program costs, which weighs all commits that are left
for each question: once for the tests, and once for the log. It is run alone by tests that wait a fifth of a second, as it looks
further ahead where tests take their time.

With --lengths, searches by tests that wait so long are timed by the clock instead, beside `git bisect run`: which says from
which length of a test on several workers are faster, and means something on a quiet machine alone.

With --own, the process of the driver alone is watched, without git, the program and the tests that it starts: what it takes up to the
first test, for each test from there on, and at most in memory. Its time counts while it runs, so that others on the machine add little.

With --beside, another driver in a folder of its own, as an installed one (`PREFIX/bin`), and this one search in turns, over two commits and
over all, none of which can be tested: what a start takes, and what each test more does, of the driver's process alone and with
all that it waits for, and how many times what the other one takes. Of so many runs the medians count.

With --names, the processes of a whole search are sampled by `perf`, and told apart by their names: those of the driver, with the
tests that it starts, divided by the number of tests, and those of the program and of git, most of which a search has at its start. So
what grows with the commits stands beside what a test costs.

Other times are of processors, those of the whole tree of processes, whoever waits for them; of some runs the least counts. A busy
machine adds to them, since processors that share a core slow each other: so the costs of `sh -c true` and of `git rev-parse`
stand above the table. The program is FARMDAWN or the one that a proved build left, the driver is that of this checkout.
"""
import argparse
import atexit
import collections
import ctypes
import os
import resource
import shutil
import statistics
import subprocess
import sys
import tempfile
import time
from dataclasses import dataclass

import repository

TOP = os.path.dirname(os.path.dirname(os.path.abspath(__file__)))
PR_SET_CHILD_SUBREAPER = 36
SAMPLES = 1000  # a second
STOPPING = ["sh", "-c", "exit 255"]
SKIPPING = ["sh", "-c", "exit 125"]


@dataclass
class Cost:
    processor: float    # seconds, of all processes
    late: float         # those from the first test on, where that is known
    tests: int          # how many were begun


def numbers(text):
    return [int(word) for word in text.split(",")]


def used():
    usage = resource.getrusage(resource.RUSAGE_CHILDREN)
    return usage.ru_utime + usage.ru_stime


class Group:
    """A control group of the kernel, which counts the time of all processes that were begun in it."""

    def __init__(self):
        self.folder = None
        for above, self.counter in (("/sys/fs/cgroup/cpuacct", "cpuacct.usage"), ("/sys/fs/cgroup", "cpu.stat")):
            folder = os.path.join(above, f"farmdawn-cost-{os.getpid()}")
            try:
                os.mkdir(folder)
            except OSError:
                continue
            if os.path.exists(os.path.join(folder, self.counter)):
                self.folder = folder
                return
            os.rmdir(folder)

    def enter(self):
        """Takes the process that calls it."""
        if self.folder:
            with open(os.path.join(self.folder, "cgroup.procs"), "w") as procs:
                procs.write(str(os.getpid()))

    def used(self):
        """Seconds so far."""
        with open(os.path.join(self.folder, self.counter)) as counter:
            text = counter.read().split()
        return int(text[0]) / 1e9 if len(text) == 1 else int(text[text.index("usage_usec") + 1]) / 1e6

    def used_once(self, done, is_so):
        """Seconds at the moment at which something is so, or at which the process that is done ends."""
        while done.poll() is None and not is_so():
            time.sleep(0.002)
        return self.used()

    def remove(self):
        if self.folder:
            os.rmdir(self.folder)


def spent_by(command, folder, environment=None, due=(0,), given=os.devnull, group=None, is_late=None):
    """Seconds of processors that a command took, with all that it started: what outlived it is waited for here. With a group,
    they count from the moment on at which it is late."""
    before = used()
    with open(given, "rb") as text:
        done = subprocess.Popen(command, cwd=folder, env=environment, stdin=text, stdout=subprocess.DEVNULL,
                                stderr=subprocess.DEVNULL, preexec_fn=group.enter if group else None)
    begun = group.used_once(done, is_late) if group else 0
    done.wait()
    while True:
        try:
            os.wait()
        except ChildProcessError:
            break
    if done.returncode not in due:
        sys.exit(f"{' '.join(command)}: ended with status {done.returncode}")
    return (used() - before, group.used() - begun) if group else used() - before


def spent_each(command, folder, times=40):
    """Milliseconds that one of these commands takes: the least mean of three rounds."""
    return 1000 * min(sum(spent_by(command, folder) for _ in range(times)) / times for _ in range(3))


def own_time(pid):
    """Milliseconds that a process of one thread was on a processor."""
    with open(f"/proc/{pid}/schedstat") as stat:
        return int(stat.read().split()[0]) / 1e6


def own_memory(pid):
    """Kilobytes that it had at most."""
    with open(f"/proc/{pid}/status") as status:
        return int(next(line for line in status if line.startswith("VmHWM")).split()[1])


def tell_own(searches, workers, runs):
    """Tells what the driver's process took, the least of some runs."""
    for count in workers:
        found = [searches.own(count, ["true"]) for _ in range(runs)]
        start, each, most = (min(row[at] for row in found) for at in range(3))
        print(f"  {count} workers: {start:.0f} ms up to the first test, {each:.1f} ms a test ({found[0][3]}), {most:.0f} MB", flush=True)


def taken(few, many):
    """The medians of a start and of a test more, alone and with all that was waited for."""
    starts = [statistics.median(row[at] for row in few) for at in range(2)]
    tests = [statistics.median((more[at] - less[at]) / (more[2] - less[2]) for less, more in zip(few, many)) for at in range(2)]
    return starts, tests


def tell_beside(both, workers, runs):
    """Tells what this driver took beside another one."""
    for count in workers:
        rows = [([], []) for _ in both]
        for _ in range(runs):
            for (few, many), searches in zip(rows, both):
                few.append(searches.whole(count, count + 1))
                many.append(searches.whole(count))
        for what, ours, theirs in zip(("a start", "a test"), *(taken(few, many) for few, many in rows)):
            print(f"  {count} workers: {what} {ours[0]:.2f} ms, with all {ours[1]:.2f}; beside {theirs[0]:.2f} and {theirs[1]:.2f}: "
                  f"{ours[0] / theirs[0]:.2f} and {ours[1] / theirs[1]:.2f} times", flush=True)


def write_line(path, commits):
    """A stream of a line of commits, each of which changes the one file."""
    with open(path, "w") as stream:
        for number in range(1, commits + 1):
            text = f"change {number}\n"
            stream.write(f"commit refs/heads/main\ncommitter gen <gen> {1000000000 + number} +0000\ndata {len(text)}\n{text}"
                         f"M 100644 inline content\ndata {len(text)}\n{text}\n")


def git_cost(folder):
    """Milliseconds of git for the checkout of a test, in a worktree of its own that goes from commit to commit."""
    beside = folder + "-beside"
    repository.git(folder, "worktree", "add", "-q", "--detach", beside, "main")
    plain = ["git", "-c", "core.hooksPath=/dev/null", "-c", "core.fsmonitor=", "-c", "gc.auto=0", "-c", "submodule.recurse=false"]
    names = repository.git(folder, "rev-list", "-n", "40", "main").split()
    spent = min(sum(spent_by([*plain, "checkout", "-q", "-f", "--detach", name], beside)
                    + spent_by([*plain, "clean", "-q", "-ffd"], beside) for name in names) for _ in range(3))
    repository.git(folder, "worktree", "remove", "--force", beside)
    return 1000 * spent / len(names)


class Searches:
    """Searches of one repository, whose stream is in a file."""

    def __init__(self, folder, stream, commits, environment, runs, group):
        self.folder, self.stream, self.commits, self.environment, self.runs = folder, stream, commits, environment, runs
        self.group = group if group.folder else None
        self.logs = os.path.join(folder, "..", "logs")

    def has_begun(self):
        """Whether a test of the search that runs has begun: its output has a file."""
        return os.path.isdir(self.logs) and bool(os.listdir(self.logs))

    def search(self, workers, command, due=(0,)):
        """The cost of the cheapest of some searches."""
        costs = []
        for _ in range(self.runs):
            shutil.rmtree(self.logs, ignore_errors=True)
            spent = spent_by(self.line(workers, command), self.folder, self.environment, due, group=self.group, is_late=self.has_begun)
            processor, late = spent if self.group else (spent, spent)
            # each test has an output of its own
            costs.append(Cost(processor, late, len(os.listdir(self.logs))))
        return min(costs, key=lambda cost: cost.late)

    def line(self, workers, command, back=None):
        """The words of a search; its ends are not tested, as the test of nothing is good at the bad one, too."""
        return ["git-farmdawn", "--fresh", "--trust-ends", "--workers", str(workers), "--log-dir", self.logs, "main",
                f"main~{back or self.commits - 1}", "--", *command]

    def whole(self, workers, back=None):
        """Milliseconds of the driver's process, and with all that it waited for, in a search without an answer; and the tests."""
        shutil.rmtree(self.logs, ignore_errors=True)
        done = subprocess.Popen(self.line(workers, SKIPPING, back), cwd=self.folder, env=self.environment, stdin=subprocess.DEVNULL,
                                stdout=subprocess.DEVNULL, stderr=subprocess.DEVNULL)
        os.waitid(os.P_PID, done.pid, os.WEXITED | os.WNOWAIT)
        own = own_time(done.pid)
        _, status, usage = os.wait4(done.pid, 0)
        done.returncode = os.WEXITSTATUS(status)
        if done.returncode != 2:
            sys.exit(f"a search that skips all ended with status {done.returncode}")
        return own, 1000 * (usage.ru_utime + usage.ru_stime), len(os.listdir(self.logs))

    def own(self, workers, command):
        """What the driver's process took: milliseconds up to the first test, and for each test; megabytes at most; and the tests."""
        shutil.rmtree(self.logs, ignore_errors=True)
        done = subprocess.Popen(self.line(workers, command), cwd=self.folder, env=self.environment, stdin=subprocess.DEVNULL,
                                stdout=subprocess.DEVNULL, stderr=subprocess.DEVNULL)
        start, last, most = None, 0.0, 0
        while done.poll() is None:
            try:
                last, most = own_time(done.pid), max(most, own_memory(done.pid))
            except (OSError, ValueError, IndexError, StopIteration):    # it has ended
                continue
            if start is None and self.has_begun():
                start = last
            time.sleep(0.002)
        tests = len(os.listdir(self.logs))
        return start or 0.0, (last - (start or 0.0)) / tests, most / 1024, tests

    def program(self, workers, command, due=(0,)):
        """The cost of the program alone, over the same commits, of the cheapest of some runs."""
        costs, lines = [], os.path.join(self.folder, "..", "lines")
        for _ in range(self.runs):
            open(lines, "w").close()
            spent = spent_by([self.environment["FARMDAWN"], "run", "--workers", str(workers), "main", f"main~{self.commits - 1}",
                              "--", "sh", "-c", f'echo >>"$0"; {command}', lines], self.folder, due=due, given=self.stream)
            costs.append(Cost(spent, spent, os.path.getsize(lines)))
        return min(costs, key=lambda cost: cost.processor / cost.tests)

    def bisect(self, command):
        """Seconds of `git bisect run`, which tests one commit after the other."""
        repository.git(self.folder, "bisect", "start", "main", f"main~{self.commits - 1}")
        spent = spent_by(["git", "bisect", "run", *command], self.folder, self.environment)
        repository.git(self.folder, "bisect", "reset")
        return spent


def measure(searches, workers, checkout):
    """Tells what one test more costs than a search of one test, and the whole search."""
    start = searches.search(1, STOPPING, due=(6,))
    print(f"  git bisect run true: {searches.bisect(['true']):.2f} s; a search of one test {start.processor:.2f} s", flush=True)
    shell = spent_each(["sh", "-c", "exec sleep 0"], searches.folder)
    begun = searches.program(1, "exit 255", due=(6,))
    follower = 1000 * (searches.program(1, "exit 0").processor - begun.processor)
    for count in workers:
        whole = searches.search(count, ["true"])
        more = whole.tests - start.tests
        alone = searches.program(count, "exec sleep 0.2")
        program = 1000 * (alone.processor - begun.processor) / (alone.tests - 1) - shell + follower / more
        own = 1000 * (whole.late - start.late) / more - checkout - program
        print(f"  {count} workers: {own:.0f} ms, and the program {program:.0f} ms; {whole.processor:.2f} s ({whole.tests})", flush=True)


def seconds(run):
    began = time.time()
    run()
    return time.time() - began


def compare(searches, workers, lengths):
    """Tells what searches by tests of these lengths take by the clock."""
    for length in lengths:
        command = ["sleep", length]
        print(f"  tests of {length} s: git bisect run {seconds(lambda: searches.bisect(command)):.1f} s", end="", flush=True)
        for count in workers:
            print(f", {count} workers {seconds(lambda: searches.search(count, command)):.1f} s", end="", flush=True)
        print()


def by_name(folder, commits, environment, workers):
    """Prints what the processes of one search took, by their names."""
    ends = ["main", f"main~{commits - 1}"]
    with tempfile.TemporaryDirectory() as work:
        samples = os.path.join(work, "samples")
        said = subprocess.run(["perf", "record", "-q", "-F", str(SAMPLES), "-o", samples, "--", "git", "farmdawn", "--fresh",
                               "--trust-ends", "--workers", str(workers), *ends, "--", "true"], cwd=folder, env=environment,
                              stdin=subprocess.DEVNULL, capture_output=True, text=True, check=True).stderr
        names = subprocess.run(["perf", "script", "-i", samples, "-F", "comm"], capture_output=True, text=True, check=True).stdout
    tests = said.count(": testing ")
    seen = collections.Counter(names.split())
    apart = {name: seen.pop(name, 0) / SAMPLES for name in ("farmdawn", "git")}
    seen.pop("perf", None)
    print(f"  {workers} workers: {sum(seen.values()) / SAMPLES / tests * 1000:.0f} ms a test ({tests}); "
          + ", ".join(f"{name} {seconds:.2f} s" for name, seconds in apart.items()), flush=True)


def main():
    parser = argparse.ArgumentParser(usage=__doc__)
    parser.add_argument("--commits", type=numbers, default=[1000, 30000, 100000])
    parser.add_argument("--workers", type=numbers, default=[1, 4, 16, 64])
    parser.add_argument("--runs", type=int, default=3)
    parser.add_argument("--lengths", type=lambda text: text.split(","))
    parser.add_argument("--names", action="store_true")
    parser.add_argument("--own", action="store_true")
    parser.add_argument("--beside")
    parser.add_argument("--program", default=os.environ.get("FARMDAWN", os.path.join(TOP, "crates", "farmdawn", "out", "farmdawn")))
    parser.add_argument("--driver", default=os.path.join(TOP, "driver", "bin"))
    words = parser.parse_args()
    if not os.access(words.program, os.X_OK):
        sys.exit(f"{words.program}: no program; FARMDAWN or --program names one")
    # what a search leaves behind for a moment becomes a child of this process, so that its time counts
    ctypes.CDLL(None).prctl(PR_SET_CHILD_SUBREAPER, 1, 0, 0, 0)
    environment = {**repository.CALM, "FARMDAWN": os.path.abspath(words.program),
                   "PATH": os.path.abspath(words.driver) + os.pathsep + os.environ["PATH"]}
    group = Group()
    atexit.register(group.remove)
    with tempfile.TemporaryDirectory() as work:
        if not words.lengths and not words.names and not words.own and not words.beside:
            print("own cost of a test beside git's checkout, of processors; the whole search (and its tests)", flush=True)
        for commits in words.commits:
            folder, stream = os.path.join(work, f"line{commits}"), os.path.join(work, "stream")
            write_line(stream, commits)
            repository.filled(folder, stream)
            if words.lengths:
                print(f"{commits} commits, by the clock", flush=True)
                compare(Searches(folder, stream, commits, environment, 1, group), words.workers, words.lengths)
                continue
            if words.beside:
                print(f"{commits} commits, beside {words.beside}", flush=True)
                other = {**environment, "PATH": os.path.abspath(words.beside) + os.pathsep + os.environ["PATH"]}
                both = [Searches(folder, stream, commits, one, 1, group) for one in (environment, other)]
                tell_beside(both, words.workers, words.runs)
                continue
            if words.own:
                print(f"{commits} commits, the driver's own process", flush=True)
                tell_own(Searches(folder, stream, commits, environment, 1, group), words.workers, words.runs)
                continue
            if words.names:
                print(f"{commits} commits, processors by the names of processes", flush=True)
                for workers in words.workers:
                    by_name(folder, commits, environment, workers)
                continue
            checkout = git_cost(folder)
            print(f"{commits} commits: sh -c true {spent_each(['sh', '-c', 'true'], folder):.1f} ms, "
                  f"git rev-parse HEAD {spent_each(['git', 'rev-parse', 'HEAD'], folder):.1f} ms, checkout by git {checkout:.1f} ms")
            measure(Searches(folder, stream, commits, environment, words.runs, group), words.workers, checkout)


if __name__ == "__main__":
    main()
