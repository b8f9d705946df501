#!/usr/bin/env python3
"""What it saves that tests are ended which nobody asks for any more: the table in docs/MEASURED.md.

Usage: benches/needed.py [--commits N] [--mean SECONDS] [--searches N] [--workers N,N,..] [--kinds KIND,KIND,..] [--jobs N]

Each search is one of `git farmdawn` over a line of commits, of which those from a random one on are bad. A test sleeps: as long
as all others, or between a fifth and nine fifths of the mean, or of very different length (lognormal, sigma 0.8); and one kind
of tests is short, a tenth of the mean. The same searches are made with FARMDAWN_NEEDED as `never`, as 1, since the long tests
stand for much longer ones, and as it is where tests are short. A line has the mean of the seconds by the clock. So many
searches run at once as --jobs says: tests that sleep take little of the processors, but what begins them does.
"""
import argparse
import os
import random
import subprocess
import sys
import tempfile
import time
from concurrent.futures import ThreadPoolExecutor

from repository import CALM, empty, git

TOP = os.path.dirname(os.path.dirname(os.path.abspath(__file__)))
FARMDAWN = os.environ.get("FARMDAWN") or os.path.join(TOP, "crates/farmdawn/out/farmdawn")
TEST = 'read -r pause status <"$0/$FARMDAWN_COMMIT"; sleep "$pause"; exit "$status"'
# by the random numbers of a search and the mean of the lengths
KINDS = {
    "equal": lambda choice, mean: mean,
    "mixed": lambda choice, mean: mean * choice.uniform(0.2, 1.8),
    "very different": lambda choice, mean: mean * choice.lognormvariate(-0.32, 0.8),
    "short": lambda choice, mean: mean / 10,
}


def make_line(folder, count):
    """The names of the commits, the first one first."""
    empty(folder)
    stream = "".join(f"commit refs/heads/main\ncommitter c <c> {number} +0000\ndata 1\nc\n" for number in range(count))
    subprocess.run(["git", "-C", folder, "fast-import", "--quiet"], input=stream.encode(), env=CALM, check=True)
    return git(folder, "rev-list", "--reverse", "main").split()


def write_table(folder, names, kind, mean, seed):
    choice = random.Random(f"{kind} {seed}")
    culprit = choice.randrange(1, len(names))
    os.mkdir(folder)
    for number, name in enumerate(names):
        with open(os.path.join(folder, name), "w") as file:
            file.write(f"{KINDS[kind](choice, mean):.3f} {int(number >= culprit)}\n")
    return names[culprit]


def search(room, kind, seed, workers, needed, arguments):
    """The seconds of a search, and how many tests it made."""
    with tempfile.TemporaryDirectory(dir=room) as work:
        folder, table = os.path.join(work, "repository"), os.path.join(work, "table")
        names = make_line(folder, arguments.commits)
        culprit = write_table(table, names, kind, arguments.mean, seed)
        environment = {**CALM, "PATH": os.path.join(TOP, "driver", "bin") + os.pathsep + os.environ["PATH"], "FARMDAWN": FARMDAWN}
        if needed is not None:
            environment["FARMDAWN_NEEDED"] = needed
        words = ["git", "farmdawn", "--workers", str(workers), "main", names[0], "--", "sh", "-c", TEST, table]
        began = time.monotonic()
        done = subprocess.run(words, cwd=folder, env=environment, stdout=subprocess.PIPE, stderr=subprocess.PIPE)
        spent = time.monotonic() - began
        if done.stdout.decode().splitlines()[-1:] != [f"{culprit} is the first bad commit"]:
            sys.exit(f"{kind} {seed} {workers}: {done.stdout.decode()}{done.stderr.decode()}")
        return spent, done.stderr.count(b": testing ")


def main():
    parser = argparse.ArgumentParser(usage=__doc__)
    for option, default in (("commits", 1000), ("searches", 5), ("jobs", 4)):
        parser.add_argument(f"--{option}", type=int, default=default)
    parser.add_argument("--mean", type=float, default=5)
    parser.add_argument("--workers", default="1,2,4,8,16")
    parser.add_argument("--kinds", default=",".join(KINDS))
    arguments = parser.parse_args()
    counts = [int(word) for word in arguments.workers.split(",")]
    with tempfile.TemporaryDirectory() as room, ThreadPoolExecutor(arguments.jobs) as pool:
        rows = [(kind, needed) for kind in arguments.kinds.split(",") for needed in ("never", None if kind == "short" else "1")]
        # the two rows of a kind at the same time, as others may keep the machine busy, too
        due = {(seed, kind, workers, needed): pool.submit(search, room, kind, seed, workers, needed, arguments)
               for kind in arguments.kinds.split(",") for workers in counts for seed in range(arguments.searches) for it, needed in rows if it == kind}
        print("| Tests | Ended | " + " | ".join(f"{count} worker{'s' if count > 1 else ''}" for count in counts) + " |")
        print("|---|---|" + "---|" * len(counts))
        for kind, needed in rows:
            cells = []
            for workers in counts:
                done = [due[seed, kind, workers, needed].result() for seed in range(arguments.searches)]
                cells.append(f"{sum(spent for spent, _ in done) / len(done):.1f} ({sum(tests for _, tests in done) / len(done):.0f})")
            print(f"| {kind} | {'at the end' if needed == 'never' else 'when needless'} | " + " | ".join(cells) + " |", flush=True)


if __name__ == "__main__":
    main()
