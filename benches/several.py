#!/usr/bin/env python3
"""What several tests cost in one search, and one by one: 300 commits, 12 tests, 5 commits that broke them.

benches/several.py [--workers 4,16] [--seeds 1,2,3] [--minute SECONDS] [--way bisect,apart,at-once,one,together]

A build takes 17 to 23 minutes, by its commit, and a test one to three, by its name: so a build is ten tests long. A minute is a fifth of a
second. Builds and tests are commands that wait, so that processors that others share change little. `git bisect run` builds each time.
Prints a row for each way, the means over the seeds:
 bisect    git bisect run for each test, one after the other
 apart     git farmdawn for each test, one after the other, with all workers
 at-once   git farmdawn for each test, as many at once as there are workers, which share nothing
 one       one search for all tests
 together  the same with --together
with the hours by the clock, the hours for which workers built and tested, and how many builds and tests were begun. Ends with status 1 where the ways
come to other answers than the commits that broke the tests. FARMDAWN is a program with `serve`; without it, that is the model."""
import argparse
import collections
import os
import random
import re
import statistics
import subprocess
import sys
import tempfile
import time

from repository import CALM, empty, git

TOP = os.path.dirname(os.path.dirname(os.path.abspath(__file__)))
ENV = {**CALM, "PATH": os.path.join(TOP, "driver", "bin") + os.pathsep + os.environ["PATH"],
       "FARMDAWN": os.environ.get("FARMDAWN", os.path.join(TOP, "driver", "model", "farmdawn"))}
COMMITS, TESTS, CULPRITS = 300, 12, 5
MINUTES = {"build": (17, 23), "test": (1, 3)}
WAYS = {"bisect": "`git bisect run`, one after the other", "apart": "`git farmdawn`, one after the other", "at-once": "`git farmdawn`, all at once",
        "one": "one search", "together": "one search, `--together`"}
# waits so many seconds, and notes for how long, also where it is ended; by words of bash alone, which start no process
WORK = """since=$EPOCHREALTIME
trap 'echo "$kind $since $EPOCHREALTIME" >>"$NOTES"' EXIT
trap 'exit 143' TERM
read -rt "$seconds" <>ROOM/never
"""
BUILD = """#!/bin/bash
read -r number <number
mapfile -t builds <ROOM/builds
kind=build seconds=${builds[number]}
. ROOM/work
exit 0
"""
TEST = """#!/bin/bash
read -r number <number
kind=test
while read -r name seconds culprit && [ "$name" != "$1" ]; do :; done <ROOM/tests
. ROOM/work
[ "$number" -lt "$culprit" ]
"""


class Scene:
    """The repository, the scripts, what each takes, and which commit broke which test."""

    def __init__(self, room, seed, minute):
        choice = random.Random(seed)
        self.room, self.minute = room, minute
        self.path = empty(os.path.join(room, "repository"))
        stream = "".join(f"commit refs/heads/main\ncommitter g <g> {1700000000 + n} +0000\ndata <<.\nChange {n}\n.\n"
                         f"M 100644 inline number\ndata <<.\n{n}\n.\nreset refs/tags/c{n}\nfrom refs/heads/main\n" for n in range(COMMITS + 1))
        subprocess.run(["git", "-C", self.path, "fast-import", "--quiet"], input=stream.encode(), env=CALM, check=True)
        git(self.path, "reset", "-q", "--hard", "main")
        distinct = choice.sample(range(1, COMMITS + 1), CULPRITS)
        culprits = distinct + [choice.choice(distinct) for _ in range(TESTS - CULPRITS)]
        self.tests = {f"t{number:02}": culprit for number, culprit in enumerate(culprits, 1)}
        self.write("tests", "".join(f"{test} {self.seconds(choice, 'test')} {culprit}\n" for test, culprit in self.tests.items()))
        self.write("builds", "".join(self.seconds(choice, "build") + "\n" for _ in range(COMMITS + 1)))
        self.write("list", "".join(test + "\n" for test in self.tests))
        for name, text in (("work", WORK), ("test", TEST), ("build", BUILD)):
            self.write(name, text.replace("ROOM", room))
        os.mkfifo(os.path.join(room, "never"))

    def seconds(self, choice, kind):
        return "%.3f" % (self.minute * choice.uniform(*MINUTES[kind]))

    def write(self, name, text):
        with open(os.path.join(self.room, name), "w") as file:
            file.write(text)
        os.chmod(os.path.join(self.room, name), 0o755)

    def begin(self, path, *words):
        """A command under way in a folder."""
        env = {**ENV, "NOTES": os.path.join(self.room, "notes"), "FARMDAWN_NEEDED": "0"}
        return subprocess.Popen(words, cwd=path, env=env, stdout=subprocess.PIPE, stderr=subprocess.PIPE)

    def search(self, workers, test, *more):
        """A search for one test, or with --tests for all of them."""
        return self.begin(self.path, "git", "farmdawn", "--quiet", "--fresh", "--trust-ends", "--workers", str(workers), "--build",
                          os.path.join(self.room, "build"), *more, f"c{COMMITS}", "c0", "--", os.path.join(self.room, "test"), test)

    def notes(self):
        """Seconds of all work, by kind, and forgets them."""
        found = collections.defaultdict(list)
        path = os.path.join(self.room, "notes")
        with open(path) as file:
            for line in file:
                kind, since, until = line.split()
                found[kind].append(float(until) - float(since))
        os.unlink(path)
        return found


# -- ways ----------------------------------------------------------------------

def output(process):
    """What a command prints; the end of the script where it fails."""
    text, told = process.communicate()
    if process.returncode:
        sys.exit(f"{' '.join(process.args)}: {process.returncode}\n{told.decode()}")
    return text.decode()


def bisect(scene, _):
    git(scene.path, "config", "advice.detachedHead", "false")
    texts = []
    for test in scene.tests:
        git(scene.path, "bisect", "start", f"c{COMMITS}", "c0")
        script = f"{scene.room}/build || exit 125; exec {scene.room}/test {test}"
        texts.append(output(scene.begin(scene.path, "git", "bisect", "run", "sh", "-c", script)))
        git(scene.path, "bisect", "reset")
    return "".join(texts)


def apart(scene, workers):
    return "".join(output(scene.search(workers, test)) for test in scene.tests)


def at_once(scene, workers):
    waiting, running, texts = list(scene.tests), {}, {}
    while waiting or running:
        while waiting and len(running) < workers:
            test = waiting.pop(0)
            running[test] = scene.search(max(1, workers // TESTS), test)
        for test, process in list(running.items()):
            if process.poll() is not None:
                texts[test] = output(running.pop(test))
        time.sleep(0.005)
    return "".join(texts[test] for test in scene.tests)


def one(scene, workers):
    return output(scene.search(workers, "{}", "--tests", os.path.join(scene.room, "list")))


def together(scene, workers):
    return output(scene.search(workers, "{}", "--together", "--tests", os.path.join(scene.room, "list")))


RUN = {"bisect": bisect, "apart": apart, "at-once": at_once, "one": one, "together": together}


def measured(scene, way, workers):
    """Hours, hours of work, builds and tests; and whether the answers are right."""
    began, hour = time.monotonic(), 60 * scene.minute
    text = RUN[way](scene, workers)
    took, notes = time.monotonic() - began, scene.notes()
    found = re.findall("^([0-9a-f]{40}) is the first bad commit", text, re.M)
    due = git(scene.path, "rev-parse", *[f"c{culprit}" for culprit in scene.tests.values()]).split()
    if found != due:
        print(f"{way}, {workers} workers: {found} and not {due}", file=sys.stderr)
    return (took / hour, sum(map(sum, notes.values())) / hour, len(notes["build"]), len(notes["test"])), found == due


def main():
    parser = argparse.ArgumentParser()
    parser.add_argument("--workers", default="4,16")
    parser.add_argument("--way", default=",".join(WAYS))
    parser.add_argument("--seeds", default="1,2,3")
    parser.add_argument("--minute", type=float, default=0.2)
    asked = parser.parse_args()
    right = True
    print("| Way | Workers | Hours | Hours of work | Builds | Tests |\n|---|---|---|---|---|---|")
    for way in asked.way.split(","):
        for workers in [1] if way == "bisect" else [int(word) for word in asked.workers.split(",")]:
            rows = []
            for seed in asked.seeds.split(","):
                with tempfile.TemporaryDirectory() as room:
                    row, is_right = measured(Scene(os.path.realpath(room), int(seed), asked.minute), way, workers)
                rows.append(row)
                right = right and is_right
            means = [statistics.mean(column) for column in zip(*rows)]
            print("| {} | {} | {:.1f} | {:.0f} | {:.0f} | {:.0f} |".format(WAYS[way], workers, *means), flush=True)
    return right


if __name__ == "__main__":
    sys.exit(not main())
