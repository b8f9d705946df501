#!/usr/bin/env python3
"""How long a search takes by the clock, simulated over `farmdawn serve`: the table of docs/MEASURED.md.

Usage: benches/hours.py [--commits N] [--searches N] [--workers N,N,..] [--seed N]

Each search is over a line of commits, of which those from a random one on are bad. A test takes an hour on average: each as long as
all others, or between a fifth and nine fifths of that, or of very different length (lognormal, sigma 0.8). No time passes: what
ends next is taken from a heap. Needless tests run on until the answer is known, or are given back as soon as they are told.
"""
import argparse
import heapq
import os
import random
import statistics
import subprocess

TOP = os.path.dirname(os.path.dirname(os.path.abspath(__file__)))
FARMDAWN = os.environ.get("FARMDAWN") or os.path.join(TOP, "crates/farmdawn/out/farmdawn")
KINDS = {
    "equal length": lambda choice: 1.0,
    "0.2 to 1.8 hours": lambda choice: choice.uniform(0.2, 1.8),
    "lognormal, sigma 0.8": lambda choice: choice.lognormvariate(-0.32, 0.8),
}


def stream(commits):
    """A line of commits; each has its number as its name."""
    text = "".join(f"commit refs/heads/main\noriginal-oid {n:040x}\ncommitter T <t@e> {n} +0000\ndata 1\nc\n" for n in range(commits))
    return text + "done\n"


class Engine:
    """A session of `farmdawn serve`, with what it told of needless workers and of the end."""

    def __init__(self, commits):
        self.process = subprocess.Popen([FARMDAWN, "serve", "--original-names"], stdin=subprocess.PIPE, stdout=subprocess.PIPE, text=True)
        self.process.stdin.write(stream(commits))
        self.needless, self.over = [], False
        self.reply()

    def ask(self, request):
        self.process.stdin.write(request + "\n")
        return self.reply()

    def reply(self):
        self.process.stdin.flush()
        while True:
            word, *rest = self.process.stdout.readline().split()
            if word == "needless":
                self.needless = [int(worker) for worker in rest[1:]]
            elif word == "end":
                self.over = True
            elif word not in ("log", "left", "answer"):
                return [word, *rest]

    def close(self):
        self.process.stdin.close()
        self.process.wait()


def hours(commits, workers, length, bad, is_ended, choice):
    """The hours of one search."""
    engine, clock, ends, tested = Engine(commits), 0.0, [], {}
    engine.ask(f"search main main~{commits - 1}")
    idle = list(range(workers, 0, -1))
    while not engine.over:
        while idle:
            word, *rest = engine.ask(f"pick {idle[-1]}")
            if word != "test":
                break
            worker = idle.pop()
            tested[worker] = int(rest[1], 16)
            heapq.heappush(ends, (clock + length(choice), worker))
        clock, worker = heapq.heappop(ends)
        engine.ask(f"post {worker} {int(tested.pop(worker) >= bad)}")
        idle.append(worker)
        for needless in engine.needless if is_ended and not engine.over else []:
            if needless in tested:
                engine.ask(f"give {needless}")
                del tested[needless]
                idle.append(needless)
        ends = [end for end in ends if end[1] in tested]
        heapq.heapify(ends)
    engine.close()
    return clock


def main():
    parser = argparse.ArgumentParser(description=__doc__, formatter_class=argparse.RawDescriptionHelpFormatter)
    parser.add_argument("--commits", type=int, default=1000)
    parser.add_argument("--searches", type=int, default=300)
    parser.add_argument("--workers", default="1,2,4,8,16,32,64")
    parser.add_argument("--seed", type=int, default=1)
    given = parser.parse_args()
    print("| Workers | " + " | ".join(f"{kind}: run on | are ended" for kind in KINDS) + " |")
    print("|---|" + "---|" * 2 * len(KINDS))
    for workers in map(int, given.workers.split(",")):
        cells = []
        for kind, length in KINDS.items():
            for is_ended in (False, True):
                choice = random.Random(f"{given.seed} {workers} {kind}")
                cells.append(statistics.mean(hours(given.commits, workers, length, choice.randrange(1, given.commits), is_ended, choice)
                                             for _ in range(given.searches)))
        print(f"| {workers} | " + " | ".join(f"{cell:.1f}" for cell in cells) + " |", flush=True)


if __name__ == "__main__":
    main()
