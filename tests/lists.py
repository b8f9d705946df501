#!/usr/bin/env python3
"""Random lists of searches: `farmdawn many N FILE` beside `farmdawn simulate` on each line.

Usage: tests/lists.py [--seed S] [--count N] [--from N]

Each list has up to 12 searches, and now and then 64, over a stream that a number gives; their ends, skips, terms, plans and
options are random, and some are refused when they begin. It is run by 1 to 64 workers. The text must be that of the lines one by
one, each behind its number, and the status the first that is not 0. Now and then a line is no search: then the first such line
alone is told.

The program is the one that FARMDAWN names, or the one that was built. The same seed and number make the same list.
"""
import os
import random
import subprocess

import trials

TOP = os.path.dirname(os.path.dirname(os.path.abspath(__file__)))
FARMDAWN = os.environ.get("FARMDAWN", os.path.join(TOP, "crates/farmdawn/out/farmdawn"))
WRONG = ["main", "", "main main~1 gx", "--leg 2 main main~1 g", "--trace main main~1 g", "--workers 2 main main~1 g",
         "--replay log g"]


def said(words, stream=b"", folder="."):
    done = subprocess.run([FARMDAWN, *words], cwd=folder, input=stream, stdout=subprocess.PIPE, stderr=subprocess.DEVNULL)
    return done.returncode, done.stdout


def random_search(choice, count):
    """The words of a search over so many commits."""
    first_bad = choice.randrange(count)
    wild = choice.choice(["gb", "gb", "gbs", "gbsak"])
    plan = "".join("b" if place >= first_bad and choice.random() < 0.8 else choice.choice(wild) for place in range(choice.randrange(1, count + 3)))
    name = lambda: choice.choice(["main", f"main~{choice.randrange(6)}", f"main~{choice.randrange(count)}", choice.choice(["none", "main^2"])])
    words = ["--first-parent"] if choice.random() < 0.2 else []
    words += ["--term-new", "fixed", "--term-old", "broken"] if choice.random() < 0.1 else []
    words += ["--lenient-exit"] if choice.random() < 0.1 else []
    words += ["--skip", name()] if choice.random() < 0.2 else []
    return words + [name()] + [name() for _ in range(choice.choice([1, 1, 2]))] + [plan]


def told_one_by_one(lines, stream):
    """What the lines tell, one after the other."""
    status, text = 0, b""
    for number, line in enumerate(lines, 1):
        own, said_of = said(["simulate", *line.split(" ")], stream)
        status, text = status or own, text + b"search %d\n" % number + said_of
    return status, text


def try_one(number, folder, seed):
    """What is wrong with a list, or nothing."""
    choice = random.Random(f"{seed} {number}")
    count = choice.randrange(2, 40)
    stream = said(["gen", str(choice.randrange(1000)), str(count)])[1]
    lines = [" ".join(random_search(choice, count)) for _ in range(64 if choice.random() < 0.02 else choice.randrange(13))]
    wanted = told_one_by_one(lines, stream)
    if choice.random() < 0.15:
        at = choice.randrange(len(lines) + 1)
        lines.insert(at, choice.choice(WRONG))
        wanted = 23, b"list refused at line %d\n" % (at + 1)
    elif choice.random() < 0.02:
        lines = ["main main~1 gb"] * choice.choice([65, 70])
        wanted = 23, b"list refused at line 65\n"
    with open(os.path.join(folder, "list"), "w") as out:
        out.write("\n".join(lines) + ("\n" if lines and choice.random() < 0.8 or lines and not lines[-1] else ""))
    workers = choice.choice([1, 2, 3, 4, 8, 64])
    got = said(["many", str(workers), "list"], stream, folder)
    return None if got == wanted else f"{workers} workers, {len(lines)} lines: {got[0]} in place of {wanted[0]}"


def main():
    arguments = trials.read_arguments(__doc__, 100)
    wrong = 0
    for number, found in trials.try_all(arguments, lambda number, folder: try_one(number, folder, arguments.seed)):
        if found:
            wrong += 1
            print(f"{number}: {found}", flush=True)
    trials.end(arguments, "lists", wrong)


main()
