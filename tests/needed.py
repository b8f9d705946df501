#!/usr/bin/env python3
"""Random searches in which tests that nobody asks for any more are ended at every turn, each beside one worker's, byte for byte:
needed.py [--seed N] [--count N] [--from N] [--jobs N]

The histories have merges, and tests that skip or stop the search, each with a length of its own. FARMDAWN names the program."""
import collections
import os
import random
import re
import subprocess

import trials
from repositories import CALM, TRUST, call, git

# what a test of a commit does: a line of the file of its name has the seconds that it takes, and its status. While it runs there is
# a file that git ignores, as half of a build; one that finds it of a test that was ended stops the search
TEST = """[ ! -e half ] || exit 200
touch half
read -r pause status <"$0/$FARMDAWN_COMMIT"
[ -n "${AT_ONCE-}" ] || sleep "$pause"
rm half
exit "$status"
"""
LENGTHS = [0, 0.1, 0.2, 0.5, 1, 2]
# statuses that tests of some commits have in place of theirs
WILD = [[0, 1, 125], [125], [125], [125] * 5 + [128], [0, 1, 125, 125, 255]]

Search = collections.namedtuple("Search", "words workers")


def random_parents(choice):
    """The parents of each commit, by number: more or less of a line."""
    steps, merges = choice.choice([[1], [1, 1, 1, 2], [1, 2, 3]]), choice.choice([0, 0.1, 0.4])
    parents = [[]]
    for number in range(1, choice.randrange(6, 50)):
        named = [max(0, number - choice.choice(steps))]
        if choice.random() < merges:
            named.append(choice.randrange(number))
        parents.append(list(dict.fromkeys(named)))
    return parents


def make_repository(choice, folder):
    """A repository of commits without files, with a ref c0, c1, .. on each; their names, and the parents by number."""
    parents = random_parents(choice)
    text = []
    for number, named in enumerate(parents):
        text.append(f"reset refs/heads/c{number}\n\ncommit refs/heads/c{number}\nmark :{number + 1}\ncommitter gen <gen@gen> {1700000000 + 60 * number} +0000\n"
                    f"data <<END\nchange {number}\nEND\n")
        text += [f"{'merge' if index else 'from'} :{parent + 1}\n" for index, parent in enumerate(named)]
    call(".", "git", "init", "-q", "-b", "main", folder)
    call(folder, "git", "fast-import", "--quiet", stdin="".join(text).encode())
    with open(os.path.join(folder, ".git", "info", "exclude"), "a") as file:
        file.write("half\n")
    return git(folder, "rev-parse", *(f"c{number}" for number in range(len(parents)))), parents


def write_table(choice, table, names, parents):
    """What the test of each commit ends with, and after how long: bad from one commit on, but for some. In half of the searches what
    stops a search is there soon, then skips, and then the rest, so that what stood behind the first is asked for again."""
    os.mkdir(table)
    culprit, after = choice.randrange(len(names)), set()
    wild, share = choice.choice(WILD), choice.choice([0.1, 0.3, 0.5, 0.7])
    in_turn = choice.random() < 0.5
    if in_turn:
        wild, share = [125, 125, 128], 0.5
    for number, name in enumerate(names):
        if number == culprit or after.intersection(parents[number]):
            after.add(number)
        status = choice.choice(wild) if choice.random() < share else int(number in after)
        with open(os.path.join(table, name), "w") as file:
            length = {125: 0.7, 128: 0}.get(status, 1.5) if in_turn else choice.choice(LENGTHS)
            file.write(f"{length} {status}\n")


def random_search(choice, names):
    words = ["--first-parent"] if choice.random() < 0.2 else []
    if choice.random() < 0.2:
        words += ["--term-new", "broken", "--term-old", "fine"]
    for _ in range(choice.choice([0, 0, 1, 2])):
        words += ["--skip", choice.choice(names)]
    goods = [choice.choice(names[:3]) for _ in range(choice.choice([1, 1, 1, 2]))]
    return Search(words + [names[-1 - choice.randrange(3)], *goods], choice.choice([2, 3, 4, 6, 9]))


def farmdawn(folder, table, search, workers, **more):
    """The status, and what is printed and told."""
    environment = {**CALM, **more}
    words = ["git", "farmdawn", "--fresh", *TRUST, "--workers", str(workers), *search.words, "--", "sh", "-c", TEST, table]
    try:
        done = subprocess.run(words, cwd=folder, env=environment, stdin=subprocess.DEVNULL, stdout=subprocess.PIPE, stderr=subprocess.PIPE, timeout=600)
    except subprocess.TimeoutExpired as late:
        return "HANGS", (late.stdout or b"").decode(), (late.stderr or b"").decode("utf-8", "replace")
    return done.returncode, done.stdout.decode(), done.stderr.decode("utf-8", "replace")


def count_repeated(told):
    """How many commits were tested again, as they were asked for again."""
    tested = collections.Counter(re.findall(r": testing ([0-9a-f]+)$", told, re.M))
    return sum(times - 1 for times in tested.values())


def most_at_once(told):
    """How many tests ran at once by what was told, where ended ones may still be dying."""
    now = most = 0
    for line in told.splitlines():
        if ": testing " in line:
            now += 1
        elif re.match(r"\S+( longer needed)?  +[0-9a-f]{12}", line):
            now -= 1
        most = max(most, now)
    return most


def try_one(number, work, seed):
    choice = random.Random(f"{seed} {number}")
    folder, table = os.path.join(work, "repository"), os.path.join(work, "table")
    names, parents = make_repository(choice, folder)
    write_table(choice, table, names, parents)
    search = random_search(choice, names)
    due = farmdawn(folder, table, search, 1, AT_ONCE="1", FARMDAWN_NEEDED="never")
    got = farmdawn(folder, table, search, search.workers, FARMDAWN_NEEDED="0")
    left = [name for name in os.listdir(os.path.join(folder, ".git", "farmdawn")) if name.startswith("run.")]
    left += [word for word in git(folder, "worktree", "list", "--porcelain") if word == "worktree"][1:]
    return search, due, got, left


def main():
    arguments = trials.read_arguments(__doc__, 50, jobs=4)
    counts, statuses, wrong = collections.Counter(), collections.Counter(), 0
    for number, (search, due, got, left) in trials.try_all(arguments, lambda number, work: try_one(number, work, arguments.seed)):
        ended, repeated = len(re.findall("^no longer needed", got[2], re.M)), count_repeated(got[2])
        counts.update({"tests": got[2].count(": testing "), "ended": ended, "tested again": repeated,
                       "searches with an ended test": ended > 0, "with one tested again": repeated > 0})
        statuses[got[0]] += 1
        same = got[:2] == due[:2] and not left and most_at_once(got[2]) <= search.workers
        if not same:
            print(f"{number}: {search} left: {left}\n---- one worker\n{due[0]}\n{due[1]}{due[2]}"
                  f"---- with tests ended\n{got[0]}\n{got[1]}{got[2]}", flush=True)
        wrong += not same
    print("statuses: " + trials.counted(statuses))
    print(trials.counted(counts))
    trials.end(arguments, "searches", wrong, right="as one worker")


if __name__ == "__main__":
    main()
