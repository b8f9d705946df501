#!/usr/bin/env python3
"""Random searches of farmdawn run by 2 to 64 workers, in which tests that nobody asks for any more are ended at any point of theirs,
each beside one worker's, byte for byte: ended.py [--seed N] [--count N] [--from N] [--jobs N]

No test of a search may run on behind it, and none may stay a zombie while it goes on. The histories, and what each test ends with
and when, are those of needed.py; a part of the searches goes in legs, by a journal or in folders. FARMDAWN names the program."""
import collections
import os
import random
import subprocess
import time

import needed
import trials
from repositories import CALM, FARMDAWN, call

# the last word is the commit
TEST = """for commit; do :; done
read -r pause status <"$TABLE/$commit"
[ -z "${AT_ONCE-}" ] || exit "$status"
trap '[ -z "$pid" ] || kill $pid; exit 255' TERM
sleep "$pause" &
pid=$!
wait $pid
exit "$status"
"""
KINDS = [["run"]] * 4 + [["run", "--leg", "1"], ["run", "--leg", "3"], ["journal", "run"], ["checkout", "run"]]
LONGEST_ZOMBIE = 1.0  # seconds; a look comes 50 milliseconds after the last one, and the machine may be busy

Said = collections.namedtuple("Said", "status text dropped zombies")


def processes():
    """The number, the parent, the state and the environment of each process."""
    for name in filter(str.isdigit, os.listdir("/proc")):
        try:
            with open(f"/proc/{name}/stat", "rb") as file:
                state, parent = file.read().rpartition(b")")[2].split()[:2]
            with open(f"/proc/{name}/environ", "rb") as file:
                yield int(name), int(parent), state.decode(), file.read()
        except (FileNotFoundError, ProcessLookupError, PermissionError):
            continue


def watch(program):
    """Waits for the program, and gives those of its children that were zombies for longer than they may be."""
    since, found = {}, set()
    while program.poll() is None:
        now = time.monotonic()
        dead = {pid for pid, parent, state, _ in processes() if parent == program.pid and state == "Z"}
        since = {pid: since.get(pid, now) for pid in dead}
        found.update(pid for pid in dead if now - since[pid] > LONGEST_ZOMBIE)
        time.sleep(0.2)
    return sorted(found)


def farmdawn(work, stream, table, words, name, **more):
    """What a search in a new folder of this name says."""
    folder = os.path.join(work, name)
    os.mkdir(folder)
    with open(stream, "rb") as given, open(os.path.join(folder, "said"), "wb") as said, open(os.path.join(folder, "told"), "wb") as told:
        program = subprocess.Popen([FARMDAWN, *words, "--", "sh", "-c", TEST, "test"], cwd=folder, env={**CALM, "TABLE": table, **more},
                                   stdin=given, stdout=said, stderr=told)
        zombies = watch(program)
    with open(os.path.join(folder, "said"), "rb") as said, open(os.path.join(folder, "told"), "rb") as told:
        return Said(program.returncode, said.read(), told.read().count(b" dropped\n"), zombies)


def left_of(table):
    """What still runs of the tests by a table, where something does for two seconds."""
    for _ in range(20):
        left = [pid for pid, _, _, environment in processes() if f"TABLE={table}\0".encode() in environment]
        if not left:
            return []
        time.sleep(0.1)
    return left


def try_one(number, work, seed):
    choice = random.Random(f"{seed} {number}")
    repository, table, stream = (os.path.join(work, name) for name in ("repository", "table", "stream"))
    names, parents = needed.make_repository(choice, repository)
    needed.write_table(choice, table, names, parents)
    with open(stream, "w") as file:
        file.write(call(repository, "git", "fast-export", "--all", "--no-data")[1])
    search, kind = needed.random_search(choice, names), choice.choice(KINDS)
    several = [*kind, "--workers", str(choice.choice([2, 3, 4, 8, 16, 64])), *search.words]
    due = farmdawn(work, stream, table, [*kind, *search.words], "one", AT_ONCE="1")
    got = farmdawn(work, stream, table, several, "several")
    return several, due, got, left_of(table)


def main():
    arguments = trials.read_arguments(__doc__, 500, jobs=4)
    counts, statuses, wrong = collections.Counter(), collections.Counter(), 0
    for number, (words, due, got, left) in trials.try_all(arguments, lambda number, work: try_one(number, work, arguments.seed)):
        counts.update({"ended tests": got.dropped, "searches with one": got.dropped > 0})
        statuses[got.status] += 1
        same = got[:2] == due[:2] and not left and not got.zombies
        if not same:
            print(f"{number}: {' '.join(words)} left: {left} zombies: {got.zombies}\n---- one worker\n{due}\n---- several\n{got}", flush=True)
        wrong += not same
    print("statuses: " + trials.counted(statuses))
    print(trials.counted(counts))
    trials.end(arguments, "searches", wrong, right="as one worker")


if __name__ == "__main__":
    main()
