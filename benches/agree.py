"""Whether git and farmdawn agree: on the logs of searches, and on the answers in a repository."""
import os
import random
import subprocess
import sys
import time

import repository
import streams
from repository import CALM, git

# A search of git by its options, its terms, and the turns that are skipped.
WALKS = {
    "plain": ([], "bad", "good", set()),
    "skips": ([], "bad", "good", {0, 2, 3}),
    "own terms": (["--term-new", "slow", "--term-old", "fast"], "slow", "fast", {1}),
    "first parents": (["--first-parent"], "bad", "good", set()),
}
GOOD = 8  # so far before `main` lies the good end


class Known:
    """What a search knows: a bad commit, good ones, skipped ones."""

    def __init__(self, new, old):
        self.words = {new: "bad", old: "good", "skip": "skip"}
        self.commits = {"bad": set(), "good": set(), "skip": set()}

    def note(self, word, name):
        self.commits[self.words[word]].add(name)


def known_to_git(folder, new, old):
    """What the search that stands in a repository knows."""
    known = Known(new, old)
    for line in git(folder, "for-each-ref", "--format=%(refname:lstrip=2) %(objectname)", "refs/bisect").splitlines():
        ref, name = line.split()
        word = ref.rpartition("-")[0] or ref
        known.note(word, name)
    return known.commits


def known_to_program(bench, log, new, old):
    """What farmdawn's state lines say of a log, and the log that it prints."""
    with open(bench.path("log"), "wb") as file:
        file.write(log)
    with open(bench.stream, "rb") as stream:
        done = subprocess.run([bench.program, "replay", "--replay", "log"], stdin=stream, cwd=bench.work, stdout=subprocess.PIPE)
    if done.returncode:
        sys.exit(f"a log is refused with status {done.returncode}: {done.stdout.decode()}\n{log.decode()}")
    known, printed = Known(new, old), []
    for line in done.stdout.decode().splitlines(keepends=True):
        word, colon, name = line.strip().partition(": ")
        if colon and word in known.words:
            known.note(word, name)
        else:
            printed.append(line)
    return known.commits, "".join(printed).encode()


def replayed(bench, folder, log, new, old):
    """What git knows behind a log that it replays, and the log that it keeps."""
    with open(bench.path("again"), "wb") as file:
        file.write(log)
    git(folder, "bisect", "replay", bench.path("again"), check=False)
    known, kept = known_to_git(folder, new, old), git(folder, "bisect", "log")
    git(folder, "bisect", "reset")
    return known, f"{kept}\n".encode()


def walked(folder, walk, culprit, turns):
    """The logs of a search by git, up to its end or to so many marks, and behind each mark."""
    options, new, old, skipped = walk
    git(folder, "bisect", "start", *options, "main", f"main~{GOOD}")
    logs = [git(folder, "bisect", "log")]
    for turn in range(turns):
        after = subprocess.run(["git", "-C", folder, "merge-base", "--is-ancestor", culprit, "HEAD"], env=CALM).returncode == 0
        told = git(folder, "bisect", "skip" if turn in skipped else new if after else old, check=False)
        logs.append(git(folder, "bisect", "log"))
        if "is the first" in told or "only 'skip'ped" in told:
            break
    git(folder, "bisect", "reset")
    return [f"{log}\n".encode() for log in logs]


def agree_on(bench, folder, log, new, old):
    """Whether git, farmdawn, and git over the log that farmdawn prints know the same; the log that git keeps of the first."""
    ours, printed = known_to_program(bench, log, new, old)
    theirs, kept = replayed(bench, folder, log, new, old)
    back, _ = replayed(bench, folder, printed, new, old)
    if not ours == theirs == back:
        sys.exit(f"they differ\nfarmdawn {ours}\ngit {theirs}\nback {back}\n{log.decode()}")
    return kept


def logs(bench, turns):
    """Each log of git, once as it was kept and once as git keeps it behind its own replay."""
    bench.write(streams.branched, 40)
    folder = repository.filled(bench.path("repository"), bench.stream)
    for name, walk in WALKS.items():
        count = 0
        for back in (1, 4, 7):
            for log in walked(folder, walk, git(folder, "rev-parse", f"main~{back}"), turns):
                kept = agree_on(bench, folder, log, *walk[1:3])
                agree_on(bench, folder, kept, *walk[1:3])
                count += 1
        print(f"{name}: {count} logs agree, each replayed twice")


def chosen_pairs(folder, choice, pairs):
    """Bad commits, each with a good ancestor and a commit between them that is to be the first bad one."""
    commits, chosen = git(folder, "rev-list", "--all").split(), []
    for _ in range(100 * pairs):
        bad = choice.choice(commits)
        before = git(folder, "rev-list", bad).split()[6:]
        if len(before) > 2 and len(chosen) < pairs:
            good = choice.choice(before)
            chosen.append((bad, good, choice.choice(git(folder, "rev-list", f"{good}..{bad}").split())))
    return chosen


def places_of(stream):
    """The names of the commits in the order of the stream, as the exporter notes them."""
    names, in_commit = [], False
    for line in stream.split(b"\n"):
        if line.startswith(b"commit refs/"):
            in_commit = True
        elif in_commit and line.startswith(b"original-oid "):
            names.append(line.split()[1].decode())
            in_commit = False
    return names


def by_git(folder, bad, good, culprit):
    """The first bad commit by `git bisect run`, where a commit is bad that comes after the culprit."""
    git(folder, "bisect", "start", bad, good)
    git(folder, "bisect", "run", "sh", "-c", f"git merge-base --is-ancestor {culprit} HEAD && exit 1 || exit 0")
    answer = git(folder, "rev-parse", "refs/bisect/bad")
    git(folder, "bisect", "reset")
    return answer


def by_program(bench, folder, names, bad, good, culprit):
    """The first bad commit by farmdawn, over the names by place."""
    after = {*git(folder, "rev-list", "--all", "--ancestry-path", f"^{culprit}").split(), culprit}
    plan = "".join("b" if name in after else "g" for name in names)
    with open(bench.stream, "rb") as stream:
        done = subprocess.run([bench.program, "simulate", bad, good, plan], stdin=stream, stdout=subprocess.PIPE)
    last = done.stdout.decode(errors="surrogateescape").splitlines()[-1:]
    return last[0].partition(" ")[0] if done.returncode == 0 else f"status {done.returncode}"


def real(bench, source, pairs):
    """The answers in a clone of a repository, of so many pairs of ends."""
    folder = bench.path("clone")
    git(".", "clone", "-q", os.path.abspath(source), folder)
    export = ["git", "-C", folder, "fast-export", "--all", "--no-data", "--show-original-ids", "--signed-tags=strip",
              "--reencode=no"]
    with open(bench.stream, "wb") as file:
        subprocess.run(export, stdout=file, env=CALM, check=True)
    with open(bench.stream, "rb") as file:
        names = places_of(file.read())
    agreed, chosen = 0, chosen_pairs(folder, random.Random(1), pairs)
    for bad, good, culprit in chosen:
        began = time.time()
        ours = by_program(bench, folder, names, bad, good, culprit)
        between = time.time()
        theirs = by_git(folder, bad, good, culprit)
        agreed += ours == theirs == culprit
        print(f"{len(names)} commits: farmdawn {ours[:12]} in {between - began:.2f} s with its import, "
              f"git bisect run {theirs[:12]} in {time.time() - between:.2f} s"
              f"{'' if ours == theirs == culprit else f'; DIFFERENT, {culprit[:12]} is due'}")
    print(f"{agreed} of {len(chosen)} pairs agree")
    return agreed == len(chosen) > 0
