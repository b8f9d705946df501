#!/usr/bin/env python3
"""Random repositories: git farmdawn beside a search of the whole history, and beside git bisect run.

Usage: tests/repositories.py [--seed S] [--count N] [--from N] [--jobs N] [--keep DIR] [--files]

Each repository has up to 22 commits: merges that cross, roots that nothing joins, dates that rise or do not; each commit
has the status of its test in a file. The ends, skips and options are random, too, and so is the test: it reads that file,
or it asks whether a file is there that git tracks (`test -e`, `grep`, `make`), which every test does with --files. The work
tree stands at any of the commits.

whole: `farmdawn simulate` over the whole history of the ends. Its marks, status and answer must be those of git farmdawn,
which searches a part of it; skips that were given are left out, as the part may lack them, and so is the order of the
tests of several merge bases, which git farmdawn takes from git.

git: `git bisect run`. Where the tests are bad from one commit on and nothing is skipped, it must name the same commit. In
other histories the answer depends on which commits are asked; there both must be right: the answer is bad, and all its
parents are ancestors of commits that are good by the marks of that log. What is neither is told as a difference. git 2.39
ends a run with success, and without an answer, where a second merge base is to be tested; there it is run again.

The program is the one that FARMDAWN names, or the one that was built. The same seed and number make the same repository.
"""
import collections
import os
import random
import re
import shutil
import subprocess

import trials

TOP = os.path.dirname(os.path.dirname(os.path.abspath(__file__)))
FARMDAWN = os.environ.get("FARMDAWN", os.path.join(TOP, "crates/farmdawn/out/farmdawn"))
DRIVER = os.environ.get("FARMDAWN_DRIVER", os.path.join(TOP, "driver", "bin"))
TRUST = ["--trust-ends"]  # ends are not what is tested
CALM = {**os.environ, "GIT_CONFIG_GLOBAL": "/dev/null", "GIT_CONFIG_SYSTEM": "/dev/null", "GIT_CONFIG_NOSYSTEM": "1", "LC_ALL": "C",
        "FARMDAWN": FARMDAWN, "PATH": os.pathsep.join([DRIVER, os.path.join(TOP, "tools"), os.environ["PATH"]])}
# The tests by what they look at. All but the first are good or bad alone.
TESTS = {"verdict": ["sh", "-c", "exit $(cat verdict)"], "absent": ["test", "!", "-e", "bug"], "present": ["test", "-e", "fine"],
         "grep": ["grep", "-q", "fine", "words"], "make": ["make", "-s", "made"]}
LETTERS = {0: "g", 1: "b", 125: "s", 128: "a"}


def call(folder, *words, stdin=None):
    """The status and the standard output of a command in a folder."""
    done = subprocess.run(words, cwd=folder, env=CALM, input=stdin, stdout=subprocess.PIPE, stderr=subprocess.DEVNULL)
    return done.returncode, done.stdout.decode(errors="replace")


def git(folder, *words):
    return call(folder, "git", *words)[1].split()


# ---- a random repository, and a question over it

Question = collections.namedtuple("Question", "bad goods skips options terms plain test")


def random_parents(choice, count):
    """The parents of each commit, by number."""
    parents = [[]]
    for number in range(1, count):
        if choice.random() < 0.08:
            parents.append([])
            continue
        near = max(0, number - choice.choice([1, 2, 3, 6, number]))
        first = choice.randrange(near, number)
        others = [choice.randrange(number) for _ in range(choice.choice([0, 0, 0, 1, 1, 2]))]
        parents.append(list(dict.fromkeys([first] + others)))
    return parents


def verdicts(choice, parents):
    """The status of the test of each commit, and whether all are bad from one commit on and good elsewhere."""
    culprit = choice.randrange(len(parents))
    after = set()
    for number in range(len(parents)):
        if number == culprit or after.intersection(parents[number]):
            after.add(number)
    plain = choice.random() < 0.5
    wild = choice.choice([[0, 1], [0, 1, 125], [125], [0, 1, 125, 128]])
    return [1 if number in after else 0 if plain or choice.random() < 0.7 else choice.choice(wild) for number in range(len(parents))], plain


def put_file(path, text):
    return f"M 100644 inline {path}\ndata {len(text)}\n{text}\n"


def test_files(choice, status):
    """What a commit has for each of the tests. A file that lacks is removed, as a parent may have it."""
    return "".join([
        put_file("verdict", f"{status}\n"), put_file("Makefile", "made:\n\texit 1\n"),
        put_file("bug", "bug\n") if status else "D bug\n", "D fine\n" if status else put_file("fine", "fine\n"),
        choice.choice(["D words\n", put_file("words", "bad\n")]) if status else put_file("words", "fine\n"),
        "D made\n" if status else put_file("made", "made\n")])


def head_of_commit(choice, number, named, rising):
    """The command of a commit with these parents, on a ref of its own, up to its files. Its date rises with the number, or is any."""
    date = 1700000000 + (number * 60 if rising else choice.randrange(100000))
    return (f"reset refs/heads/c{number}\n\ncommit refs/heads/c{number}\nmark :{number + 1}\ncommitter gen <gen@gen> {date} +0000\n"
            f"data <<END\nchange {number}\nEND\n") + "".join(
                f"{'merge' if index else 'from'} :{parent + 1}\n" for index, parent in enumerate(named))


def make_repository(choice, folder, test):
    """A repository with a ref c0, c1, .. on each commit; the commits' names, the verdicts, and whether these are plain."""
    parents = random_parents(choice, choice.randrange(3, 23))
    statuses, plain = verdicts(choice, parents)
    if test != "verdict":
        statuses = [min(status, 1) for status in statuses]
    rising = choice.random() < 0.5
    text = []
    for number, named in enumerate(parents):
        text.append(head_of_commit(choice, number, named, rising))
        text.append(test_files(choice, statuses[number]) + put_file("number", f"{number}\n") + "\n")
    call(".", "git", "init", "-q", "-b", "main", folder)
    call(folder, "git", "fast-import", "--quiet", stdin="".join(text).encode())
    call(folder, "git", "checkout", "-q", f"c{choice.randrange(len(parents))}")
    return git(folder, "rev-parse", *(f"c{number}" for number in range(len(parents)))), statuses, plain


def random_question(choice, names, plain, test):
    """A question over commits with these names."""
    count = len(names)
    bad = names[choice.randrange(count // 2, count)]
    goods = [choice.choice(names) for _ in range(choice.choice([1, 1, 1, 2, 3]))]
    skips = []
    for _ in range(choice.choice([0, 0, 0, 1, 2])):
        one, other = f"c{choice.randrange(count)}", f"c{choice.randrange(count)}"
        skips.append(choice.choice([one, f"{one}..{other}"]))
    options = ["--first-parent"] if choice.random() < 0.3 else []
    terms = ("fixed", "broken") if choice.random() < 0.15 else ("bad", "good")
    if terms[0] == "fixed":
        options += ["--term-new", "fixed", "--term-old", "broken"]
    return Question(bad, goods, skips, options, terms, plain and not skips, TESTS[test])


# ---- what the three say

# The status, the answer and the marks as pairs of a term and a name; answer is a name, a set of names, or None.
Said = collections.namedtuple("Said", "status answer marks")


def read_log(text, terms):
    """The marks of a log. The ends of a start line count as marks."""
    marks = []
    for line in text.splitlines():
        words = re.sub("'", "", line).split()
        if words[:3] == ["git", "bisect", "start"]:
            names = [word for word in words[3:] if re.fullmatch("[0-9a-f]{40}", word)]
            marks += [(terms[index > 0], name) for index, name in enumerate(names)]
        elif words[:2] == ["git", "bisect"]:
            marks.append((words[2], words[3]))
    return marks


def read_answer(text):
    found = re.findall(r"^([0-9a-f]{40}) is the first \S+ commit$", text, re.M)
    if found:
        return found[-1]
    possible = re.search(r"could be any of:\n((?:[0-9a-f]{40}\n)+)", text)
    return frozenset(possible.group(1).split()) if possible else None


def by_tool(folder, question):
    words = [word for skip in question.skips for word in ("--skip", skip)]
    status, text = call(folder, "git", "farmdawn", "--fresh", *TRUST, "--workers", "2", *question.options, *words, question.bad, *question.goods, "--", *question.test)
    return Said(status, read_answer(text), read_log(text, question.terms))


def whole_stream(folder, ends):
    """The whole history of the ends as a stream, each commit on a ref p1, p2, .. and with its name as its message; the names in order.
    The order is that of git rev-list, by which git farmdawn takes its part: of equal values the earliest commit is asked."""
    place, text = {}, []
    for line in call(folder, "git", "rev-list", "--topo-order", "--reverse", "--parents", *ends)[1].splitlines():
        name, *parents = line.split()
        place[name] = len(place) + 1
        text.append(f"reset refs/heads/p{place[name]}\n\ncommit refs/heads/p{place[name]}\nmark :{place[name]}\n"
                    f"committer f <f> {place[name]} +0000\ndata 40\n{name}\n")
        text += [f"{'merge' if index else 'from'} :{place[parent]}\n" for index, parent in enumerate(parents)]
    return "".join(text).encode(), place


def given_skips(folder, question):
    """The commits of the skips that were given, in order."""
    return [name for skip in question.skips for name in (git(folder, "rev-list", skip, "--") if ".." in skip else git(folder, "rev-parse", skip))]


def by_whole(folder, question, status_of):
    stream, place = whole_stream(folder, [question.bad, *question.goods])
    plan = "".join(LETTERS[status_of[name]] for name in place)
    skips = [word for name in given_skips(folder, question) if name in place for word in ("--skip", f"p{place[name]}")]
    ends = [f"p{place[name]}" for name in (question.bad, *question.goods)]
    status, text = call(folder, FARMDAWN, "simulate", *question.options, *skips, *ends, plan, stdin=stream)
    real = dict(re.findall(r"^# .*: \[([0-9a-f]{40})\] ([0-9a-f]{40})$", text, re.M))
    text = re.sub("[0-9a-f]{40}", lambda found: real.get(found.group(), found.group()), text)
    return Said(status, read_answer(text), read_log(text, question.terms))


def by_git(folder, question):
    status, text = call(folder, "git", "bisect", "start", *question.options, question.bad, *question.goods)
    # not the ranges themselves: git takes an empty one for the commit at hand, and misses commits of a second one
    skips = given_skips(folder, question)
    if status == 0 and skips:
        status, more = call(folder, "git", "bisect", "skip", *skips)
        text += more
    for _ in range(20):
        if status == 0 and not read_answer(text):
            status, more = call(folder, "git", "bisect", "run", *question.test)
            text += more
    log = call(folder, "git", "bisect", "log")[1]
    call(folder, "git", "bisect", "reset")
    return Said(status, read_answer(text), read_log(log, question.terms))


# ---- comparing


def without_given_skips(folder, question, said):
    given = given_skips(folder, question)
    return [mark for mark in said.marks if mark[0] != "skip" or mark[1] not in given]


def same_search(folder, question, tool, whole):
    """Whether both ended alike after the same marks. Several merge bases may be tested in any order; the first bad one ends a run,
    whatever was tested before it."""
    if (tool.status, tool.answer) != (whole.status, whole.answer):
        return False
    ours, theirs = without_given_skips(folder, question, tool), without_given_skips(folder, question, whole)
    bases = git(folder, "merge-base", "--all", question.bad, *question.goods)
    if ours == theirs or len(bases) < 2:
        return ours == theirs
    if tool.status == 3 and all(marks[-1][0] == question.terms[0] and marks[-1][1] in bases for marks in (ours, theirs)):
        ours, theirs = ([mark for mark in marks if mark[1] not in bases] for marks in (ours, theirs))
    return sorted(set(ours)) == sorted(set(theirs))


def is_right(folder, question, said):
    """Whether the answer follows from the marks of its own log."""
    if not isinstance(said.answer, str):
        return False
    if (question.terms[0], said.answer) not in said.marks:
        return False
    goods = [name for term, name in said.marks if term == question.terms[1]]
    parents = git(folder, "rev-list", "--parents", "-n", "1", said.answer)[1:]
    parents = parents[:1] if "--first-parent" in question.options else parents
    return all(any(is_ancestor(folder, parent, good) for good in goods) for parent in parents)


def is_ancestor(folder, one, other):
    return call(folder, "git", "merge-base", "--is-ancestor", one, other)[0] == 0


def listed_too_much(folder, question, said):
    """Whether git named or skipped a commit that a good one of its own log reaches."""
    named = {name for term, name in said.marks if term == "skip"}.difference(given_skips(folder, question))
    named |= said.answer if isinstance(said.answer, frozenset) else set()
    goods = [name for term, name in said.marks if term == question.terms[1]]
    bases = git(folder, "merge-base", "--all", question.bad, *question.goods)
    return any(is_ancestor(folder, name, good) for name in named.difference(bases) for good in goods)


def against_git(folder, question, tool, theirs):
    """How the answer of git bisect run stands to ours."""
    if tool.answer == theirs.answer:
        return "same answer" if tool.answer else "no answer in both"
    if question.plain:
        return "DIFFERENT"
    if is_right(folder, question, tool) and is_right(folder, question, theirs):
        return "both right, by other tests"
    if tool.answer and theirs.answer == frozenset([tool.answer]):
        return "one commit left, which was skipped, too"
    if listed_too_much(folder, question, theirs):
        return "git took a commit for a candidate that a good one reaches, as dates do not rise"
    left = [set() if said.answer is None else {said.answer} if isinstance(said.answer, str) else said.answer for said in (tool, theirs)]
    if 128 in (tool.status, theirs.status) or 6 == tool.status:
        return "one of them met a test that stops the search"
    if any(isinstance(said.answer, frozenset) for said in (tool, theirs)):
        return "only skipped commits left, after other tests" if left[0] and left[1] else "only skipped commits left in one of them"
    return "one of them met a bad merge base" if tool.status == 3 or theirs.status == 3 else "DIFFERENT"


def try_one(number, work, arguments):
    choice = random.Random(f"{arguments.seed} {number}")
    folder = os.path.join(work, "repository")
    test = choice.choice(list(TESTS)[1:] if arguments.files or choice.random() < 0.5 else ["verdict"])
    names, statuses, plain = make_repository(choice, folder, test)
    question = random_question(choice, names, plain, test)
    tool, whole, theirs = by_tool(folder, question), by_whole(folder, question, dict(zip(names, statuses))), by_git(folder, question)
    same = same_search(folder, question, tool, whole)
    beside = against_git(folder, question, tool, theirs)
    left = git(folder, "worktree", "list", "--porcelain").count("worktree") > 1
    if arguments.keep and (not same or beside == "DIFFERENT"):
        shutil.copytree(folder, os.path.join(arguments.keep, str(number)), dirs_exist_ok=True)
    return question, tool, whole, theirs, same, beside, left


def main():
    arguments = trials.read_arguments(__doc__, 50, jobs=1, flags=["files"], words=["keep"])
    wholes, gits, statuses, wrong = collections.Counter(), collections.Counter(), collections.Counter(), 0
    for number, tried in trials.try_all(arguments, lambda number, work: try_one(number, work, arguments)):
        question, tool, whole, theirs, same, beside, left = tried
        wholes["same" if same else "different"] += 1
        gits[beside] += 1
        statuses[tool.status] += 1
        if not same:
            print(f"{number}: {question}\n  git farmdawn {tool}\n  whole {whole}", flush=True)
        if beside not in ("same answer", "no answer in both"):
            print(f"{number}: {beside}: {question}\n  git farmdawn {tool}\n  git bisect run {theirs}", flush=True)
        if left:
            print(f"{number}: a worktree is left", flush=True)
        wrong += not same or beside == "DIFFERENT" or left
    for title, counts in (("status", statuses), ("whole", wholes), ("git bisect run", gits)):
        print(f"{title}: {trials.counted(counts)}")
    trials.end(arguments, "repositories", wrong)


if __name__ == "__main__":
    main()
