#!/usr/bin/env python3
"""Random repositories searched by path: git farmdawn --path beside git bisect start BAD GOOD -- PATH and git bisect run.

Usage: tests/paths.py [--seed S] [--count N] [--from N] [--jobs N]

The repositories are those of tests/repositories.py, with some files that commits change now and then, and that merges take
from one side, from the other or from none. The paths are files and folders of these, with odd names among them, and the
line is given at the top or in a folder.

Only commits that git lists for these paths, the bad end and merge bases are tested. The same line without --path tests none of
them again, and the numbers of commits that it tells as left are those behind marks of its log. And the first bad commit is that
of git bisect run. What differs is told with its reason, which is looked for in this order:

bad end: no commit that changes the paths is bad. git has no answer then, and git farmdawn names the bad end and says so.
bad end, too: only skipped commits are left of those that change the paths. git lists them alone, and git farmdawn lists them with
the bad end, of which it says that it changes none of the paths: the first bad commit may be one that git's list has not.
anew: git simplifies merges again from the marks that it has, and so tested a commit that its first list had not.
unlisted: git is at the commit that git farmdawn names, a merge, and ends without an answer, as it takes that for one that changes
none of the paths. It looks at parents that no good commit reaches, and at those that are good ends; which a good commit reaches it
knows by the history that it has walked so far, in the order of dates. git farmdawn names the merge bases, too, and lists once.
both right: each answer is bad, and no commit that changes the paths is left between it and the good ones of its own log; that
may be so of several commits where the verdicts are not plain, or come by a commit that changes none of the paths.
one of them: where other commits were tested, one met a test that stops the search, a bad merge base, or skipped commits alone, to
which git farmdawn counts a bad end that changes none of the paths.

Where the verdicts are bad from one commit on, and that one changes the paths, no difference is right but anew and unlisted.
"""
import collections
import os
import random
import re
import subprocess

import trials
from repositories import CALM, TRUST, Question, call, git, put_file, random_parents, random_question, read_answer, read_log, verdicts

NAMES = ["a", "in/b", "in/deep/c d", "in/ümläut", "-x", "*", "in/[a]", ":(top)q", "it's \"so\"", "back\\slash"]
UNCHANGED = "changes none of them; the same line without --path"
LEFT = "changes none of these paths; the same line without --path"
EXPLAINED = ("same answer", "no answer in both", "refused", "bad end", "bad end, too", "unlisted", "both right")


def quoted(path):
    """A path in a stream of git fast-import."""
    return '"' + path.replace("\\", "\\\\").replace('"', '\\"') + '"'


def random_files(choice, names, parents):
    """The files of a commit by those of its parents."""
    files = dict(choice.choice(parents)) if parents else {}
    for name in sorted({name for parent in parents for name in parent}):
        if len(parents) > 1 and choice.random() < 0.3:
            files[name] = choice.choice([parent.get(name, "gone") for parent in parents])
    for name in names:
        if choice.random() < (0.15 if len(parents) > 1 else 0.35):
            files[name] = choice.choice("1234")
    return {name: text for name, text in files.items() if text != "gone" and choice.random() < 0.97}


def make_repository(choice, folder):
    """A repository with a ref c0, c1, .. on each commit; the commits' names, the verdicts, whether these are plain, the paths, the parents."""
    parents = random_parents(choice, choice.randrange(3, 26))
    statuses, plain = verdicts(choice, parents)
    names, files, text, rising = choice.sample(NAMES, 3), [], [], choice.random() < 0.7
    for number, named in enumerate(parents):
        files.append(random_files(choice, names, [files[parent] for parent in named]))
        date = 1700000000 + (number * 60 if rising else choice.randrange(100000))
        text.append(f"reset refs/heads/c{number}\n\ncommit refs/heads/c{number}\nmark :{number + 1}\ncommitter gen <gen@gen> {date} +0000\ndata <<END\nchange {number}\nEND\n")
        text += [f"{'merge' if index else 'from'} :{parent + 1}\n" for index, parent in enumerate(named)]
        text.append("deleteall\n" + put_file("verdict", f"{statuses[number]}\n") + put_file("in/number", f"{number}\n"))
        text += [put_file(quoted(name), content) for name, content in sorted(files[-1].items())]
    call(".", "git", "init", "-q", "-b", "main", folder)
    call(folder, "git", "fast-import", "--quiet", stdin="".join(text).encode())
    call(folder, "git", "checkout", "-q", f"c{choice.randrange(len(parents))}")
    paths = choice.sample(names, choice.choice([1, 1, 2]))
    paths = [choice.choice(["in", "in/deep"]) if path.startswith("in/deep") and choice.random() < 0.5 else path for path in paths]
    return git(folder, "rev-parse", *(f"c{number}" for number in range(len(parents)))), statuses, plain, paths, parents


Said = collections.namedtuple("Said", "status answer marks told")


def by_tool(folder, question, paths, inside):
    options = [word for path in paths for word in ("--path", os.path.relpath(path, inside))]
    done = subprocess.run(["git", "farmdawn", *TRUST, "--workers", "2", *question.options, *options, question.bad, *question.goods, "--", "sh", "-c",
                           'exit $(cat "$(git rev-parse --show-toplevel)/verdict")'], cwd=os.path.join(folder, inside), env=CALM, capture_output=True)
    text = done.stdout.decode()
    return Said(done.returncode, read_answer(text), read_log(text, question.terms), done.stderr.decode("utf-8", "replace")), text


def by_git(folder, question, paths):
    literal = [f":(literal){path}" for path in paths]
    status, text = call(folder, "git", "bisect", "start", *question.options, question.bad, *question.goods, "--", *literal)
    for _ in range(20):
        if status == 0 and not read_answer(text):
            status, more = call(folder, "git", "bisect", "run", "sh", "-c", "exit $(cat verdict)")
            text += more
    log = call(folder, "git", "bisect", "log")[1]
    call(folder, "git", "bisect", "reset")
    return Said(status, read_answer(text), read_log(log, question.terms), "")


def listed(folder, question, paths, bad, goods):
    """The commits that git lists for the paths, once it has walked the history."""
    options = [option for option in question.options if option == "--first-parent"]
    return git(folder, "rev-list", "--topo-order", *options, bad, *(f"^{good}" for good in goods), "--",
               *(f":(literal){path}" for path in paths))


def is_right(folder, question, paths, said):
    """Whether the answer is bad, and no commit that changes the paths is left below it."""
    goods = [name for term, name in said.marks if term == question.terms[1]]
    return (question.terms[0], said.answer) in said.marks and listed(folder, question, paths, said.answer, goods) in ([said.answer], [])


def faults(folder, question, paths, tool):
    """What is wrong by itself in what git farmdawn did."""
    bases = git(folder, "merge-base", "--all", question.bad, *question.goods)
    first = listed(folder, question, paths, question.bad, [*question.goods, *bases])
    tested = {name for _, name in tool.marks}.difference([question.bad, *question.goods])
    if not tested <= {*first, *bases}:
        yield "it tested a commit that changes none of the paths"
    if (UNCHANGED in tool.told) != (tool.answer == question.bad and question.bad not in first):
        yield "it told of the bad end where it must not, or the other way round"
    if (LEFT in tool.told) != (isinstance(tool.answer, frozenset) and question.bad in tool.answer.difference(first)):
        yield "it told of the bad end among skipped ones where it must not, or the other way round"
    if isinstance(tool.answer, str) and tool.answer != question.bad and not is_right(folder, question, paths, tool):
        yield "its answer does not follow from its log"


def reached(parents, starts, first_parent=False):
    """The commits that some reach, by number."""
    found, open_ones = set(), list(starts)
    while open_ones:
        number = open_ones.pop()
        if number not in found:
            found.add(number)
            open_ones += parents[number][:1] if first_parent else parents[number]
    return found


def counts_of(said, question, names, parents):
    """How many commits are left, and how many of these are skipped, behind each mark of a log."""
    bad, goods, skips = None, [], set()
    for term, name in said.marks:
        number = names.index(name)
        bad = number if term == question.terms[0] else bad
        goods += [number] if term == question.terms[1] else []
        skips |= {number} if term == "skip" else set()
        left = reached(parents, [bad], "--first-parent" in question.options).difference(reached(parents, goods))
        yield len(left), len(left & skips)


def go_on(folder, question, before, inside, names, parents):
    """What is wrong in the same line without --path: tests that were run before, or numbers that are not those of the log."""
    after, _ = by_tool(folder, question, [], inside)
    told = re.findall(r"^\S+ +([0-9a-f]{12})  .* s\)$", before.told, re.M)
    # the last tests may be ended as the answer is known, after they told theirs and before it is kept
    kept = {name for name in told[:-4] if statuses_of(before, name) != "stop"}
    if kept & set(re.findall(r": testing ([0-9a-f]{12})$", after.told, re.M)):
        yield f"without --path a commit is tested again: {after.told}"
    due = iter(counts_of(after, question, names, parents))
    told = re.findall(r"^(\d+) commits? left, (?:(\d+) of them skipped, )?about", after.told, re.M)
    if not all((int(left), int(skipped or 0)) in due for left, skipped in told):
        yield f"the numbers that are left: {told}, {list(counts_of(after, question, names, parents))}"


def statuses_of(said, short):
    """The word that a test was told with, or nothing where it was ended."""
    return (re.findall(rf"^(\S+) +{short}  ", said.told, re.M) or ["stop"])[0]


def lists_none(question, tool, theirs):
    """Whether git is at the commit that git farmdawn names, and found that it has no commit to test there."""
    return theirs.status == 4 and theirs.answer is None and [tool.answer] == (last_bad(question, theirs) or [question.bad])


def against_git(folder, question, paths, tool, theirs, changes):
    """How the answer of git bisect run stands to ours."""
    bases = git(folder, "merge-base", "--all", question.bad, *question.goods)
    first = [*listed(folder, question, paths, question.bad, [*question.goods, *bases]), question.bad, *question.goods, *bases]
    if tool.answer == theirs.answer:
        return "same answer" if tool.answer else "no answer in both"
    if UNCHANGED in tool.told and theirs.answer is None:
        return "bad end"
    if LEFT in tool.told and tool.answer.difference([question.bad]) == theirs.answer and sorted(tool.marks) == sorted(theirs.marks):
        return "bad end, too"
    if not {name for _, name in theirs.marks} <= set(first):
        return "anew"
    if lists_none(question, tool, theirs) and is_right(folder, question, paths, tool):
        return "unlisted"
    if question.plain and changes:
        return "DIFFERENT"
    if all(isinstance(said.answer, str) for said in (tool, theirs)) and is_right(folder, question, paths, tool) and is_right(folder, question, paths, theirs):
        return "both right"
    if 128 in (tool.status, theirs.status) or tool.status == 6:
        return "one of them met a test that stops the search"
    if any(isinstance(said.answer, frozenset) for said in (tool, theirs)):
        return "only skipped commits left in one of them"
    return "one of them met a bad merge base" if tool.status == 3 or theirs.status == 3 else "DIFFERENT"


def last_bad(question, said):
    return [name for term, name in said.marks if term == question.terms[0]][-1:]


def replayed(folder, text, question):
    """The commit that git comes to by the log. It cannot begin where no commit changes the paths."""
    log = os.path.join(os.path.dirname(folder), "log")
    with open(log, "w") as file:
        file.write(text)
    call(folder, "git", "bisect", "replay", log)
    found = git(folder, "rev-parse", f"refs/bisect/{question.terms[0]}")
    call(folder, "git", "bisect", "reset")
    return found


def try_one(number, work, seed):
    choice = random.Random(f"paths {seed} {number}")
    folder = os.path.join(work, "repository")
    names, statuses, plain, paths, parents = make_repository(choice, folder)
    question = random_question(choice, names, plain, "verdict")._replace(skips=[])
    question = question._replace(plain=plain)
    known = [path for path in paths if git(folder, "rev-list", "-1", "--full-history", question.bad, *question.goods, "--", f":(literal){path}")]
    inside = choice.choice(["in", ".", "."])
    tool, text = by_tool(folder, question, paths, inside)
    if known != paths:
        wrong = [] if (tool.status, text) == (1, "") and "no commit has this path" in tool.told else ["a path that no commit has is not told"]
        return question, paths, tool, None, wrong, "refused"
    theirs = by_git(folder, question, paths)
    wrong = [*faults(folder, question, paths, tool), *go_on(folder, question, tool, inside, names, parents)]
    culprits = [name for name, status in zip(names, statuses) if status and not any(
        statuses[names.index(parent)] for parent in git(folder, "rev-list", "--parents", "-n", "1", name)[1:])]
    changes = plain and all(name in listed(folder, question, paths, question.bad, question.goods) for name in culprits)
    beside = against_git(folder, question, paths, tool, theirs, changes)
    if tool.status in (0, 2) and beside not in ("bad end", "unlisted") and replayed(folder, text, question) != last_bad(question, tool):
        wrong.append("git comes to another commit by the log")
    return question, paths, tool, theirs, wrong, beside


def main():
    arguments = trials.read_arguments(__doc__, 50, jobs=1)
    counts, failures = collections.Counter(), 0
    for number, (question, paths, tool, theirs, wrong, beside) in trials.try_all(arguments, lambda number, work: try_one(number, work, arguments.seed)):
        counts[beside] += 1
        if wrong or beside not in EXPLAINED:
            print(f"{number}: {beside} {wrong}: {question} {paths}\n  git farmdawn {tool}\n  git bisect run {theirs}", flush=True)
        failures += bool(wrong) or beside == "DIFFERENT"
    print(trials.counted(counts))
    trials.end(arguments, "repositories", failures)


if __name__ == "__main__":
    main()
