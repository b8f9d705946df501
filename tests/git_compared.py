"""What git did in its own tests beside what farmdawn says of the same: one record of tests/git-kept.sh after the other."""
from __future__ import annotations

import os
import re
import shlex
import subprocess
import tempfile
from collections.abc import Iterator
from typing import BinaryIO, NamedTuple

TOP = os.path.dirname(os.path.dirname(os.path.abspath(__file__)))
FARMDAWN = os.environ.get("FARMDAWN", os.path.join(TOP, "crates/farmdawn/out/farmdawn"))
NAME = "[0-9a-f]{40}"
# What git says where it does not go on, and what that is.
REFUSALS = (("^error: You need to give", "waiting"), ("^The merge base .* is (?!the)", "undone"), ("not ancestors of|istook", "no ancestor"),
            ("^(error|fatal):", "refused"))
# Checks a commit out as git bisect run does, and runs the words that git got.
CHECKED_OUT = """for name; do :; done
if [ "$HOW" = no-checkout ]; then git update-ref --no-deref BISECT_HEAD "$name"; else git checkout -q -f --detach "$name"; fi || exit 255
eval "$TRIED" """


class Record(NamedTuple):
    """What git was given, what it said and what it left."""
    folder: str
    test: str
    words: list[str]
    status: int
    said: str
    log_before: str
    log: str
    marks: set[tuple[str, str]]
    paths: str


class Said(NamedTuple):
    """How a search stands: what kind of word was said of it, and the commits that are named."""
    kind: str
    names: frozenset[str] = frozenset()


def read_text(folder: str, *names: str) -> str:
    """The text of the first of these files that is there, or an empty one."""
    for name in names:
        path = os.path.join(folder, name)
        if os.path.exists(path):
            with open(path, encoding="utf-8", errors="replace", newline="") as file:
                return file.read()
    return ""


def read_record(folder: str) -> Record:
    """The record that tests/git-kept.sh left in a folder."""
    found = re.match(r"expecting success of [0-9.]* '(.*?)': ?", read_text(folder, "test"))
    heads = {name: read_text(folder, file).strip() for name, file in (("HEAD", "head"), ("BISECT_HEAD", "bisect-head"))}
    return Record(
        folder=folder,
        test=found.group(1) if found else "",
        words=[heads.get(word) or word for word in read_text(folder, "words").split("\0")[:-1]],
        status=int(read_text(folder, "status") or 1),
        said=read_text(folder, "output") + read_text(folder, "error"),
        log_before=plain_log(read_text(folder, "log-before")),
        log=plain_log(read_text(folder, "LOG")),
        marks=read_marks(read_text(folder, "refs")),
        paths=read_text(folder, "NAMES").strip())


def read_marks(refs: str) -> set[tuple[str, str]]:
    """The marks of a repository, each as its term and its commit, from lines with a name and a ref below refs/bisect."""
    return {(re.sub(f"-{NAME}$", "", re.sub("^bisect/", "", ref)), name) for name, ref in (line.split() for line in refs.splitlines())}


def plain_log(log: str) -> str:
    """A log whose start line has HEAD by the name that the comments before it tell: HEAD moves as git goes on."""
    lines, told = [], []
    for line in log.splitlines(keepends=True):
        told += re.findall(rf"^# \S+: \[({NAME})\]", line)
        if line.startswith("git bisect start"):
            words, rest = shlex.split(line), list(told)
            for index, word in enumerate(words[3:], 3):
                if word in ("HEAD", "BISECT_HEAD"):
                    words[index] = rest[0] if index == 3 or words[index - 1].startswith("-") else rest[-1]
            line = shlex.join(words) + "\n"
        if line.startswith("git bisect"):
            told = []
        lines.append(line)
    return "".join(lines)


# ---- what the two say


def call(record: Record, *words: str, log: str = "", folder: str = ".", environment: dict[str, str] | None = None) -> tuple[int, str]:
    """The status and the output of farmdawn over the stream of a record; the word LOG stands for a file with the log."""
    path = os.path.join(record.folder, "given")
    with open(path, "w", encoding="utf-8", newline="") as file:
        file.write(log)
    with open(os.path.join(record.folder, "stream"), "rb") as stream:
        done = subprocess.run([FARMDAWN, *(path if word == "LOG" else word for word in words)], stdin=stream, stdout=subprocess.PIPE, cwd=folder,
                              stderr=subprocess.DEVNULL, check=False, env={**os.environ, "FARMDAWN_QUIET": "1", **(environment or {})})
    return done.returncode, done.stdout.decode(errors="replace")


def named(pattern: str, text: str) -> frozenset[str]:
    """The names of commits in what a pattern finds in a text."""
    return frozenset(name for found in re.findall(pattern, text, re.M) for name in re.findall(NAME, found))


def answer_of(text: str) -> Said | None:
    """The answer that a search ended with; git and farmdawn have the same words."""
    first = re.findall(rf"^{NAME} is the first \S+ commit$", text, re.M)
    if first:
        return Said("first", named("(.*)", first[-1]))
    left = re.search(rf"could be any of:\n((?:{NAME}\n)+)", text)
    return Said("skipped", named("(.*)", left.group(1))) if left else None


def git_said(record: Record) -> Said:
    """What git said last: what it asks, how it ended, or that it waits for marks."""
    answer = answer_of(record.said)
    if answer:
        return answer
    asked = re.findall(rf"^\[({NAME})\] ", record.said, re.M)
    if asked:
        return Said("asks", frozenset(asked[-1:]))
    for words, kind in REFUSALS:
        if re.search(words, record.said, re.M):
            return Said(kind)
    return Said("refused" if record.status else "waiting")


def farmdawn_said(status: int, text: str) -> Said:
    """What farmdawn said, in the same words."""
    answer = answer_of(text)
    if answer:
        return answer
    asked = named(rf"^next: ({NAME})$", text)
    kinds = {0: "asks", 3: "undone", 4: "no ancestor", 6: "fault", 11: "fault", 17: "waiting"}
    return Said(kinds.get(status, "refused"), asked)


# ---- the value of what is asked


def ancestors(parents: dict[str, list[str]], ends: set[str]) -> set[str]:
    """The ends and all that they reach."""
    reached, open_ones = set(), list(ends)
    while open_ones:
        name = open_ones.pop()
        if name not in reached:
            reached.add(name)
            open_ones += parents.get(name, [])
    return reached


def values(record: Record, bad: set[str], goods: set[str], first_parent: bool) -> dict[str, int]:
    """The value of each candidate: how many a test of it leaves out at least."""
    lines = [line.split() for line in read_text(record.folder, "parents").splitlines()]
    parents = {line[0]: line[1:2] if first_parent else line[1:] for line in lines}
    left = ancestors(parents, bad) - ancestors(parents, goods)
    weights = {name: len(ancestors(parents, {name}) & left) for name in left}
    return {name: min(weight, len(left) - weight) for name, weight in weights.items()}


def same_value(record: Record, ours: str, theirs: str) -> bool:
    """Whether both are of the greatest value that is left, or git stepped away from a skipped commit of the greatest value."""
    term_bad, term_good = terms_of(record.log)
    sets = {term: {name for mark, name in record.marks if mark == term} for term in (term_bad, term_good, "skip")}
    worth = values(record, sets[term_bad], sets[term_good], "--first-parent" in record.log)
    if ours not in worth or theirs not in worth or {ours, theirs} & sets["skip"]:
        return False
    best = max(value for name, value in worth.items() if name not in sets["skip"])
    away = any(worth.get(name, 0) == max(worth.values()) for name in sets["skip"])
    return worth[ours] == best and (worth[theirs] == best or away)


def terms_of(log: str) -> tuple[str, str]:
    """The terms of a log: those that are named, or the first pair that it uses."""
    words = [word for line in log.splitlines() if line.startswith("git bisect start") for word in re.split("[ =]", line.replace("'", ""))]
    given = {word: words[index + 1] for index, word in enumerate(words[:-1]) if word.startswith("--term-")}
    used = "new", "old"
    if not re.search("^git bisect (new|old) ", log, re.M):
        used = "bad", "good"
    return given.get("--term-new", given.get("--term-bad", used[0])), given.get("--term-old", given.get("--term-good", used[1]))


def unlike(record: Record, theirs: Said, ours: Said) -> str:
    """How what the two say differs; empty where it does not."""
    if theirs.kind != ours.kind:
        return f"git {theirs.kind}, farmdawn {ours.kind}"
    if theirs.names == ours.names:
        return ""
    if theirs.kind == "asks" and same_value(record, *ours.names, *theirs.names):
        return ""
    return f"{theirs.kind}, other commits"


# ---- the comparisons of each command


def compare(record: Record) -> Iterator[tuple[str, str]]:
    """Each comparison of a record: its kind, and what differs, or an empty text."""
    verb = record.words[1]
    if record.words[0] == "rev-list":
        yield "choice", compare_choice(record)
        return
    if record.paths or "--" in record.words[2:-1]:
        yield "paths", "git bisects by paths"
        return
    if not os.path.exists(os.path.join(record.folder, "stream")):
        yield "stream", "git does not export"
        return
    if verb == "run":
        yield "run", compare_run(record)
    elif verb == "start" and any(re.fullmatch(f"{NAME}|[A-Za-z][-A-Za-z0-9_]*", word) for word in start_words(record)[1]):
        yield "start", compare_start(record)
    elif record.status and record.log == record.log_before and verb != "next":
        yield "refused", compare_refused(record)
    elif verb == "replay":
        yield "replay", unlike_state(record, read_text(record.folder, "file"))
    if record.log and (record.log != record.log_before or verb in ("next", "replay", "run")):
        yield "state", unlike_state(record, record.log)
        yield "back", compare_back(record)
        if verb != "run":
            yield "next", unlike(record, git_said(record), farmdawn_said(*call(record, "next", "--replay", "LOG", log=record.log)))


def unlike_state(record: Record, log: str) -> str:
    """Whether a log leads farmdawn to the marks that git has."""
    status, text = call(record, "replay", "--replay", "LOG", log=log)
    if status:
        return "farmdawn refuses the log"
    return "" if set(re.findall(rf"^(\S+): ({NAME})$", text, re.M)) == record.marks else "other marks"


def compare_back(record: Record) -> str:
    """Whether the log that farmdawn writes leads git to the same marks."""
    status, text = call(record, "replay", "--replay", "LOG", log=record.log)
    if status:
        return "farmdawn refuses the log"
    with tempfile.TemporaryDirectory() as folder:
        make_copy(record, folder)
        with open(os.path.join(folder, "log"), "w", encoding="utf-8") as file:
            file.write("".join(line for line in text.splitlines(keepends=True) if not re.match(rf"\S+: {NAME}$", line)))
        git(folder, "bisect", "replay", "log")
        marks = read_marks(git(folder, "for-each-ref", "--format=%(objectname) %(refname:lstrip=2)", "refs/bisect/*"))
    return "" if marks == record.marks else "git comes to other marks"


def make_copy(record: Record, folder: str) -> None:
    """A repository of the commits of a record, without marks; HEAD is one of them."""
    git(folder, "init", "-q", "--bare")
    with open(os.path.join(record.folder, "stream"), "rb") as stream:
        git(folder, "fast-import", "--quiet", "--force", stdin=stream)
    git(folder, "update-ref", "--no-deref", "HEAD", git(folder, "rev-list", "-1", "--all").strip())
    git(folder, "update-ref", "--stdin", given=git(folder, "for-each-ref", "--format=delete %(refname)", "refs/bisect/*"))


def git(folder: str, *words: str, stdin: BinaryIO | None = None, given: str | None = None) -> str:
    """What git says in a folder on its standard output."""
    done = subprocess.run(["git", *words], cwd=folder, stdin=stdin, input=given, stdout=subprocess.PIPE, stderr=subprocess.DEVNULL, text=True, check=False)
    return done.stdout


def compare_choice(record: Record) -> str:
    """Whether git rev-list --bisect and farmdawn choose commits of the same value."""
    ends = [word for word in record.words[1:] if not word.startswith("-")]
    bads, goods = [word for word in ends if word[0] != "^"], [word[1:] for word in ends if word[0] == "^"]
    if len(bads) != 1 or not goods:
        return "git takes the marks of the repository"
    options = ["--first-parent"] if "--first-parent" in record.words else []
    said = farmdawn_said(*call(record, "next", *options, *bads, *goods))
    theirs = re.findall(NAME, record.said)[:1]
    if len(said.names) != 1 or said.kind not in ("asks", "first"):
        return f"farmdawn {said.kind}"
    resolved = dict(line.split()[::-1] for line in read_text(record.folder, "names").splitlines())
    worth = values(record, {resolved[word] for word in bads}, {resolved[word] for word in goods}, bool(options))
    chosen, = said.names
    return "" if worth.get(chosen) == worth.get(theirs[0]) == max(worth.values()) else "other values"


def start_words(record: Record) -> tuple[list[str], list[str]]:
    """The options and the commits of a start line, with the options by farmdawn's names."""
    options, ends, words = [], [], list(record.words[2:])
    while words:
        word = words.pop(0)
        if word == "--no-checkout" or word == "--":
            continue
        found = re.fullmatch("--term-(new|bad|old|good)(?:=(.*))?", word)
        if found:
            options += ["--term-new" if found.group(1) in ("new", "bad") else "--term-old", found.group(2) or (words.pop(0) if words else "")]
        elif word.startswith("-"):
            options.append(word)
        else:
            ends.append(word)
    return options, ends


def compare_start(record: Record) -> str:
    """Whether the words of git bisect start are refused, or lead to the same question."""
    options, ends = start_words(record)
    theirs, ours = git_said(record), farmdawn_said(*call(record, "next", *options, *ends))
    if theirs.kind in ("refused", "no ancestor") and ours.kind in ("refused", "no ancestor"):
        return ""
    return unlike(record, theirs, ours)


def compare_refused(record: Record) -> str:
    """Whether the log with a line for the mark that git refused is refused, too."""
    names = record.words[2:] or [read_text(record.folder, "head").strip()]
    status, _ = call(record, "replay", "--replay", "LOG", log=record.log_before + shlex.join(["git", "bisect", record.words[1], *names]) + "\n")
    return "" if status else "git refuses a mark, farmdawn takes it"


def compare_run(record: Record) -> str:
    """Whether a run over the same commits with the same command ends alike."""
    tried = {"TRIED": shlex.join(record.words[2:]), "HOW": "no-checkout" if read_text(record.folder, "bisect-head") else "checkout"}
    theirs = git_said(record)
    if theirs.kind not in ("first", "skipped"):
        theirs = Said("fault")

    def run(*options: str) -> str:
        """How the two runs differ."""
        words = ["run", *options, "--replay", "LOG", "--", "sh", "-c", CHECKED_OUT, "sh"]
        tree = os.path.join(record.folder, "tree")
        return unlike(record, theirs, farmdawn_said(*call(record, *words, log=record.log_before, folder=tree, environment=tried)))

    strict = run()
    return f"{strict}; alike with --lenient-exit" if strict and not run("--lenient-exit") else strict
