"""Certificates: those of the engine, as files that others can check, and their check by `farmdawn
check`.

The engine certifies its answer over the history that it was given, in which the first base stands
for all commits behind it. So steps that lead no commit of the repository to its parent are left
out, and those that lead from a good commit to a parent there come behind. Whether the file is right
says the check, by the proved program, over the commits that it names with their parents as they
stand in the repository: no file is left that fails it."""
from __future__ import annotations

import os
import re
import subprocess
import time
from typing import TYPE_CHECKING, Dict, Iterable, List, NamedTuple, Set, Tuple

from ..host.files import has_room, write_whole
from ..line.table import OPTIONS
from ..telling.facts import SKIP, ended_with, marks_of
from ..telling.numbers import threshold_of
from ..telling.status import Status
from ..telling.voice import Stop, counted
from .answer_file import (
    FORMS,
    FREE,
    KINDS,
    Answer,
    answer_of,
    encoded,
    fits,
    kind_of,
    sum_of,
    with_sum,
)

if TYPE_CHECKING:
    from ..known.record import Searched, Test
    from ..line.settings import Settings
    from ..repository.repository import Repository
    from ..telling.voice import Telling

MOST_BYTES = 16777216
FIXED, MEASURE = "--fixed", "--measure="
MOST_COMMITS = 100000
Parents = Dict[str, List[str]]


# -- the history as it stands ----------------------------------------------------------


def plain_env(repo: Repository) -> Dict[str, str]:
    """An environment in which no file of git puts other parents in the place of a commit's own."""
    return dict(repo.env, GIT_NO_REPLACE_OBJECTS="1", GIT_GRAFT_FILE="/dev/null")


def parents_of(repo: Repository, names: Iterable[str]) -> Parents:
    """The parents that commits have in the repository."""
    text = "\n".join(sorted(set(names))) + "\n"
    env = dict(plain_env(repo), GIT_SHALLOW_FILE="/dev/null")
    listed = repo.text(
        "rev-list", "--no-walk=unsorted", "--parents", "--stdin", input=text.encode(), env=env
    )
    return {words[0]: words[1:] for words in (line.split() for line in listed.split("\n")) if words}


def led_from(lines: Iterable[str]) -> Set[str]:
    """The commits whose parents a certificate tells of."""
    found = set()
    for line in lines:
        words = line.split(" ")
        if words[0] == "bad":
            found.add(words[1])
        elif words[0] == "reach":
            found.add(words[3])
    return found


# -- writing -------------------------------------------------------------------------


def keep_steps(lines: List[str], parents: Parents) -> Tuple[List[str], List[str]]:
    """The lines whose steps the repository has, without `end`; and the parents of the bad commit
    that none of them reaches."""
    kept: List[str] = []
    reached: Set[str] = set()
    wanted: List[str] = []
    for line in lines:
        words = line.split(" ")
        if words[0] == "bad":
            wanted = parents.get(words[1], [])
        elif words[0] == "first-parent":
            wanted = wanted[:1]
        elif words[0] == "good":
            reached.add(words[1])
        elif words[0] == "reach":
            if words[3] not in reached or words[1] not in parents.get(words[3], []):
                continue
            reached.add(words[1])
        if words[0] != "end":
            kept.append(line)
    return kept, [parent for parent in wanted if parent not in reached]


def steps_to(repo: Repository, target: str, goods: Set[str]) -> List[str]:
    """The steps of a shortest way from a good commit to this one."""
    text = "\n".join(sorted(goods) + ["^" + target]) + "\n"
    listed = repo.text(
        "rev-list",
        "--topo-order",
        "--reverse",
        "--parents",
        "--ancestry-path",
        "--stdin",
        input=text.encode(),
        check=False,
        env=dict(plain_env(repo)),
    )
    steps: Dict[str, int] = {target: 0}
    following: Dict[str, str] = {}
    best = ""
    for name, *parents in (line.split() for line in listed.split("\n") if line):
        for parent in parents:
            if parent in steps and (name not in steps or steps[parent] + 1 < steps[name]):
                steps[name], following[name] = steps[parent] + 1, parent
        if name in goods and name in steps and (not best or steps[name] < steps[best]):
            best = name
    out = []
    while best and best != target:
        out.append("reach %s from %s" % (following[best], best))
        best = following[best]
    return out


def machine() -> bytes:
    """System, release and kind; a name would say whose it is."""
    system = os.uname()
    return os.fsencode("%s %s %s" % (system.sysname, system.release, system.machine))


def option_lines(settings: Settings, folder: str) -> List[str]:
    """The options that a certificate has: those that the program knows in lines of their kind, and
    the others word by word."""
    lines = []
    for row in OPTIONS:
        if row.certified and row.word[2:] in FORMS:
            lines += [encoded(row.word[2:], os.fsencode(one)) for one in settings.values_of(row)]
        elif row.certified:
            lines += [
                encoded("option", os.fsencode(word)) for word in settings.words_of(row, folder)
            ]
    return lines


def head_lines(known: Searched, test: Test, prefix: str) -> List[str]:
    """What was tested, by what, and how it ended."""
    settings = known.settings
    lines = [encoded("word", os.fsencode(word)) for word in test.words]
    lines += [encoded("folder", os.fsencode(prefix))] if prefix else []
    lines += option_lines(settings, prefix)
    lines.append(time.strftime("made %Y-%m-%dT%H:%M:%SZ", time.gmtime()))
    lines.append(encoded("machine", machine()))
    lines.sort(key=lambda line: KINDS.index(line.split(" ")[0]))
    for called, name in [("bad", settings.bad)] + [("good", good) for good in settings.goods]:
        status = test.seen.status_of(name)
        shown = " %d" % status if status is not None and fits(called, status) else ""
        lines.append("called-%s %s%s" % (called, name, shown))
    ends = set(settings.goods + [settings.bad])
    for word, name in dict.fromkeys(marks_of(test.told.log)):
        # a commit that --skip names may have an outcome, which the answer does not stand on
        if (
            name in test.seen.statuses
            and name not in ends
            and (word == "skip") == (test.seen.statuses[name] == SKIP)
        ):
            lines.append("outcome %s %d" % (name, test.seen.statuses[name]))
    against = test.contradictions(known.commits)
    lines += ["against %s %d" % (one.commit, one.status) for one in against]
    return lines + [
        "confirmed %s %s %d of %d"
        % (one.commit, "bad" if one.is_bad else "good", one.times, one.runs)
        for one in test.confirmed.tallies
        if one.runs
    ]


def make(known: Searched, repo: Repository, test: Test) -> bytes:
    """The whole file, of what the engine told of the search."""
    lines = [line.decode() for line in test.told.certificate]
    kept, lacking = keep_steps(lines, parents_of(repo, led_from(lines)))
    goods = {line.split(" ")[1] for line in kept if line.startswith("good ")}
    for parent in lacking:
        kept += steps_to(repo, parent, goods)
    return with_sum(head_lines(known, test, repo.prefix) + kept + ["end"])


class Writer(NamedTuple):
    """Writes the files of all searches, of which the engine has told its lines. `state` is a folder
    for what is checked."""

    known: Searched
    repo: Repository
    voice: Telling
    state: str

    def write_all(self, status: int) -> int:
        """The files; of several searches each has the name of its test behind it. Gives the
        status."""
        path = self.known.settings.certificate or ""
        for test in self.known.tests:
            failed = self.write_one(test, test.file(path))
            status = failed or status
        return status

    def write_one(self, test: Test, path: str) -> int:
        """The file of one search, which is checked before it has its name; gives 0, or the status
        that says why it is not there."""
        settings = self.known.settings
        if test.status != Status.FOUND:
            self.voice.say(
                "no first %s commit was found: there is no certificate, and %s is left as it was"
                % (settings.terms[0], path)
            )
            return 0
        why = path + " cannot be written"
        try:
            data = make(self.known, self.repo, test)
            check_answer(Checker(self.repo, self.state, settings.farmdawn, path), data)
            if has_room(os.path.dirname(path)):
                write_whole(path, data)
                return 0
        except Stop as stop:
            why = "it cannot be made (status %d, %s)" % (stop.status, stop.text)
        except (OSError, subprocess.CalledProcessError) as fault:
            why = str(fault)
        self.voice.say("there is no certificate: %s" % why)
        return Status.NO_ROOM


# -- checking ------------------------------------------------------------------------


class Checker(NamedTuple):
    """What a check needs."""

    repo: Repository
    folder: str  # in which the program is run
    farmdawn: str
    shown: str  # the name of the file


def stream_of(order: List[str], parents: Parents) -> bytes:
    """A stream of commits with their parents and nothing else, for `farmdawn check`: each has the
    name that it has in the repository, of names of 64 digits the first 40."""
    out: List[str] = []
    place = {name: at for at, name in enumerate(order, 1)}
    for at, name in enumerate(order, 1):
        out.append(
            "reset refs/heads/p%d\n\ncommit refs/heads/p%d\nmark :%d\noriginal-oid %s\n"
            "committer f <f> %d +0000\ndata 0\n\n" % (at, at, at, name[:40], at)
        )
        for number, parent in enumerate(parents.get(name, [])):
            out.append("%s :%d\n" % ("merge" if number else "from", place[parent]))
        out.append("\n")
    return "".join(out).encode()


def shortened(data: bytes) -> bytes:
    """A file with the names of such a stream. A sum that is right is that of these lines, too."""
    head, below = data.decode("latin-1").split("\n")[:2], data.split(b"\n", 2)[2:]
    if not below or not re.search(rb" [0-9a-f]{64}( |\n)", below[0]):
        return data
    short = "\n".join(
        line
        if line.startswith(FREE)
        else re.sub("(?<= )([0-9a-f]{40})[0-9a-f]{24}(?= |$)", r"\1", line)
        for line in below[0].decode("latin-1").split("\n")
    ).encode("latin-1")
    if head[1] == sum_of(below[0]):
        head[1] = sum_of(short)
    return "\n".join(head).encode("latin-1") + b"\n" + short


def in_order(names: List[str], parents: Parents) -> List[str]:
    """The commits and their parents, each behind its parents."""
    out: List[str] = []
    state: Dict[str, int] = {}  # 1 where its parents are on their way, 2 where it stands
    for first in names + sorted(parents):
        waiting = [first]
        while waiting:
            name = waiting[-1]
            if name not in state:
                state[name] = 1
                waiting += [parent for parent in parents.get(name, []) if parent not in state]
                continue
            waiting.pop()
            if state[name] == 1:
                state[name] = 2
                out.append(name)
    return out


def lacking_commit(repo: Repository, name: str) -> Stop:
    """What is said where the repository lacks a commit."""
    if repo.is_shallow():
        return Stop(
            Status.NO_COMMIT,
            "this clone is shallow, and lacks the commit %s; git fetch --unshallow brings it"
            % name,
        )
    return Stop(Status.NO_COMMIT, "this repository lacks the commit %s" % name)


def find_commits(repo: Repository, answer: Answer, shown: str) -> None:
    """The repository has all commits that are named."""
    if not answer.commits():
        return
    text = "\n".join(answer.commits()) + "\n"
    out = repo.text(
        "cat-file",
        "--batch-check=%(objectname) %(objecttype)",
        input=text.encode(),
        check=False,
        env=plain_env(repo),
    )
    rows = [line.split(" ") for line in out.split("\n") if line]
    if len(rows) != len(answer.commits()):
        raise Stop(Status.NO_COMMIT, "the commits of %s cannot be looked for" % shown)
    for row in rows:
        if row[-1] in ("missing", "ambiguous"):
            raise lacking_commit(repo, row[0])
        if row[-1] != "commit":
            raise Stop(Status.NOT_HELD, "%s does not hold: %s is no commit" % (shown, row[0]))


def run_check(checker: Checker, stream: bytes, data: bytes) -> None:
    """The verdict of the proved program over the whole file; raises Stop with the reason that it
    tells where it refuses one."""
    program, shown = checker.farmdawn, checker.shown
    try:
        write_whole(os.path.join(checker.folder, "answer"), shortened(data))
        done = subprocess.run(
            ["farmdawn", "check", "--original-names", "answer"],
            executable=program,
            cwd=checker.folder,
            input=stream,
            stdout=subprocess.PIPE,
            stderr=subprocess.PIPE,
            check=False,
        )
    except OSError as fault:
        raise Stop(
            Status.NO_ROOM, "%s cannot be run in %s: %s" % (program, checker.folder, fault.strerror)
        ) from None
    told = (done.stderr or done.stdout).decode("utf-8", "replace").strip()
    if done.returncode == Status.NOT_HELD:
        reason = told[len("farmdawn: ") :] if told.startswith("farmdawn: ") else told
        raise Stop(Status.NOT_HELD, "%s does not hold: %s" % (shown, reason))
    if done.returncode:
        raise Stop(done.returncode, "%s ended with %d: %s" % (program, done.returncode, told))


def check_marks(repo: Repository, answer: Answer, shown: str) -> None:
    """Each commit that was bad comes behind the one that was found, and none that was good does,
    says git."""
    env = plain_env(repo)
    for name in answer.marked_bad():
        if repo.succeeds("merge-base", "--is-ancestor", answer.bad, name, env=env):
            continue
        if repo.is_shallow():
            raise Stop(
                Status.NO_COMMIT,
                "this clone is shallow, and lacks commits between %s and %s" % (answer.bad, name),
            )
        raise Stop(
            Status.NOT_HELD,
            "%s does not hold: %s was bad, and does not come behind %s" % (shown, name, answer.bad),
        )
    text = "\n".join([answer.bad] + ["^" + name for name in sorted(answer.listed)]) + "\n"
    if (
        repo.text(
            "rev-list",
            "--topo-order",
            "--max-count=1",
            "--stdin",
            input=text.encode(),
            check=False,
            env=env,
        )
        != answer.bad
    ):
        raise Stop(
            Status.NOT_HELD,
            "%s does not hold: a commit that was good comes behind %s" % (shown, answer.bad),
        )


def check_answer(checker: Checker, data: bytes) -> Answer:
    """What a file claims that holds: the repository has its commits, and `farmdawn check` accepts
    its lines; raises Stop elsewhere."""
    repo, shown = checker.repo, checker.shown
    if len(data) > MOST_BYTES:
        raise Stop(Status.TOO_MUCH, "%s is too large" % shown)
    answer = answer_of(data)
    find_commits(repo, answer, shown)
    try:
        steps = [line for line in answer.lines if kind_of(line) in ("bad", "reach")]
        parents = parents_of(repo, led_from(steps)) if steps else {}
    except subprocess.CalledProcessError:
        raise Stop(Status.NO_COMMIT, "the parents of the commits cannot be listed") from None
    order = in_order(answer.commits(), parents)
    if len(order) > MOST_COMMITS:
        raise Stop(
            Status.TOO_MUCH,
            "%s names %d commits; the limit is %d" % (shown, len(order), MOST_COMMITS),
        )
    run_check(checker, stream_of(order, parents), data)
    check_marks(repo, answer, shown)
    return answer


def told(answer: Answer) -> List[str]:
    """What is said of a file that holds: what it claims, what is known by it, and what is not."""
    statuses = list(answer.outcomes.values())
    good, skipped = statuses.count(0), statuses.count(125)
    own = answer.outcomes.get(answer.bad, answer.tested_ends.get(answer.bad))
    parents = "its first parent is" if answer.first_parent else "its parents are"
    lines = [
        "certificate holds for " + answer.bad,
        "checked: the file and this history agree: where the outcomes are what it claims, and the"
        " %d good commits are good with all of their ancestors, it is the first %s commit: %s good"
        % (len(answer.listed), answer.term, parents),
        "it claims: %s, by %d tests (%d good, %d skipped) of: %s"
        % (
            (
                "its test " + ended_of(answer, own)
                if own is not None
                else "it was called so, and not tested"
            ),
            len(statuses),
            good,
            skipped,
            " ".join(answer.words).rstrip(" "),
        ),
    ]
    return (
        lines
        + claims_of(answer)
        + [
            "not checked: whether the tests ended so; --retest tests the commit and its parents"
            " here"
        ]
    )


def ended_of(answer: Answer, status: int) -> str:
    """What a test did whose commit has this outcome, by the options of the file."""
    option = next((word for word in answer.options if word.startswith(MEASURE)), MEASURE)
    threshold = threshold_of(option[len(MEASURE) :])
    if threshold is None or threshold.number is None:
        return ended_with(status, FIXED in answer.options)
    return "measured " + threshold.text(status != 0)


def claims_of(answer: Answer) -> List[str]:
    """What a file claims beside the outcomes that its answer stands on."""
    lines = []
    if answer.made or answer.machine:
        lines.append(
            "it claims: made %s on %s"
            % (
                answer.made or "at a time that is not told",
                answer.machine or "a machine that is not told",
            )
        )
    if answer.build is not None or answer.retry or answer.repeat > 1:
        often = (
            "a failure counts behind %d others" % answer.retry
            if answer.retry
            else "good is what was good %d times" % answer.repeat
        )
        parts = ["built by: " + answer.build] if answer.build is not None else []
        lines.append(
            "it claims: "
            + ", ".join(parts + ([often] if answer.retry or answer.repeat > 1 else []))
        )
    if answer.options:
        lines.append("it claims: searched with " + " ".join(answer.options))
    for name, called in answer.called.items():
        status = answer.tested_ends.get(name)
        lines.append(
            "it claims: %s was called %s, and %s"
            % (
                name[:12],
                answer.term if called == "bad" else answer.old,
                ("not tested" if status is None else "its test " + ended_of(answer, status)),
            )
        )
    if answer.confirmed:
        tallies = [
            "%s %s %d of %d"
            % (name[:12], answer.term if kind == "bad" else answer.old, times, runs)
            for name, kind, times, runs in answer.confirmed
        ]
        lines.append("it claims: tested again: " + ", ".join(tallies))
    if not any(status == 0 for status in [*answer.outcomes.values(), *answer.tested_ends.values()]):
        lines.append("no test was good: a command that always fails has such a certificate, too")
    if answer.against:
        verb = "contradicts" if len(answer.against) == 1 else "contradict"
        names = ", ".join(name[:12] for name in answer.against)
        lines.append(
            "%s %s it: %s" % (counted(len(answer.against), "further outcome"), verb, names)
        )
    return lines


def read_file(checker: Checker) -> Answer:
    """The answer of a file that holds."""
    path = checker.shown
    try:
        with open(path, "rb") as file:
            if not os.path.isfile(path):
                raise OSError
            data = file.read(MOST_BYTES + 1)
    except OSError:
        raise Stop(Status.NO_FILE, path + ": no such file") from None
    return check_answer(checker, data)


def check(checker: Checker, voice: Telling) -> int:
    """git farmdawn --check FILE; gives the status."""
    text = "".join(line + "\n" for line in told(read_file(checker))).encode()
    try:
        os.write(1, text)
    except OSError:
        voice.say("the standard output cannot be written")
        return Status.NO_OUTPUT
    return Status.FOUND
