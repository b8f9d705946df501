"""What is told of several searches: how far they are, the answers by commit, what has none, and
what all of it took."""
from __future__ import annotations

import os
import time
from typing import TYPE_CHECKING, Iterator, List, Optional, Sequence, Tuple

from ..telling.facts import NAME, Shares, mean_of, used_of, usual
from ..telling.status import Status
from ..telling.text import shown, visible
from ..telling.voice import OF_PATHS, counted, estimate_seconds, lasting, quoted, rounds
from .evidence import unseen

if TYPE_CHECKING:
    from ..telling.facts import Row
    from ..telling.voice import Telling
    from .record import Candidates, Searched, Test

SUBJECT, MOST_NAMES = 60, 6


def titles(test: Test, is_list: bool) -> Iterator[bytes]:
    """The line above the log of a search whose test has a name."""
    if not test.name:
        return
    command = " ".join(quoted(word) for word in test.words) if is_list else test.words[-1]
    shown_command = visible(command.replace("\n", " "), keeps=OF_PATHS)
    yield b"# search of " + os.fsencode(test.name) + b": " + os.fsencode(shown_command)


def left_out(test: Test) -> str:
    """Why a test is left out, or nothing."""
    return "%s is left out: %s" % (test.name, test.wrong.text) if test.wrong is not None else ""


# -- answers by commit ---------------------------------------------------------


def first_lines(known: Searched, voice: Telling) -> Iterator[str]:
    """Each first bad commit, with its tests and its subject."""
    new = known.settings.terms[0]
    for name, tests in known.by_commit().items():
        yield voice.bold(
            "%s is the first %s commit of %s"
            % (name[:NAME], new, " ".join(test.name for test in tests))
        )
        yield "    " + shown(known.commits.subject[name], SUBJECT)


def other_lines(known: Searched) -> Iterator[str]:
    """The tests that have no answer, and why; and those that were not there in some commits."""
    for test in known.tests:
        name = test.named(known.commits) or ""
        if test.wrong is not None:
            yield left_out(test)
        elif test.status == Status.ONLY_SKIPPED:
            yield "%s: one of %s" % (test.name, named_commits(test.all_named(known.commits)))
        elif test.status == Status.TEST_STOPPED:
            what = what_stopped(test, name)
            yield "%s: %s %s of %s ended with %d, which stops its search" % (
                test.name,
                "its" if what == "test" else "the",
                what,
                name[:NAME],
                test.seen.status_of(name) or 0,
            )
        elif test.status != Status.FOUND:
            yield "%s: no answer (status %d)" % (test.name, test.status or 0)
    for test in known.tests:
        if test.seen.missing:
            yield test.front + not_there(known, test)


def what_stopped(test: Test, commit: str) -> str:
    """What ended a search at this commit: a test that ran, or the build of the commit."""
    ran = any(row.commit == commit and row.ran for row in test.seen.rows)
    return "test" if ran else "build"


def named_commits(names: List[str]) -> str:
    """A number of commits, with the first of them."""
    more = " .." if len(names) > MOST_NAMES else ""
    return "%s: %s%s" % (
        counted(len(names), "commit"),
        " ".join(name[:NAME] for name in names[:MOST_NAMES]),
        more,
    )


def not_there(known: Searched, test: Test) -> str:
    """In how many commits a test was not there, and that the answer may be the commit which brought
    it."""
    text = "it was not there in " + counted(len(test.seen.missing), "commit")
    name = test.found(known.commits)
    if name and any(parent in test.seen.missing for parent in known.commits.parents_of(name)):
        text += "; the commit that was found is the first one that has it"
    return text


def heading(known: Searched) -> str:
    """How many commits broke how many tests."""
    found = known.by_commit()
    return "%s of %s broke with %s" % (
        sum(len(tests) for tests in found.values()),
        counted(len(known.tests), "test"),
        counted(len(found), "commit"),
    )


# -- while it searches ---------------------------------------------------------


def rounds_left(test: Test, commits: int) -> int:
    """How often the commits are halved that a search still has; of one that has not begun, all."""
    if test.status is not None:
        return 0
    left = test.told.candidates
    return rounds(left.commits - left.skipped if left else commits)


def seconds_left(known: Searched, candidates: Candidates) -> Optional[float]:
    """How many seconds the rest of a search takes, by the tests so far."""
    rows = [row for test in known.tests for row in test.seen.done()]
    if not rows or known.settings.by_hand:
        return None
    spent = (usual(rows) or 0.0) + (usual(known.builds) or 0.0)
    count = rounds(candidates.commits - candidates.skipped)
    return estimate_seconds(count, spent, known.settings.workers)


def shares_of(known: Searched) -> Tuple[Shares, Optional[float]]:
    """How far the searches are, by their rounds; and how many seconds the rest takes, where it goes
    on as it went so far."""
    commits, tests = known.commits.total, known.tests
    total = max(1, len(tests) * rounds(commits))
    done = 1.0 - sum(rounds_left(test, commits) for test in tests) / total
    passed = time.monotonic() - known.began
    return (
        Shares(sum(test.status is None for test in tests), len(tests), done),
        passed * (1.0 - done) / done if done > 0 else None,
    )


def tell_answer(known: Searched, voice: Telling, test: Test) -> None:
    """A line as soon as one of several searches has its end, and stands on ends that were seen;
    once, as long as that does not change."""
    if known.settings.quiet or not known.has_names:
        return
    if test.status is None or test.wrong is not None:
        return
    if not known.settings.trust_ends and unseen(test.seen.statuses, known.ends):
        return  # they are tested now
    if not test.shown.is_new_answer(test.told.answer):
        return
    names = test.all_named(known.commits)
    if test.status == Status.FOUND and names:
        subject = shown(known.commits.subject[names[0]], SUBJECT)
        voice.line("%s %s  %s  %s" % (voice.bold("found"), names[0][:NAME], subject, test.mark))
    elif test.status == Status.ONLY_SKIPPED:
        voice.line("one of %s  %s" % (named_commits(names), test.mark))


# -- sums ----------------------------------------------------------------------


def used_rows(known: Searched) -> List[Row]:
    """The tests that the logs need."""
    found = []
    for test in known.tests:
        marks = set(used_of(test.told.log))
        found += [
            row
            for row in test.seen.rows
            if row.status is not None and row.ran and row.run == 1 and row.commit in marks
        ]
    return found


def counts(known: Searched, rows: List[Row]) -> str:
    """How many tests there were, how many of them the logs need, and how long all took. Where a
    search is by odds all are needed."""
    needed = "" if known.settings.noise else " (%d needed)" % len(used_rows(known))
    return "%s%s in %s, %s" % (
        counted(len(rows), "test"),
        needed,
        lasting(time.monotonic() - known.began),
        counted(known.settings.workers, "worker"),
    )


def one_at_a_time(rows: Sequence[Row]) -> float:
    """The seconds that tests take in one checkout, where one alone is the first."""
    each = usual(rows) or 0.0
    first = {row.checkout: row for row in sorted(rows, key=lambda row: row.began, reverse=True)}
    spent = {row: row.ended - row.began for row in rows}
    more = max([0.0, *(spent[row] - each for row in first.values())])
    return more + sum(each if row is first[row.checkout] else spent[row] for row in rows)


def one_after_the_other(known: Searched) -> float:
    """The seconds that the searches take one after the other, each with its builds, by one worker:
    by what was measured here."""
    spent = {row.commit: row.ended - row.began for row in known.builds if row.status is not None}
    unbuilt = {row.commit for row in known.builds if row.status}
    build, seconds = mean_of(known.builds) or 0.0, 0.0
    for test in known.tests:
        rows = {
            row.commit: row.ended - row.began
            for row in test.seen.rows
            if row.status is not None and row.ran
        }
        marks = set(used_of(test.told.log)) - {end.commit for end in known.ends}
        mean = mean_of(test.seen.rows) or 0.0
        seconds += sum(
            spent.get(name, build) + (0.0 if name in unbuilt else rows.get(name, mean))
            for name in marks
        )
    return seconds


def sums(known: Searched) -> str:
    """Builds, tests, and the time of both; beside it what one search after the other would have
    taken."""
    rows = [row for test in known.tests for row in test.seen.rows if row.ran]
    work = sum(row.ended - row.began for row in rows + known.builds)
    text = counted(len(known.builds), "build") + ", " if known.builds else ""
    text += "%s, %s of work" % (counts(known, rows), lasting(work))
    if known.settings.noise:
        return text  # it stands on all of them, and its log marks none
    alone = "one search after the other" if known.has_names else "one at a time"
    return "%s; %s about %s" % (text, alone, lasting(one_after_the_other(known)))
