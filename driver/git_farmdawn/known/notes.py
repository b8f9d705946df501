"""What is to be known of an answer beside the commit, and of a search that has none: a note each.

Each is made here, once. The standard error tells it, a report has it among its facts, and so have
the files that are made of these: nobody has a text of his own for it. Who tells another thing gives
it a kind here."""
from __future__ import annotations

from enum import Enum
from typing import TYPE_CHECKING, Iterator, List, NamedTuple, Tuple

from ..telling.facts import NAME, SKIP, agrees, counts_of, decided
from ..telling.numbers import of_hundred
from ..telling.status import Status
from ..telling.voice import counted, quoted
from . import evidence
from .evidence import WrongEnd
from .several import not_there

if TYPE_CHECKING:
    from .record import Searched, Test

MOST_ODDS = 5
NO_PROGRAM = 127  # what a command ends with that is not there


class Kind(Enum):
    """What a note is of; scripts read the words."""

    PATHS = "paths"  # the answer changes none of the paths of --path
    NOT_CONFIRMED = "not confirmed"
    UNLIKELY = "unlikely"  # more tests deny it than --noise lets expect
    UNTESTED = "untested"  # it stands on the word of the user alone
    DISTURBED = "disturbed"  # an outcome that was another one with nothing beside its test
    NOT_ALONE = "not alone"  # tests on which it stands all ran beside others
    CONTRADICTION = "contradiction"  # an outcome that cannot be right where the answer is
    NOT_THERE = "not there"  # the runner found no test
    CONFIRMED = "confirmed"
    TAKEN_BACK = "taken back"
    OWN = "test"  # how the test of the answer ended
    PARENT = "parent"  # a parent of the answer that was good, or called so
    SKIPPED_PARENT = "skipped parent"
    ODDS = "odds"
    END = "end"  # an end whose test says nothing
    ADVICE = "advice"  # what to look at where an end is not as it was called
    COMMAND = "command"  # is no program
    HISTORY = "history"  # how the ends lie
    LOST = "lost"  # tests that a machine lost
    KEPT = "kept"  # outcomes of earlier runs


DOUBTS = frozenset(
    (
        Kind.PATHS,
        Kind.NOT_CONFIRMED,
        Kind.UNLIKELY,
        Kind.UNTESTED,
        Kind.DISTURBED,
        Kind.NOT_ALONE,
        Kind.CONTRADICTION,
        Kind.NOT_THERE,
        Kind.END,
    )
)


class Note(NamedTuple):
    """A line that is told."""

    kind: Kind
    text: str

    @property
    def is_doubt(self) -> bool:
        """Whether it is to be known before one blames the answer."""
        return self.kind in DOUBTS


def notes_of(known: Searched, test: Test, shows: bool) -> List[Note]:
    """All of a search, those that speak against its answer first; `shows` says whether it has its
    end."""
    notes: List[Note] = []
    if shows:
        notes += [*of_answer(known, test), *not_alone(test)]
        notes += [*against(known, test), *evidence_of(known, test)]
        notes += of_command(test, test.named(known.commits) or "")
    notes += of_search(known, test)
    return sorted(notes, key=lambda note: not note.is_doubt)


# -- of an answer ----------------------------------------------------------------


def of_answer(known: Searched, test: Test) -> Iterator[Note]:
    """How sure it is, but for the outcomes that contradict it."""
    commits, settings = known.commits, known.settings
    name, added = test.found(commits), commits.added_bad
    if name is None:
        if test.status == Status.ONLY_SKIPPED and added in test.all_named(commits):
            yield Note(Kind.PATHS, beside_paths(added, settings.terms[0]))
        return
    if name == added:
        yield Note(Kind.PATHS, no_path(added, settings.terms[0]))
    if test.confirmed.tallies:
        kind = Kind.CONFIRMED if test.confirmed.is_sure else Kind.NOT_CONFIRMED
        yield Note(kind, test.confirmed.text(settings.terms))
    if test.unlikely:
        yield Note(Kind.UNLIKELY, test.unlikely)
    doubt = evidence.tell_unseen(test.seen.statuses, known.ends)
    if doubt:
        yield Note(Kind.UNTESTED, doubt)


def not_alone(test: Test) -> Iterator[Note]:
    """That tests beside it may have disturbed those on which it stands."""
    if test.alone is False:
        yield Note(Kind.NOT_ALONE, evidence.NOT_ALONE)


SEARCH_ALL = (
    "the same line without --path searches all commits, and knows the outcomes that were found"
)


def no_path(bad: str, new: str) -> str:
    """What is said where the answer is the bad end, which --path leaves out."""
    return "none of the commits that change these paths is %s, and %s changes none of them; %s" % (
        new,
        bad,
        SEARCH_ALL,
    )


def beside_paths(bad: str, new: str) -> str:
    """The same where it may be the answer."""
    return "%s was called %s, and changes none of these paths; %s" % (bad, new, SEARCH_ALL)


def against(known: Searched, test: Test) -> Iterator[Note]:
    """The outcomes that contradict it."""
    for one in test.contradictions(known.commits):
        why = one.text(*known.settings.terms)
        yield Note(Kind.CONTRADICTION, "%s contradicts: %s" % (one.commit[:NAME], why))


def evidence_of(known: Searched, test: Test) -> Iterator[Note]:
    """How the test of the answer ended, and what its parents were."""
    name, old = test.found(known.commits), known.settings.terms[1]
    if name is None:
        return
    if test.seen.status_of(name) is not None and not known.settings.by_hand:
        yield Note(Kind.OWN, test.seen.how(name, known.builds))
    for parent in known.commits.parents_of(name):
        status, front = test.seen.status_of(parent), "its parent %s was " % parent[:NAME]
        if status == 0:
            measured = test.seen.measured(parent, status)
            how = " (%s)" % measured.text() if measured else ""
            yield Note(Kind.PARENT, front + old + how)
        elif status == SKIP:
            yield Note(Kind.SKIPPED_PARENT, front + "skipped")
        elif status is None and parent in known.settings.goods:
            yield Note(Kind.PARENT, "%scalled %s, and not tested" % (front, old))


# -- of a search -----------------------------------------------------------------


def of_command(test: Test, name: str) -> Iterator[Note]:
    """A line of sh is no program: so the test of this commit stopped the search."""
    if test.status == Status.TEST_STOPPED and test.seen.status_of(name) == NO_PROGRAM:
        if " " in test.words[0]:
            text = "%s is looked for as one program; a line of sh is: -- sh -c %s"
            yield Note(Kind.COMMAND, text % (test.words[0], quoted(test.words[0])))


def of_search(known: Searched, test: Test) -> Iterator[Note]:
    """What is known of it as far as it is."""
    if test.seen.missing:
        yield Note(Kind.NOT_THERE, not_there(known, test))
    for text in test.disturbed:
        yield Note(Kind.DISTURBED, text)
    for commit in known.commits.among(test.seen.turned):
        yield Note(Kind.TAKEN_BACK, taken_back(test, commit, known.settings.terms))
    for name, odds in test.odds[:MOST_ODDS]:
        yield Note(Kind.ODDS, "odds: %s %s" % (name[:NAME], of_hundred(odds)))
    yield from of_ends(known, test)
    for text in test.advice:
        yield Note(Kind.ADVICE, text)
    for text in known.told_of_ends:
        yield Note(Kind.HISTORY, text)
    lost = sum(row.lost for row in test.seen.rows)
    if lost:
        were = "was" if lost == 1 else "were"
        yield Note(Kind.LOST, "%s %s lost with a machine" % (counted(lost, "test"), were))
    if test.seen.kept:
        yield Note(Kind.KEPT, known_before(len(test.seen.kept)))


def taken_back(test: Test, commit: str, terms: Tuple[str, str]) -> str:
    """What is said of an outcome that most tests of its commit deny."""
    runs = test.seen.runs_of(commit)
    (good, bad), (new, old) = counts_of(runs), terms
    was, now, count = (old, new, bad) if decided(runs) else (new, old, good)
    return "%s is taken back: it was %s, and is %s %d of %d" % (
        commit[:NAME],
        was,
        now,
        count,
        good + bad,
    )


def of_ends(known: Searched, test: Test) -> Iterator[Note]:
    """The ends whose tests say nothing."""
    for end in known.ends:
        status = test.seen.status_of(end.commit)
        if status is not None and agrees(end, status) is None and test.wrong is None:
            how = test.seen.how(end.commit, known.builds)
            yield Note(Kind.END, end_says_nothing(WrongEnd(end, status, how=how)))


def end_says_nothing(end: WrongEnd) -> str:
    """What is said of an end that was skipped."""
    return "%s: %s" % (end.text, evidence.what_to_do(end.end, end.test_status))


def known_before(count: int) -> str:
    """How many outcomes there were at the begin."""
    return "%s of earlier runs %s known" % (
        counted(count, "outcome"),
        "is" if count == 1 else "are",
    )
