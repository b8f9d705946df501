"""What is known of one command over the history: its search in the engine, and the tests that were
run."""
from __future__ import annotations

import os
from typing import TYPE_CHECKING, Dict, Iterable, Iterator, List, Mapping, NamedTuple
from typing import Optional, Sequence, Set, Tuple

from ..telling.facts import NAME, SKIP, End, Row, decided, ended_with, mean_of, ran_alone
from ..telling.numbers import Measured, Threshold
from ..telling.status import Status
from .evidence import Contradiction, WrongEnd, contradictions, named_by, what_to_do

if TYPE_CHECKING:
    from ..line.settings import Settings
    from ..repository.history import Commits
    from .outcomes import Outcomes

# what a test may take that nobody has asked for yet: seconds, and a part of a build
# (benches/several_rule.py)
LITTLE, SHARE = 1.0, 0.25


class Tally(NamedTuple):
    """How often a commit was what the answer says of it."""

    commit: str
    is_bad: bool  # what the answer says
    times: int  # so often it was that
    runs: int  # of so many tests; none where it is an end that is trusted

    def text(self, terms: Tuple[str, str]) -> str:
        """In words."""
        word = terms[0 if self.is_bad else 1]
        if not self.runs:
            return "%s called %s" % (self.commit[:NAME], word)
        return "%s %s %d of %d" % (self.commit[:NAME], word, self.times, self.runs)


class Confirmed(NamedTuple):
    """What the tests of an answer and its parents said that were made again."""

    tallies: List[Tally]
    is_sure: bool  # whether that confirms it

    def text(self, terms: Tuple[str, str]) -> str:
        """What is said of them."""
        return sentence(self.tallies, self.is_sure, terms)


def is_sure(tallies: List[Tally], wanted: int, is_measured: bool = False) -> bool:
    """Whether each commit was tested as often as is wanted, and was mostly what the answer says.
    Each test of numbers is nearly sure: where one denies it, the machine was not always the
    same."""
    return all(
        not one.runs
        or one.runs >= wanted
        and (one.times == one.runs if is_measured else 2 * one.times > one.runs)
        for one in tallies
    )


def how_ended(row: Row, is_turned: bool) -> str:
    """How a test ended that has a status."""
    if row.at_limit and row.status == SKIP:
        return "its test took longer than --timeout"
    if row.measured is not None:
        return "its test " + row.measured.ended()
    return "its test " + ended_with(row.status or 0, is_turned)


def sentence(tallies: List[Tally], sure: bool, terms: Tuple[str, str]) -> str:
    """What is said of an answer that was tested again."""
    return "%s: %s" % (
        "confirmed" if sure else "not confirmed",
        ", ".join(one.text(terms) for one in tallies),
    )


class UnderWay(NamedTuple):
    """A test of a search that runs now, for its report."""

    commit: str
    run: int
    checkout: Optional[int]
    began: float


class Candidates(NamedTuple):
    """How many commits may still be the first bad one, and how many of these are skipped."""

    commits: int
    skipped: int


class Told:
    """What the engine told of a search, as it told it. `status` is None as long as it goes on."""

    def __init__(
        self, log: Sequence[bytes] = (), answer: Sequence[bytes] = (), status: Optional[int] = None
    ) -> None:
        self.log, self.answer, self.status = list(log), list(answer), status
        self.certificate: List[bytes] = []
        self.candidates: Optional[Candidates] = None
        self.candidates_at_begin: Optional[Candidates] = None

    def hear(self, kind: bytes, rest: bytes) -> None:
        """Takes an event."""
        if kind == b"log":
            self.log.append(rest)
        elif kind == b"answer":
            self.answer.append(rest)
        elif kind == b"certificate":
            self.certificate.append(rest)
        elif kind == b"left":
            self.candidates = Candidates(*map(int, rest.split()))
        elif kind == b"end":
            self.status = int(rest)

    def has_begun(self) -> None:
        """What was told so far is how the search begins."""
        self.candidates_at_begin = self.candidates

    def take(self, log: Sequence[bytes], answer: Sequence[bytes], status: Optional[int]) -> None:
        """Takes all of it, in place of what was told before."""
        self.log, self.answer, self.status = list(log), list(answer), status

    def forget_certificate(self) -> None:
        """Another one is asked for."""
        self.certificate = []


class Seen:
    """What was seen of the commits by the tests of one command: their outcomes, those of them that
    earlier runs `kept`, and where its runner found no test. `turned` has the outcomes that were
    taken back, and whether there was one before. With --fixed all `is_turned`; with --measure they
    stand on numbers beside a `threshold`."""

    def __init__(
        self,
        outcomes: Outcomes,
        statuses: Optional[Mapping[str, int]] = None,
        rows: Sequence[Row] = (),
        is_turned: bool = False,
        threshold: Optional[Threshold] = None,
    ) -> None:
        self.is_turned, self.threshold = is_turned, threshold
        self.outcomes, self.statuses, self.rows = outcomes, dict(statuses or {}), list(rows)
        self.kept: Dict[str, int] = {}
        self.missing: Set[str] = set()
        self.turned: Dict[str, bool] = {}

    def load(self, place: Iterable[str]) -> None:
        """Takes what is kept of the commits that are searched: by earlier runs, or by tests of this
        one that looked for the ends; of others nothing is told."""
        places = set(place)
        self.rows = [row for row in self.rows if row.commit in places]
        self.statuses, own = self.outcomes.load(places), {row.commit for row in self.rows}
        self.kept = {name: one for name, one in self.statuses.items() if name not in own}

    def load_missing(self) -> None:
        """Takes where earlier runs found no test."""
        self.missing = self.outcomes.load_missing(self.statuses)

    def note_missing(self, commit: str) -> None:
        """Keeps that the runner found no test."""
        self.outcomes.keep_missing(commit)
        self.missing.add(commit)

    def note(self, row: Row) -> None:
        """Takes a test that is over. One of a commit that was tested before does not change its
        outcome by itself."""
        self.rows.append(row)
        if row.status is not None and row.run == 1:
            self.note_outcome(row.commit, decided(self.runs_of(row.commit) or [row.status]))

    def note_outcome(self, commit: str, status: int) -> None:
        """Takes the outcome of a commit."""
        self.statuses[commit] = status

    def turn_outcome(self, commit: str, status: int) -> None:
        """Takes an outcome back: it is another one from now on."""
        self.turned[commit] = commit in self.statuses
        self.note_outcome(commit, status)

    def said_before(self, commit: str) -> bool:
        """Whether an outcome that was taken back was that of a test, and not of commits behind
        it."""
        return self.turned.get(commit, False)

    def status_of(self, commit: str) -> Optional[int]:
        """The outcome of a commit, where it has one."""
        return self.statuses.get(commit)

    def runs_of(self, commit: str) -> List[int]:
        """What the tests of a commit ended with that count."""
        return self.outcomes.counting(commit)

    def ran_alone(self, commit: str) -> List[int]:
        """What those of its tests ended with that had nothing beside them."""
        return ran_alone(*self.all_runs(commit))

    def ran_beside(self, commit: str = "") -> bool:
        """Whether a test of this commit, or else any, ran beside others."""
        besides = self.outcomes.besides
        found = [besides.get(commit, [])] if commit else besides.values()
        return any(beside is not None for one in found for beside in one)

    def all_runs(self, commit: str) -> Tuple[List[int], List[Optional[int]]]:
        """What all of its tests ended with, and which of them ran beside others."""
        return self.outcomes.runs.get(commit, []), self.outcomes.besides.get(commit, [])

    def seconds(self) -> float:
        """What a test takes that is neither short nor long among those that are known; 0 where none
        is."""
        spent = [row.seconds for row in self.rows if row.status is not None and row.ran]
        if not spent:
            kept = self.outcomes.besides.values()
            spent = [float(one) for besides in kept for one in besides if one is not None]
        return sorted(spent)[len(spent) // 2] if spent else 0.0

    def measured(self, commit: str, status: Optional[int]) -> Optional[Measured]:
        """What a test of a commit has measured that ended so."""
        numbers = self.outcomes.numbers.get(commit, [])
        for one, found in zip(self.all_runs(commit)[0], numbers):
            if one == status and found and self.threshold is not None:
                return Measured(tuple(found), self.threshold, one == 1)
        return next(
            (
                row.measured
                for row in self.rows
                if row.commit == commit and row.status == status and row.measured
            ),
            None,
        )

    def ended(self, commit: str, status: int) -> str:
        """How a test of a commit ended that has this outcome, behind `its test`."""
        measured = self.measured(commit, status)
        if measured is None:
            return ended_with(status, self.is_turned)
        return measured.ended()

    def how(self, commit: str, builds: Sequence[Row]) -> str:
        """How an outcome came about: by a test, by a build that failed, at a time limit,
        or in an earlier run."""
        status = self.statuses[commit]
        ended = "its test " + self.ended(commit, status)
        ran = [row for row in self.rows if row.commit == commit and row.ran]
        if ran:
            late = [row for row in ran if row.at_limit and status == SKIP]
            return how_ended(late[0], self.is_turned) if late else ended
        if any(row.commit == commit and row.at_limit for row in builds):
            return "its build took longer than its time limit"
        if any(row.commit == commit and row.status for row in builds):
            return "its build " + ("failed" if status == SKIP else "ended with %d" % status)
        if any(row.commit == commit for row in self.rows):
            return "its checkout could not be made ready"
        return "an earlier run skipped it" if status == SKIP else ended

    def done(self) -> List[Row]:
        """The tests that have a status: they were not cancelled."""
        return [row for row in self.rows if row.status is not None]


class Shown:
    """What was shown of a search while it goes on."""

    def __init__(self) -> None:
        self.candidates: Optional[Candidates] = None
        self.answer: Optional[List[bytes]] = None

    def is_new(self, candidates: Candidates) -> bool:
        """Whether another number of them was shown before; this one is shown now."""
        before, self.candidates = self.candidates, candidates
        return before != candidates

    def is_new_answer(self, answer: List[bytes]) -> bool:
        """The same of an answer."""
        before, self.answer = self.answer, list(answer)
        return before != answer


class Test:
    """One command, and its search: what the engine told of it, what was seen of the commits by it,
    what was shown, and what became of its answer. The one that has no name is alone."""

    def __init__(
        self, name: str, words: List[str], seen: Seen, short: str = "", told: Optional[Told] = None
    ) -> None:
        self.name, self.words, self.seen, self.outcomes = name, words, seen, seen.outcomes
        self.short = short or name  # its name for files
        self.told, self.shown = told or Told(), Shown()
        self.wrong: Optional[WrongEnd] = None  # the end for which it is left out of several
        self.advice: Tuple[str, ...] = ()  # what to look at where an end is not as it was called
        # of the answer and its parents, where they were tested again
        self.confirmed = Confirmed([], False)
        # whether they were tested with nothing beside them, where it bears on them; and what was
        # not the same there, in words
        self.alone: Optional[bool] = None
        self.disturbed: List[str] = []
        # of a search by odds: the commits that have most of them, and what is unlikely then
        self.odds: List[Tuple[str, float]] = []
        self.unlikely = ""

    def begin_measured(self, seen: Seen) -> None:
        """The threshold is known now: the ends have outcomes by it, and so has what is kept."""
        self.seen, self.outcomes = seen, seen.outcomes

    @property
    def status(self) -> Optional[int]:
        """The status of its search, where that has one."""
        return self.told.status

    def begin(self) -> None:
        """Forgets what an engine told, before another one tells it."""
        self.told.take((), (), None if self.wrong is None else Status.REFUSED)

    def leave_out(self, wrong: WrongEnd) -> None:
        """Of several tests, one that has an end which is not as it was called is left out."""
        self.wrong = wrong
        self.advise(wrong.advice or what_to_do(wrong.end, wrong.test_status))
        self.told.take((), (), Status.REFUSED)

    def advise(self, *texts: str) -> None:
        """Takes what to look at where an end is not as it was called."""
        self.advice = texts

    def confirm(self, tallies: List[Tally], sure: bool) -> None:
        """Takes how often the answer and its parents were what it says of them."""
        self.confirmed = Confirmed(tallies, sure)

    def look_apart(self, is_alone: Optional[bool]) -> None:
        """Takes whether the answer and its parents were tested alone."""
        self.alone = is_alone

    def weigh(self, odds: List[Tuple[str, float]], unlikely: str = "") -> None:
        """Takes the odds of the commits that have most of them, and what is unlikely of the
        answer."""
        self.odds, self.unlikely = odds, unlikely

    # -- how it is named -----------------------------------------------------------

    @property
    def front(self) -> str:
        """Its name in front of what is told of it, where it has one."""
        return self.name + ": " if self.name else ""

    @property
    def mark(self) -> str:
        """Its name behind what is told of one of its commits, where it has one."""
        return "[%s]" % self.name if self.name else ""

    def folder(self, path: str) -> str:
        """Its folder in that of all tests."""
        return os.path.join(path, self.short) if self.name else path

    def file(self, path: str) -> str:
        """Its file, beside those of the other tests."""
        return path + "." + self.short if self.name else path

    # -- what its answer says ------------------------------------------------------

    def all_named(self, commits: Commits) -> List[str]:
        """The commits that the answer names."""
        return named_by(self.told.answer, commits.place)

    def named(self, commits: Commits) -> Optional[str]:
        """The commit that the answer names first."""
        return next(iter(self.all_named(commits)), None)

    def found(self, commits: Commits) -> Optional[str]:
        """The first bad commit, where the search has found it."""
        return self.named(commits) if self.status == Status.FOUND else None

    def contradictions(self, commits: Commits) -> List[Contradiction]:
        """The outcomes in hand that contradict the answer."""
        name = self.found(commits)
        return contradictions(commits.shape, name, self.seen.statuses) if name else []

    def lines(
        self, before: List[bytes], paths: bytes, split: bool, terms: Tuple[str, str]
    ) -> Iterator[bytes]:
        """The log behind what stands before it, with the paths behind its start line. git 2.39
        stops replaying at a start line whose ends need a merge base tested: with `split` the ends
        are marked line by line."""
        for line in [*before, *self.told.log]:
            if not line.startswith(b"git bisect start"):
                yield line
            elif not split:
                yield line + paths
            else:
                words = line.split(b" ")
                ends = [word for word in words[3:] if is_quoted_name(word)]
                yield b" ".join(word for word in words if word not in ends) + paths
                for number, end in enumerate(ends):
                    yield b"git bisect %s %s" % (
                        terms[1 if number else 0].encode(),
                        end.strip(b"'"),
                    )


class Searched(NamedTuple):
    """What was asked, the commits, and what is known of each test over them: the search writes it,
    and all that is told of it is made of it."""

    settings: Settings
    commits: Commits
    tests: Sequence[Test]
    ends: Sequence[End]  # the commits that the user called good or bad
    builds: List[Row]  # those that are over
    began: float  # by time.monotonic()
    told_of_ends: Sequence[str] = ()  # how they lie, as it was told before the search

    @property
    def has_names(self) -> bool:
        """Whether the tests are told by their names, and together; else there is one alone."""
        return bool(self.tests[0].name)

    def log_lines(self, test: Test, with_answer: bool = True) -> Iterator[bytes]:
        """The log of a search as it is printed, behind the one that it goes on from, and its
        answer."""
        settings = self.settings
        before = (settings.replay or b"").split(b"\n")[:-1]
        paths = os.fsencode(settings.log_paths)
        yield from test.lines(before, paths, bool(self.commits.beside), settings.terms)
        if with_answer:
            yield from test.told.answer

    def by_commit(self) -> Dict[str, List[Test]]:
        """The first bad commits in the order of the history, with the tests that they broke."""
        found: Dict[str, List[Test]] = {}
        for test in self.tests:
            name = test.found(self.commits)
            if name is not None:
                found.setdefault(name, []).append(test)
        place = self.commits.place
        return {name: found[name] for name in sorted(found, key=lambda name: place[name])}


def pays(test: Test, tests: Sequence[Test], builds: List[Row], workers: int) -> bool:
    """Whether a test that its search may ask for later is worth its time where the commit stands
    built: where there are fewer workers than searches, or it takes no second, or little beside a
    build. As long as that is not known, it is taken to be so."""
    build = mean_of(builds)
    own = mean_of(test.seen.rows) or mean_of([row for other in tests for row in other.seen.rows])
    few = workers < sum(other.status is None for other in tests)
    return few or build is None or own is None or own <= max(LITTLE, SHARE * build)


def is_quoted_name(word: bytes) -> bool:
    """Whether a word of the start line is the name of a commit."""
    return (
        len(word) in (42, 66)
        and word[:1] == b"'"
        and all(sign in b"0123456789abcdef'" for sign in word)
    )
