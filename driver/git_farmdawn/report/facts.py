"""The facts of a report: what result.json has, and what the page is made of.

Scripts read result.json: a key keeps its name and its meaning, and the manual has each of them.
Whatever a report tells is a fact here first, so that the page, summary.md and junit.xml cannot say
another thing. Bytes become text here, once, by `text_of`. What is hidden in a text is shown by who
makes a file of it, as JSON has another way for that than HTML."""
from __future__ import annotations

import os
import re
import time
from typing import TYPE_CHECKING, Dict, List, Optional, Sequence, TypedDict

from ..host.files import last_lines
from ..known import several
from ..known.notes import Kind, notes_of
from ..known.record import how_ended
from ..line.named import TOP
from ..line.table import OPTIONS
from ..telling.facts import Row, outcome_of, used_of
from ..telling.numbers import Measured
from ..telling.status import Status
from ..telling.voice import ME, quoted
from .source import text_of

if TYPE_CHECKING:
    from ..known.record import Searched, Seen, Test, UnderWay
    from ..line.settings import Settings
    from .source import Source

SHOWN_LINES, SHOWN_BYTES = 20, 4000
# beside signals, what ends a search that could have gone on, or could not begin
STOPPED = (Status.REFUSED, Status.NO_ROOM, Status.DEADLINE, Status.NO_PROGRESS)
# notes of which the page and summary.md have more than the line
OWN_FORM = (Kind.CONTRADICTION, Kind.PARENT, Kind.ODDS, Kind.LOST)


class OutputFact(TypedDict):
    """The last lines of the test that decided."""

    commit: str
    lines: List[str]


class GoodFact(TypedDict):
    """A parent of the answer that was good, or was called so: then there is no status."""

    commit: str
    subject: str
    status: Optional[int]


def output_of(test: Test, name: str) -> Optional[OutputFact]:
    """The last lines of the test of a commit, where it printed some."""
    lines = (
        last_lines(os.path.join(test.outcomes.log_dir, name + ".log"), SHOWN_LINES)
        if name in test.seen.statuses
        else []
    )
    text = text_of(b"\n".join(lines)[-SHOWN_BYTES:]).replace("\r", "\n").rstrip("\n")
    return {"commit": name, "lines": text.split("\n")} if text else None


def last_good(known: Searched, test: Test, name: str) -> List[GoodFact]:
    """The parents of a commit that were good."""
    commits = known.commits
    found: List[GoodFact] = []
    for parent in commits.parents_of(name):
        status = test.seen.status_of(parent)
        if status == 0 or status is None and parent in known.settings.goods:
            found.append(
                {"commit": parent, "subject": text_of(commits.subject[parent]), "status": status}
            )
    return found


def again(known: Searched, test: Test, prefix: str, answer: str) -> Dict[str, str]:
    """The lines of sh by which one sees the fault of the answer, and by which one searches again:
    both begin at the top of the work tree, and enter the folder in which the command is run."""
    settings, enter = known.settings, ["cd " + quoted(prefix)] if prefix else []
    typed = settings.typed.get(test.name, test.words)
    is_line = known.has_names and not settings.is_list  # of sh
    command = typed[-1] if is_line else " ".join(quoted(word) for word in typed)
    see = (
        " && ".join(
            ["git checkout " + answer]
            + enter
            + (settings.build or [])[2:]
            + [command] * bool(typed)
        )
        # what a checkout of the commit alone does not have is not seen there
        if answer and not settings.owns and not settings.patches
        else ""
    )
    line = [ME, *options_of(settings, prefix, is_line), settings.bad, *settings.goods]
    line += ["--test", test.name, quoted(command)] if is_line else ["--", command] * bool(typed)
    again_all = " && ".join([*enter, " ".join(line)])
    return {"see": text_of(os.fsencode(see)), "search": text_of(os.fsencode(again_all))}


def options_of(settings: Settings, prefix: str, has_name: bool) -> List[str]:
    """The options on which the answer depends, as words of sh, for a test that has a name in the
    line or none."""
    words = []
    for row in OPTIONS:
        if row.again and (has_name or not row.several):
            words += settings.words_of(row, prefix)
    return [quoted(word) for word in words]


NAME = "[0-9a-f]{40}(?:[0-9a-f]{24})?"


class TestFact(TypedDict):
    """One test, or an outcome that was kept."""

    commit: str
    subject: str
    worker: Optional[int]
    host: Optional[str]
    lost: int
    began: Optional[float]
    ended: Optional[float]
    status: Optional[int]
    outcome: str
    how: Optional[str]
    numbers: List[float]
    measured: Optional[str]
    run: int
    ran: bool
    kept: bool
    used: bool
    log: Optional[str]


class AnswerFact(TypedDict):
    """The first bad commit."""

    name: str
    subject: str
    author: str
    date: int


class CommitFact(TypedDict):
    """A commit that may be the first bad one, its outcome, and how that came about."""

    name: str
    subject: str
    outcome: Optional[str]
    how: Optional[str]


class ContradictionFact(TypedDict):
    """An outcome that contradicts the answer."""

    commit: str
    subject: str
    outcome: str
    status: int
    why: str


class NoteFact(TypedDict):
    """A line that is told of the search, of what kind, and whether it speaks against the answer."""

    kind: str
    text: str
    doubt: bool


class ConfirmedFact(TypedDict):
    """The answer, or a parent of it, that was tested again; without runs it is an end that is
    trusted."""

    commit: str
    subject: str
    outcome: str
    times: int
    runs: int


class OddsFact(TypedDict):
    """The odds of a commit to be the first bad one, of 1."""

    commit: str
    subject: str
    odds: float


class EndFact(TypedDict):
    """An end, what it was called, how its test ended, and the same in words; null where it was not
    tested."""

    commit: str
    subject: str
    called: str
    status: Optional[int]
    how: Optional[str]


class Facts(TypedDict):
    """All of one search, in the order of result.json."""

    report: int
    generator: str
    version: str
    name: str
    repository: str
    remote: Optional[str]
    bad: str
    good: List[str]
    fixed: bool
    terms: Dict[str, str]
    first_parent: bool
    paths: List[str]
    command: List[str]
    again: Dict[str, str]
    state: str
    status: Optional[int]
    answer: Optional[AnswerFact]
    link: Optional[str]
    output: Optional[OutputFact]
    last_good: List[GoodFact]
    reason: Optional[str]
    candidates: List[CommitFact]
    notes: List[NoteFact]
    contradictions: List[ContradictionFact]
    sure: Optional[bool]
    sentence: Optional[str]
    alone: Optional[bool]
    disturbed: List[str]
    not_there: Optional[str]
    confirmed: List[ConfirmedFact]
    odds: List[OddsFact]
    unlikely: Optional[str]
    threshold: Optional[str]
    ends: List[EndFact]
    started: float
    ended: Optional[float]
    workers: int
    host: str
    commits: int
    tests: List[TestFact]
    log: List[str]


def doubts_of(facts: Facts) -> List[str]:
    """What is to be known of an answer before one blames it, in a line each."""
    return [note["text"] for note in facts["notes"] if note["doubt"]]


def further_notes(facts: Facts, *shown: Kind) -> List[NoteFact]:
    """The notes but for those that are shown in a form of their own: of these kinds, and of those
    that each file has in one."""
    own = {kind.value for kind in (*OWN_FORM, *shown)}
    return [note for note in facts["notes"] if note["kind"] not in own]


def outcome_in_words(outcome: str, how: Optional[str]) -> str:
    """An outcome, with how it came about where it says nothing of the commit."""
    return "%s: %s" % (outcome, how) if how and outcome in ("skipped", "stopped") else outcome


def is_needless(one: TestFact) -> bool:
    """Whether a test is not in the log."""
    return not one["used"] and one["outcome"] != "running" and not one["kept"] and one["run"] == 1


def is_not_built(one: TestFact) -> bool:
    """Whether no test ran, as the commit could not be built or checked out."""
    return not one["ran"] and not one["kept"]


def was_taken_back(seen: Seen, one: TestFact) -> bool:
    """Whether most of the later tests of a commit deny what its first one said."""
    known = seen.statuses.get(one["commit"])
    return (
        one["commit"] in seen.turned
        and one["run"] == 1
        and not one["kept"]
        and known is not None
        and outcome_of(known) != one["outcome"]
    )


class Collector:
    """Collects the facts of one search."""

    def __init__(
        self,
        known: Searched,
        test: Test,
        source: Source,
        version: str,
        running: Sequence[UnderWay] = (),
    ) -> None:
        self.known, self.test, self.source = known, test, source
        self.settings, self.seen = known.settings, test.seen
        self.version, self.running = version, running
        self.offset = time.time() - time.monotonic()

    def subject(self, commit: str) -> str:
        """The first line of a commit's message."""
        return text_of(self.known.commits.subject[commit])

    # -- tests -------------------------------------------------------------------

    def used(self) -> List[str]:
        """The ends, and the commits that the log marks, in its order."""
        settings = self.settings
        evidence = (
            [row.commit for row in self.seen.rows] + list(self.seen.kept) if settings.noise else []
        )
        return list(
            dict.fromkeys(
                [settings.bad]
                + settings.goods
                + used_of(self.test.told.log)
                + evidence
                + self.aborted()
            )
        )

    def aborted(self) -> List[str]:
        """The commit whose test stopped the search."""
        lines = [line.decode("ascii", "replace") for line in self.test.told.answer]
        return [line.rsplit(" ", 1)[1] for line in lines if line.startswith("bisect aborted: ")]

    def row(self, commit: str, status: Optional[int], outcome: str, is_used: bool) -> TestFact:
        """A test without its times."""
        return {
            "commit": commit,
            "subject": self.subject(commit),
            "worker": None,
            "host": None,
            "lost": 0,
            "began": None,
            "ended": None,
            "status": status,
            "outcome": outcome,
            "how": self.how(commit),
            "numbers": [],
            "measured": None,
            "run": 1,
            "ran": False,
            "kept": True,
            "used": is_used and status is not None,
            "log": None,
        }

    def kept(self, commit: str, is_used: bool) -> TestFact:
        """An outcome of an earlier run."""
        status = self.seen.kept[commit]
        one = self.row(commit, status, outcome_of(status), is_used)
        self.take_numbers(one, self.seen.measured(commit, status))
        return one

    @staticmethod
    def take_numbers(one: TestFact, measured: Optional[Measured]) -> None:
        """What it has measured."""
        if measured is not None:
            one["numbers"], one["measured"] = list(measured.numbers), measured.text()

    def counts(self, row: Row, outcome: str) -> bool:
        """Whether the outcome of a commit is that of its first test: this one, and it was not taken
        back."""
        known = self.seen.status_of(row.commit)
        return row.run == 1 and (known is None or outcome_of(known) == outcome)

    def how(self, commit: str) -> Optional[str]:
        """How the outcome of a commit came about."""
        is_known = commit in self.seen.statuses
        return self.seen.how(commit, self.known.builds) if is_known else None

    def how_of(self, row: Row) -> Optional[str]:
        """The same of one test."""
        if row.status is None or not row.ran:
            return None if row.status is None else self.how(row.commit)
        return how_ended(row, self.seen.is_turned)

    def at(self, moment: float) -> float:
        """A time of the clock on the wall."""
        return round(moment + self.offset, 2)

    def tests(self, running: bool) -> List[TestFact]:
        """Those that were known first, in the order of the log, then the others as they began."""
        test, used = self.test, self.used()
        marked = set(used)
        now = self.running
        ran = {row.commit for row in test.seen.rows} | {claim.commit for claim in now}
        kept = [
            name
            for name in used + [name for name in test.seen.kept if name not in marked]
            if name in test.seen.kept
        ]
        out = [self.kept(name, name in marked) for name in kept if name not in ran]
        made = []
        for row in test.seen.rows:
            outcome = "ended" if row.status is None else outcome_of(row.status)
            one = self.row(
                row.commit, row.status, outcome, row.commit in marked and self.counts(row, outcome)
            )
            one.update(
                {
                    "how": self.how_of(row),
                    "run": row.run,
                    "ran": row.ran,
                    "worker": row.checkout + 1,
                    "host": row.host or None,
                    "lost": row.lost,
                    "kept": False,
                    "began": self.at(row.began),
                    "ended": self.at(row.ended),
                }
            )
            self.take_numbers(one, None if row.status is None else row.measured)
            made.append(one)
        for claim in now if running else []:
            one = self.row(claim.commit, None, "running", False)
            one.update(
                {
                    "how": None,
                    "run": claim.run,
                    "ran": True,
                    "worker": None if claim.checkout is None else claim.checkout + 1,
                    "kept": False,
                    "began": self.at(claim.began),
                }
            )
            made.append(one)
        return out + sorted(made, key=lambda one: one["began"] or 0.0)

    # -- answers -----------------------------------------------------------------

    def answer(self, log: List[str]) -> Optional[AnswerFact]:
        """The first bad commit, where the log has it."""
        found = re.fullmatch("(%s) is the first .* commit" % NAME, log[-1]) if log else None
        if not found:
            return None
        name = found.group(1)
        author, date = self.source.signed(name)
        return {"name": name, "subject": self.subject(name), "author": author, "date": date}

    def candidates(self) -> List[CommitFact]:
        """The commits of which one is the first bad one, where only skipped ones are left."""
        if self.test.status != Status.ONLY_SKIPPED:
            return []
        known = self.seen.statuses
        return [
            {
                "name": name,
                "subject": self.subject(name),
                "outcome": outcome_of(known[name]) if name in known else None,
                "how": self.how(name),
            }
            for name in self.test.all_named(self.known.commits)
        ]

    def notes(self, shows: bool) -> List[NoteFact]:
        """What is told of the search."""
        return [
            {"kind": one.kind.value, "text": text_of(os.fsencode(one.text)), "doubt": one.is_doubt}
            for one in notes_of(self.known, self.test, shows)
        ]

    def contradictions(self) -> List[ContradictionFact]:
        """The outcomes that contradict the answer."""
        new, old = self.settings.terms
        return [
            {
                "commit": one.commit,
                "subject": self.subject(one.commit),
                "outcome": one.outcome,
                "status": one.status,
                "why": one.text(new, old),
            }
            for one in self.test.contradictions(self.known.commits)
        ]

    def confirmed(self) -> List[ConfirmedFact]:
        """How often the answer and its parents were what it says of them."""
        return [
            {
                "commit": one.commit,
                "subject": self.subject(one.commit),
                "outcome": "bad" if one.is_bad else "good",
                "times": one.times,
                "runs": one.runs,
            }
            for one in self.test.confirmed.tallies
        ]

    def ends(self) -> List[EndFact]:
        """The commits that the user called good or bad."""
        return [
            {
                "commit": end.commit,
                "subject": self.subject(end.commit),
                "called": end.called,
                "status": self.seen.status_of(end.commit),
                "how": self.how(end.commit),
            }
            for end in self.known.ends
        ]

    def reason(self, status: Optional[int], log: List[str]) -> str:
        """Why there is no answer."""
        if status is None:
            return "the search runs"
        stop = (
            re.fullmatch("bisect aborted: (.*) on (%s)" % NAME, log[-1])
            if status == Status.TEST_STOPPED and log
            else None
        )
        if stop:
            what = several.what_stopped(self.test, stop.group(2))
            return "the %s of %s stopped the search: %s" % (what, stop.group(2), stop.group(1))
        new, old = self.settings.terms
        if self.settings.noise and status == Status.ONLY_SKIPPED:
            return "no commit has the odds that are wanted"
        why: Dict[int, str] = {
            Status.ONLY_SKIPPED: "only skipped commits are left",
            Status.BAD_MERGE_BASE: "a merge base is " + new,
            Status.BAD_AND_GOOD: "one commit is both %s and %s" % (new, old),
            Status.NO_ANCESTOR: "a %s commit is no ancestor of the %s one" % (old, new),
        }
        return why.get(status, "the search ended with status %d" % status)

    @staticmethod
    def named(log: List[str], reason: str) -> str:
        """The commit that the reason names, as an end that is not as it was called, or else the
        last line of the log: the answer, or the one whose test stopped the search."""
        found = re.search(NAME, reason or (log[-1] if log else ""))
        return found.group() if found else ""

    @staticmethod
    def state(status: Optional[int], answer: Optional[AnswerFact]) -> str:
        """found, running, ended without an answer, or stopped."""
        if status is None:
            return "running"
        if answer:
            return "found"
        is_stopped = status >= Status.SIGNAL or status in STOPPED
        return "stopped" if is_stopped else "ended"

    def collect(self, status: Optional[int], reason: str, with_answer: bool) -> Facts:
        """All of it; a status of None is that of a search that runs."""
        known, settings, source = self.known, self.settings, self.source
        log = [
            text_of(line) for line in known.log_lines(self.test, with_answer and status is not None)
        ]
        answer = self.answer(log) if status is not None else None
        shows = with_answer and status is not None
        name = answer["name"] if answer else ""
        confirmed = self.test.confirmed
        tells = bool(answer and confirmed.tallies)
        return {
            "report": 1,
            "generator": "git farmdawn",
            "version": self.version,
            "name": self.test.name,
            "repository": source.path,
            "remote": source.web,
            "bad": settings.bad,
            "good": settings.goods,
            "fixed": settings.fixed,
            "terms": {"new": settings.terms[0], "old": settings.terms[1]},
            "first_parent": settings.first_parent,
            "paths": [text_of(os.fsencode(path[len(TOP) :])) for path in settings.paths],
            "command": [text_of(os.fsencode(word)) for word in self.test.words],
            "again": again(known, self.test, source.prefix, name),
            "state": self.state(status, answer),
            "status": status,
            "answer": answer,
            "link": source.link(name) if name else None,
            "output": output_of(self.test, self.named(log, reason) if status is not None else ""),
            "last_good": last_good(known, self.test, name) if name else [],
            "reason": None if answer else text_of(os.fsencode(reason)) or self.reason(status, log),
            "candidates": self.candidates() if shows else [],
            "notes": self.notes(shows),
            "contradictions": self.contradictions() if answer else [],
            "sure": confirmed.is_sure if tells else None,
            "sentence": confirmed.text(settings.terms) if tells else None,
            "alone": self.test.alone if answer else None,
            "disturbed": list(self.test.disturbed),
            "not_there": several.not_there(known, self.test) if self.seen.missing else None,
            "confirmed": self.confirmed() if answer else [],
            "odds": [
                {"commit": one, "subject": self.subject(one), "odds": round(odds, 6)}
                for one, odds in self.test.odds
            ],
            "unlikely": self.test.unlikely or None,
            "threshold": settings.measure.word if settings.measure else None,
            "ends": self.ends(),
            "started": round(known.began + self.offset - 0.01, 2),
            "ended": None if status is None else round(time.time() + 0.01, 2),
            "workers": settings.workers,
            "host": text_of(os.fsencode(os.uname().nodename)),
            "commits": known.commits.total,
            "tests": self.tests(status is None),
            "log": log,
        }
