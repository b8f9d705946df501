"""The facts that modules hand to each other: a test that has ended, and how far a search is.

They are plain data, so that who tells something need not know who found it out."""
from __future__ import annotations

from typing import List, NamedTuple, Optional, Sequence, Tuple

from .numbers import Measured

SKIP = 125
FIRST_STOP = 126
NAME = 12  # the digits of a commit that are shown


class Row(NamedTuple):
    """One test of a commit, as it was run."""

    commit: str
    checkout: int  # its number, from 0 on
    began: float  # by time.monotonic()
    ended: float
    status: Optional[int]  # 0 to 255, or None where it was ended before it was done
    at_limit: bool = False  # whether it took longer than --timeout
    ran: bool = True  # not where no test ran, as the commit could not be built or checked out
    run: int = 1  # above it the commit was tested again
    host: str = ""  # the machine, where the command told one
    lost: int = 0  # how often a machine lost it before
    beside: bool = False  # whether other tests or builds ran at the same time
    measured: Optional[Measured] = None  # with --measure

    @property
    def seconds(self) -> float:
        """How long it took."""
        return self.ended - self.began


class Running(NamedTuple):
    """A test that runs now, or a build; of several tests its subject is the name of the test."""

    began: float
    commit: str
    subject: bytes


class Shares(NamedTuple):
    """How far several searches are."""

    left: int  # those that have no end
    total: int
    done: float  # which part of all rounds is done


class Progress(NamedTuple):
    """How far a search is, for the live line."""

    total: int  # commits to search at the begin
    # those that may still be the first bad one; None where several searches run
    left: Optional[int]
    done: int  # tests that have ended
    seconds: Optional[float]  # the estimate of what is left, or None
    running: List[Running]
    searches: Optional[Shares] = None  # where several run
    spent: float = 0.0  # seconds since the begin


class End(NamedTuple):
    """A commit that the user called good or bad."""

    commit: str
    called: str  # the word of the log: a term
    is_bad: bool
    is_turned: bool = False  # whether a test that succeeds is bad (--fixed)


def outcome_of(status: int) -> str:
    """What an exit status says of a commit."""
    if status == 0:
        return "good"
    return "skipped" if status == SKIP else "bad" if status < SKIP else "stopped"


def turned(status: int) -> int:
    """The outcome of a commit by --fixed: one whose test succeeds has the fix that is searched."""
    return status if status >= SKIP else int(status == 0)


def ended_with(status: int, is_turned: bool = False) -> str:
    """What a test did whose commit has this outcome."""
    if not is_turned or status >= SKIP:
        return "ended with %d" % status
    return "ended with 0" if status else "failed"


def counts_of(statuses: Sequence[int]) -> Tuple[int, int]:
    """How many of the runs of a commit were good, and how many bad."""
    return sum(status == 0 for status in statuses), sum(0 < status < SKIP for status in statuses)


def decided(statuses: Sequence[int]) -> int:
    """The outcome of a commit that was tested several times: that of most of its runs, and else of
    the first one that says something."""
    good, bad = counts_of(statuses)
    said = [status for status in statuses if status < SKIP]
    if not said:
        return statuses[0]
    is_bad = bad > good or bad == good and said[0] != 0
    return next(status for status in said if (status != 0) == is_bad)


def ran_alone(statuses: Sequence[int], besides: Sequence[Optional[int]]) -> List[int]:
    """What those of the runs of a commit ended with that had nothing beside them."""
    return [status for status, beside in zip(statuses, besides) if beside is None]


def is_denied(statuses: Sequence[int], besides: Sequence[Optional[int]]) -> bool:
    """Whether most of the runs that were alone deny what all of them say."""
    good, bad = counts_of(ran_alone(statuses, besides))
    return good != bad and (bad > good) != (decided(statuses) != 0)


def that_count(statuses: List[int], besides: Sequence[Optional[int]]) -> List[int]:
    """Those of the runs of a commit that count: where two alone deny what all of them say, the
    others were disturbed."""
    alone = ran_alone(statuses, besides)
    is_enough = max(counts_of(alone)) > 1 and is_denied(statuses, besides)
    return alone if is_enough else statuses


def agrees(end: End, status: int) -> Optional[bool]:
    """Whether a test of an end says what the end was called; None where it says nothing of it."""
    if status >= SKIP:
        return None
    return (status != 0) == end.is_bad


def mean_of(rows: Sequence[Row]) -> Optional[float]:
    """The seconds that one takes, of those that have ended; None where there is none."""
    spent = [row.ended - row.began for row in rows if row.status is not None and row.ran]
    return sum(spent) / len(spent) if spent else None


def later(rows: Sequence[Row]) -> List[Row]:
    """Those that were not the first in their checkout, where it is all to be built."""
    first = {row.checkout: row for row in sorted(rows, key=lambda row: row.began, reverse=True)}
    return [row for row in rows if first[row.checkout] is not row]


def usual(rows: Sequence[Row]) -> Optional[float]:
    """The seconds that one takes from now on: the first ones count where there are no others."""
    later_ones = mean_of(later(rows))
    return mean_of(rows) if later_ones is None else later_ones


def marks_of(log: List[bytes]) -> List[Tuple[str, str]]:
    """The marks of a log: the word, and the commit."""
    words = [
        line.decode("ascii", "replace").split() for line in log if line.startswith(b"git bisect ")
    ]
    return [(mark[2], mark[3]) for mark in words if len(mark) == 4 and mark[2] != "start"]


def used_of(log: List[bytes]) -> List[str]:
    """The commits that the lines of a log mark."""
    return [name for _, name in marks_of(log)]


def ends_of(
    bad: str, goods: List[str], terms: Tuple[str, str], is_turned: bool = False
) -> List[End]:
    """The ends of a search, the bad one first."""
    new, old = terms
    return [End(bad, new, True, is_turned)] + [End(good, old, False, is_turned) for good in goods]
