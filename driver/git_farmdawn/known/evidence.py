"""Outcomes that can be seen to be wrong: ends that are not as they were called, outcomes that
contradict an answer, and histories in which no answer can be right."""
from __future__ import annotations

from typing import TYPE_CHECKING, Dict, Iterable, List, NamedTuple, Optional, Sequence, Set

from ..telling.facts import FIRST_STOP, SKIP, End, agrees, ended_with, outcome_of
from ..telling.status import Status
from ..telling.voice import Stop, counted

if TYPE_CHECKING:
    from ..line.settings import Settings
    from ..repository.history import Shape
    from ..repository.repository import Repository


NOT_ALONE = "not tested alone; --confirm=alone does it"
BESIDE = (
    "tests ran at the same time; where these disturb each other, --private or --workers 1 keeps"
    " them apart"
)


class WrongEnd(Stop):
    """An end is not as it was called: there is nothing to search."""

    def __init__(
        self,
        end: End,
        status: int,
        log: Optional[str] = None,
        how: str = "",
        advice: str = "",
    ) -> None:
        how = how or "its test " + ended_with(status, end.is_turned)
        Stop.__init__(
            self, Status.REFUSED, "%s was called %s, and %s" % (end.commit, end.called, how)
        )
        self.end, self.test_status, self.log, self.advice = end, status, log, advice


def what_to_do(end: End, status: int, is_swapped: bool = False) -> str:
    """What may be wrong, and what to look at, where a test of an end is not as it was called.
    `is_swapped` says that the bad one comes before the good one."""
    if status == SKIP:
        return "an end that is skipped says nothing; --trust-ends takes the ends as they are called"
    if status >= FIRST_STOP:
        return "what ends so stops a search"
    if is_swapped:
        return (
            "the bad commit is named first, and the good one behind it; the two seem to be swapped"
        )
    if end.is_turned:
        does = "fails where it is to succeed" if end.is_bad else "succeeds where it is to fail"
        return "the command %s: --fixed searches the commit from which on it succeeds" % does
    if end.is_bad:
        return (
            "the command does not fail where it is to fail; "
            "does the fault come on this machine, or in this folder?"
        )
    return (
        "the command fails here, too: is something missing on this machine, or in a checkout, where"
        " --copy or --link brings it? Else an older commit is to be called %s; --trust-ends"
        " searches all the same" % end.called
    )


class Contradiction(NamedTuple):
    """An outcome that cannot be right where the answer is."""

    commit: str
    status: int

    @property
    def outcome(self) -> str:
        """good or bad."""
        return outcome_of(self.status)

    def text(self, new: str, old: str) -> str:
        """Why it contradicts."""
        if self.status:
            return "it is %s, and does not have the first %s commit" % (new, new)
        return "it is %s, and has the first %s commit" % (old, new)


def named_by(answer: Iterable[bytes], place: Dict[str, int]) -> List[str]:
    """The commits that the lines of an answer name."""
    words = [word.strip("'") for line in answer for word in line.decode("ascii", "replace").split()]
    return [word for word in words if word in place]


def with_answer(
    order: Sequence[str], parents: Sequence[Iterable[int]], place: Dict[str, int], answer: str
) -> Set[int]:
    """The places of the commits that have the answer: itself and all that come behind it. Parents
    stand before."""
    found = {place[answer]}
    for at in range(place[answer] + 1, len(order)):
        if any(parent in found for parent in parents[at]):
            found.add(at)
    return found


def contradictions(shape: Shape, answer: str, outcomes: Dict[str, int]) -> List[Contradiction]:
    """The outcomes that contradict an answer, in the order of the history."""
    if answer not in shape.place:
        return []
    has = with_answer(shape.order, shape.parents, shape.place, answer)
    found = []
    for commit in sorted(
        (name for name in outcomes if name in shape.place), key=lambda name: shape.place[name]
    ):
        status = outcomes[commit]
        if status < SKIP and (status != 0) != (shape.place[commit] in has):
            found.append(Contradiction(commit, status))
    return found


def unseen(outcomes: Dict[str, int], ends: Sequence[End]) -> List[End]:
    """The ends of whose kind no outcome was seen: none was good, or none was bad. Those that were
    tested are no such."""
    has_good = any(status == 0 for status in outcomes.values())
    has_bad = any(0 < status < SKIP for status in outcomes.values())
    return [
        end
        for end in ends
        if not (has_bad if end.is_bad else has_good) and end.commit not in outcomes
    ]


def skipped_alone(outcomes: Dict[str, int], ends: Sequence[End]) -> int:
    """How many commits were skipped, where beside the ends nothing else was seen; else none."""
    called = {end.commit for end in ends}
    others = [status for commit, status in outcomes.items() if commit not in called]
    return len(others) if all(status == SKIP for status in others) else 0


def tell_unseen(outcomes: Dict[str, int], ends: Sequence[End]) -> Optional[str]:
    """What is said behind an answer that stands on the word of the user alone."""
    found = unseen(outcomes, ends)
    if not found:
        return None
    kinds = " and ".join(dict.fromkeys(end.called for end in found))
    names = ", ".join(end.commit[:12] for end in found[:3])
    return "no test was %s, and %s was not tested: --check-ends does" % (kinds, names)


def tell_contradictions(found: List[Contradiction], new: str, old: str) -> List[str]:
    """What is said of outcomes that contradict the answer."""
    if not found:
        return []
    lines = [
        "%s %s the answer; does the test fail, or pass, now and then?"
        % (counted(len(found), "outcome"), "contradicts" if len(found) == 1 else "contradict")
    ]
    for one in found[:5]:
        lines.append("    %s: %s (%d)" % (one.commit[:12], one.text(new, old), one.status))
    if len(found) > 5:
        lines.append("    and %d more" % (len(found) - 5))
    return lines


def look_at_ends(repo: Repository, settings: Settings, apart: List[str]) -> List[str]:
    """What is to be told of the ends before a search; raises Stop where no answer could be right.
    The bad commit does not reach those of `apart`."""
    bad = settings.bad
    lost = [good for good in apart if not repo.text("merge-base", bad, good, check=False)]
    if lost and repo.is_shallow():
        raise Stop(
            Status.NO_COMMIT,
            "this clone is shallow, and %s and %s have no common history in it; "
            "git fetch --unshallow --tags brings the rest" % (bad[:12], lost[0][:12]),
        )
    cut = repo.list_cut(bad, settings.goods, settings.first_parent)
    if cut:
        raise Stop(
            Status.NO_COMMIT,
            "this clone is shallow, and lacks the parents of %s, which is between the ends; "
            "git fetch --unshallow --tags brings the rest" % cut[0][:12],
        )
    new, old = settings.terms
    lines = []
    if lost:
        lines.append(
            "%s and %s have no common history: the whole of %s is searched"
            % (bad[:12], lost[0][:12], bad[:12])
        )
    for good in apart:
        if good not in lost and repo.succeeds("merge-base", "--is-ancestor", bad, good):
            lines.append(
                "%s, which is called %s, comes before %s, which is called %s: are the two swapped?"
                % (bad[:12], new, good[:12], old)
            )
    return lines


def wrong_of(ends: Sequence[End], outcomes: Dict[str, int]) -> Optional[End]:
    """The first end whose outcome says another thing than it was called."""
    return next(
        (
            end
            for end in ends
            if end.commit in outcomes and agrees(end, outcomes[end.commit]) is False
        ),
        None,
    )
