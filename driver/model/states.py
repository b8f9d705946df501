"""What is asked next, and what an outcome leaves: the state of a search, one test at a time, as
`git bisect` has it."""
from __future__ import annotations

from collections import namedtuple
from typing import TYPE_CHECKING, Any, Iterable, List, Optional, Tuple, Union

import graphs

if TYPE_CHECKING:
    from history import History

# terms: the words for bad and good; are_open: they may still become new and old; checked: the merge
# bases were looked at; asked: the place that was asked for last; bad_was_asked: the bad place was
# tested, and not given
State = namedtuple(
    "State", "terms are_open first_parent bad goods skips checked asked bad_was_asked"
)
Terms = Tuple[bytes, bytes]
Asked = Tuple[Any, ...]  # what is asked, or an end: a word, and what belongs to it
GOOD, BAD, SKIP, STOP = "good", "bad", "skip", "stop"
KILLED = "killed"  # an outcome is this, or an exit status
STANDARD = (b"bad", b"good")
MOST_LEFT = 2000  # so many lists of candidates are kept
NO_TERMS = (
    b"help",
    b"start",
    b"skip",
    b"next",
    b"reset",
    b"visualize",
    b"view",
    b"replay",
    b"log",
    b"run",
    b"terms",
)


def verdict_of(outcome: Union[int, str]) -> str:
    """What the outcome of a test means."""
    if isinstance(outcome, str) or outcome > 125:  # killed, or one that stops
        return STOP
    return GOOD if outcome == 0 else SKIP if outcome == 125 else BAD


def is_term(term: bytes) -> bool:
    """Whether a word may stand for bad or good."""
    return (
        1 <= len(term) <= 40
        and not term.startswith(b"-")
        and term not in NO_TERMS
        and all(
            48 <= byte <= 57 or 65 <= byte <= 90 or 97 <= byte <= 122 or byte == 45 for byte in term
        )
    )


def terms_fault(new: bytes, old: bytes) -> Optional[str]:
    """Which of two terms is none: 'new', 'old', or 'same' where they are one; else None."""
    if not is_term(new) or new in (b"good", b"old"):
        return "new"
    if not is_term(old) or old in (b"bad", b"new"):
        return "old"
    return "same" if new == old else None


def begun(
    terms: Terms, are_open: bool, first_parent: bool, bad: Optional[int], goods: Iterable[int]
) -> State:
    """The state before the first question."""
    return State(
        terms,
        are_open,
        first_parent,
        bad,
        tuple(dict.fromkeys(goods)),
        frozenset(),
        False,
        None,
        False,
    )


def left_of(history: History, state: State) -> List[int]:
    """The commits that may be the first bad one, by place."""
    key = (state.bad, state.goods, state.first_parent)
    if key not in history.left:
        if len(history.left) > MOST_LEFT:
            history.left.clear()
        history.left[key] = graphs.candidates(history, *key)
    return history.left[key]


def check(history: History, state: State) -> Tuple[str, Any]:
    """The merge bases: ('passed', those that were skipped), ('bad', the bad place that is one) or
    ('test', the next to be tested)."""
    behind = graphs.ancestors(history, state.bad)
    if all(good in behind for good in state.goods):
        return "passed", []
    bases = graphs.merge_bases(history, state.bad, state.goods)
    if state.bad in bases:
        return "bad", state.bad
    for place in bases:
        if place not in state.goods and place not in state.skips:
            return "test", place
    return "passed", [place for place in bases if place in state.skips and place not in state.goods]


def look_at_bases(history: History, state: State) -> Tuple[State, List[int], Optional[Asked]]:
    """The state behind a look at the merge bases, those that were skipped, and what the look asks
    or ends with, or None."""
    none = state._replace(asked=None)
    if state.bad is None or not state.goods:
        return none, [], ("waiting",)
    if state.checked:
        return none, [], None
    kind, found = check(history, state)
    if kind == "test":
        return state._replace(asked=found), [], ("test", found)
    if kind == "bad":
        return none, [], ("merge base" if state.bad_was_asked else "no ancestor", found)
    return none._replace(checked=True), found, None


def ask(history: History, state: State) -> Tuple[State, List[int], Asked]:
    """What is asked next: the state with that noted, the merge bases that were skipped, and
    ('test', place) or an end."""
    state, passed_by, asked = look_at_bases(history, state)
    if asked is not None:
        return state, passed_by, asked
    left = left_of(history, state)
    if not left:
        return state, passed_by, ("both", state.bad)
    if left == [state.bad]:
        return state, passed_by, ("found", state.bad)
    place = graphs.best(
        left, graphs.weights(history, left, state.first_parent), state.bad, state.skips
    )
    if place is None:
        return state, passed_by, ("only skipped", left)
    return state._replace(asked=place), passed_by, ("test", place)


def mark(state: State, verdict: str, place: int) -> State:
    """The state behind a mark. One that was not asked for has the merge bases looked at again."""
    if verdict == SKIP:
        return state._replace(skips=state.skips | {place}, asked=None)
    was_asked = state.asked == place
    if verdict == GOOD:
        state = state._replace(
            goods=state.goods if place in state.goods else state.goods + (place,)
        )
    else:
        state = state._replace(bad=place)
    return state._replace(
        checked=was_asked and state.checked, bad_was_asked=was_asked and verdict == BAD, asked=None
    )
