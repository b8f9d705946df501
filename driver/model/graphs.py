"""Which commits lie behind which: ancestors, candidates, the best of them, merge bases."""
from __future__ import annotations

from typing import TYPE_CHECKING, Dict, FrozenSet, Iterable, List, Optional, Set, Tuple

if TYPE_CHECKING:
    from history import History

SMALL = 400  # up to so many commits, all is done as the definitions say
BLOCK = 4096
MOST_ROWS, MOST_WEIGHTS = 64, 2000  # so much is kept of larger histories


def ancestors(history: History, place: int, first_parent: bool = False) -> Set[int]:
    """The places behind a place, itself included."""
    key = (place, first_parent)
    if key in history.rows:
        return history.rows[key]
    seen: Set[int] = set()
    todo = [place]
    while todo:
        one = todo.pop()
        if one not in seen:
            seen.add(one)
            todo += history.parents[one][:1] if first_parent else history.parents[one]
    if len(history) <= SMALL or len(history.rows) < MOST_ROWS:
        history.rows[key] = seen
    return seen


def behind_any(history: History, places: Iterable[int]) -> Set[int]:
    """The places behind one of these."""
    none: Set[int] = set()
    return none.union(*(ancestors(history, place) for place in places))


def candidates(history: History, bad: int, goods: Iterable[int], first_parent: bool) -> List[int]:
    """The places behind the bad one, along first parents alone where that is asked, and behind no
    good one; by place."""
    return sorted(ancestors(history, bad, first_parent) - behind_any(history, goods))


def weights(history: History, among: List[int], first_parent: bool) -> Dict[int, int]:
    """How many of these candidates lie behind each of them."""
    key = (tuple(among), first_parent)
    if key not in history.weights:
        if len(history.weights) > MOST_WEIGHTS:
            history.weights.clear()
        history.weights[key] = (weights_plain if len(among) <= SMALL else weights_by_blocks)(
            history, among, first_parent
        )
    return history.weights[key]


def weights_plain(history: History, among: List[int], first_parent: bool) -> Dict[int, int]:
    """The definition."""
    inside = set(among)
    return {place: len(inside & ancestors(history, place, first_parent)) for place in among}


def weights_by_blocks(history: History, among: List[int], first_parent: bool) -> Dict[int, int]:
    """The same by rows of bits, a block of columns at a time: between two candidates lie candidates
    alone."""
    index = {place: at for at, place in enumerate(among)}
    above = [
        [
            index[parent]
            for parent in (history.parents[place][:1] if first_parent else history.parents[place])
            if parent in index
        ]
        for place in among
    ]
    total = [0] * len(among)
    for low in range(0, len(among), BLOCK):
        rows = [0] * len(among)
        for at in range(low, len(among)):
            row = 1 << (at - low) if at < low + BLOCK else 0
            for parent in above[at]:
                row |= rows[parent]
            rows[at] = row
            total[at] += bin(row).count("1")
    return dict(zip(among, total))


def best(
    among: List[int], weight: Dict[int, int], bad: int, skips: FrozenSet[int]
) -> Optional[int]:
    """The candidate that halves them best, the first of several; neither the bad one nor one that
    was skipped. None where there is none."""
    found: Optional[Tuple[int, int]] = None
    for place in among:
        if place != bad and place not in skips:
            value = min(weight[place], len(among) - weight[place])
            if found is None or value > found[0]:
                found = (value, place)
    return None if found is None else found[1]


def merge_bases(history: History, bad: int, goods: Iterable[int]) -> List[int]:
    """The best common ancestors of the bad place and any of the good ones: those behind no other
    one."""
    common = ancestors(history, bad) & behind_any(history, goods)
    behind = {parent for place in common for parent in history.parents[place]}
    return sorted(common - behind)
