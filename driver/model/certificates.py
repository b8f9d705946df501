"""The certificate of an answer: the good commits, and steps from them to the parents of the first
bad one."""
from __future__ import annotations

from typing import TYPE_CHECKING, Dict, List, Set

import graphs

if TYPE_CHECKING:
    from history import History
    from states import State


def certificate_lines(history: History, state: State) -> List[bytes]:
    """Its lines. A step leads from a good commit, or one that a step reached, to one of its
    parents."""
    good = graphs.behind_any(history, state.goods)
    parents = history.parents[state.bad][:1] if state.first_parent else history.parents[state.bad]
    # the places on a way to one of the parents, and for each the first good place that it is a
    # parent of
    above: Set[int] = set()
    first_above: Dict[int, int] = {}
    for place in range(len(history)):
        if place in parents or any(parent in above for parent in history.parents[place]):
            above.add(place)
        for parent in history.parents[place] if place in good else []:
            first_above.setdefault(parent, place)
    lines = [b"certificate 1", b"bad " + history.hex(state.bad)]
    lines += [b"first-parent"] if state.first_parent else []
    lines += [b"good " + history.hex(place) for place in state.goods]
    lines += [
        b"reach " + history.hex(place) + b" from " + history.hex(first_above[place])
        for place in reversed(range(len(history)))
        if place in good and place not in state.goods and place in above
    ]
    return lines + [b"end"]
