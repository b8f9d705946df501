"""One search for several workers: what is known, who tests what, and what is worth a test next."""
from __future__ import annotations

from typing import TYPE_CHECKING, Any, Dict, Iterable, List, Optional, Set, Tuple, Union

from beginning import Begun, Words
from logs import Writer, answer_lines
from states import BAD, GOOD, STOP, Asked, State, ask, left_of, mark, verdict_of

if TYPE_CHECKING:
    from history import History

STATUS = {"found": 0, "only skipped": 2, "merge base": 3, "no ancestor": 4, "both": 5, "aborted": 6}


class Search:
    """The state behind what was taken in, the outcomes by place, and the claims: who tests which
    place."""

    def __init__(self, history: History, words: List[bytes]) -> None:
        read = Words(words)
        begun = Begun(read, history)
        self.history, self.state, self.entries = history, begun.state, begun.entries
        self.lenient = b"--lenient-exit" in read.options
        self.terms = begun.state.terms
        self.writer = Writer(history, self.terms)
        for entry in self.entries[: begun.replayed]:  # those of a log are not told again
            self.writer.lines(entry)
        self.outcomes: Dict[int, Union[int, str]] = {}
        self.claims: Dict[int, int] = {}
        # ('found', place) and so on, or ('aborted', place, outcome)
        self.end: Optional[Asked] = None
        self.entries_told, self.end_told = begun.replayed, False
        self.left_told: Optional[Tuple[int, int]] = None
        self.needless_told: List[int] = []
        self.take_in()

    def outcome(self, place: int) -> Union[int, str]:
        """What is known of a place: with --lenient-exit, a command that cannot be run is bad."""
        outcome = self.outcomes[place]
        return 1 if self.lenient and outcome in (126, 127) else outcome

    def take_in(self) -> None:
        """Goes on as one test at a time does, as far as the outcomes lead."""
        while self.end is None:
            self.state, passed_by, asked = ask(self.history, self.state)
            self.entries += [("skipped base", base) for base in passed_by]
            if asked[0] != "test":
                self.entries += [asked] if asked[0] in ("found", "only skipped") else []
                self.end = asked
                return
            place = asked[1]
            if place not in self.outcomes:
                return
            verdict = verdict_of(self.outcome(place))
            if verdict == STOP:
                self.end = ("aborted", place, self.outcome(place))
                return
            self.state = mark(self.state, verdict, place)
            self.entries.append(("mark", verdict, place))

    # -- what to test next: paths of outcomes, known ones and guesses --------------

    def walk(self, state: State) -> Optional[Tuple[State, int, Tuple[str, ...]]]:
        """Along what is known from a state on: the state that asks for an unknown place, the place,
        and the verdicts on the way; None where the path ends."""
        verdicts: Tuple[str, ...] = ()
        while True:
            state, _, asked = ask(self.history, state)
            if asked[0] != "test":
                return None
            place = asked[1]
            if place not in self.outcomes:
                return state, place, verdicts
            verdict = verdict_of(self.outcome(place))
            if verdict == STOP:
                return None
            state, verdicts = mark(state, verdict, place), (*verdicts, verdict)

    def best(self) -> Optional[int]:
        """The place of the best path at whose end nobody tests, or None: that with most commits
        left, then the shortest, then the one that guesses good first."""
        found: Any = (
            self.best_path(self.state, (), set(self.claims.values())) if self.end is None else None
        )
        return None if found is None else found[1]

    def best_path(self, state: State, path: Tuple[str, ...], claimed: Set[int]) -> Any:
        """The rank and the place of the best path from a state on, or None. A path is the verdicts
        so far; the best has the least rank."""
        stop = self.walk(state)
        if stop is None:
            return None
        state, place, verdicts = stop
        path += verdicts
        if place not in claimed:
            return (
                -len(left_of(self.history, state)),
                len(path),
                [verdict != GOOD for verdict in path],
            ), place
        found = [
            self.best_path(mark(state, verdict, place), (*path, verdict), claimed)
            for verdict in (GOOD, BAD)
        ]
        return min((one for one in found if one is not None), default=None)

    def asked_for(self, places: Iterable[int]) -> Set[int]:
        """Those of the places that some path still asks for."""
        wanted = {place for place in places if place not in self.outcomes}
        found: Set[int] = set()
        if self.end is None:
            self.find_asked(self.state, wanted, found)
        return found

    def find_asked(self, state: State, wanted: Set[int], found: Set[int]) -> None:
        """Adds those that paths from a state on ask for."""
        stop = self.walk(state) if wanted - found else None
        if stop is None:
            return
        state, place, _ = stop
        if state.checked:  # from here on candidates alone are asked for
            wanted = wanted & set(left_of(self.history, state))
        if not wanted:
            return
        if place in wanted:
            found.add(place)
        for verdict in (GOOD, BAD):
            self.find_asked(mark(state, verdict, place), wanted, found)

    def needless(self) -> List[int]:
        """The workers, ascending, whose places no path asks for."""
        asked: Set[int] = self.asked_for(self.claims.values()) if self.claims else set()
        return [worker for worker in sorted(self.claims) if self.claims[worker] not in asked]

    # -- what is told --------------------------------------------------------------

    def news(self, number: int) -> List[bytes]:
        """What has changed since it was told, as the lines of events."""
        out = [
            b"log %d " % number + line
            for entry in self.entries[self.entries_told :]
            for line in self.writer.lines(entry)
        ]
        self.entries_told = len(self.entries)
        left = left_of(self.history, self.state)
        counts = len(left), len(self.state.skips.intersection(left))
        if counts != self.left_told:
            self.left_told = counts
            out.append(b"left %d %d %d" % (number, *counts))
        if self.end is not None and not self.end_told:
            self.end_told = True
            out += [
                b"answer %d " % number + line
                for line in answer_lines(self.history, self.terms, self.end)
            ]
            out.append(b"end %d %d" % (number, STATUS[self.end[0]]))
        needless = self.needless()
        if needless != self.needless_told:
            self.needless_told = needless
            out.append(b"needless %d" % number + b"".join(b" %d" % worker for worker in needless))
        return out
