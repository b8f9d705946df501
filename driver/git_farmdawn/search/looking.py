"""GOOD where none is named: a search looks back from BAD for a commit that is good.

It looks at tags, and behind the oldest one, or where there is none, along first parents; at the
first, second, fourth and so on, as many at once as there are workers. The nearest good one becomes
GOOD, and the last bad one over it BAD. The outcomes are those of the search that follows."""
from __future__ import annotations

from typing import TYPE_CHECKING, Callable, Dict, Iterator, List, NamedTuple, Optional

from ..known.evidence import WrongEnd
from ..repository.history import LIMIT
from ..telling.facts import FIRST_STOP, NAME, SKIP, agrees
from ..telling.status import Status
from ..telling.voice import Stop, counted

if TYPE_CHECKING:
    from ..repository.repository import Repository
    from .search import Search

SHOWN = 4  # names of commits that are told at the begin


class Probe(NamedTuple):
    """A commit that is looked at, and how a person names it."""

    commit: str
    name: str


def doubled(count: int) -> Iterator[int]:
    """Of so many places the first, the second, the fourth and so on, and the last one."""
    at = 1
    while at < count:
        yield at - 1
        at *= 2
    if count:
        yield count - 1


def tags_behind(repo: Repository, bad: str) -> List[Probe]:
    """The tags that a commit has behind it, the youngest first."""
    form = "--format=%(objectname) %(*objectname) %(refname:short)"
    names: Dict[str, str] = {}
    for line in repo.text("for-each-ref", "--merged=" + bad, form, "refs/tags").splitlines():
        *commits, name = line.split()
        names.setdefault(commits[-1], name)
    names.pop(bad, None)
    if not names:
        return []
    words = "\n".join(names).encode() + b"\n"
    order = repo.text("rev-list", "--no-walk=sorted", "--stdin", input=words).split()
    return [Probe(commit, names[commit]) for commit in order]


def probes_behind(repo: Repository, first: Probe, first_parent: bool) -> List[Probe]:
    """What is looked at behind a bad commit, from the nearest to the first of the history."""
    tags = [] if first_parent else tags_behind(repo, first.commit)
    last = tags[-1] if tags else first
    line = repo.text(
        "rev-list", "--first-parent", "--max-count=%d" % (LIMIT + 1), last.commit
    ).split()[1:]
    found = [tags[at] for at in doubled(len(tags))]
    return found + [Probe(line[at], "%s~%d" % (last.name, at + 1)) for at in doubled(len(line))]


class LookingBack:
    """Looks for the ends of one test. `turn` is one turn of the loop."""

    def __init__(self, search: Search, turn: Callable[[], None]) -> None:
        self.claims, self.needless, self.voice = search.claims, search.needless, search.voice
        self.loop, self.history, self.settings = search.loop, search.history, search.settings
        self.repo, self.places, self.turn = search.shop.repo, search.places, turn
        self.known, self.test = search.known, search.known.tests[0]
        self.end = search.known.ends[0]
        first = Probe(self.end.commit, self.settings.looks_back)
        behind = probes_behind(self.repo, first, self.settings.first_parent)
        skipped = set(self.settings.skips)
        self.probes = [first] + [one for one in behind if one.commit not in skipped]

    # -- looking -------------------------------------------------------------------

    def find(self) -> None:
        """Gives the search its ends; raises Stop where no good commit is found."""
        self.loop.note_signals()
        self.note(self.probes)
        self.test.seen.load(self.history.place)
        self.tell_begin()
        waiting = [one for one in self.probes if not self.is_trusted(one)]
        while True:
            self.check_stop()
            good = self.nearest_good()
            if good is None:
                while waiting and self.claims.is_free_for(waiting[0].commit):
                    self.begin(waiting.pop(0))
            else:
                self.give_up_behind(good)
            if self.places.jobs() or waiting and good is None:
                self.turn()
                continue
            waiting = [] if good is not None else self.before_skips()
            if not waiting:
                break
        self.check_bad()
        if good is None:
            self.refuse()
        else:
            self.take(good)

    def begin(self, probe: Probe) -> None:
        """Tests a commit, where no earlier run has."""
        if probe.commit not in self.test.seen.statuses:
            self.claims.put_end(self.test, probe.commit)

    def before_skips(self) -> List[Probe]:
        """Where all behind the last bad commit is skipped, some between the two; none where no more
        are left. Old commits often cannot be built."""
        last = max((at for at, one in enumerate(self.probes) if self.is_bad(one)), default=-1)
        if not 0 <= last < len(self.probes) - 1:
            return []
        high, low = self.probes[last : last + 2]
        words = "rev-list", "--first-parent", low.commit + ".." + high.commit
        names = [
            name
            for name in self.repo.text(*words).split()
            if name not in self.history.place and name not in self.settings.skips
        ]
        count = min(len(names), self.settings.workers)
        taken = [names[(at + 1) * len(names) // (count + 1)] for at in range(count)]
        found = [Probe(name, name[:NAME]) for name in dict.fromkeys(taken)]
        self.probes[last + 1 : last + 1] = found
        self.note(found)
        return found

    def note(self, probes: List[Probe]) -> None:
        """Commits are known by their subjects."""
        names = [one.commit for one in probes]
        for name in names:
            self.history.add(name, ())
        self.history.read_subjects(names)

    def give_up_behind(self, good: int) -> None:
        """What is behind a good commit is of no use."""
        behind = {one.commit for one in self.probes[good + 1 :]}
        for claim in self.claims.under_way():
            if claim.commit in behind:
                self.needless.give_up(claim)

    # -- what was seen -------------------------------------------------------------

    def is_trusted(self, probe: Probe) -> bool:
        """Whether it is BAD, as it is called."""
        return self.settings.trust_ends and probe.commit == self.end.commit

    def status(self, probe: Probe) -> Optional[int]:
        """The outcome of a commit; that of an end which is trusted is taken as bad."""
        return 1 if self.is_trusted(probe) else self.test.seen.status_of(probe.commit)

    def is_bad(self, probe: Probe) -> bool:
        """Whether its test found the fault."""
        return 0 < (self.status(probe) or 0) < SKIP

    def nearest_good(self) -> Optional[int]:
        """Which of them is the nearest good one."""
        return next((at for at, one in enumerate(self.probes) if self.status(one) == 0), None)

    def check_stop(self) -> None:
        """A test that cannot be run says nothing of a commit."""
        for one in self.probes:
            status = self.status(one)
            if status is not None and status >= FIRST_STOP:
                raise Stop(
                    Status.TEST_STOPPED,
                    "the test of %s (%s) ended with %d, which stops a search; its output is in %s"
                    % (one.commit[:NAME], one.name, status, self.log_of(one)),
                )

    def check_bad(self) -> None:
        """BAD must be what it is called."""
        status = self.status(self.probes[0])
        if status is not None and agrees(self.end, status) is not True:
            how = self.test.seen.how(self.end.commit, self.known.builds)
            raise WrongEnd(self.end, status, self.log_of(self.probes[0]), how)

    def log_of(self, probe: Probe) -> str:
        """Where the output of its test is."""
        return self.test.outcomes.log_of(probe.commit)

    # -- what it comes to --------------------------------------------------------

    def take(self, good: int) -> None:
        """GOOD is the nearest good one, and BAD the last bad one that comes behind it."""
        new, old = self.settings.terms
        low, high = self.probes[good], self.probes[0]
        for one in self.probes[1:good]:
            if self.is_bad(one) and self.is_behind(low, one):
                high = one
        self.settings.take_ends([high.commit, low.commit])
        self.voice.tell(
            "%s is %s, and %s is %s: the search is between them" % (low.name, old, high.name, new)
        )

    def is_behind(self, low: Probe, high: Probe) -> bool:
        """Whether a commit is among the ancestors of another one."""
        return self.repo.succeeds("merge-base", "--is-ancestor", low.commit, high.commit)

    def refuse(self) -> None:
        """There is nothing between which it could be searched."""
        last, old = self.probes[-1], self.settings.terms[1]
        where = "where this shallow clone ends" if self.repo.is_shallow() else "the first commit"
        raise Stop(
            Status.REFUSED,
            "no commit is %s that was looked at, back to %s (%s), %s; the output of its test is in"
            " %s" % (old, last.name, last.commit[:NAME], where, self.log_of(last)),
        )

    def tell_begin(self) -> None:
        """What is looked at."""
        first, *behind = [one.name for one in self.probes]
        names = ", ".join(behind[:SHOWN]) + (", .." if len(behind) > SHOWN else "")
        self.voice.tell(
            "no GOOD is named: looking back from %s%s; outputs of tests are in %s"
            % (first, " at " + names if names else "", self.test.outcomes.log_dir)
        )
        kept = len(self.test.seen.kept)
        if kept:
            self.voice.tell("%s of earlier runs known" % counted(kept, "outcome"))
