"""The shape of the history: what git lists between the ends, as the stream that the engine reads.

A commit of the stream has git's name as its own (`original-oid`; the first 40 digits of one that
has 64), its subject as its message, and no files."""
from __future__ import annotations

import subprocess
from typing import Dict, Iterable, Iterator, List, NamedTuple, Sequence, Set, Tuple

from ..telling.status import Status
from ..telling.voice import Stop
from .repository import SHORT, Repository

LIMIT = 100000
SUBJECT = "--format=tformat:subject %s"


class Ends(NamedTuple):
    """What the user asked for, as it bears on the history."""

    bad: str
    goods: Sequence[str]
    first_parent: bool
    paths: Sequence[str]


class Shape(NamedTuple):
    """The history as far as it is searched: names, and the places of the parents, which come
    first."""

    order: Sequence[str]
    parents: Sequence[Iterable[int]]
    place: Dict[str, int]


class Commits:
    """The commits by place: their names (`order`), their parents' places and their subjects.
    `place` leads back from a name. So many as `total` lie between the ends. `bases` are below all
    of these, and the good ones of `beside` do not come before the bad one, which is `added_bad`
    where it changes no path."""

    def __init__(self) -> None:
        self.order: List[str] = []
        self.place: Dict[str, int] = {}
        self.parents: List[Tuple[int, ...]] = []
        self.subject: Dict[str, bytes] = {}
        self.added_bad, self.total = "", 0
        self.beside: List[str] = []
        self.bases: List[str] = []

    @property
    def shape(self) -> Shape:
        """What outcomes are compared with."""
        return Shape(self.order, self.parents, self.place)

    def parents_of(self, name: str) -> List[str]:
        """The parents of a commit, as far as they are searched."""
        return [self.order[at] for at in self.parents[self.place[name]]]

    def among(self, names: Iterable[str]) -> List[str]:
        """Those of some commits that are here, each once."""
        return [name for name in dict.fromkeys(names) if name in self.place]

    def add(self, name: str, parents: Sequence[int]) -> int:
        """The place of a commit, which gets the next one where it has none."""
        at = self.place.setdefault(name, len(self.order))
        if at == len(self.order):
            self.order.append(name)
            self.parents.append(tuple(parents))
        return at


class History(Commits):
    """The commits as git lists them, and the stream of them for the engine."""

    def __init__(self, repo: Repository, ends: Ends) -> None:
        Commits.__init__(self)
        self.repo, self.ends, self.bad, self.goods = repo, ends, ends.bad, list(ends.goods)
        self.beside = self.goods_beside()
        self.bases = self.find_bases()

    # -- what git lists ------------------------------------------------------

    def goods_beside(self) -> List[str]:
        """The good commits that the bad one does not reach."""
        lines = "\n".join([*self.goods, "^" + self.bad]) + "\n"
        listed = self.repo.text("rev-list", "--topo-order", "--stdin", input=lines.encode()).split()
        goods = set(self.goods)
        return [name for name in listed if name in goods]

    def find_bases(self) -> List[str]:
        """Where the bad commit reaches every good one, no merge base is asked for, and any end does
        as the only base."""
        if self.beside:
            return self.repo.text("merge-base", "--all", self.bad, *self.goods, check=False).split()
        return [self.bad] if self.bad in self.goods else self.goods[:1]

    def read_subjects(self, names: Sequence[str]) -> None:
        """The subjects of commits that are not between the ends."""
        text = self.repo.run(
            "-c",
            "log.showSignature=false",
            "rev-list",
            "--no-walk=unsorted",
            SUBJECT,
            "--stdin",
            input=("\n".join(names) + "\n").encode(),
        )
        rows = text.split(b"\n")
        for at in range(0, len(rows) - 1, 2):
            self.subject[rows[at].decode().split()[1]] = rows[at + 1][8:]

    def list_candidates(self) -> Iterator[Tuple[str, List[str]]]:
        """Names and parents of what lies between the ends, parents first, as git finds them."""
        words = [
            self.repo.git,
            "-c",
            "log.showSignature=false",
            "rev-list",
            "--topo-order",
            "--reverse",
            SUBJECT,
            "--stdin",
        ]
        if not (self.ends.first_parent and self.ends.paths):
            words.append("--parents")
        if self.ends.first_parent:
            words.append("--first-parent")
        if self.ends.paths:
            words += ["--", *self.ends.paths]
        lines = "\n".join([self.bad] + ["^" + name for name in [*self.goods, *self.bases]]) + "\n"
        with subprocess.Popen(
            words, stdin=subprocess.PIPE, stdout=subprocess.PIPE, env=self.repo.env
        ) as listing:
            assert listing.stdin is not None and listing.stdout is not None
            try:
                listing.stdin.write(lines.encode())
                listing.stdin.close()
                for line in listing.stdout:
                    name, *parents = line.decode("ascii").split()[1:]
                    self.subject[name] = listing.stdout.readline()[8:-1]
                    yield name, parents
            except (OSError, GeneratorExit):
                listing.kill()
                raise
        if listing.returncode:
            raise Stop(Status.BROKEN, "the commits between the ends cannot be listed")

    # -- the stream ----------------------------------------------------------

    def stream(self) -> Iterator[bytes]:
        """The stream as git's listing comes. Good commits below the bases come first, as roots;
        then the bases, the first of them over those; then the good commits beside, over all the
        bases; then the candidates."""
        self.read_subjects([*self.goods, *self.bases, *self.beside, self.bad])
        known = {*self.bases, *self.beside}
        below = [self.add(name, ()) for name in self.goods if name not in known]
        for number, name in enumerate(self.bases):
            self.add(name, () if number else below)
        bases = [self.place[name] for name in self.bases]
        for name in self.beside:
            self.add(name, bases)
        told = 0
        for name, parents in self.between():
            if self.total < LIMIT:  # behind it they are only counted
                self.add(name, self.places_of(parents, bases))
            self.total += 1
            if len(self.order) - told >= 400:
                yield self.text(told)
                told = len(self.order)
        for count in (self.total, len(self.order)):
            if count > LIMIT:
                raise Stop(
                    Status.TOO_MUCH, f"{count} commits are between the ends; the limit is {LIMIT}"
                )
        yield self.text(told)

    def between(self) -> Iterator[Tuple[str, List[str]]]:
        """The candidates. With paths, the first lies over the bases, along first parents each over
        the one before it, and the bad end comes last where it changes none of the paths, over those
        that no other commit is over."""
        if not self.ends.paths:
            yield from self.list_candidates()
            return
        listed: List[str] = []
        is_parent: Set[str] = set()
        for name, parents in self.list_candidates():
            if not listed:
                parents = parents + self.bases
            elif self.ends.first_parent:
                parents = [listed[-1]]
            listed.append(name)
            is_parent.update(parents)
            yield name, parents
        if self.bad not in self.place:
            self.added_bad = self.bad
            heads = [name for name in listed if name not in is_parent]
            yield self.bad, heads or list(self.bases)

    def places_of(self, parents: List[str], bases: List[int]) -> List[int]:
        """The parents' places: one outside becomes the first base, and along first parents the
        first candidate is over all."""
        found: List[int] = []
        for parent in parents[:1] if self.ends.first_parent else parents:
            at = self.place.get(parent, bases[0] if bases else -1)
            if at >= 0 and at not in found:
                found.append(at)
        if self.ends.first_parent and self.total == 0:
            found += [at for at in bases if at not in found]
        return found

    def text(self, start: int, end: int | None = None) -> bytes:
        """The part of the stream that has the commits of these places."""
        out: List[bytes] = []
        for at in range(start, len(self.order) if end is None else end):
            name, subject, parents = self.order[at], self.subject[self.order[at]], self.parents[at]
            if not parents:
                out.append(b"reset refs/heads/c\n\n")
            out.append(
                b"commit refs/heads/c\nmark :%d\noriginal-oid %s\ncommitter f <f> %d +0000\ndata"
                b" %d\n%s\n" % (at + 1, name[:SHORT].encode(), at + 1, len(subject), subject)
            )
            out += [
                b"%s :%d\n" % (b"merge" if number else b"from", parent + 1)
                for number, parent in enumerate(parents)
            ]
            out.append(b"\n")
        return b"".join(out)

    def has_long_names(self) -> bool:
        """Whether names have 64 digits; the stream has the first 40 of each."""
        return len(self.bad) > SHORT

    def again(self) -> Iterator[bytes]:
        """The same stream once more, for another engine."""
        for start in range(0, len(self.order), 400):
            yield self.text(start, min(start + 400, len(self.order)))
