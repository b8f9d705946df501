"""The checkouts: a repository for each worker, moved from commit to commit."""
from __future__ import annotations

import fcntl
import os
import time
from subprocess import DEVNULL
from typing import TYPE_CHECKING, Dict, Generator, NamedTuple, Optional, Union

from ..host.loop import Loop
from ..host.process import Child, Command
from ..host.trees import mounts_below, remove_tree
from ..repository.differences import Differences
from ..repository.original import Original
from ..repository.repository import PLAIN
from .built import Built
from .copies import Copies, NotBrought
from .left import Before
from .moving import Folder
from .run import Run
from .tree import COARSE
from .versions import NotFitting, Versions, escaped

if TYPE_CHECKING:
    from ..host.private import Private
    from ..host.process import Keeper
    from .pool import Place, Pool

TRIES = 3  # to check a commit out
Steps = Generator[Union[Child, float], object, bool]


class NoCheckout(Exception):
    """A commit cannot be checked out; why stands in the output of its test."""


class Brings(NamedTuple):
    """What each checkout gets, and whether it stays; and what its tests have for themselves."""

    copies: Copies
    versions: Versions
    clean: bool = False  # whether each commit begins from nothing
    pool: Optional[Pool] = None
    private: Optional[Private] = None  # who has tests run apart


class Shop:
    """What all checkouts of a run share. `original` is what their git folders begin with."""

    def __init__(
        self, loop: Loop, keeper: Keeper, run: Run, original: Original, brings: Brings
    ) -> None:
        self.original, self.differences = original, Differences(original)
        self.loop, self.keeper, self.repo, self.run = loop, keeper, run.repo, run
        self.copies, self.versions, self.clean, self.pool, self.private = brings
        # what a partial clone lacks is fetched once, and stays with the user
        self.env = dict(self.repo.checkout_env)
        if original.is_partial:
            self.env["GIT_OBJECT_DIRECTORY"] = original.objects

    def start(self, words: list[str], out: Optional[int]) -> Child:
        """Starts a command of git."""
        return Child(
            self.loop, self.keeper, Command([self.repo.git, *PLAIN, *words], self.env, out=out)
        )

    def ask(self, words: list[str], given: int, out: int) -> Child:
        """Starts one whose output is read, without what it warns of, and which reads a file."""
        words = [self.repo.git, *PLAIN, *words]
        command = Command(words, self.env, out=DEVNULL, own_out=out, given=given)
        return Child(self.loop, self.keeper, command)

    def close(self) -> None:
        """Ends what was begun for all of them."""
        self.differences.close()


class Checkout:
    """One of them. Its lock is open in whatever its test started, so that it is known whether
    something of that still runs."""

    def __init__(self, shop: Shop, number: int) -> None:
        self.shop, self.repo, self.number = shop, shop.repo, number
        self.folder = ""
        self.files: Optional[Folder] = None
        self.build = os.path.join(shop.run.state, "build", str(number))
        self.lock = os.path.join(shop.run.state, f"lock-{number}")
        self.broken, self.commit = False, ""
        self.brought: Dict[str, str] = {}
        self.since = 0  # when the user's own files came here first, in ns
        self.before: Optional[Before] = None
        self.built = Built(os.path.join(shop.run.state, f"built-{number}"))
        self.place = shop.pool.take() if shop.pool is not None else None
        if self.place is not None and shop.pool is not None:
            self.take(self.place, shop.pool.sign)

    def take(self, place: Place, sign: str) -> None:
        """Takes a place of the pool, with what stands whole in it."""
        self.build, self.folder = place.build, place.path
        commit = place.take(sign)
        if commit:
            self.files = self.open()
            if self.files.load():
                self.commit = commit
            else:
                self.broken = True

    def leave(self) -> None:
        """Leaves a checkout of the pool as one that is whole, without what was brought."""
        if (
            self.place is None
            or self.shop.pool is None
            or self.files is None
            or self.broken
            or not self.commit
            or not self.is_whole()
        ):
            return
        if self.shop.copies.take_back(self.folder, self.brought) and self.files.save():
            self.place.leave(self.commit, self.shop.pool.sign)

    def is_whole(self) -> bool:
        """Whether the folder has a git folder of ours, and nothing is mounted in it."""
        return (
            self.files is not None
            and not os.path.islink(self.folder)
            and self.files.own.is_ours()
            and not mounts_below(self.folder)
        )

    # -- making and moving ----------------------------------------------------

    def make(self) -> Folder:
        """Takes an empty folder, and nothing that was built; other ones, where what stands in these
        cannot be removed."""
        pool = self.shop.pool
        if self.place is None or pool is None:
            self.folder = self.shop.run.new_place(self.number)
            if remove_tree(self.build):
                self.build += "." + os.urandom(4).hex()
        else:
            self.place = pool.renew(self.place)
            self.folder, self.build = self.place.path, self.place.build
        self.commit = ""
        self.brought.clear()
        self.files = self.open()
        self.files.own.forget()
        return self.files

    def open(self) -> Folder:
        """The folder's files."""
        state = self.shop.run.state
        kept = os.path.join(state, f"git-{self.number}") if self.place is None else self.place.kept
        return Folder(self.shop, self.folder, kept, state)

    def check_out(self, log: int, commit: str) -> Steps:
        """Makes the folder the commit's tree; files that git ignores stay, unless each commit is to
        begin from nothing."""
        before, self.commit, files = self.commit, "", self.files
        self.built.forget()
        try:
            if files is None or self.broken or self.shop.clean or not self.is_whole():
                before, files = "", self.make()
            self.broken, changes = True, None
            files.put_back(commit)
            if before:
                changes = yield from files.clear(before, commit)
                self.shop.copies.clear(self.folder, self.brought, [one.path for one in changes])
            if not (yield from files.write(log, commit, changes)):
                return False
        except (OSError, NotBrought) as fault:
            os.write(log, os.fsencode(f"git farmdawn: {fault}\n"))
            return False
        self.commit, self.broken = commit, False
        return True

    def prepare(self, log: int, commit: str) -> Generator[Child | float, object, None]:
        """The same, and what is brought; up to twice more in a new folder where that fails. Raises
        NoCheckout or NotBrought."""
        for tries in range(1, TRIES + 1):
            self.broken = self.broken or tries > 1
            if not (yield from self.check_out(log, commit)):
                continue
            try:
                yield from self.bring(log, commit)
                return
            except NotFitting:
                raise
            except (OSError, NotBrought):  # what earlier tests left may be in the way
                if tries > 1:
                    raise
        os.write(
            log,
            os.fsencode(f"git farmdawn: {commit} cannot be checked out into {self.folder}\n"),
        )
        raise NoCheckout

    def bring(self, log: int, commit: str) -> Generator[Child | float, object, None]:
        """Brings patches, the user's own files, and copies of what the commit lacks, or links. Git
        ignores the links, as its patterns may be for folders alone."""
        assert self.files is not None
        versions = self.shop.versions
        yield from versions.apply(self.files, log, commit)
        self.since = self.since or time.clock_gettime_ns(COARSE)
        versions.put(self.files, self.brought, self.since)
        linked = self.shop.copies.bring(self.folder, self.brought, self.files.has)
        self.files.own.ignore([escaped(path) for path in linked])

    # -- from test to test ------------------------------------------------------

    def keep_built(self) -> Generator[Child | float, object, None]:
        """Notes how the commit stands here, for each of its tests to begin with that; where that
        cannot be, it is made ready anew."""
        assert self.files is not None
        try:
            yield from self.built.take(self.commit, self.files, self.build)
        except OSError:
            self.built.forget()

    def is_known(self) -> bool:
        """Whether it is noted how its commit stood here."""
        return bool(self.commit) and self.built.commit == self.commit

    def put_built(self) -> Steps:
        """Makes all what it was before a test; whether that could be done."""
        if self.files is None or self.broken or not self.is_known() or not self.is_whole():
            return False
        yield from self.built.put_back(self.files)
        return True

    def note(self) -> Before:
        """What is looked at behind a test."""
        assert self.files is not None
        self.before = Before(self.files.own, self.commit)
        return self.before

    # -- processes of a test --------------------------------------------------

    def open_lock(self, seat: int) -> int:
        """The lock that each process of a test has open."""
        fd = os.open(self.lock_of(seat), os.O_RDWR | os.O_CREAT | os.O_CLOEXEC, 0o600)
        fcntl.flock(fd, fcntl.LOCK_SH)
        return fd

    def lock_of(self, seat: int) -> str:
        """The name of the lock of a job."""
        return f"{self.lock}.{seat}"
