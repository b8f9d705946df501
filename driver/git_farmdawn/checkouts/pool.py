"""Checkouts that stay from search to search with what was built in them, below the folder of
--pool.

What stays must not change an outcome. A checkout is taken again where a file says that it is whole:
its last search left nothing half done in it, and git's settings are what they were. Then its commit
is checked out as between two tests: what git does not ignore is removed, what it ignores stays, as
the build's. All others are made anew."""
from __future__ import annotations

import hashlib
import os
import re
from typing import List, Optional

from ..host.files import first_line, is_ours, write_whole
from ..host.trees import Left, remove_tree
from ..repository.original import Original
from ..repository.repository import is_name
from ..telling.status import Status
from ..telling.voice import Stop
from .gitfolder import leads_to
from .run import lock_alone, read_place

MOST_NAMES = 10000
FORM = "2"
# of the environment, what turns how git and its filters write files; what a build server tells of
# its job, who somebody is, and what git asks or traces does not
TURNS = re.compile("GIT_|LANG$|LC_")
TURNS_NOT = re.compile(
    "GIT_(AUTHOR|COMMITTER|TRACE|SSH|PREVIOUS|EDITOR|SEQUENCE|PAGER|ASKPASS|TERMINAL|COMMIT$"
    "|BRANCH$|LOCAL_BRANCH$|URL|CHECKOUT_DIR$|OPTIONAL|EXEC_PATH$)"
)


def turns(name: str) -> bool:
    """Whether a variable may turn how a commit is checked out."""
    return bool(TURNS.match(name) and not TURNS_NOT.match(name))


class Place:
    """A place of the pool, which nobody else has as long as its lock is open: a folder, one for
    what is built outside of it, a note by which the folder is known as ours, and where it is whole,
    a file with its commit."""

    def __init__(self, path: str, lock: int) -> None:
        self.path, self.lock, self.build = path, lock, path + ".build"
        self.note, self.whole, self.kept = path + ".place", path + ".whole", path + ".kept"

    def is_ours_or_free(self, store: str) -> bool:
        """Whether the name is free, or the folder is one of ours and of the repository that has its
        objects there."""
        if not os.path.lexists(self.path):
            return True
        return read_place(self.note) == self.path and leads_to(self.path + "/.git") in ("", store)

    def take(self, sign: str) -> str:
        """The commit that stands there whole, or nothing; from here on it is none that is whole."""
        commit, _, told = first_line(self.whole).partition(" ")
        if os.path.lexists(self.whole):
            os.unlink(self.whole)
        return (
            commit
            if told == sign and is_name(commit) and read_place(self.note) == self.path
            else ""
        )

    def renew(self) -> List[Left]:
        """The folder anew and empty; gives what of it is left, where it cannot be."""
        left = remove_tree(self.path) if read_place(self.note) == self.path else []
        left += remove_tree(self.build)
        if left:
            return left
        with open(self.note, "w", encoding="utf-8", errors="surrogateescape") as file:
            file.write(self.path + "\n")
        os.mkdir(self.path)
        found = os.lstat(self.path)
        with open(self.note, "a", encoding="utf-8") as file:
            file.write(f"{found.st_dev} {found.st_ino}\n")
        return []

    def leave(self, commit: str, sign: str) -> None:
        """Notes that it stands whole at a commit; where that cannot be written, it is made anew by
        the next one."""
        try:
            write_whole(self.whole, os.fsencode(f"{commit} {sign}\n"))
        except OSError:
            pass


class Pool:
    """All places of a repository in a folder. `sign` has what turns how commits are checked out:
    with other settings none is whole."""

    def __init__(self, original: Original, folder: str, submodules: bool) -> None:
        repo, self.store = original.repo, original.objects
        self.places: List[Place] = []
        self.left: List[Left] = []  # what could not be removed
        try:
            os.makedirs(folder, exist_ok=True)
            self.folder = os.path.realpath(folder)
        except OSError:
            raise Stop(Status.NO_ROOM, folder + " cannot be made") from None
        if not is_ours(self.folder):
            raise Stop(
                Status.NO_ROOM,
                self.folder + " is another user's; --pool wants a folder of your own",
            )
        self.base = os.path.join(self.folder, os.path.basename(repo.top or repo.gitdir) or "root")
        words = [FORM, repo.gitdir, str(submodules), original.sign(), repo.text("version")]
        words += sorted("=".join(pair) for pair in repo.checkout_env.items() if turns(pair[0]))
        self.sign = hashlib.sha256(os.fsencode("\0".join(words))).hexdigest()[:16]

    def take(self) -> Place:
        """The first place that nobody has, and that this run did not have."""
        for count in range(1, MOST_NAMES):
            path = f"{self.base}.farmdawn.{count}"
            if any(place.path == path for place in self.places):
                continue
            lock = lock_alone(path + ".lock", os.O_RDWR | os.O_CREAT)
            if lock is None:
                continue
            place = Place(path, lock)
            if place.is_ours_or_free(self.store):
                self.places.append(place)
                return place
            os.close(lock)
        raise OSError("there is no name for a checkout")

    def renew(self, place: Place) -> Place:
        """An empty place: this one, or where something in it cannot be removed, another one."""
        left = place.renew()
        while left:
            self.left += left
            place = self.take()
            left = place.renew()
        return place

    # -- the end -------------------------------------------------------------------

    def end(self, keep: Optional[int]) -> None:
        """Lets go of all places; with --keep those that were used longest ago are removed, until
        the rest is small enough."""
        for place in self.places:
            os.close(place.lock)
        if keep is None:
            return
        left = 0
        for path in sorted(self.list(), key=last_use, reverse=True):
            left += size_of(path) + size_of(path + ".build")
            if left > keep:
                self.remove(path)

    def list(self) -> List[str]:
        """The paths of all places."""
        name = re.escape(os.path.basename(self.base)) + r"\.farmdawn\.[1-9][0-9]*"
        return [
            os.path.join(self.folder, found)
            for found in os.listdir(self.folder)
            if re.fullmatch(name, found)
        ]

    def remove(self, path: str) -> None:
        """Removes a place that nobody has, and what git has noted of it."""
        lock = lock_alone(path + ".lock", os.O_RDWR | os.O_CREAT)
        if lock is None:
            return
        try:
            place = Place(path, lock)
            if read_place(place.note) == path and place.is_ours_or_free(self.store):
                self.left += remove_tree(path) + remove_tree(place.build)
                if not os.path.lexists(path):
                    for name in os.listdir(self.folder):
                        if name.startswith(os.path.basename(path) + "."):
                            remove_tree(os.path.join(self.folder, name))
        finally:
            os.close(lock)


def last_use(path: str) -> float:
    """When a place was left whole; 0 where it is not."""
    return os.lstat(path + ".whole").st_mtime if os.path.lexists(path + ".whole") else 0.0


def size_of(path: str) -> int:
    """The room on the disk that a folder takes."""
    total = 0
    for folder, _, names in os.walk(path):
        for name in [*names, "."]:
            try:
                total += os.lstat(os.path.join(folder, name)).st_blocks * 512
            except OSError:
                continue
    return total
