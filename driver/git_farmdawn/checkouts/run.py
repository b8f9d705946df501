"""The folder of a run: its lock, the places of its checkouts, and the end of both, also of runs
that were killed."""
from __future__ import annotations

import errno
import fcntl
import os
import time
from typing import Dict, Iterator, List, Optional, Tuple

from ..host.files import is_ours
from ..host.trees import MOUNTED, Left, has_more, mounts_below, remove_tree
from ..repository.repository import Repository
from ..telling.status import Status
from ..telling.voice import Stop

MOST_NAMES = 100000
LONGEST_TURN = 500  # times 0.02 s
LAST = ("lock", "places")  # of the folder of a run, what is removed last
SOON = 1000  # names, whose removal is waited for
OLD = 3600  # seconds: so old, a folder without a lock is none that is just being made


class Run:
    """A folder below .git/farmdawn for this run, and a shared lock on it, of this process and each
    test: as long as one of them lives, the run is not dead. The lock has its name once it is held.
    Its folder `places` has a file for each checkout."""

    def __init__(self, repo: Repository) -> None:
        self.repo, self.state, self.base = repo, "", ""
        self.lock: Optional[int] = None
        self.places: Dict[int, str] = {}  # the folders of the checkouts
        try:
            state = os.path.join(repo.folder, "run." + os.urandom(4).hex())
            os.mkdir(
                state, 0o755
            )  # others may read it, as every folder; a test may be another user's
            self.state = state
            for name in ("places", "given"):
                os.mkdir(os.path.join(self.state, name), 0o755)
            self.lock = os.open(
                self.state + "/lock.new", os.O_RDWR | os.O_CREAT | os.O_EXCL | os.O_CLOEXEC, 0o600
            )
            fcntl.flock(self.lock, fcntl.LOCK_SH)
            os.rename(self.state + "/lock.new", self.state + "/lock")
        except OSError:
            where = self.state or repo.folder
            self.remove()
            raise Stop(
                Status.NO_ROOM, where + " cannot be written, or has no room; nothing was tested"
            ) from None

    # -- the places of checkouts ---------------------------------------------

    def choose_base(self) -> str:
        """What the names of checkouts begin with; says why where they cannot stand beside the work
        tree.

        They stand beside it and not in it: a tool that looks for its settings in the folders above
        must find those that it finds above the work tree, and not those of the work tree as it is
        now."""
        if not self.repo.top:
            self.base = os.path.join(self.state, "checkout")
            return ""
        parent, name = os.path.split(self.repo.top)
        if name and os.access(parent, os.W_OK | os.X_OK):
            self.base = self.repo.top
            return ""
        room = self.repo.user_env.get("TMPDIR") or "/tmp"
        self.base = os.path.join(room, name or "root")
        return (
            f"{parent} cannot be written, so the checkouts are in {room}, "
            "and not beside the work tree"
        )

    def new_place(self, number: int) -> str:
        """An empty folder for a checkout: its own, without what was in it, or one with a name that
        nobody has. One that cannot be removed is noted as left.

        A git that is ended while it makes a worktree removes the folder. Then the name stays the
        checkout's own, and no other one of this run takes it; where somebody else has taken it, it
        is left alone."""
        folder = self.places.get(number, "")
        if folder:
            note = self.note_of(number)
            if mounts_below(folder) or read_place(note) == folder and remove_tree(folder):
                os.rename(note, f"{note}.{len(os.listdir(os.path.dirname(note)))}")
            try:
                self.make_place(number, folder)
                return folder
            except FileExistsError:
                pass
        return self.take_place(number)

    def take_place(self, number: int) -> str:
        """Makes a folder with a name that nobody has. What is noted of it tells later that it is
        ours."""
        if not self.base:
            self.choose_base()
        for count in range(1, MOST_NAMES):
            folder = f"{self.base}.farmdawn.{count}"
            if os.path.lexists(folder) or folder in self.places.values():
                continue
            try:
                self.make_place(number, folder)
                return folder
            except FileExistsError:
                continue
        raise OSError("there is no name for a checkout")

    def note_of(self, number: int) -> str:
        """The file that tells of a checkout's folder."""
        return os.path.join(self.state, "places", str(number))

    def make_place(self, number: int, folder: str) -> None:
        """Makes the folder of a checkout, and notes it: before by its name alone, and then with its
        number on the disk."""
        note = self.note_of(number)
        with open(note, "w", encoding="utf-8", errors="surrogateescape") as file:
            file.write(folder + "\n")
        os.mkdir(folder)
        self.places[number] = folder
        found = os.lstat(folder)
        with open(note, "a", encoding="utf-8") as file:
            file.write(f"{found.st_dev} {found.st_ino}\n")

    # -- the end -------------------------------------------------------------

    def is_left_alone(self) -> bool:
        """Whether no test holds the lock any more; from here on this process does not."""
        if self.lock is not None:
            os.close(self.lock)
            self.lock = None
        try:
            fd = os.open(self.state + "/lock", os.O_RDONLY | os.O_CLOEXEC)
        except OSError:
            return True
        try:
            fcntl.flock(fd, fcntl.LOCK_EX | fcntl.LOCK_NB)
            return True
        except OSError:
            return False
        finally:
            os.close(fd)

    def is_large(self) -> bool:
        """Whether its removal takes a while."""
        return bool(self.state) and has_more([self.state, *self.places.values()], SOON)

    def put_away(self) -> List[Left]:
        """Frees the names of its checkouts, and leaves their removal to another process; gives what
        is seen to be left."""
        state, self.state = self.state, ""
        return put_all_away(self.repo.gitdir, state)

    def remove(self) -> List[Left]:
        """Removes all of it; gives what is left."""
        state, self.state = self.state, ""
        return remove_run(self.repo.gitdir, state) if state else []


def lines_of(note: str) -> List[str]:
    """The lines of a note."""
    try:
        with open(note, encoding="utf-8", errors="surrogateescape") as file:
            return file.read(8192).split("\n")
    except OSError:
        return [""]


def read_place(note: str) -> str:
    """The folder that a note tells of, where it is still the one that was made; an empty one, where
    its number was not noted yet. A git folder may come from elsewhere: so a name alone leads to
    nothing that is removed."""
    lines = lines_of(note)
    folder = lines[0]
    if ".farmdawn." not in os.path.basename(folder) or not is_ours(folder):
        return ""
    found = os.lstat(folder)
    if len(lines) > 2:
        return folder if lines[1] == f"{found.st_dev} {found.st_ino}" else ""
    return "" if os.listdir(folder) else folder


def list_places(state: str) -> Iterator[Tuple[str, str]]:
    """The notes of a run's checkouts, and their folders, nothing where there is none."""
    notes = os.path.join(state, "places")
    if is_ours(notes):
        for name in sorted(os.listdir(notes)):
            note = os.path.join(notes, name)
            yield note, read_place(note)


def take_turn(gitdir: str) -> int:
    """The lock under which runs are removed, which is waited for a while."""
    fd = os.open(gitdir, os.O_RDONLY | os.O_CLOEXEC)
    for _ in range(LONGEST_TURN):
        try:
            fcntl.flock(fd, fcntl.LOCK_EX | fcntl.LOCK_NB)
            break
        except OSError:
            time.sleep(0.02)
    return fd


def put_away(path: str, state: str) -> List[Left]:
    """Moves a folder into that of the run, so that its name is free and what is removed is ours. On
    another disk, or where something is mounted in it, it is removed where it stands."""
    try:
        if not mounts_below(path):
            os.rename(path, os.path.join(state, "gone." + os.urandom(4).hex()))
            return []
    except OSError:
        pass
    return remove_tree(path)


def put_all_away(gitdir: str, state: str) -> List[Left]:
    """Moves all checkouts of a run into its folder; gives what is left. Two may do so at once, and
    other runs take the names of checkouts as soon as they are free: so it is done in one turn, and
    no name is looked at again."""
    left: List[Left] = []
    fd = take_turn(gitdir)
    try:
        for note, folder in list(list_places(state)):
            path = folder or lines_of(note)[0]
            if path and path in mounts_below(path):  # its number on the disk is not to be seen
                beside = [Left(path, MOUNTED)]
            else:
                beside = put_away(folder, state) if folder else []
            left += beside or remove_tree(note)
    except OSError:
        pass
    finally:
        os.close(fd)
    return left


def remove_run(gitdir: str, state: str) -> List[Left]:
    """Removes the folder of a run with all its checkouts; gives what is left, of which its lock and
    its notes stay."""
    left = put_all_away(gitdir, state)
    for _ in range(20):  # what ends just now may still write there
        inside = remove_but(state, LAST)
        if not any(one.why == os.strerror(errno.ENOTEMPTY) for one in inside):
            break
        time.sleep(0.1)
    return left + inside + ([] if left or inside else remove_tree(state))


def remove_but(folder: str, names: Tuple[str, ...]) -> List[Left]:
    """Removes what a folder has, but for these names; gives what is left."""
    found = os.listdir(folder) if is_ours(folder) else []
    return [
        one
        for name in found
        if name not in names
        for one in remove_tree(os.path.join(folder, name))
    ]


def lock_alone(path: str, flags: int) -> Optional[int]:
    """An open lock that nobody else has; None where somebody has it, or it cannot be opened."""
    try:
        fd = os.open(path, flags | os.O_NOFOLLOW | os.O_CLOEXEC, 0o666)
    except OSError:
        return None
    try:
        fcntl.flock(fd, fcntl.LOCK_EX | fcntl.LOCK_NB)
        return fd
    except OSError:
        os.close(fd)
        return None


def remove_dead_runs(repo: Repository) -> List[Left]:
    """Removes what earlier runs of ours left that were killed, or could not remove: nobody has
    their lock, or they are old and have none. Gives what is left."""
    left = []
    for name in os.listdir(repo.folder):
        folder = os.path.join(repo.folder, name)
        if not name.startswith("run.") or not is_ours(folder):
            continue
        fd = lock_alone(folder + "/lock", os.O_RDONLY)
        if fd is not None:
            left += remove_run(repo.gitdir, folder)
            os.close(fd)
        elif (
            not os.path.lexists(folder + "/lock") and time.time() - os.lstat(folder).st_mtime > OLD
        ):
            left += remove_run(repo.gitdir, folder)
    return left


def prune(repo: Repository, kept: str) -> Tuple[int, List[Left]]:
    """Removes what is kept in a folder of searches that do not run; gives how many, and what is
    left."""
    left = remove_dead_runs(repo)
    removed = 0
    for name in os.listdir(kept):
        folder = os.path.join(kept, name)
        if not name.startswith("results-") or not is_ours(folder):
            continue
        fd = lock_alone(folder + "/lock", os.O_RDWR | os.O_CREAT)
        if fd is not None:
            left += remove_tree(folder)
            removed += not os.path.lexists(folder)
            os.close(fd)
    return removed, left
