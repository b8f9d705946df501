"""A checkout as it stands behind its build, so that each test of a commit begins with that.

All of it is known by its signs: what came is removed, and what was changed or removed is put back.
What git wrote and nobody changed, git writes anew. Of all else, as what was built, there is a
copy, unless the disk has too little room: then what a test changes makes the commit one that is to
be built again. What has the same signs as behind an earlier build is not copied again."""
from __future__ import annotations

import fcntl
import os
import stat
import time
from typing import Callable, Dict, Generator, List, NamedTuple, Optional, Union

from ..host.files import copy_state
from ..host.process import Child
from ..host.trees import set_mode
from .moving import LONGEST_TICK, Folder
from .tree import COARSE, SLICE, remove, sign_of

CLONE = 0x40049409  # has a file share the room of another one, where the disk can do so
PART = 1 << 23  # bytes that are copied before others have their turn
FEW = 100  # files, too
SHARE = 4  # of the room that is left, this part may be used
NEW = os.O_WRONLY | os.O_CREAT | os.O_EXCL | os.O_NOFOLLOW | os.O_CLOEXEC
READ = os.O_RDONLY | os.O_NOFOLLOW | os.O_CLOEXEC
Found = Dict[str, os.stat_result]
Looks = Generator[float, object, Found]
Steps = Generator[Union[Child, float], object, None]
By = Callable[[str, int], Optional[str]]


class Entry(NamedTuple):
    """Something as it stood. `by` is the repository that wrote it, by its path in the checkout;
    None where that was not git. `source` is where a link leads, or the copy of a file, if any."""

    sign: int
    mode: int
    time: int
    by: Optional[str]
    source: str = ""


def sign(found: os.stat_result) -> int:
    """The sign of a file; that of a folder is its mode, as what it has is looked at by itself."""
    return found.st_mode if stat.S_ISDIR(found.st_mode) else sign_of(found)


def list_all(top: str) -> Looks:
    """All that a folder has, and itself; nothing where it is not there."""
    try:
        found = {"": os.lstat(top)}
    except FileNotFoundError:
        return {}
    looked, todo = 0, [""] if stat.S_ISDIR(found[""].st_mode) else []
    while todo:
        folder = todo.pop()
        with os.scandir(os.path.join(top, folder)) as entries:
            for entry in entries:
                path = f"{folder}/{entry.name}" if folder else entry.name
                found[path] = entry.stat(follow_symlinks=False)
                if entry.is_dir(follow_symlinks=False):
                    todo.append(path)
        if len(found) - looked > SLICE:
            looked = len(found)
            yield 0.0
    return found


def copy(source: str, target: str) -> Generator[float, object, None]:
    """Copies a file with its mode and its time."""
    old = os.open(source, READ)
    try:
        new = os.open(target, NEW, 0o600)
        try:
            try:
                fcntl.ioctl(new, CLONE, old)
            except OSError:
                at = 0
                while True:
                    count = os.sendfile(new, old, at, PART)
                    if not count:
                        break
                    at += count
                    yield 0.0
        finally:
            os.close(new)
    finally:
        os.close(old)
    copy_state(source, target)


def wait_for_tick(newest: int) -> Generator[float, object, None]:
    """What changes from now on is to have another time than that."""
    for _ in range(LONGEST_TICK):
        if time.clock_gettime_ns(COARSE) > newest:
            return
        yield 0.001


class Standing:
    """A folder, and what stood in it; its copies are in a folder of their own."""

    def __init__(self, folder: str, copies: str) -> None:
        self.folder, self.copies, self.count = folder, copies, 0
        self.entries: Dict[str, Entry] = {}

    def path_of(self, path: str) -> str:
        """The whole path."""
        return os.path.join(self.folder, path) if path else self.folder

    # -- what stands there -----------------------------------------------------------

    def take(self, written: By) -> Steps:
        """Notes it, and copies what git does not write anew."""
        found = yield from list_all(self.folder)
        before, self.entries, lacks = self.entries, {}, []
        for path, state in found.items():
            own = sign(state)
            entry = Entry(own, state.st_mode, state.st_mtime_ns, written(path, own))
            had = before.get(path)
            if stat.S_ISLNK(state.st_mode):
                entry = entry._replace(source=os.readlink(self.path_of(path)))
            elif stat.S_ISREG(state.st_mode) and entry.by is None:
                if had is not None and had.sign == own and had.source:
                    entry = entry._replace(source=had.source)
                else:
                    lacks.append(path)
            self.entries[path] = entry
        self.drop(before)
        if lacks and self.has_room(sum(found[path].st_blocks for path in lacks) * 512):
            yield from self.copy_all(lacks)
        yield from wait_for_tick(max((one.st_ctime_ns for one in found.values()), default=0))

    def drop(self, before: Dict[str, Entry]) -> None:
        """Removes the copies that are no more of use."""
        used = {entry.source for entry in self.entries.values()}
        for entry in before.values():
            if stat.S_ISREG(entry.mode) and entry.source and entry.source not in used:
                remove(entry.source)

    def has_room(self, size: int) -> bool:
        """Whether there is room for copies of so many bytes."""
        os.makedirs(self.copies, mode=0o700, exist_ok=True)
        found = os.statvfs(self.copies)
        return size * SHARE <= found.f_bavail * found.f_frsize

    def copy_all(self, paths: List[str]) -> Steps:
        """Copies these files. One that cannot be read has no copy."""
        for path in paths:
            self.count += 1
            target = os.path.join(self.copies, str(self.count))
            try:
                yield from copy(self.path_of(path), target)
            except OSError:
                remove(target)
                continue
            self.entries[path] = self.entries[path]._replace(source=target)
            if not self.count % FEW:
                yield 0.0

    # -- as it stood -------------------------------------------------------------------

    def clear(self) -> Generator[float, object, List[str]]:
        """Removes what came, and what is not as it stood; gives what is lacking then, folders
        before what they have. Raises OSError where something cannot be removed."""
        found = yield from list_all(self.folder)
        for path in sorted(found):
            entry, mode = self.entries.get(path), found[path].st_mode
            if entry is None or not (stat.S_ISDIR(mode) and stat.S_ISDIR(entry.mode)):
                if entry is None or entry.sign != sign(found[path]):
                    remove(self.path_of(path))
                    del found[path]
        return sorted(self.entries.keys() - found.keys())

    def put_back(self, paths: List[str]) -> Generator[float, object, Dict[str, List[str]]]:
        """Puts back what is lacking; gives what git is to write, by repositories. Raises OSError
        where there is no copy."""
        due: Dict[str, List[str]] = {}
        for path in paths:
            entry, whole = self.entries[path], self.path_of(path)
            if stat.S_ISDIR(entry.mode):
                os.mkdir(whole)
            elif stat.S_ISLNK(entry.mode):
                os.symlink(entry.source, whole)
            elif entry.by is not None:
                due.setdefault(entry.by, []).append(path)
            elif entry.source:
                yield from copy(entry.source, whole)
            else:
                raise OSError(f"{whole} has no copy")
        return due

    def settle(self, paths: List[str]) -> None:
        """Gives what was put back the time that it had, and folders their modes and times; notes
        how that stands now. Raises OSError where something is lacking."""
        for path in paths:
            entry, whole = self.entries[path], self.path_of(path)
            if not stat.S_ISDIR(entry.mode):
                os.utime(whole, ns=(entry.time, entry.time), follow_symlinks=False)
                self.entries[path] = entry._replace(sign=sign(os.lstat(whole)))
        for path, entry in self.entries.items():
            if stat.S_ISDIR(entry.mode):
                self.settle_folder(self.path_of(path), entry)

    @staticmethod
    def settle_folder(path: str, entry: Entry) -> None:
        """The same of a folder."""
        found = os.lstat(path)
        if found.st_mode != entry.mode:
            set_mode(path, stat.S_IMODE(entry.mode))
        if found.st_mtime_ns != entry.time:
            os.utime(path, ns=(entry.time, entry.time), follow_symlinks=False)


class Built:
    """A checkout, and what is built outside of it. `commit` is the one that stands there."""

    def __init__(self, copies: str) -> None:
        self.copies, self.commit = copies, ""
        self.standing: List[Standing] = []

    def forget(self) -> None:
        """Nothing is known of what comes now; copies may still be of use."""
        self.commit = ""

    def take(self, commit: str, files: Folder, outside: str) -> Steps:
        """Notes what stands there."""
        folders = [files.path, outside]
        if [one.folder for one in self.standing] != folders:
            remove(self.copies)
            self.standing = [
                Standing(folder, os.path.join(self.copies, str(number)))
                for number, folder in enumerate(folders)
            ]
        inside, beside = self.standing
        yield from inside.take(files.written_by)
        yield from beside.take(lambda path, own: None)
        self.commit = commit

    def put_back(self, files: Folder) -> Steps:
        """Makes it what it was. Raises OSError where that cannot be."""
        for one in self.standing:
            paths = yield from one.clear()
            for at, due in (yield from one.put_back(paths)).items():
                yield from files.write_anew(at, due)
            one.settle(paths)
            for path in paths:
                entry = one.entries[path]
                if entry.by is not None:
                    files.note_anew(entry.by, path, entry.sign)
            if paths:
                yield from wait_for_tick(time.clock_gettime_ns(COARSE))
