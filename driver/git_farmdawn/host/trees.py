"""Folders that are removed with all below them, and what must stay of them.

Each folder is held open, and what it has is named by that: no link is followed, whatever takes the
place of a name meanwhile. What is mounted somewhere below is another's, and so is what another user
made there: it is left, and whoever asked is told. The mode of a folder is changed where that lets
its files be removed, but never that of a file: it may have a name elsewhere, too."""
from __future__ import annotations

import os
import re
import stat
from typing import Callable, Iterable, List, NamedTuple, Optional, Tuple

from .files import content

FOLDER = os.O_RDONLY | os.O_DIRECTORY | os.O_NOFOLLOW | os.O_CLOEXEC
UNREAD = os.O_PATH | os.O_DIRECTORY | os.O_NOFOLLOW | os.O_CLOEXEC
MOUNTED = "something is mounted there"
MOST_TOLD = 5  # lines of what is left
Identity = Tuple[int, int]


class Left(NamedTuple):
    """What could not be removed, and why."""

    path: str
    why: str


def tell_left(left: List[Left], say: Callable[[str], object]) -> None:
    """A line for each of the first, and one for all the others."""
    for one in left[:MOST_TOLD]:
        say(f"{one.path} is left, as it cannot be removed: {one.why}")
    if len(left) > MOST_TOLD:
        say(f"{len(left) - MOST_TOLD} more could not be removed")


def mounts_below(folder: str) -> List[str]:
    """The places at or below a folder where something is mounted."""
    top = os.fsencode(os.path.realpath(folder))
    found: List[str] = []
    text = content("/proc/self/mountinfo")
    if b" " + top not in text and b"\\" not in text:  # by which some names are written otherwise
        return found
    for line in text.split(b"\n"):
        words = line.split(b" ", 5)
        if len(words) > 4:
            path = words[4]
            if b"\\" in path:
                path = re.sub(rb"\\([0-7]{3})", lambda code: bytes([int(code[1], 8)]), path)
            if path == top or path.startswith(top + b"/"):
                found.append(os.fsdecode(path))
    return found


def has_more(paths: Iterable[str], count: int) -> bool:
    """Whether folders have more names than that, with all below them."""
    open_ones = list(paths)
    while open_ones and count >= 0:
        try:
            with os.scandir(open_ones.pop()) as found:
                for one in found:
                    count -= 1
                    if one.is_dir(follow_symlinks=False):
                        open_ones.append(one.path)
        except OSError:
            continue
    return count < 0


def remove_tree(path: str) -> List[Left]:
    """Removes a file, or a folder with all below it; gives what is left. It is for what is ours
    alone, when no process of a test has it any more. The folders above may be reached by links."""
    try:
        os.unlink(path)  # that is all where it is a file
        return []
    except FileNotFoundError:
        return []
    except OSError:
        pass  # it is a folder, or something is in the way
    above, name = os.path.split(os.path.abspath(path))
    try:
        here = os.open(above, FOLDER & ~os.O_NOFOLLOW)
    except OSError as fault:
        return [] if not os.path.lexists(path) else [Left(path, fault.strerror)]
    return Removal(here, above, 1).remove(name)


def remove_below(top: str, path: str) -> List[Left]:
    """The same for a path below a folder of ours, none of whose parts may be a link or lead into
    what is mounted."""
    *folders, name = path.split("/")
    removal = Removal(os.open(top, FOLDER), top, 0)
    for part in folders:
        if not removal.enter(part):
            os.close(removal.here)
            return removal.left
    return removal.remove(name)


def has_link(top: str, path: str) -> bool:
    """Whether a part of a path below a folder is a link: what is behind that is another's."""
    at = top
    for part in path.split("/") if path else ():
        at += "/" + part
        if os.path.islink(at):
            return True
    return False


def mount_of(fd: int) -> Tuple[int, bytes]:
    """What tells the mount in which an open file stands: the number of its disk, and as one disk
    may be mounted twice, that of the mount."""
    lines = content(f"/proc/self/fdinfo/{fd}").split(b"\n")
    number = next((line for line in lines if line.startswith(b"mnt_id:")), b"")
    return os.fstat(fd).st_dev, number


def identity_of(fd: int) -> Identity:
    """The number of a folder on its disk."""
    found = os.fstat(fd)
    return found.st_dev, found.st_ino


class Level(NamedTuple):
    """A folder on the way down: its name, what it is, and what it has that was not looked at."""

    name: str
    identity: Identity
    names: List[str]


class Removal:
    """One removal, with one folder open at a time: it goes up by `..`, where that is still the
    folder from which it came. `ours` is the first level whose mode may be changed."""

    def __init__(self, here: int, path: str, ours: int) -> None:
        self.here, self.top, self.ours = here, path, ours
        self.mount = mount_of(here)
        self.levels: List[Level] = [Level("", identity_of(here), [])]
        self.left: List[Left] = []

    def remove(self, name: str) -> List[Left]:
        """Removes what has this name in the folder; gives what is left, and closes the folder."""
        height = len(self.levels)
        self.levels[-1].names.append(name)
        try:
            while self.levels[-1].names or len(self.levels) > height:
                if self.levels[-1].names:
                    self.remove_one(self.levels[-1].names.pop())
                elif not self.leave():
                    break
        finally:
            os.close(self.here)
        return self.left

    def path_of(self, name: str) -> str:
        """The path of what the open folder has."""
        return os.path.join(self.top, *(level.name for level in self.levels[1:]), name)

    def keep(self, name: str, why: str) -> None:
        """Notes what is left."""
        self.left.append(Left(self.path_of(name), why))

    def remove_one(self, name: str) -> None:
        """Removes a file; enters a folder."""
        fault = self.freely(lambda: os.unlink(name, dir_fd=self.here))
        if isinstance(fault, IsADirectoryError):
            if self.enter(name):
                self.list_names()
        elif fault is not None:
            self.keep(name, MOUNTED if self.is_mounted(name) else fault.strerror)

    def list_names(self) -> None:
        """Lists what the open folder has."""
        try:
            self.levels[-1].names.extend(os.listdir(self.here))
        except OSError as fault:
            self.keep("", fault.strerror)

    def freely(self, call: Callable[[], object]) -> Optional[OSError]:
        """Does something in the open folder, and once more where its mode forbids that; gives what
        is in the way."""
        try:
            call()
        except FileNotFoundError:
            return None
        except PermissionError as fault:
            if len(self.levels) > self.ours and free(self.here):
                return self.freely(call)
            return fault
        except OSError as fault:
            return fault
        return None

    def is_mounted(self, name: str) -> bool:
        """Whether something is mounted on a file."""
        try:
            fd = os.open(name, os.O_PATH | os.O_NOFOLLOW | os.O_CLOEXEC, dir_fd=self.here)
        except OSError:
            return False
        try:
            return mount_of(fd)[1] != self.mount[1]
        finally:
            os.close(fd)

    def enter(self, name: str) -> bool:
        """Opens a folder in the open one, and closes that; whether it could."""
        try:
            unread = os.open(name, UNREAD, dir_fd=self.here)
        except OSError as fault:
            if not isinstance(fault, FileNotFoundError):
                self.keep(name, fault.strerror)
            return False
        try:
            if mount_of(unread) != self.mount:
                self.keep(name, MOUNTED)
                return False
            folder = open_read(unread)
        except OSError as fault:
            self.keep(name, fault.strerror)
            return False
        finally:
            os.close(unread)
        os.close(self.here)
        self.here = folder
        self.levels.append(Level(name, identity_of(folder), []))
        return True

    def leave(self) -> bool:
        """Goes up, and removes the folder that is empty now; whether that is where it came from."""
        name = self.levels.pop().name
        try:
            above = os.open("..", FOLDER, dir_fd=self.here)
        except OSError as fault:
            self.keep(name, fault.strerror)
            return False
        os.close(self.here)
        self.here = above
        if identity_of(above) != self.levels[-1].identity:
            self.keep(name, "it was moved meanwhile")
            return False
        stays = self.freely(lambda: os.rmdir(name, dir_fd=self.here))
        if stays is not None and not self.has_left(name):
            self.keep(name, stays.strerror)
        return True

    def has_left(self, name: str) -> bool:
        """Whether something below a folder is left, so that the folder is, too."""
        below = self.path_of(name) + "/"
        return any(one.path.startswith(below) for one in self.left[-1:])


def free(folder: int) -> bool:
    """Has the owner of an open folder do everything there; whether that changes anything."""
    mode = stat.S_IMODE(os.fstat(folder).st_mode)
    try:
        os.chmod(f"/proc/self/fd/{folder}", mode | stat.S_IRWXU)
    except OSError:
        return False
    return mode & stat.S_IRWXU != stat.S_IRWXU


def set_mode(folder: str, mode: int) -> None:
    """Gives a folder this mode, and no link to one."""
    fd = os.open(folder, UNREAD)
    try:
        os.chmod(f"/proc/self/fd/{fd}", mode)
    finally:
        os.close(fd)


def open_read(unread: int) -> int:
    """The same folder opened to be read."""
    try:
        return os.open(".", FOLDER, dir_fd=unread)
    except PermissionError:
        if not free(unread):
            raise
        return os.open(".", FOLDER, dir_fd=unread)
