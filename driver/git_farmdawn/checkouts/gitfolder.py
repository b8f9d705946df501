"""The git folder of a checkout: a repository of its own, over the user's objects. Nothing that a
test does with git reaches the user's repository or another checkout, and none of it stays: before
each commit the folder is made what it was at first."""
from __future__ import annotations

import os
import stat
import time
from typing import Dict, List, Optional, Set, Tuple

from ..host.files import content, first_line, write_all
from ..host.trees import remove_tree
from ..repository.original import ALTERNATES, Files, Original, Stored
from .tree import COARSE

FOLDERS = {"objects", "objects/info", "objects/pack", "refs", "refs/heads", "refs/tags", "info"}
FOLDERS.add("logs")  # which git makes at the first checkout
STAYS = {"index", "lfs"}  # what is looked at elsewhere, or may have been fetched
NEW = os.O_WRONLY | os.O_CREAT | os.O_EXCL | os.O_NOFOLLOW | os.O_CLOEXEC
MORE = os.O_WRONLY | os.O_CREAT | os.O_APPEND | os.O_NOFOLLOW | os.O_CLOEXEC
Signs = Optional[Tuple[int, ...]]


def signs_of(path: str) -> Signs:
    """What changes where something does: also where a test gives a file its old time and size."""
    try:
        found = os.lstat(path)
    except OSError:
        return None
    return (
        found.st_mode,
        found.st_size,
        found.st_mtime_ns,
        found.st_ctime_ns,
        found.st_ino,
        found.st_dev,
    )


def is_folder(path: str) -> bool:
    """Whether a path is a folder, and no link to one."""
    try:
        return stat.S_ISDIR(os.lstat(path).st_mode)
    except OSError:
        return False


class GitFolder:
    """Its path, the files that it begins with, what of it stays, and how all was left here. `kept`
    is a copy of git's index as the last checkout left it: what a test told git to overlook is
    forgotten."""

    def __init__(self, files: Files, path: str, kept: str, stays: Set[str]) -> None:
        self.files, self.path, self.kept, self.stays = files, path, kept, stays
        self.signs: Dict[str, Signs] = {}
        self.listed: Dict[str, Signs] = {}  # folders that have nothing else
        self.index: Signs = None
        folders = set(FOLDERS)
        for name in files:
            while name:
                name = os.path.dirname(name)
                folders.add(name)
        self.folders = dict.fromkeys(sorted(folders))

    def is_ours(self) -> bool:
        """Whether it is there, and leads to the objects of its repository."""
        if not is_folder(self.path):
            return False
        signs = signs_of(os.path.join(self.path, ALTERNATES))
        if signs is not None and signs == self.signs.get(ALTERNATES):
            return True  # it is as it was left here
        return leads_to(self.path) == first_store(self.files)

    def put_back(self, head: bytes) -> None:
        """Makes it what it was at first, with this head. Raises OSError where it cannot be."""
        if not is_folder(self.path):
            self.make_folder(self.path)
        files = {**self.files, "HEAD": Stored(head)}
        for folder in self.folders:
            path = f"{self.path}/{folder}"
            signs = signs_of(path)
            if signs is None or not stat.S_ISDIR(signs[0]):
                self.make_folder(path)
            elif signs != self.listed.get(folder):
                self.remove_others(folder, files)
                self.note_listed(folder)
        for name, stored in files.items():
            self.put_file(name, stored)
        self.put_index()

    def remove_others(self, folder: str, files: Files) -> None:
        """Removes what a folder has that was not there at first; objects of tests, too."""
        if folder.split("/")[0] in self.stays:
            return
        above = folder + "/" if folder else ""
        for name in os.listdir(f"{self.path}/{folder}"):
            path = above + name
            if path not in files and path not in self.folders and path not in self.stays:
                self.remove(f"{self.path}/{path}")

    def note_listed(self, folder: str) -> None:
        """Notes a folder that has nothing else, where what comes later would give it another time
        than it has."""
        signs = signs_of(f"{self.path}/{folder}")
        is_old = signs is not None and time.clock_gettime_ns(COARSE) > signs[3]
        self.listed[folder] = signs if is_old else None

    @classmethod
    def make_folder(cls, path: str) -> None:
        """Makes an empty folder, in place of what stands there."""
        try:
            os.mkdir(path)
        except FileExistsError:
            cls.remove(path)
            os.mkdir(path)

    @staticmethod
    def remove(path: str) -> None:
        """Removes something, or raises OSError."""
        for one in remove_tree(path):
            raise OSError(f"{one.path} cannot be removed: {one.why}")

    def put_file(self, name: str, stored: Stored) -> None:
        """Writes a file anew, unless it is as it was left here, or has all the same."""
        path = f"{self.path}/{name}"
        signs = signs_of(path)
        if signs is not None and signs == self.signs.get(name) and name != "HEAD":
            return
        if signs is None or name == "HEAD" or not self.has(path, stored, signs[0]):
            if signs is not None:
                self.remove(path)
            write_new(path, stored.text, stored.mode)
            signs = signs_of(path)
        self.signs[name] = signs

    @staticmethod
    def has(path: str, stored: Stored, mode: int) -> bool:
        """Whether a file has this content and this mode."""
        may = stored.mode & ~MASK
        return stat.S_ISREG(mode) and stat.S_IMODE(mode) == may and content(path) == stored.text

    def ignore(self, patterns: List[str]) -> None:
        """Has git not see what these paths lead to, until all is put back."""
        if patterns:
            path = os.path.join(self.path, "info/exclude")
            with open(os.open(path, MORE, 0o666), "wb") as file:
                file.write(os.fsencode("".join(f"\n/{one}" for one in patterns) + "\n"))

    # -- the index ---------------------------------------------------------------------

    def put_index(self) -> None:
        """Puts git's index back as the last checkout left it; where that is not known, none."""
        path = os.path.join(self.path, "index")
        if self.index is not None and signs_of(path) == self.index:
            return
        self.remove(path)
        if os.path.isfile(self.kept):
            copy(self.kept, path)
            self.index = signs_of(path)

    def keep_index(self) -> None:
        """Notes the index as the checkout left it."""
        path = os.path.join(self.path, "index")
        if self.index is None or signs_of(path) != self.index:
            self.remove(self.kept)
            copy(path, self.kept)
            self.index = signs_of(path)

    def forget(self) -> None:
        """Forgets what is known of a folder that is made anew."""
        self.signs.clear()
        self.listed.clear()
        self.index = None
        self.remove(self.kept)


class Modules:
    """The git folders of the submodules of a checkout. Those that the user has begin as his, and
    others as git cloned them."""

    def __init__(self, path: str, original: Original, kept: str) -> None:
        self.path, self.kept = path, kept
        self.folders: Dict[str, GitFolder] = {}
        self.heads: Dict[str, bytes] = {}
        self.noted: Set[str] = set()
        self.add(path, original)

    def add(self, path: str, original: Original) -> None:
        """Adds those that the user has, and theirs."""
        for name, module in original.modules.items():
            folder = os.path.join(path, "modules", name)
            self.heads[folder] = module.head
            self.open(folder, dict(module.files), STAYS | {"modules"})
            self.add(folder, module)

    def open(self, folder: str, files: Files, stays: Set[str]) -> None:
        """Notes what one begins with."""
        kept = f"{self.kept}.{len(self.folders)}"
        self.folders[folder] = GitFolder(files, folder, kept, stays)

    def list(self) -> List[str]:
        """The folders that are there."""
        found = []
        for folder, names, files in os.walk(self.path):
            if folder == self.path:
                names[:] = [name for name in names if name == "modules"]
            elif "HEAD" in files and "objects" in names:
                found.append(folder)
                names[:] = [name for name in names if name == "modules"]
        return found

    def put_back(self) -> None:
        """Makes each what it was at first, at the commit that was checked out last; removes those
        of tests."""
        for folder in self.list():
            if folder not in self.folders:
                GitFolder.remove(folder)
        for folder, module in self.folders.items():
            self.make_folders(os.path.relpath(os.path.dirname(folder), self.path))
            module.put_back(self.heads[folder])

    def make_folders(self, path: str) -> None:
        """Makes the folders of a path, in place of what stands there, as a link to another one."""
        at = self.path
        for part in path.split("/"):
            at += "/" + part
            if not is_folder(at):
                GitFolder.make_folder(at)

    def note(self) -> None:
        """Notes what git made of them."""
        for folder in self.list():
            if folder not in self.folders:
                self.open(folder, read_files(folder), STAYS | {"modules", "objects"})
            elif folder not in self.noted:  # git has noted where the submodule stands
                self.folders[folder].files["config"] = read_file(folder + "/config")
            self.noted.add(folder)
            self.heads[folder] = content(folder + "/HEAD")
            if os.path.isfile(folder + "/index"):
                self.folders[folder].keep_index()


def leads_to(path: str) -> str:
    """The first folder of objects that a git folder names beside its own."""
    return first_line(os.path.join(path, ALTERNATES))


def first_store(files: Files) -> str:
    """The same of the files that it begins with."""
    return os.fsdecode(files[ALTERNATES].text.split(b"\n")[0])


def read_file(path: str) -> Stored:
    """A file as it is."""
    return Stored(content(path), stat.S_IMODE(os.lstat(path).st_mode))


def read_files(folder: str) -> Files:
    """The files of a git folder, but for its objects, its index and its modules."""
    files = {}
    for here, names, found in os.walk(folder):
        if here == folder:
            names[:] = [name for name in names if name not in ("objects", "modules", "lfs")]
        for name in found:
            path = os.path.join(here, name)
            if os.path.relpath(path, folder) not in ("index", "HEAD"):
                files[os.path.relpath(path, folder)] = read_file(path)
    return files


def write_new(path: str, text: bytes, mode: int = 0o666) -> None:
    """A new file."""
    fd = os.open(path, NEW, mode)
    try:
        write_all(fd, text)
    finally:
        os.close(fd)


def copy(source: str, target: str) -> None:
    """Copies a file with its time, by which git sees what was changed just behind it."""
    write_new(target, content(source))
    found = os.lstat(source)
    os.utime(target, ns=(found.st_atime_ns, found.st_mtime_ns))


def mask() -> int:
    """What the modes of new files lack."""
    found = os.umask(0)
    os.umask(found)
    return found


MASK = mask()
