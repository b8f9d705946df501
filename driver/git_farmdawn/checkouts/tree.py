"""The files that git wrote into a checkout, as they were left here: before the next commit all goes
that is not the commit's, so that git writes what is to be there, and nothing turns how.

A file is known by its signs, of which one is a time that no test can set. What a test changed is
removed, for git to write it anew; its mode and its other names are so as well. What git does not
see, as a socket, goes, and so does what it reads where it stands: files .gitattributes and
.gitignore that no commit has. All else that is not the commit's is left to `git clean`."""
from __future__ import annotations

import hashlib
import os
import re
import stat
import time
from typing import Dict, Generator, Iterable, List, NamedTuple, Set

from ..host.files import content, write_whole
from ..host.trees import has_link, remove_below, remove_tree, set_mode

# what git, or one of its filters, reads in any folder
READ = (".git", ".gitattributes", ".gitignore", ".gitmodules", ".lfsconfig")
ABSENT, MODULE = "000000", "160000"  # modes of git
COMPILED = ("__pycache__", ".pyc", ".pyo")
OBJECTS = (".o", ".lo", ".obj", ".class")  # what compilers make
FEW = 20  # of these are looked at
SLICE = 2000  # entries that are looked at before others have their turn
COARSE = 5  # the clock by which files get their times
ROW = re.compile(rb":(\d{6}) (\d{6}) [0-9a-f]+ [0-9a-f]+ [A-Z]\d*\0([^\0]*)\0")
LISTED = re.compile(rb"(\d{6}) [0-9a-f]{40,64} 0\t([^\0]*)\0")
Turns = Generator[float, object, None]


class Change(NamedTuple):
    """What differs between two commits: a path, and its modes in both."""

    path: str
    before: str
    after: str


def changes_of(raw: bytes) -> List[Change]:
    """What `git diff-tree -r -z` says."""
    return [
        Change(os.fsdecode(path), before.decode(), after.decode())
        for before, after, path in ROW.findall(raw)
    ]


def listed_in(raw: bytes) -> List[Change]:
    """What `git ls-files -s -z` says, as what a commit adds."""
    return [Change(os.fsdecode(path), ABSENT, mode.decode()) for mode, path in LISTED.findall(raw)]


def sign_of(found: os.stat_result) -> int:
    """A number that differs where anything of a file does."""
    times = found.st_mtime_ns, found.st_ctime_ns
    return hash((found.st_mode, found.st_size, *times, found.st_ino, found.st_dev))


def above(path: str) -> str:
    """The folder of a path; that of the top is empty."""
    return path.rpartition("/")[0]


def remove(path: str) -> None:
    """Removes something, or raises OSError."""
    for one in remove_tree(path):
        raise OSError(f"{one.path} cannot be removed: {one.why}")


def remove_inside(top: str, path: str) -> None:
    """Removes what a folder of ours has at this path, or raises OSError. Where a link is in the
    way, nothing of ours is there: git removes the link."""
    if os.path.lexists(os.path.join(top, path)) and not has_link(top, above(path)):
        for one in remove_below(top, path):
            raise OSError(f"{one.path} cannot be removed: {one.why}")


class Tree:
    """The files of a repository that is checked out. `signs` has those of each file, `counts` the
    folders that have something of the commit with how much that is, `modules` where submodules
    stand. `loose` are folders that have nothing of the commit."""

    def __init__(self, folder: str, mode: int, has_modules: bool, is_module: bool) -> None:
        self.folder, self.mode, self.has_modules = folder, mode, has_modules
        self.is_module, self.newest = is_module, 0
        self.signs: Dict[str, int] = {}
        self.counts: Dict[str, int] = {"": 1}
        self.modules: Set[str] = set()
        self.loose: List[str] = []
        self.ignored: Dict[str, bool] = {}
        self.has_others = False
        self.caches: List[str] = []  # what Python has compiled
        self.objects: List[str] = []  # and some of what others have
        self.missing: Set[str] = set()

    def path_of(self, path: str) -> str:
        """The whole path."""
        return os.path.join(self.folder, path)

    # -- before git writes ---------------------------------------------------------

    def sweep(self) -> Turns:
        """Removes what a test changed, and what git does not see or would read; notes what else is
        not the commit's."""
        self.loose, self.caches, self.objects, self.has_others = [], [], [], False
        self.put_mode("")
        seen, looked, todo = 0, 0, [""]
        while todo:
            folder = todo.pop()
            with os.scandir(self.path_of(folder)) as entries:
                found = list(entries)
            for entry in found:
                path = f"{folder}/{entry.name}" if folder else entry.name
                if path in self.signs:
                    seen += self.is_same(path, entry)
                elif path in self.counts and entry.is_dir(follow_symlinks=False):
                    self.put_mode(path)
                    todo.append(path)
                else:
                    self.look_at(path, entry)
            looked += len(found)
            if looked > SLICE:
                looked = 0
                yield 0.0
        if seen < len(self.signs):
            self.missing = {path for path in self.signs if not os.path.lexists(self.path_of(path))}

    def is_same(self, path: str, entry: "os.DirEntry[str]") -> bool:
        """Whether a file of the commit is as it was left; it is removed where it is not."""
        if sign_of(entry.stat(follow_symlinks=False)) == self.signs[path]:
            return True
        remove(entry.path)
        return False

    def put_mode(self, path: str) -> None:
        """Gives a folder of the commit the mode that git gave it."""
        if stat.S_IMODE(os.lstat(self.path_of(path)).st_mode) != self.mode:
            set_mode(self.path_of(path), self.mode)

    def look_at(self, path: str, entry: "os.DirEntry[str]") -> None:
        """Looks at what is no file and no folder of the commit."""
        if path in self.modules:
            if not self.is_place(path, entry):
                remove(entry.path)
        elif path == ".git" and not self.is_module:
            return  # that of the checkout
        elif path in self.counts or is_odd(entry):
            remove(entry.path)
        else:
            self.has_others = True
            self.note_object(path)
            if entry.name.endswith(COMPILED):
                self.caches.append(path)
            if entry.is_dir(follow_symlinks=False):
                self.loose.append(path)

    def note_object(self, path: str) -> None:
        """Notes what a compiler made, to see whether it is removed."""
        if path.endswith(OBJECTS) and len(self.objects) < FEW:
            self.objects.append(path)

    def removed_object(self) -> str:
        """One of these that is not there any more, or nothing."""
        gone = (path for path in self.objects if not os.path.lexists(self.path_of(path)))
        return next(gone, "")

    def remove_caches(self, second: int) -> None:
        """Removes what was compiled in this second, or later."""
        for path in self.caches:
            if os.lstat(self.path_of(path)).st_mtime >= second:
                remove(self.path_of(path))

    def is_place(self, path: str, entry: "os.DirEntry[str]") -> bool:
        """Whether the place of a submodule is as git makes it: an empty folder, unless submodules
        are checked out."""
        if not entry.is_dir(follow_symlinks=False):
            return False
        return self.has_modules or not os.listdir(self.path_of(path))

    def clear(self, changes: List[Change]) -> None:
        """Removes what would turn how git writes the changes: what stands where a submodule was or
        comes, and what git reads in folders that are new to it. Files below a .gitattributes that
        changes are written anew."""
        for change in changes:
            name = change.path.rpartition("/")[2]
            if MODULE in change[1:] and change.before != change.after:
                remove_inside(self.folder, change.path)
            if name == ".gitattributes":
                self.remove_below(above(change.path))
            if name == ".gitignore":
                self.ignored.clear()
            folder = above(change.path)
            while change.after != ABSENT and folder not in self.counts:
                if os.path.isdir(self.path_of(folder)):
                    for one in READ:
                        remove_inside(self.folder, f"{folder}/{one}")
                folder = above(folder)

    def remove_below(self, folder: str) -> None:
        """Removes all files of the commit below a folder, for git to write them anew."""
        for path in self.signs:
            if not folder or path.startswith(folder + "/"):
                self.missing.add(path)
                remove(self.path_of(path))

    # -- behind it ---------------------------------------------------------------------

    def note(self, changes: Iterable[Change], may_lack: bool) -> bool:
        """Notes what git wrote; whether all of it is there."""
        due = self.missing
        for change in changes:
            path = change.path
            if path not in self.signs and path not in self.modules:
                self.count(path)
            self.signs.pop(path, None)
            self.modules.discard(path)
            due.discard(path)
            if change.after == ABSENT:
                self.drop(path)
            elif change.after == MODULE:
                self.modules.add(path)
            else:
                self.signs[path] = 0
                due.add(path)
        self.missing = set()
        for path in due:
            try:
                found = os.lstat(self.path_of(path))
            except OSError:
                if not may_lack:
                    return False
                continue
            self.signs[path] = sign_of(found)
            self.newest = max(self.newest, found.st_ctime_ns)
        return True

    def count(self, path: str) -> None:
        """Notes that the folders of a path have something of the commit."""
        folder = above(path)
        while folder not in self.counts:
            self.counts[folder] = 1
            if os.path.isdir(self.path_of(folder)) and not has_link(self.folder, folder):
                self.put_mode(folder)
            folder = above(folder)
        self.counts[folder] += 1

    def drop(self, path: str) -> None:
        """Notes that the folders of a path have that no more; what they still have is loose."""
        folder = above(path)
        self.counts[folder] -= 1
        while folder and not self.counts[folder]:
            del self.counts[folder]
            self.loose.append(folder)
            folder = above(folder)
            self.counts[folder] -= 1

    def has_attributes(self) -> bool:
        """Whether files are written by rules that another commit may lack."""
        return any(path.rpartition("/")[2] == ".gitattributes" for path in self.signs)

    def list_anew(self, changes: List[Change], may_lack: bool) -> bool:
        """The same of all that is there, which git wrote in a way of its own."""
        before = set(self.counts)
        self.signs.clear()
        self.modules.clear()
        self.missing.clear()
        self.counts = {"": 1}
        whole = self.note(changes, may_lack)
        self.loose += before - set(self.counts)
        return whole

    def loose_folders(self) -> List[str]:
        """The folders that have nothing of the commit, and are there; those of a folder that got
        something of it."""
        found, todo = [], self.loose
        while todo:
            path = todo.pop()
            is_folder = os.path.isdir(self.path_of(path)) and not has_link(self.folder, path)
            if not is_folder or path in self.modules:
                continue
            if path in self.counts:
                todo += self.list_loose(path)
            else:
                found.append(path)
        self.has_others = self.has_others or bool(found)
        return list(dict.fromkeys(found))

    def list_loose(self, folder: str) -> List[str]:
        """The folders in a folder that are not the commit's, without what git does not see or would
        read there."""
        found = []
        with os.scandir(self.path_of(folder)) as entries:
            for entry in list(entries):
                path = f"{folder}/{entry.name}"
                if path in self.signs or path in self.counts or path in self.modules:
                    continue
                self.note_object(path)
                if is_odd(entry):
                    remove(entry.path)
                elif entry.is_dir(follow_symlinks=False):
                    found.append(path)
        return found

    def is_newer(self) -> bool:
        """Whether a file that changes now would get another time than all that git wrote."""
        return time.clock_gettime_ns(COARSE) > self.newest

    # -- from search to search -----------------------------------------------------------

    def save(self, path: str) -> None:
        """Writes what is known into a file."""
        import json

        known = [self.signs, self.counts, sorted(self.modules), self.mode]
        text = json.dumps(known).encode()
        write_whole(path, hashlib.sha256(text).hexdigest().encode() + b"\n" + text)

    def load(self, path: str) -> bool:
        """Reads it again, where it is whole."""
        import json

        told, _, text = content(path).partition(b"\n")
        if told != hashlib.sha256(text).hexdigest().encode():
            return False
        self.signs, self.counts, modules, self.mode = json.loads(text)
        self.modules = set(modules)
        return True


def is_odd(entry: "os.DirEntry[str]") -> bool:
    """Whether git does not see something, or reads it where it stands."""
    if entry.is_dir(follow_symlinks=False):
        return entry.name == ".git"
    return entry.name in READ or not (entry.is_file(follow_symlinks=False) or entry.is_symlink())
