"""The files and folders of the work tree that each checkout gets."""
from __future__ import annotations

import hashlib
import os
from typing import Callable, Dict, Iterator, List, Sequence

from ..host.files import copy_file, copy_state
from ..host.trees import remove_below


class NotBrought(Exception):
    """A path cannot be brought into a checkout; the text says why."""


class Copies:
    """What is to be brought, by paths below the top of the work tree. Files are copied once, at the
    start, into a folder of the run, and from there into the checkouts: so a script that is edited
    meanwhile is still the same test. Of `links` a checkout gets a link to what the work tree has;
    nothing here follows it."""

    def __init__(
        self, top: str, paths: Sequence[str], folder: str, links: Sequence[str] = ()
    ) -> None:
        self.top, self.paths, self.links = top, [*paths, *links], list(links)
        os.makedirs(folder, exist_ok=True)
        self.sources: Dict[str, str] = {}
        for number, path in enumerate(self.paths):
            source = self.sources[path] = os.path.join(top, path)
            if os.path.isfile(source) and path not in self.links:
                self.sources[path] = os.path.join(folder, str(number))
                copy_file(source, self.sources[path])

    def bring(
        self, checkout: str, brought: Dict[str, str], has: Callable[[str], bool] = bool
    ) -> List[str]:
        """Brings each path that the commit lacks into a checkout; gives where links stand.
        `brought` has those that stand there from an earlier time, with the signs of what was
        copied: one that was changed since is copied anew. `has` says what the commit has: what an
        earlier build left in the place of a link gives way."""
        if not self.paths:
            return []
        root, linked = os.path.realpath(checkout), []
        for path in self.paths:
            target, is_link = self.find_target(checkout, path), path in self.links
            at = os.path.relpath(target, root)
            if os.path.lexists(target):
                if path not in brought and (not is_link or has(at)):
                    continue
                if path not in brought or signs(target) != brought[path]:
                    self.remove(checkout, target)
            if not os.path.lexists(target):
                self.copy(path, target, root)
                brought[path] = signs(target)
            linked += [at] if is_link else []
        return linked

    @staticmethod
    def remove(checkout: str, target: str) -> None:
        """Removes what was brought."""
        top = os.path.realpath(checkout)
        for one in remove_below(top, os.path.relpath(target, top)):
            raise OSError(f"{one.path} cannot be removed: {one.why}")

    def clear(self, checkout: str, brought: Dict[str, str], changed: Sequence[str]) -> None:
        """Removes what was brought and is in the way of what the next commit has."""
        for path in list(brought):
            if any(
                (path + "/").startswith(one + "/") or one.startswith(path + "/") for one in changed
            ):
                self.remove(checkout, self.find_target(checkout, path))
                del brought[path]

    def take_back(self, checkout: str, brought: Dict[str, str]) -> bool:
        """Removes all that was brought, by a path that still leads into the checkout; whether none
        of it is left."""
        try:
            for path in brought:
                self.remove(checkout, self.find_target(checkout, path))
        except (NotBrought, OSError):
            return False
        return True

    @staticmethod
    def find_target(checkout: str, path: str) -> str:
        """Where a path stands in a checkout. A link in it may lead elsewhere in the checkout
        only."""
        here = root = os.path.realpath(checkout)
        *folders, last = path.split("/")
        for part in folders:
            here = os.path.join(here, part)
            try:
                if not os.path.lexists(here):
                    os.mkdir(here)
            except OSError as fault:
                raise NotBrought(f"{path} is not brought: {fault.strerror}") from None
            here = os.path.realpath(here)
            if not os.path.isdir(here) or not (here + "/").startswith(root + "/"):
                raise NotBrought(
                    f"{path} is not brought: a part of its path is no folder of this checkout"
                )
        return os.path.join(here, last)

    def copy(self, path: str, target: str, root: str) -> None:
        """Copies a file or a folder, or makes the link to it."""
        named, source = os.path.join(self.top, path), self.sources[path]
        if path in self.links:
            os.symlink(named, target)
        elif os.path.islink(named) and self.leads_within(named, target, root):
            os.symlink(os.readlink(named), target)
        elif os.path.isdir(source):
            self.copy_folder(source, target, root)
        else:
            copy_file(source, target)

    def copy_folder(self, source: str, target: str, root: str) -> None:
        """Copies a folder with all that it has. A link stays one where it leads to something of the
        folder or of the checkout."""
        todo, top = [(source, target)], os.path.realpath(source)
        while todo:
            old, new = todo.pop()
            os.mkdir(new)
            for entry in os.scandir(old):
                to = os.path.join(new, entry.name)
                within = entry.is_symlink() and (
                    (os.path.realpath(entry.path) + "/").startswith(top + "/")
                    or not os.path.exists(entry.path)
                    or self.leads_within(entry.path, to, root)
                )
                if within:
                    os.symlink(os.readlink(entry.path), to)
                elif entry.is_dir():
                    todo.append((entry.path, to))
                elif entry.is_file():
                    copy_file(entry.path, to)
            copy_state(old, new)

    @staticmethod
    def leads_within(link: str, target: str, root: str) -> bool:
        """Whether a link would lead to something of the checkout if it stood there."""
        to = os.path.realpath(os.path.join(os.path.dirname(target), os.readlink(link)))
        return (to + "/").startswith(root + "/") and os.path.exists(to)


def signs(path: str) -> str:
    """What changes where a file or a folder does: the times, sizes and numbers of all that it
    has."""
    summed = hashlib.sha256()
    for name, found in walk(path):
        text = (
            name,
            found.st_mode,
            found.st_size,
            found.st_mtime_ns,
            found.st_ctime_ns,
            found.st_ino,
        )
        summed.update(repr(text).encode("utf-8", "surrogateescape"))
    return summed.hexdigest()


def walk(path: str) -> Iterator[tuple[str, os.stat_result]]:
    """A file, or a folder and all below it."""
    todo: List[str] = [path]
    while todo:
        here = todo.pop()
        try:
            found = os.lstat(here)
            yield here, found
            if os.path.isdir(here) and not os.path.islink(here):
                todo += [
                    os.path.join(here, name) for name in sorted(os.listdir(here), reverse=True)
                ]
        except OSError:
            continue
