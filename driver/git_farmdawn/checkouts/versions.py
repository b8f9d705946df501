"""What stands in a checkout in place of what its commit has: patches, which are brought first, and
files of the work tree. The next commit is checked out without: all that is not as git wrote it goes
(`Tree.sweep`)."""
from __future__ import annotations

import os
import re
from typing import Dict, Generator, Sequence, Union

from ..host.files import open_unnamed, write_whole
from ..host.process import Child
from ..line.versions import Own, Patch
from ..telling.facts import NAME
from .copies import Copies, NotBrought, signs
from .moving import Folder, ended

Steps = Generator[Union[Child, float], object, bool]
APPLY = ("apply", "--whitespace=nowarn")


class NotFitting(NotBrought):
    """A patch cannot be applied to a commit, in whatever folder."""


class Versions:
    """What is brought; all of it is copied once, at the start, into a folder of the run."""

    def __init__(self, top: str, owns: Sequence[Own], patches: Sequence[Patch], given: str) -> None:
        self.owns, self.patches = owns, patches
        names = [path for own in owns for path in own.files]
        self.copies = Copies(top, names, os.path.join(given, "own"))
        # a patch changes no file that is another one's anyway
        patterns = [escaped(own.path) for own in owns]
        self.without = [f"--exclude={one}{end}" for one in patterns for end in ("", "/*")]
        self.texts: Dict[str, str] = {}
        for number, patch in enumerate(patches):
            path = self.texts[patch.name] = os.path.join(given, f"patch-{number}")
            write_whole(path, patch.text)

    # -- patches ---------------------------------------------------------------------

    def apply(self, files: Folder, log: int, commit: str) -> Steps:
        """Brings the patches, each where the commit does not have it. Raises NotFitting."""
        for patch in self.patches:
            if (yield from self.has(files, log, commit, patch)):
                continue
            if not (yield from self.bring(files, log, self.texts[patch.name])):
                named = patch.name[:NAME] if patch.is_commit else patch.name
                raise NotFitting(f"--apply {named} does not fit this commit, which is skipped")
        return True

    def bring(self, files: Folder, log: int, text: str) -> Steps:
        """Brings a patch, by the contents that it was made of where they are known: so a change
        that came otherwise comes once. What git says is told where it does not fit."""
        with open(open_unnamed(files.scratch), "w+b") as said:
            words = [*APPLY, "--3way", *self.without, text]
            if (yield from files.git(said.fileno(), *words)):
                return True
            said.seek(0)
            os.write(log, said.read())
        return False

    def has(self, files: Folder, log: int, commit: str, patch: Patch) -> Steps:
        """Whether a commit has what a patch brings: it comes behind it; or the text of a file can
        be taken back there, and not be brought."""
        if patch.is_commit:
            words = ["merge-base", "--is-ancestor", patch.name, commit]
            return (yield from files.git(log, *words))
        text = self.texts[patch.name]
        if (yield from self.fits(files, log, text)):
            return False
        return (yield from self.fits(files, log, text, "-R"))

    def fits(self, files: Folder, log: int, text: str, *words: str) -> Steps:
        """Whether a patch could be applied."""
        asked = ["-C", files.path, *APPLY, "--check", *words, *self.without]
        with open(text, "rb") as patch:
            return (yield from ended(files.starts.ask(asked, patch.fileno(), log)))

    # -- files of the work tree --------------------------------------------------------

    def put(self, files: Folder, brought: Dict[str, str], when: int) -> None:
        """Puts the files in place of the commit's. Their time is the one when they first came into
        this checkout: what was built of other ones is older, and what is built of them is newer."""
        root = os.path.realpath(files.path) if self.owns else ""
        for own in self.owns:
            for path in [one for one in files.tree.signs if is_at(one, own.path)]:
                self.copies.remove(files.path, os.path.join(root, path))
            for path in own.files:
                target = self.copies.find_target(files.path, path)
                if os.path.lexists(target):
                    self.copies.remove(files.path, target)
                self.copies.copy(path, target, root)
                os.utime(target, ns=(when, when), follow_symlinks=False)
                brought[path] = signs(target)


def is_at(path: str, place: str) -> bool:
    """Whether a path is this one, or below it."""
    return path == place or path.startswith(place + "/")


def escaped(path: str) -> str:
    """A path as a pattern of git, in which each sign stands for itself."""
    return re.sub(r"([\\*?\[])", r"\\\1", path)
