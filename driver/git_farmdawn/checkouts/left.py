"""What a test left in its checkout, and whether what it told is believed."""
from __future__ import annotations

import os
from typing import List, Tuple

from ..host.files import first_line
from ..host.trees import mounts_below
from .gitfolder import GitFolder

UNFINISHED = ("BISECT_START", "BISECT_LOG", "rebase-merge", "rebase-apply", "sequencer")
LEFT = (*UNFINISHED, "MERGE_HEAD", "CHERRY_PICK_HEAD", "REVERT_HEAD")


def names_in(own: str) -> List[str]:
    """What a git folder has; nothing where there is none."""
    try:
        return os.listdir(own)
    except OSError:
        return []


def unfinished(own: str) -> str:
    """What git has not ended: the name of its file, or nothing."""
    found = names_in(own)
    return next((name for name in UNFINISHED if name in found), "")


def head_of(own: str) -> str:
    """The commit on which a checkout stands, or the ref."""
    return first_line(own + "/HEAD")


def place_of(folder: str) -> Tuple[int, ...]:
    """The number of a folder on its disk; nothing where it is gone."""
    try:
        found = os.lstat(folder)
    except OSError:
        return ()
    return found.st_dev, found.st_ino


class Before:
    """A checkout as it was before its test: `own` is its git folder."""

    def __init__(self, own: GitFolder, commit: str) -> None:
        self.own, self.commit = own, commit
        self.folder = os.path.dirname(own.path)
        self.place = place_of(self.folder)
        self.left = self.list_left()

    def list_left(self) -> List[str]:
        """What of git's is there that a fresh checkout has not."""
        found = names_in(self.own.path)
        return [name for name in LEFT if name in found]

    def changed(self) -> str:
        """What is not as it was, so that what the test told is not believed; or nothing."""
        if place_of(self.folder) != self.place and not mounts_below(self.folder):
            return f"lost its folder {self.folder}, which was removed or replaced"
        if not os.path.lexists(self.own.path):
            return ""  # it is made anew
        if not self.own.is_ours():
            return "put another repository in its place"
        if head_of(self.own.path) != self.commit:
            return "moved HEAD to another commit"
        name = unfinished(self.own.path)
        return f"left a bisect or a rebase ({name})" if name else ""
