"""The user's own versions of files: those of the work tree that stand in place of a commit's, and
patches that are brought before the build."""
from __future__ import annotations

import hashlib
import os
from typing import TYPE_CHECKING, List, NamedTuple, Sequence

from ..telling.status import Status
from ..telling.voice import Stop

if TYPE_CHECKING:
    from ..repository.repository import Repository

DIFF = ("-p", "--binary", "--full-index", "--no-renames", "--no-ext-diff", "--no-textconv")
MOST_BYTES = 1 << 26


class Own(NamedTuple):
    """A file or a folder of the work tree, by its path from the top, with the files that git does
    not ignore: what a build left there is none of a commit's."""

    path: str
    files: List[str]


class Patch(NamedTuple):
    """A patch: what a commit changed in its first parent, or what a file has. `name` is the whole
    name of the commit, or the full path of the file."""

    name: str
    text: bytes
    is_commit: bool

    def value(self, top: str, folder: str) -> str:
        """The value of its option in a line that is given in a folder of the work tree."""
        if self.is_commit or not top or not self.name.startswith(top + "/"):
            return self.name
        path = os.path.relpath(self.name, os.path.join(top, folder))
        return path if "/" in path else "./" + path


def own_of(repo: Repository, word: str, path: str) -> Own:
    """What a word of the line names, which is at this path from the top on."""
    if os.path.islink(word) or not os.path.isdir(word):
        return Own(path, [path])
    words = "--literal-pathspecs", "ls-files", "-z", "--full-name"
    listed = repo.text(*words, "--cached", "--others", "--exclude-standard", "--", word)
    found = [name for name in dict.fromkeys(listed.split("\0")) if name]
    files = [name for name in found if is_file(os.path.join(repo.top, name))]
    if not files:
        raise Stop(
            Status.REFUSED, f"git ignores all that {word} has; --copy {word} brings the folder"
        )
    return Own(path, sorted(files))


def is_file(path: str) -> bool:
    """Whether there is a file, or a link."""
    return os.path.islink(path) or os.path.isfile(path)


def patch_of(repo: Repository, word: str) -> Patch:
    """The patch that a word of the line names."""
    is_commit = repo.is_commit(word)
    if not os.path.isfile(word):
        name = repo.commit(word) if is_commit else ""
        if not name:
            raise Stop(Status.REFUSED, f"--apply {word}: neither a commit nor a file has this name")
        return Patch(name, changes_of(repo, name), True)
    if is_commit:
        raise Stop(
            Status.REFUSED, f"{word} is a commit and a file; write refs/.. or the name, or ./{word}"
        )
    with open(word, "rb") as file:
        text = file.read(MOST_BYTES + 1)
    if not text.strip() or len(text) > MOST_BYTES:
        raise Stop(Status.REFUSED, f"{word} is no patch that could be brought")
    folder, last = os.path.split(word)
    return Patch(os.path.join(os.path.realpath(folder or "."), last), text, False)


def changes_of(repo: Repository, name: str) -> bytes:
    """What a commit changed in its first parent, as a patch."""
    parent = name + "^1"
    names = [parent, name] if repo.is_commit(parent) else ["--root", name]
    text = repo.run("diff-tree", *DIFF, "--src-prefix=a/", "--dst-prefix=b/", *names)
    if b"diff --git " not in text:
        raise Stop(Status.REFUSED, f"--apply {name}: this commit changes no file")
    return text


def sums_of(repo: Repository, owns: Sequence[Own], patches: Sequence[Patch]) -> List[str]:
    """What tells apart contents that have the same names: outcomes are kept apart by it."""
    found = [hashlib.sha256(one.text).hexdigest() for one in patches if not one.is_commit]
    for path in (path for own in owns for path in own.files):
        whole = os.path.join(repo.top, path)
        summed = hashlib.sha256(os.fsencode(path) + b"\0%o\0" % os.lstat(whole).st_mode)
        if os.path.islink(whole):
            summed.update(os.fsencode(os.readlink(whole)) + b"\0")
        if os.path.isfile(whole):
            with open(whole, "rb") as file:
                for part in iter(lambda: file.read(1 << 20), b""):
                    summed.update(part)
        found.append(summed.hexdigest())
    return found
