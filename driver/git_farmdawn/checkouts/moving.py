"""A folder is moved from commit to commit: first all goes that is not the commit's, then git writes
what is to be there, and then it is looked whether that is so."""
from __future__ import annotations

import os
import time
from subprocess import DEVNULL
from typing import TYPE_CHECKING, Dict, Generator, List, Optional, Union

from ..host.files import open_unnamed
from ..host.process import Child
from ..repository.differences import DIFFER, Differences
from ..repository.original import Original
from .gitfolder import STAYS, GitFolder, Modules
from .left import head_of
from .tree import ABSENT, COARSE, MODULE, Change, Tree, changes_of, listed_in, remove_inside

if TYPE_CHECKING:
    from typing import Protocol

    class Starts(Protocol):
        """Who starts git, and knows how a git folder begins."""

        original: Original
        differences: Differences

        def start(self, words: List[str], out: Optional[int]) -> Child:
            """A command of git."""

        def ask(self, words: List[str], given: int, out: int) -> Child:
            """One whose output is read, and that reads a file."""


UPDATE = ("submodule", "-q", "update", "--init", "--recursive", "--force")
SYNC_BELOW = ("submodule", "-q", "foreach", "git submodule -q sync --recursive")
LIST = ("ls-files", "-s", "-z")
LONGEST_TICK = 20  # times 0.001 s, until the clock of files goes on
Steps = Generator[Union[Child, float], object, bool]
Answers = Generator[Union[Child, float], object, bytes]
Moves = Generator[Union[Child, float], object, List[Change]]


class Folder:
    """A folder with a git folder of its own, its files, and its submodules. What is known of them
    is written to files whose names begin with `kept`. What git says is in files without a name in
    the folder `scratch`."""

    def __init__(self, starts: Starts, path: str, kept: str, scratch: str) -> None:
        self.starts, self.path, self.kept, self.scratch = starts, path, kept, scratch
        original = starts.original
        self.is_sparse = "info/sparse-checkout" in original.files
        has_modules = original.has_modules
        stays = STAYS | ({"modules"} if has_modules else set())
        git = path + "/.git"
        self.own = GitFolder(original.files, git, kept + ".index", stays)
        self.modules = Modules(git, original, kept + ".index") if has_modules else None
        self.tree = Tree(path, os.lstat(path).st_mode & 0o7777, has_modules, False)
        self.trees: Dict[str, Tree] = {}  # of the submodules
        self.unkept = ""  # what was built and removed, as the commit does not ignore it

    # -- git ------------------------------------------------------------------

    def git(self, log: int, *words: str, at: str = "") -> Steps:
        """A command of git in the folder, or in one below; whether it ended with 0."""
        return (yield from ended(self.starts.start(["-C", self.path + at, *words], log)))

    def ask(self, words: List[str], at: str = "", given: bytes = b"") -> Answers:
        """What a command of git says, which gets this as its input."""
        whole = ["-C", self.path + at, *words]
        with open(open_unnamed(self.scratch), "w+b") as said:
            if not given:
                yield from ended(self.starts.ask(whole, DEVNULL, said.fileno()))
            else:
                with open(open_unnamed(self.scratch), "w+b") as asked:
                    asked.write(given)
                    asked.seek(0)
                    yield from ended(self.starts.ask(whole, asked.fileno(), said.fileno()))
            said.seek(0)
            return said.read()

    # -- what is not the commit's -------------------------------------------------

    def put_back(self, commit: str) -> None:
        """Makes git's settings, refs and index what they were."""
        self.own.put_back(commit.encode() + b"\n")
        if self.modules is not None:
            self.modules.put_back()

    def clear(self, before: str, commit: str) -> Moves:
        """Removes what is not of the commit before, and what would turn how git writes the next
        one; gives what differs between both."""
        yield from self.tree.sweep()
        for path in sorted(self.trees):
            yield from self.sweep_module(path)
        self.remove_caches()
        if before == commit:
            return []
        said = yield from self.starts.differences.between(before, commit)
        if said is None:
            said = yield from self.ask([*DIFFER, before, commit])
        changes = changes_of(said)
        for change in changes:
            if MODULE in change[1:]:
                self.clear_module(change)
        self.tree.clear(changes)
        return changes

    def remove_caches(self) -> None:
        """Removes what was compiled in this second: Python knows its source by the second and the
        size alone, and the source may be another one now."""
        second = time.clock_gettime_ns(COARSE) // 10**9
        for tree in [self.tree, *self.trees.values()]:
            tree.remove_caches(second)

    def sweep_module(self, path: str) -> Generator[float, object, None]:
        """The same in a submodule: one that is none any more is removed."""
        tree, whole = self.trees.get(path), os.path.join(self.path, path)
        if tree is None:
            return
        if os.path.isdir(whole) and not os.path.islink(whole):
            yield from tree.sweep()
        if not os.path.isfile(whole + "/.git"):
            self.remove_module(path)

    def clear_module(self, change: Change) -> None:
        """A submodule that comes, goes or is at another commit."""
        tree = self.trees.get(change.path)
        if change.before != change.after:
            self.remove_module(change.path)
        elif tree is not None and tree.has_attributes():
            tree.remove_below("")

    def remove_module(self, path: str) -> None:
        """Removes a submodule, and those in it."""
        remove_inside(self.path, path)
        for name in list(self.trees):
            if name == path or name.startswith(path + "/"):
                del self.trees[name]

    # -- what git writes -----------------------------------------------------------

    def write(self, log: int, commit: str, changes: Optional[List[Change]]) -> Steps:
        """Has git write a commit, of which this differs from what is there, or all; whether it
        stands there."""
        if not (yield from self.git(log, "checkout", "-q", "-f", "--detach", commit)):
            return False
        is_new = changes is None
        if changes is None:
            changes = listed_in((yield from self.ask([*LIST])))
        if not self.tree.note(changes, self.is_sparse):
            return False
        if not is_new and not (yield from self.clean(log, self.tree)):
            return False
        if self.modules is not None and not (yield from self.update(log, self.modules)):
            return False
        if head_of(self.own.path) != commit:
            return False
        self.own.keep_index()
        yield from self.wait_for_tick()
        return True

    def clean(self, log: int, tree: Tree, at: str = "") -> Steps:
        """Removes what the commit does not ignore. What says so in a folder that is not the
        commit's does not count."""
        todo = tree.loose_folders()
        while todo:
            unknown = [path for path in todo if path not in tree.ignored]
            if unknown:
                given = b"".join(os.fsencode(path) + b"\0" for path in unknown)
                said = yield from self.ask(["check-ignore", "-z", "--stdin"], at, given)
                ignored = set(said.split(b"\0"))
                for path in unknown:
                    tree.ignored[path] = os.fsencode(path) in ignored
            todo = [one for path in todo if not tree.ignored[path] for one in tree.list_loose(path)]
        if not tree.has_others:
            return True
        is_clean = yield from self.git(log, "clean", "-q", "-ffd", at=at)
        self.unkept = self.unkept or tree.removed_object()
        return is_clean

    def update(self, log: int, modules: Modules) -> Steps:
        """Checks out the submodules; where their addresses are other ones in this commit, from
        these. One that got attributes, and was there before, is made anew."""
        upstream = self.starts.original.upstream
        near = ["-c", "remote.origin.url=" + upstream, "submodule", "-q"]  # not for those in it
        near = near if upstream else ["submodule", "-q"]
        if upstream and self.tree.modules:
            yield from self.git(log, *near, "init")
        if not (yield from self.git(log, *UPDATE)):
            for words in ([*near, "sync"], SYNC_BELOW, UPDATE):
                if not (yield from self.git(log, *words)):
                    return False
        before, self.trees = self.trees, {}
        todo = [("", self.tree)]
        while todo:
            above, outer = todo.pop()
            for name in sorted(outer.modules):
                path = f"{above}/{name}" if above else name
                if not os.path.isfile(os.path.join(self.path, path, ".git")):
                    continue
                tree = self.trees[path] = before.get(path) or self.new_tree(path)
                is_new, had = path not in before, tree.has_attributes()
                listed = listed_in((yield from self.ask([*LIST], "/" + path)))
                if not tree.list_anew([Change(".git", ABSENT, "100644"), *listed], True):
                    return False
                if not is_new:
                    if tree.has_attributes() and not had:
                        return False
                    if not (yield from self.clean(log, tree, "/" + path)):
                        return False
                todo.append((path, tree))
        modules.note()
        return True

    def new_tree(self, path: str) -> Tree:
        """The files of a submodule."""
        return Tree(os.path.join(self.path, path), self.tree.mode, True, True)

    def has(self, path: str) -> bool:
        """Whether the commit has something at a path, or a submodule there or above it."""
        tree = self.tree
        is_below = any((path + "/").startswith(one + "/") for one in tree.modules)
        return path in tree.signs or path in tree.counts or is_below

    # -- what git wrote, file by file ----------------------------------------------------

    def written_by(self, path: str, sign: int) -> Optional[str]:
        """The repository, by its path here, that wrote a file which has this sign; None where it is
        not as git wrote it."""
        if self.tree.signs.get(path) == sign:
            return ""
        for at, tree in self.trees.items():
            if path.startswith(at + "/") and tree.signs.get(path[len(at) + 1 :]) == sign:
                return at if path != at + "/.git" else None
        return None

    def write_anew(self, at: str, paths: List[str]) -> Steps:
        """Has git write files anew that it wrote before."""
        front = len(at) + 1 if at else 0
        given = b"".join(os.fsencode(path[front:]) + b"\0" for path in paths)
        words = ["checkout-index", "-f", "-z", "--stdin"]
        yield from self.ask(words, "/" + at if at else "", given)
        return all(os.path.lexists(os.path.join(self.path, path)) for path in paths)

    def note_anew(self, at: str, path: str, sign: int) -> None:
        """Takes the sign of a file that was written anew."""
        (self.trees[at] if at else self.tree).signs[path[len(at) + 1 :] if at else path] = sign

    def wait_for_tick(self) -> Generator[float, object, None]:
        """What a test changes now is to have another time than what git wrote."""
        trees = [self.tree, *self.trees.values()]
        for _ in range(LONGEST_TICK):
            if all(tree.is_newer() for tree in trees):
                return
            yield 0.001

    # -- from search to search -------------------------------------------------------

    def save(self) -> bool:
        """Notes what is known of the files for the next search; whether that could be done."""
        try:
            self.tree.save(self.kept + ".files")
            return True
        except OSError:
            return False

    def load(self) -> bool:
        """Takes what an earlier search noted; whether that is whole. Of submodules nothing is
        known, so they are made anew."""
        if not self.tree.load(self.kept + ".files"):
            return False
        if self.modules is not None:
            for path in self.tree.modules:
                remove_inside(self.path, path)
        return True


def ended(child: Child) -> Steps:
    """Waits for a command; whether it ended with 0."""
    try:
        yield child
    finally:
        if child.status is None:
            yield from child.end()
    return child.status == 0
