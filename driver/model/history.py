"""The history that a stream tells: its commits by place, in the order in which they come, with
git's names; and its refs."""
from __future__ import annotations

import hashlib
from typing import Any, Dict, Iterable, List, Set, Tuple

import stream
from forms import decimal, is_ref, object_name, read_path
from refusals import MOST_COMMITS, MOST_ENTRIES, at_line, too_large


Path = Tuple[bytes, ...]
Files = Dict[Path, Tuple[bytes, bytes]]
Listed = Tuple[Tuple[Path, bytes, bytes], ...]  # a path, a mode and a name each


def hashed(kind: bytes, body: bytes) -> bytes:
    """git's name of a blob, a tree or a commit: 20 bytes."""
    return hashlib.sha1(kind + b" %d\0" % len(body) + body).digest()


# -- files: a dict from a path, as its parts, to a mode and a name -------------------


def remove_file(files: Files, path: Path) -> None:
    """Takes a file or a folder away."""
    for other in [other for other in files if other[: len(path)] == path]:
        del files[other]


def set_file(files: Files, path: Path, mode: bytes, name: bytes) -> None:
    """Puts a file, in place of a file or folder there, and of files where it needs folders."""
    for depth in range(1, len(path)):
        files.pop(path[:depth], None)
    remove_file(files, path)
    files[path] = (mode, name)


def frozen(files: Files) -> Listed:
    """The same as a list by path: one value for one tree."""
    return tuple(sorted((path, mode, name) for path, (mode, name) in files.items()))


def by_first_part(listed: Listed) -> Dict[bytes, List[Tuple[Path, bytes, bytes]]]:
    """What a folder has: for each name the rest of each path below it, with its mode and name."""
    out: Dict[bytes, List[Tuple[Path, bytes, bytes]]] = {}
    for path, mode, name in listed:
        out.setdefault(path[0], []).append((path[1:], mode, name))
    return out


def tree_name(listed: Listed) -> bytes:
    """git's name of the tree of a list of files."""
    entries = []
    for first, below in by_first_part(listed).items():
        if below[0][0] == ():
            ((_, mode, name),) = below
            entries.append((first, mode + b" " + first + b"\0" + name))
        else:
            entries.append((first + b"/", b"40000 " + first + b"\0" + tree_name(tuple(below))))
    return hashed(b"tree", b"".join(text for _, text in sorted(entries)))


def folders(listed: Listed) -> List[Listed]:
    """The lists of a folder and of all folders below it."""
    out = [listed]
    for below in by_first_part(listed).values():
        if below[0][0] != ():
            out += folders(tuple(below))
    return out


def commit_body(
    tree: bytes, parents: Iterable[bytes], header: stream.Header, message: bytes
) -> bytes:
    """The text of a commit, of which its name is made."""
    lines = [b"tree " + tree.hex().encode()] + [
        b"parent " + parent.hex().encode() for parent in parents
    ]
    lines += [
        b"author " + (header.author if header.author is not None else header.committer),
        b"committer " + header.committer,
    ]
    lines += [b"encoding " + header.encoding] if header.encoding is not None else []
    return b"\n".join(lines) + b"\n\n" + message


# -- the history ---------------------------------------------------------------------


class History:
    """The commits by place: parents, names and subjects. `original` says whether the names are
    those that commits say of themselves."""

    def __init__(self, original: bool = False) -> None:
        self.original = original
        self.parents: List[List[int]] = []
        self.names: List[bytes] = []
        self.subjects: List[bytes] = []
        self.place_of: Dict[bytes, int] = {}  # from a name to its place
        self.refs: Dict[bytes, int] = {}  # from a ref to a place
        # what graphs.py and states.py compute once
        self.rows: Dict[Tuple[int, bool], Set[int]] = {}
        self.weights: Dict[Tuple[Tuple[int, ...], bool], Dict[int, int]] = {}
        self.left: Dict[Any, List[int]] = {}

    def __len__(self) -> int:
        return len(self.names)

    def hex(self, place: int) -> bytes:
        """The name of a commit in digits."""
        return self.names[place].hex().encode()


class Fold:
    """Takes command after command. While it reads, commits have the names that git would give
    them."""

    def __init__(self, original: bool) -> None:
        self.history = History(original)
        self.originals: List[bytes] = []  # the name that each commit says of itself
        self.files: List[Listed] = []  # by place
        self.marks: Dict[int, Any] = {}  # by number: ('blob', name), ('place', place) or ('tag',)
        self.trees: Dict[Listed, bytes] = {}  # the names of trees that were met
        self.lists: Set[Listed] = set()
        self.entries = 0  # the lists of folders that were met, and how many entries they have

    def target(self, target: stream.Target, of_tag: bool = False) -> int:
        """The place that a text leads to: a mark, a name or a ref."""
        text = target.text
        if text.startswith(b":") and decimal(text[1:]) is not None:
            mark = self.marks.get(decimal(text[1:]) or 0)
            if mark is None or mark[0] != "place":
                raise at_line(
                    target.line, b"unsupported" if mark is not None and of_tag else b"bad from"
                )
            place: int = mark[1]
            return place
        name = object_name(text)
        if name is not None:
            if name not in self.history.place_of:
                raise at_line(target.line, b"unsupported")
            return self.history.place_of[name]
        ref = text[:-2] if text.endswith(b"^0") else text
        if is_ref(ref) and ref in self.history.refs:
            return self.history.refs[ref]
        raise at_line(target.line, b"bad from")

    def command(self, command: Any) -> None:
        """One command of the stream."""
        if isinstance(command, stream.Blob):
            if command.mark is not None:
                self.marks[command.mark] = ("blob", hashed(b"blob", command.content))
        elif isinstance(command, stream.Commit):
            self.commit(command)
        elif isinstance(command, stream.Tag):
            self.history.refs[b"refs/tags/" + command.name] = self.target(command.target, True)
            if command.mark is not None:
                self.marks[command.mark] = ("tag",)
        elif isinstance(command, stream.Reset):
            if command.target is None or command.target.text == b"0" * 40:
                self.history.refs.pop(command.branch, None)
            else:
                self.history.refs[command.branch] = self.target(command.target)

    def content(self, change: stream.Modify) -> bytes:
        """The name of the content that a file gets."""
        kind, value = change.content
        found: bytes
        if kind == "mark":
            mark = self.marks.get(value)
            if change.mode == stream.MODULE or mark is None or mark[0] != "blob":
                raise at_line(change.line, b"bad mark")
            found = mark[1]
            return found
        if kind == "inline":
            if change.mode == stream.MODULE:
                raise at_line(change.line, b"bad mark")
            return hashed(b"blob", value)
        found = value
        return found

    def change(self, change: Any, files: Files) -> None:
        """One change of a commit's files."""
        if isinstance(change, stream.DeleteAll):
            files.clear()
            return
        name = self.content(change) if isinstance(change, stream.Modify) else None
        path = read_path(change.path)
        if path is None:
            raise at_line(change.line, b"bad path")
        if name is None:
            remove_file(files, path)
        else:
            set_file(files, path, change.mode, name)

    def tree(self, listed: Listed) -> bytes:
        """The name of a tree. Each list of a folder is held once, and there is a limit for all of
        them."""
        if listed not in self.trees:
            self.trees[listed] = tree_name(listed)
            for folder in folders(listed):
                if folder not in self.lists:
                    self.lists.add(folder)
                    self.entries += len(by_first_part(folder))
        if self.entries > MOST_ENTRIES:
            raise too_large(b"entries")
        return self.trees[listed]

    def commit(self, command: stream.Commit) -> None:
        """A commit: without `from` it lies on its branch. The same commit again is the same
        place."""
        history = self.history
        first = (
            self.target(command.parents.first)
            if command.parents.first is not None
            else history.refs.get(command.branch)
        )
        parents = ([] if first is None else [first]) + [
            self.target(target) for target in command.parents.merges
        ]
        listed: Listed = () if first is None else self.files[first]
        if command.changes:
            files = {path: (mode, name) for path, mode, name in listed}
            for change in command.changes:
                self.change(change, files)
            listed = frozen(files)
        body = commit_body(
            self.tree(listed),
            [history.names[parent] for parent in parents],
            command.header,
            command.message,
        )
        name = hashed(b"commit", body)
        if name not in history.place_of:
            self.add(name, parents, command, listed)
        history.refs[command.branch] = history.place_of[name]
        if command.mark is not None:
            self.marks[command.mark] = ("place", history.place_of[name])

    def add(self, name: bytes, parents: List[int], command: stream.Commit, listed: Listed) -> None:
        """A commit that was not there before."""
        history = self.history
        if len(history) == MOST_COMMITS:
            raise too_large(b"commits")
        history.place_of[name] = len(history)
        history.names.append(name)
        history.parents.append(parents)
        history.subjects.append(next((line for line in command.message.split(b"\n") if line), b""))
        self.files.append(listed)
        self.originals.append(command.original)


def load(data: bytes, original: bool) -> History:
    """The history of a stream; raises Refused at the first fault in it."""
    fold = Fold(original)
    for command in stream.commands(data, original):
        fold.command(command)
    history = fold.history
    if original:
        history.names = fold.originals
        history.place_of = {name: place for place, name in enumerate(history.names)}
    return history
