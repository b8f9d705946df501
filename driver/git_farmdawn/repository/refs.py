"""The refs of a repository, as each checkout has them: all in one file, as git packs them, and the
symbolic ones each in its own. They are read as files, without a look at their objects: there may be
a hundred thousand."""
from __future__ import annotations

import os
import re
from typing import Callable, Dict, Iterator, NamedTuple, Tuple

from ..host.files import content

# refs of one work tree, and the user's stash
PRIVATE = re.compile(rb"refs/(?:(?:bisect|worktree|rewritten)/.*|stash)", re.DOTALL)
# where these begin and end in the order of names
RANGES = [(b"refs/%s/" % one, b"refs/%s0" % one) for one in (b"bisect", b"rewritten", b"worktree")]
RANGES.append((b"refs/stash", b"refs/stash\0"))
NAME = re.compile(rb"refs/(?!.*(?:\.\.|//|/\.|@\{|\.lock(?:/|$)))[^\0-\x20\x7f~^:?*\[\\]+(?<![./])")
VALUE = re.compile(rb"([0-9a-f]{40}|[0-9a-f]{64})(?:\s|\Z)")
LEADS = re.compile(rb"ref:[ \t]*(refs/[^\0-\x20]+)\s*")
HEAD = b"# pack-refs with: peeled fully-peeled sorted \n"
Ask = Callable[..., bytes]


class Refs(NamedTuple):
    """The file of all refs, and where each symbolic one leads."""

    packed: bytes
    symbolic: Dict[bytes, bytes]


def is_shared(name: bytes) -> bool:
    """Whether a name is one of a ref, and every work tree has it."""
    return NAME.fullmatch(name) is not None and not PRIVATE.fullmatch(name)


def loose_files(folder: str) -> Iterator[Tuple[bytes, bytes]]:
    """The names of the files below the folder `refs`, and what they have."""
    for here, folders, names in os.walk(folder, followlinks=True):
        folders.sort()
        for name in names:
            path = os.path.join(here, name)
            if os.path.isfile(path):
                yield b"refs/" + os.fsencode(os.path.relpath(path, folder)), content(path)


def read_refs(folder: str, packed: str, ask: Ask) -> Refs:
    """The refs that stand in files. Those of the folder are read first: git packs a ref before it
    removes its file."""
    values, symbolic = {}, {}
    for name, text in loose_files(folder):
        value, leads = VALUE.match(text), LEADS.fullmatch(text)
        if value and is_shared(name):
            values[name] = value[1]
        elif leads and is_shared(name):
            symbolic[name] = leads[1]
    rows = {**dict.fromkeys(symbolic, b""), **peeled_rows(values, ask)}
    return Refs(pack(content(packed), rows), symbolic)


def peeled_rows(values: Dict[bytes, bytes], ask: Ask) -> Dict[bytes, bytes]:
    """The rows of refs, with what tags lead to. Git has a branch lead to nothing but a commit."""
    rows = {name: value + b" " + name + b"\n" for name, value in values.items()}
    others = [name for name in values if not name.startswith(b"refs/heads/")]
    asked = b"".join(values[name] + b"^{}\n" for name in others)
    words = ("cat-file", "--batch-check=%(objectname)")
    said = ask(*words, input=asked, check=False).split(b"\n") if others else []
    for name, found in zip(others, said):
        if VALUE.fullmatch(found) and found != values[name]:
            rows[name] += b"^" + found + b"\n"
    return rows


def pack(text: bytes, instead: Dict[bytes, bytes]) -> bytes:
    """The file of all refs: that of the user without those of one work tree, and with other rows
    `instead`, of which an empty one is none."""
    head, text = (text[: text.find(b"\n") + 1], text) if text.startswith(b"#") else (b"", text)
    rest = text[len(head) :]
    rest += b"" if rest.endswith(b"\n") or not rest else b"\n"
    head = head or (b"" if rest else HEAD)
    if b" sorted" not in head:
        rest = sorted_rows(rest)
    changes = [(place_of(rest, one), place_of(rest, end), b"", b"") for one, end in RANGES]
    for name, row in instead.items():
        changes.append((place_of(rest, name), place_of(rest, name + b"\0"), name, row))
    pieces, at = [head], 0
    for start, end, _, row in sorted(changes):
        pieces += [rest[at:start], row]
        at = end
    return b"".join([*pieces, rest[at:]])


def sorted_rows(text: bytes) -> bytes:
    """The rows of a file in the order of their names."""
    rows = text.replace(b"\n^", b" ^").split(b"\n")
    rows = sorted(filter(None, rows), key=lambda row: row.split(b" ", 2)[1])
    return b"".join(row.replace(b" ^", b"\n^") + b"\n" for row in rows)


def place_of(text: bytes, name: bytes) -> int:
    """Where the first row of rows in order begins whose name is this one or behind it."""
    low, high = 0, len(text)
    while low < high:
        middle = (low + high) // 2
        start = text.rfind(b"\n", low, middle) + 1 or low
        if text[start : start + 1] == b"^":
            start = text.rfind(b"\n", low, start - 1) + 1 or low
        end = text.find(b"\n", start) + 1
        if text[text.find(b" ", start) + 1 : end - 1] >= name:
            high = start
        else:
            low = text.find(b"\n", end) + 1 if text[end : end + 1] == b"^" else end
    return low


def list_refs(ask: Ask) -> Refs:
    """The same of a repository that keeps its refs in another way, as git lists them."""
    words = "%(objectname) %(*objectname) %(refname) %(symref)"
    said = ask("for-each-ref", "--format=" + words, check=False)
    rows, tags, symbolic = {}, {}, {}
    for value, peeled, name, leads in re.findall(rb"^(\S*) (\S*) (\S*) (\S*)$", said, re.MULTILINE):
        if not is_shared(name):
            continue
        if leads:
            symbolic[name] = leads
        elif peeled:
            tags[name] = value
        else:
            rows[name] = value + b" " + name + b"\n"
    return Refs(pack(b"", {**rows, **peeled_rows(tags, ask)}), symbolic)
