"""What a folder has, for tests that compare folders; and how a checkout differs from a fresh clone.

As a program it prints the first: `python3 folders.py FOLDER`. What few calls need is imported there:
thousands of tests start with this module."""
from __future__ import annotations

import os
import stat
import sys
from typing import Dict, List, Sequence

SHORT = 100  # bytes of a file that are told as they are


def sum_of(folder: str, but: Sequence[str] = ()) -> Dict[str, str]:
    """All that a folder has, with kinds, modes and bytes, but for what is below these paths."""
    found = {}
    for here, folders, names in os.walk(folder):
        folders[:] = [
            name for name in folders if os.path.relpath(os.path.join(here, name), folder) not in but
        ]
        for name in [*folders, *names, "."]:
            path = os.path.join(here, name)
            state = os.lstat(path)
            text = oct(state.st_mode)
            if stat.S_ISREG(state.st_mode):
                with open(path, "rb") as file:
                    text += " " + told_of(file.read())
            elif stat.S_ISLNK(state.st_mode):
                text += " " + os.readlink(path)
            found[os.path.relpath(path, folder)] = text
    return found


def told_of(data: bytes) -> str:
    """The bytes of a file, or what stands for many."""
    if len(data) <= SHORT:
        return repr(data)
    import hashlib

    return hashlib.sha256(data).hexdigest()


def without_git(found: Dict[str, str]) -> Dict[str, str]:
    """The same without what is git's own; that there is something is told."""
    return {
        path: "git" if path.split("/")[-1] == ".git" else text
        for path, text in found.items()
        if ".git" not in path.split("/")[:-1]
    }


def differs(found: Dict[str, str], fresh: str) -> List[str]:
    """How what a checkout had differs from a fresh clone, beside what that ignores; a socket or a
    pipe counts in any folder that the commit has."""
    due = without_git(sum_of(fresh))
    wrong = [
        f"{path}: {found.get(path, 'none')}, and not {text}"
        for path, text in sorted(due.items())
        if found.get(path) != text
    ]
    more = sorted(set(found) - set(due))
    if not more:
        return wrong
    import subprocess

    given = b"".join(os.fsencode(path) + b"\0" for path in more)
    words = ["git", "-C", fresh, "check-ignore", "-z", "--no-index", "--stdin"]
    said = subprocess.run(words, input=given, stdout=subprocess.PIPE, check=False).stdout
    ignored = {os.fsdecode(path) for path in said.split(b"\0")}
    kept = {path.rpartition("/")[0] for path in ignored}
    for path in more:
        mode = int(found[path].split()[0], 8) if found[path] != "git" else 0
        if path in ignored and not (odd(mode) and (path.rpartition("/")[0] or ".") in due):
            continue
        # a folder stays where something in it is ignored
        if not (stat.S_ISDIR(mode) and any((one + "/").startswith(path + "/") for one in kept)):
            wrong.append(f"{path}: {found[path]}, and not ignored")
    return wrong


def odd(mode: int) -> bool:
    """Whether git does not see something of this kind."""
    return not (stat.S_ISREG(mode) or stat.S_ISDIR(mode) or stat.S_ISLNK(mode))


if __name__ == "__main__":
    import json

    print(json.dumps(without_git(sum_of(sys.argv[1]))))
