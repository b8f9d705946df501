"""A test that tells what it found in its checkout, and then does there what tests do, and worse:
`python3 misbehaving.py SEED ROOM LIMIT`. What it does follows from the seed and the commit. It writes in
its checkout alone: what is another in a folder beside it is the driver's doing. What few acts need is
imported there: it starts thousands of times."""
from __future__ import annotations

import os
import random
import sys
from typing import Callable, List

from folders import sum_of, without_git

NAMES = ("x", "build.o", "junk.txt", "d/new", "build/x.o", "lib", "a b", ".pytest_cache/x", "tmp")
GIT = """stash
tag -f t
tag -f -a -m x t2
branch -f b
config user.name other
config core.autocrlf true
config core.fileMode false
config core.hooksPath .husky
config --add remote.o.url ../none
config submodule.lib.update none
sparse-checkout set --no-cone /number
update-index --skip-worktree number
update-index --assume-unchanged number
rm -q --cached -r .
add -A -f
add -N .
clean -q -ffdx
clean -q -ffd
gc -q --prune=now
repack -qad
pack-refs --all
reset -q --hard
notes add -m x
replace -f HEAD HEAD^
reflog expire --expire=now --all
worktree add -q --detach .w HEAD
submodule -q update --init
submodule -q deinit --all --force
init -q nested
init -q d
update-ref -d refs/tags/c1
ls-files""".split(
    "\n"
)


# at these git itself goes behind a link
FOLLOWED = ("d", "lib", "nested", ".w")


def mounts_here() -> List[str]:
    """What is mounted below this folder; a bind mount is of the same device, so mountinfo alone tells."""
    here = os.fsencode(os.getcwd()) + b"/"
    with open("/proc/self/mountinfo", "rb") as file:
        points = [line.split()[4] for line in file]
    return [
        os.fsdecode(plain)
        for plain in [one.replace(b"\\040", b" ") for one in points]  # the one sign that comes here
        if plain.startswith(here)
    ]


def is_ours(path: str) -> bool:
    """Whether a path is in this checkout, neither behind a link nor a mount, and has no mount below."""
    whole = os.path.realpath(os.path.dirname(path)) + "/" + os.path.basename(path)
    return (whole + "/").startswith(os.getcwd() + "/") and not any(
        (whole + "/").startswith(one + "/") or one.startswith(whole + "/") for one in mounts_here()
    )


class Misbehaving:
    """One test."""

    def __init__(self, seed: str, room: str) -> None:
        self.random, self.room = random.Random(seed + os.environ["FARMDAWN_COMMIT"]), room
        self.others = os.path.join(room, "others")

    def paths(self, folders: bool) -> List[str]:
        """The files, or the folders, outside of git's own, and not behind a mount."""
        found, mounts = [], mounts_here()
        for here, names, files in os.walk("."):
            names[:] = sorted(
                name
                for name in names
                if name != ".git" and os.path.abspath(os.path.join(here, name)) not in mounts
            )
            paths = [os.path.join(here, name) for name in (names if folders else sorted(files))]
            found += [path for path in paths if not (folders and os.path.islink(path))]
        return found or ["."]

    def gone(self, path: str) -> str:
        """A path at which nothing is any more, in a folder that is there."""
        if not is_ours(path):
            raise PermissionError(path)
        if os.path.isdir(path) and not os.path.islink(path):
            import shutil

            shutil.rmtree(path)
        elif os.path.lexists(path):
            os.unlink(path)
        os.makedirs(os.path.dirname(path) or ".", exist_ok=True)
        return path

    def change(self) -> None:
        """Changes a file: its bytes with its old time and size, its mode, its kind, or its name."""
        path = self.random.choice(self.paths(False))
        self.random.choice([self.rewrite, self.mode, self.remake, self.gone, self.rename])(path)

    def rewrite(self, path: str) -> None:
        """Other bytes of the same size and time."""
        found = os.stat(path)
        if found.st_nlink > 1 or not is_ours(os.path.realpath(path)):
            return  # it is a file of others, too
        with open(path, "r+b") as file:
            data = file.read()
            file.seek(0)
            file.write(data.swapcase() if data.swapcase() != data else b"~" * len(data))
        if self.random.random() < 0.7:
            os.utime(path, ns=(found.st_atime_ns, found.st_mtime_ns))

    def mode(self, path: str) -> None:
        """Another mode, of a file or of its folder."""
        if os.lstat(path).st_nlink == 1 and not os.path.islink(path):
            os.chmod(path, self.random.choice([0o444, 0o755, 0o600, 0o777]))
        if self.random.random() < 0.4:
            os.chmod(os.path.dirname(path), self.random.choice([0o555, 0o700, 0o777]))

    def remake(self, path: str) -> None:
        """Another kind."""
        self.make(self.gone(path))

    def rename(self, path: str) -> None:
        """Another name, of a file or of its folder."""
        old = self.random.choice([path, os.path.dirname(path)])
        if old != ".":
            os.rename(old, self.gone(self.random.choice(NAMES)))

    def leave(self) -> None:
        """Leaves something new."""
        folder = self.random.choice(self.paths(True))
        base = self.random.choice([*NAMES, ".gitattributes", ".gitignore", ".git", "p/.gitignore"])
        if folder != "." or base != ".git":
            self.make(self.gone(os.path.join(folder, base)))

    def make(self, path: str) -> None:
        """Something of any kind."""
        kinds = ["file", "file", "folder", "link", "others", "hard", "pipe", "socket", "mount"]
        kind = self.random.choice(kinds)
        if kind == "folder":
            os.makedirs(path + "/in")
            path += "/in/" + self.random.choice(["f", "f.o", ".gitignore", "build"])
        if kind in ("file", "folder"):
            with open(path, "w", encoding="utf-8") as file:
                file.write(self.random.choice(["* text eol=crlf\n", "*\n", "!*.o\n", "x\n"]))
        elif kind in ("link", "others"):
            to = self.others if kind == "others" else self.random.choice(["number", ".", "none"])
            os.symlink(to, path)
        elif kind == "hard":
            os.link(self.others + "/f", path)
        elif kind == "pipe":
            os.mkfifo(path)
        elif kind == "socket":
            import socket

            with socket.socket(socket.AF_UNIX) as one:
                one.bind(path)
        elif os.environ.get("MAY_MOUNT") and self.random.random() < 0.3:
            os.mkdir(path)
            os.spawnvp(os.P_WAIT, "mount", ["mount", "--bind", self.others, path])

    def git(self) -> None:
        """Something of git, which writes behind mounts, and behind some links."""
        if mounts_here() or not all(is_ours(os.path.realpath(name)) for name in FOLLOWED):
            return
        # git waits forever at a pipe that has a name which it reads
        words = ["timeout", "5", "git", *self.random.choice(GIT).split()]
        os.spawnvp(os.P_WAIT, "timeout", words)
        head = ["git", "update-ref", "--no-deref", "HEAD", os.environ["FARMDAWN_COMMIT"]]
        os.spawnvp(os.P_WAIT, "git", head)

    def inside(self) -> None:
        """Something in git's own folder."""
        name = self.random.choice(
            ["index", "config", "info", "hooks", "packed-refs", "objects/pack", "refs", "modules"]
        )
        path = self.random.choice([".git/" + name, ".git/" + name, ".git/index.lock", ".git/x"])
        if not os.path.isdir(".git"):
            return
        if self.random.random() < 0.5:
            self.gone(path)
        elif not os.path.isdir(path):
            with open(path, "a", encoding="utf-8") as file:
                file.write("[core]\n\tautocrlf = true\n")

    def run(self) -> None:
        """Does some of that."""
        acts: List[Callable[[], None]] = [self.change, self.change, self.leave, self.leave]
        acts += [self.git, self.git, self.inside]
        for _ in range(self.random.randrange(1, 7)):
            try:
                self.random.choice(acts)()
            except OSError:
                pass


def main(seed: str, room: str, limit: int) -> int:
    """The test."""
    name = os.environ["FARMDAWN_COMMIT"] + "." + os.urandom(4).hex()
    with open("number", encoding="ascii") as file:
        number = int(file.read())
    found = ascii(without_git(sum_of(".")))
    with open(os.path.join(room, name), "w", encoding="ascii") as file:
        file.write(found)
    os.rename(os.path.join(room, name), os.path.join(room, "told", name))  # in whole, or not
    Misbehaving(seed, room).run()
    return int(number >= limit)


if __name__ == "__main__":
    sys.exit(main(sys.argv[1], sys.argv[2], int(sys.argv[3])))
