"""Removal: what goes, what stays and is named, and that nothing of others changes: by tables of
folders, and by whole searches whose tests leave what is not theirs."""
from __future__ import annotations

import ast
import os
import re
import subprocess
import sys
import tempfile
import unittest
from typing import List, NamedTuple, Tuple

from folders import sum_of
from helpers import DRIVER, ENGINE, ENV, ROOM, SECONDS, TOP, Repository, begins_first, needs_engine

sys.path.insert(0, os.path.join(TOP, "driver"))
from git_farmdawn.host.trees import (  # noqa: E402
    MOST_TOLD,
    Left,
    mounts_below,
    remove_below,
    remove_tree,
    tell_left,
)

MOUNTS = ["unshare", "-rm"]  # how a process gets the right to mount, seen by nobody else
NOBODY = ["setpriv", "--reuid=65534", "--regid=65534", "--clear-groups"]


def works(words: List[str]) -> bool:
    """Whether a command can be run so here."""
    try:
        done = subprocess.run([*words, "true"], stderr=subprocess.DEVNULL, check=False)
        return done.returncode == 0
    except OSError:
        return False


needs_mounts = unittest.skipUnless(works(MOUNTS), "nothing may be mounted here")
needs_nobody = unittest.skipUnless(
    os.getuid() == 0 and works(NOBODY), "this is not root, who can be another user"
)
RUNS = ["sh", "-c", 'test -x "$0" && test -x "$1"', DRIVER + "/git-farmdawn", ENGINE]
needs_driver_of_nobody = unittest.skipUnless(
    os.getuid() == 0 and works([*NOBODY, *RUNS]), "another user cannot run what stands here"
)


class Row(NamedTuple):
    """What is made beside the folder `others`, what is removed, and what is left of it."""

    made: str
    path: str
    left: str = ""


ROWS = (
    Row("touch d", "d"),
    Row("ln -s others d", "d"),
    Row("ln -s others/f d", "d"),
    Row("ln -s none d", "d"),
    Row("mkfifo d", "d"),
    Row("true", "d"),
    Row("true", "none/d"),
    Row("mkdir d", "d"),
    Row("mkdir -p d/e/f; touch d/a d/e/b d/e/f/c; mkfifo d/p", "d"),
    Row("mkdir d; ln -s ../others d/l; ln -s ../others/f d/m", "d"),
    Row("mkdir d; ln others/f d/f; chmod 0 d", "d"),
    Row("mkdir d; ln others/f d/f; chmod 555 d", "d"),
    Row("mkdir -p d/e/f; touch d/e/f/x; chmod 0 d/e/f d/e d", "d"),
    Row("mkdir -p d/e; touch d/e/x; chmod 600 d/e d", "d"),
    Row("mkdir d; touch 'd/a b' 'd/-x' \"d/$(printf '\\377\\n')\"", "d"),
    Row("mkdir d; i=0; while [ $i -lt 300 ]; do mkdir x; mv d x/d; mv x d; i=$((i+1)); done", "d"),
    Row("ln -s . here; mkdir d; touch d/x", "here/d"),
)
BELOW = (
    Row("mkdir -p t/a/b; touch t/a/b/c", "t/a/b/c"),
    Row("mkdir -p t/a; touch t/a/c; chmod 555 t/a", "t/a/c"),
    Row("mkdir -p t/a", "t/a/none"),
    Row("mkdir t", "t/none/none"),
    Row("mkdir t; ln -s ../others t/a", "t/a/f", "t/a"),
    Row("mkdir -p t/a; ln -s ../../others t/a/b", "t/a/b/g/h", "t/a/b"),
)
MOUNTED = (
    Row("mkdir -p d/m d/x; touch d/y d/x/z; mount --bind others d/m", "d", "d/m"),
    Row("mkdir -p d/m; chmod 555 d; mount --bind others d/m", "d", "d/m"),
    Row("mkdir -p d/m; mount -t tmpfs none d/m; touch d/m/x", "d", "d/m"),
    Row("mkdir d; touch d/f d/x; mount --bind others/f d/f", "d", "d/f"),
    Row("mkdir d; mount --bind others d", "d", "d"),
    Row("mkdir -p d/d/d d/e; mount --bind others d/d/d; mount --bind others d/e", "d", "d/d/d+d/e"),
    Row("mkdir -p 'd/a b'; mount --bind others 'd/a b'; ln -s 'a b' d/l", "d", "d/a b"),
    Row("mkdir -p t/a; mount --bind others t/a", "t/a/f", "t/a"),
)


def remove(path: str) -> Tuple[List[str], bool]:
    """Removes a path: gives what is left, and whether something is mounted here."""
    left = remove_below("t", path[2:]) if path.startswith("t/") else remove_tree(path)
    return sorted(os.path.relpath(one.path) for one in left), bool(mounts_below("."))


def as_user(number: int, room: str, path: str) -> str:
    """The same by another user, in another process."""
    reads, writes = os.pipe()
    child = os.fork()
    if not child:
        try:
            if number != os.getuid():
                os.setgroups([])
                os.setresgid(number, number, number)
                os.setresuid(number, number, number)
            os.chdir(room)
            os.write(writes, repr(remove(path)).encode())
        finally:
            os._exit(0)
    os.close(writes)
    with open(reads, "rb") as told:
        text = told.read().decode()
    os.waitpid(child, 0)
    return text


class Trees(unittest.TestCase):
    """Each row in a folder of its own, by a process that may mount where it must."""

    def remove(self, row: Row, *words: str) -> None:
        """Makes what a row says, removes it, and looks at what is left, and at what is not ours."""
        with self.subTest(row.made), tempfile.TemporaryDirectory(dir=ROOM) as room:
            os.chmod(room, 0o777)
            os.makedirs(room + "/others/g")
            for name in ("f", "g/h"):
                with open(f"{room}/others/{name}", "w", encoding="utf-8") as file:
                    file.write("precious")
                os.chmod(f"{room}/others/{name}", 0o444)
            before = sum_of(room + "/others")
            script = [*words, "sh", "-euc", row.made]
            if words == tuple(MOUNTS):
                script[-1] += '; exec "$0" -c "from test_trees import *; print(remove(\'$1\'))"'
                script += [sys.executable, row.path]
            told = subprocess.run(
                script,
                cwd=room,
                env={**ENV, "PYTHONPATH": os.path.dirname(os.path.abspath(__file__))},
                stdout=subprocess.PIPE,
                text=True,
                timeout=SECONDS,
                check=True,
            ).stdout or as_user(65534 if words else os.getuid(), room, row.path)
            left = row.left.split("+") if row.left else []
            self.assertEqual(ast.literal_eval(told), (left, "mount" in row.made))
            self.assertEqual(sum_of(room + "/others"), before)
            if not left:
                self.assertFalse(os.path.lexists(os.path.join(room, row.path)))

    def test_rows(self) -> None:
        """What goes, by root."""
        for row in ROWS + BELOW:
            self.remove(row)

    @needs_nobody
    def test_rows_of_nobody(self) -> None:
        """The same by a user whom the modes of folders stop."""
        for row in ROWS + BELOW:
            if " ln others" not in row.made:
                self.remove(row, *NOBODY)

    @needs_mounts
    def test_mounts(self) -> None:
        """What is mounted stays, with what is behind it."""
        for row in MOUNTED:
            self.remove(row, *MOUNTS)

    @needs_nobody
    def test_files_of_others(self) -> None:
        """What another user made in a folder of ours stays and is named, and all else goes."""
        with tempfile.TemporaryDirectory(dir=ROOM) as room:
            os.makedirs(room + "/d/e/theirs")
            with open(room + "/d/e/theirs/f", "w", encoding="utf-8") as file:
                file.write("x")
            os.mkdir(room + "/d/ours")
            for name in ("", "/d", "/d/e", "/d/ours"):
                os.chown(room + name, 65534, 65534)
            told = as_user(65534, room, "d")
            self.assertEqual(ast.literal_eval(told), (["d/e/theirs/f"], False))
            self.assertEqual(sorted(sum_of(room + "/d")), [".", "e", "e/theirs", "e/theirs/f"])

    def test_moved(self) -> None:
        """Few files are open however deep a folder is, and a folder that goes meanwhile is no
        fault."""
        with tempfile.TemporaryDirectory(dir=ROOM) as room:
            self.assertEqual(remove_tree(room + "/none"), [])
            os.makedirs(room + "/t")
            self.assertEqual(remove_below(room + "/t", "a/b"), [])
            before = len(os.listdir("/proc/self/fd"))
            os.makedirs(room + "/d/" + "/".join(["e"] * 400))
            self.assertEqual(remove_tree(room + "/d"), [])
            self.assertEqual(len(os.listdir("/proc/self/fd")), before)

    def test_told(self) -> None:
        """A line for each of the first, and one for the others."""
        for count in (0, 1, MOST_TOLD, MOST_TOLD + 1):
            with self.subTest(count):
                told: List[str] = []
                tell_left([Left(f"/d/{at}", "why") for at in range(count)], told.append)
                self.assertEqual(len(told), min(count, MOST_TOLD) + (count > MOST_TOLD))
                self.assertTrue(
                    all(re.search("/d/[0-9] is left.*why$", one) for one in told[:MOST_TOLD])
                )


class Search(NamedTuple):
    """What a test does in its checkout, with what words, and what is told to be left of it."""

    test: str
    words: str = ""
    left: str = ""


SEARCHES = (
    Search("mkdir -p d; mount --bind $OTHERS d", left="d"),
    Search("mkdir -p d; mount --bind $OTHERS d", "--clean", "d"),
    Search("mkdir -p d; mount --bind $OTHERS d", "--workers 3", "d"),
    Search("mkdir -p d; mount --bind $OTHERS d", "--pool $ROOM/pool", "d"),
    Search("mount --bind $OTHERS/f number", left="number"),
    Search("rm number; mkdir number; mount --bind $OTHERS number", left="number"),
    Search("mount --bind $OTHERS .", "--workers 1", "repository.farmdawn.1"),
    Search('mkdir -p "$FARMDAWN_BUILD/d"; mount --bind $OTHERS "$FARMDAWN_BUILD/d"', left="d"),
    Search("ln -s $OTHERS d"),
    Search("rm number; ln -s $OTHERS/f number"),
    Search("rm number; ln $OTHERS/f number"),
    Search("mkdir -p d; ln -f $OTHERS/f d; chmod 0 d"),
    Search("rm -rf c; ln -s $OTHERS c", "--copy c/f"),
    Search("rm -rf c; ln -s $OTHERS c", "--copy c/f --pool $ROOM/pool"),
    Search("rm -rf c; ln -s $OTHERS c", "--copy c --pool $ROOM/pool"),
)


class Behind(NamedTuple):
    """What each commit has, by its number n, what a test leaves, with what words, and what the work
    tree has: so that a link stands where the next commit has, or had, something below it."""

    commits: str
    test: str = "true"
    words: str = ""
    made: str = "true"


LINKED = "[ -e d ] || ln -s $OTHERS d"
LIB = "[ $n != %d ] || git submodule -q add -f ../lib d/g"
FOLDERS = "[ $n -lt 8 ] || { mkdir -p d/g/e; echo $n >d/g/e/x; }"
OWN = "git checkout -q c2 2>&1; rm -rf d; ln -s ../others d"
IS_OWN = "if [ $n -lt 8 ]; then test -f d/f; else test ! -L d; fi || exit 9"
BEHIND = (
    Behind(FOLDERS, LINKED),
    Behind("[ $n -lt 8 ] && mkdir -p d/g && echo $n >d/g/x || { rm -rf d; ln -s ../others d; }"),
    Behind(LIB % 8, LINKED),
    Behind(LIB % 8, LINKED, "--submodules"),
    Behind(LIB % 2, "rm -rf d; ln -s $OTHERS d", "--submodules --pool $ROOM/pool"),
    Behind(LIB % 2, "rm -rf .git/modules; ln -s $OTHERS .git/modules", "--submodules"),
    Behind(FOLDERS, IS_OWN, "--link d", OWN),
    Behind(FOLDERS, IS_OWN, "--link d --pool $ROOM/pool", OWN),
    Behind(LIB % 8, IS_OWN, "--link d --submodules", OWN),
    Behind("true", "test -f d/f || exit 9; rm d; mkdir -p d/g", "--link d --pool $ROOM/pool", OWN),
    Behind("true", "test -f d/g/f || exit 9", "--link d/g --clean", "mkdir d; ln -s $OTHERS/g d/g"),
)


@needs_engine
class Searches(unittest.TestCase):
    """Whole searches whose tests leave what leads to others."""

    def make(self) -> None:
        """A repository, and beside it what is another's."""
        self.repo = Repository(self)
        self.others = self.repo.room + "/others"
        self.repo.sh(
            "mkdir -p ../others/g c; echo precious | tee ../others/f ../others/g/h >c/f;"
            "chmod 444 ../others/f; echo /c >.git/info/exclude"
        )
        self.before = sum_of(self.others)

    def run_in(self, words: List[str], script: str) -> "subprocess.CompletedProcess[str]":
        """Runs a script in the repository by a command that gives it the right to mount."""
        env = {**ENV, "OTHERS": self.others, "ROOM": self.repo.room}
        return self.repo.run(*words, "sh", "-c", script, env=env, check=False)

    def look(self, row: Search, words: List[str]) -> None:
        """One search, another one behind it, and --prune: each names what is left, until it is
        mounted no more."""
        test = f"n=$(cat number); {row.test}; exec test $n -lt 7"
        search = f"git farmdawn --fresh --trust-ends {row.words} c12 c1 -- sh -c '{test}'"
        again = "git farmdawn --fresh --trust-ends c12 c1 -- sh -c 'test $(cat number) -lt 7' 2>&1"
        got = self.run_in(
            words,
            f"{search}; echo again; {again}; echo prune; git farmdawn --prune 2>&1; echo unmounted;"
            "sed 's/ - .*//' /proc/self/mountinfo | cut -d ' ' -f 5 | grep farmdawn |"
            " xargs -r umount; git farmdawn --prune 2>&1;"
            "git farmdawn --fresh $EMPTY c2 c1 -- true >/dev/null 2>&1",
        )
        self.assertEqual(sum_of(self.others), self.before, got)
        first, last = got.stdout.split("again\n")
        self.assertIn(self.repo.name("c7") + " is the first bad commit", first, got.stderr)
        self.assertIn(self.repo.name("c7") + " is the first bad commit", last)
        behind, pruned = last.split("prune\n")
        told = f"/{row.left} is left, as it cannot be removed: something is mounted there\n"
        for text in [got.stderr] + ([] if "pool" in row.words else [behind, pruned]):
            self.assertEqual(told in text, "mount" in row.test, got)
        self.assertNotIn(" is left, as", pruned.split("unmounted\n")[1])
        if "pool" not in row.words:
            self.repo.check_left()

    @needs_mounts
    @begins_first
    def test_mounts(self) -> None:
        """What is behind a mount or a link stays."""
        for row in SEARCHES:
            with self.subTest(row):
                self.make()
                self.look(row, MOUNTS)

    def test_behind_links(self) -> None:
        """What is behind a link stays where a commit has something below it: what git would read
        there, a submodule, or the git folder of one."""
        for row in BEHIND:
            with self.subTest(row):
                self.repo = Repository(self, 1)
                self.others = self.repo.room + "/others"
                self.repo.sh(
                    "git init -q ../lib; cd ../lib; echo 1 >f; git add .; git commit -qm l;"
                    "mkdir -p ../others/g/e ../others/d/g; cd ../others; echo precious |"
                    " tee g/f g/.gitignore g/e/.gitattributes d/g/f >f; mkfifo g/pipe;"
                    "cd ../repository; echo /d >.git/info/exclude; for n in $(seq 2 12); do"
                    f" echo $n >number; {row.commits}; git add -A -f;"
                    f" git commit -qm c$n; git tag c$n; done; OTHERS={self.others}; {row.made}"
                )
                before = sum_of(self.others)
                test = f"n=$(cat number); {row.test}; test $n -lt 11"
                line = f"git farmdawn --fresh --workers 1 {row.words} c12 c2 -- sh -c '{test}'"
                times = 2 if "pool" in row.words else 1
                got = self.run_in([], "; ".join([line] * times))
                due = self.repo.name("c11") + " is the first bad commit"
                self.assertEqual(got.stdout.count(due), times, got)
                self.assertEqual(sum_of(self.others), before)
                self.repo.check_left()

    @needs_driver_of_nobody
    def test_files_of_others(self) -> None:
        """Files of another user are named, now and by the next run."""
        self.make()
        due = self.repo.name("c7") + " is the first bad commit"
        self.repo.sh("chown -R 65534:65534 .. && chmod 755 ..")
        script = (
            "if read -r at <$ROOM/at; then mkdir -p $at/theirs; touch $at/theirs/f; fi; rm $ROOM/at"
        )
        asks = "[ -e $ROOM/asked ] || { pwd >$ROOM/asked; pwd >$ROOM/at; };"
        root = subprocess.Popen(
            [
                "sh",
                "-c",
                f"for i in $(seq 600); do sleep 0.1; [ -e $ROOM/at ] && {{ {script}; break; }}; done",
            ],
            env={**ENV, "ROOM": self.repo.room},
        )
        got = self.run_in(
            NOBODY,
            "git farmdawn --fresh --trust-ends c12 c1 -- sh -c '"
            f"{asks} while [ -e $ROOM/at ]; do sleep 0.1; done; test $(cat number) -lt 7';"
            "git farmdawn --fresh --trust-ends c2 c1 -- false >&2; git farmdawn --prune",
        )
        root.wait()
        self.assertIn(due, got.stdout, got.stderr)
        self.assertEqual(
            len(re.findall("/theirs/f is left, as .*: Permission denied", got.stderr)), 3, got
        )


if __name__ == "__main__":
    unittest.main()
