"""A checkout is what a fresh clone of its commit is, whatever the tests before did: random
repositories, whose tests leave, change, mount, link, bind, stash, tag, configure and clean.

`FARMDAWN_CASES=1000 FARMDAWN_SEED=1` makes so many cases from this one on, one after the other, and
tells those that failed with their seeds. In one of ten two searches run at once, of which one is
killed."""
from __future__ import annotations

import ast
import functools
import os
import random
import shutil
import subprocess
import unittest
from typing import Dict, List, Set, Tuple

from folders import differs, sum_of
from helpers import (
    DRIVER,
    ENV,
    PYTHON,
    SECONDS,
    Repository,
    begins_first,
    needs_engine,
    wait_until,
)
from test_trees import MOUNTS, works

HERE = os.path.dirname(os.path.abspath(__file__))
CASES = int(os.environ.get("FARMDAWN_CASES", "2"))
SEED = int(os.environ.get("FARMDAWN_SEED", "1"))
COMMITS = 9
LIBS = 3  # commits of the submodule
COPIES = ("--copy given", "--copy more", "--link shared")
WORDS = (*COPIES, "--clean", "--pool ../pool", "--build true", "--check-ends")
LINK, PLAIN, GITLINK = "120000", ("100644", "100755"), "160000"
MODULE = '[submodule "lib"]\n\tpath = lib\n\turl = ../lib\n'
# what a commit may change: an empty text is no file, and one that begins so is a link
FILES = {
    ".gitattributes": ["*.txt text eol=crlf\n", "*.txt -text\n", "* text=auto\n", ""],
    "d/.gitattributes": ["*.txt text eol=crlf\n", "* ident\n", ""],
    ".gitignore": ["*.o\nbuild\n", "*.o\n/x\n*.sock\n", "build\n!build/keep\ntmp\n", ""],
    "d/.gitignore": ["new\n", "!*.o\n", ""],
    "d/a.txt": ["a\nb\n", "a\nB\n", "$Id$\n", ""],
    "d/e/a.txt": ["1\n", "2\n", ""],
    "t.txt": ["a\nb\n", "c\n", "link number", ""],
    "x": ["x\n", "link d", ""],
    "x/y": ["y\n", ""],
    "build.o": ["o\n", "", ""],
    "build/keep": ["k\n", ""],
    "given": ["theirs\n", "", ""],
    "s": ["link d/e", "link none", ""],
    "a b/é": ["é\n", ""],
}
OF_LIBS = {"f": "", "s/g": "", ".gitignore": "*.o\n", ".gitattributes": "f text eol=crlf\n"}


@functools.lru_cache(maxsize=None)
def may_mount() -> bool:
    """Whether tests may mount something, in a namespace of theirs."""
    return works(MOUNTS)


class Tree(Dict[str, Tuple[str, str]]):
    """The modes and texts of a commit's files."""

    def put(self, path: str, mode: str, text: str) -> None:
        """A file, in place of what stands in its way; an empty text is none."""
        for other in list(self):
            if (
                other == path
                or (other + "/").startswith(path + "/")
                or path.startswith(other + "/")
            ):
                del self[other]
        if text:
            self[path] = (mode, text)

    def lines(self, number: int) -> str:
        """Its commit, for `git fast-import`."""
        parts = [
            f"commit refs/heads/main\ncommitter g <g> {1700000000 + number} +0000\ndata 0\ndeleteall\n"
        ]
        for path, (mode, text) in self.items():
            if mode == GITLINK:
                parts.append(f'M {mode} {text} "{path}"\n')
            else:
                parts.append(f'M {mode} inline "{path}"\ndata {len(text.encode())}\n{text}\n')
        return "".join(parts) + f"reset refs/tags/c{number}\nfrom refs/heads/main\n"


class Case:
    """A repository, and the searches in it."""

    def __init__(self, test: unittest.TestCase, seed: int) -> None:
        self.random, self.seed = random.Random(seed), str(seed)
        self.repo = Repository(test, 1)
        self.has_modules = self.random.random() < 0.3
        self.is_shared = seed % 10 == 0  # by two searches at once
        for name in ("told", "others/g"):
            os.makedirs(f"{self.repo.room}/{name}")
        for name in ("others/f", "others/g/h"):
            self.write(name, "precious\n", 0o440)
        self.make()

    def write(self, name: str, text: str, mode: int = 0o644) -> None:
        """A file beside the repository, or in it."""
        with open(f"{self.repo.room}/{name}", "w", encoding="utf-8") as file:
            file.write(text)
        os.chmod(file.name, mode)

    def import_all(self, folder: str, trees: List[str]) -> None:
        """The commits of a repository, in place of those that it has."""
        words = ["git", "-C", folder, "fast-import", "--quiet", "--force"]
        self.repo.run(*words, input="reset refs/heads/main\n\n" + "".join(trees))

    def make(self) -> None:
        """Makes the commits: attributes, what is ignored, kinds and modes differ between them."""
        repo, tree = self.repo, Tree()
        libs = self.make_lib() if self.has_modules else []
        trees = []
        if libs:
            tree.put(".gitmodules", PLAIN[0], MODULE)
            tree.put("lib", GITLINK, libs[0])
        for number in range(1, COMMITS + 1):
            for path in self.random.sample(sorted(FILES), self.random.randrange(1, 5)):
                text = self.random.choice(FILES[path])
                is_link = text.startswith("link ")
                mode = LINK if is_link else self.random.choice(PLAIN)
                tree.put(path, mode, text[5:] if is_link else text)
            if libs and self.random.random() < 0.5:
                tree.put("lib", GITLINK, self.random.choice(libs))
            elif libs and self.random.random() < 0.1:
                tree.put("lib/own", PLAIN[0], "in place of the submodule\n")
            tree.put("number", PLAIN[0], f"{number}\n")
            trees.append(tree.lines(number))
        self.import_all(repo.path, trees)
        self.settle()

    def make_lib(self) -> List[str]:
        """The submodule; the names of its commits."""
        lib, trees = self.repo.room + "/lib", []
        for number in range(1, LIBS + 1):
            tree = Tree()
            for path, text in OF_LIBS.items():
                tree.put(path, PLAIN[0], text or f"{number}\n")
            tree.put(".gitattributes" if number == 1 else ".gitignore", PLAIN[0], "")
            trees.append(tree.lines(number))
        self.repo.run("git", "init", "-q", "-b", "main", lib)
        self.import_all(lib, trees)
        names = self.repo.run("git", "-C", lib, "rev-list", "main").stdout.split()
        self.repo.run("git", "-C", lib, "reset", "-q", "--hard")
        return names

    def settle(self) -> None:
        """The user's own files and settings."""
        repo = self.repo
        repo.run("git", "reset", "-q", "--hard")
        self.write("repository/.git/info/exclude", "given\nmore\nshared\n")
        for name in ("more", "shared"):
            os.mkdir(f"{repo.path}/{name}")
            self.write(f"repository/{name}/x", "1\n")
        if not os.path.lexists(repo.path + "/given"):
            self.write("repository/given", "given\n")
        self.settings = ["core.autocrlf=input"] if self.random.random() < 0.3 else []
        for name, value in (one.split("=") for one in self.settings):
            repo.run("git", "config", name, value)
        if self.has_modules and self.random.random() < 0.5:
            repo.run("git", "submodule", "-q", "update", "--init")
        words = ["git", "clone", "-q", "-s", "-n", "--template=", repo.path, repo.room + "/fresh"]
        repo.run(*words, *[word for one in self.settings for word in ("-c", one)])
        os.mkdir(repo.room + "/fresh/.git/info")
        self.write("fresh/.git/info/exclude", "given\nmore\nshared\n")

    # -- its searches ----------------------------------------------------------------

    def words(self) -> List[str]:
        """The options of a search."""
        words = [word for word in WORDS if self.random.random() < 0.3]
        words += ["--submodules"] if self.has_modules and self.random.random() < 0.7 else []
        return words + [f"--workers {self.random.choice([1, 1, 2, 4, 8, 16])}"]

    def search(self) -> List[str]:
        """A search, or two at once: what is wrong with checkouts, with answers, and with what is
        not theirs."""
        limit, words = self.random.randrange(2, COMMITS + 1), self.words()
        before = {name: self.sum(name) for name in self.beside()}
        mounts = MOUNTS if self.random.random() < 0.5 and may_mount() else []
        env = {**ENV, "MAY_MOUNT": "1" if mounts else ""}
        line = ["--fresh", *" ".join(words).split(), f"c{COMMITS}", "c1", "--", PYTHON, "-SEB"]
        line += [HERE + "/misbehaving.py", self.seed, self.repo.room, str(limit)]
        begun = [self.begin([*mounts, DRIVER + "/git-farmdawn", *line], env)]
        if self.is_shared:
            begun.append(self.begin([*mounts, DRIVER + "/git-farmdawn", *line], env))
            self.kill(begun[0])
        wrong, due = [], self.repo.name(f"c{limit}") + " is the first bad commit"
        for process in begun:
            out, told = process.communicate(timeout=SECONDS)
            if due not in out and process.returncode != -9:
                wrong.append(f"not c{limit}: {process.returncode} {out} {told}")
        if self.is_shared:
            wait_until(lambda: not self.runs(), "the end of what the killed search left")
        for name, found in before.items():
            after = self.sum(name)
            changed = {path for path in {*found, *after} if found.get(path) != after.get(path)}
            wrong += [f"{name}/{path} is another now" for path in sorted(changed)]
        return [f"{words} {mounts} {one}" for one in wrong + self.look_at_all(words)]

    def begin(self, words: List[str], env: Dict[str, str]) -> "subprocess.Popen[str]":
        """A search under way."""
        return subprocess.Popen(words, **self.repo.apart({"env": env}))

    def kill(self, process: "subprocess.Popen[str]") -> None:
        """Kills it behind some tests of the two."""
        count = self.random.randrange(6)
        wait_until(lambda: process.poll() is not None or len(self.told()) >= count, "tests")
        process.kill()

    def runs(self) -> List[str]:
        """The folders of runs that are there yet."""
        names = os.listdir(self.repo.path + "/.git/farmdawn")
        return [name for name in names if name.startswith("run.")]

    def told(self) -> List[str]:
        """What tests told of their checkouts."""
        return os.listdir(self.repo.room + "/told")

    def beside(self) -> List[str]:
        """What is beside the checkouts."""
        return ["repository", "others"] + (["lib"] if self.has_modules else [])

    def sum(self, name: str) -> Dict[str, str]:
        """All that it has, but for what is the driver's."""
        return sum_of(f"{self.repo.room}/{name}", [".git/farmdawn"])

    # -- its checkouts -----------------------------------------------------------------

    def look_at_all(self, words: List[str]) -> List[str]:
        """How checkouts differed from fresh clones."""
        wrong, made = [], set()  # type: List[str], Set[str]
        for name in self.told():
            commit, told = name.split(".")[0], f"{self.repo.room}/told/{name}"
            if commit not in made:
                made.add(commit)
                self.clone(commit, words)
            with open(told, encoding="ascii") as file:
                found = ast.literal_eval(file.read())
            wrong += [f"{name}: {one}" for one in differs(found, f"{self.repo.room}/{commit}")]
            os.unlink(told)
        for commit in made:
            shutil.rmtree(f"{self.repo.room}/{commit}")
        return wrong

    def clone(self, commit: str, words: List[str]) -> None:
        """A fresh clone at a commit, with what the options bring."""
        repo, folder = self.repo, f"{self.repo.room}/{commit}"
        shutil.copytree(repo.room + "/fresh/.git", folder + "/.git")
        repo.run("git", "checkout", "-q", "--detach", commit, cwd=folder)
        if "--submodules" in words:
            repo.run("git", "submodule", "-q", "update", "--init", "--recursive", cwd=folder)
        if "--copy given" in words and not os.path.lexists(folder + "/given"):
            shutil.copy2(repo.path + "/given", folder + "/given")
        if "--copy more" in words:
            shutil.copytree(repo.path + "/more", folder + "/more")
        if "--link shared" in words:
            os.symlink(repo.path + "/shared", folder + "/shared")


@needs_engine
class Exact(unittest.TestCase):
    """Random repositories."""

    @begins_first
    def test_random(self) -> None:
        """Two searches in each, so that with --pool the second one finds what the first one left."""
        for seed in range(SEED, SEED + CASES):
            with self.subTest(seed):
                case = Case(self, seed)
                self.assertEqual(case.search() + case.search(), [])
                self.doCleanups()  # many repositories would fill the disk


if __name__ == "__main__":
    unittest.main()
