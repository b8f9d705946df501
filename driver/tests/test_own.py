"""Each checkout is a repository of its own: what a test does with git stays there, and is gone for
the next one. And what git's own settings of the user are is so in each checkout."""
from __future__ import annotations

import os
import random
import sys
import tempfile
import time
import unittest
from typing import Dict, List, NamedTuple, Optional, Tuple

from folders import sum_of
from helpers import ENV, TOP, Repository, begins_first, needs_engine

sys.path.insert(0, os.path.join(TOP, "driver"))
from git_farmdawn.checkouts.gitfolder import GitFolder  # noqa: E402
from git_farmdawn.repository.original import ALTERNATES, Stored  # noqa: E402
from git_farmdawn.repository.original import escaped, pair_of, written  # noqa: E402
from git_farmdawn.repository.refs import PRIVATE, list_refs, place_of, read_refs  # noqa: E402

# what a test sees of git when it begins
STATE = """{ git for-each-ref; git stash list; git config --local --list; git status --porcelain;
 cat .git/packed-refs .git/info/*; find .git -type f -o -type l | sort | grep -v '^.git/objects/..';
 git count-objects; git notes list; git log -1 --format=%N; git worktree list | wc -l;
 git config core.hooksPath; git sparse-checkout list
 } 2>/dev/null | sha256sum"""


class Row(NamedTuple):
    """What is made in the user's repository, and what a test does in each checkout."""

    test: str
    made: str = "true"
    words: str = ""


ROWS = (
    Row("git tag t; git tag -a -m t t2; git branch b; git update-ref refs/x/y HEAD"),
    Row("git tag -d c1; git branch -D other; git pack-refs --all", "git branch other c3"),
    Row("echo x >>number; git stash; echo y >>number; git stash; git stash pop; git stash clear"),
    Row("echo x >>number; git stash", "echo u >>number; git stash"),
    Row("git config user.name x; git config core.autocrlf true; git config core.hooksPath .husky"),
    Row("git config --local --unset remote.o.url; rm -f .git/config", "git remote add o ../o.git"),
    Row("git config extensions.worktreeConfig true; git config --worktree core.bare true"),
    Row("echo number >>.git/info/exclude; echo '* -text' >.git/info/attributes; rm -rf .git/info"),
    Row("git sparse-checkout set --no-cone /none"),
    Row("git sparse-checkout disable", "git sparse-checkout set --no-cone '/*'"),
    Row("git update-index --skip-worktree number; echo bad >number"),
    Row("git update-index --assume-unchanged number; echo bad >number"),
    Row("git rm -q --cached number; git add -N .; touch x; git add -N x"),
    Row("rm -f .git/index"),
    Row("echo x >x; git add x; git commit -qm x; git checkout -q --detach $FARMDAWN_COMMIT"),
    Row("git notes add -m x; git replace HEAD HEAD^; git reflog expire --expire=now --all"),
    Row("git gc -q --prune=now; git prune; git repack -qadf; rm -rf .git/objects/??"),
    Row(
        "git worktree add -q ../w$FARMDAWN_WORKER HEAD; git worktree remove --force ../w$FARMDAWN_WORKER"
    ),
    Row(
        "echo 'exit 1' >.git/hooks/pre-commit; chmod +x .git/hooks/pre-commit; touch .git/index.lock"
    ),
    Row("rm .git/hooks/*", "echo true >.git/hooks/pre-commit; chmod +x .git/hooks/pre-commit"),
    Row("rm -rf .git"),
    Row("chmod 444 .git/config; chmod 555 .git/refs .git; chmod 0 .git/packed-refs"),
    Row(
        "rm .git/HEAD; ln -s refs/heads/main .git/HEAD; rm .git/HEAD; echo $FARMDAWN_COMMIT >.git/HEAD"
    ),
    Row("mv .git/info ../info$FARMDAWN_WORKER; ln -s ../../info$FARMDAWN_WORKER .git/info"),
    Row(
        "git remote set-head o -d", "git remote add o .; git fetch -q o; git remote set-head o main"
    ),
    Row(
        "git fetch -q --tags o; git push -q o HEAD:refs/heads/x 2>/dev/null",
        "git init -q ../o; git remote add o ../o",
    ),
)


@needs_engine
class Own(unittest.TestCase):
    """Whole searches, a row each."""

    def search(self, row: Row) -> None:
        """One search: the answer, what each test saw, and what became of the user's repository."""
        repo = Repository(self)
        repo.sh(row.made)
        before = sum_of(repo.path, [".git/farmdawn"])
        told = repo.room + "/told"
        test = (
            f"n=$(cat number); {STATE} >>{told}; {{ {row.test}; }} >/dev/null 2>&1; test $n -lt 7"
        )
        got = repo.search(
            *row.words.split(), "--workers", "2", *repo.ends(), "--", "sh", "-c", test
        )
        self.assertIn(repo.name("c7") + " is the first bad commit", got.stdout, got.stderr)
        with open(told, encoding="ascii") as file:
            self.assertEqual(len(set(file)), 1)
        self.assertEqual(sum_of(repo.path, [".git/farmdawn"]), before)
        repo.check_left()

    @begins_first
    def test_rows(self) -> None:
        """What a test does with git is neither seen by the user nor by another test."""
        for row in ROWS:
            with self.subTest(row):
                self.search(row)

    def test_settings(self) -> None:
        """What is set for the user's repository holds in each checkout, and leads to the same."""
        repo = Repository(self)
        repo.sh(
            "git init -q ../base; git remote add origin ../base; git config a.b 'x \"y\" \\ ;#';"
            "git config 'a.b c\"d.e' 1; git config --add a.b second; git config a.line \"$(printf 'x\\n\\ty')\";"
            "printf '[x]\\n\\tin = 1\\n[y]\\n\\ttrue\\n' >.git/more; git config include.path more;"
            "git config extensions.worktreeConfig true; git config --worktree w.w 1;"
            "git config lfs.storage /somewhere; chmod 600 .git/config; git symbolic-ref refs/x/s refs/tags/c1;"
            "git tag -a -m t annotated c5"
        )
        ask = (
            "git config --get-all a.b; git config --get 'a.b c\"d.e'; git config a.line; git config x.in;"
            "git config y.true; git config w.w; git describe --tags c5; git rev-parse refs/x/s;"
            "git for-each-ref | grep -v bisect; git rev-parse annotated^{}; git show-ref -d"
        )
        due = repo.sh(ask)
        got = repo.search(
            "--trust-ends",
            "c3",
            "c1",
            "--",
            "sh",
            "-c",
            f"{{ {ask}; }} >../said; git remote get-url origin >../url;"
            "git config lfs.storage >../lfs; stat -c %a .git/config >../mode; git config core.repositoryFormatVersion >../version; exit 1",
        )
        self.assertEqual(got.returncode, 0, got.stderr)
        said = {}
        for name in ("said", "url", "lfs", "mode", "version"):
            with open(os.path.join(repo.room, name), encoding="utf-8") as file:
                said[name] = file.read()
        self.assertEqual(
            said,
            {
                "said": due,
                "url": repo.room + "/base\n",
                "lfs": "",
                "mode": "600\n",
                "version": "0\n",
            },
        )

    def test_environment(self) -> None:
        """What is set for one command of git holds for its checkouts and tests."""
        repo = Repository(self)
        repo.sh(
            "git replace c7 $(git commit-tree c12^{tree} -p c6 -m r); git config x.y 0;"
            "echo 'number ident' >.gitattributes; git add .; git commit -qm a; git tag c13"
        )
        rows: List[Tuple[List[str], Dict[str, str], str]] = [
            (["-c", "x.y=1"], {}, "1 c7"),
            (
                [],
                {"GIT_CONFIG_COUNT": "1", "GIT_CONFIG_KEY_0": "x.y", "GIT_CONFIG_VALUE_0": "2"},
                "2 c7",
            ),
            (["--no-replace-objects"], {}, "0 none"),
            (["-c", "core.useReplaceRefs=false"], {}, "0 none"),
            ([], {"GIT_DIR": ".git", "GIT_WORK_TREE": ".", "GIT_INDEX_FILE": "/none"}, "0 c7"),
        ]
        for words, more, due in rows:
            with self.subTest(words):
                told = repo.room + "/told"
                test = f'[ $(cat number) = 12 ] && w=c7 || w=none; echo "$(git config x.y) $w" >{told}; exit 1'
                got = repo.run(
                    "git",
                    *words,
                    "farmdawn",
                    "--fresh",
                    "--trust-ends",
                    "c8",
                    "c6",
                    "--",
                    "sh",
                    "-c",
                    test,
                    env={**ENV, **more},
                    check=False,
                )
                self.assertIn("is the first bad commit", got.stdout, got.stderr)
                with open(told, encoding="ascii") as file:
                    self.assertEqual(file.read().strip(), due)

    def test_refused(self) -> None:
        """A place of the repository that is said for one command is none of its checkouts."""
        repo = Repository(self)
        got = repo.run(
            "git",
            "-c",
            f"core.worktree={repo.path}",
            "farmdawn",
            *repo.ends(),
            "--",
            "false",
            check=False,
        )
        self.assertEqual((got.returncode, got.stdout), (1, ""))
        self.assertIn("core.worktree is not for a search", got.stderr)

    def test_written(self) -> None:
        """What is written as a configuration is read as the same."""
        repo = Repository(self)
        rows: List[Tuple[str, Optional[str]]] = [
            ("a.b", value)
            for value in (None, "", " x ", "a\nb", "\t", "\\", '"', "#;", "\b", "é\udcff")
        ]
        rows += [(f"a.{name}.b", "1") for name in ("x", "x.y", " ", '"', "\\", "é", "]")]
        path = os.path.join(repo.room, "config")
        with open(path, "wb") as file:
            file.write(written(rows))
        said = os.fsencode(repo.run("git", "config", "--file", path, "--list", "-z").stdout)
        self.assertEqual([pair_of(row) for row in said.split(b"\0")[:-1]], rows)
        self.assertEqual(escaped('a"\\'), 'a\\"\\\\')


# what is done with the refs of a repository with 3 commits, whose refs are then read
REFS = (
    "true",
    "git pack-refs --all",
    "git tag -a -m t t c2; git tag -a -m t t2 t; git pack-refs --all; git tag -f t c3; git tag -d c1",
    "git pack-refs --all; git tag -a -m t c9 c2; git branch -f a c1; git tag -f -a -m u c1 c2",
    "git symbolic-ref refs/x/s refs/tags/c1; git pack-refs --all; git symbolic-ref refs/tags/c2 refs/tags/c1",
    "git symbolic-ref refs/remotes/o/HEAD refs/remotes/o/none",
    "echo x >number; git stash; git bisect start; git bisect bad; git update-ref refs/worktree/x HEAD",
    "echo x >number; git stash; git update-ref refs/rewritten/x HEAD; git pack-refs --all",
    "git update-ref refs/stashed HEAD; git update-ref refs/bisection/x HEAD; git pack-refs --all",
    "cp .git/refs/heads/main .git/refs/heads/x.lock;" "mkdir .git/refs/heads/empty",
    "git update-ref refs/tags/blob $(git rev-parse c1:number); git update-ref refs/tags/tree c1^{tree}",
    "git pack-refs --all; sed -i 's/^#.*/# pack-refs with: peeled /' .git/packed-refs; git tag x c2",
    "git pack-refs --all; sed -i '/^[#^]/d' .git/packed-refs; tac .git/packed-refs >p; mv p .git/packed-refs;"
    "git tag x c2",
    "mv .git/refs .git/r; ln -s r .git/refs; git tag -a -m t t2",
    "git worktree add -q ../w c2; cd ../w; git bisect start; git update-ref refs/worktree/x HEAD; git tag y",
    "printf '%s' $(git rev-parse c1) >.git/refs/tags/noline",
    "git branch é/ü; git pack-refs --all; git branch -D é/ü; git branch é",
)


class Refs(unittest.TestCase):
    """What a checkout has of the refs."""

    def test_place(self) -> None:
        """Where a name stands among rows in order, of which some say what a tag leads to."""
        chosen = random.Random(1)
        for _ in range(500):
            names = sorted(
                {bytes(chosen.choices(b"abc/", k=3)) for _ in range(chosen.randrange(9))}
            )
            rows = [b"0 " + name + b"\n" + chosen.choice([b"", b"^1\n"]) for name in names]
            asked = bytes(chosen.choices(b"abc/", k=chosen.randrange(1, 5)))
            due = sum(len(row) for name, row in zip(names, rows) if name < asked)
            self.assertEqual(place_of(b"".join(rows), asked), due, (rows, asked))

    def test_read(self) -> None:
        """As git lists them in the repository itself, but for those of one work tree."""
        ask = "git for-each-ref --format='%(refname) %(objectname) %(symref)'; git show-ref -d"
        for made in REFS:
            for reads in ("files", "git"):
                with self.subTest((made, reads)):
                    repo = Repository(self, 3)
                    repo.sh(made)
                    at = repo.room + ("/w" if "../w" in made else "/repository")

                    def run(*words: str, input: bytes = b"", check: bool = True) -> bytes:
                        """What git says there."""
                        return os.fsencode(
                            repo.run(
                                "git", *words, cwd=at, input=os.fsdecode(input), check=check
                            ).stdout
                        )

                    git = repo.path + "/.git/"
                    refs = (
                        read_refs(git + "refs", git + "packed-refs", run)
                        if reads == "files"
                        else list_refs(run)
                    )
                    repo.sh("git init -q ../other; cp -r .git/objects ../other/.git")
                    other = repo.room + "/other/.git/"
                    with open(other + "packed-refs", "wb") as file:
                        file.write(refs.packed)
                    for name, leads in refs.symbolic.items():
                        path = other + os.fsdecode(name)
                        os.makedirs(os.path.dirname(path), exist_ok=True)
                        with open(path, "wb") as file:
                            file.write(b"ref: " + leads)
                    due = [
                        line
                        for line in repo.run("sh", "-c", ask, cwd=at, check=False).stdout.split(
                            "\n"
                        )
                        if not any(PRIVATE.fullmatch(os.fsencode(word)) for word in line.split())
                    ]
                    had = repo.run("sh", "-c", ask, cwd=other, check=False).stdout.split("\n")
                    self.assertEqual(had, due)


SUBMODULES = (
    Row("git config submodule.lib.update none; git -C lib config core.autocrlf true"),
    Row("git -C lib tag t; git -C lib checkout -q HEAD^; rm -rf .git/modules"),
    Row("rm -rf lib; mkdir lib"),
    Row("git -C lib update-index --skip-worktree f; echo bad >lib/f"),
    Row("git submodule deinit -q --all --force"),
    Row("echo bad >lib/f; git -C lib commit -qam x"),
    Row("rm lib/.git; git init -q lib"),
)


@needs_engine
class Submodules(unittest.TestCase):
    """The same with submodules: those that the user has, and those that he has not."""

    def test_rows(self) -> None:
        """A row each, with and without what the user has of the submodule."""
        for row in SUBMODULES:
            for has in (True, False):
                with self.subTest((row, has)):
                    self.search(row, has)

    def search(self, row: Row, has: bool) -> None:
        """One search whose commits have another commit of the submodule each."""
        repo = Repository(self, 1)
        repo.sh(
            "git init -q ../lib; cd ../lib; for i in 1 2 3; do echo $i >f; git add f; git commit -qm l$i;"
            "git tag l$i; done; cd ../repository; git submodule -q add ../lib lib;"
            "for i in $(seq 2 12); do git -C lib checkout -q l$((1 + i % 3)); echo $i >number; git add .;"
            "git commit -qm c$i; git tag c$i; done"
        )
        if not has:
            repo.sh("git submodule deinit -q -f --all; rm -rf .git/modules")
        before = sum_of(repo.path, [".git/farmdawn"])
        test = (
            f"n=$(cat number); [ $(cat lib/f) = $((1 + n % 3)) ] || exit 1; git -C lib describe --tags || exit 1;"
            f'[ -z "$(git status --porcelain)" ] || exit 1; {{ {row.test}; }} >/dev/null 2>&1; test $n -lt 7'
        )
        got = repo.search(
            "--submodules", "--workers", "2", "--trust-ends", "c12", "c2", "--", "sh", "-c", test
        )
        self.assertIn(repo.name("c7") + " is the first bad commit", got.stdout, got.stderr)
        self.assertEqual(sum_of(repo.path, [".git/farmdawn"]), before)
        repo.check_left()

    def test_relative(self) -> None:
        """Relative addresses lead where they lead in the user's work tree, also from elsewhere."""
        far = "mkdir ../far; mv ../lib ../inner ../far; git remote add"
        rows = (
            ("../lib", "true"),
            ("./sub/lib", "mkdir sub; mv ../lib ../inner sub; echo sub >>.git/info/exclude"),
            ("../lib", f"{far} origin ../far/x"),
            ("../lib", f"{far} o ../far/x"),
            (
                "../lib",
                f"{far} o ../far/x; git remote add p ../no/x; git config branch.main.remote o",
            ),
            (
                "../lib",
                f"{far} o ../far/x; git remote add origin ../no; git config branch.main.remote o",
            ),
        )
        for address, made in rows:
            with self.subTest((address, made)):
                repo = Repository(self, 1)
                repo.sh(
                    "git init -q ../lib; cd ../lib; git init -q -b main --bare ../inner; echo 1 >f; git add f;"
                    "git commit -qm l; git push -q ../inner HEAD:refs/heads/main; git submodule -q add"
                    " ../inner inner; git commit -qm inner; cd ../repository; git submodule -q add ../lib lib;"
                    f"git config -f .gitmodules submodule.lib.url {address}; git add .; git commit -qm c2;"
                    "for i in 3 4 5; do echo $i >number; git commit -qam $i; git tag c$i; done;"
                    "git submodule deinit -q -f --all; rm -rf .git/modules"
                )
                repo.sh("git -C ../lib config -f .gitmodules submodule.inner.url ../inner")
                repo.sh(made)
                words = ["--submodules", "--workers", "1", "--pool", repo.room + "/x/y/pool"]
                test = "test -e lib/inner && test -e lib/f && test $(cat number) -lt 4"
                got = repo.search(*words, "--trust-ends", "c5", "c3", "--", "sh", "-c", test)
                self.assertEqual(got.returncode, 0, got)
                self.assertIn(" is the first bad commit", got.stdout)


class Folders(unittest.TestCase):
    """The git folder of a checkout, by itself."""

    def test_soon(self) -> None:
        """What comes at once behind what was put back goes, too, however coarse the times of folders
        are; and so does what comes later."""
        with tempfile.TemporaryDirectory() as room:
            own = GitFolder({ALTERNATES: Stored(b"/x\n")}, room + "/git", room + "/kept", set())
            for number in range(100):
                own.put_back(b"%040d\n" % number)
                with self.subTest(number):
                    self.assertEqual(os.listdir(room + "/git/refs/heads"), [])
                    self.assertEqual(sorted(os.listdir(room + "/git/objects")), ["info", "pack"])
                if number % 3:
                    open(room + "/git/refs/heads/new", "w", encoding="ascii").close()
                if not number % 7:
                    time.sleep(0.01)


if __name__ == "__main__":
    unittest.main()
