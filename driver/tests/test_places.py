"""What a test finds in its checkout and around it. A row is a repository that was once searched
with a wrong answer."""
from __future__ import annotations

import os
import unittest
from typing import Dict, NamedTuple, Sequence

from helpers import ENGINE, ENV, Repository, begins_first, needs_engine

BAD_FROM_7 = "[ $(cat number) -lt 7 ]"
SCRIPT = f"echo '{BAD_FROM_7}' >"


class Row(NamedTuple):
    """What is made of the repository, the words of the search, and the first bad commit."""

    what: str
    prepare: str
    words: Sequence[str]
    first: str = "c7"
    folder: str = ""
    env: Dict[str, str] = {}
    told: str = ""


def sh(script: str) -> Sequence[str]:
    """The words of a command that is a script."""
    return "--", "sh", "-c", script


ROWS = [
    Row(
        "a variable has the name of one of the driver's",
        ":",
        sh('[ "$prefix$state" = /opt/x ] || exit 1; ' + BAD_FROM_7),
        env={"prefix": "/opt", "state": "/x"},
    ),
    Row(
        "a variable has no name of a shell's variable, or is one that shells heed",
        ":",
        (
            "--",
            "python3",
            "-c",
            (
                'import os; e = os.environ; exit(e.get("a.b") != "1" or e.get("CDPATH") != "/x" or'
                ' int(open("number").read()) >= 7)'
            ),
        ),
        env={"a.b": "1", "CDPATH": "/x"},
    ),
    Row(
        "the locale is not set",
        ":",
        sh('[ -z "${LC_ALL+x}${LC_CTYPE+x}" ] || exit 1; ' + BAD_FROM_7),
        env={"LC_ALL": ""},
    ),
    Row(
        "a tool looks for its settings in the folders above",
        "echo bad >settings",
        sh(
            'd=$PWD; while [ "$d" != / ]; do [ ! -e "$d/settings" ] || exit 1; d=$(dirname "$d");'
            " done; " + BAD_FROM_7
        ),
    ),
    Row(
        "a test looks beside the work tree",
        "mkdir ../data && echo 7 >../data/limit",
        sh("[ $(cat number) -lt $(cat ../data/limit) ]"),
    ),
    Row(
        "the named script is a link that leads out of the work tree",
        "mkdir ../tools && " + SCRIPT + "../tools/t.sh && ln -s ../tools/t.sh t.sh",
        ("--", "sh", "t.sh"),
        told="t.sh is not tracked; each checkout gets a copy of it",
    ),
    Row(
        "the named script stands in a repository of its own",
        "git init -q helper && "
        + SCRIPT
        + "helper/t.sh && cd helper && git add -A && git commit -q -m x",
        ("--", "sh", "helper/t.sh"),
        told="helper/t.sh is not tracked",
    ),
    Row(
        "a folder that is copied has a link",
        "mkdir d && echo 7 >d/a && ln -s a d/l && ln -s ../../limit d/out && echo 1 >../limit",
        ("--copy", "d", *sh("[ -e d/out ] && [ $(cat number) -lt $(cat d/l) ]")),
    ),
    Row(
        "a test writes into an ignored copy",
        "echo d >.git/info/exclude && mkdir d && echo 7 >d/a",
        (
            "--copy",
            "d",
            *sh("[ $(cat number) -lt $(cat d/a) ]; s=$?; echo 1 >d/a; echo 2 >d/b; exit $s"),
        ),
    ),
    Row(
        "the attributes of files change",
        """
        git checkout -q --orphan new && printf 'a\\n' >t.txt
        for n in 1 2 3 4 5 6 7 8 9 10 11 12; do
            eol=lf && [ $n -lt 7 ] || eol=crlf
            echo "*.txt text eol=$eol" >.gitattributes && echo $n >number && git add -A && git commit -q -m $n && git tag -f c$n >/dev/null
        done 2>/dev/null""",
        sh('! grep -q "$(printf "\\r")" t.txt'),
    ),
    Row(
        "a test changes a file, and tells git not to look at it",
        (
            "echo same >settings && echo 1 >number && git add -A && git commit -q -m settings &&"
            " git tag -f c1 && for n in 2 3 4 5 6 7 8 9 10 11 12; do echo $n >number && git commit"
            " -q -a -m $n && git tag -f c$n; done"
        ),
        sh(
            '[ "$(cat settings)" = same ] || exit 1; echo mine >settings; git update-index'
            " --skip-worktree settings; " + BAD_FROM_7
        ),
    ),
    Row(
        "core.worktree is for each worktree",
        (
            'git config core.worktree "$PWD" && git config extensions.worktreeConfig true && echo'
            " mine >number"
        ),
        sh(BAD_FROM_7),
    ),
    Row(
        "the user stands in a linked work tree that is whole, and the main one is sparse",
        """
        mkdir a b && echo 1 >a/n && echo 1 >b/n && git add -A && git commit -q -m more && git tag -f c1 >/dev/null
        for n in 2 3 4 5 6 7 8 9 10 11 12; do echo $n >number && echo $n >b/n && git add -A && git commit -q -m $n && git tag -f c$n; done >/dev/null
        git sparse-checkout set --cone a && git worktree add -q ../linked c12 && cd ../linked && git sparse-checkout disable""",
        sh("[ $(cat b/n) -lt 7 ]"),
        folder="../linked",
    ),
    Row(
        "the work tree is sparse",
        """
        mkdir a b && echo 1 >a/n && echo 1 >b/n && echo 1 >number && git add -A && git commit -q -m more && git tag -f c1 >/dev/null
        for n in 2 3 4 5 6 7 8 9 10 11 12; do echo $n >number && git add -A && git commit -q -m $n && git tag -f c$n; done >/dev/null
        git sparse-checkout set --cone a""",
        sh("[ -e a/n ] && [ ! -e b/n ] || exit 1; " + BAD_FROM_7),
    ),
    Row(
        "a test is ended in the middle of its build",
        "echo built >.git/info/exclude",
        (
            "--timeout",
            "2",
            "--workers",
            "1",
            *sh(
                "[ -e built ] || { mkdir built; [ $(cat number) != 6 ] || sleep 20; touch"
                " built/all; }; [ -e built/all ] || exit 1; " + BAD_FROM_7
            ),
        ),
        first="skipped",
    ),
    Row(
        "the script is edited while it searches",
        (
            "printf '%s\\n' 'limit=7' \"sed -i s/=7/=3/ '$PWD/t.sh'\" '[ $(cat number) -lt $limit"
            " ]' >t.sh"
        ),
        ("--workers", "1", "--", "sh", "t.sh"),
    ),
]


@needs_engine
class Places(unittest.TestCase):
    """Each row is searched with three workers, and with one."""

    @begins_first
    def test_rows(self) -> None:
        """The answer, and that the repository is as it was."""
        for row in ROWS:
            with self.subTest(row.what):
                self.try_row(row)

    def try_row(self, row: Row) -> None:
        """One of them."""
        repo = Repository(self)
        repo.sh(row.prepare)
        status, config = repo.sh("git status --short"), repo.sh("cat .git/config")
        env = {**ENV, **row.env}
        if env["LC_ALL"] == "":
            del env["LC_ALL"]
        for workers in ("3", "1") if "--workers" not in row.words else ("1",):
            words = ([] if "--workers" in row.words else ["--workers", workers]) + list(row.words)
            at = words.index("--")
            got = repo.search(
                "--fresh",
                *words[:at],
                *repo.ends(),
                *words[at:],
                cwd=os.path.join(repo.path, row.folder),
                env=env,
            )
            if row.first == "skipped":  # the parent of the first bad one is
                self.assertEqual(
                    (got.returncode, got.stdout.splitlines()[-3:-1]),
                    (2, [repo.name("c6"), repo.name("c7")]),
                    got.stderr,
                )
            else:
                self.assertEqual(
                    got.stdout.splitlines()[-1:],
                    [repo.name(row.first) + " is the first bad commit"],
                    got.stderr,
                )
            self.assertIn(row.told, got.stderr)
            repo.check_left()
        self.assertEqual(config, repo.sh("cat .git/config"))
        if "edited" not in row.what:
            self.assertEqual(status, repo.sh("git status --short"))


@needs_engine
class Bare(unittest.TestCase):
    """Repositories without a work tree, and with submodules."""

    def test_bare(self) -> None:
        """A bare one, also where its own configuration is for each worktree."""
        repo = Repository(self)
        repo.sh(
            "git clone -q --bare . ../bare.git && git -C ../bare.git config"
            " extensions.worktreeConfig true"
        )
        got = repo.search(*repo.ends(), *sh(BAD_FROM_7), cwd=repo.room + "/bare.git")
        self.assertEqual(
            got.stdout.splitlines()[-1:], [repo.name("c7") + " is the first bad commit"], got.stderr
        )

    def test_program(self) -> None:
        """The program, which takes only words that are UTF-8, may stand in a folder of any name."""
        repo = Repository(self)
        folder = os.fsdecode(os.fsencode(repo.room) + b"/n\xff")
        os.mkdir(folder)
        os.symlink(os.path.realpath(ENGINE), folder + "/farmdawn")
        got = repo.search(
            *repo.ends(), *sh(BAD_FROM_7), env={**ENV, "FARMDAWN": folder + "/farmdawn"}
        )
        self.assertEqual(
            got.stdout.splitlines()[-1:], [repo.name("c7") + " is the first bad commit"], got.stderr
        )

    def test_submodules(self) -> None:
        """They are checked out, and nothing of them is left in the configuration."""
        repo = Repository(self, 3)
        repo.sh(
            "git init -q ../inner && cd ../inner && echo x >inside && git add -A && git commit -q"
            " -m inside"
        )
        repo.sh(
            'git submodule --quiet add "$PWD/../inner" inner && git commit -q -m inner && git tag'
            " -f c1 && git submodule deinit -q -f inner"
        )
        repo.sh(
            "for n in 2 3 4 5; do echo $n >number && git commit -q -a -m $n && git tag -f c$n; done"
        )
        before = repo.sh("cat .git/config")
        got = repo.search(
            "--submodules",
            "--workers",
            "3",
            "c5",
            "c1",
            *sh("[ -e inner/inside ] && [ $(cat number) -lt 4 ]"),
        )
        self.assertEqual(
            got.stdout.splitlines()[-1:], [repo.name("c4") + " is the first bad commit"], got.stderr
        )
        self.assertEqual(before, repo.sh("cat .git/config"))
        repo.check_left()


if __name__ == "__main__":
    unittest.main()
