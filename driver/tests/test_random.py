"""Random repositories of many kinds, and tests that behave badly in them: a search by 1 to 16
workers has the log and the answer of testing each commit in a clone of its own, one at a time; and
`git bisect run` comes to the same commit, or it is known why not. FARMDAWN_CASES says how many,
FARMDAWN_SEED from where on; with FARMDAWN_COUNTS they are counted at the end. The first few are
those of the seeds that have most of the tests and places.

The oracle: each commit between the ends is tested in a fresh clone, and `farmdawn simulate`
searches the whole history by these outcomes."""
from __future__ import annotations

import collections
import os
import random
import shutil
import signal
import subprocess
import sys
import tempfile
import unittest
from typing import Counter, Dict, List, Optional, Set, Tuple

from helpers import ENV, LONG, PROGRAM, SECONDS, TOP, begins_first, needs_engine, needs_program

sys.path.insert(1, os.path.join(TOP, "tests"))
import repositories  # noqa: E402
from repositories import Question, Said, put_file  # noqa: E402

CASES, SEED = int(os.environ.get("FARMDAWN_CASES") or 5), int(os.environ.get("FARMDAWN_SEED") or 4)
QUIET = {
    **ENV,
    "GIT_CONFIG_COUNT": "1",
    "GIT_CONFIG_KEY_0": "core.fsync",
    "GIT_CONFIG_VALUE_0": "none",
}

# how a commit shows its status: what a test of it runs
LOOKS = {
    "verdict": "s=$(cat verdict)",
    "link": "s=$(cat link)",  # a link that turns, a file, or a link over a folder
    # the file is the same, and its attributes are not
    "attributes": "grep -q \"$(printf '\\r')\" text && s=1",
    "mode": "[ -x tool ] || s=1",
    "kind": "[ -f thing ] && [ ! -L thing ] || s=1",  # a file, a folder, or a link to one
    "absent": '[ ! -e "a bug" ] || s=1',
}
# what a test does beside: it must not matter for another test
BESIDE = {
    "writes": (
        "echo x >>number; rm -f tool; echo x >junk; mkdir -p made/deep; echo x >made/deep/x; rm -rf"
        " thing; mkdir thing; echo x >thing/y"
    ),
    "index": "rm -f verdict; git rm -q -f --cached number 2>/dev/null; echo x >junk; git add junk",
    "hides": (
        "echo 1 >verdict; echo x >thing; git update-index --skip-worktree verdict thing 2>/dev/null"
    ),
    "stays": f"{LONG} >/dev/null 2>&1 & setsid {LONG} >/dev/null 2>&1 &",
    "ignores": f"trap '' TERM; (trap '' TERM HUP; {LONG}) >/dev/null 2>&1 & sleep 0.05",
    "moves": 'git checkout -q -f --detach HEAD^ 2>/dev/null; git checkout -q -f --detach "$here"',
    "commits": 'echo x >number; git commit -q -a -m x; git checkout -q -f --detach "$here"',
    "closes": (
        'for f in /proc/$$/fd/*; do f=${f##*/}; [ "$f" -le 2 ] || eval "exec $f>&-"; done;'
        f" {LONG} >/dev/null 2>&1 &"
    ),
    "attributes": 'echo "* -text" >.gitattributes; git add -A',
    "away": "case $here in *[0-3]) git checkout -q -f --detach HEAD^ 2>/dev/null ;; esac",
}
PLACES = [
    "plain",
    "dirty",
    "folder",
    "linked",
    "bare",
    "partial",
    "sparse",
    "linked beside a sparse one",
    "core.worktree",
]


def git(folder: str, *words: str, **more: object) -> str:
    """What git prints."""
    return subprocess.run(  # type: ignore
        ["git", "-C", folder, *words],
        **{
            "env": QUIET,
            "stdout": subprocess.PIPE,
            "stderr": subprocess.DEVNULL,
            "text": True,
            "errors": "surrogateescape",
            "check": True,
            "timeout": SECONDS,
            **more,
        },
    ).stdout.strip()


def end_long() -> None:
    """Ends what tests left that ran elsewhere."""
    for pid in subprocess.run(
        ["pgrep", "-f", LONG], stdout=subprocess.PIPE, text=True
    ).stdout.split():
        try:
            os.kill(int(pid), signal.SIGKILL)
        except OSError:
            pass


def files_of(choice: random.Random, number: int, status: int, mode: str) -> str:
    """What a commit has for each of the tests; good is what ends with 0."""
    bad = status != 0
    text = [
        put_file("verdict", f"{status}\n"),
        put_file("number", f"{number}\n"),
        put_file("text", "one\ntwo\n"),
        put_file("sub/file", "x\n"),
        put_file(
            ".gitattributes",
            f'text text eol={"crlf" if bad else "lf"}\n' + choice.choice(["", "*.c diff=c\n"]),
        ),
        put_file(".gitignore", "made\n"),
        put_file("a bug", "bug\n") if bad else 'D "a bug"\n',
        (
            put_file("tool", "#!/bin/sh\n")
            if bad
            else put_file("tool", "#!/bin/sh\n").replace("100644", "100755")
        ),
        "D thing\n",
        put_file("v/good", "0\n"),
        put_file("v/bad", "1\n"),
    ]
    if not bad:
        text.append(put_file("thing", "x\n"))
    elif mode == "kind":
        text.append(
            choice.choice(["", put_file("thing/x", "x\n"), "M 120000 inline thing\ndata 1\nv\n"])
        )
    to = "v/bad" if bad else "v/good"
    text += [
        "D link\n",
        choice.choice(
            [f"M 120000 inline link\ndata {len(to)}\n{to}\n", put_file("link", f"{int(bad)}\n")]
        ),
    ]
    return "".join(text).replace("inline a bug", 'inline "a bug"')


class Case:
    """A repository, a place where the user stands, a test, and a question."""

    def __init__(self, case: unittest.TestCase, seed: int, room: str) -> None:
        choice = self.choice = random.Random(f"random {seed}")
        self.case, self.room, self.origin = case, room, os.path.join(room, "origin")
        self.look = choice.choice(["verdict", *LOOKS])
        self.beside = choice.sample(list(BESIDE), choice.choice([0, 1, 1, 2]))
        self.place = choice.choice(["plain", *PLACES])
        self.names, plain = self.make_origin()
        self.test = self.make_test()
        self.question = self.ask(repositories.random_question(choice, self.names, plain, "verdict"))
        self.at = self.stand()

    def make_origin(self) -> Tuple[List[str], bool]:
        """The repository with refs c0, c1, ..; the commits' names, and whether they are bad from
        one on."""
        choice = self.choice
        parents = repositories.random_parents(choice, choice.randrange(3, 23))
        statuses, plain = repositories.verdicts(choice, parents)
        if self.look != "verdict":
            statuses = [min(status, 1) for status in statuses]
        rising = choice.random() < 0.5
        text = []
        for number, named in enumerate(parents):
            text.append(repositories.head_of_commit(choice, number, named, rising))
            text.append(files_of(choice, number, statuses[number], self.look) + "\n")
        git(".", "init", "-q", "-b", "main", self.origin)
        with open(
            self.origin + "/.git/config", "a", encoding="utf-8", errors="surrogateescape"
        ) as file:
            file.write("[uploadpack]\n\tallowFilter = true\n\tallowAnySHA1InWant = true\n")
        git(self.origin, "fast-import", "--quiet", input="".join(text))
        self.parents, self.statuses = parents, statuses
        return (
            git(
                self.origin, "rev-parse", *(f"c{number}" for number in range(len(parents)))
            ).split(),
            plain,
        )

    def make_test(self) -> str:
        """The script of the test; what it ended with at a commit is noted in the file RECORD."""
        path = os.path.join(self.room, "test.sh")
        lines = [
            'cd "$(git rev-parse --show-toplevel)" || exit 99',
            "here=$(git rev-parse HEAD) s=0",
            LOOKS[self.look],
            *(BESIDE[name] for name in self.beside),
            f"sleep 0.0{self.choice.randrange(10)}",
            'echo "$here $s" >>"$RECORD"',
            "exit $s",
        ]
        with open(path, "w", encoding="utf-8", errors="surrogateescape") as file:
            file.write("\n".join(lines) + "\n")
        return path

    def ask(self, question: Question) -> Question:
        """The question with full names: a clone has no branches of these names. The good end lies
        mostly before the bad one."""
        choice, names = self.choice, {f"c{number}": name for number, name in enumerate(self.names)}
        skips = ["..".join(names[word] for word in skip.split("..")) for skip in question.skips]
        question = question._replace(
            skips=skips,
            test=["bash", self.test],
            plain=question.plain and "away" not in self.beside,
        )
        if choice.random() < 0.15:
            return question
        above: List[Set[int]] = []
        for number, parents in enumerate(self.parents):
            above.append({number}.union(*(above[parent] for parent in parents)))
        bads = [number for number, status in enumerate(self.statuses) if status == 1] or [
            len(self.names) - 1
        ]
        bad = max(choice.choices(bads, k=2), key=lambda number: len(above[number]))
        goods = [number for number in sorted(above[bad]) if self.statuses[number] == 0] or sorted(
            above[bad]
        )
        few = sorted(choice.choices(goods, k=3), key=lambda number: len(above[number]))[
            : choice.choice([1, 1, 2])
        ]
        return question._replace(bad=self.names[bad], goods=[self.names[good] for good in few])

    def stand(self) -> str:
        """The folder where the search is called."""
        here = os.path.join(self.room, "here", "repo")
        more = {"bare": ["--bare"], "partial": ["--filter=blob:none", "--no-checkout"]}.get(
            self.place, ["--no-checkout"]
        )
        git(".", "clone", "-q", *more, "file://" * (self.place == "partial") + self.origin, here)
        self.common = here if self.place == "bare" else here + "/.git"
        if self.place == "bare":
            return here
        git(here, "checkout", "-q", "--detach", self.choice.choice(self.names))
        if self.place == "dirty":
            git(here, "rm", "-q", "-f", "verdict")
            with open(here + "/number", "a", encoding="utf-8", errors="surrogateescape") as file:
                file.write("7\n")
        elif self.place == "sparse":
            git(here, "sparse-checkout", "set", "v")
        elif self.place == "core.worktree":
            git(here, "sparse-checkout", "set", "--cone", "sub", "v")
            git(here, "config", "core.worktree", here)
        elif self.place.startswith("linked"):
            git(here, "worktree", "add", "-q", "--detach", here + ".linked")
            if self.place != "linked":
                git(here, "sparse-checkout", "set", "--no-cone", "/sub")
            return here + ".linked"
        return here + "/sub" if self.place == "folder" else here

    # -- what is to come -------------------------------------------------------

    def clone(self, clone: str, name: str) -> str:
        """A clone that stands on a commit, and borrows the objects."""
        for folder in ("objects/info", "refs"):
            os.makedirs(f"{clone}/.git/{folder}")
        for file, text in (
            ("HEAD", name),
            ("objects/info/alternates", self.origin + "/.git/objects"),
            ("config", "[core]\n\tbare = false"),
        ):
            with open(
                f"{clone}/.git/{file}", "w", encoding="utf-8", errors="surrogateescape"
            ) as out:
                out.write(text + "\n")
        git(clone, "reset", "-q", "--hard")
        return clone

    def fresh(self, name: str) -> int:
        """The status of a commit's test in a clone of its own."""
        clone = self.clone(os.path.join(self.room, "clone"), name)
        done = subprocess.run(
            ["bash", self.test],
            cwd=clone,
            env={**QUIET, "RECORD": os.path.join(self.room, "fresh")},
            stdout=subprocess.DEVNULL,
            stderr=subprocess.DEVNULL,
            stdin=subprocess.DEVNULL,
            timeout=SECONDS,
        )
        with open(clone + "/.git/HEAD", encoding="utf-8", errors="surrogateescape") as file:
            stays = file.read().strip() == name
        shutil.rmtree(clone)
        return (
            done.returncode if stays else 128
        )  # what a test tells that moves HEAD is of no commit

    def state(self) -> List[str]:
        """What of the user's must be as before."""
        with open(self.common + "/config", encoding="utf-8", errors="surrogateescape") as file:
            config = file.read()
        listed = (
            sorted(os.listdir(self.common + "/worktrees"))
            if os.path.exists(self.common + "/worktrees")
            else []
        )
        return [
            config,
            str(listed),
            git(self.at, "for-each-ref"),
            git(self.at, "status", "--porcelain", "-b") if self.place != "bare" else "",
        ]

    # -- the search --------------------------------------------------------------

    def search(self) -> Tuple[Said, str, str]:
        """What git farmdawn finds, which of the options for ends it had, and what it told."""
        question, choice = self.question, self.choice
        mode = choice.choice(["--trust-ends", "--trust-ends", "", "--check-ends"])
        words = [word for skip in question.skips for word in ("--skip", skip)] + [mode] * bool(mode)
        words += ["--workers", str(choice.choice([1, 2, 3, 4, 8, 16]))] + choice.choice(
            [[], [], ["--clean"]]
        )
        env = {
            **QUIET,
            "RECORD": os.path.join(self.room, "ran"),
            "FARMDAWN_NEEDED": choice.choice(["0", "5", "never"]),
        }
        before = self.state()
        got = subprocess.run(
            [
                "git",
                "farmdawn",
                *words,
                *question.options,
                question.bad,
                *question.goods,
                "--",
                *question.test,
            ],
            cwd=self.at,
            env=env,
            stdout=subprocess.PIPE,
            stderr=subprocess.PIPE,
            text=True,
            errors="surrogateescape",
            timeout=SECONDS,
        )
        told = f"{words} {question}\n{got.stdout}{got.stderr}"
        self.case.assertEqual(self.state(), before, told)
        self.check_left(told)
        return (
            Said(
                got.returncode,
                repositories.read_answer(got.stdout),
                repositories.read_log(got.stdout, question.terms),
            ),
            mode,
            told,
        )

    def check_left(self, told: str) -> None:
        """Nothing is left of it."""
        self.case.assertEqual(
            [name for name in os.listdir(self.common + "/farmdawn") if name.startswith("run.")],
            [],
            told,
        )
        self.case.assertEqual(
            [name for name in os.listdir(os.path.join(self.room, "here")) if ".farmdawn." in name],
            [],
            told,
        )
        runs = subprocess.run(
            ["pgrep", "-a", "-f", LONG], stdout=subprocess.PIPE, text=True, errors="surrogateescape"
        ).stdout
        self.case.assertEqual(runs, "", told)

    def by_git(self, statuses: Dict[str, int], tool: Said) -> str:
        """How the answer of git bisect run, in a clone of its own, stands to ours."""
        clone, record = self.clone(
            os.path.join(self.room, "theirs"), self.question.bad
        ), os.path.join(self.room, "git")
        repositories.CALM["RECORD"] = record
        # git checks nothing out over what a test left: so this one takes it away
        # it also goes on for ever where a test moves HEAD away, each time
        tidy = (
            'bash "$0"; s=$?; git reset -q --hard; git clean -q -ffd; [ "$(wc -l <"$RECORD")" -lt'
            ' 99 ] || exit 255; exit "$s"'
        )
        theirs = repositories.by_git(
            clone, self.question._replace(test=["bash", "-c", tidy, self.test])
        )
        end_long()
        if theirs.answer is None and "hides" in self.beside:
            return "git checks no commit out over a file that a test hid from it"
        if tool.answer != theirs.answer and os.path.exists(record):
            with open(record, encoding="utf-8", errors="surrogateescape") as file:
                ran = [line.split() for line in file]
            if any(statuses.get(name) == 128 for name, _ in ran) and "away" in self.beside:
                return "a test moved HEAD, and git took its outcome for that of another commit"
            if any(statuses.get(name, int(status)) != int(status) for name, status in ran):
                return "in its one checkout git saw an outcome that no fresh clone has"
        return str(repositories.against_git(clone, self.question, tool, theirs))


@needs_engine
@needs_program
class Random(unittest.TestCase):
    """Random cases."""

    counts: Dict[str, Counter[str]] = {}

    @classmethod
    def tearDownClass(cls) -> None:
        """Tells how often each kind came, where that is asked for."""
        if os.environ.get("FARMDAWN_COUNTS"):
            for title, counts in cls.counts.items():
                os.write(2, f"{title}: {dict(sorted(counts.items()))}\n".encode())

    @begins_first
    def test_beside_fresh_clones(self) -> None:
        """Each of them."""
        repositories.FARMDAWN = PROGRAM
        for seed in range(SEED, SEED + CASES):
            with self.subTest(seed), tempfile.TemporaryDirectory() as room:
                self.look_at(Case(self, seed, os.path.realpath(room)))

    def look_at(self, case: Case) -> None:
        """One of them."""
        tool, mode, told = case.search()
        question = case.question
        about = f"{case.look} {case.beside} {case.place}\n{told}"
        between = git(case.origin, "rev-list", question.bad, *question.goods).split()
        statuses = {name: case.fresh(name) for name in between}
        end_long()
        whole = repositories.by_whole(case.origin, question, statuses)
        refused = self.refuses(question, statuses, mode)
        if refused is True or refused is None and tool.status == 1:
            self.assertEqual(tool.status, 1, about)
            self.assertIn(" was called ", told)
            self.count(case, "an end is not as it was called")
            return
        self.assertTrue(
            repositories.same_search(case.origin, question, tool, whole),
            f"{about}\n{tool}\n{whole}\n{statuses}",
        )
        beside = case.by_git(statuses, tool)
        self.assertNotEqual(beside, "DIFFERENT", about)
        self.count(case, beside)

    @staticmethod
    def refuses(question: Question, statuses: Dict[str, int], mode: str) -> Optional[bool]:
        """Whether the search is refused as an end is not as it was called; None where it may be, as
        that is seen where a worker is free."""
        bad, goods = statuses[question.bad], [statuses[name] for name in question.goods]
        if mode == "--trust-ends":
            return False
        if mode == "--check-ends":
            return not 0 < bad < 125 or any(goods)
        return None if bad == 0 or any(0 < good < 125 for good in goods) else False

    def count(self, case: Case, beside: str) -> None:
        """Counts it."""
        for title, kind in (
            ("git bisect run", beside),
            ("place", case.place),
            ("look", case.look),
            *(("beside", name) for name in case.beside),
        ):
            self.counts.setdefault(title, collections.Counter())[kind] += 1


if __name__ == "__main__":
    unittest.main()
