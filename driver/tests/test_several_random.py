"""Random searches for several tests at once. Each log and answer is that of its test alone, by an
engine that has all outcomes of that test; and `git bisect run` for each test comes to the same
commit, which is the one that broke it. Where commits are skipped, git may ask in another order:
there both must be right. Some are ended on their way, and the same line goes on; some lose their
engine. Tests leave things behind, and look whether another one did; some lie, as far as --retry or
--repeat takes that away. FARMDAWN_CASES says how many, FARMDAWN_SEED from where on; with
FARMDAWN_COUNTS it is told what they had. The first few are those of the seeds that have most of
this in the fewest tests."""
from __future__ import annotations

import collections
import os
import random
import re
import signal
import subprocess
import unittest
from typing import Counter, Dict, List, NamedTuple, Set

from helpers import ENGINE, ENV, LONG, PYTHON, SECONDS, Repository, begins_first, needs_engine
from helpers import wait_until

HERE = os.path.dirname(os.path.abspath(__file__))
CASES, SEED = int(os.environ.get("FARMDAWN_CASES") or 4), int(
    os.environ.get("FARMDAWN_SEED") or 642
)
STOP, MISSING, SKIP = 200, 5, 125
# what a commit, by its number, ends with: that of its build, and that of a test; by words of sh
# alone, which start no process
FIND = 'read n <number; i=0; while read -r s && i=$((i + 1)) && [ $i -lt "$n" ]; do :; done <'
BUILD = FIND + '%s/build; echo "$s" >status; exit "$s"'
# First it is looked whether the checkout has what a fresh one has, and nothing of another test: but
# not with --together, nor where --retry or --repeat runs the test again, which `ran` counts.
LOOK = """home=$0 test=$1 ran=0; read -r n <number
at() { i=0; while read -r s && i=$((i + 1)) && [ $i -lt "$n" ]; do :; done <"$home/$1"; }
is() { [ "$2" = "$3" ] || { echo "$test of c$n: $1 is $2, not $3" >>"$home/wrong"; exit 66; }; }
has() { case $LOOKS in *$1*) ;; *) false ;; esac; }
read -r s <status; is status "$s" 0
if [ -e "ran.$test" ]; then
    read -r m ran <"ran.$test"; is ran "$m" "$n"
elif has apart; then
    for file in ran.* left new link folder/new lib/new; do [ ! -e "$file" ] || is "$file" there gone; done
    read -r s <code; is code "$s" "$n"
    ! has copy || { read -r s <given; is given "$s" given; }
    ! has modules || { at lib; f=0; [ ! -e lib/f ] || read -r f <lib/f; is lib/f "$f" "$s"; }
    ! has git || is settings "$(git config left.by)$(git tag --list 'left-*')" ""
fi
echo "$n $((ran + 1))" >"ran.$test"
"""
# what tests leave: files, and where it is worth its processes what git and others leave
LEAVE = """if has apart; then
    echo left >left; echo new >new; echo changed >code
    ! has copy || echo changed >given
    ! has modules || [ ! -e lib/f ] || { echo 9 >lib/f; echo new >lib/new; }
    ! has git || { git tag -f "left-$test"; git config left.by "$test"; ln -sf number link
        mkdir -p folder; echo new >folder/new; chmod 555 folder; rm -f .gitignore; $LONG & }
fi
"""
TEST = """at "$test.lies"; lies=$s; at "$test"
[ "$ran" -ge "$lies" ] || { [ "$s" != 0 ]; s=$?; }
exit "$s"
"""
# the same in one, as git bisect run wants it
ALONE = (
    FIND
    + '"$0/build"; [ "$s" = 0 ] || exit 125\n'
    + FIND
    + '"$0/$1"; [ "$s" != 5 ] || exit 125\nexit "$s"\n'
)
NEEDLESS = "the build of ([0-9a-f]{12}) is no longer needed"
LIBS = 3  # commits of the submodule
# the requests at which an engine is lost
LOSABLE = ("done", "search", "pick", "post", "learn", "give", "wanted")


# an engine that keeps what it is told
TOLD = '#!/bin/sh\nif [ "$1" = serve ]; then tee "%s" | "%s" "$@"; else exec "%s" "$@"; fi\n'


class Found(NamedTuple):
    """What is found for one test: the commits that are named, and the status."""

    named: Set[str]
    status: int


class Options(NamedTuple):
    """What bears on the tests: how often a run that fails, or one that is good, is made again; what
    is brought; and whether tests leave more than files."""

    retry: int
    repeat: int
    copy: bool
    modules: bool
    git: bool

    @classmethod
    def of(cls, choice: random.Random) -> Options:
        """Some of them."""
        retry, repeat = choice.choice([(0, 1), (0, 1), (1, 1), (2, 1), (0, 2), (0, 3)])
        parts = [choice.random() < share for share in (0.3, 0.3, 0.2)]
        return cls(retry, repeat, *parts)

    def words(self) -> List[str]:
        """The words of the line."""
        words = ["--retry", str(self.retry)] if self.retry else []
        words += ["--repeat", str(self.repeat)] if self.repeat > 1 else []
        return words + ["--copy", "given"] * self.copy + ["--submodules"] * self.modules

    def lies(self, choice: random.Random, status: int) -> int:
        """In how many runs of a commit with this status the test may lie at first."""
        most = self.retry if status == 0 else self.repeat - 1 if status < SKIP else 0
        return choice.randint(0, most) if status != MISSING else 0

    def looks(self, words: List[str]) -> str:
        """What a test looks at, and leaves."""
        looks = [name for name in ("copy", "modules", "git") if getattr(self, name)]
        return " ".join(looks + ["apart"] * ("--together" not in words))


class Case:
    """A repository with two lines of commits that are merged now and then, and outcomes for each
    test."""

    def __init__(self, case: unittest.TestCase, seed: int) -> None:
        choice = self.choice = random.Random(seed)
        self.count = choice.randint(4, 34)
        self.options = Options.of(choice)
        self.repo = Repository(case, 1)
        self.names: Dict[int, str] = {}
        # by number: the commit itself, and all that it stands on
        self.above: List[Set[int]] = [set()]
        self.folder = os.path.join(self.repo.room, "outcomes")
        os.mkdir(self.folder)
        self.statuses: Dict[str, List[int]] = {}
        self.import_commits()
        self.told = os.path.join(self.repo.room, "told")
        self.holed: Set[str] = set()  # those that have more than good and bad
        self.tests = ["t%d" % number for number in range(1, choice.randint(1, 12) + 1)]
        # those that are good at the bad commit, which is seen where that is tested
        self.wrong: Set[str] = set()
        self.checks = False  # whether the ends are tested in any case
        self.write(
            "build",
            [
                choice.choice([1, 2]) if 1 < n < self.count and choice.random() < 0.1 else 0
                for n in range(1, self.count + 1)
            ],
        )
        broken = [choice.randint(2, self.count) for _ in range(4)]
        self.broken = {test: choice.choice(broken) for test in self.tests}
        for test in self.tests:
            self.write(test, self.outcomes(test, self.broken[test]))
            lies = [self.options.lies(choice, status) for status in self.statuses[test]]
            self.write(test + ".lies", lies)
            if set(self.statuses[test]) - {0, 1, 77} or any(self.statuses["build"]):
                self.holed.add(test)

    # -- its repository --------------------------------------------------------------

    def import_commits(self) -> None:
        """The commits, of which each is on one of two lines, and may merge the other one. Each has
        its number in two files; with --submodules most have a submodule, the ends like all others:
        the table `lib` says which commit of it, or 0."""
        self.above.append({1})
        libs = self.make_lib() if self.options.modules else []
        held = [self.choice.randint(0 if n > 2 else 1, LIBS) for n in range(1, self.count + 1)]
        parts, tips = ["reset refs/heads/main\n\n", self.commit(1, "", libs, held)], [1, 1]
        for n in range(2, self.count + 1):
            line = 0 if n == self.count or self.choice.random() < 0.7 else 1
            other = tips[1 - line]
            merged = other not in self.above[tips[line]] and (
                n == self.count or self.choice.random() < 0.3
            )
            parents = f"from :{tips[line]}\n" + (f"merge :{other}\n" if merged else "")
            parts.append(self.commit(n, parents, libs, held))
            self.above.append(
                self.above[tips[line]] | (self.above[other] if merged else set()) | {n}
            )
            tips[line] = n
        self.repo.run("git", "fast-import", "--quiet", "--force", input="".join(parts))
        self.repo.run("git", "reset", "-q", "--hard")
        if libs and self.choice.random() < 0.5:
            self.repo.run("git", "submodule", "-q", "update", "--init")
        with open(self.repo.path + "/given", "w", encoding="utf-8") as file:
            file.write("given\n")
        self.write("lib", held)
        listed = self.repo.run(
            "git", "rev-parse", *[f"c{n}" for n in range(1, self.count + 1)]
        ).stdout.split()
        self.names = dict(enumerate(listed, 1))

    def commit(self, n: int, parents: str, libs: List[str], held: List[int]) -> str:
        """One of them in the stream."""
        files = {"number": str(n), "code": str(n), ".gitignore": "status"}
        lines = []
        if libs:
            files[".gitmodules"] = '[submodule "lib"]\n\tpath = lib\n\turl = ../lib'
            lib = held[n - 1]
            lines.append(f"M 160000 {libs[lib - 1]} lib\n" if lib else "D lib\n")
        lines += [f"M 100644 inline {name}\ndata <<.\n{text}\n.\n" for name, text in files.items()]
        return (
            f"commit refs/heads/main\nmark :{n}\ncommitter g <g> {1700000000 + n} +0000\n"
            f"data <<.\nchange {n}\n.\n{parents}{''.join(lines)}"
            f"reset refs/tags/c{n}\nfrom :{n}\n\n"
        )

    def make_lib(self) -> List[str]:
        """The submodule, whose commits have their number in a file; their names."""
        return self.repo.sh(
            "git init -q ../lib; cd ../lib; for n in $(seq %d); do echo $n >f; git add f; "
            "git commit -q -m $n; done; git rev-list --reverse HEAD" % LIBS
        ).split()

    def outcomes(self, test: str, broken: int) -> List[int]:
        """Statuses by number: bad from a commit on; skips, tests that are not there, and ends of a
        search between the ends."""
        choice, ends = self.choice, (1, self.count)
        found = [
            choice.choice([1, 77]) if broken in self.above[n] else 0
            for n in range(1, self.count + 1)
        ]
        skips, stops = choice.choice([0, 0, 0.1, 0.5]), choice.choice([0, 0, 0, 0.05])
        since = choice.choice([0, 0, choice.randint(1, self.count)])
        for n in range(1, self.count + 1):
            if n not in ends and choice.random() < skips:
                found[n - 1] = SKIP
            if n not in ends and n < since:
                found[n - 1] = MISSING
            if n not in ends and choice.random() < stops:
                found[n - 1] = STOP
        if broken not in self.above[self.count] or choice.random() < 0.05:
            found[self.count - 1] = 0
            self.wrong.add(test)
        return found

    def write(self, name: str, statuses: List[int]) -> None:
        """A line for each commit."""
        self.statuses[name] = statuses
        with open(
            os.path.join(self.folder, name), "w", encoding="utf-8", errors="surrogateescape"
        ) as file:
            file.write("".join("%d\n" % status for status in statuses))

    # -- its engine ------------------------------------------------------------------

    def engine(self) -> Dict[str, str]:
        """The engine that keeps what it is told, and may be lost at some requests."""
        path, plain = (os.path.join(self.repo.room, name) for name in ("engine", "farmdawn"))
        os.symlink(
            os.path.realpath(ENGINE), plain
        )  # the program refuses words that are no UTF-8, as its own path may be
        self.script(path, TOLD % (self.told, plain, plain))
        if self.choice.random() < 0.7:
            return {"FARMDAWN": path}
        lost = [
            "%s %d" % (self.choice.choice(LOSABLE), self.choice.randint(1, 9))
            for _ in range(self.choice.randint(1, 3))
        ]
        record, losing = self.repo.room + "/record", self.repo.room + "/losing"
        os.mkdir(record)
        self.script(losing, f'#!/bin/sh\nexec "{PYTHON}" -S -E "{HERE}/lost_engine.py" "$@"\n')
        return {"FARMDAWN": losing, "REAL": path, "RECORD": record, "LOST": " ".join(lost)}

    @staticmethod
    def script(path: str, text: str) -> None:
        """A file that may be run."""
        with open(path, "w", encoding="utf-8", errors="surrogateescape") as file:
            file.write(text)
        os.chmod(path, 0o755)

    def were_wrong(self) -> str:
        """What tests found in their checkouts that should not be there."""
        path = os.path.join(self.folder, "wrong")
        if not os.path.exists(path):
            return ""
        with open(path, encoding="utf-8") as file:
            return file.read()

    # -- each test alone -----------------------------------------------------------

    def status_of(self, test: str, number: int) -> int:
        """What a test ends with at a commit, for the engine."""
        build, status = (self.statuses[name][number - 1] for name in ("build", test))
        return 125 if build or status == MISSING else status

    def alone(self) -> List[List[str]]:
        """The logs with their answers, by an engine that knows each outcome."""
        with open(self.told, "rb") as file:
            stream = file.read().split(b"\ndone\n")[0] + b"\ndone\n"
        names = self.names
        lines = [f"search {names[self.count]} {names[1]}" for _ in self.tests]
        for number, test in enumerate(self.tests, 1):
            lines += [
                f"learn {number} {name} {self.status_of(test, n)}"
                for n, name in names.items()
                if name.encode() in stream
            ]
        got = subprocess.run(
            ["farmdawn", "serve", "--original-names"],
            executable=ENGINE,
            input=stream + "".join(line + "\n" for line in lines).encode(),
            stdout=subprocess.PIPE,
            check=True,
        )
        found: List[List[str]] = [[] for _ in self.tests]
        for line in got.stdout.decode().split("\n"):
            kind, _, rest = line.partition(" ")
            if kind in ("log", "answer"):
                search, _, rest = rest.partition(" ")
                found[int(search) - 1].append(rest)
        return found

    def by_git(self, test: str) -> Found:
        """What git bisect run finds."""
        repo = self.repo
        repo.run("git", "bisect", "start", self.names[self.count], self.names[1])
        got = repo.run("git", "bisect", "run", "sh", "-c", ALONE, self.folder, test, check=False)
        repo.run("git", "bisect", "reset")
        return found_in(got.stdout)


def found_in(text: str) -> Found:
    """What a search names behind its log."""
    first = re.findall("^([0-9a-f]{40}) is the first bad commit", text, re.M)
    if first:
        return Found(set(first), 0)
    if "only 'skip'ped commits" in text:
        return Found(
            set(re.findall("^([0-9a-f]{40})$", text.split("only 'skip'ped commits")[1], re.M)), 2
        )
    return Found(set(), 6)


@needs_engine
class Random(unittest.TestCase):
    """Random cases."""

    counts: Counter[str] = collections.Counter()

    @classmethod
    def tearDownClass(cls) -> None:
        """Tells how often each kind came, where that is asked for."""
        if os.environ.get("FARMDAWN_COUNTS"):
            os.write(2, f"several: {dict(sorted(cls.counts.items()))}\n".encode())

    @begins_first
    def test_beside_git(self) -> None:
        """Each of them."""
        for seed in range(SEED, SEED + CASES):
            with self.subTest(seed):
                case = Case(self, seed)
                self.look_at(case)
                self.count(case)
                self.doCleanups()  # many repositories would fill the disk

    def count(self, case: Case) -> None:
        """Counts it, and what it had."""
        has = {"cases": True, "skips by builds": any(case.statuses["build"])}
        for word, status in (("skips", SKIP), ("aborts", STOP), ("missing tests", MISSING)):
            has[word] = any(status in case.statuses[test] for test in case.tests)
        lies = [count for test in case.tests for count in case.statuses[test + ".lies"]]
        has.update({word[2:]: True for word in case.options.words() if word[:2] == "--"})
        has.update({"lies": any(lies), "leave more": case.options.git})
        self.counts.update(word for word, holds in has.items() if holds)
        self.counts["tests"] += len(case.tests)
        if os.environ.get("FARMDAWN_COUNTS") and self.counts["cases"] % 10 == 0:
            os.write(2, f"{dict(sorted(self.counts.items()))}\n".encode())

    def look_at(self, case: Case) -> None:
        """One of them: all searches together, and then each by git."""
        choice, repo = case.choice, case.repo
        if choice.random() < 0.5:
            case.wrong.clear()
            ends = ["--trust-ends"]
        else:
            ends = choice.choice([[], ["--check-ends"]])
            case.checks = bool(ends)
        listed = os.path.join(repo.room, "list")
        with open(listed, "w", encoding="utf-8", errors="surrogateescape") as file:
            file.write("\n".join(case.tests))
        words = (
            ends
            + case.options.words()
            + choice.choice([[], ["--together"]])
            + ["--workers", str(choice.choice([1, 2, 5, 9]))]
        )
        words += [
            "--missing",
            f"{MISSING}=skip",
            "--build",
            BUILD % case.folder,
            "--tests",
            listed,
            f"c{case.count}",
            "c1",
            "--",
            "sh",
            "-c",
            LOOK + LEAVE + TEST,
            case.folder,
            "{}",
        ]
        env = {
            **ENV,
            "FARMDAWN_NEEDED": choice.choice(["0", "5", "never"]),
            "LOOKS": case.options.looks(words),
            "LONG": LONG,
            **case.engine(),
        }
        if choice.random() < 0.4:
            self.end_on_its_way(case, words, env)
        got = repo.search(*words, env=env)
        self.assertEqual(case.were_wrong(), "", got.stderr)
        for commit, count in collections.Counter(re.findall(NEEDLESS, got.stderr)).items():
            self.assertLessEqual(count, got.stderr.count("building " + commit), got.stderr)
        self.counts["lost engines"] += got.stderr.count("another one goes on")
        parts = dict(zip(case.tests, re.split("^# search of .*\n", got.stdout, flags=re.M)[1:]))
        self.assertEqual(list(parts), case.tests, got.stderr)
        self.compare(case, parts, got)
        with open(repo.path + "/given", encoding="utf-8") as file:
            self.assertEqual(file.read(), "given\n")
        # the guardian of a driver that was killed may still be at work
        wait_until(lambda: not repo.left(), "the end of all", 60)

    def end_on_its_way(self, case: Case, words: List[str], env: Dict[str, str]) -> None:
        """Ends the search when it has told some lines, where it has not come to its end before."""
        process = case.repo.begin(*words, env=env, stdout=subprocess.DEVNULL)
        assert process.stderr is not None
        for _ in range(case.choice.randint(1, 60)):
            if not process.stderr.readline():
                break
        else:
            process.send_signal(case.choice.choice([signal.SIGINT, signal.SIGTERM, signal.SIGKILL]))
            self.counts["ended on its way"] += 1
        process.communicate(timeout=SECONDS)

    def compare(
        self, case: Case, parts: Dict[str, str], got: subprocess.CompletedProcess[str]
    ) -> None:
        """The log and the answer of each test, and the status of all."""
        status, bad = 0, case.names[case.count]
        for (test, part), lines in zip(parts.items(), case.alone()):
            if test in case.wrong and (case.checks or part.startswith("# " + test)):
                self.assertEqual(
                    part, f"# {test} is left out: {bad} was called bad, and its test ended with 0\n"
                )
                status = max(status, 1)
                continue
            self.assertEqual(part.split("\n")[:-1], lines, test + got.stderr)
            here, git = found_in(part), case.by_git(test)
            status = max(status, here.status)
            if test not in case.wrong:
                first = case.names[case.broken[test]]
                for found in (here, git):
                    self.assertTrue(found.status == 6 or first in found.named, test + got.stderr)
                    self.assertTrue(found.status == 0 or test in case.holed, test + got.stderr)
        self.assertEqual(got.returncode, status, got.stderr)


if __name__ == "__main__":
    unittest.main()
