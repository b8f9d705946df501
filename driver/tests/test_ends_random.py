"""Searches that are ended at random moments, however: signals, kills of the driver, of `git`, the
engine, the guardian or a test, a disk that is full. Nothing is left running and no folder stays,
each outcome that was told is kept, and the same line comes to the log and the answer of an
undisturbed search, without testing again what is kept. Searches are for one test, for one with a
build, or for several. FARMDAWN_CASES says how many, FARMDAWN_SEED from where on; with
FARMDAWN_COUNTS they are counted at the end. The first few are those of the seeds that have most of
the ways to end a search."""
from __future__ import annotations

import collections
import os
import random
import re
import shutil
import signal
import subprocess
import tempfile
import time
import unittest
from typing import Callable, Counter, Dict, List, Optional, Set, Tuple

import test_ends
from helpers import DRIVER, ENV, LONG, Repository, begins_first, needs_engine, wait_until
from test_ends import children

CASES, SEED = int(os.environ.get("FARMDAWN_CASES") or 5), int(
    os.environ.get("FARMDAWN_SEED") or 366
)
# a kept outcome; one that ran beside others has its seconds
WHOLE = r"^[0-9a-f]{40} [0-9]+(?:\+[0-9]+)? [0-9a-f]{16} end\n$"
COMMITS = 40
# a test that leaves a process of its own; its first word makes each case another command, with
# outcomes of its own. It notes and prints its name
TEST = (
    'echo "$0 $FARMDAWN_COMMIT" >>"$RECORD"; echo "$0"; %s %s >/dev/null 2>&1 & sleep 0.0%d;'
    ' n=$(cat number); [ $((n %% 7)) -ne 3 ] || exit 125; test $n -lt "$0"'
)
# so does a build, and some commits are not built
BUILD = (
    "%s %s >/dev/null 2>&1 & sleep 0.0%d; n=$(cat number); [ $((n %% 11)) -ne 5 ] || exit 9; cp"
    " number built"
)
FORMS = ["one", "one", "built", "several", "several"]
NAMES = {"one": ["25"], "built": ["25"], "several": ["9", "25", "26"]}
KINDS = [
    "INT",
    "TERM",
    "HUP",
    "TERM twice",
    "driver",
    "driver",
    "git",
    "engine",
    "guardian",
    "guardian, driver",
    "engine, TERM",
    "test",
    "build",
    "disk",
]


def send(pid: int, number: int) -> None:
    """Sends a signal to a process of ours, where it is still there."""
    try:
        os.kill(pid, number)
    except OSError:
        pass


def guardian_of(pid: int) -> int:
    """The guardian of a driver, where both are there."""
    try:
        return test_ends.Ends.guardian_of(pid)
    except OSError:
        return 0


def is_small_disk(folder: str) -> bool:
    """A disk of some megabytes in a folder, where one can be made."""
    return (
        subprocess.run(
            ["mount", "-t", "tmpfs", "-o", "size=8m", "none", folder], stderr=subprocess.DEVNULL
        ).returncode
        == 0
    )


def words_of(form: str, script: str, build: str, listed: str) -> List[str]:
    """The words of a search behind its options."""
    words = [] if form == "one" else ["--build", build]
    words += ["--tests", listed] if form == "several" else []
    return [
        *words,
        f"c{COMMITS}",
        "c1",
        "--",
        "sh",
        "-c",
        script,
        "{}" if form == "several" else NAMES[form][0],
    ]


class Case:
    """A search, how it is ended, and when. Outcomes are pairs of the name of a test and a
    commit."""

    def __init__(self, case: unittest.TestCase, repo: Repository, seed: int) -> None:
        choice = self.choice = random.Random(f"ends {seed}")
        self.case, self.repo, self.kind = case, repo, choice.choice(KINDS)
        self.record = os.path.join(repo.room, f"tested.{seed}")
        self.env = {**ENV, "RECORD": self.record}
        self.state = tempfile.mkdtemp(dir=repo.room)
        self.mounted = self.kind == "disk" and is_small_disk(self.state)
        if self.mounted:
            case.addCleanup(self.unmount)
        elif self.kind == "disk":
            self.kind = "TERM"
        self.form, apart, pause = (
            choice.choice(FORMS),
            choice.choice(["", "", "setsid"]),
            choice.randrange(1, 9),
        )
        words: List[str] = [
            word for word in [choice.choice(["", "--trust-ends", "--check-ends"])] if word
        ]
        words += ["--workers", str(choice.choice([1, 2, 4, 7])), "--state", self.state]
        words += choice.choice([[], ["--together"]]) if self.form == "several" else []
        self.words = words + words_of(
            self.form,
            f": {seed}; " + TEST % (apart, LONG, pause),
            BUILD % (apart, LONG, pause),
            repo.room + "/list",
        )
        self.tool = (
            ["git", "farmdawn"]
            if self.kind == "git" or choice.random() < 0.3
            else [os.path.join(DRIVER, "git-farmdawn")]
        )
        self.moment = choice.random() * choice.choice([0.3, 1, 1])
        self.pid = 0

    def unmount(self) -> None:
        """Gives the small disk back."""
        if self.mounted:
            self.mounted = False
            subprocess.run(["umount", "-l", self.state])

    def begin(self) -> subprocess.Popen[str]:
        """The search under way."""
        self.files = [
            open(
                os.path.join(self.repo.room, name), "w+", encoding="utf-8", errors="surrogateescape"
            )
            for name in ("out", "told")
        ]
        return subprocess.Popen(
            [*self.tool, *self.words],
            cwd=self.repo.path,
            env=self.env,
            stdin=subprocess.DEVNULL,
            stdout=self.files[0],
            stderr=self.files[1],
            text=True,
        )

    def driver(self, process: subprocess.Popen[str]) -> int:
        """The driver: git's child, where git has started one."""
        if self.tool[0] != "git":
            return process.pid
        found = children(process.pid, "farmdawn")
        return found[0] if found else 0

    def strike(self, process: subprocess.Popen[str]) -> None:
        """Ends it, or what is meant of it."""
        kind, pid = self.kind, self.driver(process)
        engines = children(pid, "serve") if pid and "engine" in kind else []
        if "engine" in kind:
            for engine in engines:
                send(engine, signal.SIGKILL)
        if "guardian" in kind and pid:
            guardian = guardian_of(pid)
            if guardian:
                send(guardian, signal.SIGKILL)
                if "driver" in kind:
                    self.wait_for(process, lambda: guardian_of(pid) not in (0, guardian))
        if kind == "test" and pid:
            for test in children(pid, "exit 125")[:1]:
                send(test, signal.SIGKILL)
        if kind == "build" and pid:
            for build in children(pid, "exit 9")[:1]:
                send(build, signal.SIGKILL)
        if kind.endswith("driver") and pid:
            send(pid, signal.SIGKILL)
        if kind == "git":
            process.kill()
        for name in ("INT", "TERM", "HUP"):
            if name in kind:
                process.send_signal(getattr(signal, "SIG" + name))
        if "twice" in kind:
            time.sleep(self.choice.random() * 0.1)
            process.send_signal(signal.SIGTERM)

    @staticmethod
    def wait_for(process: subprocess.Popen[str], holds: Callable[[], bool]) -> None:
        """Waits as long as the process runs."""
        until = time.monotonic() + 20
        while process.poll() is None and not holds() and time.monotonic() < until:
            time.sleep(0.02)

    def fill(self) -> None:
        """The disk is full."""
        with open(os.path.join(self.state, "fill"), "wb", buffering=0) as file:
            try:
                while True:
                    file.write(b"x" * 4096)
            except OSError:
                pass

    def texts(self) -> List[str]:
        """What it has written."""
        found = []
        for file in self.files:
            file.seek(0)
            found.append(file.read())
            file.close()
        return found

    def kept(self) -> Set[Tuple[str, str]]:
        """The outcomes that are kept, in files that are whole. Whose they are is what the outputs
        beside them begin with."""
        found = set()
        for folder, _, names in os.walk(self.state):
            commits = [name[:-8] for name in names if name.endswith(".outcome")]
            for commit in commits:
                with open(os.path.join(folder, commit + ".outcome"), encoding="ascii") as file:
                    self.case.assertRegex(file.read(), WHOLE)
            test = self.test_of(folder, names)
            found |= {(test, commit) for commit in commits if test}
        return found

    def test_of(self, folder: str, names: List[str]) -> str:
        """The test whose outputs are in a folder, or nothing."""
        for name in names:
            if name.endswith(".log"):
                with open(os.path.join(folder, name), encoding="utf-8") as file:
                    line = file.readline()[:-1]
                if line in NAMES[self.form]:
                    return line
        return ""

    def tested(self) -> List[Tuple[str, str]]:
        """What was tested so far."""
        if not os.path.exists(self.record):
            return []
        with open(self.record, encoding="ascii") as file:
            return [(line.split()[0], line.split()[1]) for line in file]


@needs_engine
class Random(unittest.TestCase):
    """Random cases."""

    counts: Counter[str] = collections.Counter()

    @classmethod
    def tearDownClass(cls) -> None:
        """Tells how often each kind came, where that is asked for."""
        if os.environ.get("FARMDAWN_COUNTS"):
            os.write(2, f"ended: {dict(sorted(cls.counts.items()))}\n".encode())

    @begins_first
    def test_ends(self) -> None:
        """Each of them."""
        repo = Repository(self, COMMITS)
        with open(repo.room + "/list", "w", encoding="utf-8") as file:
            file.write("".join(name + "\n" for name in NAMES["several"]))
        self.lengths: Dict[str, float] = {}
        dues: Dict[str, str] = {}
        for seed in range(SEED, SEED + CASES):
            with self.subTest(seed):
                case = Case(self, repo, seed)
                if case.form not in dues:
                    dues[case.form] = self.undisturbed(repo, case.form)
                self.end_it(case, dues[case.form])
                case.unmount()
                shutil.rmtree(case.state)

    def undisturbed(self, repo: Repository, form: str) -> str:
        """What a search of this form prints, and how long it takes."""
        began = time.monotonic()
        words = words_of(form, TEST % ("", LONG, 4), BUILD % ("", LONG, 4), repo.room + "/list")
        due = repo.run(
            "git",
            "farmdawn",
            "--workers",
            "1",
            "--trust-ends",
            *words,
            env={**ENV, "RECORD": repo.room + "/tested"},
            check=False,
        )
        self.assertIn(due.returncode, (0, 2), due.stderr)
        self.lengths[form] = time.monotonic() - began
        return due.stdout

    def end_it(self, case: Case, due: str) -> None:
        """One of them, and the same line again."""
        process = case.begin()
        length = self.lengths[case.form]
        time.sleep(length * case.moment)
        in_time = process.poll() is None
        if case.mounted:
            case.fill()
        else:
            case.strike(process)
        process.wait(100)
        out, told = case.texts()
        about = (
            f"{case.kind} at {case.moment * length:.2f} s:"
            f" {process.returncode} {case.words}\n{out}{told}"
        )
        self.look_at_left(case, about)
        kept = case.kept()
        self.look_at_told(case, out, told, about)
        if case.mounted:
            os.unlink(os.path.join(case.state, "fill"))
        before = len(case.tested())
        again = case.repo.run(*case.tool, *case.words, check=False, env=case.env)
        self.assertEqual(
            without_commands(again.stdout),
            without_commands(due),
            f"{about}\nagain {again.returncode}: {again.stderr}",
        )
        # but for answers and their parents, which are tested once more alone
        told = "are tested alone: ([0-9]+) tests?"
        alone = sum(map(int, re.findall(told, again.stderr)))
        self.assertLessEqual(
            len(kept.intersection(case.tested()[before:])), alone, about + again.stderr
        )
        self.look_at_left(case, about)
        self.counts[case.form] += 1
        self.counts[case.kind if in_time else "had ended before"] += 1

    def look_at_left(self, case: Case, about: str) -> None:
        """What the guardian of a search that was killed, or a driver without its git, has yet to do
        is waited for."""

        def runs() -> Optional[str]:
            """What is left."""
            folder = os.path.join(case.repo.path, ".git", "farmdawn")
            left = (
                [name for name in os.listdir(folder) if name.startswith("run.")]
                if os.path.isdir(folder)
                else []
            )
            left += [name for name in os.listdir(case.repo.room) if ".farmdawn." in name]
            left += (
                os.listdir(case.repo.path + "/.git/worktrees")
                if os.path.isdir(case.repo.path + "/.git/worktrees")
                else []
            )
            long = subprocess.run(
                ["pgrep", "-a", "-f", LONG],
                stdout=subprocess.PIPE,
                text=True,
                errors="surrogateescape",
            )
            return " ".join(left) + long.stdout

        soon = 30 if case.kind in ("git", "driver", "guardian, driver") else 1
        if case.kind.endswith("driver"):
            self.remove_unborn(case.repo.path + "/.git/farmdawn")
        try:
            wait_until(lambda: not runs(), "the end", soon)
        except AssertionError:
            self.fail(f"{runs()} is left: {about}")

    def remove_unborn(self, folder: str) -> None:
        """A driver that is killed while it makes the folder of its run leaves one that is empty and
        has no lock; searches remove it when it is old."""
        for path in (
            [os.path.join(folder, name) for name in os.listdir(folder) if name.startswith("run.")]
            if os.path.isdir(folder)
            else []
        ):
            files = [name for _, _, names in os.walk(path) for name in names]
            if files in ([], ["lock.new"]):
                shutil.rmtree(path, ignore_errors=True)
                self.counts["killed while it made its folder"] += 1

    def look_at_told(self, case: Case, out: str, told: str, about: str) -> None:
        """Each outcome that was told, by a line or in the log, is kept; the ends were called so. A
        skip may be that of a build."""
        kept, only = case.kept(), NAMES[case.form][0]
        short = {(test, name[:12]) for test, name in kept}
        for name, test in re.findall(
            r"^(?:good|bad) +([0-9a-f]{12}) .*?(?:  \[(.*)\])?$", told, re.M
        ):
            self.assertIn((test or only, name), short, about)
        parts = (
            re.split("^# search of ([0-9]+): .*\n", out, flags=re.M)
            if case.form == "several"
            else ["", only, out]
        )
        for test, part in zip(parts[1::2], parts[2::2]):
            for name in re.findall(r"^git bisect (?:good|bad) ([0-9a-f]{40})$", part, re.M):
                self.assertIn((test, name), kept, about)


def without_commands(out: str) -> str:
    """The logs of several searches without the commands of these, which are others in each case."""
    return re.sub("^(# search of [0-9]+): .*", r"\1", out, flags=re.M)


if __name__ == "__main__":
    unittest.main()
