"""What the tests of the driver share: a repository of their own, searches with a limit of time, and
what must be left of them.

FARMDAWN names the engine; without it, it is the program that was built, or the model of it, which hands
what it does not answer to the program that FARMDAWN_PROGRAM names."""
from __future__ import annotations

import os
import re
import signal
import subprocess
import sys
import tempfile
import time
import unittest
from typing import Any, Callable, Dict, List, TypeVar

TOP = os.path.dirname(os.path.dirname(os.path.dirname(os.path.abspath(__file__))))
DRIVER = os.environ.get("FARMDAWN_DRIVER", os.path.join(TOP, "driver", "bin"))
MODEL = os.path.join(TOP, "driver", "model", "farmdawn")
BUILT = os.path.join(TOP, "crates", "farmdawn", "out", "farmdawn")
ENGINE = os.environ.get("FARMDAWN") or (BUILT if os.access(BUILT, os.X_OK) else MODEL)
# no model: what a program must be asked that has all commands
PROGRAM = os.environ.get("FARMDAWN_PROGRAM") or (
    BUILT if os.path.realpath(ENGINE).endswith("/model/farmdawn") else ENGINE
)
# a folder on the path that may not be searched has a command that is not there be one that may not
# be run
FOLDERS = [DRIVER] + [
    folder for folder in os.environ["PATH"].split(os.pathsep) if os.access(folder, os.X_OK)
]
ENV = {
    **os.environ,
    "GIT_CONFIG_GLOBAL": os.devnull,
    "GIT_CONFIG_NOSYSTEM": "1",
    "LC_ALL": "C",
    "FARMDAWN": ENGINE,
    "FARMDAWN_PROGRAM": PROGRAM,
    "GIT_AUTHOR_NAME": "Ann Lee",
    "GIT_AUTHOR_EMAIL": "ann@example.org",
    "GIT_COMMITTER_NAME": "Bo",
    "GIT_COMMITTER_EMAIL": "bo@example.org",
    "GIT_ALLOW_PROTOCOL": "file",
    "PATH": os.pathsep.join(FOLDERS),
}
SYSTEM = "/usr/bin/python3"  # it may start in a tenth of the time of others
PYTHON = SYSTEM if os.access(SYSTEM, os.X_OK) else sys.executable
LONG = f"sleep 777.{os.getpid()}"  # of this run alone
SECONDS = 600  # however busy the machine is
# limits of seconds for what must be over in time here: the next one where the last was too short
LIMITS = (4, 16, 64, 256)
# where repositories are made: tests write their names into commands without quotes
ROOM = tempfile.gettempdir() if re.fullmatch("[A-Za-z0-9/._-]+", tempfile.gettempdir()) else "/tmp"
if (
    signal.getsignal(signal.SIGINT) is signal.SIG_IGN
):  # in the background of sh; what is started here is to end by it
    signal.signal(signal.SIGINT, signal.default_int_handler)
TestMethod = TypeVar("TestMethod", bound=Callable[..., None])
needs_engine = unittest.skipUnless(os.access(ENGINE, os.X_OK), "an engine is not here")
needs_program = unittest.skipUnless(os.access(PROGRAM, os.X_OK), "a built farmdawn is not here")


class Repository:
    """A line of commits c1, c2, ..; each has its number in the file `number`."""

    def __init__(self, case: unittest.TestCase, commits: int = 12) -> None:
        room = tempfile.TemporaryDirectory(dir=ROOM)
        case.addCleanup(room.cleanup)
        self.case, self.room, self.commits = case, os.path.realpath(room.name), commits
        self.path = os.path.join(self.room, "repository")
        parts = []
        for n in range(1, commits + 1):
            parts.append(
                f"commit refs/heads/main\ncommitter g <g> {1700000000 + n} +0000\ndata <<.\nchange"
                f" {n}\n.\nM 100644 inline number\ndata <<.\n{n}\n.\nreset refs/tags/c{n}\nfrom"
                " refs/heads/main\n"
            )
        self.run("git", "init", "-q", "-b", "main", self.path, cwd=self.room)
        self.run("git", "fast-import", "--quiet", input="".join(parts))
        self.run("git", "reset", "-q", "--hard")

    def apart(self, more: Dict[str, Any]) -> Dict[str, Any]:
        """How a command is started: in the repository, with the environment of tests, and with what
        is named here."""
        return {
            "cwd": self.path,
            "env": ENV,
            "stdout": subprocess.PIPE,
            "stderr": subprocess.PIPE,
            "text": True,
            "errors": "surrogateescape",
            **more,
        }

    def run(self, *words: str, **more: Any) -> subprocess.CompletedProcess[str]:
        """A command in the repository."""
        how: Dict[str, Any] = {"timeout": SECONDS, "check": True, **more}
        return subprocess.run(words, **self.apart(how))

    def sh(self, script: str, **more: Any) -> str:
        """What a script prints that is run in the repository."""
        return self.run("sh", "-euc", script, **more).stdout

    def name(self, commit: str) -> str:
        """The whole name of a commit."""
        return self.run("git", "rev-parse", commit).stdout.strip()

    def search(self, *words: str, **more: Any) -> subprocess.CompletedProcess[str]:
        """A search between the first and the last commit."""
        return self.run("git", "farmdawn", *words, **{"check": False, **more})

    def begin(self, *words: str, **more: Any) -> subprocess.Popen[str]:
        """The same, under way, by the driver alone."""
        begun: subprocess.Popen[str] = subprocess.Popen(
            [os.path.join(DRIVER, "git-farmdawn"), *words], **self.apart(more)
        )
        return begun

    def ends(self) -> List[str]:
        """The words for the ends."""
        return [f"c{self.commits}", "c1"]

    def left(self) -> List[str]:
        """What is left of runs: folders, checkouts, worktrees, processes."""
        folder = os.path.join(self.path, ".git", "farmdawn")
        left = [
            name
            for name in (os.listdir(folder) if os.path.exists(folder) else [])
            if name.startswith("run.")
        ]
        left += [name for name in os.listdir(self.room) if ".farmdawn." in name]
        left += [
            line
            for line in self.run("git", "worktree", "list").stdout.splitlines()
            if ".farmdawn." in line
        ]
        return (
            left
            + subprocess.run(
                ["pgrep", "-fa", LONG], stdout=subprocess.PIPE, text=True, errors="surrogateescape"
            ).stdout.splitlines()
        )

    def check_left(self) -> None:
        """Nothing of a run is left."""
        self.case.assertEqual(self.left(), [])


def begins_first(test: TestMethod) -> TestMethod:
    """A test that takes so long that tests/check.py begins it before others, so that it is not left
    alone at the end."""
    return test


def wait_until(holds: Callable[[], Any], what: str, seconds: float = SECONDS) -> None:
    """Waits until something holds."""
    until = time.monotonic() + seconds
    while not holds():
        if time.monotonic() > until:
            raise AssertionError("it does not come: " + what)
        time.sleep(0.05)
