"""--ended COMMAND: what is run where a test or a build did not end by itself. A container, or what
a service started for a test, is no process of that test: it lives on where the test is ended."""
from __future__ import annotations

import os
import signal
import subprocess
from typing import TYPE_CHECKING, Dict, Generator, List, Mapping, Optional

from .files import content
from .process import Child, Command, signal_group

if TYPE_CHECKING:
    from .process import Keeper, Watcher

LONGEST = 60.0  # seconds for one command
OWN = "FARMDAWN_"  # what the environment of a command has beside that of the search
Steps = Generator["Child | float", object, None]


def words_of(command: str) -> List[str]:
    """The command as sh runs it."""
    return ["/bin/sh", "-c", command]


def own_of(env: Mapping[str, str]) -> Dict[str, str]:
    """What an environment has of the test."""
    return {name: value for name, value in env.items() if name.startswith(OWN)}


def folder_of(env: Mapping[str, str]) -> str:
    """The checkout, where it is still there."""
    return env["FARMDAWN_WORKTREE"] if os.path.isdir(env.get("FARMDAWN_WORKTREE", "")) else "/"


# -- the driver's side -----------------------------------------------------------


class Ended:
    """The command of a search. What it would be run for is noted in a folder of the run while a
    test runs, for the guardian: it runs the command where the driver was killed. Without a command
    nothing is done."""

    def __init__(self, command: Optional[str], state: str) -> None:
        self.command, self.folder = command, os.path.join(state, "ended")

    def note(self, number: int, env: Mapping[str, str]) -> None:
        """A test begins in a place of this number, with this environment."""
        if self.command is None:
            return
        os.makedirs(self.folder, mode=0o700, exist_ok=True)
        path = os.path.join(self.folder, str(number))
        with open(path + ".new", "wb") as file:
            file.write(
                b"\0".join(
                    os.fsencode(word)
                    for word in (self.command, *("%s=%s" % pair for pair in own_of(env).items()))
                )
            )
        os.replace(path + ".new", path)

    def forget(self, number: int) -> None:
        """It has ended, and what was to be run was run."""
        if self.command is not None:
            os.unlink(os.path.join(self.folder, str(number)))

    def run(self, loop: Watcher, keeper: Keeper, log: int, env: Mapping[str, str]) -> Steps:
        """For a task: runs the command in a session of its own, with what it prints behind the
        output of the test. Raises OSError."""
        assert self.command is not None
        child = Child(loop, keeper, Command(words_of(self.command), env, folder_of(env), log))
        timer = loop.later(LONGEST, child.signal, signal.SIGKILL)
        try:
            yield child
        finally:
            timer.off = True
        if child.status:
            raise OSError("it ended with %d" % child.status)


# -- the guardian's side -----------------------------------------------------------


def run_noted(state: str, env: Mapping[str, str]) -> None:
    """Runs what was noted for the tests that were under way, all at once, as the driver was
    killed."""
    folder, running = os.path.join(state, "ended"), []
    for name in os.listdir(folder) if os.path.isdir(folder) else ():
        command, *pairs = [
            os.fsdecode(word) for word in content(os.path.join(folder, name)).split(b"\0")
        ]
        if command and name.isdigit():
            own = {**env, **dict(pair.split("=", 1) for pair in pairs)}
            running.append(
                subprocess.Popen(
                    words_of(command),
                    env=own,
                    cwd=folder_of(own),
                    stdin=subprocess.DEVNULL,
                    start_new_session=True,
                )
            )
    for child in running:
        try:
            child.wait(LONGEST)
        except subprocess.TimeoutExpired:
            signal_group(child.pid, signal.SIGKILL)
            child.wait()
