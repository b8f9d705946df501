"""What differs between two commits, as one git says it for all checkouts of a search."""
from __future__ import annotations

import os
import select
import subprocess
from typing import Generator, Optional

from .original import Original

DIFFER = ("diff-tree", "-r", "-z", "--no-renames")
SOON = 5  # milliseconds in which it mostly has an answer
LONGEST_PAUSE = 0.05
Says = Generator[float, object, Optional[bytes]]


class Differences:
    """A git that begins where it is asked first, and ends with its input. One asks at a time, and
    nobody any more where an answer was not waited for, or did not come: who gets none asks a git of
    his own. So do all where commits are replaced, or where what they have may be far away."""

    def __init__(self, original: Original) -> None:
        repo = original.repo
        self.words = (repo.git, "--git-dir=" + repo.own_gitdir, *DIFFER, "--stdin")
        self.env = dict(repo.env, GIT_NO_REPLACE_OBJECTS="1")
        self.git: Optional[subprocess.Popen[bytes]] = None
        self.is_free = not original.has_replaced and not original.is_partial
        self.last = os.urandom(8).hex().encode() + b"\n"  # what is no commit, it repeats

    def between(self, before: str, commit: str) -> Says:
        """For a task: what it says of two commits."""
        if not self.is_free:
            return None
        self.is_free = False
        try:
            said = yield from self.ask(b"%s %s\n" % (commit.encode(), before.encode()))
        except OSError:
            return None
        self.is_free = True
        return said

    def ask(self, line: bytes) -> Generator[float, object, bytes]:
        """Writes a line, and reads what it says of it. Raises OSError where it has ended."""
        if self.git is None:
            self.git = self.begin()
        assert self.git.stdin is not None and self.git.stdout is not None
        os.write(self.git.stdin.fileno(), line + self.last)
        out, said, pause = self.git.stdout.fileno(), bytearray(), 0.001
        readable = select.poll()
        readable.register(out, select.POLLIN)
        while not said.endswith(self.last):
            if readable.poll(SOON):
                part = os.read(out, 1 << 16)
                if not part:
                    raise BrokenPipeError
                said += part
            else:
                yield pause
                pause = min(LONGEST_PAUSE, pause * 2)
        return bytes(said[: -len(self.last)])

    def begin(self) -> subprocess.Popen[bytes]:
        """Starts it, in a session of its own, as it ends with its input alone."""
        return subprocess.Popen(
            self.words,
            stdin=subprocess.PIPE,
            stdout=subprocess.PIPE,
            stderr=subprocess.DEVNULL,
            bufsize=0,
            env=self.env,
            start_new_session=True,
        )

    def close(self) -> None:
        """Ends it."""
        self.is_free = False
        if self.git is not None:
            with self.git as git:
                git.kill()
