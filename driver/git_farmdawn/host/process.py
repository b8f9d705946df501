"""Children in sessions of their own.

No thread is started here and no code runs between fork and exec, so `subprocess` can use vfork. A
group is signalled only as long as its leader was not reaped: so its number cannot be another's."""
from __future__ import annotations

import fcntl
import os
import signal
import subprocess
import time
from typing import TYPE_CHECKING, Generator, List, Mapping, NamedTuple, Optional, Sequence, Set

if TYPE_CHECKING:
    from typing import Any, Callable, Protocol

    class Keeper(Protocol):
        """Who is told which groups are under way, and ends them where this process is killed."""

        def begun(self, group: int) -> None:
            """A group is under way."""

        def ended(self, group: int) -> None:
            """A group has ended, and its number is about to be free."""

    class Waiter(Protocol):
        """Who goes on with the status of a child."""

        def step(self, value: Any = None) -> None:
            """It has ended."""

    class Due(Protocol):
        """A call that is due; with `off` it is not made."""

        off: bool

    class Watcher(Protocol):
        """Who looks for the ends of children: the loop."""

        def watch(self, child: Child) -> None:
            """Looks for the end of one."""

        def later(self, seconds: float, call: Callable[..., object], *words: Any) -> Due:
            """Calls something behind so many seconds."""


GRACE = 10.0  # seconds between TERM and KILL: a client gives back what it has taken elsewhere
UNSEEN = 2.0  # seconds for those of whom nothing is seen, and for the end behind KILL


def signal_group(group: int, number: int) -> None:
    """Sends a signal to each process of a group, where there is one."""
    try:
        os.killpg(group, number)
    except OSError:
        pass


def list_living() -> Set[int]:
    """The groups that have a process which is no zombie."""
    return {group_of(name) for name in os.listdir("/proc") if name.isdigit()}


def group_of(pid: str) -> int:
    """The group of a process, and 0 of a zombie."""
    try:
        with open(f"/proc/{pid}/stat", "rb") as file:
            words = file.read().rsplit(b")", 1)[1].split()
    except (OSError, IndexError):
        return 0
    return 0 if words[0] in (b"Z", b"X") else int(words[2])


def is_held(lock: str) -> bool:
    """Whether a process holds a lock."""
    try:
        fd = os.open(lock, os.O_RDONLY | os.O_CLOEXEC)
    except OSError:
        return False
    try:
        fcntl.flock(fd, fcntl.LOCK_EX | fcntl.LOCK_NB)
        return False
    except OSError:
        return True
    finally:
        os.close(fd)


def list_holders(lock: str, exact: bool = False) -> List[int]:
    """The processes that have a lock open, but for this one: whatever a test started and however,
    unless it closed it. All locks of a run have names that begin as the given one."""
    found, own = [], os.getpid()
    for name in os.listdir("/proc"):
        if name.isdigit() and int(name) != own and has_open(name, lock, exact):
            found.append(int(name))
    return found


def has_open(pid: str, lock: str, exact: bool) -> bool:
    """Whether a process has a file of this name open for writing, as tests have it. Who looks
    whether a run is dead opens its lock for reading."""
    try:
        for fd in os.listdir(f"/proc/{pid}/fd"):
            to = os.readlink(f"/proc/{pid}/fd/{fd}")
            if (to == lock or not exact and to.startswith(lock)) and may_write(pid, fd):
                return True
    except OSError:
        pass
    return False


def may_write(pid: str, fd: str) -> bool:
    """Whether a process has opened a file for writing."""
    with open(f"/proc/{pid}/fdinfo/{fd}", "rb") as file:
        flags = next((line[6:] for line in file if line[:6] == b"flags:"), b"0")
    return int(flags, 8) & os.O_ACCMODE != os.O_RDONLY


def signal_process(pid: int, number: int) -> None:
    """Sends a signal to a process, where it is still there."""
    try:
        os.kill(pid, number)
    except OSError:
        pass


def end_holders(lock: str, exact: bool = False) -> Generator[float, None, bool]:
    """For a task, or step by step: ends who holds a lock. Each is asked once, and behind the grace
    all are killed. Whether that was to be done. Who cannot be seen, as one of another user or one
    that only looks, is not waited for long."""
    asked: Set[int] = set()
    begun, pause = time.monotonic(), 0.005
    while is_held(lock):
        spent = time.monotonic() - begun
        holders = list_holders(lock, exact)
        if not holders and spent >= UNSEEN or spent >= GRACE + UNSEEN:
            return spent >= GRACE
        for pid in holders:
            if spent >= GRACE:
                signal_process(pid, signal.SIGKILL)
            elif pid not in asked:
                signal_process(pid, signal.SIGTERM)
            asked.add(pid)
        yield pause
        pause = min(0.2, pause * 2)
    return time.monotonic() - begun >= GRACE


class Command(NamedTuple):
    """What is run: its words and environment, its folder, the file for all that it prints, and the
    files that it keeps open. `lock` is the name of one of these, by which it is known whether
    something of it runs on. Its standard output may have a file of its own, and its standard input
    one that is given."""

    words: Sequence[str]
    env: Mapping[str, str]
    cwd: Optional[str] = None
    out: Optional[int] = None
    keep: Sequence[int] = ()
    lock: str = ""
    own_out: Optional[int] = None
    given: int = subprocess.DEVNULL


class Child:
    """A process and its group. `status` is its exit status, or below 0 a signal's number, once all
    of it has ended; `over` says that the process itself has. What of the group runs on has the
    grace, as whoever is asked to end: up to `until`."""

    def __init__(self, loop: Watcher, keeper: Keeper, command: Command) -> None:
        self.status: Optional[int] = None
        self.waiter: Optional[Waiter] = None
        self.lock, self.until = command.lock, 0.0
        self.over = self.was_killed = False
        self.popen = subprocess.Popen(
            list(command.words),
            cwd=command.cwd,
            env=dict(command.env),
            stdin=command.given,
            stdout=command.out if command.own_out is None else command.own_out,
            stderr=command.out,
            start_new_session=True,
            pass_fds=tuple(command.keep),
        )
        self.pid, self.loop, self.keeper = self.popen.pid, loop, keeper
        keeper.begun(self.pid)
        loop.watch(self)

    def has_ended(self) -> bool:
        """Looks whether it has; then its group is ended before its number is free for others."""
        if self.status is None:
            if os.waitid(os.P_PID, self.pid, os.WEXITED | os.WNOHANG | os.WNOWAIT) is None:
                return False
            self.over = True
            if self.runs_on():
                return False
            signal_group(self.pid, signal.SIGKILL)
            self.keeper.ended(self.pid)
            self.status = self.popen.wait()
        return True

    def runs_on(self) -> bool:
        """Whether something of its group has its lock, and runs on behind it; that is asked to
        end, once."""
        if not self.lock or not is_held(self.lock) or self.pid not in list_living():
            return False
        if not self.until:
            self.ask()
        if time.monotonic() >= self.until:
            self.was_killed = True
            return False
        self.loop.later(0.05, self.has_ended)  # the loop looks again
        return True

    def signal(self, number: int) -> None:
        """Sends a signal to its group, as long as it has not ended."""
        if self.status is None:
            signal_group(self.pid, number)

    def ask(self, seconds: float = GRACE) -> None:
        """Asks the group to end, in so many seconds."""
        self.until = time.monotonic() + seconds
        self.signal(signal.SIGTERM)

    def kill(self) -> None:
        """Ends the group where it has not ended."""
        if self.status is None:
            self.was_killed = True
            self.signal(signal.SIGKILL)

    def end(self, seconds: float = GRACE) -> Generator[Child | float, None, None]:
        """For a task: asks the group to end, and behind so many seconds makes it."""
        self.ask(seconds)
        pause = 0.005
        while self.status is None and time.monotonic() < self.until:
            yield pause
            pause = min(0.1, pause * 2)
        self.kill()
        yield self
