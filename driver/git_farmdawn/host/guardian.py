"""A process beside the driver that knows the groups under way, and ends them where the driver is
killed."""
from __future__ import annotations

import fcntl
import os
import signal
import time
from typing import Callable, NoReturn, Set

from .process import GRACE, UNSEEN, list_holders, list_living, signal_group, signal_process

SIGNALS = (
    signal.SIGINT,
    signal.SIGHUP,
    signal.SIGTERM,
    signal.SIGQUIT,
    signal.SIGCHLD,
    signal.SIGWINCH,
    signal.SIGPIPE,
)


class Guardian:
    """It reads the groups from a pipe. Where that ends, the driver is gone, however: then it ends
    the groups and whoever else has a lock of the run open, and cleans up. Where it is killed
    itself, `replace` forks another one."""

    def __init__(self, lock: str, clean: Callable[[], object]) -> None:
        self.lock, self.clean = lock, clean
        self.groups: Set[int] = set()
        self.fd, self.pid, self.over = -1, 0, False
        self.fork()

    def fork(self) -> None:
        """Begins the process. It is forked while there is one thread, and keeps no file of the
        driver's open."""
        reads, writes = os.pipe()
        pid = os.fork()
        if pid:
            os.close(reads)
            self.fd, self.pid = writes, pid
            return
        try:
            signal.set_wakeup_fd(-1)
            for number in SIGNALS:
                signal.signal(number, signal.SIG_IGN)
            os.setsid()
            self.let_go(reads)
            self.guard(reads)
        finally:
            os._exit(0)

    @staticmethod
    def let_go(reads: int) -> None:
        """Closes all files but the pipe: others wait for the end of the driver by them. The list
        of them wants a file itself, and there may be none to have before the first three are
        closed."""
        for fd in range(3):
            if fd != reads:
                try:
                    os.close(fd)
                except OSError:
                    pass
        for name in os.listdir("/proc/self/fd"):
            if int(name) != reads:
                try:
                    os.close(int(name))
                except OSError:
                    pass
        null = os.open(os.devnull, os.O_RDWR)
        for fd in range(3):
            if fd not in (null, reads):
                os.dup2(null, fd)

    def guard(self, reads: int) -> NoReturn:
        """Waits for the end of the driver."""
        text = b""
        while True:
            part = os.read(reads, 65536)
            if not part:
                self.end_all()
                os._exit(0)
            *lines, text = (text + part).split(b"\n")
            for line in lines:
                if line == b"clean":
                    self.clean_alone()
                if line in (b"clean", b"done"):
                    os._exit(0)
                (self.groups.add if line[:1] == b"+" else self.groups.discard)(int(line[1:]))

    def clean_alone(self) -> None:
        """Cleans up in place of the driver, which ends now; with the lock of the run, so that
        no other run waits for the same."""
        try:
            fd = os.open(self.lock, os.O_RDONLY | os.O_CLOEXEC)
            fcntl.flock(fd, fcntl.LOCK_SH | fcntl.LOCK_NB)
        except OSError:
            pass  # another run does the same
        self.clean()

    def end_all(self) -> None:
        """Ends all that runs, and removes the folder of the run. The number of a group that has
        ended may be another's soon: it is sent nothing more."""
        groups = set(self.groups)
        for number, seconds in ((signal.SIGTERM, GRACE), (signal.SIGKILL, UNSEEN)):
            for group in groups:
                signal_group(group, number)
            told: Set[int] = set()
            until = time.monotonic() + seconds
            while True:
                groups &= list_living()
                holders = set(list_holders(self.lock))
                for pid in holders - told:
                    signal_process(pid, number)
                told |= holders
                if not groups | holders or time.monotonic() >= until:
                    break
                time.sleep(0.1)
        self.clean()

    # -- the driver's side ---------------------------------------------------

    def tell(self, line: bytes) -> bool:
        """Writes a line, and whether it could; where it was killed, the next one gets all
        groups."""
        try:
            return os.write(self.fd, line) == len(line)
        except OSError:
            return False

    def begun(self, group: int) -> None:
        """A group is under way."""
        self.groups.add(group)
        self.tell(b"+%d\n" % group)

    def ended(self, group: int) -> None:
        """A group has ended, and its number is about to be free."""
        self.groups.discard(group)
        self.tell(b"-%d\n" % group)

    def replace(self) -> None:
        """Forks another one where it has ended before its time."""
        if self.over:
            return
        try:
            gone = os.waitpid(self.pid, os.WNOHANG)[0] == self.pid
        except ChildProcessError:
            gone = True
        if gone:
            os.close(self.fd)
            self.fork()
            self.tell(b"".join(b"+%d\n" % group for group in self.groups))

    def leave_rest(self) -> bool:
        """Leaves what is to be removed to it, and does not wait; whether it is there."""
        self.replace()
        self.over = True
        return self.tell(b"clean\n")

    def dismiss(self) -> None:
        """The driver has cleaned up itself."""
        self.over = True
        self.tell(b"done\n")
        try:
            os.waitpid(self.pid, 0)
        except ChildProcessError:
            pass
