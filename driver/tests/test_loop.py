"""The loop, its tasks, and children: what is waited for, what is cancelled, and what ends with
what."""
from __future__ import annotations

import contextlib
import fcntl
import io
import os
import signal
import subprocess
import sys
import tempfile
import time
import unittest
from typing import Any, Callable, Generator, List

sys.path.insert(0, os.path.dirname(os.path.dirname(os.path.abspath(__file__))))

from git_farmdawn.host.loop import Cancelled, Loop  # noqa: E402
from git_farmdawn.host.process import Child, Command, end_holders, list_holders  # noqa: E402

SHORT_TESTS = True


class Keeper:
    """Notes the groups."""

    def __init__(self) -> None:
        self.groups: List[int] = []

    def begun(self, group: int) -> None:
        """One is under way."""
        self.groups.append(group)

    def ended(self, group: int) -> None:
        """One has ended."""
        self.groups.remove(group)


class Turns(unittest.TestCase):
    """Tasks in a loop of their own."""

    def setUp(self) -> None:
        self.loop, self.keeper = Loop(), Keeper()
        self.ends: List[Any] = []

    def tearDown(self) -> None:
        signal.set_wakeup_fd(-1)
        sys.unraisablehook = sys.__unraisablehook__
        for number in (
            signal.SIGINT,
            signal.SIGTERM,
            signal.SIGHUP,
            signal.SIGCHLD,
            signal.SIGALRM,
        ):
            signal.signal(number, signal.SIG_DFL)

    def child(self, *words: str, **more: Any) -> Child:
        """A process."""
        return Child(self.loop, self.keeper, Command(words, os.environ, **more))

    def run_until_over(self, work: Generator[Any, Any, Any], cancel_after: float = -1.0) -> Any:
        """Runs a task, which may be cancelled behind some seconds."""
        task = self.loop.spawn(work, lambda task, value: self.ends.append(value))
        if cancel_after >= 0:
            self.loop.later(cancel_after, task.cancel, "why")
        until = time.monotonic() + 30
        while not task.over and time.monotonic() < until:
            self.loop.turn(0.1)
        self.assertTrue(task.over)
        self.assertEqual(len(self.ends), 1)
        return self.ends.pop()

    def test_children(self) -> None:
        """A task goes on with the status of a child, also of one that has ended before it is waited
        for."""

        def work() -> Generator[Any, Any, Any]:
            first, last = self.child("sh", "-c", "exit 3"), self.child("sh", "-c", "kill -9 $$")
            yield 0.3
            return [(yield first), (yield last), (yield last)]

        self.assertEqual(self.run_until_over(work()), [3, -9, -9])
        self.assertEqual(self.keeper.groups, [])

    def test_cancelled(self) -> None:
        """At its wait, before its first step, and in a clean-up that waits: once."""
        steps: List[str] = []

        def work() -> Generator[Any, Any, Any]:
            child = self.child("sleep", "600")
            try:
                yield child
            except Cancelled as stop:
                steps.append(str(stop.why))
                raise
            finally:
                yield from child.end()
                steps.append("ended")
                yield 0.01

        self.assertIsNone(self.run_until_over(work(), 0.2))
        self.assertEqual(steps, ["why", "ended"])
        task = self.loop.spawn(work(), lambda task, value: self.ends.append(value))
        task.cancel("first")
        task.cancel("second")
        self.loop.turn(0.0)
        self.assertEqual((task.over, self.ends, task.cancelled), (True, [None], "first"))

    def test_group_ends_with_its_leader(self) -> None:
        """What a child leaves in its group is ended; one that ignores TERM, too."""
        reads, writes = os.pipe()

        def work() -> Generator[Any, Any, Any]:
            child = self.child(
                "sh", "-c", "trap '' TERM; sleep 600 & sleep 600 & wait", keep=[writes]
            )
            yield 0.3
            yield from child.end(0.2)
            return child.status

        self.assertEqual(self.run_until_over(work()), -9)
        os.close(writes)
        self.assertEqual(os.read(reads, 1), b"")  # nobody has it open
        os.close(reads)

    def test_timers(self) -> None:
        """In their order, and not where they are off."""
        told: List[int] = []
        for number, seconds in ((3, 0.03), (1, 0.0), (2, 0.0)):
            self.loop.later(seconds, told.append, number)
        self.loop.later(0.01, told.append, 9).off = True
        until = time.monotonic() + 10
        while len(told) < 3 and time.monotonic() < until:
            self.loop.turn(1)
        self.assertEqual(told, [1, 2, 3])

    def test_signals(self) -> None:
        """Raised at once where nothing is to be lost, behind what is done in whole, and only noted
        where it is calm."""
        os.kill(os.getpid(), signal.SIGHUP)
        with self.assertRaises(Cancelled) as caught:
            self.loop.raise_signals()
        self.assertEqual(caught.exception.why, signal.SIGHUP)
        self.loop.heard = None
        with self.assertRaises(Cancelled) as caught:
            os.kill(os.getpid(), signal.SIGTERM)
        self.assertEqual(caught.exception.why, signal.SIGTERM)
        self.loop.heard, done = None, []

        def whole() -> None:
            os.kill(os.getpid(), signal.SIGTERM)
            done.append("whole")

        with self.assertRaises(Cancelled):
            self.loop.held(whole)
        self.assertEqual(done, ["whole"])
        self.loop.heard = None
        with self.assertRaises(Cancelled) as caught:
            os.kill(os.getpid(), signal.SIGALRM)
        self.assertEqual(caught.exception.why, signal.SIGALRM)
        self.loop.heard, self.loop.calm = None, True
        os.kill(os.getpid(), signal.SIGINT)
        os.kill(os.getpid(), signal.SIGTERM)
        self.assertEqual(self.loop.heard, signal.SIGINT)

    def test_dropped_signals(self) -> None:
        """Raised again where Python drops what is raised; what else is dropped is printed."""

        class Dropping:
            def __init__(self, dropped: Callable[[], object]) -> None:
                self.dropped = dropped

            def __del__(self) -> None:
                self.dropped()

        told = io.StringIO()
        with contextlib.redirect_stderr(told):
            Dropping(lambda: 1 // 0)
            self.loop.raise_signals()
            with self.assertRaises(Cancelled) as caught:
                Dropping(lambda: os.kill(os.getpid(), signal.SIGTERM))
                time.sleep(30)
        self.assertEqual(caught.exception.why, signal.SIGTERM)
        self.assertIn("ZeroDivisionError", told.getvalue())
        self.assertNotIn("Cancelled", told.getvalue())

    def test_holders(self) -> None:
        """Who has a lock open is found, whatever session it made."""
        with tempfile.NamedTemporaryFile() as lock:
            child = self.child("sh", "-c", "setsid sleep 600 & sleep 600", keep=[lock.fileno()])
            until = time.monotonic() + 30
            while len(list_holders(lock.name, exact=True)) < 3 and time.monotonic() < until:
                time.sleep(0.05)
            found = list_holders(lock.name, exact=True)
            self.assertIn(child.pid, found)
            self.assertEqual(len(found), 3)
            for pid in found:
                os.kill(pid, signal.SIGKILL)
            while not child.has_ended():
                time.sleep(0.01)

    def lock(self) -> str:
        """The name of a lock."""
        folder = tempfile.TemporaryDirectory()
        self.addCleanup(folder.cleanup)
        return os.path.join(folder.name, "lock")

    def holder(self, lock: str, *words: str) -> Child:
        """A child that holds a lock, as a test does."""
        fd = os.open(lock, os.O_RDWR | os.O_CREAT, 0o600)
        fcntl.flock(fd, fcntl.LOCK_SH)
        try:
            return self.child(*words, keep=[fd], lock=lock, cwd=os.path.dirname(lock))
        finally:
            os.close(fd)

    def test_who_looks(self) -> None:
        """Who looks whether a run is dead has its lock open for reading. It is not ended, and not
        waited for, also where it has it for itself."""
        lock = self.lock()
        child = self.holder(lock, "sleep", "600")
        with open(lock, "rb") as file:
            looker = subprocess.Popen(["sleep", "600"], stdin=file)
            self.run_until_over(end_holders(lock, exact=True))
            while not child.has_ended():
                time.sleep(0.01)
            fcntl.flock(file.fileno(), fcntl.LOCK_EX | fcntl.LOCK_NB)
            self.assertFalse(self.run_until_over(end_holders(lock)))
        self.assertEqual((child.status, looker.poll()), (-signal.SIGTERM, None))
        looker.kill()
        looker.wait()

    def test_group_has_the_grace(self) -> None:
        """A client of a test whose shell has ended gives back what it has taken: at the end of the
        test and where it is ended; what ignores TERM is killed behind the time for it."""
        gives = "trap 'sleep 1; rm taken; exit' TERM; : >taken; while :; do sleep 0.05; done"
        for words, is_ended, stays, status in (
            (f"({gives}) & until [ -e taken ]; do sleep 0.05; done; exit 3", False, False, 3),
            (f"({gives}) & wait", True, False, -signal.SIGTERM),
            ("(trap '' TERM; : >taken; sleep 600) & wait", True, True, -signal.SIGTERM),
        ):
            with self.subTest(words):
                lock = self.lock()
                taken = os.path.join(os.path.dirname(lock), "taken")

                def work(
                    lock: str = lock, words: str = words, is_ended: bool = is_ended
                ) -> Generator[Any, Any, Any]:
                    child = self.holder(lock, "sh", "-c", words)
                    while not os.path.exists(taken):
                        yield 0.05
                    if is_ended:
                        yield from child.end(3.0)
                    else:
                        yield child
                    return child.status, child.was_killed

                self.assertEqual(self.run_until_over(work()), (status, stays))
                self.assertEqual(os.path.exists(taken), stays)


if __name__ == "__main__":
    unittest.main()
