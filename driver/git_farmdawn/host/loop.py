"""One thread, one loop: children, timers, signals and tasks.

A task is a generator. It yields a child or a number of seconds, and goes on when that has ended.
What is in its way comes as an exception: `Cancelled` is thrown in where it waits, once, and its
`except` and `finally` may wait again."""
from __future__ import annotations

import heapq
import os
import selectors
import signal
import sys
import time
from typing import Any, Callable, Dict, Generator, List, Optional, TypeVar, Union

from .process import Child

Work = Generator[Union[Child, float], Any, Any]
Result = TypeVar("Result")
# seconds after which a signal is raised again where Python dropped it
AGAIN = 0.01


class Cancelled(BaseException):
    """Somebody wants this task to end; `why` is a word or the number of a signal."""

    def __init__(self, why: str | int) -> None:
        BaseException.__init__(self, why)
        self.why = why


class Timer:
    """A call that is due at some time; with `off` it is not made."""

    def __init__(
        self, when: float, number: int, call: Callable[..., object], words: tuple[Any, ...]
    ) -> None:
        self.when, self.number, self.call, self.words, self.off = when, number, call, words, False

    def __lt__(self, other: Timer) -> bool:
        return (self.when, self.number) < (other.when, other.number)


class Task:
    """A generator under way. `done` is called once, with what it gave back, or None where it was
    cancelled."""

    def __init__(self, loop: Loop, work: Work, done: Callable[[Task, Any], object]) -> None:
        self.loop, self.work, self.done = loop, work, done
        self.waits: Child | Timer | None = None
        self.over, self.begun = False, False
        self.cancelled: str | int | None = None

    def step(self, value: Any = None, fault: Cancelled | None = None) -> None:
        """Goes on with what it waited for, or with a fault thrown in, up to the next wait."""
        if self.over:
            return
        if not self.begun:
            self.begun = True
            if self.cancelled is not None:  # before its first step
                fault = Cancelled(self.cancelled)
        self.waits = None
        try:
            what = self.work.throw(fault) if fault is not None else self.work.send(value)
        except StopIteration as end:
            self.end(end.value)
            return
        except Cancelled:
            self.end(None)
            return
        self.wait_for(what)

    def wait_for(self, what: Child | float) -> None:
        """Notes what the next step waits for."""
        if not isinstance(what, Child):
            self.waits = self.loop.later(what, self.step)
        elif what.status is not None:
            self.waits = self.loop.later(0, self.step, what.status)
        else:
            self.waits, what.waiter = what, self

    def end(self, value: Any) -> None:
        """Tells that it is over."""
        self.over = True
        self.done(self, value)

    def cancel(self, why: str | int) -> None:
        """Ends the task at its wait; only once, so that its last steps are not disturbed."""
        if self.over or self.cancelled is not None:
            return
        self.cancelled = why
        if not self.begun:
            return
        waits, self.waits = self.waits, None
        if isinstance(waits, Timer):
            waits.off = True
        elif waits is not None:
            waits.waiter = None
        self.step(None, Cancelled(why))


class Loop:
    """The loop. Its states: with `calm` a signal is only noted in `heard`; else it is raised at
    once, since nothing is to be lost yet."""

    def __init__(self, resized: Callable[[], object] = lambda: None) -> None:
        self.resized = resized  # called where the terminal has another width
        self.timers: List[Timer] = []
        self.children: Dict[int, Child] = {}
        self.count = 0
        self.heard: Optional[int] = None
        self.calm = True
        self.child_ended: Callable[[], object] = lambda: None
        inside, outside = os.pipe()
        for fd in (inside, outside):
            os.set_blocking(fd, False)
        self.inside = inside
        self.selector = selectors.DefaultSelector()
        self.selector.register(inside, selectors.EVENT_READ)
        signal.set_wakeup_fd(outside, warn_on_full_buffer=False)
        self.take_signals()

    def take_signals(self) -> None:
        """Who ignored a signal from the start goes on to; but what is started here has it as it is
        by default, since an ignored one outlives an exec: so a handler that does nothing, but for
        HUP under nohup."""

        def nothing(*_: Any) -> None:
            """It only wakes the loop."""

        signal.signal(signal.SIGCHLD, nothing)
        signal.signal(signal.SIGWINCH, lambda *_: self.resized())
        for number in (signal.SIGINT, signal.SIGTERM, signal.SIGHUP):
            if signal.getsignal(number) != signal.SIG_IGN:
                signal.signal(number, self.hear)
            elif number != signal.SIGHUP:
                signal.signal(number, nothing)
        if signal.getsignal(signal.SIGQUIT) == signal.SIG_IGN:
            signal.signal(signal.SIGQUIT, nothing)
        self.take_alarm()

    def take_alarm(self) -> None:
        """The timer by which a signal is raised again. One that was set before the exec, as a limit
        of time, ends this like other signals, unless it is ignored."""
        ends = signal.getsignal(signal.SIGALRM) != signal.SIG_IGN

        def again(number: int, frame: Any) -> None:
            """It is over."""
            if self.heard is not None:
                self.raise_heard()
            elif ends:
                self.hear(number, frame)

        signal.signal(signal.SIGALRM, again)
        sys.unraisablehook = self.raise_later

    def hear(self, number: int, _: Any) -> None:
        """Only the first signal counts: git hands on what a terminal sent to both."""
        if self.heard is None:
            self.heard = number
            self.raise_heard()

    def raise_heard(self) -> None:
        """Raises the signal that came, but where it is calm."""
        if self.heard is not None and not self.calm:
            raise Cancelled(self.heard)

    @staticmethod
    def raise_later(lost: Any) -> None:
        """Python drops what is raised in a destructor, or where a weak reference ends, as the
        imports have many: a signal that came there is raised again a moment later."""
        if isinstance(lost.exc_value, Cancelled):
            signal.setitimer(signal.ITIMER_REAL, AGAIN)
        else:
            sys.__unraisablehook__(lost)

    def raise_signals(self) -> None:
        """From now on a signal is raised at once, and so is one that came before."""
        self.calm = False
        self.raise_heard()

    def note_signals(self) -> None:
        """From now on there is something to be lost: signals are only noted."""
        self.calm = True

    def held(self, call: Callable[[], Result]) -> Result:
        """Does something in whole: a signal within it is raised behind it."""
        before, self.calm = self.calm, True
        try:
            return call()
        finally:
            self.calm = before
            self.raise_heard()

    def later(self, seconds: float, call: Callable[..., object], *words: Any) -> Timer:
        """Calls something behind so many seconds, at the earliest in the next turn."""
        self.count += 1
        timer = Timer(time.monotonic() + seconds, self.count, call, words)
        heapq.heappush(self.timers, timer)
        return timer

    def spawn(
        self, work: Work, done: Callable[[Task, Any], object] = lambda task, value: None
    ) -> Task:
        """Begins a task in the next turn."""
        task = Task(self, work, done)
        self.later(0, task.step)
        return task

    def watch(self, child: Child) -> None:
        """Looks for the end of a child from now on."""
        self.children[child.pid] = child

    def turn(self, longest: float = 1.0) -> None:
        """Waits for something, at most so long, and does what is due."""
        wait = longest
        if self.timers:
            wait = max(0.0, min(wait, self.timers[0].when - time.monotonic()))
        if self.selector.select(wait):
            self.drain()
        for child in list(self.children.values()):
            if child.has_ended():
                del self.children[child.pid]
                if child.waiter:
                    waiter, child.waiter = child.waiter, None
                    waiter.step(child.status)
        now = time.monotonic()
        while self.timers and self.timers[0].when <= now:
            timer = heapq.heappop(self.timers)
            if not timer.off:
                timer.call(*timer.words)

    def drain(self) -> None:
        """Takes the bytes that signals left; one of them may be of a child that the loop does not
        watch."""
        try:
            while len(os.read(self.inside, 4096)) == 4096:
                pass
        except BlockingIOError:
            pass
        self.child_ended()
