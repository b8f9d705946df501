"""The talk with the engines, of which each searches for 64 tests at most: the history, a search for
each test, requests; and another engine where one was lost."""
from __future__ import annotations

import os
from typing import TYPE_CHECKING, Iterator, List, Optional, Sequence, Tuple

from ..telling.status import Status
from ..telling.voice import Lost, Stop
from .engine import Engine, Refused, Reply, Unfit

if TYPE_CHECKING:
    from typing import Protocol

    from ..checkouts.run import Run
    from ..known.record import Searched, Test
    from ..repository.history import History
    from ..telling.voice import Telling

    class Hears(Protocol):
        """Who is told of events, behind the record of them. It asks for nothing then."""

        def hear(self, test: Test, kind: bytes, rest: bytes) -> None:
            """An event of a search."""

        def forget_workers(self, tests: Sequence[Test]) -> None:
            """Another engine takes the place of that of these tests, and knows of no picks."""


RESTARTS = 3
MOST_SEARCHES = 64  # of an engine


class Talk:
    """What is said with one engine, which searches for all tests that are `known` here."""

    def __init__(
        self, known: Searched, history: History, run: Run, voice: Telling, search: Hears
    ) -> None:
        self.settings, self.tests, self.history = known.settings, known.tests, history
        self.run, self.voice, self.search = run, voice, search
        self.engine: Optional[Engine] = None
        self.restarts = 0

    def begin(self, stream: Iterator[bytes]) -> None:
        """Starts the engine, hands the history over, and begins the searches."""
        try:
            self.start_engine(stream)
            self.begin_searches()
        except Lost as fault:
            for _ in stream:  # another one gets all of it
                pass
            self.restart(fault)

    def start_engine(self, stream: Iterator[bytes]) -> None:
        """Starts it with its history."""
        repo, program = self.run.repo, self.settings.farmdawn
        env = {name: value for name, value in repo.env.items() if name not in repo.local}
        try:
            self.engine = Engine(program, self.hear, self.run.state, env)
        except OSError as fault:
            raise Stop(Status.REFUSED, f"{program} cannot be started: {fault.strerror}") from None
        try:
            self.engine.load(stream)
        except Refused as refusal:
            raise Stop(Status.TOO_MUCH, f"farmdawn refuses the history: {refusal}") from None
        except Unfit as fault:
            raise Stop(
                Status.REFUSED,
                (
                    f"{program} is of another version: git farmdawn needs its `serve"
                    f" --original-names` ({fault})"
                ),
            ) from None
        self.engine.names.take(self.history.order if self.history.has_long_names() else ())

    def begin_searches(self) -> None:
        """Begins a search for each test."""
        assert self.engine is not None
        words = self.settings.engine_words()
        for name in self.history.among(self.settings.skips):
            words += ["--skip", name]
        if self.settings.replay is None:
            words += [self.settings.bad, *self.settings.goods]
        else:
            with open(os.path.join(self.run.state, "replay"), "wb") as file:
                file.write(
                    self.engine.names.shorten(self.settings.replay.decode("latin-1")).encode(
                        "latin-1"
                    )
                )
            words += ["--replay", "replay"]
        for test in self.tests:
            test.begin()
            reply = self.engine.ask_all(self.engine.words(words))[-1]
            if reply.kind == "refused":
                raise Stop(Status.TOO_MUCH, f"farmdawn refuses the search: {reply.rest}")

    # -- requests ------------------------------------------------------------

    def ask(self, line: str) -> Reply:
        """A request. Where the engine is lost, another one gets the searches and all outcomes, and
        comes to the same log; what was asked is of no use any more then: `wait`."""
        assert self.engine is not None
        try:
            return self.engine.ask(line)
        except Lost as fault:
            self.restart(fault)
        return Reply("wait", "")

    def ask_any(self, line: str) -> Reply:
        """A question: where the engine is lost, the next one answers it."""
        while True:
            asked = self.engine
            reply = self.ask(line)
            if self.engine is asked:
                return reply

    def restart(self, fault: Lost) -> None:
        """Begins another engine in place of one that was lost."""
        self.restarts += 1
        if self.restarts > RESTARTS:
            raise fault
        self.voice.say(f"{fault}; another one goes on")
        self.hand_over()

    def begin_again(self) -> None:
        """Another engine, as no request takes an outcome back."""
        self.close()
        self.hand_over()

    def hand_over(self) -> None:
        """Another engine gets the history, the searches and what is known now."""
        self.search.forget_workers(self.tests)
        try:
            self.start_engine(self.history.again())
            self.begin_searches()
        except Lost as fault:
            self.restart(fault)
            return
        self.learn_known()

    def learn_known(self) -> None:
        """Tells all outcomes that are known, many at once."""
        assert self.engine is not None
        try:
            for number, test in enumerate(self.tests, 1):
                if test.wrong is None:
                    self.engine.ask_all(
                        [
                            f"learn {number} {commit} {status}"
                            for commit, status in test.seen.statuses.items()
                        ]
                    )
        except Lost as fault:
            self.restart(fault)

    def pick(self, worker: int) -> Optional[Tuple[Test, str]]:
        """What a worker is to test: a commit, for a search; None where there is nothing for it."""
        reply = self.ask_any(f"pick {worker}")
        if reply.kind != "test":
            return None
        number, commit = reply.rest.split()
        return self.tests[int(number) - 1], commit

    def post(self, worker: int, status: int) -> None:
        """Tells the outcome of a pick."""
        self.ask(f"post {worker} {status}")

    def give(self, worker: int) -> None:
        """Gives a pick back: it was not done."""
        self.ask(f"give {worker}")

    def asking(self, commit: str) -> List[Test]:
        """The tests whose searches may ask for a commit."""
        if self.engine is None:
            return []
        words = self.ask_any("wanted " + commit).rest.split()
        tests = [self.tests[int(word) - 1] for word in words]
        return [test for test in tests if test.wrong is None]

    def number_of(self, test: Test) -> int:
        """The number of a search in the engine."""
        return self.tests.index(test) + 1

    def learn(self, test: Test, commit: str, status: int) -> None:
        """Tells an outcome that is of no pick; one that is known already is refused, and nothing
        changes."""
        try:
            self.ask(f"learn {self.number_of(test)} {commit} {status}")
        except Refused:
            pass

    def certify(self, test: Test) -> None:
        """Has the lines of the certificate told of a search that found the first bad commit."""
        while True:
            test.told.forget_certificate()
            if self.ask(f"certificate {self.number_of(test)}").kind == "ok":
                return

    # -- events --------------------------------------------------------------

    def hear(self, kind: bytes, rest: bytes) -> None:
        """Takes an event."""
        number, _, rest = rest.partition(b" ")
        test = self.tests[int(number) - 1]
        if test.wrong is None:  # of one that is left out nothing counts
            test.told.hear(kind, rest)
        self.search.hear(test, kind, rest)

    def close(self) -> None:
        """Ends the engine."""
        if self.engine is not None:
            self.engine.close()


class Dialogue:
    """The same with as many engines as the tests need. All of them search at once: so a commit that
    stands built is tested for each search that may ask for it."""

    def __init__(
        self, known: Searched, history: History, run: Run, voice: Telling, search: Hears
    ) -> None:
        self.history = history
        self.talks = [
            Talk(
                known._replace(tests=known.tests[at : at + MOST_SEARCHES]),
                history,
                run,
                voice,
                search,
            )
            for at in range(0, len(known.tests), MOST_SEARCHES)
        ]

    def of(self, test: Test) -> Talk:
        """The talk that has the search of a test."""
        return next(talk for talk in self.talks if test in talk.tests)

    def begin(self) -> None:
        """Begins all searches; the history goes over as git lists it."""
        for at, talk in enumerate(self.talks):
            talk.begin(self.history.again() if at else self.history.stream())

    def has_begun(self) -> bool:
        """Whether there are engines: a search by odds has none."""
        return all(talk.engine is not None for talk in self.talks)

    def begin_again(self) -> None:
        """Other engines, as no request takes an outcome back."""
        for talk in self.talks:
            talk.begin_again()

    def learn_known(self) -> None:
        """Tells all outcomes that are known."""
        for talk in self.talks:
            talk.learn_known()

    def pick(self, worker: int) -> Optional[Tuple[Test, str]]:
        """What a worker is to test, for a search of the first engine that has work for it."""
        return next(filter(None, (talk.pick(worker) for talk in self.talks)), None)

    def asking(self, commit: str) -> List[Test]:
        """The tests whose searches may ask for a commit."""
        return [test for talk in self.talks for test in talk.asking(commit)]

    def close(self) -> None:
        """Ends the engines."""
        for talk in self.talks:
            talk.close()
