"""git farmdawn: the order of things."""
from __future__ import annotations

import errno
import fcntl
import gc
import os
import subprocess
import sys
import time
from typing import TYPE_CHECKING, Callable, List, Optional, Sequence, Tuple

from .host.files import find_program
from .host.loop import Cancelled, Loop
from .repository.repository import Repository, program_of
from .telling.status import Status
from .telling.voice import Lost, Stop, Telling

if TYPE_CHECKING:
    from .certificate.certificate import Checker
    from .checkouts.checkouts import Shop
    from .checkouts.run import Run
    from .host.guardian import Guardian
    from .host.private import Private
    from .host.trees import Left
    from .known.record import Searched, Test
    from .line.options import Line
    from .line.settings import Settings
    from .repository.original import Original
    from .results import Results
    from .search.search import Search

NO_ROOM = (errno.ENOSPC, errno.EDQUOT, errno.EROFS, errno.EACCES, errno.EPERM)
WITHOUT_OUTPUT = ("--report", "--certificate", "--quiet", "-q")


# -- standard streams ----------------------------------------------------------


def open_streams(words: Sequence[str]) -> None:
    """Standard streams that are closed would be those of the next files. Without an output nothing
    is tested."""
    null = os.open(os.devnull, os.O_RDWR)
    while null < 3:  # takes what is closed
        null = os.open(os.devnull, os.O_RDWR)
    closed = sys.stdout is None or is_closed_by_git(words)
    if sys.stderr is None:
        os.dup2(null, 2)
    os.close(null)
    if closed:
        raise Stop(Status.NO_OUTPUT, "the standard output is closed; nothing was tested")


def close_input() -> None:
    """Nothing is read any more: what runs from here on finds an empty input."""
    null = os.open(os.devnull, os.O_RDONLY | os.O_CLOEXEC)
    os.dup2(null, 0)
    os.close(null)


def is_nothing(fd: int) -> bool:
    """Whether a file is /dev/null for reading and writing."""
    try:
        return (
            os.readlink(f"/proc/self/fd/{fd}") == os.devnull
            and fcntl.fcntl(fd, fcntl.F_GETFL) & os.O_ACCMODE == os.O_RDWR
        )
    except OSError:
        return False


def is_closed_by_git(words: Sequence[str]) -> bool:
    """git opens a standard output that is closed on nothing, for reading and writing. So do callers
    that want no output: these have nothing for the standard error too, or want a file."""
    named = [
        word.partition("=")[0] for word in words[: words.index("--") if "--" in words else None]
    ]
    return (
        is_nothing(1)
        and program_of(os.getppid()) == "git"
        and not is_nothing(2)
        and not any(word in named for word in WITHOUT_OUTPUT)
    )


# -- what is asked for ---------------------------------------------------------


class Program:
    """One run of the program. Each part that must be undone is noted as soon as it is there."""

    def __init__(self) -> None:
        self.voice = Telling()
        self.loop = Loop(self.voice.resized)
        self.run: Optional[Run] = None
        self.guardian: Optional[Guardian] = None
        self.search: Optional[Search] = None
        self.results: Optional[Results] = None
        # what could not be put away, and whether the guardian removes what was
        self.left: List[Left] = []
        self.is_left_behind = False

    def run_to_end(self, words: List[str]) -> int:
        """Does what the words ask for, and tells of what is in its way; gives the status."""
        try:
            return self.main(words)
        except Stop as stop:
            self.voice.clear_live()
            if stop.text:
                self.voice.say(stop.text)
            return stop.status
        except OSError as fault:
            status = Status.NO_ROOM if fault.errno in NO_ROOM else Status.BROKEN
            self.voice.clear_live()
            more = "; fewer --workers need fewer" if fault.errno == errno.EMFILE else ""
            self.voice.say(f'{fault.filename or "a file"}: {fault.strerror}{more}')
            return self.stop(status, "a file could not be read or written")
        except Lost as fault:  # what the engine told so far is right, and all outcomes are kept
            self.voice.clear_live()
            self.voice.say(str(fault))
            return self.stop(Status.BROKEN, "the engine was lost")

    def main(self, words: List[str]) -> int:
        """Does what the words ask for; gives the status."""
        from .line import options

        open_streams(words)
        line = options.read(words)
        if not line.reads_input():
            close_input()
        if line.action == "help":
            from .line.table import usage

            os.write(1, usage().encode())
            return Status.FOUND
        if line.action == "version":
            return subprocess.run(["farmdawn", "--version"], executable=find_program()).returncode
        repo = Repository()
        if line.action == "prune":
            return self.prune(line, repo)
        if line.action == "check":
            return self.check(repo, line.file)
        if line.action == "retest":
            return self.retest(line, repo)
        return self.search_for(line, repo)

    def prune(self, line: Line, repo: Repository) -> int:
        """Removes what is kept."""
        from .checkouts.run import prune
        from .host.trees import tell_left

        count, left = prune(repo, os.path.abspath(line.state) if line.state else repo.folder)
        tell_left(left, self.voice.say)
        self.voice.say(f'removed what {count} search{"" if count == 1 else "es"} had kept')
        return Status.FOUND

    def check(self, repo: Repository, file: str) -> int:
        """Checks a certificate."""
        from .certificate import certificate

        return certificate.check(self.checker(repo, file), self.voice)

    def checker(self, repo: Repository, file: str) -> Checker:
        """What a check of a certificate needs."""
        from .certificate.certificate import Checker

        self.loop.held(lambda: self.open_run(repo))
        assert self.run is not None
        return Checker(repo, self.run.state, find_program(), file)

    def retest(self, line: Line, repo: Repository) -> int:
        """Tests the answer of a certificate on this machine."""
        from . import retest
        from .certificate.certificate import read_file
        from .search.watch import Watch

        answer = read_file(self.checker(repo, line.file))
        settings = retest.settings_of(line, repo, self.voice, answer)
        assert self.run is not None
        settings.state = settings.state or self.run.state
        search = self.prepare(settings, repo, has_ends=False)
        return retest.retest(search, Watch(search.known, search.places, self.voice).turn)

    # -- a search ------------------------------------------------------------------

    def open_run(self, repo: Repository) -> None:
        """The folder of the run, and who removes it where this process is killed."""
        from .host.ended import run_noted
        from .host.guardian import Guardian
        from .checkouts.run import Run, remove_run

        run = self.run = Run(repo)
        state = run.state

        def clean() -> None:
            """What is done where this process is gone."""
            try:
                run_noted(state, repo.test_env)
            finally:
                remove_run(repo.gitdir, state)

        guardian = self.guardian = Guardian(state + "/lock", clean)
        self.loop.child_ended = guardian.replace

    def search_for(self, line: Line, repo: Repository) -> int:
        """A search, from the words to the status."""
        from . import conclusion
        from .line import settings
        from .checkouts.run import remove_dead_runs
        from .host.trees import tell_left
        from .search.watch import Watch

        parent = os.getppid() if program_of(os.getppid()) == "git" else None
        tell_left(remove_dead_runs(repo), self.voice.say)
        wanted = settings.read(line, repo, self.voice)
        close_input()
        if not wanted.by_hand:  # a person types there
            self.voice.look_at_terminal()
        self.loop.held(lambda: self.open_run(repo))
        if wanted.looks_back:
            status = self.look_back(wanted, repo, parent)
            if status is not None:
                return status
        if wanted.wants_threshold:
            status = self.measure_ends(wanted, repo, parent)
            if status is not None:
                return status
        search = self.begin(wanted, repo)
        assert self.results is not None
        report = self.results.open_report()
        conclusion.tell_begin(search.known, repo, self.voice)
        watch = Watch(search.known, search.places, self.voice, report, parent)
        return self.search_all(search, watch.turn)

    def look_back(
        self, settings: Settings, repo: Repository, parent: Optional[int]
    ) -> Optional[int]:
        """Finds the ends where no GOOD is named; gives a status where there is nothing to search.
        The search that follows has the tests and the checkouts."""
        from .search.looking import LookingBack
        from .search.watch import Watch

        search = self.prepare(settings, repo)
        watch = Watch(search.known, search.places, self.voice, None, parent)
        return self.attempt(search, LookingBack(search, watch.turn).find)

    def measure_ends(
        self, settings: Settings, repo: Repository, parent: Optional[int]
    ) -> Optional[int]:
        """Finds the threshold between the ends; gives a status where there is none."""
        from .search.measuring import MeasuringEnds
        from .search.watch import Watch

        search = self.prepare(settings, repo)
        assert self.results is not None
        report = self.results.open_report()
        watch = Watch(search.known, search.places, self.voice, report, parent)
        return self.attempt(search, MeasuringEnds(search, watch.turn).find)

    def begin(self, settings: Settings, repo: Repository) -> Search:
        """All that a search needs: what is kept, the history, the engine, the copies."""
        search = self.prepare(settings, repo)
        if settings.noise is None:
            search.begin()
        else:
            from .search import noisy

            noisy.begin(search.known, search.history)
        return search

    def prepare(self, settings: Settings, repo: Repository, has_ends: bool = True) -> Search:
        """The same without the engine, which the history is handed to; behind a look for the ends
        with its tests and its checkouts. Without ends nothing is tested but what is asked for."""
        from .known import evidence
        from .known.outcomes import open_kept
        from .known.record import Searched
        from .repository.history import Ends, History
        from .results import Results
        from .search.search import Search
        from .telling.facts import ends_of

        assert self.run is not None
        before = self.search
        tests = before.known.tests if before else self.tests_of(settings, repo)
        asked = settings.bad, settings.goods, settings.first_parent, settings.paths
        history = History(repo, Ends(*asked))
        told = evidence.look_at_ends(repo, settings, history.beside) if settings.goods else []
        for text in told:
            self.voice.tell(text)
        ends = (
            ends_of(settings.bad, settings.goods, settings.terms, settings.fixed)
            if has_ends
            else []
        )
        if before is None:
            why = self.run.choose_base()
            if why:
                self.voice.tell(why)
            shop = self.open_shop(settings, repo)
            known = Searched(settings, history, tests, ends, [], time.monotonic(), told)
        else:
            shop = before.shop
            known = before.known._replace(commits=history, ends=ends, told_of_ends=told)
        shares_builds = settings.build and known.has_names
        built = open_kept(settings, repo, "build", self.voice.say) if shares_builds else None
        search = self.search = Search(known, history, shop, self.voice, built)
        if before:
            search.places.take_over(before.places)
        self.results = Results(search, self.voice)
        return search

    def tests_of(self, settings: Settings, repo: Repository) -> List[Test]:
        """The tests, with what is kept of them; each folder in which something will be written must
        have room."""
        from .known.outcomes import open_kept
        from .known.record import Seen, Test

        assert self.run is not None
        tests, folders = [], [self.run.state]
        for name, words in settings.tests:
            kept = open_kept(settings, repo, name, self.voice.say)
            seen = Seen(kept, is_turned=settings.fixed, threshold=settings.measure)
            tests.append(Test(name, words, seen, settings.short.get(name, name)))
            folders += [kept.folder, kept.log_dir]
        look_for_room(folders)
        return tests

    def open_shop(self, settings: Settings, repo: Repository) -> Shop:
        """What all checkouts share."""
        from .checkouts.checkouts import Brings, Shop
        from .checkouts.copies import Copies
        from .checkouts.versions import Versions
        from .repository.original import Original

        assert self.run is not None and self.guardian is not None
        pool = None
        original = Original(repo, modules=settings.submodules)
        if settings.pool is not None:
            from .checkouts.pool import Pool

            pool = Pool(original, settings.pool, settings.submodules)
        given = os.path.join(self.run.state, "given")
        copies = Copies(repo.top, settings.brought, given, settings.links)
        versions = Versions(repo.top, settings.owns, settings.patches, given)
        brings = Brings(
            copies, versions, settings.clean, pool, self.open_private(settings, original)
        )
        return Shop(self.loop, self.guardian, self.run, original, brings)

    def open_private(self, settings: Settings, original: Original) -> Optional[Private]:
        """Who has tests run apart, where that is wanted and can be had."""
        if not settings.private:
            return None
        from .host.private import Private

        assert self.run is not None
        repo, rooms = original.repo, os.path.join(self.run.state, "private")
        stores = [path for one in (original, *original.modules.values()) for path in one.stores]
        links = [os.path.join(repo.top, path) for path in settings.links]
        named = [*settings.outside, *settings.named, *stores, *links]
        private = Private(rooms, [repo.top, repo.gitdir, repo.own_gitdir, *named])
        private.try_out()
        return private

    def search_all(self, search: Search, turn: Callable[[], None]) -> int:
        """The search, up to what is printed of it."""
        status = self.attempt(search, lambda: search.search_all(turn))
        if status is not None:
            return status
        assert self.results is not None
        search.stop_all()
        changed = self.forget_changed(search)
        if changed:
            return self.results.refused(Stop(Status.TEST_STOPPED, changed))
        status = self.results.answered()
        for test in search.known.tests if search.settings.by_hand else ():
            test.outcomes.forget(test.outcomes.names())  # the next search is for another fault
        return status

    def attempt(self, search: Search, does: Callable[[], None]) -> Optional[int]:
        """Does it; gives a status where it cannot be done to its end."""
        from .host.files import NoRoom
        from .search.watch import Deadline

        assert self.results is not None
        gc.freeze()  # what is there stays
        gc.enable()
        try:
            does()
        except NoRoom as fault:
            reason = f"no room in {fault.args[0]}"
            search.stop_all()
            self.forget_changed(search)
            self.voice.say(reason + ": a test gives no verdict there")
            return self.results.stopped(Status.NO_ROOM, reason)
        except Deadline:
            search.stop_all()
            self.forget_changed(search)
            return self.results.stopped(*at_deadline(search.known))
        except Stop as stop:
            search.stop_all()
            self.forget_changed(search)
            return self.results.refused(stop)
        return None

    @staticmethod
    def forget_changed(search: Search) -> str:
        """Files are copied at the start; but where a folder or a file elsewhere has changed
        meanwhile, tests were not all the same test: what they told is neither kept nor an answer.
        Says so, or nothing."""
        named = search.known.settings
        if not named.outside and not any(
            os.path.isdir(os.path.join(search.shop.repo.top, path)) for path in named.brought
        ):
            return ""
        changed = ""
        for test in search.known.tests:
            if test.seen.rows and not test.outcomes.still_the_same():
                test.outcomes.forget({row.commit for row in test.seen.rows})
                changed = "a file of the command has changed meanwhile: search again"
        return changed

    # -- the end -------------------------------------------------------------------

    def stop(self, status: int, reason: str) -> int:
        """Stops the search where one is under way: its log so far is printed, and the same line
        goes on."""
        self.loop.note_signals()
        self.voice.clear_live()
        if self.search is None or self.results is None:
            return status
        self.search.stop_all()
        return self.results.stopped(status, reason)

    @staticmethod
    def leave_pool(search: Search) -> None:
        """The checkouts of a pool stay; those in which nothing is half done are whole."""
        pool = search.shop.pool
        if pool is None:
            return
        for slot in search.places.slots:
            if not slot.jobs():
                slot.leave()
        pool.end(search.known.settings.keep)

    def undo(self) -> None:
        """Ends what runs, and removes what is of this run alone. Where it may open too few files
        for that, what is open is needed no more; and the guardian, which sees that this process
        ends, ends what runs."""
        run = self.run
        state = run.state if run is not None else ""
        try:
            self.undo_all()
        except OSError:
            pass
        left = list(self.left)
        if self.search is not None and self.search.shop.pool is not None:
            left += self.search.shop.pool.left
        if run is not None and state and not self.is_left_behind and os.path.lexists(state):
            from .checkouts.run import remove_run

            os.closerange(3, 64)
            left += remove_run(run.repo.gitdir, state)
        if left:
            from .host.trees import tell_left

            tell_left(left, self.voice.say)

    def undo_all(self) -> None:
        """The same, step by step."""
        self.loop.note_signals()
        self.voice.clear_live()
        if self.search is not None:
            self.search.stop_all()
            self.search.close()
            self.leave_pool(self.search)
        if self.run is not None and self.guardian is not None and self.run.is_large():
            self.left = self.run.put_away()
            self.is_left_behind = self.guardian.leave_rest()
            return
        if self.run is not None:
            self.run.remove()
        if self.guardian is not None:
            self.guardian.dismiss()


def at_deadline(known: Searched) -> Tuple[Status, str]:
    """The status at the deadline, and the reason: whether this run has come further."""
    if any(row.status is not None for test in known.tests for row in test.seen.rows):
        return Status.DEADLINE, "the time of --deadline is over"
    return (
        Status.NO_PROGRESS,
        "the time of --deadline is over, and no test has ended; does one hang? --timeout ends it",
    )


def look_for_room(folders: List[str]) -> None:
    """Each folder in which something will be written must have room."""
    from .host.files import has_room

    for folder in dict.fromkeys(folders):
        if not has_room(folder):
            raise Stop(
                Status.NO_ROOM, f"{folder} cannot be written, or has no room; nothing was tested"
            )


def main(words: List[str]) -> int:
    """The program; gives its status. A signal is raised once, between these two calls, also where
    the end of something else is told."""
    program = Program()
    try:
        try:
            program.loop.raise_signals()
            return program.run_to_end(words)
        finally:
            program.loop.note_signals()
    except Cancelled as stop:
        return program.stop(Status.SIGNAL + int(stop.why), "stopped by a signal")
    finally:
        program.undo()
