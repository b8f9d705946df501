"""One test: its commit is checked out and built, its command is run, and it is looked at what that
left."""
from __future__ import annotations

import errno
import os
import signal
import time
from typing import TYPE_CHECKING, Callable, Dict, Generator, List, Optional, Union

from ..host.ended import Ended
from ..host.files import NoRoom, content, has_room, is_scarce, kind_of_log, one_a_disk
from ..host.loop import Cancelled
from ..host.process import GRACE, Child, Command, end_holders
from ..telling.facts import FIRST_STOP, SKIP, turned
from ..telling.text import shown
from ..telling.voice import ME
from .checkouts import NoCheckout
from .copies import NotBrought
from .places import Claim, Job, Preparation, Slot

if TYPE_CHECKING:
    from ..known.outcomes import Outcomes
    from ..line.settings import Settings
    from ..telling.voice import Telling
    from .asking import Asking
    from .run import Run

NOT_BELIEVED = 255
UNKEPT = (
    "git does not ignore what is built, as %s: it is removed before the next commit, so each build"
    " begins from nothing; git keeps what .git/info/exclude names"
)
LOOKS = 0.25  # seconds between two looks at the room on the disks
LONGEST_HOST = 60  # columns of the name of a machine
LONGEST_TOLD = 200  # columns of what a command told of it
LOST = b"was lost"  # how it begins where a machine lost the test
LOOK = 1.0  # seconds between two looks at what was told, at a limit
BY_SIGNAL = 128  # the status of what a signal ended is above it
Steps = Generator[Union[Child, float], object, int]


class Trials:
    """Prepares checkouts for tests, and runs these. `built` is what is kept of the builds, where
    several tests share them."""

    def __init__(
        self, settings: Settings, run: Run, voice: Telling, built: Optional[Outcomes]
    ) -> None:
        self.settings, self.run, self.voice, self.repo = settings, run, voice, run.repo
        self.built = built
        self.ended = Ended(settings.ended, run.state)
        self.asking: Optional[Asking] = None
        if settings.by_hand:
            from .asking import Asking

            self.asking = Asking(run.repo, voice, settings.terms)

    # -- what prepares for tests ---------------------------------------------------

    def prepare(self, slot: Slot, work: Preparation, claim: Claim) -> Steps:
        """Checks a commit out and builds it, or makes what a test of it left what it was: 0 where
        tests can begin, else the status that all of them get; for a task."""
        stands = slot.forget_ready()
        if slot.is_used and (slot.commit == work.commit or self.settings.build and slot.is_known()):
            is_whole = yield from self.put_built(slot)
            if stands and is_whole:
                return 0
            # nothing that the test left is to reach the next one
            slot.broken = slot.broken or not is_whole
        try:
            work.log, log = (self.built or claim.test.outcomes).open_log(
                work.commit, kind_of_log(claim.run)
            )
        except OSError:
            self.look_for_room(claim)
            self.voice.say(f"the output of the build of {work.commit} cannot be written")
            return NOT_BELIEVED
        slot.output = work.log
        try:
            status = yield from self.prepare_steps(slot, work, log)
            if not status and self.shares_checkout(claim):
                yield from slot.keep_built()
            if status:
                claim.lacks_room(work.lacked_room)
                self.look_for_room(claim)
            return status
        except NoCheckout:
            self.look_for_room(claim)
            return NOT_BELIEVED
        except NotBrought as fault:
            self.note(log, str(fault))
            return SKIP
        except Cancelled:
            slot.broken = True
            raise
        except OSError as fault:
            self.look_for_room(claim)
            self.note(log, str(fault))
            slot.broken = True
            return NOT_BELIEVED
        finally:
            os.close(log)

    def shares_checkout(self, claim: Claim) -> bool:
        """Whether a commit that is made ready for a test may be for others, too, that are to begin
        with the same. With --together only those of one search do."""
        settings = self.settings
        several = len(settings.tests) > 1 and not settings.together
        return several or claim.run > 1 or settings.noise is not None

    @staticmethod
    def put_built(slot: Slot) -> Generator[Union[Child, float], object, bool]:
        """Makes a checkout what it was before its last test; whether that could be done."""
        try:
            return (yield from slot.put_built())
        except OSError:
            return False
        except Cancelled:
            slot.broken = True
            raise

    def prepare_steps(self, slot: Slot, work: Preparation, log: int) -> Steps:
        """The checkout, and the build where there is one."""
        yield from slot.prepare(log, work.commit)
        self.tell_unkept(slot)
        if not self.settings.build:
            return 0
        work.is_build, work.began = True, time.monotonic()
        if not self.voice.live:
            self.voice.tell("building " + work.commit[:12])
        status = yield from self.command(slot, work, self.settings.build, log)
        if status == 0 or status >= FIRST_STOP:
            return status
        self.voice.tell(
            f"the build of {work.commit[:12]} ended with {status}: it is skipped; its output is in"
            f" {work.log}"
        )
        return SKIP

    def tell_unkept(self, slot: Slot) -> None:
        """What was built in a checkout is removed where git does not ignore it."""
        if slot.files is not None and slot.files.unkept and not self.voice.quiet:
            self.voice.once("unkept", UNKEPT % slot.files.unkept)

    def say_unbuilt(self, claim: Claim, work: Preparation, status: int) -> None:
        """The output of a test whose commit could not be made ready."""
        outcomes, kind = claim.test.outcomes, kind_of_log(claim.run)
        path = outcomes.log_of(claim.commit, kind)
        if path != work.log:
            try:
                _, log = outcomes.open_log(claim.commit, kind)
                self.note(
                    log,
                    (
                        f"the commit could not be made ready ({status}); what was printed is in"
                        f" {work.log}"
                    ),
                )
                os.close(log)
            except OSError:
                self.look_for_room(claim)
        claim.log = path

    # -- a test ------------------------------------------------------------------------

    def one(self, slot: Slot, claim: Claim) -> Steps:
        """The status of a test, 0 to 255; for a task."""
        try:
            log = self.open_output(slot, claim)
        except OSError:
            self.look_for_room(claim)
            self.voice.say(f"{claim.log} cannot be written")
            return NOT_BELIEVED
        try:
            # by the first that takes a step: what others change there from then on is none of it
            if slot.before is None:
                slot.note()
            if self.asking is not None:
                return (yield from self.ask(self.asking, slot, claim))
            often = self.run_often if self.settings.measure is None else self.measure
            status = yield from often(slot, claim, log)
            status = self.look_for_missing(claim, self.look_behind(slot, claim, status, log), log)
            return turned(status) if self.settings.fixed else status
        except Cancelled:
            # what was ended in the middle has left half of something: the folder is made anew
            if self.asking is None:
                slot.spoil()
            raise
        except OSError as fault:
            self.look_for_room(claim)
            self.note(log, str(fault))
            slot.spoil()
            return NOT_BELIEVED
        finally:
            os.close(log)

    def ask(self, asking: Asking, slot: Slot, claim: Claim) -> Steps:
        """What a person says of a commit."""
        cwd = os.path.normpath(os.path.join(slot.folder, self.repo.prefix))
        env = dict(self.environment(slot, claim, cwd), PWD=cwd)
        status = yield from asking.ask(slot, claim, env)
        before = slot.before
        if before is not None and (before.changed() or before.list_left() != before.left):
            slot.spoil()
        return status

    @staticmethod
    def open_output(slot: Slot, claim: Claim) -> int:
        """The file for what a test prints, behind what was printed as its commit was made ready,
        where that is its own."""
        outcomes, kind = claim.test.outcomes, kind_of_log(claim.run)
        claim.log, before = outcomes.log_of(claim.commit, kind), slot.output
        slot.output = ""
        if before == claim.log and os.path.isfile(before):
            return os.open(before, os.O_WRONLY | os.O_APPEND | os.O_NOFOLLOW | os.O_CLOEXEC)
        return outcomes.open_log(claim.commit, kind)[1]

    def run_often(self, slot: Slot, claim: Claim, log: int) -> Steps:
        """The status of the run that decides: with --retry a failure is none yet, and with --repeat
        a good run. One of --missing decides."""
        settings, count = self.settings, 1
        while True:
            status = yield from self.command(slot, claim, claim.test.words, log)
            fails = status < SKIP and status not in settings.missing
            again = count < settings.repeat if status == 0 else fails and count <= settings.retry
            if not again:
                return status
            self.note(log, f"run {count} ended with {status}, and the test is run again")
            count += 1

    def measure(self, slot: Slot, claim: Claim, log: int) -> Steps:
        """The status of a commit by the numbers that its runs print. One of --missing decides, and
        so does a run that has no number."""
        from .measuring import Meter

        assert self.settings.measure is not None
        path = os.path.join(self.run.state, "out-%d" % claim.seat)
        meter, status = Meter(claim, self.settings.measure, path), None
        while status is None:
            out = meter.open()
            try:
                ended = yield from self.command(slot, claim, claim.test.words, log, out)
                number = meter.bring(out, log)
            finally:
                os.close(out)
            status = ended if ended in self.settings.missing else meter.take(ended, number)
        return status

    def look_for_missing(self, claim: Claim, status: int, log: int) -> int:
        """The status that one of --missing stands for."""
        meant = self.settings.missing.get(status)
        if meant is None:
            return status
        claim.missing = True
        self.note(
            log,
            f"the test is not there: it ended with {status}, which stands for {meant} (--missing)",
        )
        return meant

    # -- the command -----------------------------------------------------------

    def command(
        self, slot: Slot, job: Job, words: List[str], log: int, out: Optional[int] = None
    ) -> Steps:
        """Runs a command in a checkout, and ends what it leaves behind. What it prints goes to the
        log; its standard output goes to a file of its own where there is one."""
        cwd = os.path.normpath(os.path.join(slot.folder, self.repo.prefix))
        if not os.path.isdir(slot.folder):
            raise OSError(f"{slot.folder} was removed")
        if cwd != slot.folder and not os.path.isdir(cwd):
            self.note(log, f"no folder {self.repo.prefix} in this commit")
            return SKIP
        if not os.path.isdir(slot.build):
            os.makedirs(slot.build, exist_ok=True)
        env = self.environment(slot, job, cwd)
        if os.path.lexists(self.host_file(job)):
            os.unlink(self.host_file(job))
        job.begin_command()
        self.ended.note(job.seat, env)
        try:
            child = job.child = self.start(slot, job, Command(words, env, cwd, log, own_out=out))
        except OSError as fault:
            self.ended.forget(job.seat)
            self.note(log, f"{words[0]}: {fault.strerror}")
            return 127 if fault.errno == errno.ENOENT else 126
        self.watch_room(slot, job)
        seconds = self.seconds_of(job)
        end_late = self.limit(job, child, seconds)
        was_ended = True
        try:
            yield child
            self.watch_room(slot, job)
            was_ended = job.at_limit or (child.status or 0) < 0
        finally:
            end_late()
            if child.status is None:
                yield from child.end()
            self.look(job)
            was_killed = yield from end_holders(slot.lock_of(job.seat), exact=True)
            if was_killed or child.was_killed:
                self.tell_killed(job)
            yield from self.run_ended(job, env, log, was_ended)
        return self.status_behind(slot, job, child, log)

    def status_behind(self, slot: Slot, job: Job, child: Child, log: int) -> int:
        """The status of a command that has ended. What was ended in the middle, by whomever, may
        have left half of something."""
        if job.at_limit or status_of(child) > BY_SIGNAL:
            slot.spoil()
        if job.at_limit:
            self.note(log, f"{job.commit} took longer than {self.seconds_of(job)} s and is skipped")
            return SKIP
        return self.believed(slot, job, status_of(child), log)

    def believed(self, slot: Slot, job: Job, status: int, log: int) -> int:
        """The status of a command; one that was to run apart, and could not begin, told nothing."""
        if slot.shop.private is None or slot.shop.private.has_begun(job.seat):
            return status
        self.note(log, f"the command did not begin (--private); {status} is not its own")
        return NOT_BELIEVED

    def seconds_of(self, job: Job) -> Optional[int]:
        """How long it may take."""
        if isinstance(job, Preparation) and self.settings.build_timeout is not None:
            return self.settings.build_timeout
        return self.settings.timeout

    def host_file(self, job: Job) -> str:
        """The file in which a command names the machine that it runs its test on, where that is
        another one."""
        return os.path.join(self.run.state, "host-%d" % job.seat)

    def look(self, job: Job) -> None:
        """Takes what a command has told of the machine that it runs its test on. The first line is
        its name, empty as long as the command waits for one; each further line is for the user."""
        path = self.host_file(job)
        if job.child is None or not os.path.isfile(path):
            return
        host, *told = content(path).split(b"\n")
        self.note_wait(job, path, not host)
        job.host = shown(host, LONGEST_HOST)
        for line in told[job.told : -1]:
            job.lost += line.startswith(LOST)
            self.voice.say(f"the test of {job.commit[:12]} {shown(line, LONGEST_TOLD)}")
        job.told = max(job.told, len(told) - 1)

    @staticmethod
    def note_wait(job: Job, path: str, waits: bool) -> None:
        """Whether a command waits for a machine. It began there when its file was written, by a
        clock that may be another one's."""
        now = time.monotonic()
        if waits:
            if job.waits is None:
                job.waits, job.mark = (now if job.host else job.ran), 0.0
        elif job.waits is not None:
            waited = now - min(LOOK, max(0.0, time.time() - os.stat(path).st_mtime)) - job.waits
            job.began, job.ran = job.began + max(0.0, waited), job.ran + max(0.0, waited)
            job.waits, job.mark = None, 0.0

    def environment(self, slot: Slot, job: Job, cwd: str) -> Dict[str, str]:
        """What a test finds in its environment: the caller's, and words of ours."""
        env = dict(
            self.repo.test_env,
            FARMDAWN_WORKTREE=slot.folder,
            FARMDAWN_COMMIT=job.commit,
            FARMDAWN_WORKER=str(job.seat),
            FARMDAWN_BUILD=slot.build,
            FARMDAWN_HOST_FILE=self.host_file(job),
        )
        if "PWD" in env:
            env["PWD"] = cwd
        seconds = self.seconds_of(job)
        if seconds:
            env["FARMDAWN_TIMEOUT"] = str(seconds)
        return env

    def start(self, slot: Slot, job: Job, command: Command) -> Child:
        """Starts it with the locks of the run and of the job open. A script without a first line #!
        is one of sh."""
        lock = slot.open_lock(job.seat)
        keep = [lock] if self.run.lock is None else [self.run.lock, lock]
        if slot.place is not None:
            keep.append(slot.place.lock)
        private = slot.shop.private
        if private is not None:
            command = private.wrap(job.seat, command, not job.is_build)
        command = command._replace(keep=keep, lock=slot.lock_of(job.seat))
        try:
            try:
                return Child(slot.shop.loop, slot.shop.keeper, command)
            except OSError as fault:
                if fault.errno != errno.ENOEXEC:
                    raise
                return Child(
                    slot.shop.loop,
                    slot.shop.keeper,
                    command._replace(words=["/bin/sh", *command.words]),
                )
        finally:
            os.close(lock)

    def tell_killed(self, job: Job) -> None:
        """What a test started did not end as it was asked to."""
        what = "the build of " if job.is_build else "the test of "
        self.voice.tell(f"{what}{job.commit[:12]} was killed {GRACE:.0f} s behind SIGTERM")

    def run_ended(
        self, job: Job, env: Dict[str, str], log: int, was_ended: bool
    ) -> Generator[Union[Child, float], object, None]:
        """Runs the command of --ended behind a test or a build that did not end by itself."""
        child = job.child
        if was_ended and child is not None and self.ended.command is not None:
            try:
                yield from self.ended.run(child.loop, child.keeper, log, env)
            except OSError as fault:
                self.voice.once(
                    "ended", f"--ended, run for {job.commit[:12]}: {fault.strerror or fault}"
                )
        self.ended.forget(job.seat)

    def limit(self, job: Job, child: Child, seconds: Optional[int]) -> Callable[[], None]:
        """Has a command ended that takes longer, without the time that it waits for a machine;
        gives what is called when it has ended before."""
        loop = child.loop
        if not seconds:
            return lambda: None
        longest, timers = float(seconds), []

        def end() -> None:
            """It may be at its limit. What a test that has ended left there is none of its time."""
            self.look(job)
            rest = LOOK if job.waits is not None else job.ran + longest - time.monotonic()
            if rest > 0:
                timers.append(loop.later(rest, end))
            elif not child.over:
                job.at_limit = True
                child.ask()
                loop.later(GRACE, child.kill)

        timers.append(loop.later(longest, end))

        def off() -> None:
            """It has ended before."""
            timers[-1].off = True

        return off

    # -- behind it -------------------------------------------------------------

    def look_behind(self, slot: Slot, claim: Claim, status: int, log: int) -> int:
        """Whether the test left the checkout as it was; its status, or 255 where it is not
        believed."""
        before = slot.before
        assert before is not None
        changed, left = before.changed(), before.list_left()
        if left != before.left:
            self.voice.once(
                "left",
                (
                    f'the test of {claim.commit} left in its checkout: {" ".join(left)}; the next'
                    " test begins without"
                ),
            )
        if changed or left != before.left:
            slot.ready = ""
        if not changed:
            return status
        slot.broken = True
        if status >= FIRST_STOP:
            return status
        self.note(log, f"the test of {claim.commit} {changed}; what it told is not believed")
        return NOT_BELIEVED

    def note(self, log: int, text: str) -> None:
        """Adds a line of ours to an output."""
        try:
            os.write(log, os.fsencode(f"{ME}: {text}\n"))
        except OSError:
            pass

    def look_for_room(self, claim: Claim) -> None:
        """Raises NoRoom where a disk is full: a test gives no verdict there."""
        kept = claim.test.outcomes
        for place in one_a_disk((self.run.state, kept.log_dir, kept.folder)):
            if not has_room(place):
                raise NoRoom(place)
        if claim.lacked_room:
            raise NoRoom(claim.lacked_room)

    def places_of(self, slot: Slot) -> List[str]:
        """Where a test writes: its checkout, what is built, and its temporary files."""
        private = slot.shop.private
        scratch = self.repo.user_env.get("TMPDIR") or "/tmp"
        return [slot.folder, slot.build, scratch if private is None else private.rooms]

    def watch_room(self, slot: Slot, job: Job) -> None:
        """Looks whether a disk is all but full while a command runs: what fails then may have
        removed its files at its end."""
        for place in self.places_of(slot):
            if is_scarce(place):
                job.lacks_room(place)
        child = job.child
        if child is not None and child.status is None and not job.lacked_room:
            slot.shop.loop.later(LOOKS, self.watch_on, slot, job, child)

    def watch_on(self, slot: Slot, job: Job, child: Child) -> None:
        """The same again, where that command still runs."""
        if child.status is None:
            self.watch_room(slot, job)


def status_of(child: Child) -> int:
    """The status of a command that has ended, as a shell has it."""
    status = child.status if child.status is not None else -signal.SIGKILL
    return status if status >= 0 else 128 - status
