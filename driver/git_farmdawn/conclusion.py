"""What is told of a search that is over: its log and answer, what its test printed, what it stands
on, and what it took."""
from __future__ import annotations

import os
import time
from typing import TYPE_CHECKING, Iterator, List, Optional, Union

from .host.files import last_lines, write_whole
from .known import evidence, notes, several
from .known.notes import Kind
from .telling.facts import NAME, End
from .telling.numbers import of_hundred
from .telling.status import Status
from .telling.text import shown
from .telling.voice import about, counted, lasting, rounds

if TYPE_CHECKING:
    from .known.record import Searched, Test
    from .repository.repository import Repository
    from .telling.voice import Stop, Telling

SHOWN_LINES, SHOWN_FILES = 24, 12  # of git show
TEST_LINES = 5
STOP_LINES = 10
MOST_CANDIDATES = 10
SUBJECT = 60


def write_out(data: bytes) -> None:
    """To the standard output; raises OSError where it takes no more."""
    while data:
        data = data[os.write(1, data[: 1 << 16]) :]


def is_terminal() -> bool:
    """Whether a person reads the standard output as it comes."""
    try:
        return os.isatty(1)
    except OSError:
        return False


def tell_output(voice: Telling, path: Optional[str], count: int) -> None:
    """The last lines of what a test printed."""
    if path:
        voice.show(last_lines(path, count), "    ")


class Together:
    """Tests that have names: their answers are told by commit, and each in a line."""

    def __init__(self, known: Searched, voice: Telling) -> None:
        self.known, self.voice = known, voice

    def answers(self) -> Iterator[str]:
        """The answers, to be seen at once."""
        return several.first_lines(self.known, self.voice)

    def tell_found(self, test: Test, name: str) -> None:
        """The first bad commit of one: it stands among all of them."""

    def tell_candidates(self, names: List[str]) -> None:
        """The commits of which one is the first bad one: the same."""

    def tell_all(self) -> None:
        """The answers by commit, where they are not on the terminal, and the tests that have
        none."""
        self.voice.say(several.heading(self.known) + ":")
        for line in [] if is_terminal() else self.answers():
            self.voice.line(line)
        for line in several.other_lines(self.known):
            self.voice.line(line)

    def sums(self) -> str:
        """What all of it took."""
        return several.sums(self.known)


class Alone:
    """The one test that has no name: its answer is told with all that it stands on."""

    def __init__(self, known: Searched, repo: Repository, voice: Telling) -> None:
        self.known, self.settings, self.commits = known, known.settings, known.commits
        self.repo, self.voice = repo, voice

    def answers(self) -> Iterator[str]:
        """The answer, to be seen at once."""
        for test in self.known.tests:
            for line in test.told.answer:
                yield self.voice.bold(os.fsdecode(line))

    def tell_found(self, test: Test, name: str) -> None:
        """The commit, its test, and its parents."""
        if not self.voice.quiet:
            self.show_commit(name)
            self.tell_evidence(test, name)

    def show_commit(self, name: str) -> None:
        """The commit in one screen; where its message or its files are cut, `..` stands."""
        text = self.repo.run(
            "-c",
            "log.showSignature=false",
            "show",
            "--no-ext-diff",
            "--stat",
            f"--stat-count={SHOWN_FILES}",
            "--format=medium",
            name,
            check=False,
        )
        lines = text.split(b"\n")[:-1]
        files = [line for line in lines if line[:1] == b" " and line[:4] != b"    "]
        front, most = lines[: len(lines) - len(files)], SHOWN_LINES - len(files)
        if len(front) > most:
            front = front[: most - 2] + [b"    ..", b""]
        self.voice.show(front + files)

    def tell_evidence(self, test: Test, name: str) -> None:
        """How its own test ended, and what its parents were."""
        for note in notes.evidence_of(self.known, test):
            self.voice.line(note.text)
            if note.kind is Kind.OWN:
                path = os.path.join(test.outcomes.log_dir, name + ".log")
                tell_output(self.voice, path, TEST_LINES)

    def tell_candidates(self, names: List[str]) -> None:
        """The commits of which one is the first bad one."""
        if self.voice.quiet or not names:
            return
        self.voice.line("one of %s:" % counted(len(names), "commit"))
        for name in names[:MOST_CANDIDATES]:
            subject = shown(self.commits.subject[name], SUBJECT)
            self.voice.line("    %s  %s" % (name[:NAME], subject))
        if len(names) > MOST_CANDIDATES:
            self.voice.line("    and %d more" % (len(names) - MOST_CANDIDATES))

    def tell_all(self) -> None:
        """Where it was not there."""
        for test in self.known.tests:
            if test.seen.missing:
                self.voice.tell("the test: " + several.not_there(self.known, test))

    def sums(self) -> str:
        """What all of it took."""
        if self.known.builds:
            return several.sums(self.known)
        rows = [row for test in self.known.tests for row in test.seen.rows if row.ran]
        text, used = several.counts(self.known, rows), several.used_rows(self.known)
        if self.settings.workers > 1 and used and not self.settings.by_hand:
            text += "; one at a time about " + lasting(several.one_at_a_time(used))
        return text


class Conclusion:
    """Tells what came of the searches."""

    def __init__(self, known: Searched, repo: Repository, voice: Telling) -> None:
        self.known, self.settings, self.repo, self.voice = known, known.settings, repo, voice
        self.tests, self.commits = known.tests, known.commits
        self.form: Union[Together, Alone] = (
            Together(known, voice) if known.has_names else Alone(known, repo, voice)
        )

    # -- three ways to end ----------------------------------------------------------

    def tell_answers(self) -> None:
        """What there is to say of each search, of all, and what they took."""
        for test in self.tests:
            self.tell_answer(test)
        self.tell_not_alone()
        self.form.tell_all()
        ran = [row for test in self.tests for row in test.seen.rows if row.ran]
        if not self.voice.quiet and (ran or self.known.builds):
            self.voice.line(self.form.sums())

    def tell_stopped(self, reason: str) -> None:
        """Nothing is lost: the searches can go on."""
        for test in self.tests:
            if test.odds:
                name, odds = test.odds[0]
                self.voice.tell("odds so far: %s %s" % (name[:NAME], of_hundred(odds)))
        count = sum(test.outcomes.count() for test in self.tests)
        why = reason + ": " if reason else ""
        line = "the same line without --fresh" if self.settings.fresh else "the same line"
        self.voice.tell("%sstopped; %s goes on from %s" % (why, line, counted(count, "outcome")))

    def tell_refused(self, stop: Stop) -> None:
        """Why, and of an end what to look at."""
        self.voice.say(stop.text)
        advice: List[str] = []
        commit = ""
        if isinstance(stop, evidence.WrongEnd):
            is_swapped = self.is_swapped(stop.end)
            due = stop.advice or evidence.what_to_do(stop.end, stop.test_status, is_swapped)
            advice.append(due)
            self.voice.say(due)
            tell_output(self.voice, stop.log, TEST_LINES)
            commit = stop.end.commit
        is_beside = any(test.seen.ran_beside(commit) for test in self.tests)
        if stop.status == Status.REFUSED and is_beside and not self.settings.private:
            advice.append(evidence.BESIDE)
            self.voice.say(evidence.BESIDE)
        for test in self.tests:
            test.advise(*advice)

    def is_swapped(self, end: End) -> bool:
        """Whether the bad commit comes before this end, or before a good one where this is the bad
        one itself."""
        goods = [good for good in self.commits.beside if end.is_bad or good == end.commit]
        return any(
            self.repo.succeeds("merge-base", "--is-ancestor", self.settings.bad, good)
            for good in goods
        )

    # -- the log -----------------------------------------------------------------

    def log_text(self, with_answer: bool) -> bytes:
        """The logs of all searches."""
        lines: List[bytes] = []
        for test in self.tests:
            lines += several.titles(test, self.settings.is_list)
            lines += (
                self.known.log_lines(test, with_answer)
                if test.wrong is None
                else [b"# " + os.fsencode(several.left_out(test))]
            )
        return b"".join(line + b"\n" for line in lines)

    def print_log(self, with_answer: bool) -> bool:
        """Prints the log and the answer; on a terminal the answer alone. False where the output
        takes no more."""
        text = self.log_text(with_answer)
        path = self.keep_log(text)
        try:
            if not is_terminal():
                write_out(text)
                return True
            if with_answer:
                write_out(self.answer_text())
            if path:
                self.voice.tell("the log is in " + path)
            return True
        except OSError:
            self.voice.say(
                "the standard output cannot be written; the log is in " + path
                if path
                else "the standard output cannot be written, and no file either"
            )
            return False

    def answer_text(self) -> bytes:
        """The answers, to be seen at once."""
        return b"".join(os.fsencode(line) + b"\n" for line in self.form.answers())

    def keep_log(self, text: bytes) -> Optional[str]:
        """Keeps the log beside the outcomes; the file, or None where it cannot be written."""
        path = os.path.join(self.tests[0].outcomes.folder, "log")
        try:
            write_whole(path, text)
            return path
        except OSError:
            return None

    # -- the answer of one search ----------------------------------------------------

    def tell_answer(self, test: Test) -> None:
        """What there is to say of one search."""
        if test.status == Status.FOUND:
            self.tell_found(test)
        elif test.status == Status.ONLY_SKIPPED:
            self.tell_candidates(test)
        elif test.status == Status.TEST_STOPPED:
            self.tell_stop(test)

    def tell_found(self, test: Test) -> None:
        """The commit, its test, its parents, and what speaks against it."""
        name = test.named(self.commits)
        if name is None:
            return
        voice = self.voice
        self.form.tell_found(test, name)
        self.tell_notes(test)
        found = test.contradictions(self.commits)
        for line in evidence.tell_contradictions(found, *self.settings.terms):
            voice.say(test.front + line) if not line.startswith(" ") else voice.line(line)

    def tell_notes(self, test: Test) -> None:
        """How sure the answer is."""
        for note in notes.of_answer(self.known, test):
            tell = self.voice.say if note.is_doubt else self.voice.tell
            tell(test.front + note.text)

    def tell_not_alone(self) -> None:
        """How many answers stand on tests that ran beside others alone."""
        count = sum(test.alone is False for test in self.tests)
        if count:
            front = "%s: " % counted(count, "answer") if self.known.has_names else ""
            self.voice.tell(front + evidence.NOT_ALONE)

    def tell_candidates(self, test: Test) -> None:
        """The commits of which one is the first bad one."""
        self.form.tell_candidates(test.all_named(self.commits))
        self.tell_notes(test)

    def tell_stop(self, test: Test) -> None:
        """What the test that stopped the search printed."""
        name = test.named(self.commits)
        if name is None:
            return
        path = os.path.join(test.outcomes.log_dir, name + ".log")
        if last_lines(path, 1):
            self.voice.say("%s stopped the search; the last lines of %s:" % (name, path))
            tell_output(self.voice, path, STOP_LINES)
        for note in notes.of_command(test, name):
            self.voice.say(note.text)


def tell_begin(known: Searched, repo: Repository, voice: Telling) -> None:
    """What is told before the first test: how much there is to do, and what is known of it."""
    settings, tests = known.settings, known.tests
    where = (
        tests[0].outcomes.log_dir
        if len(tests) == 1
        else settings.log_dir or settings.state or repo.folder
    )
    left = known.commits.total
    voice.tell(
        "%s to search, %s; outputs of tests are in %s"
        % (counted(left, "commit"), about(rounds(left)), where)
    )
    kept = sum(len(test.seen.kept) for test in tests)
    if kept:
        last = max((latest(test) for test in tests if test.seen.kept), default=0.0)
        voice.tell(
            "%s, the last one of %s; --fresh tests anew"
            % (
                notes.known_before(kept),
                time.strftime("%Y-%m-%d %H:%M", time.localtime(last)),
            )
        )
    if os.path.exists(os.path.join(repo.top or ".", ".gitmodules")) and not settings.submodules:
        voice.tell("checkouts have no submodules; --submodules brings them")


def latest(test: Test) -> float:
    """When the last of the kept outcomes was found."""
    times = []
    for commit in test.seen.kept:
        try:
            times.append(os.stat(test.outcomes.path(commit)).st_mtime)
        except OSError:
            continue
    return max(times, default=0.0)
