"""--retest FILE: the answer of a certificate and its parents are tested on this machine.

The file is made by others, and may say anything. `check` has found that its lines hold together
before anything of them is used here. No command of it is run that was not seen and agreed to, on
the terminal or by standing in the line; of its options only those are taken that the table calls
certified. What is tested is the answer and its parents, which stand for the ends of a search."""
from __future__ import annotations

import os
import re
from typing import TYPE_CHECKING, Callable, Iterator, List, Tuple

from .certificate.answer_file import Answer
from .certificate.certificate import parents_of
from .host.files import kind_of_log, last_lines
from .line import settings as reading
from .line.options import Line, Word
from .line.table import BY_WORD
from .telling.facts import NAME, counts_of, decided
from .telling.status import Status
from .telling.text import by_number, visible
from .telling.voice import ME, Stop, quoted

if TYPE_CHECKING:
    from .known.record import Test
    from .line.settings import Settings
    from .repository.repository import Repository
    from .search.search import Search
    from .telling.voice import Telling

SHOWN_LINES = 5
REPEATS = ("--retry", "--repeat")  # of which one alone stands in a line
SHARES = "--link"  # what tests change there is the user's


def decoded(word: str) -> str:
    """A word as it was, out of its line."""
    raw = re.sub(rb"\\([0-7]{3})", lambda match: bytes([int(match.group(1), 8)]), word.encode())
    return os.fsdecode(raw)


def may_run(answer: Answer, line: Line) -> None:
    """Asks on the terminal before a shell runs anything of the file: its command and its build, but
    for those that the line has itself. Without a terminal they must stand in the line."""
    command = line.command or [decoded(word) for word in answer.words]
    words = " ".join(quoted(word) for word in command)
    build = decoded(answer.build or "") if "--build" not in dict(line.values) else ""
    found = ["the build " + build] if build else []
    found += ["the command " + words] if line.command is None else []
    if not found:
        return
    try:
        terminal = os.open("/dev/tty", os.O_RDWR | os.O_CLOEXEC | os.O_NOCTTY)
    except OSError:
        named = ["--build " + quoted(build)] if build else []
        raise Stop(
            Status.REFUSED,
            "what comes from the file is run where you name it: "
            + " ".join([ME, "--retest", quoted(line.file), *named, "--", words]),
        ) from None
    options = [quoted(decoded(word)) for word in answer.options]
    found += ["with " + " ".join(options)] if options else []
    text = "".join("\n    " + visible(one, by_number) for one in found)
    question = "%s: from %s comes:%s\nRun it here? [y/N] " % (ME, visible(line.file), text)
    try:
        os.write(terminal, os.fsencode(question))
        said = os.read(terminal, 100).strip().lower()
    finally:
        os.close(terminal)
    if said not in (b"y", b"yes"):
        raise Stop(Status.REFUSED, "it is not run")


def claimed(answer: Answer) -> Iterator[Tuple[str, str]]:
    """The options of a file with their values, of those that a certificate has."""
    for word, value in (
        ("--term-new", answer.term if answer.term != "bad" else None),
        ("--term-old", answer.old if answer.old != "good" else None),
        ("--build", answer.build),
        ("--retry", str(answer.retry) if answer.retry else None),
        ("--repeat", str(answer.repeat) if answer.repeat > 1 else None),
    ):
        if value is not None:
            yield word, decoded(value)
    words = iter(answer.options)
    for word in words:
        word, _, own = word.partition("=")  # --measure alone has its value behind it
        row = BY_WORD.get(word)
        if row is None or not row.certified:
            raise Stop(Status.REFUSED, "the file has an option %s, which no certificate has" % word)
        value = "" if row.kind == "flag" else decoded(own or next(words, ""))
        if not row.several:  # what is tested here is one test
            yield word, value


def fill(line: Line, answer: Answer) -> None:
    """What the line leaves open is as the file has it."""
    given = {option for option, _ in line.values}
    given |= set(REPEATS) if given & set(REPEATS) else set()
    for word, value in claimed(answer):
        if BY_WORD[word].kind == "flag":
            line.flags.append(word)
        elif word not in given:
            if word == SHARES:
                raise Stop(
                    Status.REFUSED,
                    "the file has %s %s: what tests change there is yours; name it in the line, too"
                    % (word, quoted(visible(value, by_number))),
                )
            line.values.append((word, value))


def settings_of(line: Line, repo: Repository, voice: Telling, answer: Answer) -> Settings:
    """The settings: the ends are the answer and its parents, and what the line leaves open is as
    the file has it."""
    parents = parents_of(repo, [answer.bad])[answer.bad]
    parents = parents[:1] if answer.first_parent else parents
    if not parents:
        raise Stop(Status.REFUSED, "%s has no parent that could be tested" % answer.bad)
    if decoded(answer.folder) != repo.prefix:
        raise Stop(
            Status.REFUSED,
            "its command was run in the folder %s of the work tree; run this there"
            % (decoded(answer.folder) or "at the top"),
        )
    may_run(answer, line)
    line.command = line.command or [decoded(word) for word in answer.words]
    line.ends += [Word(name, at) for at, name in enumerate([answer.bad] + parents)]
    fill(line, answer)
    wanted = reading.read(line, repo, voice)
    wanted.take(BY_WORD["--confirm"], wanted.confirm or 0)
    return wanted


def said_of(test: Test, commit: str, is_bad: bool, settings: Settings) -> str:
    """A line of what the tests of a commit said."""
    statuses = test.seen.runs_of(commit)
    good, bad = counts_of(statuses)
    often = "%d of %d" % (bad if is_bad else good, good + bad) if good + bad > 1 else ""
    if not good + bad:
        ended = [row.status for row in test.seen.rows if row.commit == commit]
        return "none  %s  its test says nothing here: it ended with %s" % (
            commit[:NAME],
            ended[-1] if ended else "nothing",
        )
    status = decided(statuses)
    word = settings.terms[0 if status else 1]
    as_claimed = good != bad and (status != 0) == is_bad
    return "%-4s  %s  %s (%s)" % (
        word,
        commit[:NAME],
        "as claimed" if as_claimed else "NOT as claimed",
        ", ".join(part for part in (test.seen.ended(commit, status), often) if part),
    )


def tell(test: Test, commits: List[str], settings: Settings) -> bool:
    """Prints what was said of each commit; whether all is as claimed."""
    lines = [said_of(test, commit, not at, settings) for at, commit in enumerate(commits)]
    sure = all("  as claimed" in line for line in lines)
    lines.append("confirmed on this machine" if sure else "not confirmed on this machine")
    os.write(1, "".join(line + "\n" for line in lines).encode("utf-8", "surrogateescape"))
    return sure


def tell_outputs(voice: Telling, test: Test, commits: List[str]) -> None:
    """The last lines of the tests that were not as claimed."""
    for at, commit in enumerate(commits):
        status = decided(test.seen.runs_of(commit) or [125])
        if (status != 0) == (at == 0) and status != 125:
            continue
        rows = [row for row in test.seen.rows if row.commit == commit and row.status is not None]
        if rows:
            voice.line("the last lines of the test of %s:" % commit[:NAME])
            path = os.path.join(test.outcomes.log_dir, commit + kind_of_log(rows[-1].run))
            voice.show(last_lines(path, SHOWN_LINES), "    ")


def retest(search: Search, turn: Callable[[], None]) -> int:
    """The tests of git farmdawn --retest; gives the status: 0 where all is as claimed, else 1."""
    known = search.known
    for _ in search.history.stream():  # nobody asks for it, but the commits have their places by it
        pass
    settings, test = known.settings, known.tests[0]
    search.shop.loop.note_signals()
    commits = [settings.bad] + settings.goods
    search.confirming(turn).test_again([(test, commit) for commit in commits])
    search.stop_all()
    sure = tell(test, commits, settings)
    if not sure:
        tell_outputs(search.voice, test, commits)
    return Status.FOUND if sure else Status.REFUSED
