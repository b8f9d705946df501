"""What a search is to do: the values of the options, the ends and the tests, as the repository
knows them.

All of it is read before anything is made, so that a wrong line leaves nothing behind. Faults are
told in the order in which a person mends them: words, ends, files. The command of a log or a report
is `typed`, which can be given again; that in `tests` has the full names of files elsewhere."""
from __future__ import annotations

import os
import re
import time
from typing import TYPE_CHECKING, Dict, List, Optional, Tuple

from ..host.files import find_program, has_room, open_named
from ..telling.status import Status
from ..telling.voice import ME, Stop, counted
from . import machines, options, versions
from .named import TOP, NamedFiles, full_path
from .options import OF_BISECT, Line, Word, nearest
from .table import BY_WORD, MEANINGS, OPTIONS, Option

if TYPE_CHECKING:
    from ..telling.numbers import Threshold
    from .replaying import Log
    from ..repository.repository import Repository
    from ..telling.voice import Telling
    from . import lists

MOST_TESTS = 512  # each has a lock open
SHELL = ["/bin/sh", "-c"]
OF_TESTS = ("--test", "--tests", "--tests-from")


def seconds_of_environment() -> Tuple[int, Optional[int]]:
    """The seconds of FARMDAWN_WATCH and of FARMDAWN_NEEDED; None for `never`."""
    watch = options.number(
        "FARMDAWN_WATCH", os.environ.get("FARMDAWN_WATCH") or "60", options.MOST_SECONDS
    )
    needed = os.environ.get("FARMDAWN_NEEDED") or "5"
    if needed == "never":
        return watch, None
    if not re.fullmatch("0|[1-9][0-9]{0,8}", needed):
        raise Stop(
            Status.REFUSED,
            "FARMDAWN_NEEDED wants seconds, from 0 to 999999999, or the word never, and not '%s'"
            % needed,
        )
    return watch, int(needed)


class Settings:
    """The values of the options where they are not given; `read` makes them those of a line."""

    first_parent = check_ends = trust_ends = fixed = by_hand = submodules = together = False
    clean = private = alone = fresh = quiet = open = False

    def __init__(self) -> None:
        self.workers = min(options.MOST_WORKERS, os.cpu_count() or 2)
        self.pool: Optional[str] = None  # the folder of --pool
        self.keep: Optional[int] = None  # bytes that it may have
        self.term_new: Optional[str] = None
        self.term_old: Optional[str] = None
        # the second is how BAD is named where no GOOD is
        self.bad = self.looks_back = ""
        self.goods: List[str] = []
        self.skips: List[str] = []
        # how often an answer is tested again; None where that is for the search to say
        self.confirm: Optional[int] = None
        # how often a good commit fails, and a bad one passes
        self.noise: Optional[Tuple[float, float]] = None
        # what parts good numbers from bad ones; one without a number comes from the ends
        self.measure: Optional[Threshold] = None
        # failures that do not count yet, good runs that are wanted, and odds
        self.retry, self.repeat, self.sure = (0, 1, 0.99)
        self.paths: List[str] = []  # as pathspecs of git
        self.log_paths = ""  # the same behind the start line of the log
        # below the work tree, by --copy and by --link
        self.copies, self.links = [], []  # type: List[str], List[str]
        # these, and what the command names there; and files elsewhere that it names
        self.brought, self.outside = [], []  # type: List[str], List[str]
        # by --with and --apply, and the sums of what both bring; the work tree
        self.owns, self.patches = [], []  # type: List[versions.Own], List[versions.Patch]
        # and full paths in the words of the command
        self.sums, self.top, self.named = [], "", []  # type: List[str], str, List[str]
        self.timeout: Optional[int] = None
        self.deadline: Optional[float] = None  # by time.monotonic()
        self.state: Optional[str] = None  # the folder of --state
        self.log_dir: Optional[str] = None
        self.log_limit = 10000000
        # the log to go on from, by full names and without paths
        self.replay: Optional[bytes] = None
        self.certificate: Optional[str] = None
        self.report: Optional[str] = None
        self.build: Optional[List[str]] = None
        self.tests: List[Tuple[str, List[str]]] = []
        self.short: Dict[str, str] = {}  # the name of a test for files
        # the class and the name of a test, from a file of JUnit
        self.cases: Dict[str, Tuple[str, str]] = {}
        self.is_list = False  # whether the tests are those of a list, and no lines of sh
        self.missing: Dict[int, int] = {}  # what a status of a runner that finds no test stands for
        self.build_timeout: Optional[int] = None
        self.ended: Optional[str] = None  # a line of sh
        self.typed: Dict[str, List[str]] = {}  # the words of a test as they were typed
        self.watch, self.needed = seconds_of_environment()
        self.farmdawn = find_program()

    # -- taking them -----------------------------------------------------------

    def take(self, row: Option, value: object) -> None:
        """The value of an option."""
        setattr(self, row.place, value)

    def take_ends(self, names: List[str]) -> None:
        """The bad commit, and the good ones."""
        self.bad, self.goods = names[0], list(dict.fromkeys(names[1:]))

    def ask(self) -> None:
        """A person says what a commit is: a test without words. The ends are as they are called."""
        self.by_hand, self.trust_ends, self.confirm = True, not self.check_ends, 0
        self.tests.append(("", []))

    def take_alone(self) -> None:
        """The answer is to be tested with nothing beside it, however long that takes."""
        self.alone = True

    def look_back(self, name: str) -> None:
        """No GOOD is named: one is looked for behind BAD, which has this name."""
        self.looks_back = name

    def take_log(self, log: Log) -> None:
        """What a log to go on from has of the search."""
        self.take_ends([log.bad, *log.goods])
        self.first_parent, self.replay = log.first_parent, log.text
        self.term_new, self.term_old = log.new, log.old

    def take_terms(self, new: str, old: str) -> None:
        """The words for bad and good, where none are given."""
        self.term_new = new if self.term_new is None else self.term_new
        self.term_old = old if self.term_old is None else self.term_old

    def add_log_path(self, shown: str) -> None:
        """A path, as the log has it."""
        self.log_paths = (self.log_paths or " '--'") + " " + shown

    def take_list(self, listed: List[lists.Listed], command: List[str]) -> None:
        """The tests of a list, and the command in which their names stand."""
        from . import lists

        tests = lists.by_name(listed)
        self.tests = [(name, lists.command_of(command, test)) for name, test in tests.items()]
        self.short = lists.short_names(tests)
        self.cases = {
            name: (test.parts["class"], test.parts["name"])
            for name, test in tests.items()
            if test.parts
        }
        self.is_list = True

    def note_typed(self) -> None:
        """The words of the commands, before files elsewhere get their full names."""
        self.typed = {name: list(words) for name, words in self.tests}
        self.typed["build"] = self.build or []

    def take_files(self, files: NamedFiles, settled: Dict[str, str]) -> None:
        """The files that the line names, and what became of words that name some."""
        self.tests = [
            (name, [settled.get(word, word) for word in words]) for name, words in self.tests
        ]
        self.copies, self.brought, self.outside = files.copies, files.brought, files.outside
        self.links, self.paths, self.named = files.links, files.paths, files.named
        self.owns, self.patches, self.top = files.owns, files.patches, files.repo.top
        self.sums = versions.sums_of(files.repo, files.owns, files.patches)

    # -- giving them back ------------------------------------------------------

    @property
    def terms(self) -> Tuple[str, str]:
        """The words of the log for bad and good."""
        return self.term_new or "bad", self.term_old or "good"

    def values_of(self, row: Option, folder: str = "") -> List[str]:
        """The values of an option as they may stand in a line that is given in a folder of the work
        tree; none where it is as without."""
        value = getattr(self, row.place)
        more = [options.ALONE] * (row.kind == "times" and self.alone)
        if value is None or value == row.plain:
            return more
        if row.kind in ("paths", "copies", "owns"):
            below = [path[len(TOP) :] for path in value] if row.kind == "paths" else value
            below = [own.path for own in value] if row.kind == "owns" else below
            return [os.path.relpath("/" + path, "/" + folder) for path in below]
        if row.kind == "patches":
            return [patch.value(self.top, folder) for patch in value]
        if row.kind == "statuses":
            words = {meaning: word for word, meaning in MEANINGS.items()}
            return ["%d=%s" % (status, words[meant]) for status, meant in sorted(value.items())]
        if row.kind == "sh":
            return [value[-1]]
        if row.kind == "shares":
            return ["%g,%g" % value]
        if row.kind == "share":
            return ["%g" % value]
        if row.kind == "threshold":
            return [value.word]
        return list(value) if row.many else [str(value), *more]

    def words_of(self, row: Option, folder: str = "") -> List[str]:
        """An option as it may stand there, with its values; nothing where it is as without."""
        if row.kind == "flag":
            return [row.word] if getattr(self, row.place) else []
        values = self.values_of(row, folder)
        if row.without:
            return [row.word + "=" + value for value in values]
        return [word for value in values for word in (row.word, value)]

    def outcome_words(self) -> List[str]:
        """The options on which it depends what a test ends with, as words; their order in the table
        bears on nothing. What a person said is of one search, and so are ends that are measured."""
        rows = sorted(OPTIONS, key=lambda row: row.word)
        words = [word for row in rows if row.outcome for word in self.words_of(row)]
        is_of_ends = self.by_hand or self.wants_threshold
        return words + ([self.bad, *self.goods] if is_of_ends else [])

    @property
    def wants_threshold(self) -> bool:
        """Whether the ends are to be measured before the search."""
        return self.measure is not None and self.measure.number is None

    def engine_words(self) -> List[str]:
        """The first words of a search, for the engine; those of a log stand in the log."""
        if self.replay is not None:
            return []
        words = ["--first-parent"] if self.first_parent else []
        words += ["--term-new", self.term_new] if self.term_new is not None else []
        return words + (["--term-old", self.term_old] if self.term_old is not None else [])


class Filler:
    """Fills the settings from a line."""

    def __init__(self, line: Line, repo: Repository, voice: Telling) -> None:
        self.line, self.repo, self.voice = line, repo, voice
        self.settings = Settings()
        self.files = NamedFiles(repo, voice)
        self.listed: List[lists.Listed] = []

    def fill(self) -> Settings:
        """All of it, in the order in which faults are told: words, ends, files."""
        settings = self.settings
        for flag in self.line.flags:
            settings.take(BY_WORD[flag], True)
        self.voice.quiet = settings.quiet
        for option, value in self.line.values:
            self.take(option, value)
        if self.line.state:
            settings.take(BY_WORD["--state"], os.path.abspath(self.line.state))
        if settings.keep is not None and settings.pool is None:
            raise Stop(Status.REFUSED, "--keep is for the folder of --pool; see %s -h" % ME)
        if settings.check_ends and settings.trust_ends:
            raise Stop(Status.REFUSED, "--check-ends and --trust-ends exclude each other")
        if settings.retry and settings.repeat > 1:
            raise Stop(Status.REFUSED, "--retry and --repeat exclude each other")
        for name, command in self.line.tests:
            self.add_test(name, command)
        if self.line.command is not None:
            self.take_command(self.line.command)
        if self.line.by_hand:
            settings.ask()
        self.check_odds()
        self.check_measure()
        if settings.fixed and settings.replay is None:
            settings.take_terms("fixed", "broken")
        options.check_terms(settings.term_new, settings.term_old)
        if settings.replay is None:
            self.find_ends(self.line.ends)
        self.settle()
        return settings

    def check_odds(self) -> None:
        """What has no meaning where outcomes are evidence and no proof."""
        settings, given = self.settings, [option for option, _ in self.line.values]
        if settings.noise is None:
            if "--sure" in given:
                raise Stop(Status.REFUSED, "--sure wants --noise")
            return
        for option in ("--confirm", "--certificate", "--replay", "--tests", "--tests-from"):
            if option in given:
                raise Stop(
                    Status.REFUSED,
                    "--noise and %s do not go together: its answer stands on odds" % option,
                )
        if self.line.tests or settings.check_ends:
            raise Stop(
                Status.REFUSED,
                "--noise and %s do not go together"
                % ("--test" if self.line.tests else "--check-ends"),
            )

    def check_measure(self) -> None:
        """What has no meaning where a number says what a commit is."""
        settings, given = self.settings, {option for option, _ in self.line.values}
        if settings.measure is None:
            return
        given |= {*self.line.flags, *(["--test"] if self.line.tests else [])}
        for option in ("--fixed", "--noise", "--repeat", "--retry", *OF_TESTS):
            if option in given:
                raise Stop(Status.REFUSED, "--measure and %s do not go together" % option)
        if settings.wants_threshold and settings.trust_ends:
            raise Stop(
                Status.REFUSED,
                "--measure measures the ends, or has a threshold, as --measure='>1.3s';"
                " --trust-ends wants one",
            )

    def take(self, option: str, value: str) -> None:
        """One option that has a value."""
        settings = self.settings
        if not value and option not in ("--path", "--replay"):
            raise options.wants_value(option)
        row = BY_WORD[option]
        if row.kind == "times" and value == options.ALONE:
            settings.take_alone()
        elif row.kind in options.READ:
            settings.take(row, options.READ[row.kind](option, value))
        elif row.kind == "shares":
            shares = [options.share(option, word, 0, 0.5) for word in value.split(",", 1)]
            settings.take(row, (shares[0], shares[-1]))
        elif row.kind == "statuses":
            settings.missing.update(options.missing(option, value))
        elif row.kind == "until":
            settings.take(row, time.monotonic() + options.until(option, value))
        elif row.kind == "pool":
            settings.take(row, self.pool_of(value))
        elif row.kind == "sh":
            settings.take(row, SHELL + [value])
        else:
            self.take_of_repository(option, value)

    def pool_of(self, folder: str) -> str:
        """The folder of checkouts that stay. In the work tree they would find its files in the
        folders above."""
        path, repo = full_path(os.path.abspath(folder)), self.repo
        if (
            repo.top
            and (path + "/").startswith(repo.top + "/")
            and not path.startswith(repo.gitdir + "/")
        ):
            raise Stop(
                Status.REFUSED,
                "%s is in the work tree; --pool wants a folder beside it, or in the git folder"
                % folder,
            )
        return path

    def take_of_repository(self, option: str, value: str) -> None:
        """One that names commits or files."""
        if option == "--skip":
            self.settings.skips += self.repo.skips(value)
        elif option == "--path":
            shown = self.files.add_path(option, value)
            self.settings.add_log_path(shown)
        elif option == "--copy":
            self.files.add_copy(value)
        elif option == "--link":
            self.files.add_link(value)
        elif option == "--with":
            self.files.add_own(value)
        elif option == "--apply":
            self.files.add_patch(value)
        elif option == "--replay":
            self.take_log(value)
        elif option == "--tests-from":
            self.add_failures(value)
        elif self.line.command is not None:
            self.add_lines(value)
        else:
            self.read_tests(value)

    # -- ends ------------------------------------------------------------------

    def find_ends(self, ends: List[Word]) -> None:
        """The commits that the words name: the first is bad, the others are good; A..B is both."""
        words: List[str] = []
        for end in ends:
            low, dots, high = end.text.partition("..")
            if (
                dots
                and not words
                and not high.startswith(".")
                and not self.repo.is_commit(end.text)
            ):
                words += [high or "HEAD", low or "HEAD"]
            else:
                words.append(end.text)
        words = words or ["HEAD"]
        names = self.repo.commits(words)
        for number, (word, name) in enumerate(zip(words, names)):
            names[number] = name or self.commit(word, number)
        self.settings.take_ends(names)
        if not self.settings.goods:
            self.settings.look_back(words[0])
            if os.path.isfile(os.path.join(self.repo.own_gitdir, "BISECT_LOG")):
                self.voice.tell("a git bisect is under way here; --replay alone goes on from it")

    def commit(self, word: str, number: int) -> str:
        """The commit of a name; where there is none, what may help is told with it."""
        try:
            return self.repo.commit(word)
        except Stop as stop:
            raise Stop(stop.status, stop.text + self.help_with(word, number)) from None

    def help_with(self, word: str, number: int) -> str:
        """What may be wrong with a word that names no commit."""
        if word in OF_BISECT and number == 0:
            return "; the line is: %s BAD GOOD -- COMMAND" % ME
        if self.repo.is_commit("origin/" + word):
            return "; did you mean origin/%s?" % word
        if self.repo.is_shallow():
            return "; this clone is shallow: git fetch --unshallow --tags brings the rest"
        if number > 1:
            return "; is a -- missing before the command?"
        begin = re.split("[~^@:]", word)[0]
        meant = nearest(begin, self.repo.refs()) if begin else ""
        if meant == begin:  # what stands behind it leads to none
            return "; %s is one" % begin if begin else ""
        return "; did you mean %s?" % (meant + word[len(begin) :]) if meant else ""

    def take_log(self, path: str) -> None:
        """The ends, the terms and the paths of a log, whose marks the engine goes on from."""
        own = os.path.join(self.repo.own_gitdir, "BISECT_LOG")
        if not path and not os.path.isfile(own):
            raise Stop(Status.NO_FILE, "no git bisect is under way here; --replay LOG takes a log")
        path = path or own
        try:
            with open_named(path) as file:
                text = file.read(1 << 24)
        except OSError as fault:
            raise Stop(Status.NO_FILE, "%s: %s" % (path, fault.strerror)) from None
        from .replaying import read_log

        log = read_log(path, text, self.repo.commit)
        settings = self.settings
        settings.take_log(log)
        for pathspec in log.paths:
            top = ":(top,literal)"
            shown = self.files.add_path_from_top(
                pathspec[len(top) :] if pathspec.startswith(top) else pathspec
            )
            settings.add_log_path(shown)

    # -- tests -----------------------------------------------------------------

    def add_test(self, name: str, command: str) -> None:
        """A test with a name of its own, which sh runs."""
        others = [other for other, _ in self.settings.tests] + ["build"]
        if not re.fullmatch("[A-Za-z0-9][A-Za-z0-9._-]{0,39}", name) or name in others:
            raise Stop(
                Status.REFUSED,
                "--test wants a name of at most 40 letters, digits, dots, hyphens and underscores"
                " that no other test has, not '%s'" % name,
            )
        if not command.strip():
            raise options.wants_value("--test")
        self.settings.tests.append((name, SHELL + [command]))

    def take_command(self, command: List[str]) -> None:
        """The command behind --: a test without a name, or that of each test of a list."""
        settings = self.settings
        read = [value for option, value in self.line.values if option == "--tests-from"]
        if read and not self.listed:
            raise Stop(Status.REFUSED, "%s: no test failed there" % ", ".join(read))
        if not self.listed:
            settings.tests.append(("", command))
            return
        from . import lists

        lists.check_command(command)
        settings.take_list(self.listed, command)

    def add_lines(self, path: str) -> None:
        """The names of a file, a line each."""
        from . import lists

        self.listed += lists.read_lines(path)

    def add_failures(self, path: str) -> None:
        """What failed in a file of JUnit, or in a folder of such files."""
        from . import lists

        failures = lists.read_junit(path)
        self.listed += failures.tests
        if failures.nameless:
            self.voice.say(
                "%s: %s that failed there without a class and a name, and cannot be searched for"
                % (path, counted(failures.nameless, "test"))
            )

    def read_tests(self, path: str) -> None:
        """The tests of a file, a line NAME: COMMAND each; one that is named build is the build."""
        from . import lists

        for line in lists.lines_of(path):
            name, colon, command = line.partition(":")
            if not colon or not command.strip():
                raise Stop(
                    Status.REFUSED,
                    "%s: a line NAME: COMMAND is wanted, not '%s'; or is a command missing behind"
                    " --, in which {} stands for each line?" % (path, line),
                )
            if name.strip() == "build":
                self.settings.take(BY_WORD["--build"], SHELL + [command.strip()])
            else:
                self.add_test(name.strip(), command.strip())

    def settle(self) -> None:
        """The tests at once, and the files that the commands name."""
        settings, files = self.settings, self.files
        files.check_links()
        if self.line.command and "--workers" not in dict(self.line.values):
            workers = machines.workers_of(self.line.command, os.environ)
            settings.take(
                BY_WORD["--workers"], min(options.MOST_WORKERS, workers or settings.workers)
            )
        files.ends += [settings.bad] + settings.goods
        if not settings.tests:
            raise Stop(Status.REFUSED, "there is no test; see %s -h" % ME)
        if len(settings.tests) > MOST_TESTS:
            raise Stop(
                Status.REFUSED,
                "there may be %d tests, and not %d" % (MOST_TESTS, len(settings.tests)),
            )
        for row in OPTIONS:
            if row.several and settings.words_of(row) and not settings.tests[0][0]:
                raise Stop(Status.REFUSED, "%s is for several tests; see %s -h" % (row.word, ME))
        if settings.private and self.line.command and machines.are_others(self.line.command):
            raise Stop(
                Status.REFUSED,
                "--private is for tests on this machine: %s runs them on others"
                % os.path.basename(self.line.command[0]),
            )
        settings.note_typed()
        if settings.build or settings.tests[0][0]:
            lines = [] if settings.is_list else [words for name, words in settings.tests if name]
            for words in lines + [settings.build or []]:
                files.look_at_shell_words(words[2:])
        settled = {}
        if settings.is_list or not settings.tests[0][0]:
            words_of_all = dict.fromkeys(word for _, words in settings.tests for word in words)
            settled = {word: files.settle(word) for word in words_of_all}
        settings.take_files(files, settled)
        if not settings.by_hand:
            files.look_at_program(settings.tests[0][1][0])
        files.look_at_links()
        files.check_paths()
        files.tell_changes()
        if settings.certificate is not None:
            self.look_at_certificate(settings.certificate)

    def look_at_certificate(self, path: str) -> None:
        """Whether the file can be written, before any test."""
        if self.settings.paths:
            raise Stop(
                Status.REFUSED,
                (
                    "--certificate says nothing of a search by --path: the parents of what was"
                    " found need not be tested"
                ),
            )
        path = full_path(path)
        if not os.path.isdir(os.path.dirname(path)):
            raise Stop(Status.NO_ROOM, "the certificate has no folder; nothing was tested")
        if os.path.exists(path) and not os.path.isfile(path):
            raise Stop(Status.NO_ROOM, "%s is no file; nothing was tested" % path)
        if os.path.isfile(path) and not os.access(path, os.W_OK):
            raise Stop(Status.NO_ROOM, "%s may not be written; nothing was tested" % path)
        if not has_room(os.path.dirname(path)):
            raise Stop(
                Status.NO_ROOM, "%s cannot be written, or has no room; nothing was tested" % path
            )
        self.settings.take(BY_WORD["--certificate"], path)


def read(line: Line, repo: Repository, voice: Telling) -> Settings:
    """The settings of a line; raises Stop where something of it cannot be."""
    return Filler(line, repo, voice).fill()
