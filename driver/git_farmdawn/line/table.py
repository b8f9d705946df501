"""The table of options: a row each, in the groups of the page of help.

All that the driver does with an option follows from its row: how its value is read, the number of
the folder in which outcomes are kept, the line that searches again, what a certificate tells, and
the page of help. The manual and the completions are compared with it (test_options.py). A new
option is a row here, a value in `Settings`, and whoever heeds it.

Whether an outcome depends on an option is asked of the outcome of one commit, not of the answer:
`--first-parent` finds another commit, but each test ends as it does without it. What is not plain:

    --copy          what it brings counts by its content, too (`test_number` in known/outcomes.py);
                    so does that of --with and --apply (`sums_of` in versions.py)
    --link          counts by its path alone: tests may change what is behind it
    --together      tests of a commit that run at once in one folder may disturb each other
    --timeout       a test that takes longer is a skip
    --ended         comes behind a test that was ended, which has no outcome but a skip
    --pool          brings what an earlier search built, as one test brings it to the next one
    --check-ends    and --confirm decide whether an answer is given: they are to search again
"""
from __future__ import annotations

from typing import NamedTuple

# what a status of a runner that finds no test may stand for
MEANINGS = {"good": 0, "bad": 1, "skip": 125}
# the groups, in their order
WHAT = "What is searched"
TESTS = "The tests"
CHECKOUTS = "The checkouts"
SURE = "How sure the answer is"
COURSE = "The course of the search"
KEPT = "What is kept, and told"
ALONE = "In place of a search"


class Option(NamedTuple):
    """One option. Its value has a place of its own in `Settings`, but for actions and tests."""

    word: str
    kind: str  # how its value is read (`READ` in options.py, and settings.py)
    group: str
    value: str  # as the page of help has it behind the word; nothing where it has none
    help: str
    short: str = ""
    also: str = ""  # another word for it
    without: str = ""  # its value where none is given; such a one stands behind = alone
    many: str = ""  # the place of its values, where it may come more than once
    plain: object = None  # its value where it does not stand in a line
    several: bool = False  # whether it is for several tests alone
    outcome: bool = False  # what a test ends with depends on it: outcomes are kept apart by it
    again: bool = False  # it stands in the line that searches again
    certified: bool = False  # a certificate has it, and --retest takes it from there

    @property
    def place(self) -> str:
        """Its name in `Settings`."""
        return self.many or self.word[2:].replace("-", "_")


OPTIONS = (
    # -- what is searched ------------------------------------------------------
    Option("--first-parent", "flag", WHAT, "", "follows first parents alone", again=True),
    Option(
        "--path",
        "paths",
        WHAT,
        " PATH",
        "only commits that change this file or folder are tested; any number of times",
        many="paths",
        again=True,
    ),
    Option(
        "--skip",
        "commits",
        WHAT,
        " REV",
        "a commit, or a range A..B, that is not to be tested; any number of times",
        many="skips",
        again=True,
    ),
    Option(
        "--term-new",
        "text",
        WHAT,
        " TERM",
        "the word for bad in the log",
        also="--term-bad",
        again=True,
        certified=True,
    ),
    Option(
        "--term-old",
        "text",
        WHAT,
        " TERM",
        "the word for good",
        also="--term-good",
        again=True,
        certified=True,
    ),
    Option(
        "--fixed",
        "flag",
        WHAT,
        "",
        "finds the commit that fixed it: what ends with 0 is fixed, and so is BAD; GOOD is broken",
        outcome=True,
        again=True,
        certified=True,
    ),
    Option(
        "--replay",
        "log",
        WHAT,
        " [LOG]",
        "goes on from this log in place of BAD and GOOD; without LOG from that of git bisect",
    ),
    # -- the tests -------------------------------------------------------------
    Option(
        "--build",
        "sh",
        TESTS,
        " COMMAND",
        "is run by sh once in a checkout before its tests; where it fails, the commit is skipped",
        outcome=True,
        again=True,
        certified=True,
    ),
    Option(
        "--test",
        "test",
        TESTS,
        " NAME COMMAND",
        "searches with this command, run by sh; any number of times: each has an answer of its own",
    ),
    Option(
        "--tests",
        "list",
        TESTS,
        " FILE",
        "a search for each line, which stands for {} in the command; without one, lines of "
        "NAME: COMMAND",
    ),
    Option(
        "--tests-from",
        "junit",
        TESTS,
        " FILE",
        "the same for each test that failed in JUnit's files; {class} and {name} are parts of its "
        "name",
    ),
    Option(
        "--together",
        "flag",
        TESTS,
        "",
        "runs the tests of a commit in its checkout at once, and not one after the other",
        several=True,
        outcome=True,
        again=True,
        certified=True,
    ),
    Option(
        "--private",
        "flag",
        TESTS,
        "",
        "gives each test a /tmp, /var/tmp, /dev/shm and ports of its own, and no other network",
        outcome=True,
        again=True,
        certified=True,
    ),
    Option(
        "--missing",
        "statuses",
        TESTS,
        " STATUS,..=good|bad|skip",
        "what a commit is where the runner ends so, as it finds no test",
        outcome=True,
        again=True,
        certified=True,
    ),
    Option(
        "--timeout",
        "seconds",
        TESTS,
        " TIME",
        "a test that takes longer, as 90s, 5m or 2h, is ended, and its commit is skipped",
        outcome=True,
        again=True,
        certified=True,
    ),
    Option(
        "--build-timeout",
        "seconds",
        TESTS,
        " TIME",
        "a build that takes longer is ended, and its commit skipped (that of --timeout)",
        outcome=True,
        again=True,
        certified=True,
    ),
    Option(
        "--ended",
        "text",
        TESTS,
        " COMMAND",
        "is run by sh where a test or a build did not end by itself, to end its container",
        again=True,
    ),
    # -- the checkouts ---------------------------------------------------------
    Option(
        "--copy",
        "copies",
        CHECKOUTS,
        " PATH",
        "copies this file or folder of the work tree into each checkout that lacks it",
        many="copies",
        outcome=True,
        again=True,
        certified=True,
    ),
    Option(
        "--link",
        "copies",
        CHECKOUTS,
        " PATH",
        "puts a link to it there in place of a copy, as to node_modules: tests share what is behind"
        " it",
        many="links",
        outcome=True,
        again=True,
        certified=True,
    ),
    Option(
        "--with",
        "owns",
        CHECKOUTS,
        " PATH",
        "puts this file or folder of the work tree in place of the commit's; any number of times",
        many="owns",
        outcome=True,
        again=True,
        certified=True,
    ),
    Option(
        "--apply",
        "patches",
        CHECKOUTS,
        " COMMIT|FILE",
        "brings a patch that the commit lacks before the build; one that does not fit skips it",
        many="patches",
        outcome=True,
        again=True,
        certified=True,
    ),
    Option(
        "--submodules",
        "flag",
        CHECKOUTS,
        "",
        "checks out submodules",
        outcome=True,
        again=True,
        certified=True,
    ),
    Option(
        "--clean",
        "flag",
        CHECKOUTS,
        "",
        "makes the checkout anew for each commit: each build begins from nothing",
        outcome=True,
        again=True,
        certified=True,
    ),
    Option(
        "--pool",
        "pool",
        CHECKOUTS,
        " FOLDER",
        "keeps the checkouts there, with what is built in them, for the next search",
    ),
    Option(
        "--keep",
        "size",
        CHECKOUTS,
        " SIZE",
        "removes those of them that were used longest ago, where all take more, as 20G",
    ),
    # -- how sure the answer is ------------------------------------------------
    Option(
        "--check-ends",
        "flag",
        SURE,
        "",
        "tests BAD and each GOOD first, and not beside the search",
        again=True,
    ),
    Option(
        "--trust-ends",
        "flag",
        SURE,
        "",
        "does not test them: they are as they are called",
        again=True,
    ),
    Option(
        "--confirm",
        "times",
        SURE,
        "[=N]",
        "tests the answer and its parents N times more (3), or =alone; what most tests deny is taken"
        " back",
        without="3",
        again=True,
    ),
    Option(
        "--retry",
        "runs",
        SURE,
        " N",
        "a failure counts behind N others alone, for a test that fails now and then without a"
        " fault",
        plain=0,
        outcome=True,
        again=True,
        certified=True,
    ),
    Option(
        "--repeat",
        "runs",
        SURE,
        " N",
        "good is what was good N times, for a fault that shows now and then; it makes false "
        "failures more",
        plain=1,
        outcome=True,
        again=True,
        certified=True,
    ),
    Option(
        "--measure",
        "threshold",
        SURE,
        "[=>N]",
        "the commit that made the number greater, or less, that the command prints; bad is >1.3s or"
        " <20",
        without="ends",
        outcome=True,
        again=True,
        certified=True,
    ),
    Option(
        "--noise",
        "shares",
        SURE,
        " P[,Q]",
        "a search by odds, for a test that lies in so many runs, as 5%: P of a good commit, Q"
        " of a bad one",
        again=True,
    ),
    Option(
        "--sure", "share", SURE, " P", "how sure its answer is to be (99%)", plain=0.99, again=True
    ),
    # -- the course of the search ----------------------------------------------
    Option(
        "--workers",
        "workers",
        COURSE,
        " N",
        "tests at once (as many as there are processors); --jobs is the same",
        short="-j",
        also="--jobs",
    ),
    Option(
        "--deadline",
        "until",
        COURSE,
        " TIME",
        "stops after so long, or at a time of day as 17:30, with status 24; the same line goes on",
    ),
    Option(
        "--quiet", "flag", COURSE, "", "tells nothing of the search but what is wrong", short="-q"
    ),
    # -- what is kept, and told ------------------------------------------------
    Option("--fresh", "flag", KEPT, "", "forgets the outcomes of earlier runs of the same command"),
    Option(
        "--state",
        "state",
        KEPT,
        " FOLDER",
        "keeps outcomes, outputs and the log there, so that they can be carried to another clone",
    ),
    Option("--log-dir", "text", KEPT, " FOLDER", "keeps the output of each test there, by commit"),
    Option(
        "--log-limit",
        "size",
        KEPT,
        " SIZE",
        "keeps so much of it, as 500k, 10M (which it is without) or 2G; the rest is cut out "
        "of the middle",
    ),
    Option(
        "--report",
        "text",
        KEPT,
        " FOLDER",
        "leaves a page there, index.html, and result.json for a build server, with the outputs",
    ),
    Option(
        "--open",
        "flag",
        KEPT,
        "",
        "opens its page at the end, in the browser of git web--browse or BROWSER",
    ),
    Option("--certificate", "text", KEPT, " FILE", "writes what others need to check the answer"),
    # -- in place of a search --------------------------------------------------
    Option(
        "--check",
        "file",
        ALONE,
        " FILE",
        "checks such a file by the history alone, and tests nothing",
    ),
    Option(
        "--retest",
        "file",
        ALONE,
        " FILE",
        "checks it, and tests the commit and its parents here; asks before it runs the "
        "command of the file",
    ),
    Option(
        "--prune",
        "action",
        ALONE,
        "",
        "removes the outcomes and outputs that are kept, but for those of searches that run",
    ),
    Option("--help", "action", ALONE, "", "this page", short="-h"),
    Option("--version", "action", ALONE, "", "the version of farmdawn"),
)
BY_WORD = {row.word: row for row in OPTIONS}
OTHER_NAMES = {row.also: row.word for row in OPTIONS if row.also}
SHORT = {row.short: row.word for row in OPTIONS if row.short}
USAGE = """usage: git farmdawn [OPTION..] [BAD [GOOD..]] -- COMMAND [WORD..]
       git farmdawn [OPTION..] BAD GOOD.. [--build COMMAND] --test NAME COMMAND [--test NAME COMMAND]..
       git farmdawn [OPTION..] BAD GOOD.. [--build COMMAND] --tests FILE -- COMMAND [WORD..]
       git farmdawn [OPTION..] --replay [LOG] -- COMMAND [WORD..]
       git farmdawn [OPTION..] BAD GOOD.. [--build COMMAND]
       git farmdawn --check FILE | --retest FILE [OPTION..] [-- COMMAND [WORD..]] | --prune [--state FOLDER]

Finds the first bad commit between BAD and GOOD, or GOOD..BAD. Without GOOD it looks for one behind BAD, or HEAD.
COMMAND is run in a checkout of each commit that is tested, and says by its status: 0 good, 1 to 124 bad, 125 skip;
126 and above stop the search. You may shorten options. Without a command, on a terminal, you say what each commit is.
"""
BEHIND = """
The log and the answer go to standard output; `git bisect replay` takes the log. On a terminal the answer alone is
shown, and the log goes to a file. After a stop the same line goes on from the outcomes that were found.
"""


def usage() -> str:
    """The page of help."""
    lines, group = [], ""
    for row in OPTIONS:
        if row.group != group:
            group = row.group
            lines += ["", group + ":"]
        shown = (row.short + ", " if row.short else "") + row.word + row.value
        front = shown.ljust(19) if len(shown) < 19 else shown + "   "
        first, *more = row.help.split("\n")
        lines += ["  %s%s" % (front, first), *(" " * 21 + line for line in more)]
    return USAGE + "\n".join(lines) + "\n" + BEHIND
