"""The command line, word by word, without a look at the repository: options and their values.

It is read here and not by argparse, as that reads no such line: options stand before, between and
behind BAD and GOOD; `--confirm` has its value behind = alone; `--test` has two; what is behind --
is left as it is. And who gives a line of git bisect, or forgets the --, is told the right one."""
from __future__ import annotations

import re
import time
from typing import Callable, Dict, List, NamedTuple, Optional, Sequence, Set, Tuple

from ..host.files import INPUT
from ..host.terminal import is_there
from ..telling.numbers import Threshold, threshold_of
from ..telling.status import Status
from ..telling.voice import ME, Stop, quoted
from .table import BY_WORD, MEANINGS, OTHER_NAMES, SHORT, Option

KNOWN = (*BY_WORD, *OTHER_NAMES)
FROM_INPUT = ("list", "junit", "log")  # kinds of options whose files may be the standard input
# as alike as `difflib` has it: 723 of 728 options with a letter too many, too few, or changed with
# the next one are found, and of 500 random words 10 look like one
NEAR = 0.65
ALONE = "alone"  # a value of --confirm
# commands of git bisect, which stand for nothing here
OF_BISECT = ("start", "run", "bad", "good", "new", "old")
# what has no meaning where a person says what a commit is
OF_COMMAND = (
    "--certificate",
    "--confirm",
    "--measure",
    "--missing",
    "--noise",
    "--private",
    "--repeat",
    "--retry",
)
# words that are options or commands elsewhere, and what stands for them here
ELSEWHERE = {
    "--good": "the line is: git farmdawn BAD GOOD -- COMMAND",
    "--bad": "the line is: git farmdawn BAD GOOD -- COMMAND",
}


class Word(NamedTuple):
    """A word that is to name a commit, and where it stands in the line."""

    text: str
    at: int


class Line:
    """What the words of a line are."""

    def __init__(self, words: List[str]) -> None:
        self.words = words
        self.action = "search"  # or help, version, check, retest, prune
        self.file = ""  # of --check and --retest
        self.state: Optional[str] = None  # of --state, which --prune takes, too
        self.ends: List[Word] = []
        self.flags: List[str] = []
        self.values: List[Tuple[str, str]] = []  # options with their values, as they came
        self.tests: List[Tuple[str, str]] = []  # of --test: a name and a line of sh
        self.command: Optional[List[str]] = None  # behind --
        self.by_hand = False  # whether a person says what a commit is, and no command

    def ask(self) -> None:
        """There is no command: a person is asked."""
        self.by_hand = True

    def reads_input(self) -> bool:
        """Whether tests or a log come from the standard input."""
        return any(
            BY_WORD[word].kind in FROM_INPUT and value in INPUT for word, value in self.values
        )


def nearest(word: str, among: Sequence[str]) -> str:
    """Which of these may have been meant by a word; nothing where none is near."""
    from difflib import get_close_matches  # read only where something is wrong

    return next(iter(get_close_matches(word, among, 1, NEAR)), "")


def full_option(word: str) -> str:
    """The option that a word is, or is the beginning of."""
    if word in KNOWN:
        return OTHER_NAMES.get(word, word)
    found = sorted({OTHER_NAMES.get(option, option) for option in KNOWN if option.startswith(word)})
    if len(found) == 1:
        return found[0]
    if found and word != "--":
        raise Stop(Status.REFUSED, "%s may be %s; see %s -h" % (word, " or ".join(found), ME))
    if word in ELSEWHERE:
        raise Stop(Status.REFUSED, "unknown option %s; %s" % (word, ELSEWHERE[word]))
    meant = nearest(word[2:], [option[2:] for option in KNOWN])
    raise Stop(
        Status.REFUSED,
        "unknown option %s; %s"
        % (word, "did you mean --%s?" % meant if meant else "see %s -h" % ME),
    )


class Reader:
    """Reads the words from the first one on."""

    def __init__(self, words: List[str]) -> None:
        self.words, self.at, self.line = words, 0, Line(words)

    def value(self, option: str) -> str:
        """The next word, as the value of an option."""
        if self.at >= len(self.words):
            raise wants_value(option)
        self.at += 1
        return self.words[self.at - 1]

    def is_last_of_options(self) -> bool:
        """Whether the next word is no value: another option, the command, or none."""
        word = self.words[self.at] if self.at < len(self.words) else "--"
        return word.startswith("-") and word != "-"

    def without(self, row: Option) -> str:
        """The value of an option that none is given for; a threshold may be the next word."""
        is_next = row.kind == "threshold" and self.words[self.at : self.at + 1]
        return "" if is_next and is_next[0][:1] in ("<", ">") else row.without

    def split(self, word: str) -> Tuple[str, Optional[str]]:
        """The option of a word, and the value that stands in the same word."""
        if word.startswith("--"):
            name, sign, value = word.partition("=")
            return full_option(name), value if sign else None
        if word[:2] not in SHORT:
            raise Stop(Status.REFUSED, "unknown option %s; see %s -h" % (word, ME))
        rest = word[2:]
        return SHORT[word[:2]], rest[1:] if rest.startswith("=") else rest or None

    def read(self) -> Line:
        """All of them."""
        while self.at < len(self.words):
            word = self.value("")
            if word == "--":
                self.line.command = self.words[self.at :]
                break
            if word.startswith("-") and word != "-":
                self.option(word)
            else:
                self.line.ends.append(Word(word, self.at - 1))
            if self.line.action in ("help", "version"):
                break
        return self.line

    def option(self, word: str) -> None:
        """One option with its value."""
        option, value = self.split(word)
        row = BY_WORD[option]
        if row.kind in ("flag", "action", "test"):
            if value is not None:
                raise Stop(Status.REFUSED, "%s takes no value; see %s -h" % (option, ME))
        elif value is None:
            is_alone = row.kind == "log" and self.is_last_of_options()
            value = "" if is_alone else self.without(row) or self.value(option)
        if row.kind in ("action", "file"):
            self.line.action, self.line.file = option[2:], value or ""
        elif row.kind == "test":
            name = self.value(option)
            self.line.tests.append((name, self.value(option)))
        elif row.kind == "flag":
            self.line.flags.append(option)
        elif row.kind == "state":
            self.line.state = value or self.refuse_empty(option)
        else:
            self.line.values.append((option, value or ""))

    @staticmethod
    def refuse_empty(option: str) -> str:
        """An empty value is none."""
        raise wants_value(option)


def read(words: List[str]) -> Line:
    """What the words of a line are; raises Stop where they are none of a line."""
    reader = Reader(words)
    try:
        line = reader.read()
    except Stop as stop:
        if "--" in words or len(reader.line.ends) < 3 or not stop.text.startswith("unknown option"):
            raise
        raise Stop(
            Status.REFUSED, "%s; is a -- missing before the command?" % stop.text.split(";")[0]
        ) from None
    if line.action == "check" and (len(words) > 2 or not line.file):
        raise Stop(Status.REFUSED, "--check wants a file alone; see %s -h" % ME)
    if line.action == "retest":
        check_retest(line)
    if line.action == "prune" and (line.ends or line.command is not None or line.values):
        raise Stop(Status.REFUSED, "--prune stands alone; see %s -h" % ME)
    if line.action == "search":
        check_whole(line)
    return line


def check_retest(line: Line) -> None:
    """The ends are those of the file, and so is its one test."""
    if line.ends or not line.file or line.command == []:
        raise Stop(
            Status.REFUSED, "--retest wants a file, and takes no BAD and GOOD; see %s -h" % ME
        )
    if line.tests or any(option in ("--tests", "--tests-from") for option, _ in line.values):
        raise Stop(Status.REFUSED, "--retest wants a file, and takes no tests; see %s -h" % ME)
    if ("--measure", "ends") in line.values:
        raise Stop(Status.REFUSED, "--retest measures no ends, and has the threshold of the file")


def check_whole(line: Line) -> None:
    """Whether the line has all that a search needs."""
    given = {option for option, _ in line.values}
    replays = "--replay" in given
    check_command(line, given)
    if replays and line.ends:
        raise Stop(Status.REFUSED, "--replay has the ends from the log, and takes no BAD and GOOD")
    ranges = [end for end in line.ends if ".." in end.text]
    if [end.text for end in line.ends] in (["run"], ["start"]):
        raise Stop(Status.REFUSED, "the line is: %s BAD GOOD -- COMMAND" % ME)
    if not replays and len(line.ends) < 2 and not ranges:
        check_alone(line, given)


def check_alone(line: Line, given: Set[str]) -> None:
    """One test alone looks for its GOOD."""
    several = [option for option in ("--tests", "--tests-from", "--noise") if option in given]
    several += ["--measure"] if ("--measure", "ends") in line.values else []
    if line.tests or several:
        raise Stop(
            Status.REFUSED,
            "%s wants BAD and GOOD, and %s; see %s -h"
            % (
                several[0] if several else "--test",
                "GOOD is missing" if line.ends else "both are missing",
                ME,
            ),
        )


def check_command(line: Line, given: Set[str]) -> None:
    """Whether there is a command, in one place alone."""
    if line.command is None and "--tests-from" in given:
        raise Stop(
            Status.REFUSED,
            "--tests-from wants a command behind --, in which {} stands for the test",
        )
    if line.command is None and not line.tests and "--tests" not in given:
        has_ends = len(line.ends) > 1 or "--replay" in given
        if not has_ends and not any(".." in end.text for end in line.ends) or not is_there():
            raise Stop(Status.REFUSED, missing_command(line))
        for option in OF_COMMAND:
            if option in given or option in line.flags:
                raise Stop(Status.REFUSED, "%s wants a command; see %s -h" % (option, ME))
        line.ask()
    if line.command is not None and line.tests:
        raise Stop(Status.REFUSED, "a command stands behind --, or in --test; not in both")
    if line.command == []:
        raise Stop(Status.REFUSED, "BAD, GOOD and a command are wanted; see %s -h" % ME)


def missing_command(line: Line) -> str:
    """What is said where no command stands in the line."""
    text, words = "-- and a command are missing", [end.text for end in line.ends]
    if words and words[0] in OF_BISECT:
        return line_for(words)
    if len(line.ends) > 2:
        at = line.ends[2].at
        text += "; is it: %s ?" % " ".join(
            [ME]
            + [quoted(word) for word in line.words[:at]]
            + ["--"]
            + [quoted(word) for word in line.words[at:]]
        )
    else:
        text += "; see %s -h" % ME
    return text


def line_for(words: List[str]) -> str:
    """What stands for a line of git bisect."""
    behind = " ".join(quoted(word) for word in words[1:])
    ends = behind if words[0] == "start" and len(words) > 2 else "BAD GOOD"
    command = behind if words[0] == "run" and behind else "COMMAND"
    return "the line is: %s %s -- %s" % (ME, ends, command)


MOST_SECONDS = 999999999
MOST_WORKERS = 64
MOST_RUNS = 99  # of one commit
UNITS = {"": 1, "s": 1, "m": 60, "h": 3600, "d": 86400}
SIZES = {"": 1, "k": 1000, "M": 1000000, "G": 1000000000}
# the commands of git bisect, which are no words for bad and good
NO_TERMS = (
    "help",
    "start",
    "skip",
    "next",
    "reset",
    "visualize",
    "view",
    "replay",
    "log",
    "run",
    "terms",
)


def wants_value(option: str) -> Stop:
    """What is said where the value of an option is missing or empty."""
    return Stop(Status.REFUSED, "%s wants a value; see %s -h" % (option, ME))


def number(option: str, word: str, most: int) -> int:
    """A number from 1 on."""
    if re.fullmatch("[1-9][0-9]{0,8}", word) and int(word) <= most:
        return int(word)
    raise Stop(Status.REFUSED, "%s wants a number from 1 to %d, not '%s'" % (option, most, word))


def size(option: str, word: str) -> int:
    """A size in bytes."""
    match = re.fullmatch("([1-9][0-9]{0,8})([kMG]?)", word)
    if not match:
        raise Stop(Status.REFUSED, "%s wants a size as 500k, 10M or 2G, not '%s'" % (option, word))
    return int(match.group(1)) * SIZES[match.group(2)]


def share(option: str, word: str, least: float, most: float) -> float:
    """A share of all, as 0.05 or 5%, between two others."""
    match = re.fullmatch("([0-9]{0,3}(?:[.][0-9]{1,6})?)(%?)", word)
    found = (
        float(match.group(1)) / (100 if match.group(2) else 1) if match and match.group(1) else -1.0
    )
    if not least < found < most:
        raise Stop(
            Status.REFUSED,
            "%s wants a share between %g and %g, as 0.05 or 5%%, not '%s'"
            % (option, least, most, word),
        )
    return found


def seconds(option: str, word: str) -> int:
    """A time in seconds: a number of them, or one with s, m, h or d behind it."""
    match = re.fullmatch("([1-9][0-9]{0,8})([smhd]?)", word)
    found = int(match.group(1)) * UNITS[match.group(2)] if match else 0
    if not match or found > MOST_SECONDS:
        raise Stop(
            Status.REFUSED,
            "%s wants seconds, or a time as 90s, 5m or 2h, not '%s'" % (option, word),
        )
    return found


def missing(option: str, word: str) -> Dict[int, int]:
    """What a status of a runner that finds no test stands for: 4,5=skip."""
    match = re.fullmatch("([0-9]{1,3}(?:,[0-9]{1,3})*)=(good|bad|skip)", word)
    found = [int(part) for part in match.group(1).split(",")] if match else []
    if not match or not all(0 < status < 255 and status != 125 for status in found):
        raise Stop(
            Status.REFUSED,
            "%s wants statuses and what they stand for, as 4,5=skip, or good or bad, not '%s'"
            % (option, word),
        )
    return dict.fromkeys(found, MEANINGS[match.group(2)])


def threshold(option: str, word: str) -> Threshold:
    """What parts good numbers from bad ones, as >1.3s."""
    found = threshold_of(word)
    if found is None:
        raise Stop(
            Status.REFUSED,
            "%s wants what is bad, as '>1.3s' or '<20', not '%s'" % (option, word),
        )
    return found


def until(option: str, word: str, now: Optional[float] = None) -> float:
    """The seconds from now to a time of day, as 17:30, the next one; or a span as `seconds` has
    it."""
    match = re.fullmatch("([01]?[0-9]|2[0-3]):([0-5][0-9])", word)
    if not match:
        try:
            return float(seconds(option, word))
        except Stop:
            raise Stop(
                Status.REFUSED,
                "%s wants a time as 55m or 2h, or a time of day as 17:30, not '%s'"
                % (option, word),
            ) from None
    now = time.time() if now is None else now
    day = time.localtime(now)
    ahead = (
        (int(match.group(1)) - day.tm_hour) * 3600
        + (int(match.group(2)) - day.tm_min) * 60
        - day.tm_sec
    )
    return float(ahead if ahead > 0 else ahead + 86400)


# how a value is read, by the kind of its option; others want the repository, or more than a value
READ: Dict[str, Callable[[str, str], object]] = {
    "text": lambda option, word: word,
    "workers": lambda option, word: number(option, word, MOST_WORKERS),
    "runs": lambda option, word: number(option, word, MOST_RUNS),
    "times": lambda option, word: 0 if word == "0" else number(option, word, MOST_RUNS),
    "seconds": seconds,
    "size": size,
    "threshold": threshold,
    "share": lambda option, word: share(option, word, 0.5, 1),
}


def is_term(term: str) -> bool:
    """Whether a word may stand for bad or good."""
    return (
        re.fullmatch("[A-Za-z0-9-]{1,40}", term) is not None
        and not term.startswith("-")
        and term not in NO_TERMS
    )


def check_terms(new: Optional[str], old: Optional[str]) -> None:
    """Refuses words for bad and good that the log cannot have."""
    if new is None and old is None:
        return
    bad, good = new if new is not None else "bad", old if old is not None else "good"
    if (
        is_term(bad)
        and bad not in ("good", "old")
        and is_term(good)
        and good not in ("bad", "new")
        and bad != good
    ):
        return
    raise Stop(
        Status.REFUSED,
        "--term-new '%s' and --term-old '%s' are no terms: 1 to 40 letters, digits and hyphens"
        " each, no command of git bisect, and not the same" % (bad, good),
    )
