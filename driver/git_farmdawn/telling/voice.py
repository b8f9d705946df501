"""What is told: the program's name, how it ends, the words that several modules say, and the
standard error with its live line.

Nothing prints but `Telling`: each line goes out in one piece, above the live line where there is
one, and where the standard error takes no more, the search goes on in silence. `Stop` is how any
module ends the program: its text is told, once, and its status is that of the program."""
from __future__ import annotations

import fcntl
import math
import os
import struct
import termios
import time
from typing import Iterable, List, Optional, Set, Tuple

from .facts import NAME, SKIP, Progress, Row
from .text import columns_of, shown, visible

ME = "git farmdawn"
# bytes of a path that are no UTF-8, as Python has them: what is told can be copied
OF_PATHS = "\t\n" + "".join(chr(code) for code in range(0xDC80, 0xDD00))


class Stop(Exception):
    """Ends the program with a status; the text, where there is one, is told before."""

    def __init__(self, status: int, text: str = "") -> None:
        Exception.__init__(self, status, text)
        self.status, self.text = status, text


class Lost(Exception):
    """The engine is gone, or says what it must not."""


def counted(count: int, word: str) -> str:
    """A number and its word: `1 commit`, `2 commits`."""
    return "%d %s%s" % (count, word, "" if count == 1 else "s")


def quoted(word: str) -> str:
    """A word as one of sh, without quotes where it needs none."""
    plain = word[:1] not in ("", "~") and all(
        sign.isascii() and (sign.isalnum() or sign in "_.:=@%+,/-~^") for sign in word
    )
    return word if plain else "'" + word.replace("'", "'\\''") + "'"


CELLS = 10
LONG = 60  # seconds of a search at whose end the bell is rung
RED, GREEN, YELLOW, PURPLE, BLUE = 31, 32, 33, 35, 36


# -- spans and counts ------------------------------------------------------------


def lasting(seconds: float) -> str:
    """How long something takes, in the largest unit that tells something."""
    whole = int(seconds)
    if whole < 100:
        return "%d s" % whole
    return "%d min" % ((whole + 30) // 60) if whole < 6000 else "%d h" % ((whole + 1800) // 3600)


def span(seconds: float) -> str:
    """A time that has passed, as a report has it."""
    seconds = max(0.0, seconds)
    if seconds < 99.95:
        return "%.1f s" % seconds
    if seconds < 5999.5:
        return "%d min %d s" % divmod(int(seconds), 60)
    return "%d h %d min" % (seconds // 3600, seconds % 3600 / 60)


def estimate(seconds: float) -> str:
    """An estimate in words."""
    if seconds < 10:
        return "some seconds"
    if seconds < 90:
        return "some %d seconds" % (10 * int(seconds / 10 + 0.5))
    if seconds < 5400:
        return "some %d minutes" % int(seconds / 60 + 0.5)
    return "some %d hours" % int(seconds / 3600 + 0.5)


def estimate_short(seconds: float) -> str:
    """The same for the live line."""
    whole = int(seconds + 0.5)
    if whole < 100:
        return "~%d s" % (whole if whole < 10 else 10 * ((whole + 5) // 10))
    return "~%d min" % ((whole + 30) // 60) if whole < 5400 else "~%d h" % ((whole + 1800) // 3600)


def rounds(commits: int) -> int:
    """How often so many commits are halved until one is left."""
    return (commits - 1).bit_length() if commits > 1 else 0


def about(count: int) -> str:
    """A number of rounds."""
    return "about " + counted(count, "round")


def estimate_seconds(count: int, each: float, workers: int) -> float:
    """How long so many rounds take, by what a commit takes."""
    return count * each / math.log2(workers + 1)


def left_text(left: int, away: int, seconds: Optional[float]) -> str:
    """How many commits are left, and for how long."""
    text = counted(left, "commit") + " left, "
    if away:
        text += "%d of them skipped, " % away
    text += about(rounds(left - away))
    return text + (", " + estimate(seconds) if seconds is not None else "")


# -- the live line -----------------------------------------------------------------


def bar(total: int, left: int) -> str:
    """How far a search is, by rounds."""
    all_rounds = math.log2(total) if total > 1 else 1.0
    return cells(1.0 - (math.log2(left) if left > 1 else 0.0) / all_rounds)


def cells(done: float) -> str:
    """A part of 1 as a bar."""
    full = max(0, min(CELLS, int(done * CELLS + 0.5)))
    return "[%s%s]" % ("#" * full, "-" * (CELLS - full))


def fronts(progress: Progress) -> List[str]:
    """What stands before the tests, from the longest to the shortest."""
    since = " in " + lasting(progress.spent) if progress.spent >= 1 else ""
    done = "%d done%s, " % (progress.done, since)
    time_left = ", " + estimate_short(progress.seconds) if progress.seconds is not None else ""
    if progress.searches is not None:
        shares = progress.searches
        tests = "%d of %d tests left" % (shares.left, shares.total)
        return [
            "%s %s%s | %s" % (cells(shares.done), tests, time_left, done),
            "%s%s | %s" % (tests, time_left, done),
            "%s%s | " % (tests, time_left),
            "%d left | " % shares.left,
            "",
        ]
    if progress.left is None:
        return [done, ""]
    left = "%d of %d left" % (progress.left, progress.total)
    to_go = ", ~" + counted(rounds(progress.left), "round")
    return [
        "%s %s%s%s | %s" % (bar(progress.total, progress.left), left, to_go, time_left, done),
        "%s%s%s | %s" % (left, to_go, time_left, done),
        "%s%s%s | " % (left, to_go, time_left),
        "%s%s | " % (left, time_left),
        "%d left | " % progress.left,
        "",
    ]


def live_line(progress: Progress, width: int, now: float) -> str:
    """How far, how long, and then what is tested since when, in one row."""
    running = sorted(progress.running)
    if not running:
        return shown(fronts(progress)[0].rstrip(" ,|").encode(), width)
    count = "%d under test: " % len(running)
    first = NAME + 1 + len(lasting(now - running[0].began))
    front = (
        next((text for text in fronts(progress) if len(text + count) + first <= width), "") + count
    )
    each = max(0, (width - len(front)) // len(running) - 2)
    parts, used = [], len(front)
    for number, one in enumerate(running):
        text = "%s %s" % (one.commit[:NAME], lasting(now - one.began))
        room = each - len(text) - 1
        text += " " + shown(one.subject, room) if room >= 8 else ""
        used += columns_of(text) + 2
        if number and used - 2 + (4 if number + 1 < len(running) else 0) > width:
            parts.append("..")
            break
        parts.append(text)
    return shown((front + ", ".join(parts)).encode("utf-8", "surrogateescape"), width)


class Telling:
    """The standard error of a search."""

    def __init__(self, quiet: bool = False) -> None:
        self.quiet, self.live, self.drawn = quiet, False, ""
        self.told: Set[str] = set()
        self.color = self.rings = False

    def look_at_terminal(self) -> None:
        """Whether there is a live line, and colours."""
        try:
            self.live = (
                not self.quiet and os.isatty(2) and os.environ.get("TERM", "") not in ("", "dumb")
            )
        except OSError:
            self.live = False
        self.color = self.live and not os.environ.get("NO_COLOR")
        self.rings = self.live

    # -- lines -------------------------------------------------------------------

    def write(self, text: bytes) -> None:
        """In one piece; where the standard error takes none, the search goes on."""
        while text:
            try:
                text = text[os.write(2, text) :]
            except BlockingIOError:
                time.sleep(0.01)
            except OSError:
                return

    def line(self, text: str) -> None:
        """A line, above the live one where there is one."""
        data = os.fsencode(text)
        self.write(
            b"\r%s\033[K\n%s\033[K" % (data, os.fsencode(self.drawn))
            if self.live and self.drawn
            else data + b"\n"
        )

    def say(self, text: str) -> None:
        """What is wrong, or is to be known in any case."""
        self.line("%s: %s" % (ME, visible(text, keeps=OF_PATHS)))

    def show(self, lines: Iterable[bytes], before: str = "") -> None:
        """Lines that git or a test printed."""
        for raw in lines:
            self.line(before + visible(raw.decode("utf-8", "surrogateescape"), keeps="\t"))

    def tell(self, text: str) -> None:
        """What --quiet leaves out."""
        if not self.quiet:
            self.say(text)

    def once(self, kind: str, text: str) -> None:
        """What is said the first time alone."""
        if kind not in self.told:
            self.told.add(kind)
            self.say(text)

    def bold(self, text: str) -> str:
        """The same, to be seen at once where there are colours."""
        return "\033[1m%s\033[m" % text if self.color else text

    # -- what tests meant ----------------------------------------------------------

    @staticmethod
    def meaning(row: Row, terms: Tuple[str, str]) -> Tuple[str, int, str]:
        """The word for an outcome, its colour, and what stands before its time."""
        if row.status is None:
            return "no longer needed", BLUE, ""
        told = row.measured.text() + ", " if row.measured else ""
        if row.measured and row.measured.is_of_end():
            return "measured", BLUE, told
        if row.status == 0:
            return terms[1], GREEN, told
        if row.status == SKIP:
            return "skip", YELLOW, "time limit, " if row.at_limit else told
        if row.status < SKIP:
            return terms[0], RED, told
        return "stop", PURPLE, "exit %d, " % row.status

    def verdict(self, row: Row, subject: bytes, terms: Tuple[str, str], mark: str = "") -> None:
        """One test that is over; `mark` stands behind it."""
        if self.quiet:
            return
        word, colour, how = self.meaning(row, terms)
        padding = " " * max(0, max(len(terms[0]), len(terms[1]), 4) - len(word))
        end = "  (%s%s)" % (how, lasting(row.ended - row.began))
        end += "  " + visible(mark) if mark else ""
        front = "%s  %s" % (padding, row.commit[:NAME])
        room = self.width() - (len(word) + len(front) + len(end) + 2) if self.live else 1 << 20
        title = shown(subject, room)
        if self.color:
            word = "\033[%dm%s\033[m" % (colour, word)
        self.line(word + front + ("  " + title if title else "") + end)

    # -- the live line ---------------------------------------------------------------

    def width(self) -> int:
        """The columns that a row may have; the last one is left free."""
        try:
            columns = struct.unpack("hhhh", fcntl.ioctl(2, termios.TIOCGWINSZ, b"\0" * 8))[1]
        except OSError:
            columns = 0
        if columns <= 0:
            word = os.environ.get("COLUMNS", "")
            columns = int(word) if word.isdigit() and int(word) else 80
        return int(columns) - 1

    def draw(self, progress: Progress) -> None:
        """The live line anew."""
        if self.live:
            self.drawn = live_line(progress, self.width(), time.monotonic())
            self.write(b"\r%s\033[K" % os.fsencode(self.drawn))

    def resized(self) -> None:
        """The window has another width: a live line that fills several rows now is taken away."""
        if self.live and self.drawn:
            rows = columns_of(self.drawn) // (self.width() + 1)
            self.write(b"\r" + b"\033[A" * rows + b"\033[J")
            self.drawn = ""

    def ring(self, spent: float) -> None:
        """Rings the bell of a terminal at the end of a search that took long: whoever waits may be
        elsewhere."""
        if self.rings and spent >= LONG:
            self.write(b"\a")

    def clear_live(self) -> None:
        """There is no live line any more."""
        if self.live:
            self.live, self.drawn = False, ""
            self.write(b"\r\033[K")
