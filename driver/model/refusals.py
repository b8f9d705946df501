"""What is refused: a status and a line of text, and the limits that some refusals speak of."""
from __future__ import annotations

LONGEST_LINE = 65535
LONGEST_PART = 67108864
LONGEST_STREAM = 1073741824
LONGEST_LOG = 16777216
MOST_COMMITS = 100000
MOST_ENTRIES = 40000000
MOST_WORDS = 1000000


class Refused(Exception):
    """Something is refused, with the status that a program ends with for it and the text that it
    prints."""

    def __init__(self, status: int, text: bytes) -> None:
        Exception.__init__(self, status, text)
        self.status, self.text = status, text


def at_line(line: int, why: bytes) -> Refused:
    """A stream that is refused at a line."""
    return Refused(7, b"stream refused at line %d: " % line + why)


def too_large(what: bytes) -> Refused:
    """Something is beyond a limit."""
    return Refused(9, b"too large: " + what)


def name_refused(word: int, why: bytes) -> Refused:
    """A word names no commit."""
    return Refused(8, b"name refused at word %d: " % word + why)


def usage(word: int) -> Refused:
    """A word is none of the command, or one is missing there."""
    return Refused(1, b"usage fault at word %d" % word)


def log_refused(line: int) -> Refused:
    """A log is refused at a line."""
    return Refused(10, b"log refused at line %d" % line)
