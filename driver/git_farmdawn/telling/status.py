"""What git farmdawn ends with: the numbers stand in the manual, and scripts rely on them.

Those of an answer, and of a search that has none, are the ends of a search in `serve`. The others
have the number of the same thing in the program under it (farmdawn(1)); 24 and 25 are the driver's
own."""
from __future__ import annotations

from enum import IntEnum


class Status(IntEnum):
    """The exit statuses. A test's own statuses are plain numbers, as anything may be one."""

    FOUND = 0  # and whatever else was asked for was done
    REFUSED = 1  # a wrong line, an end that is not as it was called, something that is lacking
    ONLY_SKIPPED = 2
    BAD_MERGE_BASE = 3
    NO_ANCESTOR = 4  # a good commit is none of the bad one
    BAD_AND_GOOD = 5  # one commit is both
    TEST_STOPPED = 6  # 126 and above
    NO_COMMIT = 8  # an unknown name, or a clone that is too shallow
    TOO_MUCH = 9  # a limit was passed
    NO_LOG = 10  # a line that is none of a log
    BROKEN = 12  # the engine was lost, or a file could not be read
    NO_OUTPUT = 13
    NO_ROOM = 14  # a disk is full, or a file cannot be written
    NO_FILE = 16
    NO_ENDS = 17  # of a log without a bad or a good commit
    NOT_HELD = 20  # by a certificate
    DEADLINE = 24
    NO_PROGRESS = 25  # it came before any test had ended: the same line may never come further
    SIGNAL = 128  # and the number of the signal

    __str__ = int.__str__  # one text in each version of Python


# a search has its end with these: with an answer, or with the reason why there is none
ENDS = tuple(Status)[: Status.TEST_STOPPED + 1]
