"""A test that is measured: its command is run until its numbers say on which side of the threshold
the commit is, or as often as an end is to be run."""
from __future__ import annotations

import os
from typing import TYPE_CHECKING, List, Optional

from ..known.measured import decide
from ..telling.facts import SKIP
from ..telling.numbers import Measured, Threshold, last_number

if TYPE_CHECKING:
    from .places import Claim

LAST = 1 << 20  # bytes of an output in which its number is looked for
PIECE = 1 << 16


class Meter:
    """What the runs of one test have measured. The standard output of a run has a file of its own,
    so that no number of another output counts; it is brought behind what else was printed."""

    def __init__(self, claim: Claim, threshold: Threshold, path: str) -> None:
        self.claim, self.threshold, self.path = claim, threshold, path
        self.numbers: List[float] = []

    def open(self) -> int:
        """The file for the standard output of a run."""
        flags = os.O_RDWR | os.O_CREAT | os.O_TRUNC | os.O_APPEND | os.O_CLOEXEC
        return os.open(self.path, flags, 0o600)

    @staticmethod
    def bring(out: int, log: int) -> Optional[float]:
        """Brings it to the output of the test; gives its last number."""
        os.lseek(out, 0, os.SEEK_SET)
        last = b""
        for piece in iter(lambda: os.read(out, PIECE), b""):
            last = (last + piece)[-LAST:]
            while piece:
                piece = piece[os.write(log, piece) :]
        return last_number(last)

    def take(self, status: int, number: Optional[float]) -> Optional[int]:
        """Takes a run that has ended: the status of the test, or None where it is to be run again.
        A run that failed, or printed no number, has measured nothing."""
        if status or number is None:
            lacking = "ended with %d" % status if status else "printed no number"
            none = Measured((), self.threshold, lacking=lacking)
            self.claim.measure(none if status < SKIP else None)
            return max(status, SKIP)
        self.numbers.append(number)
        if self.threshold.number is None:
            self.note(False)
            return SKIP if len(self.numbers) >= self.claim.times else None
        is_bad = decide(self.numbers, self.threshold)
        self.note(bool(is_bad))
        return None if is_bad is None else int(is_bad)

    def note(self, is_bad: bool) -> None:
        """What is known so far."""
        self.claim.measure(Measured(tuple(self.numbers), self.threshold, is_bad))
