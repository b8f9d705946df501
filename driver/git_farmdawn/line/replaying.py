"""A log to go on from: its ends, which the history is made of, and its lines, which the engine
reads.

Only the engine says what a log means. But before it is asked the history must be there, and that
wants the ends, the terms and the paths: so much is read here. The names are made full ones, and the
paths are taken off, as the engine knows neither short names nor paths."""
from __future__ import annotations

import os
from typing import Callable, List, Optional

from ..telling.status import Status
from ..telling.voice import Stop

TERMS = {"--term-new": "new", "--term-bad": "new", "--term-old": "old", "--term-good": "old"}


class Log:
    """What stands in a log."""

    def __init__(self) -> None:
        self.first_parent = False
        self.new: Optional[str] = None
        self.old: Optional[str] = None
        self.bad = ""
        self.goods: List[str] = []
        self.paths: List[str] = []
        self.lines: List[str] = []
        self.has_marks = False  # but for those of ends

    @property
    def text(self) -> bytes:
        """The lines, by full names and without the paths of the start line."""
        return "\n".join(self.lines).encode("utf-8", "surrogateescape") + b"\n"

    def start(self, words: List[str], full_name: Callable[[str], str]) -> None:
        """The words of the start line."""
        if "--" in words:
            at = words.index("--")
            words, self.paths = words[:at], words[at + 1 :]
        out, names = ["git bisect start"], []
        rest = iter(words)
        for word in rest:
            option, sign, value = word.partition("=")
            if word == "--first-parent":
                self.first_parent = True
                out.append("'--first-parent'")
            elif option in TERMS:
                setattr(self, TERMS[option], value if sign else next(rest, ""))
            elif not word.startswith("-"):
                names.append(full_name(word))
        for option, term in (("--term-new", self.new), ("--term-old", self.old)):
            out += ["'%s' '%s'" % (option, term)] if term is not None else []
        self.bad, self.goods = names[0] if names else "", names[1:]
        self.lines = [" ".join(out + ["'%s'" % name for name in names])]

    def mark(self, term: str, name: str) -> None:
        """A mark; those before both ends are known are ends."""
        if (
            term in ("new", "old")
            and self.new is None
            and self.old is None
            and not self.bad
            and not self.goods
        ):
            self.new, self.old = "new", "old"
        whole = bool(self.bad and self.goods)
        if term == (self.new or "bad") and not self.bad:
            self.bad = name
        elif term == (self.old or "good") and (not whole or not self.has_marks):
            self.goods.append(name)
        elif whole:
            self.has_marks = True
        self.lines.append("git bisect %s %s" % (term, name))


def read_log(path: str, text: bytes, full_name: Callable[[str], str]) -> Log:
    """The log of a file; whether each line may stand there is for the engine to say."""
    import shlex

    log: Optional[Log] = None
    for number, line in enumerate(os.fsdecode(text).split("\n"), 1):
        words = line.strip(" \t")
        if not words.startswith(("git bisect ", "git-bisect ")):
            continue
        try:
            found = shlex.split(words)[1 if words.startswith("git-") else 2 :]
        except ValueError:
            raise Stop(
                Status.NO_LOG, "%s: line %d has a quote that is open" % (path, number)
            ) from None
        if found[:1] == ["start"]:
            log = Log()  # what stood before is over
            log.start(found[1:], full_name)
        elif len(found) != 2 or log is None:
            raise Stop(Status.NO_LOG, "%s: line %d is no line of a log" % (path, number))
        else:
            log.mark(found[0], full_name(found[1]))
    if log is None or not log.bad or not log.goods:
        raise Stop(Status.NO_ENDS, "%s: this log names no bad or no good commit" % path)
    log.goods = list(dict.fromkeys(log.goods))
    return log
