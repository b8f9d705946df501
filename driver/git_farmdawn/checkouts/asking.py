"""A test by hand: a person says what the commit in a checkout is."""
from __future__ import annotations

import os
import signal
from typing import TYPE_CHECKING, Dict, Generator, List, Optional, Union

from ..host.terminal import Terminal
from ..telling.facts import NAME, SKIP
from ..telling.text import shown
from ..telling.voice import quoted

if TYPE_CHECKING:
    from ..host.process import Child
    from ..repository.repository import Repository
    from ..telling.voice import Telling
    from .places import Claim, Slot

LOOK = 0.1  # seconds between two looks at what is typed
SUBJECT = 60
SHELL, STOP = "shell", "quit"
Steps = Generator[Union["Child", float], object, int]


class Asking:
    """Asks about one commit at a time, in the order in which they stand ready. Until it is asked
    about, a commit may turn out to be of no use."""

    def __init__(self, repo: Repository, voice: Telling, terms: tuple[str, str]) -> None:
        self.repo, self.voice, self.terminal = repo, voice, Terminal()
        new, old = terms
        self.meanings: Dict[str, int] = {old: 0, new: 1, "skip": SKIP}
        self.waiting: List[Claim] = []

    def ask(self, slot: Slot, claim: Claim, env: Dict[str, str]) -> Steps:
        """What a person says of a commit, as the status of a test; for a task."""
        self.waiting.append(claim)
        was_first = False
        try:
            while not was_first or self.waiting[0] is not claim:
                was_first = self.waiting[0] is claim
                yield LOOK  # behind an answer the search goes on first
            self.show(slot, claim)
            while True:
                typed = self.terminal.typed()
                if typed is None:
                    yield LOOK
                    continue
                word = self.word_of(typed)
                if word == SHELL:
                    self.terminal.run_shell(env["PWD"] if "PWD" in env else slot.folder, env)
                elif word == STOP:
                    os.kill(os.getpid(), signal.SIGINT)
                    yield LOOK
                    continue
                elif word is not None:
                    return self.meanings[word]
                self.prompt()
        finally:
            self.waiting.remove(claim)

    def word_of(self, typed: str) -> Optional[str]:
        """The word that was meant, which may be shortened; None where that is not clear."""
        word = typed.strip().lower() if typed else STOP
        words = [*self.meanings, SHELL, STOP]
        found = [one for one in words if word and one.startswith(word)]
        if word == "s":
            return "skip"
        return found[0] if len(found) == 1 or word in words else None

    def show(self, slot: Slot, claim: Claim) -> None:
        """Which commit it is, and where it stands. What was typed before is no answer."""
        subject = self.repo.run("show", "-s", "--format=%s", claim.commit, check=False)
        front = self.voice.bold(claim.commit[:NAME])
        self.voice.line("%s  %s" % (front, shown(subject.strip(), SUBJECT)))
        self.voice.line("    cd " + quoted(slot.folder))
        self.terminal.forget()
        self.prompt()

    def prompt(self) -> None:
        """Asks."""
        self.terminal.write("%s or %s? " % (", ".join([*self.meanings, SHELL]), STOP))
