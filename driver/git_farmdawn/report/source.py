"""What a report has of the repository, and git says of a commit that was found."""
from __future__ import annotations

import os
import re
from typing import TYPE_CHECKING, Callable, Dict, NamedTuple, Optional

from .remote import link_of, web_of

if TYPE_CHECKING:
    from ..repository.repository import Repository

FORM = "--format=%an <%ae>%n%at%n%B%x00"
SHOW = ("-c", "core.quotePath=false", "show", "--no-color", "--no-notes", "--encoding=UTF-8", FORM)
CHANGE = ("--no-ext-diff", "--no-textconv", "--diff-merges=first-parent", "--stat=100", "--patch")
RULE = "---\n"  # of git, above the numbers of a change
MOST_BYTES = 200000


def text_of(data: bytes) -> str:
    """Bytes as text: each that is no UTF-8 becomes U+FFFD."""
    return re.sub(
        "[\udc80-\udcff]", "\ufffd", data.replace(b"\0", b"\xff").decode("utf-8", "surrogateescape")
    )


class Signed(NamedTuple):
    """Who made a commit, and when."""

    author: str
    date: int


class Change(NamedTuple):
    """What a commit changes, over its first parent."""

    message: str
    stat: str
    patch: str


class Source:
    """A repository, the folder in it where the command is run, and the page of its server. `run`
    gives what a command of git prints; each commit is asked for once."""

    def __init__(
        self, path: str, prefix: str, web: Optional[str], form: str, run: Callable[..., bytes]
    ) -> None:
        self.path = path  # its work tree, or its git folder
        self.prefix = prefix
        self.web, self.form = web, form  # the kind of the server, where the setting tells one
        self.run = run
        self.signed_by: Dict[str, Signed] = {}
        self.changed_by: Dict[str, Change] = {}

    def link(self, commit: str) -> Optional[str]:
        """The page of a commit."""
        return link_of(self.web, self.form, commit)

    def ask(self, commit: str) -> None:
        """All that is shown of a commit, by one process of git."""
        said = self.run("-c", "log.showSignature=false", *SHOW, *CHANGE, commit, check=False)
        head, _, change = said.partition(b"\0")
        author, date, message = (text_of(head).split("\n", 2) + ["", "", ""])[:3]
        text = text_of(change[: MOST_BYTES + 1]).lstrip("\n")
        stat, _, patch = (text[len(RULE) :] if text.startswith(RULE) else text).partition("\n\n")
        self.signed_by[commit] = Signed(author, int(date or 0))
        self.changed_by[commit] = Change(message.rstrip("\n"), stat + "\n" if stat else "", patch)

    def signed(self, commit: str) -> Signed:
        """Who made it."""
        if commit not in self.signed_by:
            self.ask(commit)
        return self.signed_by[commit]

    def change(self, commit: str) -> Change:
        """What it changes."""
        if commit not in self.changed_by:
            self.ask(commit)
        return self.changed_by[commit]


def source_of(repo: Repository) -> Source:
    """What a report asks of a repository."""
    web = web_of(repo.text("config", "--get", "remote.origin.url", check=False).strip())
    form = repo.text("config", "--get", "farmdawn.link", check=False).strip().lower()
    path = text_of(os.fsencode(repo.top or repo.gitdir))
    return Source(path, repo.prefix, web, form, repo.run)
