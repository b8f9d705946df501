"""What is kept of the tests of one command: outcomes by commit, and outputs.

A kept outcome is bound to its commit, to the command and to what the files hold that the command
names; so it may be carried to another clone, or to another machine, together with its folder."""
from __future__ import annotations

import fcntl
import hashlib
import os
import re
import stat
from typing import TYPE_CHECKING, Callable, Dict, Iterable, List, Optional, Sequence, Set, Tuple

from ..host.files import NoRoom, content, make_folder, open_new, write_whole
from ..telling.facts import FIRST_STOP, decided, that_count
from ..telling.numbers import FIGURE, exact
from ..telling.status import Status
from ..telling.voice import Stop

if TYPE_CHECKING:
    from ..line.settings import Settings
    from ..repository.repository import Repository

FORM = b"4"
MOST_BYTES = 1 << 20  # as many as a commit has after 200,000 tests
STATUS = "(?:0|[1-9][0-9]{0,2})"
# of a test beside others, behind a + the seconds that it took
RUN = STATUS + r"(?:\+(?:0|[1-9][0-9]{0,8}))?"
WHOLE = "([0-9a-f]+)((?: %s)+) ([0-9a-f]{16}) end\n" % RUN


def hash_path(hasher: hashlib._Hash, path: str, name: str) -> None:
    """A file, a link or a folder with all that is below it: names, modes and contents."""
    hasher.update(os.fsencode(name) + b"\0")
    try:
        mode = os.lstat(path).st_mode
        hasher.update(b"%o\0" % mode)
        if stat.S_ISLNK(mode):
            hasher.update(os.fsencode(os.readlink(path)) + b"\0")
            if os.path.isfile(path):
                hash_path(hasher, os.path.realpath(path), "led to")
        elif stat.S_ISREG(mode):
            with open(path, "rb") as file:
                for part in iter(lambda: file.read(1 << 20), b""):
                    hasher.update(part)
        elif stat.S_ISDIR(mode):
            for inner in sorted(os.listdir(path)):
                hash_path(hasher, os.path.join(path, inner), inner)
    except OSError as fault:
        hasher.update(b"fault %d" % (fault.errno or 0))


def test_number(words: List[str], top: str, copies: List[str], outside: List[str]) -> str:
    """A number that no other test has: of its words as they were typed, and of the files that it is
    given."""
    hasher = hashlib.sha256(FORM + b"\0")
    for word in words:
        hasher.update(os.fsencode(word) + b"\0")
    for path in copies:
        hash_path(hasher, os.path.join(top, path), path)
    for path in outside:
        hash_path(hasher, os.path.realpath(path), os.path.basename(path))
    return hasher.hexdigest()[:12]


class Outcomes:
    """The folder results-NUMBER. Its lock keeps --prune away."""

    def __init__(self, folder: str, number: Callable[[], str], say: Callable[[str], None]) -> None:
        self.count_number, self.number, self.say = number, number(), say
        self.runs: Dict[str, List[int]] = {}  # the statuses of all tests of a commit, as they ended
        # of each of them the seconds, where other tests or builds ran at the same time; else None
        self.besides: Dict[str, List[Optional[int]]] = {}
        self.numbers: Dict[str, List[List[float]]] = {}  # what each of them measured
        self.folder = os.path.join(folder, "results-" + self.number)
        self.log_dir = self.folder
        if os.path.islink(self.folder):
            raise Stop(Status.NO_ROOM, self.folder + " is a link; nothing was tested")
        try:
            while not self.is_locked():
                pass
        except OSError:
            raise Stop(Status.NO_ROOM, self.folder + " cannot be locked") from None

    def is_locked(self) -> bool:
        """Makes the folder and takes its lock; not so where --prune of another run has removed it
        meanwhile."""
        make_folder(self.folder)
        lock = os.path.join(self.folder, "lock")
        try:
            if os.path.islink(lock):
                os.unlink(lock)
            self.lock = os.open(lock, os.O_RDWR | os.O_CREAT | os.O_NOFOLLOW | os.O_CLOEXEC, 0o666)
        except FileNotFoundError:
            return False
        fcntl.flock(self.lock, fcntl.LOCK_SH)
        if os.path.exists(lock) and os.path.samestat(os.stat(lock), os.fstat(self.lock)):
            return True
        os.close(self.lock)
        return False

    def put_outputs(self, folder: Optional[str]) -> None:
        """Outputs of tests go into this folder, or beside the outcomes."""
        folder = folder or self.folder
        try:
            os.makedirs(folder, exist_ok=True)
            self.log_dir = os.path.realpath(folder)
        except OSError:
            raise Stop(Status.NO_ROOM, folder + " cannot be made") from None

    # -- outcomes ----------------------------------------------------------------

    def path(self, commit: str) -> str:
        """The file of a commit's outcome."""
        return self.beside(commit, ".outcome")

    def beside(self, commit: str, kind: str) -> str:
        """A file of a commit."""
        return os.path.join(self.folder, commit + kind)

    def sum(self, commit: str, statuses: str) -> str:
        """What binds an outcome to this command: one of another folder has another sum."""
        return hashlib.sha256(("%s %s %s" % (self.number, commit, statuses)).encode()).hexdigest()[
            :16
        ]

    def read(self, commit: str) -> Optional[List[str]]:
        """The runs that a file has, or None where it has none that are whole and of this
        command."""
        try:
            fd = os.open(self.path(commit), os.O_RDONLY | os.O_NOFOLLOW | os.O_NONBLOCK)
        except OSError:
            return None
        with open(fd, "rb") as file:
            data = file.read(MOST_BYTES) if stat.S_ISREG(os.fstat(file.fileno()).st_mode) else b""
        match = re.fullmatch(WHOLE, data.decode("ascii", "replace"))
        if (
            not match
            or match.group(1) != commit
            or match.group(3) != self.sum(commit, match.group(2)[1:])
        ):
            return None
        runs: List[str] = match.group(2).split()
        return runs if all(int(run.partition("+")[0]) < FIRST_STOP for run in runs) else None

    def names(self) -> List[str]:
        """The commits that have a file."""
        return sorted(name[:-8] for name in os.listdir(self.folder) if name.endswith(".outcome"))

    def load(self, known: Iterable[str]) -> Dict[str, int]:
        """The outcomes that are kept of these commits, a status by commit."""
        wanted, found = set(known), {}
        for commit in self.names():
            if commit not in wanted:
                continue
            runs = self.read(commit)
            if runs is None:
                self.say("%s holds no whole outcome, and is forgotten" % self.path(commit))
                self.forget([commit])
                continue
            parts = [run.partition("+") for run in runs]
            self.runs[commit] = [int(status) for status, _, _ in parts]
            self.besides[commit] = [int(spent) if sign else None for _, sign, spent in parts]
            found[commit] = decided(self.counting(commit))
            self.load_numbers(commit)
        return found

    def counting(self, commit: str) -> List[int]:
        """What those tests of a commit ended with that count."""
        return that_count(self.runs.get(commit, []), self.besides.get(commit, []))

    def keep(
        self,
        commit: str,
        status: int,
        again: bool = False,
        beside: Optional[int] = None,
        lasts: bool = False,
    ) -> None:
        """Keeps an outcome, where it is one: a test that stops a search is made again. That of a
        commit which was tested `again` stands behind those before it: so the file says what each
        test ended with, and what most of them deny does not come back. `beside` has the seconds of
        one that ran beside others. One that `lasts` stays when the power fails."""
        if status >= FIRST_STOP:
            return
        before = (self.runs.get(commit, []), self.besides.get(commit, [])) if again else ([], [])
        statuses = self.runs[commit] = before[0] + [status]
        besides = self.besides[commit] = before[1] + [beside]
        text = " ".join(
            "%d" % one if spent is None else "%d+%d" % (one, spent)
            for one, spent in zip(statuses, besides)
        )
        try:
            write_whole(
                self.path(commit),
                ("%s %s %s end\n" % (commit, text, self.sum(commit, text))).encode(),
                lasts,
            )
        except OSError:
            raise NoRoom(self.folder) from None

    def forget(self, commits: Iterable[str]) -> None:
        """Removes the outcomes of these commits."""
        for commit in commits:
            self.runs.pop(commit, None)
            self.besides.pop(commit, None)
            self.numbers.pop(commit, None)
            for path in map(self.beside, [commit] * 3, (".outcome", ".missing", ".numbers")):
                try:
                    os.unlink(path)
                except OSError:
                    pass

    # -- what is kept beside them --------------------------------------------------

    def keep_numbers(self, commit: str, numbers: Sequence[float], again: bool = False) -> None:
        """Keeps what a test has measured, a line each, in the order of their statuses."""
        tests = self.numbers[commit] = (self.numbers.get(commit, []) if again else []) + [
            list(numbers)
        ]
        lines = [" ".join(exact(number) for number in one) for one in tests]
        text = "".join("%s %s end\n" % (one, self.sum(commit, one)) for one in lines)
        try:
            write_whole(self.beside(commit, ".numbers"), text.encode())
        except OSError:
            raise NoRoom(self.folder) from None

    def load_numbers(self, commit: str) -> None:
        """Takes what is kept of it, where that is whole and of this command."""
        path = self.beside(commit, ".numbers")
        if os.path.islink(path) or not os.path.isfile(path):
            return
        lines = content(path).decode("ascii", "replace").split("\n")[:-1]
        tests = [line.rsplit(" ", 2) for line in lines]
        if all(one[1:] == [self.sum(commit, one[0]), "end"] for one in tests):
            self.numbers[commit] = [
                [float(word) for word in one[0].split() if re.fullmatch(FIGURE, word)]
                for one in tests
            ]

    def keep_missing(self, commit: str) -> None:
        """Notes that the test was not there, beside its outcome."""
        try:
            write_whole(self.beside(commit, ".missing"), b"")
        except OSError:
            raise NoRoom(self.folder) from None

    def load_missing(self, commits: Iterable[str]) -> Set[str]:
        """Those of these commits where the test was not there."""
        return {commit for commit in commits if os.path.exists(self.beside(commit, ".missing"))}

    def count(self) -> int:
        """How many outcomes are kept."""
        return len(self.names())

    def still_the_same(self) -> bool:
        """Whether the files that the command names hold what they held at the begin."""
        return self.count_number() == self.number

    def log_of(self, commit: str, kind: str = ".log") -> str:
        """The file for the output of a test."""
        return os.path.join(self.log_dir, commit + kind)

    def open_log(self, commit: str, kind: str = ".log") -> Tuple[str, int]:
        """The file for the output of a test, a new one, so that no link is followed."""
        path = self.log_of(commit, kind)
        return path, open_new(path)


def open_kept(
    settings: Settings, repo: Repository, name: str, say: Callable[[str], None]
) -> Outcomes:
    """The outcomes of a test that earlier runs kept; none with --fresh."""
    words = [repo.prefix, *settings.outcome_words(), *settings.sums, "", *settings.typed[name]]

    def number() -> str:
        return test_number(words, repo.top, settings.brought, settings.outside)

    kept = Outcomes(settings.state or repo.folder, number, say)
    if settings.fresh:
        kept.forget(kept.names())
    kept.put_outputs(
        settings.log_dir and os.path.join(settings.log_dir, settings.short.get(name, name))
        if name
        else settings.log_dir
    )
    return kept
