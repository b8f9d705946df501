"""The proved engine, `farmdawn serve`: one request a line, event lines, one reply."""
from __future__ import annotations

import os
import re
import select
import subprocess
from typing import Callable, Dict, Iterable, List, Mapping, NamedTuple, NoReturn, Optional, Sequence

from ..repository.repository import SHORT
from ..telling.status import Status
from ..telling.voice import Lost, Stop

# forms, which few histories need: so they are compiled where they are used
LONG_NAME = "(?<![0-9a-f])[0-9a-f]{64}(?![0-9a-f])"
SHORT_NAME = b"(?<![0-9a-f])[0-9a-f]{40}(?![0-9a-f])"
NAME_OF_NOTE = rb"(?<=\[)[0-9a-f]{40}(?=\])"
# a line of a log with a name in brackets, and behind it a subject, which is the user's
NOTE = rb"([0-9]+ )?# "


class LongNames:
    """The names of a history by their first digits. It has none where names are short: then every
    line stays as it is."""

    def __init__(self) -> None:
        self.long: Dict[bytes, bytes] = {}

    def take(self, names: Sequence[str]) -> None:
        """Takes the names of commits, of which no two may begin alike."""
        for name in names:
            if (
                len(name) > SHORT
                and self.long.setdefault(name[:SHORT].encode(), name.encode()) != name.encode()
            ):
                raise Stop(
                    Status.TOO_MUCH, f"two commits have names that begin with {name[:SHORT]}"
                )

    def shorten(self, line: str) -> str:
        """A request, with names as the engine has them."""
        return re.sub(LONG_NAME, lambda found: found.group()[:SHORT], line) if self.long else line

    def lengthen(self, line: bytes) -> bytes:
        """What the engine said, with git's own names."""
        if not self.long:
            return line
        if re.match(NOTE, line):
            return re.sub(NAME_OF_NOTE, self.full, line, count=1)
        return re.sub(SHORT_NAME, self.full, line)

    def full(self, found: "re.Match[bytes]") -> bytes:
        """The name that begins so."""
        return self.long.get(found.group(), found.group())


EVENTS = (b"log", b"left", b"answer", b"end", b"needless", b"certificate")
REFUSALS = (b"refused ", b"stream refused", b"too large")  # of a request or the history
OTHERS = (b"usage fault", b"ready ")  # first lines of a program of another version
LAST_WORDS = 1000  # milliseconds in which it may say why it ends
LONGEST = 60000  # bytes of a line of words; a request may have 65,535
LONGEST_TOLD = 1000  # bytes of what it told on its standard error


class Refused(Exception):
    """It refused the history or a request; the text says why."""


class Unfit(Exception):
    """It is none that answers the driver; the text says what it said."""


class Reply(NamedTuple):
    """A reply line: its first word, and what follows."""

    kind: str
    rest: str


class Engine:
    """The program under way. `hear(kind, rest)` is called for each event line; it must ask for
    nothing."""

    def __init__(
        self,
        program: str,
        hear: Callable[[bytes, bytes], object],
        folder: str,
        env: Mapping[str, str],
    ) -> None:
        self.hear, self.inbox, self.program = hear, b"", program
        self.lines: List[bytes] = []
        self.names = LongNames()
        told = os.path.join(folder, "engine.told")  # its name is free at once for another engine
        self.told = os.open(told, os.O_RDWR | os.O_CREAT | os.O_EXCL | os.O_CLOEXEC, 0o600)
        os.unlink(told)
        # a session of its own: what a terminal sends is for the driver, which ends the engine by
        # closing its input. By its plain name: the program takes only words that are UTF-8, and its
        # path may have any bytes
        self.popen = subprocess.Popen(
            ["farmdawn", "serve", "--original-names"],
            executable=program,
            stdin=subprocess.PIPE,
            stdout=subprocess.PIPE,
            stderr=self.told,
            bufsize=0,
            cwd=folder,
            env=dict(env),
            start_new_session=True,
        )
        assert self.popen.stdin is not None and self.popen.stdout is not None
        self.to, self.out = self.popen.stdin.fileno(), self.popen.stdout.fileno()
        os.set_blocking(self.to, False)
        self.readable, self.both = select.poll(), select.poll()
        self.readable.register(self.out, select.POLLIN)
        self.both.register(self.out, select.POLLIN)
        self.both.register(self.to, select.POLLOUT)

    # -- the history ---------------------------------------------------------

    def load(self, stream: Iterable[bytes]) -> int:
        """Hands the history over as it comes; gives the number of its commits."""
        for part in stream:
            self.write(part)
        self.write(b"done\n")
        line = self.read_line()
        words = line.split(b" ")
        if len(words) == 3 and words[0] == b"ready" and words[1] == b"1" and words[2].isdigit():
            return int(words[2])
        raise self.end_with(line)

    def write(self, data: bytes) -> None:
        """Writes all of it, and keeps what the engine says meanwhile."""
        rest = memoryview(data)
        try:
            while rest:
                try:
                    rest = rest[os.write(self.to, rest) :]
                except BlockingIOError:
                    for fd, _ in self.both.poll():
                        if fd == self.out:
                            self.read_more()
        except OSError:
            self.fail()

    # -- requests ------------------------------------------------------------

    def ask(self, line: str) -> Reply:
        """The reply to one request, behind its events."""
        reply = self.ask_all([line])[0]
        if reply.kind == "refused":
            raise Refused(reply.rest)
        return reply

    def ask_all(self, lines: Sequence[str]) -> List[Reply]:
        """Sends requests ahead of their replies, and gives these; one may be `refused`."""
        self.write(self.names.shorten("".join([line + "\n" for line in lines])).encode())
        return [self.read_reply() for _ in lines]

    def read_reply(self) -> Reply:
        """The next reply; events before it are told."""
        while True:
            kind, _, rest = self.read_line().partition(b" ")
            rest = self.names.lengthen(rest)
            if kind not in EVENTS:
                return Reply(kind.decode("ascii", "replace"), rest.decode("ascii", "replace"))
            self.hear(kind, rest)

    def words(self, words: Sequence[str]) -> List[str]:
        """The request that begins a search with these words, and before it those that hold what
        does not fit into one line."""
        lines, line, size = [], ["words"], 0
        for word in words:
            if size + len(word) > LONGEST:
                lines.append(" ".join(line))
                line, size = ["words"], 0
            line.append(word)
            size += len(word) + 1
        return lines + [" ".join(["search"] + line[1:])]

    # -- lines ---------------------------------------------------------------

    def read_line(self) -> bytes:
        """The next line, without its end."""
        while not self.lines:
            self.readable.poll()
            self.read_more()
        return self.lines.pop()

    def read_more(self) -> None:
        """Takes what is there; lines are kept with the next one last."""
        part = os.read(self.out, 65536)
        if not part:
            self.fail()
        *lines, self.inbox = (self.inbox + part).split(b"\n")
        self.lines[:0] = lines[::-1]

    def fail(self) -> NoReturn:
        """It is gone: raises what its first line says that nobody has read."""
        part = b"x"
        try:
            while part and self.readable.poll(LAST_WORDS):
                part = os.read(self.out, 65536)
                self.inbox += part
        except OSError:
            pass  # it was ended before
        raise self.end_with((self.lines[::-1] + self.inbox.split(b"\n"))[0])

    def end_with(self, said: bytes) -> Exception:
        """Ends it, behind this line of it, and gives what that means. Whether its input closed
        before that line was read, or behind it, is chance, and changes nothing."""
        told = os.pread(self.told, LONGEST_TOLD, 0) if self.told >= 0 else b""
        self.close()
        word = (said or told.partition(b"\n")[0]).decode("ascii", "replace").strip()
        text = f'farmdawn ended with {self.popen.returncode}{": " + word if word else ""}'
        if said.startswith(REFUSALS):
            return Refused(text)
        return Unfit(text) if said.startswith(OTHERS) else Lost(text)

    def close(self) -> Optional[int]:
        """Closes its input, which ends it, and waits for that."""
        self.to = self.out = -1  # numbers that other files may get now
        if self.told >= 0:
            os.close(self.told)
        self.told = -1
        for file in (self.popen.stdin, self.popen.stdout):
            if file is not None:
                file.close()
        try:
            return self.popen.wait(10)
        except subprocess.TimeoutExpired:
            self.popen.kill()
            return self.popen.wait()
