#!/usr/bin/env python3
"""A plain model of `farmdawn serve`: which commit is tested next, and what came of it, for a driver
that starts the tests itself.

serve.py serve [--original-names] < a fast-import stream that ends with its line `done`, then one
request a line

It serves the tests of the driver where no program is built, and is the oracle that tests of the
program's `serve` are compared with. Nothing in it is clever or quick: a search is a state, outcomes
and claims, and what is best, wanted or needless is found anew for each request by going through all
guesses. The output is a function of the input, byte by byte.

The first line of the output is `ready 1 COMMITS`; where the stream is refused, the line of `next`,
and the model ends with the status of it. Each request gets lines of events, then one reply:

    words WORD..            puts words in front of those of the next search     ok
    search [WORD..]         begins one: options, BAD and GOOD.., or --replay    search S
    pick W                  worker W looks for work                             test S COMMIT, wait, or over
    post W OUTCOME          its test ended so: 0 to 255, or killed              ok
    give W                  its test was lost                                   ok
    learn S COMMIT OUTCOME  an outcome that is known from elsewhere             ok
    wanted COMMIT           the searches that ask for a commit                  wanted S..
    certificate S           lines `certificate S LINE`, for one that found it   ok

Events: `log S LINE`, `left S COMMITS SKIPPED`, `answer S LINE`, `end S STATUS`, `needless S W..`.
What is not legal is `refused` with the reason, and changes nothing."""
from __future__ import annotations

import os
import sys
from typing import BinaryIO, Callable, Dict, List, Optional, Tuple, Union

from certificates import certificate_lines
from forms import decimal, object_name
from history import History, load
from refusals import LONGEST_LINE, LONGEST_PART, MOST_WORDS, Refused
from searches import Search
from states import KILLED

Reply = Tuple[List[bytes], Optional[Search]]
MOST_WORKERS, MOST_SEARCHES = 1024, 64
DEEPEST = 100000


class Illegal(Exception):
    """A request that is not legal now; its first word is why."""


def number(word: bytes, most: int, what: bytes) -> int:
    """A number from 1 on."""
    value = decimal(word)
    if value is None or word[:1] == b"0" or not 1 <= value <= most:
        raise Illegal(b"bad " + what)
    return value


def read_outcome(word: bytes) -> Union[int, str]:
    """An exit status, or that a test was killed."""
    value = decimal(word)
    if word == b"killed":
        return KILLED
    if value is None or value > 255 or word[:1] == b"0" and word != b"0":
        raise Illegal(b"bad outcome")
    return value


class Server:
    """The searches over one history. Each method below is a request: it gives the reply, and the
    search of which news may be told."""

    def __init__(self, history: History) -> None:
        self.history = history
        self.searches: List[Search] = []
        self.standing: List[bytes] = []  # words that stand before those of the next search
        self.forms: Dict[bytes, Tuple[Callable[..., Reply], int, int]] = {
            b"words": (self.words, 0, LONGEST_LINE),
            b"search": (self.search, 0, LONGEST_LINE),
            b"pick": (self.pick, 1, 1),
            b"post": (self.post, 2, 2),
            b"give": (self.give, 1, 1),
            b"learn": (self.learn, 3, 3),
            b"wanted": (self.wanted, 1, 1),
            b"certificate": (self.certificate, 1, 1),
        }

    def answer(self, line: bytes) -> List[bytes]:
        """All lines that a request gets."""
        verb, *words = line.split(b" ")
        try:
            if verb not in self.forms:
                raise Illegal(b"unknown request")
            call, least, most = self.forms[verb]
            if not least <= len(words) <= most:
                raise Illegal(b"wrong number of words")
            replies, changed = call(*words)
        except Illegal as fault:
            return [b"refused " + fault.args[0]]
        except Refused as fault:
            return [b"refused " + fault.text]
        return (changed.news(self.searches.index(changed) + 1) if changed else []) + replies

    # -- what words name -----------------------------------------------------

    def search_of(self, word: bytes) -> Search:
        """The search of a number."""
        value = number(word, MOST_SEARCHES, b"search")
        if value > len(self.searches):
            raise Illegal(b"no such search")
        return self.searches[value - 1]

    def place_of(self, word: bytes) -> int:
        """The place of a whole name."""
        name = object_name(word)
        if name is None or name not in self.history.place_of:
            raise Illegal(b"no such commit")
        return self.history.place_of[name]

    def holder(self, worker: int) -> Optional[Search]:
        """The search whose test a worker has, or None."""
        return next((search for search in self.searches if worker in search.claims), None)

    def held(self, word: bytes) -> Tuple[int, Search]:
        """A worker that has a test, and the search of it."""
        worker = number(word, MOST_WORKERS, b"worker")
        search = self.holder(worker)
        if search is None:
            raise Illegal(b"worker has no test")
        return worker, search

    # -- requests ------------------------------------------------------------

    def words(self, *words: bytes) -> Reply:
        """Words that do not fit into the line of a search; without any, those that stand are
        forgotten."""
        if len(self.standing) + len(words) > MOST_WORDS:
            raise Illegal(b"too many words")
        self.standing = self.standing + list(words) if words else []
        return [b"ok"], None

    def search(self, *words: bytes) -> Reply:
        """Begins a search."""
        if len(self.searches) >= MOST_SEARCHES:
            raise Illegal(b"too many searches")
        search = Search(self.history, self.standing + list(words))
        self.standing = []
        self.searches.append(search)
        return [b"search %d" % len(self.searches)], search

    def pick(self, word: bytes) -> Reply:
        """Work for a worker: that of the search with fewest claims, the first of several."""
        worker = number(word, MOST_WORKERS, b"worker")
        if self.holder(worker):
            raise Illegal(b"worker has a test")
        for search in sorted(self.searches, key=lambda search: len(search.claims)):
            place = search.best()
            if place is not None:
                search.claims[worker] = place
                return [
                    b"test %d " % (self.searches.index(search) + 1) + self.history.hex(place)
                ], search
        return [b"wait" if any(search.end is None for search in self.searches) else b"over"], None

    def post(self, word: bytes, ended: bytes) -> Reply:
        """How a test ended."""
        worker, search = self.held(word)
        outcome = read_outcome(ended)
        search.outcomes[search.claims.pop(worker)] = outcome
        search.take_in()
        return [b"ok"], search

    def give(self, word: bytes) -> Reply:
        """A test that was lost."""
        worker, search = self.held(word)
        del search.claims[worker]
        return [b"ok"], search

    def learn(self, word: bytes, commit: bytes, ended: bytes) -> Reply:
        """An outcome that is known from elsewhere."""
        search, place, outcome = self.search_of(word), self.place_of(commit), read_outcome(ended)
        if place in search.outcomes:
            raise Illegal(b"has an outcome")
        if place in search.claims.values():
            raise Illegal(b"is under test")
        search.outcomes[place] = outcome
        search.take_in()
        return [b"ok"], search

    def wanted(self, commit: bytes) -> Reply:
        """The searches some path of which asks for a commit."""
        place = self.place_of(commit)
        return [
            b"wanted"
            + b"".join(
                b" %d" % count
                for count, search in enumerate(self.searches, 1)
                if search.asked_for([place])
            )
        ], None

    def certificate(self, word: bytes) -> Reply:
        """What shows that the parents of the first bad commit are good."""
        search = self.search_of(word)
        if search.end is None or search.end[0] != "found":
            raise Illegal(b"no certificate")
        return [
            b"certificate " + word + b" " + line
            for line in certificate_lines(self.history, search.state)
        ] + [b"ok"], None


def read_stream(source: BinaryIO) -> bytes:
    """The bytes of a stream up to its command `done`, and none behind it."""
    out: List[bytes] = []
    while True:
        line = source.readline()
        out.append(line)
        if line in (b"", b"done\n", b"done"):
            return b"".join(out)
        if line.startswith(b"data <<") and line[7:] != b"\n":
            while out[-1] != b"" and (
                out[-1] is line or out[-1].rstrip(b"\n") != line[7:].rstrip(b"\n")
            ):
                out.append(source.readline())
        elif line.startswith(b"data "):
            count = decimal(line[5:].rstrip(b"\n"))
            out.append(source.read(count) if count and count <= LONGEST_PART else b"")


def main(words: List[str]) -> int:
    """Serves until the input ends."""
    source, sink = sys.stdin.buffer, sys.stdout.buffer

    def tell(lines: List[bytes]) -> None:
        sink.write(b"".join(line + b"\n" for line in lines))
        sink.flush()

    try:
        history = load(read_stream(source), "--original-names" in words)
    except Refused as fault:
        tell([fault.text])
        return fault.status
    server = Server(history)
    tell([b"ready 1 %d" % len(history)])
    for line in iter(source.readline, b""):
        if not line.endswith(b"\n"):  # torn: no request
            break
        tell(
            [b"refused line too long"] if len(line) > LONGEST_LINE + 1 else server.answer(line[:-1])
        )
    return 0


if __name__ == "__main__":
    sys.setrecursionlimit(DEEPEST)
    try:
        sys.exit(main(sys.argv[1:]))
    except BrokenPipeError:
        os.dup2(os.open(os.devnull, os.O_WRONLY), 1)
        sys.exit(13)
