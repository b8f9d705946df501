"""The pipe to the engine, with a false one: what is written, what is told, and what happens where
it is lost."""
from __future__ import annotations

import os
import stat
import sys
import tempfile
import unittest
from typing import List, Tuple

sys.path.insert(0, os.path.dirname(os.path.dirname(os.path.abspath(__file__))))

from git_farmdawn.telling.voice import Lost, Stop  # noqa: E402
from git_farmdawn.engine.engine import LONGEST, Engine, Refused, Reply, Unfit  # noqa: E402

SHORT_TESTS = True

# it takes a stream, and then answers each line by itself: `say WORDS` by these, `big N` by so many
# events, `die` by its end
FALSE = (
    """#!%s -ISB
import sys
source, sink = sys.stdin.buffer, sys.stdout.buffer
size = 0
while True:
    line = source.readline()
    size += len(line)
    if line == b'done\\n':
        break
    if line == b'refuse\\n':
        sink.write(b'stream refused at line 2: syntax\\n')
        sys.exit(7)
    if line == b'unknown\\n':
        sys.stderr.write('farmdawn: serve, and no further word\\n')
        sink.write(b'usage fault at word 1\\n')
        sys.exit(1)
    if line == b'new\\n':
        sink.write(b'ready 2 5\\n')
        sys.exit(0)
    if line == b'mumble\\n':
        sink.write(b'what\\n')
        sys.exit(0)
    if line == b'die\\n':
        sys.stderr.write('out of luck\\n')
        sys.exit(15)
sink.write(b'ready 1 %%d\\n' %% size)
sink.flush()
for line in source:
    verb, _, rest = line[:-1].partition(b' ')
    if verb == b'die':
        sys.exit(3)
    if verb == b'big':
        sink.write(b'log 1 x\\n' * int(rest) + b'ok\\n')
    elif verb == b'say':
        sink.write(rest.replace(b'|', b'\\n') + b'\\n')
    else:
        sink.write(b'got %%d\\n' %% len(line))
    sink.flush()
"""
    % sys.executable
)


class Pipe(unittest.TestCase):
    """One engine a test."""

    def setUp(self) -> None:
        room = tempfile.TemporaryDirectory()
        self.addCleanup(room.cleanup)
        self.folder = room.name
        self.program = os.path.join(room.name, "engine")
        with open(self.program, "w", encoding="utf-8") as file:
            file.write(FALSE)
        os.chmod(self.program, stat.S_IRWXU)
        self.told: List[Tuple[bytes, bytes]] = []

    def start(self, stream: bytes = b"x\n") -> Engine:
        """An engine with its history."""
        engine = Engine(
            self.program, lambda kind, rest: self.told.append((kind, rest)), self.folder, os.environ
        )
        self.addCleanup(engine.close)
        self.assertEqual(engine.load([stream]), len(stream) + len(b"done\n"))
        return engine

    def test_replies(self) -> None:
        """Events are told before the reply, and a refusal is an exception."""
        engine = self.start()
        self.assertEqual(
            engine.ask("say log 1 # bad: x|left 1 3 0|test 1 abc"), Reply("test", "1 abc")
        )
        self.assertEqual(self.told, [(b"log", b"1 # bad: x"), (b"left", b"1 3 0")])
        self.assertEqual(engine.ask("say ok"), Reply("ok", ""))
        with self.assertRaisesRegex(Refused, "bad worker"):
            engine.ask("say refused bad worker")

    def test_many_ahead(self) -> None:
        """More requests and replies than the pipes hold: neither side waits for the other."""
        engine = self.start()
        replies = engine.ask_all(["big 20000", *["say ok " + "x" * 5000] * 200, "big 20000"])
        self.assertEqual((len(replies), len(self.told)), (202, 40000))

    def test_large_stream(self) -> None:
        """A stream that no pipe holds."""
        self.start(b"x" * 99 + b"\n" + b"y" * 3000000 + b"\n")

    def test_words(self) -> None:
        """What does not fit into a line goes before it, and each line is within the limit."""
        engine = self.start()
        several: List[List[str]] = [[], ["a", "b"], ["n" * 40] * 5000]
        for words in several:
            lines = engine.words(words)
            self.assertEqual([word for line in lines for word in line.split()[1:]], words)
            self.assertEqual(
                [line.split()[0] for line in lines], ["words"] * (len(lines) - 1) + ["search"]
            )
            self.assertLess(max(len(line) for line in lines), 65535)
        self.assertEqual(len(engine.words(["n" * 40] * 5000)), 5000 * 41 // LONGEST + 1)

    def test_no_engine(self) -> None:
        """One that refuses the history, knows no such command or option, is of another version, or
        dies, is told from the others by its line, whether the pipe still takes the history then or
        not. Where it says nothing, what it told is its last word."""
        for order, kind, words in (
            (b"refuse", Refused, "7: stream refused at line 2: syntax"),
            (b"unknown", Unfit, "1: usage fault at word 1"),
            (b"new", Unfit, "0: ready 2 5"),
            (b"mumble", Lost, "0: what"),
            (b"die", Lost, "15: out of luck"),
        ):
            for parts in (0, 50):
                with self.subTest(order=order, parts=parts):
                    engine = Engine(self.program, print, self.folder, os.environ)
                    with self.assertRaisesRegex(kind, f"^farmdawn ended with {words}$"):
                        engine.load([order + b"\n", *[b"y" * 100000] * parts])

    def test_long_names(self) -> None:
        """It gets the first 40 digits of names of 64, and its lines get the rest back: those of
        commits alone, and none in a subject."""
        engine, name, other = self.start(), "ab" * 32, "cd" * 20 + "ef" * 12
        engine.names.take([name, other])
        short = name[:40]
        self.assertEqual(engine.ask(f"say test 1 {name}"), Reply("test", f"1 {name}"))
        engine.ask(
            f"say log 1 # bad: [{short}] of {short} and [{short}]|log 1 git bisect start '{short}'"
            f" '{other[:40]}'|answer 1 {short} is it|ok"
        )
        self.assertEqual(
            self.told,
            [
                (b"log", f"1 # bad: [{name}] of {short} and [{short}]".encode()),
                (b"log", f"1 git bisect start '{name}' '{other}'".encode()),
                (b"answer", f"1 {name} is it".encode()),
            ],
        )
        self.assertEqual(engine.names.lengthen(b"1 " + b"9" * 40), b"1 " + b"9" * 40)
        with self.assertRaisesRegex(Stop, "begin with " + short):
            engine.names.take([short + "0" * 24])

    def test_lost(self) -> None:
        """It ends, at once or at the next request; its last words are told."""
        engine = self.start()
        with self.assertRaisesRegex(Lost, "farmdawn ended with 3"):
            engine.ask("die")
        with self.assertRaises((Lost, ValueError)):
            engine.ask("say ok")


if __name__ == "__main__":
    unittest.main()
