"""The model of `farmdawn serve`: a worked talk, and random ones beside one test at a time and
beside `farmdawn simulate`.

The log and the answer of a search must be those of its outcomes, whoever tested what, in whatever
order, and whatever was given back."""
from __future__ import annotations

import hashlib
import os
import random
import subprocess
import unittest
from typing import Dict, List, Sequence, Tuple

from helpers import DRIVER, PROGRAM, TOP, begins_first, needs_program

# beside the driver that is tested, whose modules may be compiled
MODEL = next(
    path
    for path in (
        os.path.join(folder, "model", "farmdawn")
        for folder in (os.path.dirname(DRIVER), os.path.join(TOP, "driver"))
    )
    if os.path.exists(path)
)
EVENTS = ("log", "left", "answer", "end", "needless", "certificate")
WORDS: List[List[str]] = [[], ["--first-parent"], ["--term-new", "broken"]]
LETTERS = {"0": "g", "1": "b", "125": "s", "128": "a", "killed": "k"}


def stream_of(parents: Sequence[Sequence[int]]) -> str:
    """A stream with these parents, by place; each commit says a name of its own, and has a
    branch."""
    parts = []
    for place, above in enumerate(parents):
        parts.append(
            f"reset refs/heads/c{place}\n\ncommit refs/heads/c{place}\nmark"
            f" :{place + 1}\noriginal-oid {name_of(place)}\ncommitter f <f> {place} +0000\ndata"
            " 2\nc\n"
        )
        parts += [
            f'{"merge" if number else "from"} :{parent + 1}\n'
            for number, parent in enumerate(above)
        ]
    return "".join(parts)


def name_of(place: int) -> str:
    """The name that a commit says of itself."""
    return f"{place + 1:040x}"


def hashed(parents: Sequence[Sequence[int]]) -> List[str]:
    """git's names of the commits of a stream."""
    names: List[str] = []
    for place, above in enumerate(parents):
        body = (
            "tree 4b825dc642cb6eb9a060e54bf8d69288fbee4904\n"
            + "".join(f"parent {names[parent]}\n" for parent in above)
            + f"author f <f> {place} +0000\ncommitter f <f> {place} +0000\n\nc\n"
        )
        names.append(hashlib.sha1(b"commit %d\0" % len(body) + body.encode()).hexdigest())
    return names


class Talk:
    """A model under way."""

    def __init__(self, case: unittest.TestCase, stream: str, *words: str) -> None:
        self.process = subprocess.Popen(
            [MODEL, "serve", *words], stdin=subprocess.PIPE, stdout=subprocess.PIPE, text=True
        )
        case.addCleanup(self.end)
        assert self.process.stdin is not None and self.process.stdout is not None
        self.to, self.out = self.process.stdin, self.process.stdout
        self.to.write(stream + "done\n")
        self.to.flush()
        self.ready = self.out.readline()
        self.text: List[str] = []  # lines of the log and the answer of search 1
        self.status = ""

    def ask(self, line: str) -> Tuple[List[str], str]:
        """The events and the reply of a request."""
        self.to.write(line + "\n")
        self.to.flush()
        events: List[str] = []
        while True:
            got = self.out.readline().rstrip("\n")
            kind, _, rest = got.partition(" ")
            if kind not in EVENTS:
                return events, got
            events.append(got)
            if kind in ("log", "answer"):
                self.text.append(rest.partition(" ")[2])
            elif kind == "end":
                self.status = rest.partition(" ")[2]

    def end(self) -> int:
        """Ends its input; gives its status."""
        self.to.close()
        self.out.close()
        return self.process.wait()


def random_parents(choice: random.Random) -> List[List[int]]:
    """The parents of some commits: more or less of a line, with merges."""
    parents: List[List[int]] = [[]]
    for place in range(1, choice.randrange(4, 24)):
        above = [max(0, place - choice.choice([1, 1, 1, 2]))]
        if choice.random() < 0.3:
            above.append(choice.randrange(place))
        parents.append(list(dict.fromkeys(above)))
    return parents


def play(talk: Talk, choice: random.Random, outcomes: Sequence[str], workers: int) -> None:
    """Posts the outcomes of what the model asks for by workers that are quick and slow, and now and
    then gives a test back."""
    held: Dict[int, int] = {}
    while not talk.status:
        worker = choice.randrange(1, workers + 1)
        if worker in held and choice.random() < 0.2:
            del held[worker]
            talk.ask(f"give {worker}")
        elif worker in held:
            talk.ask(f"post {worker} {outcomes[held.pop(worker)]}")
        else:
            reply = talk.ask(f"pick {worker}")[1].split()
            if reply[0] == "test":
                held[worker] = int(reply[2], 16) - 1


class Model(unittest.TestCase):
    """The protocol, and the searches."""

    def test_line(self) -> None:
        """A worked talk over a line of four."""
        talk = Talk(self, stream_of([[], [0], [1], [2]]), "--original-names")
        self.assertEqual(talk.ready, "ready 1 4\n")
        events, reply = talk.ask("search c3 c0")
        self.assertEqual((events[-1], reply), ("left 1 3 0", "search 1"))
        self.assertEqual(talk.ask("pick 1"), ([], f"test 1 {name_of(1)}"))
        self.assertEqual(talk.ask("pick 2"), ([], f"test 1 {name_of(2)}"))
        self.assertEqual(talk.ask("pick 3"), ([], "wait"))
        for line, why in (
            ("pick 1", "worker has a test"),
            ("post 3 0", "worker has no test"),
            ("post 1 256", "bad outcome"),
            ("pick 0", "bad worker"),
            ("pick 1025", "bad worker"),
            ("give", "wrong number of words"),
            ("", "unknown request"),
            (f"learn 2 {name_of(1)} 0", "no such search"),
            (f"learn 1 {name_of(9)} 0", "no such commit"),
            (f"learn 1 {name_of(1)} 0", "is under test"),
            ("certificate 1", "no certificate"),
            ("search c3 c9", "name refused at word 2: unknown"),
            ("search c3", "usage fault at word 2"),
        ):
            with self.subTest(row=(line, why)):
                self.assertEqual(talk.ask(line), ([], "refused " + why))
        events, reply = talk.ask("post 1 1")
        self.assertEqual(
            events,
            [
                f"log 1 # bad: [{name_of(1)}] c",
                f"log 1 git bisect bad {name_of(1)}",
                f"log 1 # first bad commit: [{name_of(1)}] c",
                "left 1 1 0",
                f"answer 1 {name_of(1)} is the first bad commit",
                "end 1 0",
                "needless 1 2",
            ],
        )
        self.assertEqual(talk.ask("give 2"), (["needless 1"], "ok"))
        self.assertEqual(talk.ask("pick 2"), ([], "over"))
        self.assertEqual(
            talk.ask("certificate 1")[0],
            [
                "certificate 1 " + line
                for line in ("certificate 1", "bad " + name_of(1), "good " + name_of(0), "end")
            ],
        )
        self.assertEqual(talk.end(), 0)

    def test_refused_stream(self) -> None:
        """It is told, with a status; and each commit must have a name."""
        for stream, words, due in (
            ("x\n", (), "stream refused at line 1: syntax\n"),
            (
                stream_of([[]]).replace("original-oid", "#"),
                ("--original-names",),
                "stream refused at line 3: syntax\n",
            ),
            (
                stream_of([[]]).replace(name_of(0), "0" * 64),
                ("--original-names",),
                "stream refused at line 3: syntax\n",
            ),
        ):
            with self.subTest(row=(stream, words, due)):
                talk = Talk(self, stream, *words)
                self.assertEqual((talk.ready, talk.end()), (due, 7))

    @begins_first
    def test_random(self) -> None:
        """Several workers print what one does."""
        for seed in range(25):
            choice = random.Random(seed)
            parents = random_parents(choice)
            outcomes = [
                choice.choice(
                    ["0", "1", "0", "1", "125", "128" if choice.random() < 0.3 else "125"]
                )
                for _ in parents
            ]
            words = (
                choice.choice(["", "--first-parent ", "--term-new broken "])
                + f"c{len(parents) - 1} c{choice.randrange(2)}"
            )
            texts = []
            for workers in (1, choice.choice([2, 3, 7])):
                talk = Talk(self, stream_of(parents), "--original-names")
                talk.ask("search " + words)
                play(talk, choice, outcomes, workers)
                texts.append((talk.text, talk.status))
            self.assertEqual(texts[0], texts[1], f"seed {seed}")

    @needs_program
    def test_simulate(self) -> None:
        """The proved program prints the same of the same outcomes, by git's names."""
        for seed in range(25):
            choice = random.Random(1000 + seed)
            parents = random_parents(choice)
            outcomes = [
                choice.choice(
                    ["0", "1", "0", "1", "125", "128" if choice.random() < 0.3 else "125"]
                )
                for _ in parents
            ]
            words = choice.choice(WORDS) + [f"c{len(parents) - 1}", f"c{choice.randrange(2)}"]
            done = subprocess.run(
                ["farmdawn", "simulate", *words, "".join(LETTERS[outcome] for outcome in outcomes)],
                executable=PROGRAM,
                input=stream_of(parents) + "done\n",
                stdout=subprocess.PIPE,
                text=True,
                check=False,
            )
            talk, names = Talk(self, stream_of(parents)), hashed(parents)
            talk.ask("search " + " ".join(words))
            while not talk.status:
                commit = talk.ask("pick 1")[1].split()[2]
                talk.ask(f"post 1 {outcomes[names.index(commit)]}")
            self.assertEqual(
                (talk.text, talk.status),
                (done.stdout.splitlines(), str(done.returncode)),
                f"seed {seed}",
            )


if __name__ == "__main__":
    unittest.main()
