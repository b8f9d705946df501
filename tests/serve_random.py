#!/usr/bin/env python3
"""Random dialogues of `farmdawn serve`, beside the plain model in driver/model, byte by byte.

Usage: tests/serve_random.py [--seed S] [--count N] [--from N] [--jobs N] [--kind KIND]

Each number makes a stream and a dialogue over it: several searches, up to 200 workers, tests that are posted in any order or given
back, outcomes that are learned, and requests that are not legal. KIND is one of these; without it, they take turns:

  talk      each request is sent when the reply to the one before is there
  trickle   stream and requests come one byte at a time
  killed    the program is killed midway and begun again; it learns the outcomes so far in another order, must tell the same, and goes on
  pair      a driver with one worker, and one with many that posts the same outcomes in another order: the same logs, answers and ends

The program is the one that FARMDAWN names, or the one that was built. The same seed and number make the same dialogue. Of a dialogue
that differs the last requests are shown.
"""
import os
import random
import socket
import subprocess
import sys
import threading

import trials

TOP = os.path.dirname(os.path.dirname(os.path.abspath(__file__)))
sys.path.insert(0, os.path.join(TOP, "driver", "model"))
sys.dont_write_bytecode = True

import serve as model  # noqa: E402 (it is found by the line above)
from history import load  # noqa: E402

FARMDAWN = os.environ.get("FARMDAWN", os.path.join(TOP, "crates/farmdawn/out/farmdawn"))
SECONDS = 300  # that a dialogue may take
EVENTS = (b"log", b"left", b"answer", b"end", b"needless", b"certificate")
KINDS = ("talk", "trickle", "killed", "pair")
WRONG = [b"", b" ", b"pick", b"pick 0", b"pick 1025", b"pick 01", b"pick +1", b"pick x", b"pick 1 ", b"pick  1", b"Pick 1", b"post 9 0",
         b"post 9 256", b"post 9 -1", b"post 9 00", b"post 9", b"post 9 0 0", b"give 9", b"give 1025", b"give", b"learn", b"learn 1 0",
         b"learn 0 %b 0" % (b"0" * 40), b"learn 65 %b 0" % (b"0" * 40), b"learn 64 %b x" % (b"0" * 40), b"learn 1 %b x" % (b"0" * 40),
         b"learn 1 x x", b"search", b"search c0", b"search nowhere nowhere", b"search --workers 3 c1 c0", b"search --lenient-exit",
         b"search --term-new good c1 c0", b"search --replay no-such-file", b"search --skip", b"search c1 c0 ", b"wanted", b"wanted 0",
         b"wanted %b" % (b"f" * 40), b"certificate", b"certificate 0", b"certificate 65", b"certificate x", b"done", b"\xff\0", b"pick\t1",
         b"x" * 65535, b"x" * 65536, b"pick " + b"1" * 70000, b"words"]


class Difference(Exception):
    """What is not as the model has it."""


# ---- streams


def random_parents(choice):
    """The parents of each commit, by number: more or less of a line, now and then with a root of its own."""
    most = choice.choice([2, 6, 12, 12, 24, 48])
    steps, merges = choice.choice([[1], [1, 1, 1, 2], [1, 2, 3]]), choice.choice([0, 0.1, 0.4])
    parents = [[]]
    for number in range(1, choice.randrange(1, most) + 1):
        named = [max(0, number - choice.choice(steps))]
        if choice.random() < merges:
            named.append(choice.randrange(number))
        parents.append([] if choice.random() < 0.02 else list(dict.fromkeys(named)))
    return parents


def stream_of(parents):
    """A stream with these parents, and a ref on each commit."""
    text = []
    for number, named in enumerate(parents):
        text.append(f"reset refs/heads/c{number}\n\ncommit refs/heads/c{number}\nmark :{number + 1}\ncommitter f <f> {number} +0000\n"
                    f"data 8\ndone\n{number:02}\n\n")
        text += [f"{'merge' if index else 'from'} :{parent + 1}\n" for index, parent in enumerate(named)]
    return ("".join(text) + "done\n").encode()


def random_stream(choice):
    """A stream, its history as the model has it, and for each place the places behind it."""
    parents = random_parents(choice)
    stream = stream_of(parents)
    history = load(stream, False)
    behind = []
    for place in range(len(history)):
        behind.append({place}.union(*(behind[parent] for parent in history.parents[place])))
    return stream, history, behind


# ---- the two sides


class Program:
    """A program under way."""

    def __init__(self, stream):
        self.process = subprocess.Popen([FARMDAWN, "serve"], stdin=subprocess.PIPE, stdout=subprocess.PIPE)
        self.timer = threading.Timer(SECONDS, self.process.kill)
        self.timer.start()
        self.send(stream)
        self.ready = self.read_line()

    def send(self, data):
        try:
            self.process.stdin.write(data)
            self.process.stdin.flush()
        except BrokenPipeError:
            pass

    def read_line(self):
        line = self.process.stdout.readline()
        return line[:-1] if line.endswith(b"\n") else line + b" (and no further line)"

    def ask(self, line, count=None):
        """The lines that a request gets: so many, or up to its reply."""
        self.send(line + b"\n")
        got = []
        while count is None or len(got) < count:
            got.append(self.read_line())
            if got[-1].endswith(b"(and no further line)") or got[-1].split(b" ")[0] not in EVENTS:
                break
        return got

    def end(self):
        """Ends the input; what comes behind, and the status."""
        self.process.stdin.close()
        return self.process.stdout.read(), self.process.wait()

    def kill(self):
        """Leaves nothing of it."""
        self.process.kill()
        self.process.wait()
        self.timer.cancel()
        self.process.stdout.close()
        try:
            self.process.stdin.close()
        except BrokenPipeError:     # something was still to be sent
            pass


class Dialogue:
    """Random requests, each by what the model has come to."""

    def __init__(self, choice, history, behind, folder):
        self.choice, self.history, self.behind, self.folder = choice, history, behind, folder
        self.server = model.Server(history)
        self.begun, self.told, self.lines = [], [], []
        self.workers = choice.choice([1, 3, 8, 40, 200])
        self.most = choice.choice([1, 1, 2, 3, 6])
        self.noise = choice.choice([0, 0.1, 0.5])
        self.culprits = {}
        self.takes_long = True      # whether a line may be as long as a request, and longer

    # -- what a request may say

    def name(self):
        count = len(self.history)
        return self.choice.choice([b"c%d" % self.choice.randrange(count), b"c%d" % (count - 1), b"c%d~1" % self.choice.randrange(count),
                                   self.history.hex(self.choice.randrange(count)), self.history.hex(count - 1).upper(),
                                   self.choice.choice([b"c0^2", b"nowhere", b"0" * 40])])

    def ends(self):
        """Mostly the last commit, and one or more of the first ones."""
        if self.choice.random() < 0.3:
            return [self.name(), self.name()] + [self.name() for _ in range(self.choice.randrange(2))]
        count = len(self.history)
        return [b"c%d" % (count - 1)] + [b"c%d" % self.choice.randrange(max(1, count // 3)) for _ in range(self.choice.choice([1, 1, 2]))]

    def search_words(self):
        if self.choice.random() < 0.15:
            return [b"--replay", self.log_file()] + ([b"--skip", self.name()] if self.choice.random() < 0.2 else [])
        words = [b"--first-parent"] if self.choice.random() < 0.2 else []
        words += [b"--lenient-exit"] if self.choice.random() < 0.2 else []
        words += [b"--term-new", b"slow", b"--term-old", b"fast"] if self.choice.random() < 0.2 else []
        if self.choice.random() < 0.3:
            words += [b"--skip", self.name() + (b".." + self.name() if self.choice.random() < 0.5 else b"")]
        return words + self.ends()

    def log_file(self):
        """A file with the log of a search so far, or a part of it; or one that lacks an end."""
        name = os.path.join(self.folder, "log.%d" % len(self.lines))
        if self.told and self.choice.random() < 0.8:
            told = self.choice.choice(self.told)
            log = b"".join(line.split(b" ", 2)[2] + b"\n" for line in told if line.startswith(b"log "))[:self.choice.choice([None, None, -1, 40])]
        else:
            bad, good = self.choice.choice([(b"bad", b"good"), (b"slow", b"fast")])
            log = b"git bisect start" + (b" '--term-new' 'slow' '--term-old' 'fast'" if bad == b"slow" else b"") + b"\n"
            log += self.choice.choice([b"", b"git bisect " + bad + b" " + self.name() + b"\n", b"git bisect " + good + b" " + self.name() + b"\n"])
        with open(name, "wb") as file:
            file.write(log)
        return name.encode()

    def outcome(self, number, place):
        if self.choice.random() < self.noise:
            return self.choice.choice([b"0", b"1", b"2", b"124", b"125", b"125", b"125", b"126", b"127", b"128", b"255", b"killed"])
        culprit = self.culprits.setdefault(number, self.choice.randrange(len(self.history)))
        return b"1" if culprit in self.behind[place] else b"0"

    def busy(self):
        return [(number, worker, place) for number, search in enumerate(self.server.searches, 1) for worker, place in search.claims.items()]

    def wrong(self):
        busy = [worker for _, worker, _ in self.busy()]
        wrong = WRONG if self.takes_long else [line for line in WRONG if len(line) < 1000]
        return self.choice.choice(wrong + [form % worker for worker in busy[:4] for form in (b"pick %d", b"post %d 300", b"give %d 1")])

    def request(self):
        """The next request."""
        searches, busy, chance = self.server.searches, self.busy(), self.choice.random()
        if not searches or len(searches) < self.most and chance < 0.1:
            words = self.search_words()
            if self.choice.random() < 0.15:
                return b" ".join([b"words"] + words[:self.choice.randrange(len(words) + 1)])
            return b" ".join([b"search"] + words)
        if chance < 0.45:
            return b"pick %d" % self.choice.randint(1, self.workers)
        if chance < 0.75 and busy:
            number, worker, place = self.choice.choice(busy)
            return b"post %d " % worker + self.outcome(number, place)
        if chance < 0.82 and busy:
            return b"give %d" % self.choice.choice(busy)[1]
        place = self.choice.randrange(len(self.history))
        if chance < 0.9:
            number = self.choice.randint(1, len(searches))
            return b"learn %d %b " % (number, self.history.hex(place)) + self.outcome(number, place)
        if chance < 0.94:
            return b"wanted " + self.history.hex(place)
        if chance < 0.97:
            return b"certificate %d" % self.choice.randint(1, len(searches))
        return self.wrong()

    # -- what comes of it

    def answer(self, line):
        """What the model answers; what is told of each search is noted."""
        self.lines.append(line)
        count, standing = len(self.server.searches), self.server.standing
        due = [b"refused line too long"] if len(line) > 65535 else self.server.answer(line)
        if len(self.server.searches) > count:
            self.begun.append(standing + line.split(b" ")[1:])
            self.told.append([])
        for event in due:
            if event.split(b" ")[0] in (b"log", b"answer", b"end"):
                self.told[int(event.split(b" ")[1]) - 1].append(event)
        return due

    def again(self):
        """A dialogue that has just begun, in which the same things are true."""
        other = Dialogue(self.choice, self.history, self.behind, self.folder)
        other.workers, other.most, other.noise, other.culprits = self.workers, self.most, self.noise, self.culprits
        return other


def word_of(outcome):
    return b"killed" if outcome == "killed" else b"%d" % outcome


# ---- the kinds


def compare(dialogue, program, line):
    """Sends a request to both sides."""
    due = dialogue.answer(line)
    got = program.ask(line, len(due))
    if got != due:
        raise Difference(f"{shown(dialogue.lines)}: {got} in place of {due}")
    return got


def shown(lines):
    """The last requests."""
    return b"; ".join(line if len(line) < 300 else b"%d bytes" % len(line) for line in lines[-6:]).decode(errors="replace")


def begin(stream, history):
    program = Program(stream)
    if program.ready != b"ready 1 %d" % len(history):
        raise Difference(f"{program.ready} in place of the first line")
    return program


def finish(dialogue, program):
    try:
        rest, status = program.end()
    except BrokenPipeError:
        rest, status = b"", "none, and it reads no more"
    if rest or status:
        raise Difference(f"{shown(dialogue.lines)}: at the end {rest} and status {status}")


def talk(choice, stream, history, dialogue):
    program = begin(stream, history)
    try:
        for _ in range(choice.choice([10, 40, 100])):
            compare(dialogue, program, dialogue.request())
        if choice.random() < 0.3:
            program.send(choice.choice([b"pick 1", b"post 1 0", b"search c0"]))     # torn
        finish(dialogue, program)
    finally:
        program.kill()


def trickle(choice, stream, history, dialogue):
    due, dialogue.takes_long = b"ready 1 %d\n" % len(history), False
    for _ in range(choice.choice([5, 15, 30])):
        due += b"".join(line + b"\n" for line in dialogue.answer(dialogue.request()))
    text = stream + b"".join(line + b"\n" for line in dialogue.lines) + choice.choice([b"", b"pick 1"])
    ours, theirs = socket.socketpair(socket.AF_UNIX, socket.SOCK_SEQPACKET)     # a read gets what one write gave, and no more
    with ours, subprocess.Popen([FARMDAWN, "serve"], stdin=theirs, stdout=subprocess.PIPE) as process:
        theirs.close()
        timer = threading.Timer(SECONDS, process.kill)
        timer.start()
        sender = threading.Thread(target=send_each, args=(ours, text))
        sender.start()
        got = process.stdout.read()
        status = process.wait()
        timer.cancel()
        sender.join()
    if (got, status) != (due, 0):
        raise Difference(f"{shown(dialogue.lines)}: {got[-300:]} and status {status} in place of {due[-300:]}")


def send_each(sink, text):
    """Sends each byte apart."""
    try:
        for at in range(len(text)):
            sink.send(text[at:at + 1])
        sink.shutdown(socket.SHUT_WR)
    except OSError:
        pass


def killed(choice, stream, history, dialogue):
    program = begin(stream, history)
    try:
        for _ in range(choice.choice([10, 40])):
            compare(dialogue, program, dialogue.request())
    finally:
        program.kill()
    other, program = dialogue.again(), begin(stream, history)
    try:
        for number, (words, told) in enumerate(zip(dialogue.begun, dialogue.told), 1):
            compare(other, program, b" ".join([b"search"] + words))
            known = list(dialogue.server.searches[number - 1].outcomes.items())
            choice.shuffle(known)
            for place, outcome in known:
                compare(other, program, b"learn %d %b " % (number, history.hex(place)) + word_of(outcome))
            if other.told[number - 1] != told:
                raise Difference(f"{shown(other.lines)}: begun again, search {number} has told {other.told[number - 1]} in place of {told}")
        for _ in range(choice.choice([0, 20])):
            compare(other, program, other.request())
        finish(other, program)
    finally:
        program.kill()


def drive(choice, program, begun, outcomes, workers, in_order):
    """What is told of each search until each has its end, by so many workers, where tests end as these tables say."""
    told, tests, lines = [[] for _ in begun], {}, []

    def ask(line):
        lines.append(line)
        *events, reply = program.ask(line)
        for event in events:
            if event.split(b" ")[0] in (b"log", b"answer", b"end"):
                told[int(event.split(b" ")[1]) - 1].append(event)
        if reply.endswith(b"(and no further line)"):
            raise Difference(f"{shown(lines)}: no reply")
        return reply.split(b" ")

    for words in begun:
        ask(b" ".join([b"search"] + words))
    reply = [b"wait"]
    while reply != [b"over"] or tests:
        if begun and not in_order and choice.random() < 0.05:
            number = choice.randrange(len(begun))
            name = choice.choice(sorted(outcomes[number]))
            ask(b"learn %d %b " % (number + 1, name) + outcomes[number][name])
        worker = choice.randint(1, workers)
        if worker not in tests:
            reply = ask(b"pick %d" % worker)
            if reply[0] == b"test":
                tests[worker] = int(reply[1]) - 1, reply[2]
                continue
        if not tests or not in_order and choice.random() < 0.3:
            continue
        worker = choice.choice(sorted(tests))
        number, name = tests.pop(worker)
        lost = not in_order and choice.random() < 0.1
        ask(b"give %d" % worker if lost else b"post %d " % worker + outcomes[number][name])
    return told


def pair(choice, stream, history, dialogue):
    begun, taken = [], model.Server(history)
    for _ in range(choice.choice([1, 1, 2, 5])):
        words = dialogue.search_words()
        if taken.answer(b" ".join([b"search"] + words))[-1].startswith(b"search "):
            begun.append(words)
    outcomes = [{history.hex(place): dialogue.outcome(number, place) for place in range(len(history))} for number in range(len(begun))]
    drivers = []
    for workers, in_order in ((1, True), (choice.choice([2, 8, 40, 200]), False)):
        program = begin(stream, history)
        try:
            drivers.append(drive(choice, program, begun, outcomes, workers, in_order))
        finally:
            program.kill()
    if drivers[0] != drivers[1]:
        raise Difference(f"{begun}: {drivers[1]} in place of {drivers[0]}")


def try_one(number, folder, arguments):
    """What is wrong with a dialogue, or nothing."""
    choice = random.Random(f"{arguments.seed} {number}")
    stream, history, behind = random_stream(choice)
    kind = arguments.kind or KINDS[number % len(KINDS)]
    try:
        globals()[kind](choice, stream, history, Dialogue(choice, history, behind, folder))
    except Difference as found:
        return f"{kind}, {len(history)} commits, {found}"
    return None


def main():
    arguments = trials.read_arguments(__doc__, 100, jobs=1, words=["kind"])
    wrong = 0
    for number, found in trials.try_all(arguments, lambda number, folder: try_one(number, folder, arguments)):
        if found:
            wrong += 1
            print(f"{number}: {found}", flush=True)
    trials.end(arguments, "dialogues", wrong)


main()
