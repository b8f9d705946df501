"""What `farmdawn serve` costs, request by request: by drivers with few and many workers, by outcomes that are learned, by workers that
wait, and beside `farmdawn simulate` where the same events come."""
import hashlib
import random
import re
import subprocess
from collections import defaultdict

import streams
from measure import least, measure, peak_of

SLOWEST = 0.05      # seconds of a processor that a request may take
LEARNED = 1.0       # seconds for all that are learned
BESIDE = 1.2        # times the cost of the same events
LEAST = 0.05        # seconds that the same events take at least, where they are compared
KEPT = 16           # MiB that requests which change nothing may leave behind
TWICE = 3           # times the memory that twice as many merge bases may take
TOLD = 3            # times what a request tells that its memory may be
WAITS = 10000
STACK = 256 << 10
EVENTS = (b"log", b"left", b"answer", b"end", b"needless", b"certificate")


class Talk:
    """A program under way, which has read the stream; what its requests cost, by their kinds."""

    def __init__(self, program, stream):
        self.process = subprocess.Popen([program, "serve"], stdin=subprocess.PIPE, stdout=subprocess.PIPE)
        with open(stream, "rb") as file:
            self.process.stdin.write(file.read())
        self.send(b"done")
        self.ready = self.process.stdout.readline()
        self.costs, self.peak, self.bytes = defaultdict(list), 0, 0

    def __enter__(self):
        return self

    def __exit__(self, *_):
        self.peak = peak_of(self.process.pid)
        self.process.stdin.close()
        self.process.stdout.close()
        self.process.wait()

    def send(self, line):
        self.process.stdin.write(line + b"\n")
        self.process.stdin.flush()

    def spent(self):
        """Seconds of a processor so far, of a program that waits for a request."""
        while True:
            with open(f"/proc/{self.process.pid}/stat", "rb") as file:
                if file.read().rpartition(b") ")[2][:1] == b"S":
                    break
        with open(f"/proc/{self.process.pid}/schedstat", "rb") as file:
            return int(file.read().split()[0]) / 1e9

    def ask(self, line):
        """The reply to a request, as words; its cost is noted."""
        before = self.spent()
        self.send(line)
        while True:
            reply = self.process.stdout.readline()
            self.bytes += len(reply)
            if reply.split(b" ")[0] not in EVENTS:
                break
        kind = line.split(b" ")[0]
        self.costs[b"wait" if reply == b"wait\n" else kind].append(self.spent() - before)
        return reply.rstrip(b"\n").split(b" ")

    def told(self):
        """The requests of a processor's second, and each kind's slowest."""
        every = [cost for costs in self.costs.values() for cost in costs]
        kinds = ", ".join(f"{kind.decode()} {1000 * max(costs):.1f} ms" for kind, costs in sorted(self.costs.items()))
        return f"{len(every)} requests, {len(every) / max(sum(every), 1e-6):.0f} a second; slowest: {kinds}"

    def slowest(self):
        """The slowest of all but those that begin a search."""
        return max((cost for kind, costs in self.costs.items() if kind != b"search" for cost in costs), default=0)


def drive(talk, names, searches, workers, choice):
    """A driver with so many workers, until each search has its end. Tests end in any order; one of ten is given back, and what one of
    ten showed is learned by the searches that want it, too."""
    place_of = {name: place for place, name in enumerate(names)}
    for _ in range(searches):
        talk.ask(b"search refs/heads/main refs/heads/old")
    bad = [(number * 2654435761 % 64 + 1) * len(names) // 65 for number in range(searches)]
    idle, tests = list(range(workers, 0, -1)), []

    def outcome(number, name):
        return b"1" if place_of[name] >= bad[number] else b"0"

    while True:
        reply = [b"wait"]
        while idle:
            reply = talk.ask(b"pick %d" % idle[-1])
            if reply[0] != b"test":
                break
            tests.append((idle.pop(), int(reply[1]) - 1, reply[2]))
        if reply == [b"over"]:
            return
        at = choice.randrange(len(tests))
        tests[at], tests[-1] = tests[-1], tests[at]
        worker, number, name = tests.pop()
        idle.append(worker)
        if choice.random() < 0.1:
            talk.ask(b"give %d" % worker)
            continue
        talk.ask(b"post %d " % worker + outcome(number, name))
        if choice.random() < 0.1:
            for other in talk.ask(b"wanted " + name)[1:]:
                talk.ask(b"learn %b %b " % (other, name) + outcome(int(other) - 1, name))


def driven(bench, names):
    """Drivers with one search and with many; whether no request is too slow."""
    right = True
    for searches, workers in ((1, 1), (1, 64), (1, 1024), (64, 64), (64, 1024)):
        with Talk(bench.program, bench.stream) as talk:
            drive(talk, names, searches, workers, random.Random(1))
        right &= talk.slowest() <= SLOWEST
        print(f"{searches} searches, {workers} workers: {talk.told()}; {talk.peak / 1024:.1f} MiB", flush=True)
    return right


def anywhere(bench, names, count):
    """Which searches want commits that nobody tests; whether that is quick, and leaves little behind."""
    with Talk(bench.program, bench.stream) as talk:
        talk.ask(b"search refs/heads/main refs/heads/old")
        before = peak_of(talk.process.pid)
        for name in random.Random(1).sample(names, min(count, len(names))):
            talk.ask(b"wanted " + name)
    kept = (talk.peak - before) / 1024
    print(f"wanted, {count} commits that nobody tests: {talk.told()}; {kept:.1f} MiB more", flush=True)
    return talk.slowest() <= SLOWEST and kept <= KEPT


def descending(bench, outcomes, searches):
    """A pick where each search has fewer tests under way than the one before it, and was posted to just now; whether that is quick."""
    with Talk(bench.program, bench.stream) as talk:
        for _ in range(searches):
            talk.ask(b"search refs/heads/main refs/heads/old")
        tests = [(worker, talk.ask(b"pick %d" % worker)) for worker in range(1, searches * searches + 1)]
        for worker, (_, number, name) in tests:
            if int(number) + (worker - 1) // searches > searches:
                talk.ask(b"post %d %b" % (worker, outcomes[name]))
        talk.costs.clear()
        talk.ask(b"pick 1024")
    print(f"{searches} searches with fewer and fewer tests under way: {talk.told()}", flush=True)
    return talk.slowest() <= SLOWEST


def over_bases(bench, count):
    """What a commit costs that is asked for behind so many merge bases, where an outcome is known ahead; and the memory."""
    bench.write(streams.many_bases, count)
    names = names_of(bench.stream)
    with Talk(bench.program, bench.stream) as talk:
        talk.ask(b"search refs/heads/main refs/heads/old")
        talk.ask(b"learn 1 %b 0" % names[-3])
        before = peak_of(talk.process.pid)
        talk.ask(b"wanted %b" % names[-1])
    print(f"wanted behind {count} merge bases of {len(names)} commits: {talk.told()}; {(talk.peak - before) / 1024:.1f} MiB more", flush=True)
    return max(talk.costs[b"wanted"]), talk.peak - before


def bases(bench, count):
    """The same behind twice as many; whether they take little more than twice the memory."""
    (seconds, memory), (longer, more) = over_bases(bench, count), over_bases(bench, 2 * count)
    print(f"behind twice as many: {longer / seconds:.1f} times the time, {more / max(memory, 1024):.1f} times the memory", flush=True)
    return more <= TWICE * max(memory, 1024)


def picked_past(bench, count):
    """What a pick costs past so many merge bases, of which the first is under test and the others are known to be good; and the
    memory."""
    bench.write(streams.many_bases, count)
    names = names_of(bench.stream)
    with Talk(bench.program, bench.stream) as talk:
        talk.ask(b"search refs/heads/main refs/heads/old")
        tested = talk.ask(b"pick 1")[2]
        for name in names[1:count + 1]:
            if name != tested:
                talk.ask(b"learn 1 %b 0" % name)
        before = peak_of(talk.process.pid)
        talk.costs.clear()
        talk.ask(b"pick 2")
    print(f"pick past {count} merge bases that are good: {talk.told()}; {(talk.peak - before) / 1024:.1f} MiB more", flush=True)
    return sum(map(sum, talk.costs.values())), talk.peak - before


def picks_past(bench, count):
    """The same past twice as many; whether they take little more than twice the memory."""
    (seconds, memory), (longer, more) = picked_past(bench, count), picked_past(bench, 2 * count)
    print(f"past twice as many: {longer / seconds:.1f} times the time, {more / max(memory, 1024):.1f} times the memory", flush=True)
    return more <= TWICE * max(memory, 1024)


def ranges(bench, size):
    """A search whose one line skips the same commits again and again; whether the memory is that of the log that it asks for."""
    bench.write(streams.line, size)
    right = True
    for count in (1, 5, 10):
        with Talk(bench.program, bench.stream) as talk:
            before = peak_of(talk.process.pid)
            talk.ask(b"search" + b" --skip main~%d..main~1" % (size - 2) * count + b" refs/heads/main refs/heads/old")
        kept, told = (talk.peak - before) / 1024, talk.bytes / (1 << 20)
        print(f"{count} ranges of {size} skips: {talk.told()}; {told:.1f} MiB are told, {kept:.1f} MiB more, {kept / told:.1f} times", flush=True)
        right &= kept <= TOLD * told + KEPT
    return right


def skipped(bench, count):
    """So many tests that all are skips, by few and many workers; how many times the cost of one worker that is."""
    one = None
    for workers in (1, 8, 64):
        choice = random.Random(1)
        with Talk(bench.program, bench.stream) as talk:
            talk.ask(b"search refs/heads/main refs/heads/old")
            for worker in range(1, workers + 1):
                talk.ask(b"pick %d" % worker)
            for _ in range(count):
                worker = choice.randint(1, workers)
                talk.ask(b"post %d 125" % worker)
                talk.ask(b"pick %d" % worker)
        all_of_it = sum(cost for costs in talk.costs.values() for cost in costs)
        one = one or all_of_it
        print(f"{count} tests by {workers} workers, all skips: {talk.told()}; {talk.peak / 1024:.1f} MiB; {all_of_it / one:.1f} times one worker's",
              flush=True)
    return True


def served(bench, requests, **options):
    """What a dialogue of these requests costs, with its stream, where all of them were sent before."""
    with open(bench.stream, "rb") as stream, open(bench.path("requests"), "wb") as out:
        out.write(stream.read() + b"done\n" + b"".join(line + b"\n" for line in requests))
    return least(lambda: measure([bench.program, "serve"], bench.path("requests"), keep=bench.path("output"), **options))


def above(cost, before):
    """The processor seconds of one above those of another."""
    return max(cost.processor - before.processor, 0)


def learned(bench, names, count):
    """So many outcomes are learned by a search, that nobody tests, and that 64 workers test; whether that is quick enough."""
    places, right = random.Random(1).sample(range(len(names)), count), True
    bad = len(names) * 2 // 3
    lines = [b"learn 1 %b " % names[place] + (b"1" if place >= bad else b"0") for place in places]
    for workers in (0, 64):
        before = [b"search refs/heads/main refs/heads/old"] + [b"pick %d" % worker for worker in range(1, workers + 1)]
        alone, cost = served(bench, before), served(bench, before + lines)
        seconds, refused = above(cost, alone), cost.output.count(b"\nrefused is under test")
        right &= (seconds <= LEARNED or workers > 0) and refused == cost.output.count(b"\nrefused") <= workers
        print(f"{count} outcomes are learned while {workers} workers test: {seconds:.2f} s, {1e6 * seconds / count:.1f} microseconds each; "
              f"{refused} under test; {cost.peak / 1024:.1f} MiB", flush=True)
    return right


def waiting(bench, count):
    """64 searches that have all their tests under way, and a worker that asks again and again: where nothing changed, and where a test was
    given back and taken again in between."""
    before = [b"search refs/heads/main refs/heads/main~12"] * 64 + [b"pick %d" % worker for worker in range(1, 1024)]
    alone, idle = served(bench, before), served(bench, before + [b"pick 1024"] * count)
    anew = served(bench, before + [b"give 1", b"pick 1", b"pick 1024"] * (count // 10))
    print(f"a worker waits: {1e6 * above(idle, alone) / count:.1f} microseconds where nothing changed, "
          f"{1e6 * above(anew, alone) / (count // 10):.0f} where a test was given back and taken; {idle.peak / 1024:.1f} MiB", flush=True)
    return idle.output.endswith(b"wait\n" * count) and anew.output.endswith(b"wait\n")


def request_of(verb, worker, name, outcomes):
    """The request of an event that a trace tells, whose workers are counted from 0."""
    worker = int(worker) + 1
    if verb == b"claim":
        return b"pick %d" % worker
    return b"give %d" % worker if verb == b"give" else b"post %d %b" % (worker, outcomes[name])


def requests_of(trace, outcomes):
    """The requests of the events that a trace tells, the claims that are due, and the text in front of the trace."""
    lines, claims, text = [b"search refs/heads/main refs/heads/old"], [], b""
    for line in trace.splitlines(keepends=True):
        event = re.match(rb"(claim|post|give) (\d+) ([0-9a-f]{40})", line)
        if not event:
            text += line
            continue
        lines.append(request_of(*event.groups(), outcomes))
        claims += [b"test 1 " + event[3]] if event[1] == b"claim" else []
    return lines, claims, text


def same_events(bench, size, outcomes):
    """The events of `simulate --workers`, as requests; whether they cost little more, on a small stack, too, with the same tests, log and
    answer."""
    plan, right = "g" * (size * 2 // 3) + "b" * (size - size * 2 // 3), True
    alone = served(bench, [])
    import_alone = least(lambda: bench.ask("simulate", "refs/heads/main", "refs/heads/main", "", due=(5,)))
    for workers in (1, 8, 64):
        words = ["--workers", str(workers), "--trace", "refs/heads/main", "refs/heads/old", plan]
        simulated = bench.ask("simulate", *words)
        lines, claims, text = requests_of(simulated.output, outcomes)
        simulated = least(lambda words=words: bench.ask("simulate", *words))
        for stack in (None, STACK):
            cost = served(bench, lines, stack=stack)
            replies = cost.output.splitlines()
            said = b"".join(line.split(b" ", 2)[2] + b"\n" for line in replies if line.startswith((b"log ", b"answer ")))
            same = said == text and [line for line in replies if line.startswith(b"test ")] == claims
            ours, theirs = above(cost, alone), above(simulated, import_alone)
            right &= same and ours <= BESIDE * max(theirs, LEAST)
            print(f"{len(lines)} events of {workers} workers{', stack of 256 KiB' if stack else ''}: serve {cost}, simulate {simulated}; above their "
                  f"imports {ours:.3f} s and {theirs:.3f} s, {ours / max(theirs, LEAST):.2f} times{'' if same else '; ANOTHER TEXT'}", flush=True)
    return right


def costs(bench, size, count):
    """Prints what requests cost over so many commits, where so many outcomes are learned; whether all is as it must be."""
    bench.write(streams.generated, size)
    names = names_of(bench.stream)
    outcomes = {name: b"1" if place >= size * 2 // 3 else b"0" for place, name in enumerate(names)}
    return all([same_events(bench, size, outcomes), learned(bench, names, count), waiting(bench, WAITS), driven(bench, names),
                anywhere(bench, names, 1000), descending(bench, outcomes, 8), skipped(bench, min(300, size // 10)), bases(bench, size // 30), picks_past(bench, size // 60), ranges(bench, size)])


def names_of(stream):
    """git's names of the commits of a generated stream, by place: they have no files."""
    names = []
    with open(stream, "rb") as file:
        texts = file.read().split(b"commit refs/")[1:]
    for text in texts:
        marks = re.findall(rb"^(?:from|merge) :(\d+)$", text, re.M)
        who, message = re.search(rb"^committer (.*)\ndata \d+\n(.*\n)", text, re.M).groups()
        body = b"tree 4b825dc642cb6eb9a060e54bf8d69288fbee4904\n" + b"".join(b"parent %b\n" % names[int(mark) - 1] for mark in marks)
        body += b"author %b\ncommitter %b\n\n%b" % (who, who, message)
        names.append(hashlib.sha1(b"commit %d\0" % len(body) + body).hexdigest().encode())
    return names
