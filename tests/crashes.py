#!/usr/bin/env python3
"""`farmdawn journal run` that is killed, whose disk fails, or that meets another run over the same journal.

Usage: tests/crashes.py [--seed S] [--kills N] [--calls]

kills: runs with 1, 4 and 16 workers are ended by SIGKILL, with their tests, at N random moments in all, and begun again with
the same line each time until they end. The text of the last one is that of an undisturbed run, what was printed before is a
front of it, and no commit whose mark line was printed is tested again.

faults: a file that may not grow, that cannot be written, a folder that is gone, a journal that is a folder, a link or a FIFO,
a journal of another command, and one that another run has: status 21 or 22 with the log so far and the line that says so, and
nothing lost.

calls, with --calls: each system call on the journal fails in turn, by strace. The status is 22, with the log so far, or that of
the undisturbed run, whose text the same line prints afterwards, without testing again what was printed.

The program is the one that FARMDAWN names, or the one that was built.
"""
import argparse
import os
import random
import re
import resource
import shutil
import signal
import subprocess
import sys
import tempfile
import time

TOP = os.path.dirname(os.path.dirname(os.path.abspath(__file__)))
FARMDAWN = os.environ.get("FARMDAWN", os.path.join(TOP, "crates/farmdawn/out/farmdawn"))
COMMITS = 40
JOURNAL = "bisect.journal"
# A test notes its commit in the file `tested`, takes a moment, and finds its outcome in the commit's name.
TEST = 'echo "$1" >>"$0"; sleep 0.01; case $1 in *[0-5]) exit 0 ;; *[6-d]) exit 1 ;; *) exit 125 ;; esac'

# one that waits for a file
HELD = TEST.replace("sleep 0.01", 'until [ -e "$0.on" ]; do sleep 0.02; done')


def stream(commits):
    text = []
    for number in range(1, commits + 1):
        text.append(f"commit refs/heads/main\nmark :{number}\ncommitter gen <gen@gen> {number} +0000\ndata 2\nc\n")
        text += [f"from :{number - 1}\n"] if number > 1 else []
        text += [f"merge :{number - 3}\n"] if number % 7 == 0 else []
    return "".join(text).encode()


class Place:
    """A folder with a stream in which runs are made; the file of its tests stands beside it."""

    def __init__(self, workers=1):
        self.top = tempfile.mkdtemp()
        self.work = os.path.join(self.top, "work")
        self.tested_file = os.path.join(self.top, "tested")
        self.stream = os.path.join(self.top, "stream")
        self.journal = os.path.join(self.work, JOURNAL)
        self.workers = workers
        os.mkdir(self.work)
        os.chmod(self.top, 0o777)
        os.chmod(self.work, 0o777)
        self.give(COMMITS)

    def give(self, commits):
        """Gives the runs from now on a history of so many commits."""
        self.commits = commits
        with open(self.stream, "wb") as out:
            out.write(stream(commits))

    def __enter__(self):
        return self

    def __exit__(self, *_):
        shutil.rmtree(self.top, ignore_errors=True)

    def words(self, verb=("journal", "run"), test=TEST):
        return [FARMDAWN, *verb, "--workers", str(self.workers), "main", f"main~{self.commits - 1}", "--", "sh", "-c", test, self.tested_file]

    def start(self, words=None, before=None, work=None):
        return subprocess.Popen(words or self.words(), cwd=work or self.work, env={**os.environ, "FARMDAWN_QUIET": "1"},
                                stdin=open(self.stream, "rb"), stdout=subprocess.PIPE, stderr=subprocess.DEVNULL, start_new_session=True,
                                preexec_fn=before)

    def run(self, **how):
        """The status and the text of a run."""
        run = self.start(**how)
        text = run.communicate(timeout=120)[0]
        return run.returncode, text

    def tested(self):
        try:
            return open(self.tested_file).read().split()
        except FileNotFoundError:
            return []


def due():
    """The status and the text of an undisturbed run."""
    with Place() as place:
        return place.run(words=place.words(verb=("run",)))


def marked(text):
    """The commits whose mark lines a text has."""
    return set(re.findall(rb"^git bisect (?:good|bad|skip) ([0-9a-f]{40})$", text, re.M))


def tested_again(text, tested):
    return sorted(name for name in tested if name.encode() in marked(text))


def goes_on(place, whole, printed):
    """What is wrong with a run that goes on behind what was printed before."""
    before = len(place.tested())
    status, text = place.run()
    wrong = [] if (status, text) == whole else [f"the run that goes on ends with {status} and another text"]
    return wrong + [f"{name} was tested again" for name in tested_again(printed, place.tested()[before:])]


# ---- kills


def killed(choice, place, longest):
    """What a run printed that was killed at a random moment, its status where it ended by itself, and what it tested."""
    before = len(place.tested())
    run = place.start()
    time.sleep(choice.random() * longest)
    status = run.poll()
    if status is None:
        os.killpg(run.pid, signal.SIGKILL)
    text = run.communicate()[0]
    return text, status, place.tested()[before:]


def kill_all(choice, workers, count, whole):
    """Kills so many runs; what is wrong, and how many runs were begun in all."""
    wrong, kills, runs = [], 0, 0
    while kills < count and not wrong:
        with Place(workers) as place:
            printed, status = b"", None
            while status is None and kills < count:
                text, status, tested = killed(choice, place, 0.25)
                runs, kills = runs + 1, kills + (status is None)
                wrong += [] if whole[1].startswith(text) else ["what was printed is no front of the text"]
                wrong += [f"{name} was tested again" for name in tested_again(printed, tested)]
                printed = max(printed, text, key=len)
            wrong += goes_on(place, whole, printed)
    return [f"{workers} workers: {line}" for line in wrong], runs


def try_kills(choice, count, whole):
    wrong, runs = [], 0
    for index, workers in enumerate((1, 4, 16)):
        found, begun = kill_all(choice, workers, count // 3 + (index < count % 3), whole)
        wrong, runs = wrong + found, runs + begun
    print(f"{count} kills of {runs} runs: {len(wrong)} wrong", flush=True)
    return wrong


# ---- faults


def is_fault(got, whole):
    """Whether a run ended with the fault of its journal, behind a front of the log."""
    status, text = got
    line = b"journal fault\n"
    return status == 22 and text.endswith(line) and whole[1].startswith(text[:-len(line)])


def fault_of(name, got, whole):
    return [] if is_fault(got, whole) else [f"{name}: {got[0]} and {got[1][-60:]!r}"]


def limited(size):
    """A run whose files may not grow past a size."""
    def before():
        signal.signal(signal.SIGXFSZ, signal.SIG_IGN)
        resource.setrlimit(resource.RLIMIT_FSIZE, (size, size))
    return before


def try_full(whole):
    """The disk is full from each size on; the test notes its commits in a file of 41 bytes each, so it is let grow by the shell."""
    wrong = []
    for size in (0, 1, 3, 4, 20, 24, 40, 64, 100):
        with Place() as place:
            got = place.run(before=limited(size), words=place.words(test=TEST.replace('echo "$1" >>"$0"', ":")))
            wrong += fault_of(f"a disk of {size} bytes", got, whole)
            again = place.run(words=place.words(test=TEST.replace('echo "$1" >>"$0"', ":")))
            wrong += [] if again == whole else [f"a disk of {size} bytes: then {again[0]}"]
    return wrong


def as_nobody():
    if os.getuid() == 0:
        os.setgid(65534)
        os.setuid(65534)


def try_places(whole):
    """What stands where the journal should, and a folder that is gone."""
    wrong = []
    for name, put in (("a folder", os.mkdir), ("a FIFO", os.mkfifo), ("a link", lambda path: os.symlink("elsewhere", path)),
                      ("a link to itself", lambda path: os.symlink(JOURNAL, path))):
        with Place() as place:
            put(place.journal)
            wrong += fault_of(name, place.run(), whole)
            wrong += [f"{name}: the link was followed"] if os.path.exists(os.path.join(place.work, "elsewhere")) else []
            wrong += [f"{name}: a commit was tested"] if place.tested() else []
    with Place() as place:
        os.rmdir(place.work)
        os.mkdir(place.work)
        wrong += fault_of("a folder that is gone", place.run(before=lambda: os.rmdir(place.work)), whole)
    with Place() as place:
        open(place.journal, "w").close()
        os.chmod(place.journal, 0o444)
        program = shutil.copy(FARMDAWN, os.path.join(place.top, "program"))
        wrong += fault_of("a file that may not be written", place.run(before=as_nobody, words=[program, *place.words()[1:]]), whole)
    return wrong


def try_other():
    """The journal of another run stays as it is, whatever its length."""
    wrong = []
    for name, commits, test in (("another command", COMMITS, TEST + " "), ("fewer commits", COMMITS - 1, TEST), ("more commits", COMMITS + 1, TEST)):
        with Place() as place:
            place.run()
            kept = open(place.journal, "rb").read()
            place.give(commits)
            got = place.run(words=place.words(test=test))
            wrong += [] if got == (21, b"journal of another run\n") else [f"{name}: {got[0]}"]
            wrong += [] if open(place.journal, "rb").read() == kept else [f"{name}: the journal was changed"]
    return wrong


def try_spoiled(whole):
    """Where a slot is spoiled, its commit alone is tested again."""
    with Place() as place:
        place.run()
        before = len(place.tested())
        slots = open(place.journal, "rb").read()
        with open(place.journal, "r+b") as out:
            out.seek(next(at for at in range(24, len(slots), 4) if slots[at]) + 1)
            out.write(b"\x09")
        again, tests = place.run(), len(place.tested()) - before
        wrong = [] if again == whole else [f"a spoiled slot: {again[0]}"]
        return wrong + ([] if tests == 1 else [f"a spoiled slot: {tests} tests"])


def try_two(whole):
    """A second run over a journal that one has is refused, and the first goes on undisturbed."""
    with Place() as place:
        first = place.start(words=place.words(test=HELD))
        while not place.tested() and first.poll() is None:
            time.sleep(0.005)
        second = place.run()
        open(place.tested_file + ".on", "w").close()
        text = first.communicate()[0]
        wrong = [] if second == (22, b"journal fault\n") else [f"a second run: {second[0]}"]
        return wrong + ([] if (first.returncode, text) == whole else ["a second run: the first one was disturbed"])


def try_faults(whole):
    wrong = try_full(whole) + try_places(whole) + try_other() + try_spoiled(whole) + try_two(whole)
    print(f"faults: {len(wrong)} wrong", flush=True)
    return wrong


# ---- each system call on the journal


def calls_of(place):
    """The system calls on the journal of a run, in order."""
    trace = os.path.join(place.top, "trace")
    place.run(words=["strace", "-f", "-o", trace, "-P", place.journal, *place.words()])
    return re.findall(r"^\d+ +(\w+)\(", open(trace).read(), re.M)


def try_calls(whole):
    with Place() as place:
        calls = calls_of(place)
    wrong, seen, faults = [], {}, 0
    for call in calls:
        seen[call] = seen.get(call, 0) + 1
        with Place() as place:
            inject = f"inject={call}:error=EIO:when={seen[call]}"
            got = place.run(words=["strace", "-f", "-o", "/dev/null", "-P", place.journal, "-e", inject, *place.words()])
            faults += got[0] == 22
            wrong += [] if got == whole else fault_of(f"{call} {seen[call]}", got, whole)
            wrong += [f"{call} {seen[call]}: {line}" for line in goes_on(place, whole, got[1])]
    print(f"{len(calls)} calls ({', '.join(f'{count} {call}' for call, count in sorted(seen.items()))}): {faults} faults, {len(wrong)} wrong", flush=True)
    return wrong if calls else ["no call was seen"]


def main():
    parser = argparse.ArgumentParser(usage=__doc__)
    parser.add_argument("--seed", type=int, default=1)
    parser.add_argument("--kills", type=int, default=200)
    parser.add_argument("--calls", action="store_true")
    arguments = parser.parse_args()
    whole = due()
    wrong = try_kills(random.Random(arguments.seed), arguments.kills, whole) + try_faults(whole)
    wrong += try_calls(whole) if arguments.calls else []
    for line in wrong:
        print(line)
    sys.exit(1 if wrong or len(marked(whole[1])) < 4 else 0)


main()
