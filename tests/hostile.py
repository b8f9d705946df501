#!/usr/bin/env python3
"""Hostile input: streams, logs and words that were taken apart, given to farmdawn.

Usage: tests/hostile.py [OPTION..] PROGRAM [SECOND]

Each case must end by itself, soon, within a bound of memory, with a status of the manual and the text of that status.
Where SECOND is named, a program with the same command line, its bytes and its status must be those of PROGRAM, too. A
case depends on the seed and its number alone.

  --seed S        the seed (1)
  --count N       so many cases (1000)
  --from N        the number of the first case (0)
  --jobs N        so many cases at once (1)
  --limit S       seconds of a processor that PROGRAM may take for a case (10), and ten times as many by the clock
  --second-limit S    seconds that SECOND may take (300); a case that it does not end in is passed over
  --memory N      bytes of memory for each byte of the stream and the log, behind 64 MiB (1024)
  --keep DIR      keeps the files of each case that is wrong there
  --large         in place of all this the shapes of `benches/bench.py hostile`, each once at its smaller size
"""
import argparse
import collections
import functools
import os
import random
import re
import sys
import tempfile
from concurrent.futures import ThreadPoolExecutor

TOP = os.path.dirname(os.path.dirname(os.path.abspath(__file__)))
sys.path.insert(0, os.path.join(TOP, "benches"))

import streams
from measure import measure

NAME = rb"[0-9a-f]{40}"
# What stands at the end of the text of each status; a status that is not here is none of the manual.
TEXTS = {
    0: rb"(?s).*", 1: rb"usage fault at word \d+\n", 2: rb"(?s).*We cannot bisect more!\n",
    3: rb"(?s).*The change was undone between it and one of the \S+ commits\.\n",
    4: rb"(?s).*Some \S+ commits are not ancestors of the \S+ commit " + NAME + rb"\.\n",
    5: rb"(?s).*" + NAME + rb" was both \S+ and \S+\n", 6: rb"(?s).*bisect aborted: (exit \d+|killed) on " + NAME + rb"\n",
    7: rb"stream refused at line \d+: (syntax|unsupported|truncated|no done|bad from|bad mark|bad path)\n",
    8: rb"name refused at word \d+: (unknown|ambiguous \d+|no parent|bad form)\n",
    9: rb"too large: (line|data|stream|commits|entries|log)\n", 10: rb"log refused at line \d+\n", 14: rb"file fault\n",
    16: rb"no such file\n", 17: rb"waiting for .*\n", 20: rb"certificate fails at line \d+\n",
}

# ---- numbers at the edges

EDGES = [b"0", b"1", b"00", b"01", b"255", b"256", b"65535", b"65536", b"67108864", b"67108865", b"4294967295", b"4294967296",
         b"9223372036854775807", b"9223372036854775808", b"18446744073709551615", b"18446744073709551616",
         b"99999999999999999999", b"00000000000000000001", b"000000000000000000001", b"184467440737095516150", b"-1", b"+1", b"1x", b""]


# ---- valid streams

FILES = [b"a", b"a.b", b"a-b", b"a0", b"a/b", b"a/b.c", b"a/b/c", b"a/b-c/d", b"ab/c", b"b", b"b/a/b", b"c d", b'"\\141/q"',
         b'"t\\tab"', b'"\\303\\244"', b"z" * 200, b"d/" * 40 + b"f"]
REFS = [b"refs/heads/main"] * 20 + [b"refs/heads/side", b"refs/heads/main2", b"refs/heads/mai", b"refs/heads/main/x", b"refs/tags/v1",
                                   b"refs/tags/v1.0", b"refs/remotes/origin/main", b"HEAD", b"main"]
IDENTS = [b"gen <gen> 7 +0000", b"Ann Lee <ann@example.org> 1700000000 -0530", b"<> 0 +1400", b"B <b@c> 999999999999999999 -1400"]


def data_part(choice, content):
    """The content as a part of a stream, counted or delimited."""
    if choice.random() < 0.2 and b"END" not in content and (not content or content.endswith(b"\n")):
        return b"data <<END\n" + content + b"END\n"
    return b"data %d\n%b\n" % (len(content), content)


def change_line(choice, blobs):
    path = choice.choice(FILES)
    kind = choice.randrange(8)
    if kind == 0:
        return b"D " + path + b"\n"
    if kind == 1:
        return b"M 100644 inline " + path + b"\n" + data_part(choice, b"inline %d\n" % choice.randrange(3))
    if kind == 2:
        # modules may have any name, so that the names of their trees can be chosen to begin alike
        return b"M 160000 %040x %b\n" % (choice.randrange(1, 1 << 160), path)
    if kind == 3 and choice.random() < 0.2:
        return b"deleteall\n"
    mode = choice.choice([b"100644", b"644", b"100755", b"755", b"120000"])
    return b"M %b :%d %b\n" % (mode, choice.choice(blobs), path)


def valid_stream(choice, only=None):
    """A stream of all kinds of commands, most of which farmdawn takes; of one ref alone, where it is named."""
    parts, blobs, marks, mark, begun = [], [], [], 0, set()
    if choice.random() < 0.2:
        parts.append(choice.choice([b"feature done\n", b"feature date-format=raw\n", b"option git quiet\n", b"progress begun\n", b"# a comment\n"]))
    for _ in range(3):
        mark += 1
        blobs.append(mark)
        parts.append(b"blob\nmark :%d\n" % mark + data_part(choice, choice.choice([b"", b"x\n", b"END\n", b"y" * 70000])))
    for place in range(choice.choice([1, 3, 9, 12, 12, 16, 30])):
        mark += 1
        ref = only or choice.choice(REFS)
        text = b"commit %b\nmark :%d\n" % (ref, mark)
        if choice.random() < 0.3:
            text += b"author " + choice.choice(IDENTS) + b"\n"
        text += b"committer " + choice.choice(IDENTS) + b"\n"
        text += data_part(choice, choice.choice([b"c%d\n", b"", b"\n\n c%d", b"c%d\n\nbody\n"]).replace(b"%d", b"%d" % place))
        if marks and (ref not in begun and choice.random() < 0.95 or choice.random() < 0.08):
            text += b"from :%d\n" % choice.choice(marks[-4:])
        while marks and choice.random() < 0.25:
            text += b"merge :%d\n" % choice.choice(marks)
        text += b"".join(change_line(choice, blobs) for _ in range(choice.choice([0, 0, 1, 2, 6])))
        parts.append(text + choice.choice([b"", b"\n"]))
        marks.append(mark)
        begun.add(ref)
        if choice.random() < 0.1:
            parts.append(b"tag t%d\nfrom :%d\ntagger %b\n" % (place, choice.choice(marks), choice.choice(IDENTS)) + data_part(choice, b"tag\n"))
        if choice.random() < 0.1:
            other = choice.choice(REFS)
            begun.add(other)
            parts.append(b"reset %b\nfrom :%d\n\n" % (other, choice.choice(marks)))
    if b"feature done\n" in parts or choice.random() < 0.2:
        parts.append(b"done\n")
    return b"".join(parts)


# ---- the same, at the edge of what is allowed, small enough for a slow second program


def small_shape(choice):
    """A shape of the benchmarks, from an empty one to one of some hundred."""
    make = choice.choice(sorted(streams.KINDS, key=lambda kind: kind.__name__))

    class Sink:
        parts = []

        def write(self, part):
            self.parts.append(bytes(part))

    sink = Sink()
    sink.parts = []
    make(sink, choice.choice([1, 2, 3, 10, 60]))
    return b"".join(sink.parts)


# ---- taking apart

FOREIGN = [b"", b"# x", b"from :1", b"merge :2", b"mark :4", b"done", b"D a", b"D a/b", b"deleteall", b"feature done", b"feature x",
           b"checkpoint", b"C a b", b"R a b", b"N :1 :2", b"ls :1 a", b"cat-blob :1", b"get-mark :1", b"alias", b"gpgsig sha1 x",
           b"data 3", b"data <<X", b"X", b"from :99", b"from refs/heads/main", b"from refs/heads/main^0", b"from " + b"0" * 40,
           b"M 040000 :1 a", b"M 100644 :1 a//b", b"M 100644 :1 ../a", b"M 100644 :1 .git/x", b"M 100644 :1 /a", b"M 100644 :1 ",
           b'M 100644 :1 "a\\400"', b'M 100644 :1 "a', b"option x", b"progress", b"tag t", b"blob", b"reset refs/heads/main",
           b"encoding ", b"encoding x", b"author x", b"committer A <a@b> now", b"commit refs/heads/a b", b"commit ..", b"original-oid",
           b"git bisect start", b"git bisect bad", b"git bisect good main main", b"git bisect skip 'main", b"git-bisect new main~1"]


def take_apart(choice, text):
    """One change of the text, of a kind that the choice gives."""
    lines = text.split(b"\n")
    at, other = choice.randrange(len(lines)), choice.randrange(len(lines))
    kind = choice.randrange(12)
    if kind == 0:
        return text[:choice.randrange(len(text) + 1)]
    if kind in (1, 2, 3) and text:
        where = choice.randrange(len(text))
        piece = [bytes([choice.randrange(256)]), b"", text[where:where + 1] * 2][kind - 1]
        return text[:where] + piece + text[where + 1:]
    if kind == 4:
        lines.insert(at, lines[at])
    elif kind == 5:
        lines[at], lines[other] = lines[other], lines[at]
    elif kind == 6:
        lines[at] += choice.choice([b" ", b"\0", b"\r", b"x", b"~", b"/" + b"x" * 300, b"x" * (65535 - len(lines[at])), b"x" * 65536])
    elif kind == 7:
        del lines[at]
    elif kind == 8:
        lines.insert(at, choice.choice(FOREIGN))
    else:
        return change_number(choice, text)
    return b"\n".join(lines)


def change_number(choice, text):
    """Puts a number at the edge in the place of one of the text; so marks are set again, and counts are wrong."""
    numbers = list(re.finditer(rb"[0-9]+", text[:200000]))
    if not numbers:
        return text
    number = choice.choice(numbers)
    new = choice.choice(EDGES) if choice.random() < 0.6 else choice.choice(numbers).group()
    return text[:number.start()] + new + text[number.end():]


# ---- words and logs

ENDS = [b"main", b"main~1", b"main~2", b"main~3", b"main~4", b"main~5", b"main~7", b"main^", b"main~2^0", b"heads/main~6"] * 6 + [
    b"main^2", b"refs/heads/main", b"heads/side", b"side", b"mai", b"main2", b"v1", b"HEAD", b"@"]
ODD_NAMES = [b"main~0", b"main^0", b"main^{}", b"main^{commit}", b"main~18446744073709551615", b"main~18446744073709551616", b"main^99999999999999999999",
             b"main" + b"~" * 3000, b"main" + b"^" * 3000, b"main" + b"^0" * 3000, b"main~", b"main^{tree}", b"main@{1}", b":/x", b"", b"~", b"^", b"a b",
             b"..", b"main..", b"main...side", b"0" * 40, b"f" * 39, b"abcd", b"\xc3\xa4", b"refs/heads/", b"main^-"]
OPTIONS = [[b"--first-parent"], [b"--workers", b"2"], [b"--workers", b"64"], [b"--leg", b"1"], [b"--leg", b"1000000"], [b"--lenient-exit"],
           [b"--term-new", b"fixed"], [b"--term-old", b"broken"], [b"--skip", b"main~1"], [b"--skip", b"main~3..main"], [b"--skip", b"main..main~2"]]
ODD_OPTIONS = [[b"--x"], [b"--skip"], [b"--term-new", b"bad"], [b"--term-new", b"good"], [b"--term-old", b"-x"], [b"--term-new", b"x" * 41],
               [b"--replay", b"log"], [b"--replay", b"none"], [b"--workers=2"], [b"-"], [b"--"]]


def end_name(choice):
    return choice.choice(ODD_NAMES if choice.random() < 0.04 else ENDS)


def plan(choice):
    letters = choice.choice([b"gb", b"gb", b"gbs", b"gbsakn"])
    cut = choice.randrange(40)
    return bytes(choice.choice(letters) if choice.random() < 0.2 else b"gb"[place >= cut] for place in range(choice.randrange(45)))


def search_words(choice, log):
    """The words of a search, with the plan last; over a log without the ends."""
    verb = choice.choice([b"simulate", b"simulate", b"next"])
    words = [b"--replay", b"log"] if log else [b"main" if choice.random() < 0.7 else end_name(choice)] + [
        end_name(choice) for _ in range(choice.choice([1, 1, 1, 2, 3]))]
    for _ in range(choice.choice([0, 0, 1, 2, 3])):
        option = choice.choice(OPTIONS)
        wrong = [b"--workers", b"--leg", b"--lenient-exit"] if verb == b"next" else [b"--first-parent", b"--term-new", b"--term-old"] if log else []
        if option[0] not in wrong and (option[0] == b"--skip" or option[0] not in words):
            words = option + words
    if verb == b"simulate":
        words.append(plan(choice))
        if choice.random() < 0.15:
            return [b"certify", verb] + words
    return [verb] + words


def hostile_words(choice, words):
    """One change of the words."""
    at = choice.randrange(len(words))
    kind = choice.randrange(5)
    if kind == 0:
        return words[:at] + words[at + 1:]
    if kind == 1:
        return words[:at] + choice.choice(ODD_OPTIONS) + words[at:]
    if kind == 2:
        return words[:at] + [choice.choice(EDGES)] + words[at + 1:]
    if kind == 3:
        return words[:at] + [words[at]] + words[at:]
    if choice.random() < 0.3:
        return [choice.choice([b"check", b"certify"]), choice.choice([b"log", b"none", b"simulate", b""]), *words[:choice.choice([0, 0, 1])]]
    return [choice.choice([b"gen", b"sample", b"replay", b"next", b"x", b""]), choice.choice(EDGES), choice.choice([b"1", b"2", b"50"] + EDGES[:6])]


def valid_log(choice):
    """A log of a search over a stream with a branch main."""
    terms = choice.choice([(b"bad", b"good")] * 3 + [(b"new", b"old"), (b"fixed", b"broken")])
    start = [b"--first-parent"] if choice.random() < 0.2 else []
    if terms[0] == b"fixed":
        start += [b"--term-new", b"fixed", choice.choice([b"--term-old", b"--term-good"]), b"broken"]
    count = 0 if terms[0] == b"new" else choice.choice([0, 1, 2, 2, 3])
    start += [b"'%b'" % name if choice.random() < 0.5 else name for name in [b"main", *choice.sample(ENDS[:10], 2)][:count]]
    lines = [b"# a log", b"git bisect start " + b" ".join(start)]
    for _ in range(choice.randrange(6)):
        term = choice.choice([b"old", b"new", b"x"] if choice.random() < 0.04 else [*terms, b"skip"])
        lines += [b"# %b: [x] y" % term, b"git bisect %b %b" % (term, end_name(choice) if choice.random() < 0.2 else choice.choice(ENDS[:10]))]
    return b"\n".join(lines) + choice.choice([b"\n", b"\n", b""])


Case = collections.namedtuple("Case", "kind words stream log")


def make_case(seed, number):
    """The case of this number: what it is, its words, and the bytes of its stream and its log."""
    choice = random.Random(f"{seed} {number}")
    kind = ("stream", "log", "words", "shape")[number % 4] if number % 8 else "stream"
    stream = small_shape(choice) if kind == "shape" else valid_stream(choice)
    log, words = b"", search_words(choice, kind == "log")
    if kind == "log":
        log = valid_log(choice)
        for _ in range(choice.choice([0, 0, 1, 2])):
            log = take_apart(choice, log)
        if choice.random() < 0.4:
            words = [b"replay", b"--replay", b"log"]
        stream = valid_stream(choice, b"refs/heads/main")
    if kind == "words":
        for _ in range(choice.choice([1, 1, 2])):
            words = hostile_words(choice, words) if words else words
    if kind == "shape" and choice.random() < 0.6:
        words = [b"simulate", b"main", b"main", b""]
    if kind in ("stream", "shape"):
        for _ in range(choice.choice([0, 0, 1, 1, 2, 3])):
            stream = take_apart(choice, stream)
    return Case(kind, [word for word in words if b"\0" not in word], stream, log)


# ---- running


def run(program, case, limit, patience=1):
    """What a program does with a case; None where it took more of a processor than the limit, or so many times as long by the clock."""
    with tempfile.TemporaryDirectory() as folder:
        for name, content in (("log", case.log), ("stream", case.stream)):
            with open(os.path.join(folder, name), "wb") as file:
                file.write(content)
        ours = measure([program, *case.words], os.path.join(folder, "stream"), patience * limit, os.path.join(folder, "output"), folder, due=None)
    return ours if ours.processor <= limit and ours.seconds <= patience * limit else None


def fault_of(case, ours, arguments):
    """What is wrong with what the program did, and what it did not agree in; None where nothing is."""
    if ours is None:
        return f"it took longer than {arguments.limit} s"
    if ours.status not in TEXTS or not re.fullmatch(TEXTS[ours.status], ours.output):
        return f"status {ours.status} with the text {ours.output[-200:]!r}"
    given = len(case.stream) + len(case.log)
    # sample makes a stream of its own
    if ours.peak > 65536 + given * arguments.memory // 1024 and case.words[:1] != [b"sample"]:
        return f"{ours.peak} KiB for {given} bytes"
    if not arguments.second:
        return None
    theirs = run(arguments.second, case, arguments.second_limit)
    if theirs is None:
        return "passed over"
    if (ours.status, ours.output) != (theirs.status, theirs.output):
        return f"status {ours.status}, the second program's is {theirs.status}; {ours.output[-200:]!r}, {theirs.output[-200:]!r}"
    return None


def keep(folder, label, case):
    """The files of a case, so that it can be run again."""
    place = os.path.join(folder, label)
    os.makedirs(place, exist_ok=True)
    for name, content in (("log", case.log), ("stream", case.stream), ("words", b"".join(word + b"\n" for word in case.words))):
        with open(os.path.join(place, name), "wb") as file:
            file.write(content)


class Summary:
    """Counts of what was seen."""

    def __init__(self):
        self.kinds, self.statuses = collections.Counter(), collections.Counter()
        self.wrong = self.over = 0
        self.slowest, self.greatest = (0.0, ""), (0, "")

    def add(self, label, kind, ours, fault):
        self.kinds[kind] += 1
        if ours:
            self.statuses[ours.status] += 1
            self.slowest = max(self.slowest, (ours.seconds, label))
            self.greatest = max(self.greatest, (ours.peak, label))
        if fault == "passed over":
            self.over += 1
        elif fault:
            self.wrong += 1
            print(f"case {label} ({kind}): {fault}", flush=True)

    def show(self):
        print("kinds: " + ", ".join(f"{kind} {count}" for kind, count in sorted(self.kinds.items())))
        print("statuses: " + ", ".join(f"{status}: {count}" for status, count in sorted(self.statuses.items())))
        print(f"slowest: {self.slowest[0]:.2f} s, case {self.slowest[1]}; most memory: {self.greatest[0]} KiB, case {self.greatest[1]}")
        print(f"{sum(self.kinds.values())} cases: {sum(self.kinds.values()) - self.wrong - self.over} right, "
              f"{self.wrong} wrong, {self.over} passed over")


def large_case(make):
    """A shape of the benchmarks at its smaller size, with a question that asks for no test."""
    with tempfile.TemporaryFile() as file:
        make(file, streams.KINDS[make])
        file.seek(0)
        return Case("large", [b"simulate", b"refs/heads/main", b"refs/heads/main", b""], file.read(), b"")


def cases_of(arguments):
    """The label of each case, and what makes it."""
    if arguments.large:
        return [(make.__name__, functools.partial(large_case, make)) for make in streams.KINDS]
    numbers = range(arguments.first, arguments.first + arguments.count)
    return [(str(number), functools.partial(make_case, arguments.seed, number)) for number in numbers]


def read_arguments():
    parser = argparse.ArgumentParser(usage=__doc__, add_help=True)
    parser.add_argument("--seed", type=int, default=1)
    parser.add_argument("--count", type=int, default=1000)
    parser.add_argument("--from", dest="first", type=int, default=0)
    parser.add_argument("--jobs", type=int, default=1)
    parser.add_argument("--limit", type=float, default=10)
    parser.add_argument("--second-limit", type=float, default=300)
    parser.add_argument("--memory", type=int, default=1024)
    parser.add_argument("--keep")
    parser.add_argument("--large", action="store_true")
    parser.add_argument("program", type=os.path.abspath)
    parser.add_argument("second", nargs="?", type=os.path.abspath)
    return parser.parse_args()


def main():
    arguments = read_arguments()
    summary = Summary()

    def try_case(labelled):
        label, make = labelled
        case = make()
        ours = run(arguments.program, case, arguments.limit, patience=10)
        fault = fault_of(case, ours, arguments)
        if fault and fault != "passed over" and arguments.keep:
            keep(arguments.keep, label, case)
        return label, case.kind, ours, fault

    with ThreadPoolExecutor(arguments.jobs) as pool:
        for told in pool.map(try_case, cases_of(arguments)):
            summary.add(*told)
    summary.show()
    sys.exit(1 if summary.wrong else 0)


main()
