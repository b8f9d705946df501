"""All streams and logs of the benchmarks, written piece by piece to a binary file: histories, and what was made to cost much."""
import hashlib
import random


def numbers(seed):
    """The sequence by which generated histories choose their parents: each number, from the seed on."""
    x = seed % 2 ** 31
    while True:
        yield x
        x = (1103515245 * x + 12345) % 2 ** 31


def inline(path, content):
    """A change that sets a file to a content."""
    return b"M 100644 inline %b\ndata %d\n%b\n" % (path, len(content), content)


def named(path, number):
    """A change that sets a file to an object that is not in the stream."""
    return b"M 100644 %040x %b\n" % (number, path)


def commit(out, place, parents=(), changes=(), ref="refs/heads/main", message=None, start=0):
    """A commit at a place with its parents' places; its time is its place, from a start on."""
    text = f"c{place}\n" if message is None else message
    lines = [f"commit {ref}\nmark :{place + 1}\ncommitter gen <gen> {start + place} +0000\ndata {len(text.encode())}\n{text}"]
    lines += [f"{'merge' if index else 'from'} :{parent + 1}\n" for index, parent in enumerate(parents)]
    out.write("".join(lines).encode())
    for change in changes:
        out.write(change)


def before(place):
    """The commit before a place, where there is one."""
    return [place - 1] if place else []


# ---- histories


def generated(out, count, seed=1, merges=True):
    """The commits of `farmdawn gen`: one in four starts from three before it, and one in three of them is a merge. The first
    one is refs/heads/old."""
    for place, x in zip(range(count), numbers(seed)):
        h = x // 65536
        first = place - 1 if h % 4 or not merges else max(place - 3, 0)
        parents = [first] if place else []
        if merges and place >= 2 and h % 3 == 0 and first != place - 2:
            parents.append(place - 2)
        commit(out, place, parents, ref="refs/heads/main" if place else "refs/heads/old")


def many_bases(out, count):
    """A history whose refs/heads/main and refs/heads/old have so many merge bases: each merges all of them, one by one."""
    commit(out, 0, ref="refs/heads/old")
    for place in range(1, count + 1):
        commit(out, place, [0], ref="refs/heads/old")
    for ref, bases in (("refs/heads/old", range(1, count + 1)), ("refs/heads/main", range(count, 0, -1))):
        place = count if ref == "refs/heads/old" else 2 * count - 1
        last = bases[0]
        for base in bases[1:]:
            place += 1
            commit(out, place, [last, base], ref=ref)
            last = place


def line(out, count):
    """Small commits, each after the one before it."""
    generated(out, count, merges=False)


def shape(out, kind, count):
    """The histories of the program bench: a line, with merges of earlier commits in one of eight, or in each."""
    sequence = numbers(1)
    next(sequence)
    for place, x in zip(range(count), sequence):
        parents = before(place)
        if place > 1 and (kind == "merges" or kind == "mixed" and x // 65536 % 8 == 0):
            other = x // 8 % (place - 1)
            if other != place - 1:
                parents.append(other)
        commit(out, place, parents, [] if place else [inline(b"a", b"")], message="")


def folder(out, files, edits=1000):
    """A folder of so many files, and commits that each change one of them."""
    commit(out, 0, [], [inline(b"folder/file%d" % number, b"0\n") for number in range(files)])
    for place in range(1, edits + 1):
        commit(out, place, [place - 1], [inline(b"folder/file%d" % (place * 7919 % files), b"%d\n" % place)])


def pool(out, files, entries):
    """Commits whose trees have so many entries together, no two trees alike: each of so many files, and the last one of those
    that are left."""
    commits, left = divmod(entries, files)
    for place in range(commits):
        changed = [place % files] if place else range(files)
        commit(out, place, before(place), [named(b"f%d" % file, place + 1) for file in changed])
    if left:
        commit(out, commits, before(commits), [b"deleteall\n", *(named(b"f%d" % file, commits + 1) for file in range(left))])


def contents(out, megabytes):
    """Commits of one inline file of 50 KB each."""
    noise = random.Random(1).randbytes(1 << 20)
    for place in range(megabytes * 1000000 // 50000):
        start = place * 7919 % (len(noise) - 50000)
        commit(out, place, before(place), [inline(b"f%d" % (place % 100), noise[start:start + 50000])])


def commands(out, count):
    """The shortest commits, of which the first has a file."""
    for number in range(count):
        text = b"commit refs/heads/main\ncommitter a <a@b> %d +0000\ndata 2\nc\n" % number
        out.write(text + (b"M 100644 inline a\ndata 0\n\n" if number == 0 else b"\n"))


def mark_far(out, count):
    """A mark of nine digits, and so many commits behind it."""
    out.write(b"commit refs/heads/main\nmark :536870911\ncommitter a <a@b> 0 +0000\ndata 0\n")
    generated(out, count)


def forest(out, directories, subdirectories, files, edits):
    """The files and the edits of the program bench, a commit an edit."""
    count = directories * subdirectories * files

    def change(number, changes):
        out.write(b"commit refs/heads/main\ncommitter a <a@b> %d +0000\ndata 0\n" % number)
        for file, content in changes:
            outer, inner = divmod(file // max(files, 1), max(subdirectories, 1))
            out.write(b"M 100644 :%d d%d/s%d/f%d\n" % (content + 1, outer, inner, file % max(files, 1)))
        out.write(b"\n")

    for content in range(16):
        out.write(b"blob\nmark :%d\ndata 1\n%c\n" % (content + 1, 97 + content))
    change(0, [(file, 0) for file in range(count)])
    sequence = numbers(1)
    next(sequence)
    for number, x in zip(range(edits), sequence):
        change(number + 1, [(x // 8 % max(count, 1), number % 16)])


def branched(out, count):
    """A line whose every fifth commit merges a side branch, with a file that each commit changes."""
    for place in range(count):
        joins = place % 5 == 0 and place >= 5
        parents = [place - 4, place - 1] if joins else before(place)
        commit(out, place, parents, [inline(b"file", b"%02d" % place)], start=1000000000)


def topics(out, count):
    """A history like that of a large project: a hundred branches are open at once, and one commit in ten is a merge. Half of these
    merge a branch into main, and the branch goes on from there; the others merge two branches. The last commit reaches all. The first
    one is refs/heads/old."""
    tips, main = [0] * 100, 0
    sequence = numbers(1)
    next(sequence)
    for place, x in zip(range(count), sequence):
        branch, other, kind = x // 8 % 100, x // 128 % 100, x // 65536 % 20
        parents = [tips[branch]] if place else []
        if place and kind == 0 and main != parents[0]:
            parents.insert(0, main)
        elif place and kind == 1 and tips[other] != parents[0]:
            parents.append(tips[other])
        if place == count - 1:
            parents += sorted(set(tips) - set(parents))
        commit(out, place, parents, ref="refs/heads/main" if place else "refs/heads/old")
        tips[branch], main = place, place if kind == 0 else main


# ---- a project in C

HEADER = """#ifndef PARTS_H
#define PARTS_H
/* version {version} */
#define STEPS 20
typedef struct {{ unsigned state; unsigned rounds; }} part;
{names}
#endif
"""

PART = """#include <stdlib.h>
#include <string.h>
#include <stdio.h>
#include "parts.h"

/* edit {edit} */
{helpers}
unsigned part{number}(part *p) {{
    unsigned sum = {edit}u - {edit}u;
    for (unsigned i = 0; i < STEPS; i++) {{
        p->state = p->state * 1103515245u + 12345u;
{calls}
        p->rounds++;
    }}
    return {number}u + sum - sum{wrong};
}}
"""

HELPER = """static unsigned helper{number}(unsigned value) {{
    char text[32];
    snprintf(text, sizeof text, "%u", value + {number}u);
    unsigned hash = (unsigned)strlen(text);
    for (char *at = text; *at; at++) hash = hash * 31u + (unsigned char)*at;
    return hash % 97u;
}}
"""

CHECK = """#include <stdio.h>
#include <time.h>
#include "parts.h"

int main(void) {{
    part p = {{ 1u, 0u }};
    unsigned long sum = 0, due = 0;
    do {{
        sum = 0;
        due = 0;
{calls}
    }} while (clock() < {seconds} * CLOCKS_PER_SEC);
    printf("%lu of %lu\\n", sum, due);
    return sum == due ? 0 : 1;
}}
"""

MAKEFILE = """CFLAGS = -O2
OBJECTS = {objects} check.o
check: $(OBJECTS)
\t$(CC) -o $@ $(OBJECTS)
%.o: %.c parts.h
\t$(CC) $(CFLAGS) -c -o $@ $<
"""


def text_file(path, text):
    return inline(path.encode(), text.encode())


def part_file(number, edit, wrong=""):
    helpers = "".join(HELPER.format(number=helper) for helper in range(12))
    calls = "\n".join(f"        sum += helper{helper}(p->state);" for helper in range(12))
    return text_file(f"part{number}.c", PART.format(number=number, edit=edit, helpers=helpers, calls=calls, wrong=wrong))


def header_file(version, files):
    names = "\n".join(f"unsigned part{number}(part *p);" for number in range(files))
    return text_file("parts.h", HEADER.format(version=version, names=names))


def project(out, commits, files, bug, seconds, seed):
    """Commits in a line that change one to three of so many files of C each, one in twenty the header that all files take in.
    From the commit `bug` on a function gives a wrong number, which a program finds that runs for so many seconds."""
    choice = random.Random(seed)
    calls = "\n".join(f"        sum += part{part}(&p);\n        due += {part};" for part in range(files))
    objects = " ".join(f"part{part}.o" for part in range(files))
    first = [text_file("check.c", CHECK.format(calls=calls, seconds=seconds)),
             text_file("Makefile", MAKEFILE.format(objects=objects)), text_file(".gitignore", "*.o\ncheck\n")]
    for place in range(commits):
        changed = choice.sample(range(1, files), choice.choice([1, 1, 2, 3])) if place else range(files)
        changes = ([] if place else first) + ([] if place % 20 else [header_file(place, files)])
        changes += [part_file(part, place) for part in changed] + ([part_file(0, place, " + 1u")] if place == bug else [])
        commit(out, place, before(place), changes, start=1700000000)


# ---- streams that were made to cost much: each of a size, and what is linear costs twice as much at twice the size


def deep(out, size):
    """One path of so many components."""
    commit(out, 0, (), [named(b"d/" * (size - 1) + b"f", 1)])


def paths(out, size):
    """So many paths of 50 components."""
    folders = [b"".join(b"d%d/" % (place // 4 ** level % 4) for level in range(49)) for place in range(size)]
    commit(out, 0, (), [named(folder + b"f%d" % place, 1) for place, folder in enumerate(folders)])


def wide(out, size):
    """A folder of so many files."""
    commit(out, 0, (), [named(b"folder/file%d" % number, number) for number in range(size)])


def again(out, size):
    """So many commits that each change one of 1,000 files."""
    commit(out, 0, (), [named(b"folder/file%d" % number, 0) for number in range(1000)])
    for place in range(1, size):
        commit(out, place, [place - 1], [named(b"folder/file%d" % (place * 7919 % 1000), place)])


def again_deep(out, size):
    """So many commits that each change a file below 200 folders."""
    for place in range(size):
        commit(out, place, before(place), [named(b"d/" * 200 + b"f%d" % (place % 10), place)])


def refs(out, size):
    """So many refs, set and then removed in the same order."""
    commit(out, 0)
    for number in range(size):
        out.write(b"reset refs/heads/r%d\nfrom :1\n\n" % number)
    for number in range(size):
        out.write(b"reset refs/heads/r%d\nfrom %b\n\n" % (number, b"0" * 40))


def fronts(out, size):
    """So many refs, by the hundred each a front of the next."""
    commit(out, 0)
    for number in range(size):
        out.write(b"reset refs/heads/%d/%b\nfrom :1\n\n" % (number // 100, b"x" * (number % 100 + 1)))


def blobs(out, marks):
    """Empty blobs with these marks, and a commit."""
    for mark in marks:
        out.write(b"blob\nmark :%d\ndata 0\n\n" % mark)
    commit(out, 0)


def marks(out, size):
    """So many marks, far apart."""
    blobs(out, (number * 7919 % (1 << 40) + 2 for number in range(size)))


def aligned(out, size):
    """So many marks, all multiples of one power of two."""
    blobs(out, ((number + 1) << 40 for number in range(size)))


def moved(out, size):
    """One mark, set so many times."""
    blobs(out, (7 for _ in range(size)))


def merges(out, size):
    """So many commits of up to ten parents."""
    for place in range(size):
        commit(out, place, [place - step for step in range(1, 11) if place >= step])


def merged(out, size):
    """So many commits that merge one and the same."""
    for place in range(size):
        commit(out, place, before(place) + [0] * (place > 1))


def parents(out, size):
    """One commit that names its parent so many times."""
    commit(out, 0)
    commit(out, 1, [0] * size)


def names(out, size):
    """So many files with names of 4,000 bytes."""
    commit(out, 0, (), [named(b"n" * 4000 + b"%d" % number, number) for number in range(size)])


def quoted(out, size):
    """So many paths that are written by escapes alone."""
    texts = [b'"' + b"".join(b"\\%03o" % byte for byte in b"file%d" % number) + b'"' for number in range(size)]
    commit(out, 0, (), [named(text, 1) for text in texts])


def edits(out, size):
    """So many edits of one file in one commit."""
    commit(out, 0, (), [named(b"one/file", number) for number in range(size)])


def swaps(out, size):
    """A file and a directory in its place, in turn."""
    commit(out, 0, (), [named(b"one" if number % 2 else b"one/file", number) for number in range(size)])


def alike(out, size):
    """So many files, each in a folder of its own, whose tree's name begins with the byte 0."""
    changes, number = [], 0
    while len(changes) < size:
        number += 1
        tree = b"tree 29\x00160000 f\x00" + number.to_bytes(20, "big")
        if hashlib.sha1(tree).digest()[0] == 0:
            changes.append(b"M 160000 %040x d%d/f\n" % (number, len(changes)))
    commit(out, 0, (), changes)


def tags(out, size):
    """So many tags of one commit."""
    commit(out, 0)
    for number in range(size):
        out.write(b"tag t%d\nfrom :1\ntagger <> 0 +0000\ndata 0\n" % number)


def comments(out, size):
    """So many comments and empty lines."""
    out.write(b"# a comment\n\n" * size)
    commit(out, 0)


# each kind with the smaller of its two sizes
KINDS = {deep: 10000, again_deep: 500, paths: 2000, wide: 100000, again: 2000, refs: 50000, fronts: 50000, marks: 50000,
         aligned: 50000, moved: 50000, merges: 20000, merged: 10000, parents: 10000, names: 2000, alike: 2000, quoted: 50000,
         edits: 50000, swaps: 50000, tags: 1000000, comments: 500000}

# ---- logs over a history of ten commits in a line, named main


def ten(out):
    """That history."""
    for place in range(10):
        commit(out, place, before(place))


def goods(out, size):
    """A start line of so many good names."""
    out.write(b"git bisect start main" + b" main~5" * size + b"\n")


def skips(out, size):
    """So many marks of one commit."""
    out.write(b"git bisect start main main~9\n" + b"git bisect skip main~4\n" * size)


def starts(out, size):
    """So many start lines."""
    out.write(b"git bisect start main main~9\n" * size)


def quotes(out, size):
    """A name in so many pieces, each in quotes."""
    out.write(b"git bisect start " + b"''" * size + b"main main~9\n")


def strokes(out, size):
    """A name with so many steps of no length."""
    out.write(b"git bisect start main" + b"~0" * size + b" main~9\n")


LOGS = {goods: 100000, skips: 50000, starts: 50000, quotes: 1000000, strokes: 500000}

# ---- logs over a long line of commits, whose ends are named main and old


def named_again(out, size, name):
    """A start line in which so many good names are this one."""
    out.write(b"git bisect start main" + b" " + b" ".join([name] * size) + b"\n")


def good_again(out, size, skipped=(), good=b"old"):
    """So many marks of the good end by this name, behind skips of these names."""
    out.write(b"git bisect start main old\n")
    for name in skipped:
        out.write(b"git bisect skip %b\n" % name)
    out.write(b"git bisect good %b\n" % good * size)
