#!/usr/bin/env python3
"""What a reader has to read to believe a claim: the definitions that it rests on, found by what each file of specs/ names and
where it has it from. Compares the figures of docs/AUDIT.md and README.md with that, and prints what is not so; `--write` writes
them anew; `list [FILE NAME]` prints the text of all that a definition, or the whole contract, rests on, in reading order: what is
used stands in an earlier file, or in the same one; `crates` prints how much of that each crate has."""
import collections
import dataclasses
import glob
import os
import re
import sys

TOP = os.path.dirname(os.path.dirname(os.path.abspath(__file__)))
PAGE = os.path.join(TOP, "docs", "AUDIT.md")
FRONT = os.path.join(TOP, "README.md")  # it has the figures, too, in the same order
FIGURE = re.compile(r"\d+ definitions in \d+ lines")
HEADLINE = ("bf_headline.specs.Headline", "IsOneAtATime")
TEXT = ("bf_output.specs.Output", "IsOutput")
USE = re.compile(r"^(?:ghost )?use Rattle\.(\S+?)(?:\.\{([^}]*)\}| as (\S+?));?$", re.M)
HEAD = re.compile(r"^(?:(?:abbrev|unfoldable|opaque|pub|record|data)\s+)*([^\s:(){}]+)")
WORD = re.compile(r"[^\s(){}\[\];,=]+")


# the top call, its clauses, the devices that they speak of, and the testers whose ghost members they name
TOP_CALL = os.path.join(TOP, "crates", "bf_farmed", "src", "farm.rt")
CLAUSES = re.compile(r"^pub fn farm_main<.*?^{", re.M | re.S)
DEVICES = ["Source", "Sink", "Shelf", "Tester", "FolderTester", "Folder", "Disk"]
TESTERS = ["Recall", "Workshop"]


@dataclasses.dataclass
class Definition:
    file: str
    name: str
    lines: list = dataclasses.field(default_factory=list)
    comment: list = dataclasses.field(default_factory=list)

    def words(self):
        return set(WORD.findall(re.sub(r'"[^"]*"', "", "\n".join(self.lines))))


def read(path):
    with open(path, encoding="utf-8") as file:
        return file.read()


def imports_of(text):
    """The names that a file has from others, and the short names that it has for whole files."""
    names, files = {}, {}
    for file, listed, short in USE.findall(text):
        if short:
            files[short] = file
        for name in filter(None, map(str.strip, listed.split(","))):
            theirs, _, ours = name.partition(" as ")
            names[ours or theirs] = (file, theirs)
    return names, files


def named_by(text, part):
    """What a part of a file of code has by name from specs/."""
    names, _ = imports_of(text)
    words = WORD.findall(" ".join(part.findall(text)))
    return sorted({names[name] for word in words for name in {word, word.split(".")[0]} if name in names})


def definitions_of(file, text):
    """The definitions of a file, each with its lines and the comment above it."""
    found, comment, now = {}, [], None
    for line in text.split("\n"):
        if line.startswith("--"):
            comment.append(line[2:].strip())
        elif not line.strip() or re.match(r"(use|mod|pub mod)\b", line):
            comment, now = [], None
        else:
            if HEAD.match(line) and not line[0].isspace():
                name = HEAD.match(line).group(1)
                now = found.setdefault(name, Definition(file, name, [], comment))
                comment = []
            if now:
                now.lines.append(line)
    return found


class Book:
    """All definitions, and what they rest on."""

    def __init__(self):
        self.definitions, self.imports = {}, {}
        for path in sorted(glob.glob(os.path.join(TOP, "crates", "*", "specs", "*.antt"))):
            crate, name = path.split(os.sep)[-3], os.path.basename(path)[:-len(".antt")]
            file = f"{crate}.specs.{name}"
            self.definitions[file] = definitions_of(file, read(path))
            self.imports[file] = imports_of(read(path))
        self.order = self.reading_order()

    def reading_order(self):
        """The number of each definition: by files, each behind those that it names, and as they stand there."""
        done, order, todo = set(), [], [(file, False) for file in reversed(sorted(self.definitions))]
        while todo:
            file, is_read = todo.pop()
            if is_read:
                order.append(file)
            elif file in self.definitions and file not in done:
                done.add(file)
                names, files = self.imports[file]
                used = {theirs for theirs, _ in names.values()} | set(files.values())
                todo += [(file, True), *((below, False) for below in sorted(used - done))]
        return {(file, name): (order.index(file), index) for file in order for index, name in enumerate(self.definitions[file])}

    def named_in(self, file, words):
        """The definitions that words in a file mean."""
        names, files = self.imports[file]
        for word in sorted(words):
            for name in {word, word.split(".")[0]}:
                yield names.get(name, (file, name))
            short, _, name = word.partition(".")
            yield (files.get(short), name)

    def rest_of(self, starts):
        """What these definitions rest on, them included, in reading order."""
        done, todo = set(), list(starts)
        while todo:
            file, name = one = todo.pop()
            if one not in done and one in self.order:
                done.add(one)
                todo += self.named_in(file, self.definitions[file][name].words())
        return [self.definitions[file][name] for file, name in sorted(done, key=self.order.get)]

    def contract(self):
        """The definitions that the clauses of the top call name."""
        return named_by(read(TOP_CALL), CLAUSES)

    def promises(self):
        """Those that the traits of its devices name, and the facts and ghost members of the two testers that it is handed."""
        found, sources = set(), glob.glob(os.path.join(TOP, "crates", "*", "src", "*.rt"))
        for text in map(read, sources):
            for device in DEVICES:
                found.update(named_by(text, re.compile(rf"^pub trait {device}\b.*?^}}", re.M | re.S)))
            for tester in TESTERS:
                found.update(named_by(text, re.compile(rf"^impl<[^{{]*> Model for {tester}<.*?^}}", re.M | re.S)))
                found.update(named_by(text, re.compile(rf"^impl<[^{{]*> Tester for {tester}<[^{{]*{{.*?^    fn", re.M | re.S)))
        return sorted(found)


def crates():
    """The crates, lowest first."""
    return re.findall(r"^(\w+)", read(os.path.join(TOP, "crates.txt")), re.M)


def size(order):
    return sum(len(found.lines) for found in order)


def crates_table(book):
    """How many definitions and lines of the whole contract each crate has, and how many lines of them the printed text needs."""
    counts, texts = collections.defaultdict(list), {(found.file, found.name) for found in book.rest_of([TEXT])}
    for found in book.rest_of(book.contract()):
        counts[found.file.split(".")[0]].append(found)
    for crate in filter(counts.get, crates()):
        found = counts[crate]
        text = [one for one in found if (one.file, one.name) in texts]
        yield f"{crate:18}{len(found):5} definitions{size(found):6} lines{size(text):6} of the printed text"


def figures(book):
    claims = {"the headline": [HEADLINE], "the printed text": [TEXT], "the whole contract": book.contract(),
              "with what its devices promise": book.contract() + book.promises()}
    for name, starts in claims.items():
        order = book.rest_of(starts)
        yield f"- {name}: {len(order)} definitions in {size(order)} lines"


def made(book, page):
    """The page with its figures made anew, between two lines that name them."""
    begin, end = "<!-- figures -->\n", "<!-- end of figures -->"
    return page[:page.index(begin) + len(begin)] + "\n".join(figures(book)) + "\n" + page[page.index(end):]


def front_with(page):
    """The front page with the figures of this one."""
    figures_here = iter(FIGURE.findall(page))
    return FIGURE.sub(lambda _: next(figures_here), read(FRONT))


def main(words):
    book, page = Book(), read(PAGE)
    if words[:1] == ["list"]:
        for found in book.rest_of([tuple(words[1:])] if words[1:] else book.contract() + book.promises()):
            print(f"-- {found.file}", *found.lines, "", sep="\n")
        return True
    if words == ["crates"]:
        print(*crates_table(book), sep="\n")
        return True
    now = made(book, page)
    if words == ["--write"]:
        for path, text in ((PAGE, now), (FRONT, front_with(now))):
            with open(path, "w", encoding="utf-8") as file:
                file.write(text)
        return True
    wrong = [line for line in now.split("\n") if line not in page.split("\n")]
    if front_with(now) != read(FRONT):
        wrong.append("README.md has other figures")
    print(*wrong, sep="\n", end="\n" if wrong else "")
    return not wrong


if __name__ == "__main__":
    sys.exit(not main(sys.argv[1:]))
