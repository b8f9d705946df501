"""The commands of a fast-import stream, one after another, each with the number of its first line.

What is refused is told by the first line that is not as it must be: `syntax` where it is in no
form, `unsupported` where git has such a form and this program does not, `truncated` where the
stream ends within a command, `no done` where it ends without the line that a `feature done`
promised."""
from __future__ import annotations

from collections import namedtuple
from typing import Any, Iterator, List, Optional, Set

from forms import decimal, identity_fault, is_ref, object_name
from refusals import LONGEST_LINE, LONGEST_PART, LONGEST_STREAM, Refused, at_line, too_large

Blob = namedtuple("Blob", "line mark content")
Commit = namedtuple("Commit", "line branch mark original header message parents changes")
Header = namedtuple("Header", "author committer encoding")
Parents = namedtuple("Parents", "first merges")  # what stands behind `from` and each `merge`
Tag = namedtuple("Tag", "line name mark target")
Reset = namedtuple("Reset", "line branch target")
Ignored = namedtuple("Ignored", "line")
Target = namedtuple("Target", "line text")
# content: ('mark', N), ('name', 20 bytes) or ('inline', bytes)
Modify = namedtuple("Modify", "line mode content path")
Delete = namedtuple("Delete", "line path")
DeleteAll = namedtuple("DeleteAll", "line")

LINK, MODULE = b"120000", b"160000"
MODES = {
    b"100644": b"100644",
    b"644": b"100644",
    b"100755": b"100755",
    b"755": b"100755",
    LINK: LINK,
    MODULE: MODULE,
}
UNSUPPORTED = (
    b"C",
    b"R",
    b"N",
    b"ls",
    b"cat-blob",
    b"get-mark",
    b"alias",
    b"checkpoint",
    b"gpgsig",
)


class Line:
    """A line that was looked at, and not taken yet."""

    __slots__ = ("after", "text", "number", "too_long", "word")
    after: int
    text: bytes
    number: int
    too_long: bool
    word: bytes


class Reader:
    """Reads the commands of a stream that is in hand as a whole. With `original` each commit must
    say its own name."""

    def __init__(self, data: bytes, original: bool) -> None:
        self.data, self.original = data, original
        self.at, self.number = 0, 1  # where it stands, and the number of the line there
        self.must_be_done = False
        self.names: Set[bytes] = set()  # own names so far

    # -- lines ---------------------------------------------------------------

    def move(self, to: int) -> None:
        """Goes on to a byte."""
        self.number += self.data.count(b"\n", self.at, to)
        self.at = to

    def last_line(self) -> int:
        """The number of the line behind the last one that has an end."""
        return self.number + self.data.count(b"\n", self.at)

    def look(self) -> Optional[Line]:
        """The line here, behind those that begin with #; None at the end of the stream."""
        while self.at < len(self.data):
            end = self.data.find(b"\n", self.at)
            has_end = end >= 0
            end = end if has_end else len(self.data)
            too_long = end - self.at > LONGEST_LINE
            last_seen = self.at + LONGEST_LINE if too_long else end if has_end else end - 1
            if last_seen >= LONGEST_STREAM:
                raise too_large(b"stream")
            if self.data[self.at] == ord("#"):
                if too_long:
                    raise too_large(b"line")
                self.move(end + has_end)
                continue
            line = Line()
            line.after, line.text, line.number, line.too_long = (
                end + has_end,
                self.data[self.at : end],
                self.number,
                too_long,
            )
            line.word = line.text.split(b" ", 1)[0]
            return line
        return None

    def take(self, line: Line) -> None:
        """Goes behind a line."""
        self.move(line.after)

    def part(self, *words: bytes) -> Optional[Line]:
        """The next line where it begins with one of these words, else None."""
        line = self.look()
        if line is None or line.word not in words:
            return None
        if line.too_long:
            raise too_large(b"line")
        return line

    def missing(self) -> Refused:
        """What is said where a part must stand and does not."""
        line = self.look()
        if line is None:
            return at_line(self.last_line(), b"truncated")
        return too_large(b"line") if line.too_long else at_line(line.number, b"syntax")

    @staticmethod
    def rest(line: Line) -> bytes:
        """What follows the first word and its blank."""
        if not line.text.startswith(line.word + b" "):
            raise at_line(line.number, b"syntax")
        return line.text[len(line.word) + 1 :]

    # -- parts ---------------------------------------------------------------

    def mark(self) -> Optional[int]:
        """The number of a mark, or None."""
        line = self.part(b"mark")
        if line is None:
            return None
        text = self.rest(line)
        number = decimal(text[1:]) if text.startswith(b":") else None
        if not number:
            raise at_line(line.number, b"syntax")
        self.take(line)
        return number

    def original_oid(self) -> Optional[bytes]:
        """What a command says of its own name, or None."""
        line = self.part(b"original-oid")
        if line is None:
            return None
        text = self.rest(line)
        self.take(line)
        return text

    def identity(self, word: bytes, must: bool) -> Optional[bytes]:
        """Who, and when."""
        line = self.part(word)
        if line is None:
            if must:
                raise self.missing()
            return None
        text = self.rest(line)
        fault = identity_fault(text)
        if fault is not None:
            raise at_line(line.number, fault)
        self.take(line)
        return text

    def target(self, word: bytes) -> Optional[Target]:
        """What a command leads to."""
        line = self.part(word)
        if line is None:
            return None
        target = Target(line.number, self.rest(line))
        self.take(line)
        return target

    def content(self) -> bytes:
        """The bytes of a data part, and behind them one end of a line where it stands there."""
        line = self.part(b"data")
        if line is None:
            raise self.missing()
        text = self.rest(line)
        content = (
            self.delimited(line, text[2:])
            if text.startswith(b"<<")
            else self.counted(line, decimal(text))
        )
        if self.at < len(self.data):
            if self.at >= LONGEST_STREAM:
                raise too_large(b"stream")
            if self.data[self.at] == ord("\n"):
                self.move(self.at + 1)
        return content

    def counted(self, line: Line, count: Optional[int]) -> bytes:
        """So many bytes."""
        if count is None:
            raise at_line(line.number, b"syntax")
        if count > LONGEST_PART:
            raise too_large(b"data")
        self.take(line)
        start = self.at
        if start + count > min(LONGEST_STREAM, len(self.data)):
            raise (
                too_large(b"stream")
                if len(self.data) > LONGEST_STREAM
                else at_line(line.number, b"truncated")
            )
        self.move(start + count)
        return self.data[start : start + count]

    def delimited(self, line: Line, end_line: bytes) -> bytes:
        """The lines up to one that is this."""
        if not end_line:
            raise at_line(line.number, b"syntax")
        self.take(line)
        start = at = self.at
        while at < len(self.data):
            end = self.data.find(b"\n", at)
            stop, after = (end, end + 1) if end >= 0 else (len(self.data), len(self.data))
            is_end = self.data[at:stop] == end_line
            if not is_end and min(after, LONGEST_STREAM) - start > LONGEST_PART:
                raise too_large(b"data")
            if after > LONGEST_STREAM or end < 0 and len(self.data) > LONGEST_STREAM:
                raise too_large(b"stream")
            if is_end:
                self.move(after)
                return self.data[start:at]
            at = after
        raise at_line(line.number, b"truncated")

    # -- commands ------------------------------------------------------------

    def next(self) -> Any:
        """The next command, or None at the end."""
        line = self.look()
        while line is not None and line.text == b"":
            self.take(line)
            line = self.look()
        if line is None:
            if self.must_be_done:
                raise at_line(self.last_line(), b"no done")
            return None
        if line.too_long:
            raise too_large(b"line")
        if line.text == b"done":
            return None
        if line.word in UNSUPPORTED:
            raise at_line(line.number, b"unsupported")
        if line.text == b"blob":
            self.take(line)
            mark, _ = self.mark(), self.original_oid()
            return Blob(line.number, mark, self.content())
        forms: Any = {
            b"progress": self.passed_over,
            b"option": self.passed_over,
            b"feature": self.feature,
            b"commit": self.commit,
            b"tag": self.tag,
            b"reset": self.reset,
        }
        if line.word not in forms:
            raise at_line(line.number, b"syntax")
        return forms[line.word](line)

    def passed_over(self, line: Line) -> Ignored:
        """A command that means nothing here."""
        self.rest(line)
        self.take(line)
        return Ignored(line.number)

    def feature(self, line: Line) -> Ignored:
        """What a stream says of itself; `done` promises that it ends with that line."""
        text = self.rest(line)
        if text not in (b"done", b"date-format=raw"):
            raise at_line(line.number, b"unsupported")
        self.must_be_done = self.must_be_done or text == b"done"
        self.take(line)
        return Ignored(line.number)

    def ref(self, line: Line) -> bytes:
        """The name of a ref behind the first word."""
        text = self.rest(line)
        if not is_ref(text):
            raise at_line(line.number, b"syntax")
        self.take(line)
        return text

    def reset(self, line: Line) -> Reset:
        """A ref that is set, or removed."""
        return Reset(line.number, self.ref(line), self.target(b"from"))

    def tag(self, line: Line) -> Tag:
        """A tag with a message."""
        name, mark, target = self.ref(line), self.mark(), self.target(b"from")
        if target is None:
            raise self.missing()
        self.original_oid()
        self.identity(b"tagger", False)
        self.content()
        return Tag(line.number, name, mark, target)

    def commit(self, line: Line) -> Commit:
        """A commit with all that it has."""
        branch, mark, original = self.ref(line), self.mark(), self.original_oid()
        author, committer = self.identity(b"author", False), self.identity(b"committer", True)
        self.no_signature()
        header = Header(author, committer, self.encoding())
        message = self.content()
        first, merges = self.target(b"from"), []
        target = self.target(b"merge")
        while target is not None:
            merges.append(target)
            target = self.target(b"merge")
        changes = []
        change = self.change()
        while change is not None:
            changes.append(change)
            change = self.change()
        name = self.own_name(line, original) if self.original else None
        return Commit(
            line.number, branch, mark, name, header, message, Parents(first, merges), changes
        )

    def own_name(self, line: Line, text: Optional[bytes]) -> bytes:
        """The name that a commit says of itself, which no other has."""
        name = object_name(text) if text is not None else None
        if name is None or name in self.names:
            raise at_line(line.number, b"syntax")
        self.names.add(name)
        return name

    def encoding(self) -> Optional[bytes]:
        """The encoding of a message, or None."""
        line = self.part(b"encoding")
        if line is None:
            return None
        text = self.rest(line)
        if text == b"":
            raise at_line(line.number, b"syntax")
        self.take(line)
        self.no_signature()
        return text

    def no_signature(self) -> None:
        """Signed commits are refused."""
        line = self.part(b"gpgsig")
        if line is not None:
            raise at_line(line.number, b"unsupported")

    def change(self) -> Any:
        """A change of a commit's files, or None behind the last one."""
        line = self.part(b"M", b"D", b"deleteall")
        if line is None:
            return None
        if line.word == b"deleteall":
            if line.text != b"deleteall":
                raise at_line(line.number, b"syntax")
            self.take(line)
            return DeleteAll(line.number)
        text = self.rest(line)
        if line.word == b"D":
            self.take(line)
            return Delete(line.number, text)
        return self.modify(line, text.split(b" ", 2))

    def modify(self, line: Line, pieces: List[bytes]) -> Modify:
        """A file that is put: its mode, where its content is from, and its path."""
        if pieces[0] in (b"040000", b"40000"):
            raise at_line(line.number, b"unsupported")
        if pieces[0] not in MODES or len(pieces) < 3:
            raise at_line(line.number, b"syntax")
        mode, content, path = MODES[pieces[0]], pieces[1], pieces[2]
        if content == b"inline":
            self.take(line)
            return Modify(line.number, mode, ("inline", self.content()), path)
        if content.startswith(b":") and decimal(content[1:]):
            found: Any = ("mark", decimal(content[1:]))
        elif object_name(content) is not None:
            found = ("name", object_name(content))
        else:
            raise at_line(line.number, b"syntax")
        self.take(line)
        return Modify(line.number, mode, found, path)


def commands(data: bytes, original: bool) -> Iterator[Any]:
    """The commands of a stream in turn; raises Refused at the first fault."""
    reader = Reader(data, original)
    command = reader.next()
    while command is not None:
        yield command
        command = reader.next()
