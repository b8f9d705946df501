"""The tests of a list: the lines of a file, or what failed in files of JUnit; and the command of
each of them.

A name comes from others. In the command it stands as it is, as a word or a part of one; for files
it has a short form, in which no two are alike; shown it has no control characters. JUnit has a
class and a name for each test, and no runner takes these two as they are: for pytest its own form
is made of them, and others use {class} and {name}."""
from __future__ import annotations

import os
import re
from typing import TYPE_CHECKING, Dict, Iterable, Iterator, List, NamedTuple, Optional, Tuple

from ..host.files import open_named
from ..telling.status import Status
from ..telling.text import by_number, visible
from ..telling.voice import Stop, quoted

if TYPE_CHECKING:
    from xml.etree.ElementTree import Element

SIGNS = re.compile(r"\{(class|name)?\}")
FAILED = ("failure", "error")
SUITES = ("testsuite", "testsuites")
BOM = b"\xef\xbb\xbf"
# a method as Gradle writes one of JUnit 5, which takes it without the brackets
METHOD = re.compile(r"([^\W\d]\w*)\(\)")
LONGEST_SHORT = 40  # letters of a name that files have
# names that stand beside them
TAKEN = ("build", "outputs", "index.html", "result.json", "report.css", "summary.md", "junit.xml")


class Listed(NamedTuple):
    """A test of a list: what stands for {}, and for {class} and {name} where it has such."""

    name: str
    parts: Dict[str, str]


class Failures(NamedTuple):
    """What failed in files of JUnit, and how many testcases of it have no name at all."""

    tests: List[Listed]
    nameless: int


def lines_of(path: str) -> List[str]:
    """The lines of a file that are neither empty nor begin with #."""
    try:
        with open_named(path) as file:
            data = file.read()
    except OSError as fault:
        raise Stop(Status.REFUSED, "%s: %s" % (path, fault.strerror)) from None
    if b"\0" in data:
        raise Stop(Status.REFUSED, "%s has a null byte, and is no list of tests" % path)
    lines = os.fsdecode(data[len(BOM) :] if data.startswith(BOM) else data).split("\n")
    return [line for line in lines if line.strip() and not line.startswith("#")]


def read_lines(path: str) -> List[Listed]:
    """The tests of a file, a line each."""
    found = [Listed(line.strip(), {}) for line in lines_of(path)]
    if not found:
        raise Stop(Status.REFUSED, "%s: no line is a test" % path)
    return found


# -- JUnit ---------------------------------------------------------------------


def read_junit(path: str) -> Failures:
    """The tests that failed, or ended with an error, in a file of JUnit or in those of a folder."""
    failed = [
        (case, suite)
        for file in files_of(path)
        for case, suite in cases_of(file, file == path)
        if any(local(part) in FAILED for part in case)
    ]
    tests = [listed_of(case, suite) for case, suite in failed]
    named = [test for test in tests if test.name]
    return Failures(named, len(tests) - len(named))


def files_of(path: str) -> List[str]:
    """The file that is named, or all of a folder whose names say that they are XML."""
    if not os.path.isdir(path):
        return [path]
    found = [
        os.path.join(folder, name)
        for folder, _, names in os.walk(path)
        for name in names
        if name.endswith(".xml")
    ]
    if not found:
        raise Stop(Status.REFUSED, "%s has no file of JUnit" % path)
    return sorted(found)


def cases_of(path: str, is_named: bool) -> List[Tuple[Element, str]]:
    """The testcases of a file, each with the name of its suite. What is no file of JUnit is refused
    where it was named; a folder may have other XML."""
    try:
        from xml.etree import ElementTree
    except ImportError:  # the smallest installs of Python lack it
        raise Stop(
            Status.REFUSED,
            "this Python reads no XML; --tests takes the names of tests from a file, one a line",
        ) from None
    try:
        with open_named(path) as file:
            root = ElementTree.parse(file).getroot()
    except OSError as fault:
        raise Stop(Status.REFUSED, "%s: %s" % (path, fault.strerror)) from None
    except (ElementTree.ParseError, LookupError, ValueError) as fault:
        raise Stop(Status.REFUSED, "%s is no file of JUnit: %s" % (path, fault)) from None
    cases = list(cases_below(root))
    if not cases and is_named and local(root) not in SUITES:
        raise Stop(Status.REFUSED, "%s has no testcase, and is no file of JUnit" % path)
    return cases


def cases_below(root: Element) -> Iterator[Tuple[Element, str]]:
    """The testcases in their order, without recursion: a file may be of any depth."""
    waiting = [(root, "")]
    while waiting:
        part, suite = waiting.pop()
        if local(part) == "testcase":
            yield part, suite
            continue
        if local(part) == "testsuite":
            suite = part.get("name") or suite
        waiting += [(inner, suite) for inner in reversed(part)]


def local(part: Element) -> str:
    """The name of an element, without that of its kind."""
    return part.tag.rpartition("}")[2] if isinstance(part.tag, str) else ""


def listed_of(case: Element, suite: str) -> Listed:
    """A testcase, by the name that its runner takes where that is known. A class that is empty is
    that of the suite."""
    parts = {"class": case.get("classname") or "", "name": case.get("name") or ""}
    name = name_of_pytest(parts, case.get("file"))
    if not name:
        if case.get("classname") == "":
            parts["class"] = suite
        name = "::".join(part for part in (parts["class"], parts["name"]) if part)
    return Listed(name, parts)


def name_of_pytest(parts: Dict[str, str], file: Optional[str]) -> str:
    """FILE::CLASS::NAME where the class begins with the path of a file of Python: that which the
    testcase names, or one that is there; FILE where such a module is no test but was not read; else
    nothing."""
    is_module = not parts["class"]
    words = (parts["name"] if is_module else parts["class"]).split(".")
    for count in range(len(words), 0, -1):
        path = "/".join(words[:count]) + ".py"
        if path == (file or path) and (file or os.path.isfile(path)):
            return path if is_module else "::".join([path] + words[count:] + [parts["name"]])
        if is_module:
            break
    return ""


# -- commands ------------------------------------------------------------------


def check_command(words: List[str]) -> None:
    """A command for a list has a place for the test."""
    if not any(SIGNS.search(word) for word in words):
        raise Stop(
            Status.REFUSED,
            "the command is the same for each test of the list: {} in it stands for the test, as"
            " in: -- %s {}" % " ".join(quoted(word) for word in words),
        )


def command_of(words: List[str], test: Listed) -> List[str]:
    """The command of a test."""
    values = {"{}": test.name, **{"{%s}" % part: value for part, value in test.parts.items()}}
    method = METHOD.fullmatch(test.parts.get("name", ""))
    if method:
        values["{name}"] = method.group(1)
    return [SIGNS.sub(lambda sign: values.get(sign.group(), sign.group()), word) for word in words]


def by_name(tests: Iterable[Listed]) -> Dict[str, Listed]:
    """Each test once, by the name that is shown of it: two testcases of another class and name are
    two, with a number behind a name that is there already."""
    once = {(test.name, *test.parts.values()): test for test in reversed(list(tests))}
    found: Dict[str, Listed] = {}
    for test in reversed(list(once.values())):
        plain = visible(test.name, by_number)
        name, count = plain, 1
        while name in found:
            count += 1
            name = "%s (%d)" % (plain, count)
        found[name] = test
    return found


def short_names(names: Iterable[str]) -> Dict[str, str]:
    """Names for files: letters, digits, dots and hyphens, the end of a long one, and a number
    behind one that is there already."""
    found: Dict[str, str] = {}
    for name in names:
        plain = re.sub("[^A-Za-z0-9._-]+", "-", name)[-LONGEST_SHORT:].strip("-.") or "test"
        short, count = plain, 1
        while short in found.values() or short in TAKEN:
            count += 1
            short = "%s-%d" % (plain, count)
        found[name] = short
    return found
