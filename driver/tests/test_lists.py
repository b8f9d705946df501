"""The tests of a list: lines of a file, testcases of JUnit, the command of each, and names for
files. Tables, without a repository."""
from __future__ import annotations

import os
import re
import shlex
import sys
import tempfile
import unittest
from typing import Dict, List, Tuple

sys.path.insert(0, os.path.dirname(os.path.dirname(os.path.abspath(__file__))))

from git_farmdawn.line import lists, options  # noqa: E402
from git_farmdawn.line.lists import Listed  # noqa: E402
from git_farmdawn.telling.voice import Stop  # noqa: E402

SHORT_TESTS = True

# a file, and its tests
LINES = (
    ("t01\nt02\n", ["t01", "t02"]),
    ("# of last night\n\n  t01  \nt02", ["t01", "t02"]),
    ("build: make\n", ["build: make"]),
    ("tests/a.py::B::test_c[x y-#1]\n", ["tests/a.py::B::test_c[x y-#1]"]),
    ("t01\nt01\nt02\n", ["t01", "t02"]),
    ("\ufefft01\r\nt02\r\n", ["t01", "t02"]),
    ("a\x1b[1mb\na\x07b\nab\n\u202eab\n", ["ab", "a^Gb", "ab (2)", "[U+202E]ab"]),
    ("ab (2)\na\x1b[1mb\nab\n", ["ab (2)", "ab", "ab (3)"]),
    ("caf\udce9\n", ["caf\\xE9"]),
)
# what stands in a file of JUnit, files that are there, and the tests that failed with their parts
PYTEST = "<testsuites><testsuite>%s</testsuite></testsuites>"
CASES: Tuple[Tuple[str, List[str], List[Tuple[str, str, str]]], ...] = (
    (
        (
            '<testcase classname="tests.test_a.TestB" name="test_c[1]"><failure'
            ' message="x">y</failure></testcase>'
        ),
        ["tests/test_a.py"],
        [("tests/test_a.py::TestB::test_c[1]", "tests.test_a.TestB", "test_c[1]")],
    ),
    (
        (
            '<testcase classname="tests.test_a" name="test_c"'
            ' file="tests/test_a.py"><error/></testcase>'
        ),
        [],
        [("tests/test_a.py::test_c", "tests.test_a", "test_c")],
    ),
    (
        '<testcase classname="org.x.FooTest" name="testBar"><failure/></testcase>',
        [],
        [("org.x.FooTest::testBar", "org.x.FooTest", "testBar")],
    ),
    ('<testcase name="plain"><failure/></testcase>', [], [("plain", "", "plain")]),
    (
        (
            '<testcase classname="a" name="good"/><testcase classname="a"'
            ' name="skipped"><skipped/></testcase><testcase classname="a"'
            ' name="flaky"><flakyFailure/></testcase><testcase classname="a"'
            ' name="text"><system-out><![CDATA[<failure/>]]></system-out></testcase><testcase'
            ' classname="a" name="bad"><system-out>x</system-out><error/></testcase>'
        ),
        [],
        [("a::bad", "a", "bad")],
    ),
    (
        '<testcase classname="a&lt;b&gt;" name="&quot;c&quot; &amp; &#233;"><failure/></testcase>',
        [],
        [('a<b>::"c" & \xe9', "a<b>", '"c" & \xe9')],
    ),
    (
        (
            '<testcase classname="a" name="twice"><failure/></testcase><testcase classname="a"'
            ' name="twice"><failure/></testcase>'
        ),
        [],
        [("a::twice", "a", "twice")],
    ),
    (
        (
            '<testcase classname="shop" name="a::b"><failure/></testcase><testcase'
            ' classname="shop::a" name="b"><failure/></testcase>'
        ),
        [],
        [("shop::a::b", "shop", "a::b"), ("shop::a::b (2)", "shop::a", "b")],
    ),
    (
        (
            '<testcase classname="a" name="two&#10;lines"><failure/></testcase><testcase'
            ' classname="a" name="&#x85;&#x202e;"><failure/></testcase>'
        ),
        [],
        [("a::two^Jlines", "a", "two\nlines"), ("a::[U+0085][U+202E]", "a", "\x85\u202e")],
    ),
    ('<testcase classname="C"><failure/></testcase>', [], [("C", "C", "")]),
    (
        '<testcase classname="" name="tests.test_a"><error/></testcase>',
        ["tests/test_a.py"],
        [("tests/test_a.py", "", "tests.test_a")],
    ),
    (
        (
            '<testsuite name="S"><testsuite name="T"><testcase classname=""'
            ' name="a"><error/></testcase></testsuite><testcase classname=""'
            ' name="a"><error/></testcase></testsuite>'
        ),
        [],
        [("T::a", "T", "a"), ("S::a", "S", "a")],
    ),
)
# files as runners write them, with files that are there: the tests, and what a command with {}, or
# with {class} and {name}, has in their place
WRITTEN: Tuple[Tuple[str, List[str], List[Tuple[str, str]]], ...] = (
    (
        "pytest.xml",
        ["tests/test_calc.py", "tests/test_cart.py"],
        [
            ("tests/test_calc.py", "tests/test_calc.py"),
            ("tests/test_cart.py::TestCart::test_word[a b]", "{}"),
            (r"tests/test_cart.py::TestCart::test_word[x\ny]", "{}"),
            (r"tests/test_cart.py::TestCart::test_word[caf\xe9]", "{}"),
            ("tests/test_cart.py::test_broken", "{}"),
        ],
    ),
    (
        "pytest-xunit1.xml",
        [],
        [
            ("tests/test_calc.py", "#tests.test_calc"),
            (
                "tests/test_cart.py::TestCart::test_word[a b]",
                "tests.test_cart.TestCart#test_word[a b]",
            ),
            (
                r"tests/test_cart.py::TestCart::test_word[x\ny]",
                r"tests.test_cart.TestCart#test_word[x\ny]",
            ),
            (
                r"tests/test_cart.py::TestCart::test_word[caf\xe9]",
                r"tests.test_cart.TestCart#test_word[caf\xe9]",
            ),
            ("tests/test_cart.py::test_broken", "tests.test_cart#test_broken"),
        ],
    ),
    (
        "surefire",
        [],
        [
            ("org.x.CartTest::adds", "org.x.CartTest#adds"),
            ("org.x.CartTest::removes", "org.x.CartTest#removes"),
            ("org.x.StoreTest", "org.x.StoreTest#"),
        ],
    ),
    (
        "gradle",
        [],
        [
            ("org.x.CartTest::adds()", "org.x.CartTest#adds"),
            ("org.x.CartTest::removesOld", "org.x.CartTest#removesOld"),
        ],
    ),
    (
        "gotestsum.xml",
        [],
        [
            ("example.org/shop/cart::TestAdd", "example.org/shop/cart#TestAdd"),
            (
                "example.org/shop/cart::TestRemove/last_of_all",
                "example.org/shop/cart#TestRemove/last_of_all",
            ),
            ("example.org/shop/shelf::TestMain", "example.org/shop/shelf#TestMain"),
            ("example.org/shop/store::TestMain", "example.org/shop/store#TestMain"),
        ],
    ),
    (
        "nextest.xml",
        [],
        [
            ("shop::cart::add", "shop#cart::add"),
            ("shop::whole::add", "shop#whole::add"),
            ("shop::whole::add (2)", "shop::whole#add"),
        ],
    ),
    (
        "ctest.xml",
        [],
        [
            ("add::add", "add#add"),
            ("cart/sum of all::cart/sum of all", "cart/sum of all#cart/sum of all"),
        ],
    ),
    (
        "jest.xml",
        [],
        [
            (
                'cart adds "two" & more::cart adds "two" & more',
                'cart adds "two" & more#cart adds "two" & more',
            ),
            ("cart calls add()::cart calls add()", "cart calls add()#cart calls add()"),
            (
                "Test suite failed to run::/home/ann/shop/shelf.test.js",
                "Test suite failed to run#/home/ann/shop/shelf.test.js",
            ),
        ],
    ),
)
NO_JUNIT = (
    ("<html></html>", "has no testcase"),
    ("t01\nt02\n", "is no file of JUnit"),
    ("", "is no file of JUnit"),
)
COMMANDS: Tuple[Tuple[List[str], Tuple[str, Dict[str, str]], List[str]], ...] = (
    (["make", "{}"], ("t01", {}), ["make", "t01"]),
    (["ctest", "-R", "^{}$"], ("t01", {}), ["ctest", "-R", "^t01$"]),
    (
        ["mvn", "-Dtest={class}#{name}"],
        ("a.B::c", {"class": "a.B", "name": "c"}),
        ["mvn", "-Dtest=a.B#c"],
    ),
    (["x", "{}", "{class}"], ("{name}", {}), ["x", "{name}", "{class}"]),
    (["x", "{}", "{name}"], ("a::{}", {"class": "a", "name": "{}"}), ["x", "a::{}", "{}"]),
)
SHORT = (
    (["t01", "t02"], ["t01", "t02"]),
    (["a/b.py::C::d[1]", "a/b.py::C::d(1)"], ["a-b.py-C-d-1", "a-b.py-C-d-1-2"]),
    (["build", "outputs", "..", "\xe9"], ["build-2", "outputs-2", "test", "test-2"]),
    (["x" * 60 + "end"], ["x" * 37 + "end"]),
)
# the rows of docs/SEVERAL.md, for a testcase as the runner writes it
RUNNERS = {
    "pytest": ("tests/a.py::B::c[1]", "tests.a.B", "c[1]", ["pytest", "tests/a.py::B::c[1]"]),
    "Maven's surefire": (
        "org.x.FooTest::testBar",
        "org.x.FooTest",
        "testBar",
        ["mvn", "-q", "test", "-Dtest=org.x.FooTest#testBar"],
    ),
    "Gradle": (
        "org.x.FooTest::testBar",
        "org.x.FooTest",
        "testBar",
        ["gradle", "test", "--tests", "org.x.FooTest.testBar"],
    ),
    "gotestsum": (
        "example.org/shop/cart::TestAdd",
        "example.org/shop/cart",
        "TestAdd",
        ["go", "test", "example.org/shop/cart", "-run", "^TestAdd$"],
    ),
    "cargo nextest": (
        "shop::cart::add",
        "shop",
        "cart::add",
        ["cargo", "test", "cart::add", "--", "--exact"],
    ),
    "CTest": ("add", "add", "add", ["ctest", "-R", "^add$", "--no-tests=error"]),
}
HERE = os.path.dirname(os.path.abspath(__file__))
JUNIT = os.path.join(HERE, "junit")
PAGE = os.path.join(os.path.dirname(os.path.dirname(HERE)), "docs", "SEVERAL.md")
MISSING = (("5=skip", {5: 125}), ("4,5=good", {4: 0, 5: 0}), ("127=bad", {127: 1}))


class Lists(unittest.TestCase):
    """Tables."""

    def setUp(self) -> None:
        """A folder of its own, in which the test stands."""
        room = tempfile.TemporaryDirectory()
        self.addCleanup(room.cleanup)
        self.addCleanup(os.chdir, os.getcwd())
        os.chdir(room.name)

    @staticmethod
    def write(name: str, text: str) -> str:
        """A file."""
        if os.path.dirname(name):
            os.makedirs(os.path.dirname(name), exist_ok=True)
        with open(name, "w", encoding="utf-8", errors="surrogateescape", newline="") as file:
            file.write(text)
        return name

    def test_lines(self) -> None:
        """A test a line."""
        for text, due in LINES:
            with self.subTest(text):
                self.assertEqual(
                    list(lists.by_name(lists.read_lines(self.write("list", text)))), due
                )

    def test_junit(self) -> None:
        """What failed, by the names of its runner."""
        for text, files, due in CASES:
            with self.subTest(text):
                for file in files:
                    self.write(file, "")
                read = lists.read_junit(self.write("junit.xml", PYTEST % text))
                self.assertEqual(
                    [
                        (name, test.parts["class"], test.parts["name"])
                        for name, test in lists.by_name(read.tests).items()
                    ],
                    due,
                )
                for file in files:
                    os.unlink(file)

    def test_written(self) -> None:
        """Files and folders as runners write them."""
        for name, files, due in WRITTEN:
            for file in files:
                self.write(file, "")
            found = lists.by_name(lists.read_junit(os.path.join(JUNIT, name)).tests)
            form = "{}" if files else "{class}#{name}"
            with self.subTest(name):
                self.assertEqual(list(found), [shown for shown, _ in due])
                for shown, word in due:
                    self.assertEqual(
                        lists.command_of([form], found[shown]), [shown if word == "{}" else word]
                    )
            for file in files:
                os.unlink(file)

    def test_bytes(self) -> None:
        """A file of another encoding, and one with a mark at its begin."""
        text = '<testsuite><testcase classname="a" name="\xe4"><failure/></testcase></testsuite>'
        for name in ("utf-8-sig", "utf-16", "iso-8859-1"):
            with self.subTest(name), open("junit.xml", "wb") as file:
                head = '<?xml version="1.0" encoding="%s"?>' % name.replace("-sig", "")
                file.write((head + text).encode(name))
                file.flush()
                self.assertEqual(
                    list(lists.by_name(lists.read_junit(file.name).tests)), ["a::\xe4"]
                )

    def test_nameless(self) -> None:
        """A testcase without a name is none, and is counted."""
        text = "<testsuite><testcase><failure/></testcase><testcase/></testsuite>"
        self.assertEqual(lists.read_junit(self.write("junit.xml", text)), ([], 1))

    def test_refused(self) -> None:
        """What is no list."""
        for text, due in NO_JUNIT:
            with self.subTest(text):
                self.assertRaisesRegex(Stop, due, lists.read_junit, self.write("junit.xml", text))
        self.assertRaisesRegex(Stop, "No such file", lists.read_junit, "nowhere")
        self.assertRaisesRegex(Stop, "No such file", lists.read_lines, "nowhere")
        self.assertRaisesRegex(
            Stop, "no line is a test", lists.read_lines, self.write("list", "# none\n\n")
        )
        self.assertRaisesRegex(Stop, "null byte", lists.read_lines, self.write("list", "a\0b\n"))
        os.mkdir("empty")
        self.assertRaisesRegex(Stop, "has no file of JUnit", lists.read_junit, "empty")
        self.write("empty/half.xml", "<testsuite><testcase")
        self.assertRaisesRegex(Stop, "half.xml is no file of JUnit", lists.read_junit, "empty")
        self.assertRaisesRegex(
            Stop,
            "is the same for each test .*-- make test {}",
            lists.check_command,
            ["make", "test"],
        )

    def test_commands(self) -> None:
        """The name and its parts stand in their places, and what they bring is not looked at
        again."""
        for words, (name, parts), due in COMMANDS:
            with self.subTest(words):
                lists.check_command(words)
                self.assertEqual(lists.command_of(words, Listed(name, parts)), due)

    def test_runners(self) -> None:
        """The commands that the page has for the runners of tests."""
        with open(PAGE, encoding="utf-8") as file:
            table = file.read().split("| Runner | Command |")[1].split("\n\n")[0]
        rows = dict(re.findall("^[|] ([^|`]+) [|] `([^`]+)`", table, re.M))
        self.assertEqual(sorted(rows), sorted(RUNNERS))
        for runner, (name, place, part, due) in RUNNERS.items():
            with self.subTest(row=(runner, (name, place, part, due))):
                words = shlex.split(rows[runner])
                lists.check_command(words)
                self.assertEqual(
                    lists.command_of(words, Listed(name, {"class": place, "name": part})), due
                )

    def test_short_names(self) -> None:
        """Names for files, each another one."""
        for names, due in SHORT:
            with self.subTest(row=(names, due)):
                self.assertEqual(list(lists.short_names(names).values()), due)

    def test_missing(self) -> None:
        """What a status stands for."""
        for word, due in MISSING:
            with self.subTest(row=(word, due)):
                self.assertEqual(options.missing("--missing", word), due)
        for word in (
            "skip",
            "5",
            "0=skip",
            "125=good",
            "255=bad",
            "5=no",
            "5,=skip",
            "1000=skip",
            "",
        ):
            with self.subTest(word):
                self.assertRaisesRegex(Stop, "wants statuses", options.missing, "--missing", word)


if __name__ == "__main__":
    unittest.main()
