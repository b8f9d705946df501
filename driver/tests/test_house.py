"""The rules of the house, for each module of the driver: typed, documented, short, and nothing that
Python 3.8 lacks.

This is no type checker: it says that each function tells its types, and mypy (see pyproject.toml)
that they are right."""
from __future__ import annotations

import ast
import os
import re
import unittest
from typing import Dict, Iterable, Iterator, Set, Tuple, Union

SHORT_TESTS = True

DRIVER = os.path.dirname(os.path.dirname(os.path.abspath(__file__)))
MODULES = os.path.join(DRIVER, "git_farmdawn")
# statements of a function, not lines: how many of these it takes is for black to say
MOST_LINES, MOST_STATEMENTS, MOST_PARAMETERS, MOST_COLUMNS = 700, 40, 5, 100
MOST_REACH = 4  # through how many objects a name is reached
# what removes folders, or gives files another mode
REMOVES = ("rmtree", "rmdir", "removedirs", "renames", "chmod", "fchmod", "lchmod")
# attributes that are set from outside, by package
OUTSIDE = {"checkouts": 43, "host": 5, "line": 8, "main.py": 2, "retest.py": 2}
OUTSIDE["host"] += 1  # Python's hook
OUTSIDE["report"] = 5  # of XML's elements
Function = Union[ast.FunctionDef, ast.AsyncFunctionDef]
# the standard library, as far as it is at hand in the smallest installs, and quick to import
MAY_IMPORT = set(
    (
        "__future__ collections difflib enum errno fcntl gc hashlib heapq html json math os re select"
        " selectors shlex shutil signal stat struct subprocess sys termios time typing xml"
    ).split()
)


def modules() -> Iterator[Tuple[str, str]]:
    """The name and the text of each module."""
    for folder, _, names in sorted(os.walk(MODULES)):
        for name in sorted(names):
            path = os.path.join(folder, name)
            if name.endswith(".py"):
                with open(path, encoding="utf-8") as file:
                    yield os.path.relpath(path, MODULES), file.read()


def functions(tree: ast.AST) -> Iterator[Function]:
    """All functions of a module."""
    for node in ast.walk(tree):
        if isinstance(node, (ast.FunctionDef, ast.AsyncFunctionDef)):
            yield node


def imports_of(name: str, text: str, among: Iterable[str]) -> Iterator[str]:
    """The modules that one imports, at its head, for its types or where it uses them."""
    folder = name.split(".")[:-1]
    for node in ast.walk(ast.parse(text)):
        if isinstance(node, ast.ImportFrom) and node.level:
            above = folder[: len(folder) - node.level + 1]
            of = ".".join(above + ([node.module] if node.module else []))
            names = {".".join(filter(None, (of, one.name))) for one in node.names}
            yield from (names | {of}) & set(among)


def lines_of_texts(tree: ast.Module) -> Set[int]:
    """The lines of texts of several lines that are no comments: a style sheet, a page."""
    return {
        at
        for outer in ast.walk(tree)
        for node in ast.iter_child_nodes(outer)
        if isinstance(node, ast.Constant) and not isinstance(outer, ast.Expr)
        for at in range(node.lineno, (node.end_lineno or 0) + 1)
        if node.lineno != node.end_lineno
    }


def set_outside(tree: ast.AST) -> Iterator[ast.Attribute]:
    """The attributes that are set of another object than `self`."""
    for node in ast.walk(tree):
        if isinstance(node, ast.Attribute) and isinstance(node.ctx, ast.Store):
            if not isinstance(node.value, ast.Name) or node.value.id != "self":
                yield node


def reach_of(node: ast.AST) -> int:
    """How many objects lie between a name and what is reached by it."""
    return 1 + reach_of(node.value) if isinstance(node, ast.Attribute) else 0


class House(unittest.TestCase):
    """One test for each rule, with a line for each place that breaks it."""

    def test_functions(self) -> None:
        """Typed, short, with few parameters, and with a text where they are public."""
        wrong = []
        for name, text in modules():
            tree = ast.parse(text)
            inner = {
                node for outer in functions(tree) for node in functions(outer) if node is not outer
            }
            for function in functions(tree):
                place = "%s: %d: %s" % (name, function.lineno, function.name)
                given = function.args
                every = given.posonlyargs + given.args + given.kwonlyargs
                typed = [one for one in every if one.arg not in ("self", "cls")]
                if function.returns is None or any(one.annotation is None for one in typed):
                    wrong.append(place + " is not typed")
                if sum(isinstance(node, ast.stmt) for node in ast.walk(function)) > MOST_STATEMENTS:
                    wrong.append(place + " is too long")
                if len(typed) > MOST_PARAMETERS:
                    wrong.append(place + " has too many parameters")
                if (
                    not function.name.startswith("_")
                    and function not in inner
                    and not ast.get_docstring(function)
                    and len(function.body) > 1
                ):
                    wrong.append(place + " has no text")
        self.assertEqual(wrong, [])

    def test_modules(self) -> None:
        """Short enough, with a text, and of the standard library alone, each part of which that may
        be imported is."""
        wrong, imported = [], set()
        for name, text in modules():
            tree = ast.parse(text, feature_version=(3, 8))
            lines = text.split("\n")
            wrong += ["%s has %d lines" % (name, len(lines))] if len(lines) > MOST_LINES else []
            wrong += ["%s has no text" % name] if not ast.get_docstring(tree) else []
            apart = lines_of_texts(tree)
            wrong += [
                "%s: %d: %d columns" % (name, at, len(line))
                for at, line in enumerate(lines, 1)
                if len(line) > MOST_COLUMNS and at not in apart
            ]
            wrong += [
                "%s: %d: %s" % (name, at, line)
                for at, line in enumerate(lines, 1)
                if line != line.rstrip()
            ]
            for node in ast.walk(tree):
                names = (
                    [one.name for one in node.names]
                    if isinstance(node, ast.Import)
                    else (
                        [node.module or ""]
                        if isinstance(node, ast.ImportFrom) and node.level == 0
                        else []
                    )
                )
                imported |= {one.split(".")[0] for one in names}
                if isinstance(node, ast.ClassDef) and not ast.get_docstring(node):
                    wrong.append("%s: %d: %s has no text" % (name, node.lineno, node.name))
        self.assertEqual(wrong, [])
        self.assertEqual(sorted(imported), sorted(MAY_IMPORT))

    def test_outside(self) -> None:
        """What an object has is set by itself: nowhere else, but for so many places in a few
        packages."""
        found: Dict[str, int] = {}
        for name, text in modules():
            part = name.split(os.sep)[0]
            found[part] = found.get(part, 0) + sum(1 for _ in set_outside(ast.parse(text)))
        wrong = {part: count for part, count in found.items() if count > OUTSIDE.get(part, 0)}
        self.assertEqual(wrong, {})

    def test_arrows(self) -> None:
        """Imports go one way, those of types with them: no module and no package leads back to
        itself."""
        texts = {name[: -len(".py")].replace("/", "."): text for name, text in modules()}
        arrows = {name: set(imports_of(name, text, texts)) for name, text in texts.items()}
        packages: Dict[str, Set[str]] = {}
        for name, others in arrows.items():
            of = packages.setdefault(name.rpartition(".")[0] or name, set())
            of |= {other.rpartition(".")[0] or other for other in others}
        for graph in (arrows, {name: others - {name} for name, others in packages.items()}):
            with self.subTest(graph):
                left = dict(graph)
                while any(not others & left.keys() for others in left.values()):
                    left = {name: others for name, others in left.items() if others & left.keys()}
                self.assertEqual(sorted(left), [])

    def test_reach(self) -> None:
        """Nobody reaches for something through many others."""
        far = [
            "%s: %d" % (name, node.lineno)
            for name, text in modules()
            for node in ast.walk(ast.parse(text))
            if reach_of(node) > MOST_REACH
        ]
        self.assertEqual(far, [])

    def test_statuses(self) -> None:
        """What ends the program has a name (telling/status.py)."""
        ends = ("Stop", "stop", "stopped", "collect")
        wrong = [
            "%s: %d" % (name, node.lineno)
            for name, text in modules()
            for node in ast.walk(ast.parse(text))
            if isinstance(node, ast.Call)
            and getattr(node.func, "id", getattr(node.func, "attr", "")) in ends
            and node.args
            and isinstance(node.args[0], ast.Constant)
        ]
        self.assertEqual(wrong, [])

    def test_page(self) -> None:
        """Each method that docs/DRIVER.md names is there."""
        with open(
            os.path.join(os.path.dirname(DRIVER), "docs", "DRIVER.md"), encoding="utf-8"
        ) as file:
            named = re.findall("`([A-Z][A-Za-z]*[a-z])[.]([a-z_]+)`", file.read())
        there = {
            (node.name, item.name)
            for _, text in modules()
            for node in ast.walk(ast.parse(text))
            if isinstance(node, ast.ClassDef)
            for item in functions(node)
        }
        self.assertGreater(len(named), 5)
        self.assertEqual([pair for pair in named if pair not in there], [])

    def test_removal(self) -> None:
        """One module alone removes folders, or changes modes."""
        wrong = []
        for name, text in modules():
            for node in ast.walk(ast.parse(text)):
                if isinstance(node, ast.Attribute) and node.attr in REMOVES:
                    wrong += ["%s: %d: %s" % (name, node.lineno, node.attr)]
        self.assertEqual([one for one in wrong if not one.startswith("host/trees.py")], [])

    def test_no_print(self) -> None:
        """What is told goes in one piece, and past no buffer: nothing prints, evaluates or starts a
        thread."""
        wrong = []
        for name, text in modules():
            for node in ast.walk(ast.parse(text)):
                if (
                    isinstance(node, ast.Call)
                    and isinstance(node.func, ast.Name)
                    and node.func.id in ("print", "eval", "exec", "input")
                ):
                    wrong.append("%s: %d: %s" % (name, node.lineno, node.func.id))
                if isinstance(node, ast.Attribute) and node.attr in ("Thread", "system"):
                    wrong.append("%s: %d: %s" % (name, node.lineno, node.attr))
        self.assertEqual(wrong, [])


if __name__ == "__main__":
    unittest.main()
