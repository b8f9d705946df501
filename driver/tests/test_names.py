"""Whether each attribute that is taken of one of the driver's own classes is there, as far as
annotations tell the class, and each call of one of its functions and classes has words that it
takes. mypy says more, where it is at hand; this needs nothing."""
from __future__ import annotations

import ast
import os
import unittest
from typing import Any, Dict, Iterator, List, Optional, Set, Tuple, Union

SHORT_TESTS = True

MODULES = os.path.join(os.path.dirname(os.path.dirname(os.path.abspath(__file__))), "git_farmdawn")
Function = Union[ast.FunctionDef, ast.AsyncFunctionDef]
FREE = {"NamedTuple", "TypedDict", "Protocol"}  # what these bring is not looked at
OF_TUPLE = {"_replace", "_asdict", "_fields", "index", "count"}


def class_of(node: Optional[ast.expr]) -> str:
    """The name of the class that an annotation names; of Optional[X] it is X."""
    if isinstance(node, ast.Constant) and isinstance(node.value, str):
        node = ast.parse(node.value, mode="eval").body
    if (
        isinstance(node, ast.Subscript)
        and isinstance(node.value, ast.Name)
        and node.value.id == "Optional"
    ):
        inner: Any = node.slice
        return class_of(
            inner.value if type(inner).__name__ == "Index" else inner
        )  # Python 3.8 has an Index there
    return node.id if isinstance(node, ast.Name) else ""


class Class:
    """What a class has."""

    def __init__(self, node: ast.ClassDef) -> None:
        self.node, self.name = node, node.name
        self.bases = [base.id for base in node.bases if isinstance(base, ast.Name)]
        self.attributes: Set[str] = set()
        self.types: Dict[str, str] = {}
        for item in node.body:
            if isinstance(item, (ast.FunctionDef, ast.AsyncFunctionDef)):
                self.attributes.add(item.name)
                if any(
                    isinstance(mark, ast.Name) and mark.id == "property"
                    for mark in item.decorator_list
                ):
                    self.types[item.name] = class_of(item.returns)
                self.look_into(item)
            elif isinstance(item, ast.AnnAssign) and isinstance(item.target, ast.Name):
                self.note(item.target.id, class_of(item.annotation))
            elif isinstance(item, ast.Assign):
                self.attributes |= {
                    target.id for target in item.targets if isinstance(target, ast.Name)
                }

    def note(self, name: str, kind: str) -> None:
        """An attribute, and its class where it is known."""
        self.attributes |= {name} if name else set()
        if name and kind:
            self.types.setdefault(name, kind)

    def look_into(self, function: Function) -> None:
        """The attributes that a method gives its object."""
        kinds = parameters(function)
        for node in ast.walk(function):
            if isinstance(node, ast.AnnAssign):
                self.note(of_self(node.target), class_of(node.annotation))
            for target, value in pairs(node):
                kind = kinds.get(value.id, "") if isinstance(value, ast.Name) else ""
                if isinstance(value, ast.Call) and isinstance(value.func, ast.Name):
                    kind = value.func.id
                self.note(of_self(target), kind)


def of_self(node: ast.expr) -> str:
    """The name of an attribute of the object itself; empty where this is something else."""
    return (
        node.attr
        if isinstance(node, ast.Attribute)
        and isinstance(node.value, ast.Name)
        and node.value.id == "self"
        else ""
    )


def pairs(node: ast.AST) -> Iterator[Tuple[ast.expr, Optional[ast.expr]]]:
    """The targets of an assignment with their values."""
    if isinstance(node, (ast.Assign, ast.AugAssign)):
        for target in node.targets if isinstance(node, ast.Assign) else [node.target]:
            if isinstance(target, ast.Tuple):
                values: List[Optional[ast.expr]] = [None] * len(target.elts)
                if isinstance(node.value, ast.Tuple) and len(node.value.elts) == len(target.elts):
                    values = list(node.value.elts)
                yield from zip(target.elts, values)
            else:
                yield target, node.value
    elif isinstance(node, (ast.For, ast.comprehension)):
        yield node.target, None


def parameters(function: Function) -> Dict[str, str]:
    """The classes of the parameters."""
    every = function.args.posonlyargs + function.args.args + function.args.kwonlyargs
    return {one.arg: class_of(one.annotation) for one in every}


class Package:
    """All classes and functions."""

    def __init__(self) -> None:
        self.trees: Dict[str, ast.Module] = {}
        self.classes: Dict[str, List[Class]] = {}
        for folder, _, names in sorted(os.walk(MODULES)):
            for name in sorted(name for name in names if name.endswith(".py")):
                path = os.path.join(folder, name)
                with open(path, encoding="utf-8") as file:
                    self.trees[os.path.relpath(path, MODULES)] = ast.parse(file.read())
        for tree in self.trees.values():
            for node in ast.walk(tree):
                if isinstance(node, ast.ClassDef):
                    self.classes.setdefault(node.name, []).append(Class(node))

    def known(self, name: str) -> Optional[Class]:
        """The class of a name that only one has, all of whose bases are known."""
        found = self.classes.get(name, [])
        if len(found) != 1 or any(
            base not in FREE and self.known(base) is None for base in found[0].bases
        ):
            return None
        return found[0]

    def has(self, one: Class, attribute: str) -> bool:
        """Whether a class or one of its bases has it."""
        if attribute in one.attributes or attribute.startswith("__") or "TypedDict" in one.bases:
            return True
        if "NamedTuple" in one.bases and attribute in OF_TUPLE:
            return True
        return any(self.has(base, attribute) for base in map(self.known, one.bases) if base)

    def type_of(self, one: Class, attribute: str) -> str:
        """The class of an attribute, where it is known."""
        found = one.types.get(attribute, "")
        return found or next(
            (
                kind
                for kind in (
                    self.type_of(base, attribute) for base in map(self.known, one.bases) if base
                )
                if kind
            ),
            "",
        )

    def resolve(self, node: ast.expr, kinds: Dict[str, str]) -> Optional[Class]:
        """The class of an expression."""
        if isinstance(node, ast.Name):
            return self.known(kinds.get(node.id, ""))
        if isinstance(node, ast.Attribute):
            outer = self.resolve(node.value, kinds)
            return self.known(self.type_of(outer, node.attr)) if outer else None
        return None


def functions_of(tree: ast.Module) -> Iterator[Tuple[Function, str]]:
    """Each function with the class that it is of."""
    for node in ast.walk(tree):
        for item in ast.iter_child_nodes(node):
            if isinstance(item, (ast.FunctionDef, ast.AsyncFunctionDef)):
                yield item, node.name if isinstance(node, ast.ClassDef) else ""


def reassigned(function: Function) -> Set[str]:
    """Names that a function gives another value."""
    return {
        target.id
        for node in ast.walk(function)
        for target, _ in pairs(node)
        if isinstance(target, ast.Name)
    }


class Names(unittest.TestCase):
    """Attributes and calls."""

    def test_attributes(self) -> None:
        """Each is one of its class."""
        package, wrong, looked = Package(), [], 0
        for module, tree in package.trees.items():
            for function, owner in functions_of(tree):
                kinds = parameters(function)
                kinds["self"] = owner
                for name in reassigned(function):
                    kinds.pop(name, None)
                for node in ast.walk(function):
                    if not isinstance(node, ast.Attribute):
                        continue
                    one = package.resolve(node.value, kinds)
                    looked += one is not None
                    if one is not None and not package.has(one, node.attr):
                        wrong.append(
                            "%s: %d: %s has no %s" % (module, node.lineno, one.name, node.attr)
                        )
        self.assertEqual(wrong, [])
        self.assertGreater(looked, 1000)

    def test_calls(self) -> None:
        """Each has as many words as its function takes."""
        package, wrong, looked = Package(), [], 0
        for module, tree in package.trees.items():
            for function, owner in functions_of(tree):
                kinds = parameters(function)
                kinds["self"] = owner
                for name in reassigned(function):
                    kinds.pop(name, None)
                for node in ast.walk(function):
                    called = (
                        self.called(package, node, kinds) if isinstance(node, ast.Call) else None
                    )
                    if called is None or not isinstance(node, ast.Call):
                        continue
                    looked += 1
                    least, most, names = self.takes(called)
                    given = len(node.args) + len([word for word in node.keywords if word.arg])
                    starred = any(isinstance(word, ast.Starred) for word in node.args) or any(
                        word.arg is None for word in node.keywords
                    )
                    if (
                        not starred
                        and not least <= given <= most
                        or any(
                            word.arg and word.arg not in names and most < 99
                            for word in node.keywords
                        )
                    ):
                        wrong.append(
                            "%s: %d: %s takes %d to %d words, and gets %d"
                            % (module, node.lineno, called.name, least, most, given)
                        )
        self.assertEqual(wrong, [])
        self.assertGreater(looked, 300)

    @staticmethod
    def called(package: Package, node: ast.Call, kinds: Dict[str, str]) -> Optional[Function]:
        """The function that a call means: a method, or the begin of an object."""
        if isinstance(node.func, ast.Attribute):
            one, name = package.resolve(node.func.value, kinds), node.func.attr
        elif isinstance(node.func, ast.Name):
            one, name = package.known(node.func.id), "__init__"
        else:
            return None
        while one is not None:
            found = next(
                (
                    item
                    for item in one.node.body
                    if isinstance(item, ast.FunctionDef) and item.name == name
                ),
                None,
            )
            if found is not None or len(one.bases) != 1:
                return found
            one = package.known(one.bases[0])
        return None

    @staticmethod
    def takes(function: Function) -> Tuple[int, int, Set[str]]:
        """The least and the most words of a method, and their names."""
        given = function.args
        names = [one.arg for one in given.posonlyargs + given.args + given.kwonlyargs]
        static = any(
            isinstance(mark, ast.Name) and mark.id == "staticmethod"
            for mark in function.decorator_list
        )
        names = names if static else names[1:]
        defaults = len(given.defaults) + len([one for one in given.kw_defaults if one is not None])
        return len(names) - defaults, 99 if given.vararg or given.kwarg else len(names), set(names)


if __name__ == "__main__":
    unittest.main()
