"""The files that a line names: those of the command, of --copy, --link and --path; and what leads a
test back into the work tree.

A test runs in a checkout, where a relative path names another file than where the line was given,
or none. So of each word it is asked whether it names a file, and what that is: one that git has is
the commit's own, one that it has not is brought into each checkout, one elsewhere gets its full
name. The content of the last two is part of the test: outcomes are kept apart by it. A test that
imports the work tree by a full path, as with `pip install -e`, would be the same in each checkout:
that cannot be mended here, and is told."""
from __future__ import annotations

import os
import re
from typing import TYPE_CHECKING, Dict, Iterator, List, Mapping, Optional, Set, Tuple

from ..telling.status import Status
from ..telling.voice import Stop, counted
from .versions import Own, Patch, own_of, patch_of

if TYPE_CHECKING:
    from ..repository.repository import Repository
    from ..telling.voice import Telling

TOP = ":(top,literal)"
# what stands between the parts of a word that is a line of sh, or a test in a file; and what a line
# of sh writes
BETWEEN = re.compile(r"[\s'\"`;&|<>(){}$=,:]+")
WRITTEN = re.compile(r">\s*([^\s'\"`;&|<>(){}$]+)")
# programs of the system are taken to be the same on all machines
SYSTEM = ("/usr/bin/", "/bin/", "/usr/sbin/", "/sbin/")


def full_path(path: str) -> str:
    """The full name of a path, with no link in its folders."""
    folder, last = os.path.split(path)
    return os.path.join(os.path.realpath(folder or "."), last)


def quote(word: str) -> str:
    """A word in the quotes of the log."""
    return "'" + word.replace("'", "'\\''") + "'"


class NamedFiles:
    """Says what a word of the line names, and gathers what checkouts are to get."""

    def __init__(self, repo: Repository, voice: Telling) -> None:
        self.repo, self.voice = repo, voice
        self.ends: List[str] = []
        self.copies: List[str] = []  # below the top of the work tree, by --copy
        self.brought: List[str] = []  # these, and what a command names
        self.links: List[str] = []  # by --link
        self.outside: List[str] = []  # full names
        self.named: List[str] = []  # all that words name by full paths
        self.owns: List[Own] = []  # by --with
        self.patches: List[Patch] = []  # by --apply
        self.paths: List[str] = []  # pathspecs
        self.changed: Set[str] = set()  # tracked files whose changes were told
        self.looked: Set[str] = set()  # the parts of words that were looked at
        self.leads: Set[str] = set()  # paths in the work tree of which it was told what leads there

    # -- what is brought, and --path -----------------------------------------------

    def add_copy(self, word: str) -> None:
        """A file or folder of the work tree that each checkout gets where it lacks it."""
        path = self.below_top("--copy", word)
        self.copies.append(path)
        self.brought.append(path)

    def add_link(self, word: str) -> None:
        """A file or folder of the work tree that git does not have. Each checkout gets a link to it
        where it lacks it."""
        path = self.below_top("--link", word)
        if self.repo.is_tracked(word):
            raise Stop(
                Status.REFUSED,
                "git has %s; --link is for what it does not have, and --with brings yours" % word,
            )
        if path not in self.links:
            self.links.append(path)

    def check_links(self) -> None:
        """What is behind a link is not brought in another way, too."""
        others = [*self.copies, *(path for own in self.owns for path in own.files)]
        for at, link in enumerate(self.links):
            for other in others + self.links[at + 1 :]:
                if is_below(other, link) or is_below(link, other):
                    raise Stop(
                        Status.REFUSED,
                        "--link %s: %s cannot be brought, too, as one is in the other"
                        % (link, other),
                    )

    def is_linked(self, path: str) -> bool:
        """Whether a path is one of --link, or behind it."""
        return any(is_below(path, link) for link in self.links)

    def add_own(self, word: str) -> None:
        """A file or folder of the work tree that stands in place of the commit's. Its changes are
        tested."""
        own = own_of(self.repo, word, self.below_top("--with", word))
        self.owns.append(own)
        names = self.repo.text(
            *("--literal-pathspecs", "diff", "--name-only", "-z", "HEAD", "--", word), check=False
        )
        self.changed |= {name for name in names.split("\0") if name}

    def add_patch(self, word: str) -> None:
        """A patch that is brought before the build."""
        self.patches.append(patch_of(self.repo, word))

    def below_top(self, option: str, word: str) -> str:
        """The path from the top of the work tree on of a file or folder there."""
        top = self.repo.top
        if not top:
            raise Stop(Status.REFUSED, option + " wants a work tree")
        if not os.path.exists(word):
            raise Stop(Status.REFUSED, word + ": no such file")
        path = os.path.normpath(full_path(word.rstrip("/") if word.strip("/") else word))
        if "\n" in path:
            raise Stop(Status.REFUSED, word + ": a path with a line break cannot be brought")
        if path == top:
            raise Stop(Status.REFUSED, word + " is the work tree itself")
        if not path.startswith(top + "/"):
            raise Stop(Status.REFUSED, word + " is outside the work tree")
        if (path + "/").startswith(top + "/.git/"):
            raise Stop(Status.REFUSED, word + " is git's own; each checkout has another one")
        return path[len(top) + 1 :]

    def is_own(self, path: str) -> bool:
        """Whether a file is one of --with."""
        return any(path in own.files for own in self.owns)

    def add_path(self, option: str, word: str) -> str:
        """A path from the folder where the user stands; gives what the log has of it."""
        if not word:
            raise Stop(Status.REFUSED, option + " wants a path; . is the folder where you stand")
        if "\n" in word:
            raise Stop(
                Status.REFUSED,
                "%s %s: a path with a line break cannot be searched by" % (option, word),
            )
        path = self.from_top(option, word)
        parts: List[str] = []
        for part in path.split("/"):
            if part == "..":
                if not parts:
                    raise Stop(Status.REFUSED, "%s %s is outside the work tree" % (option, word))
                parts.pop()
            elif part not in ("", "."):
                parts.append(part)
        return self.add_path_from_top("/".join(parts))

    def from_top(self, option: str, word: str) -> str:
        """The same path from the top of the work tree on."""
        top = self.repo.top
        if not word.startswith("/"):
            return self.repo.prefix + word
        for path in (word, full_path(word)):
            if top and (path + "/").startswith(top + "/"):
                return path[len(top) :]
        raise Stop(Status.REFUSED, "%s %s is outside the work tree" % (option, word))

    def add_path_from_top(self, path: str) -> str:
        """A path whose signs stand for themselves; gives what the log has of it."""
        self.paths.append(TOP + path)
        plain = path and not path.startswith(":") and not re.search(r"[*?[\\]", path)
        return quote(path if plain else TOP + path)

    def check_paths(self) -> None:
        """Each path must be one that a commit has, now or earlier."""
        for path in self.paths:
            below = path[len(TOP) :]
            if any(self.repo.succeeds("cat-file", "-e", end + ":" + below) for end in self.ends):
                continue
            if not self.repo.text(
                "rev-list", "-1", "--full-history", *self.ends, "--", path, check=False
            ):
                raise Stop(Status.REFUSED, "--path %s: no commit has this path" % below)

    # -- the words of a command --------------------------------------------------

    def settle(self, word: str) -> str:
        """A word that names a file of the work tree stays as it is, and where git does not have the
        file, it is brought into each checkout that lacks it; one that names a file outside gets its
        full name."""
        if not word or "\0" in word:
            return word
        if word.startswith(("-", "/")) or not os.path.isfile(word):
            self.look_inside(word)
            if word.startswith("/") and os.path.isfile(word):
                self.outside.append(word)
            if self.repo.top and os.path.isdir(word) and not word.startswith(("-", "/")):
                self.look_at_folder(word)
            return word
        if not self.repo.top:
            return word
        path = full_path(word)
        if "\n" in path:
            raise Stop(Status.REFUSED, word + ": the path of this file has a line break")
        if not path.startswith(self.repo.top + "/"):
            self.outside.append(path)
            return path
        if self.is_linked(path[len(self.repo.top) + 1 :]):
            return word
        if venv_of(path) and not self.repo.is_tracked(word):
            self.voice.tell(
                "%s is of a virtual environment in the work tree; it is run by its full name" % word
            )
            return path
        self.look_at_file(word, path[len(self.repo.top) + 1 :])
        return word

    def look_inside(self, word: str) -> None:
        """What a word names that is no file of the work tree by itself: a line of sh, an option, or
        a test in a file. Of that nothing is brought; it is told."""
        written = set(WRITTEN.findall(word))
        for part in BETWEEN.split(word):
            if not part or part in self.looked or part in written:
                continue
            self.looked.add(part)
            if part.startswith("/"):
                self.look_at_full_path(part)
            elif self.repo.top and not part.startswith("-") and is_script(part):
                path = full_path(part)
                if path.startswith(self.repo.top + "/") and "\n" not in path:
                    self.look_at_file(part, path[len(self.repo.top) + 1 :], brings=False)

    def look_at_full_path(self, part: str) -> None:
        """A full path is the same for all commits: what git has in the work tree is told."""
        top, path = self.repo.top, os.path.normpath(part)
        self.named.append(path)
        if top and (path == top or path.startswith(top + "/") and self.repo.is_tracked(path)):
            self.voice.say(
                "%s is in the work tree: each checkout would test that, and not the commit's own;"
                " name it from the folder where you stand" % part
            )

    def look_at_file(self, word: str, path: str, brings: bool = True) -> None:
        """A file of the work tree: the commits have it, or each checkout gets a copy, where the
        word names nothing else."""
        if self.is_own(path) or self.is_linked(path):
            return
        if self.repo.is_tracked(word):
            if not self.repo.succeeds("--literal-pathspecs", "diff", "--quiet", "HEAD", "--", word):
                self.changed.add(path)
                self.voice.tell(
                    "%s has changes that are not committed; checkouts have their own version of it;"
                    " --with %s brings yours" % (word, word)
                )
        elif self.is_in_history(path):
            self.voice.tell(
                "%s is not tracked now, but some of the commits have it; it is not copied without"
                " --copy" % word
            )
        elif path in self.brought:
            return
        elif brings:
            self.voice.tell("%s is not tracked; each checkout gets a copy of it" % word)
            self.brought.append(path)
        elif not self.repo.succeeds("check-ignore", "-q", "--", word):
            self.voice.say(
                "%s is not tracked, and no checkout has it; --copy %s brings it" % (word, word)
            )

    def look_at_folder(self, word: str) -> None:
        """A folder that git has nothing of is in no checkout. One that git ignores is what builds
        make anew."""
        path = os.path.realpath(word)
        below = path[len(self.repo.top) + 1 :]
        is_brought = below in self.brought or any(own.path == below for own in self.owns)
        is_brought = is_brought or self.is_linked(below)
        if not path.startswith(self.repo.top + "/") or is_brought:
            return
        if self.repo.succeeds(
            "--literal-pathspecs", "ls-files", "--error-unmatch", "--", word
        ) or self.is_in_history(below):
            return
        if not self.repo.succeeds("check-ignore", "-q", "--", word):
            self.voice.tell(
                "the folder %s is not tracked, and no checkout has it; --copy %s brings it, and"
                " --link %s a link to it" % (word, word, word)
            )

    def look_at_shell_words(self, lines: List[str]) -> None:
        """What a line of sh names: each word that is a file is brought, as one of a command is."""
        import shlex

        for line in lines:
            try:
                words = shlex.split(line)
            except ValueError:
                continue
            for word in words:
                self.settle(word)

    def is_in_history(self, path: str) -> bool:
        """Whether one of the commits has a path that git does not have now."""
        if any(self.repo.succeeds("cat-file", "-e", end + ":" + path) for end in self.ends):
            return True
        words = [
            "rev-list",
            "-1",
            self.ends[0],
            "--not",
            *self.ends[1:],
            "--",
            os.path.join(self.repo.top, path),
        ]
        return bool(self.repo.text("--literal-pathspecs", *words, check=False))

    # -- what leads back into the work tree ----------------------------------------

    def look_at_program(self, word: str) -> None:
        """The program of the command: one that is not of the system is part of the test; and what
        it imports may lead into the work tree, so that each checkout would test the same files."""
        found = word if "/" in word else on_path(word)
        if "/" not in word and found and not found.startswith(SYSTEM) and os.path.isfile(found):
            self.outside.append(found)
        if not self.repo.top:
            return
        self.look_at_place_of_program(word, found)
        for name, path in paths_into(self.repo.top, venv_of(found)):
            self.tell_lead(name, path)

    def look_at_links(self) -> None:
        """What leads from behind a link of --link back to files that commits have: an install that
        is a link, or a package of a workspace."""
        for link in self.links:
            folder = os.path.join(self.repo.top, link)
            found = [*installs_into(self.repo.top, [folder]), *links_into(self.repo.top, folder)]
            for name, path in found[:1]:  # the others are of its kind
                self.tell_lead(name, path)

    def tell_lead(self, name: str, path: str) -> None:
        """What leads into the work tree is told, once for each path there."""
        if path not in self.leads:
            self.leads.add(path)
            self.voice.tell(
                "%s leads to %s: what is imported by it is the work tree's in each checkout, and"
                " not the commit's" % (name, path)
            )

    def look_at_place_of_program(self, word: str, found: str) -> None:
        """A program that stands in the work tree and is in no commit."""
        path = os.path.abspath(found) if found else ""
        if (
            not path.startswith(self.repo.top + "/")
            or not os.path.isfile(path)
            or self.repo.is_tracked(path)
        ):
            return
        if "/" not in word:
            self.voice.tell(
                "%s is %s, in the work tree: it is the same for all commits" % (word, path)
            )

    def tell_changes(self) -> None:
        """Changes that are not committed are in no checkout."""
        if not self.repo.top:
            return
        lines = self.repo.text(
            "status", "--porcelain", "--untracked-files=no", "--ignore-submodules=all", check=False
        )
        count = len([line for line in lines.split("\n") if line]) - len(self.changed)
        if count > 0:
            files = counted(count, "other file" if self.changed else "file")
            self.voice.tell("the changes of %s are not committed, and not tested" % files)


def is_script(path: str) -> bool:
    """Whether there is a file, and it is one that a person writes: a program that was built has
    zeros in front."""
    try:
        with open(path, "rb") as file:
            return os.path.isfile(path) and b"\0" not in file.read(1000)
    except (OSError, ValueError):
        return False


def on_path(name: str) -> str:
    """The program of a name that has no slash, or nothing."""
    for folder in os.environ.get("PATH", os.defpath).split(os.pathsep):
        path = os.path.join(folder or ".", name)
        if os.path.isfile(path) and os.access(path, os.X_OK):
            return path
    return ""


# variables that are lists of folders in which languages look for what is imported
SEARCH_PATHS = (
    "PYTHONPATH",
    "PERL5LIB",
    "PERLLIB",
    "RUBYLIB",
    "NODE_PATH",
    "CLASSPATH",
    "LD_LIBRARY_PATH",
    "GOPATH",
    "LUA_PATH",
    "TCLLIBPATH",
    "GUILE_LOAD_PATH",
)
MOST_BYTES = 1 << 20


def is_below(path: str, top: str) -> bool:
    """Whether a path is a folder or one of its files."""
    return path == top or path.startswith(top.rstrip("/") + "/")


def venv_of(program: str) -> str:
    """The virtual environment of Python in which a program stands, or nothing."""
    folder = os.path.dirname(os.path.dirname(os.path.abspath(program))) if program else ""
    return folder if folder and os.path.isfile(os.path.join(folder, "pyvenv.cfg")) else ""


def variables_into(top: str, env: Mapping[str, str]) -> Iterator[Tuple[str, str]]:
    """The variables that lead into a folder, with the path that does."""
    for name in SEARCH_PATHS:
        for path in env.get(name, "").split(os.pathsep):
            if path.startswith("/") and is_below(os.path.realpath(path), top):
                yield name, path


def line_into(path: str, top: str) -> Optional[str]:
    """The path of a folder that a file of a Python environment names, where it leads into it."""
    try:
        with open(path, "rb") as file:
            text = os.fsdecode(file.read(MOST_BYTES))
    except OSError:
        return None
    for line in text.split("\n"):
        line = line.strip()
        if line.startswith("/") and is_below(os.path.realpath(line), top):
            return line
        for sign in ("'", '"'):
            for part in line.split(sign)[1::2] if path.endswith(".py") else []:
                if part.startswith("/") and is_below(part, top):
                    return part
    return None


def is_link_of_python(name: str) -> bool:
    """Whether a file of a Python environment leads elsewhere: pip install -e writes one of them."""
    return (
        name.endswith((".pth", ".egg-link"))
        or name.startswith("__editable__")
        and name.endswith("_finder.py")
    )


def listed(folder: str) -> List[str]:
    """The names in a folder, where there is one."""
    try:
        return sorted(os.listdir(folder))
    except OSError:
        return []


def installs_into(top: str, prefixes: List[str]) -> Iterator[Tuple[str, str]]:
    """The files of Python environments that lead into a folder, as an install that is a link has
    them."""
    for prefix in dict.fromkeys(prefix for prefix in prefixes if prefix):
        for python in listed(prefix + "/lib"):
            folder = "%s/lib/%s/site-packages" % (prefix, python)
            for name in listed(folder) if python.startswith("python") else []:
                path = os.path.join(folder, name)
                found = line_into(path, top) if is_link_of_python(name) else None
                if found:
                    yield path, found


def links_into(top: str, folder: str) -> Iterator[Tuple[str, str]]:
    """The links in a folder, or in a folder of it whose name begins with @, that lead elsewhere in
    the work tree: so do those of npm to the packages of a workspace."""
    within = os.path.realpath(folder)
    for name in listed(folder):
        path = os.path.join(folder, name)
        below = [os.path.join(path, one) for one in listed(path)] if name.startswith("@") else []
        for one in [path, *below]:
            to = os.path.realpath(one) if os.path.islink(one) else within
            if is_below(to, top) and not is_below(to, within) and os.path.exists(to):
                yield one, to


def paths_into(
    top: str, venv: str, env: Optional[Mapping[str, str]] = None
) -> List[Tuple[str, str]]:
    """All that leads into a folder: a variable or a file, and the path; of each folder that is led
    to, the first."""
    env = os.environ if env is None else env
    home = env.get("HOME", "")
    prefixes = [
        venv,
        env.get("VIRTUAL_ENV", ""),
        env.get("CONDA_PREFIX", ""),
        home and home + "/.local",
    ]
    first: Dict[str, str] = {}
    for name, path in list(variables_into(top, env)) + list(installs_into(top, prefixes)):
        first.setdefault(path, name)
    return [(name, path) for path, name in first.items()]
