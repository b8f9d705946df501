"""What the git folder of each checkout begins with: the user's configuration, refs, hooks and the
like, as they are when the search begins. It is read once, so what he does meanwhile changes
nothing. His objects are not copied: a file names their folders."""
from __future__ import annotations

import hashlib
import os
import stat
from typing import Dict, Iterator, List, NamedTuple, Optional, Tuple

from ..host.files import content
from ..telling.status import Status
from ..telling.voice import Stop
from .refs import list_refs, read_refs
from .repository import ABSOLUTE, COPIED, FILES, FORMAT, PATHS, Repository

# what says where a repository is, and how it is stored: that is said anew for each checkout
PLACES = (
    "core.worktree",
    "core.bare",
    "core.repositoryformatversion",
    "core.fsmonitor",
    "core.splitindex",
    "extensions.worktreeconfig",
    "extensions.refstorage",
    "extensions.relativeworktrees",
    "lfs.storage",  # `git lfs prune` of a test would remove the user's files; git finds them anyway
)
ALTERNATES = "objects/info/alternates"
LARGEST_HOOK = 1 << 20
Pair = Tuple[str, Optional[str]]  # a name alone has no value, and is true


class Stored(NamedTuple):
    """A file of a git folder."""

    text: bytes
    mode: int = 0o644


Files = Dict[str, Stored]


def pair_of(row: bytes) -> Pair:
    """The name and the value that a row of `git config --list -z` has."""
    name, sign, value = row.partition(b"\n")
    return os.fsdecode(name), os.fsdecode(value) if sign else None


def escaped(text: str) -> str:
    """A value, or the middle of a name, as a file of configuration has it between quotes."""
    for sign, code in ("\\", "\\\\"), ('"', '\\"'), ("\n", "\\n"), ("\t", "\\t"), ("\b", "\\b"):
        text = text.replace(sign, code)
    return text


def written(pairs: List[Pair]) -> bytes:
    """A file of configuration with these."""
    lines = []
    for name, value in pairs:
        section, _, rest = name.partition(".")
        middle, dot, key = rest.rpartition(".")
        head = f'{section} "{escaped(middle)}"' if dot else section
        said = "" if value is None else f' = "{escaped(value)}"'
        lines.append(f"[{head}]\n\t{key}{said}\n")
    return os.fsencode("".join(lines))


def rows_of(said: bytes) -> List[Tuple[bytes, bytes]]:
    """The scopes and rows that `git config --list -z --show-scope` prints."""
    words = said.split(b"\0")
    return list(zip(words[::2], words[1::2]))


class Original:
    """The files of a git folder by their paths below it. `own` is the git folder of the user's work
    tree, or of one of his submodules; `modules` has the same for the submodules that he has."""

    def __init__(self, repo: Repository, own: str = "", modules: bool = False) -> None:
        self.repo, self.own, self.is_module = repo, own or repo.own_gitdir, bool(own)
        self.format, self.found = repo.format, repo.files
        if self.is_module:
            said = self.ask("rev-parse", ABSOLUTE, *FILES, FORMAT)
            *rows, self.format = os.fsdecode(said).split("\n")[:-1]
            self.found = dict(zip(PATHS, rows))
        self.objects = os.path.realpath(self.found["objects"])
        self.files: Files = {}
        self.modules: Dict[str, Original] = {}
        self.stores = list(dict.fromkeys(self.list_stores()))
        self.add_configuration()
        self.add_refs()
        self.add_files()
        self.head = b""
        self.has_modules = modules
        self.upstream = self.find_upstream() if modules else ""
        if modules or self.is_module:
            self.head = self.ask("rev-parse", "-q", "--verify", "HEAD", check=False)
            self.head = self.head or b"0" * (64 if self.format == "sha256" else 40) + b"\n"
            self.add_modules()

    def ask(self, *words: str, check: bool = True, input: Optional[bytes] = None) -> bytes:
        """What git says of the original."""
        if not self.is_module:
            return self.repo.run(*words, check=check, input=input)
        return self.repo.run(
            "--git-dir=" + self.own, *words, check=check, input=input, env=self.repo.checkout_env
        )

    # -- objects -----------------------------------------------------------------

    def list_stores(self) -> Iterator[str]:
        """The folders of objects. All stand in one list, as git follows such lists five deep."""
        given = (
            "" if self.is_module else self.repo.user_env.get("GIT_ALTERNATE_OBJECT_DIRECTORIES", "")
        )
        todo = [self.objects, *filter(None, given.split(os.pathsep))]
        seen = set()
        while todo:
            path = os.path.realpath(todo.pop(0))
            if path in seen or not os.path.isdir(path):
                continue
            seen.add(path)
            yield path
            for line in content(path + "/info/alternates").split(b"\n"):
                if line and not line.startswith(b"#"):
                    todo.append(os.path.join(path, os.fsdecode(line)))

    # -- the configuration ---------------------------------------------------------

    def add_configuration(self) -> None:
        """What is set for this repository alone, with what that includes."""
        rows = rows_of(self.ask("config", "--list", "-z", "--show-scope", "--includes"))
        for scope, row in rows:
            if scope == b"command" and pair_of(row)[0] in ("core.worktree", "core.bare"):
                raise Stop(
                    Status.REFUSED,
                    f"git -c {pair_of(row)[0]} is not for a search; nothing was tested",
                )
        pairs = [*self.conditional(rows)]
        pairs += [pair_of(row) for scope, row in rows if scope in (b"local", b"worktree")]
        kept = [
            (name, self.placed(name, value))
            for name, value in pairs
            if name not in PLACES and not name.startswith(("include.", "includeif."))
        ]
        extended = any(name.startswith("extensions.") for name, _ in kept)
        first: List[Pair] = [
            ("core.repositoryformatversion", "01"[extended]),
            ("core.bare", "false"),
        ]
        path = self.found["config"]
        mode = stat.S_IMODE(os.stat(path).st_mode) if os.path.exists(path) else 0o644
        self.files["config"] = Stored(written(first + kept), mode)
        self.keeps_files = all(
            value == "files" for name, value in pairs if name == "extensions.refstorage"
        )
        self.known = dict(kept)
        self.is_partial = any(
            name == "extensions.partialclone" or name.endswith(".promisor") for name, _ in kept
        )

    def conditional(self, rows: List[Tuple[bytes, bytes]]) -> Iterator[Pair]:
        """What the user's own files of configuration include for this repository alone, by its
        place: `includeIf "gitdir:..."`."""
        if not any(row.startswith(b"includeif.") for _, row in rows):
            return
        plain = ("config", "--list", "-z", "--show-scope", "--includes")
        always = rows_of(self.repo.run(*plain, cwd="/", check=False, env=self.repo.checkout_env))
        for scope, row in rows:
            if scope in (b"global", b"system"):
                if (scope, row) in always:
                    always.remove((scope, row))
                else:
                    yield pair_of(row)

    def placed(self, name: str, value: Optional[str]) -> Optional[str]:
        """A value that names the same from a checkout: where another repository is, is said from
        the work tree on."""
        if name.startswith("remote.") and name.endswith(("url", "pushurl")) and self.repo.top:
            if value and value.startswith(("./", "../")) and not self.is_module:
                return os.path.normpath(os.path.join(self.repo.top, value))
        return value

    def find_upstream(self) -> str:
        """From where relative addresses of submodules lead in the user's work tree, where `origin`
        does not say so: from the remote of his branch, from the only one that he has, or from the
        repository itself."""
        known, origin = self.known, "remote.origin.url"
        branch = os.fsdecode(self.ask("symbolic-ref", "-q", "--short", "HEAD", check=False)).strip()
        remotes = [name for name in known if name.startswith("remote.") and name.endswith(".url")]
        named = [f"remote.{known.get(f'branch.{branch}.remote')}.url", origin]
        named += remotes if len(remotes) == 1 else []
        chosen = next((name for name in named if known.get(name)), "")
        return "" if chosen == origin else known.get(chosen) or self.repo.top or self.repo.gitdir

    # -- refs, and other files -------------------------------------------------------

    def add_refs(self) -> None:
        """All refs as one file, as git itself writes it; symbolic ones each as its file."""
        if self.keeps_files:
            refs = read_refs(self.found["refs"], self.found["packed-refs"], self.ask)
        else:
            refs = list_refs(self.ask)
        self.files["packed-refs"] = Stored(refs.packed)
        base = os.fsencode(self.repo.env.get("GIT_REPLACE_REF_BASE", "refs/replace/"))
        self.has_replaced = b" " + base in refs.packed
        for name, leads in refs.symbolic.items():
            self.files[os.fsdecode(name)] = Stored(b"ref: " + leads + b"\n")

    def add_files(self) -> None:
        """What else turns how commits are checked out, and the hooks: for commands of a test, as
        ours are run without."""
        self.files[ALTERNATES] = Stored(os.fsencode("".join(path + "\n" for path in self.stores)))
        for name in COPIED:
            if os.path.isfile(self.found[name]):
                self.files[name] = Stored(content(self.found[name]))
        folder = os.path.join(self.own if self.is_module else self.repo.gitdir, "hooks")
        for name in os.listdir(folder) if os.path.isdir(folder) else ():
            path = os.path.join(folder, name)
            if name.endswith(".sample") or not os.path.isfile(path):
                continue
            if os.path.getsize(path) < LARGEST_HOOK:
                mode = stat.S_IMODE(os.stat(path).st_mode)
                self.files["hooks/" + name] = Stored(content(path), mode)

    def add_modules(self) -> None:
        """The same for the submodules that the user has; in a linked work tree those of the first
        one stand in."""
        bases = [self.own] if self.is_module else [self.own, self.repo.gitdir]
        for base in dict.fromkeys(bases):
            for folder, names, found in os.walk(base + "/modules"):
                name = os.path.relpath(folder, base + "/modules")
                if "HEAD" in found and "objects" in names:
                    names[:] = []
                    if name not in self.modules:
                        self.modules[name] = Original(self.repo, folder)

    # -- what is made of it ------------------------------------------------------------

    def sign(self) -> str:
        """What changes where something does that turns how commits are checked out."""
        summed = hashlib.sha256()
        for name, (text, _) in sorted(self.files.items()):
            if name == "config" or name.startswith("info/"):
                summed.update(b"%s %d\n%s" % (os.fsencode(name), len(text), text))
        rows = [f"{name} {module.sign()}" for name, module in sorted(self.modules.items())]
        return "\n".join([summed.hexdigest(), *rows])
