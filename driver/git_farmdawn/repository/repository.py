"""git: the repository, its names, and environments that lead nowhere else."""
from __future__ import annotations

import os
import re
import subprocess
from typing import Any, Dict, List, Mapping, Optional, Sequence

from ..host.files import content, first_line
from ..telling.status import Status
from ..telling.voice import Stop

# what turns git's commands, and is not a matter of which repository it is
ODD = (
    "GIT_INDEX_FILE",
    "GIT_COMMON_DIR",
    "GIT_PREFIX",
    "GIT_LITERAL_PATHSPECS",
    "GIT_GLOB_PATHSPECS",
    "GIT_NOGLOB_PATHSPECS",
    "GIT_ICASE_PATHSPECS",
    "GIT_EXTERNAL_DIFF",
    "GIT_DIFF_OPTS",
)
# of what git calls local to a repository, what names none: it turns how all of git reads it
EVERYWHERE = (
    "GIT_CONFIG_PARAMETERS",
    "GIT_CONFIG_COUNT",
    "GIT_NO_REPLACE_OBJECTS",
    "GIT_REPLACE_REF_BASE",
)
PLAIN = (
    "-c",
    "core.hooksPath=/dev/null",
    "-c",
    "core.fsmonitor=",
    "-c",
    "advice.detachedHead=false",
    "-c",
    "gc.auto=0",
    "-c",
    "submodule.recurse=false",
)
# what turns how commits are checked out, of the files of a git folder
COPIED = ("shallow", "info/exclude", "info/attributes", "info/grafts", "info/sparse-checkout")
PATHS = ("objects", "config", "refs", "packed-refs", *COPIED)
ABSOLUTE = "--path-format=absolute"  # git from 2.31 on knows it; an older one repeats it
PLACE = ("--git-common-dir", "--absolute-git-dir", "--show-prefix")
FILES = tuple(word for name in PATHS for word in ("--git-path", name))
FORMAT = "--show-object-format"
SHORT = 40  # digits of a name that the engine knows
MOST_REFS = 2000  # so many are looked through for a name that may have been meant


def environment_of(pid: int) -> Dict[str, str]:
    """The environment with which a process began; nothing where it cannot be read."""
    pairs = content(f"/proc/{pid}/environ").split(b"\0")
    return {
        os.fsdecode(name): os.fsdecode(value)
        for name, sign, value in (pair.partition(b"=") for pair in pairs)
        if sign
    }


def program_of(pid: int) -> str:
    """The name of the program that a process runs."""
    return first_line(f"/proc/{pid}/comm")


def original_environment() -> Dict[str, str]:
    """The environment as the caller has it. Python itself puts LC_CTYPE in where the locale is C;
    and the shell that starts it leaves out what has no name of a shell's variable, as `a.b`, but
    git had it."""
    env, came, parent = dict(os.environ), environment_of(os.getpid()), os.getppid()
    if came and "LC_CTYPE" not in came:
        env.pop("LC_CTYPE", None)
    if program_of(parent) == "git":
        env.update(
            {
                name: value
                for name, value in environment_of(parent).items()
                if not re.fullmatch("[A-Za-z_][A-Za-z0-9_]*", name)
            }
        )
    return env


def path_of_git(env: Mapping[str, str]) -> str:
    """Where git is, for all of a search; its name where that depends on the folder at hand."""
    for folder in os.get_exec_path(env):
        path = folder + "/git"
        if not folder.startswith("/"):
            break
        if os.path.isfile(path) and os.access(path, os.X_OK):
            return path
    return "git"


def is_name(text: str) -> bool:
    """Whether it is the whole name of a commit."""
    return re.fullmatch("[0-9a-f]{40}|[0-9a-f]{64}", text) is not None


class Repository:
    """Where the user stands. `gitdir` is the git folder that all work trees share, `own_gitdir`
    that of this work tree, `top` the work tree, empty where there is none, and `prefix` the folder
    in it."""

    def __init__(self) -> None:
        self.user_env = original_environment()
        self.env, self.git = dict(self.user_env, LC_ALL="C"), path_of_git(self.user_env)
        for name in ODD:
            self.env.pop(name, None)
        self.find()
        self.test_env = {
            name: value
            for name, value in self.user_env.items()
            if name not in self.local and name != "FARMDAWN_QUIET"
        }
        self.checkout_env = {
            name: value for name, value in self.test_env.items() if name not in ODD
        }
        self.checkout_env["GIT_OPTIONAL_LOCKS"] = "0"
        self.folder = os.path.join(self.gitdir, "farmdawn")
        if os.path.islink(self.folder):
            raise Stop(Status.NO_ROOM, self.folder + " is a link; nothing was tested")
        try:
            os.makedirs(self.folder, exist_ok=True)
        except OSError:
            raise Stop(
                Status.NO_ROOM,
                self.gitdir + " cannot be written, or has no room; nothing was tested",
            ) from None

    def find(self) -> None:
        """Asks git where the repository and its files are, and has the environment name it in full.
        Where there is no work tree, git says all but that."""
        words = ("--local-env-vars", ABSOLUTE, *PLACE, *FILES, FORMAT)
        said = self.ask_where(*words, "--show-toplevel", FORMAT)
        local = [line for line in said if re.fullmatch("GIT_[A-Z_]+", line)]
        self.local = [name for name in local if name not in EVERYWHERE]
        found, count = said[len(local) :], len(PLACE) + len(PATHS) + 1
        if len(found) < count:
            try:
                self.run("rev-parse", *words, loud=True)
            except subprocess.CalledProcessError:
                raise Stop(Status.NO_COMMIT) from None
        has_top = len(found) == count + 2 and found[-1] == found[count - 1]
        if len(found) != count and not has_top:
            raise Stop(Status.REFUSED, "the path of this repository has a line break")
        common, self.own_gitdir, self.prefix, *files, self.format = found[:count]
        self.gitdir, self.files = os.path.realpath(common), dict(zip(PATHS, files))
        self.top = os.path.realpath(found[count]) if has_top else ""
        if self.env.get("GIT_DIR"):
            self.env["GIT_DIR"] = self.own_gitdir
        if self.env.get("GIT_WORK_TREE"):
            self.env["GIT_WORK_TREE"] = self.top

    def ask_where(self, *words: str) -> List[str]:
        """What git says of the repository. It must be there, and not too old."""
        try:
            said = self.text("rev-parse", *words, check=False).split("\n")
        except FileNotFoundError:
            raise Stop(
                Status.REFUSED,
                "git is not installed (needed are Linux, git from 2.31 on, and farmdawn)",
            ) from None
        if ABSOLUTE in said:
            raise Stop(
                Status.REFUSED, "git from 2.31 on is needed, and this is " + self.text("version")
            )
        return said

    # -- commands ------------------------------------------------------------

    def run(
        self,
        *words: str,
        input: Optional[bytes] = None,
        check: bool = True,
        loud: bool = False,
        env: Optional[Mapping[str, str]] = None,
        cwd: Optional[str] = None,
    ) -> bytes:
        """What a command of git prints."""
        done = subprocess.run(
            (self.git,) + words,
            input=input,
            stdin=subprocess.DEVNULL if input is None else None,
            stdout=subprocess.PIPE,
            stderr=None if loud else subprocess.DEVNULL,
            env=env or self.env,
            cwd=cwd,
        )
        if check and done.returncode:
            raise subprocess.CalledProcessError(done.returncode, words)
        return bytes(done.stdout)

    def text(self, *words: str, **more: Any) -> str:
        """The same as a text, without the end of its last line."""
        out = os.fsdecode(self.run(*words, **more))
        return out[:-1] if out.endswith("\n") else out

    def succeeds(
        self, *words: str, env: Optional[Mapping[str, str]] = None, cwd: Optional[str] = None
    ) -> bool:
        """Whether a command of git ends with 0."""
        return (
            subprocess.run(
                (self.git,) + words,
                stdin=subprocess.DEVNULL,
                stdout=subprocess.DEVNULL,
                stderr=subprocess.DEVNULL,
                env=env or self.env,
                cwd=cwd,
            ).returncode
            == 0
        )

    # -- names ---------------------------------------------------------------

    def commit(self, word: str) -> str:
        """The whole name of the commit that a word names."""
        found = self.text(
            "rev-parse", "--verify", "-q", "--end-of-options", word + "^{commit}", check=False
        )
        if not is_name(found):
            raise Stop(Status.NO_COMMIT, word + ": no commit of that name")
        return found

    def commits(self, words: Sequence[str]) -> List[str]:
        """The whole names of the commits that words name, nothing for one that names none."""
        asked = os.fsencode("".join(word + "^{commit}\n" for word in words))
        said = self.text("cat-file", "--batch-check=%(objectname)", input=asked, check=False)
        found = [line if is_name(line) else "" for line in said.split("\n")]
        return found if len(found) == len(words) else ["" for _ in words]

    def is_commit(self, word: str) -> bool:
        """Whether a word names a commit."""
        return self.succeeds("rev-parse", "--verify", "-q", "--end-of-options", word + "^{commit}")

    def refs(self) -> List[str]:
        """The short names of branches and tags."""
        return self.text(
            "for-each-ref",
            "--count=%d" % MOST_REFS,
            "--format=%(refname:short)",
            "refs/heads",
            "refs/tags",
            "refs/remotes",
            check=False,
        ).split()

    def is_shallow(self) -> bool:
        """Whether the history is cut off."""
        return os.path.exists(os.path.join(self.gitdir, "shallow"))

    def list_cut(self, bad: str, goods: Sequence[str], first_parent: bool) -> List[str]:
        """The commits between the ends whose parents a shallow clone lacks."""
        if not self.is_shallow():
            return []
        with open(os.path.join(self.gitdir, "shallow"), encoding="ascii") as file:
            cut = set(file.read().split())
        words = ["--first-parent"] if first_parent else []
        lines = "\n".join([bad, *("^" + good for good in goods)]) + "\n"
        listed = self.text("rev-list", *words, "--stdin", input=lines.encode()).split()
        return [name for name in listed if name in cut]

    def is_tracked(self, word: str) -> bool:
        """Whether git has a file: this repository, or the one of a submodule in which it stands. A
        repository that only happens to stand in the work tree is none of this one's."""
        folder, last = os.path.split(word)
        folder = os.path.realpath(folder or ".")
        path = os.path.join(folder, last)
        if not self.top or not path.startswith(self.top + "/"):
            return False
        path = path[len(self.top) + 1 :]
        outer = (
            "--git-dir=" + self.own_gitdir,
            "--work-tree=" + self.top,
            "--literal-pathspecs",
            "ls-files",
        )
        if self.succeeds(*outer, "--error-unmatch", "--", path, cwd=self.top):
            return True
        parts = path.split("/")
        above = ["/".join(parts[:count]) for count in range(1, len(parts))]
        if not above or b"160000 " not in self.run(
            *outer, "-s", "--", *above, cwd=self.top, check=False
        ):
            return False
        plain = {
            name: value
            for name, value in self.env.items()
            if name not in ("GIT_DIR", "GIT_WORK_TREE")
        }
        return self.succeeds(
            "--literal-pathspecs",
            "ls-files",
            "--error-unmatch",
            "--",
            "./" + last,
            cwd=folder,
            env=plain,
        )

    def skips(self, word: str) -> List[str]:
        """The commits of a name or a range."""
        if ".." not in word:
            return [self.commit(word)]
        try:
            return self.text("rev-list", "--end-of-options", word, "--").split()
        except subprocess.CalledProcessError:
            raise Stop(Status.NO_COMMIT, word + ": no such range") from None
