"""--private: what each test has for itself. By the system's namespaces a test gets folders for
temporary files and a loopback that no other one sees; all other network is out of its reach.

`unshare` of util-linux makes them, where the system lets this user have them."""
from __future__ import annotations

import os
import shlex
import subprocess
import sys
from typing import Dict, Iterable, List, Mapping

from ..telling.status import Status
from ..telling.text import shown
from ..telling.voice import Stop
from .files import last_lines
from .process import Command
from .trees import remove_tree

PLACES = ("/tmp", "/var/tmp")
MEMORY = os.path.realpath("/dev/shm")
VARIABLES = ("TMPDIR", "TMP", "TEMP")  # of a folder that would be shared again
FOLDERS = ("FARMDAWN_WORKTREE", "FARMDAWN_BUILD", "HOME")
SECONDS = 60  # for the first try
LONGEST = 200  # columns of why it cannot be had
# the loopback of a new network is down; not each system has one of the two programs
UP = (
    "import fcntl, socket, struct;"
    "fcntl.ioctl(socket.socket(), 0x8914, struct.pack('16sh14x', b'lo', 0x41))"
)
LAST = ': >"$0" && exec "$@"'


def form_of(uid: int) -> List[List[str]]:
    """What is tried for a user, in order: root may have namespaces without one of users."""
    by_user = ["--user", "--map-root-user"]
    return [by_user] if uid else [[], by_user]


class Private:
    """Has commands run apart. `rooms` is the folder for what they write, and `paths` are those that
    must be seen all the same: the repository, and what the line names."""

    def __init__(self, rooms: str, paths: Iterable[str]) -> None:
        self.rooms, self.form = rooms, []  # type: str, List[str]
        self.places = list(dict.fromkeys(os.path.realpath(one) for one in PLACES))
        self.places = [place for place in [*self.places, MEMORY] if os.path.isdir(place)]
        self.paths = [os.path.realpath(path) for path in paths if os.path.exists(path)]
        self.used: Dict[int, str] = {}  # the folder of each seat

    def try_out(self) -> None:
        """Finds how it can be had; raises Stop where it cannot."""
        why = b""
        for self.form in form_of(os.getuid()):
            why = self.fault_of(self.wrap(0, Command(["true"], dict(os.environ), "/"), True))
            if not why:
                return
        raise Stop(
            Status.REFUSED,
            "--private: this system gives no test namespaces of its own: " + shown(why, LONGEST),
        )

    def fault_of(self, command: Command) -> bytes:
        """Why a command cannot be run apart; nothing where it can."""
        path = self.used[0] + ".log"
        try:
            with open(path, "wb") as log:
                subprocess.run(
                    list(command.words),
                    cwd=command.cwd,
                    env=dict(command.env),
                    stdin=subprocess.DEVNULL,
                    stdout=log,
                    stderr=log,
                    timeout=SECONDS,
                    check=False,
                )
        except (OSError, subprocess.TimeoutExpired) as fault:
            return os.fsencode(str(fault))
        lines = last_lines(path, 1)
        return b"" if self.has_begun(0) else lines[-1] if lines else b"it does not begin"

    # -- one command -------------------------------------------------------------

    def wrap(self, seat: int, command: Command, is_test: bool) -> Command:
        """The same command, apart. A build may fetch what it needs: it has the machine's network,
        and what it leaves in its folders no test sees."""
        room, cwd = self.room(seat), command.cwd or "/"
        steps = [step for place in self.places for step in self.steps(room, place, command.env)]
        if is_test:
            python = f"{shlex.quote(sys.executable)} -ISc {shlex.quote(UP)}"
            steps.append(f"{{ ip link set lo up || ifconfig lo up || {python}; }} 2>/dev/null")
        steps.append("cd " + shlex.quote(cwd))
        script = "{ " + " && ".join(steps) + '; } || exit 255; exec "$@"'
        words = ["unshare", *self.form, "--mount", "--ipc", *(["--net"] if is_test else []), "--"]
        words += ["/bin/sh", "-c", script, "sh", *self.back(), "/bin/sh", "-c", LAST]
        return command._replace(
            words=[*words, self.mark(room), *command.words], env=self.environment(command.env)
        )

    def room(self, seat: int) -> str:
        """An empty folder for what a job writes."""
        room = self.used.get(seat) or os.path.join(self.rooms, str(seat))
        if remove_tree(room):
            room = os.path.join(self.rooms, f"{seat}.{os.urandom(4).hex()}")
        os.makedirs(room)
        self.used[seat] = room
        return room

    def steps(self, room: str, place: str, env: Mapping[str, str]) -> List[str]:
        """What makes an empty folder stand in a place, with what must be seen there."""
        inner = room + place
        empty = "mount -t tmpfs -o mode=1777 tmpfs" if place == MEMORY else "chmod 1777"
        steps = [f"mkdir -p {shlex.quote(inner)} && {empty} {shlex.quote(inner)}"]
        below = sorted(path for path in self.seen(env) if path.startswith(place + "/"))
        for at, path in enumerate(below):
            if any((path + "/").startswith(other + "/") for other in below[:at]):
                continue
            to = inner + path[len(place) :]
            above = to if os.path.isdir(path) else os.path.dirname(to)
            steps.append("mkdir -p " + shlex.quote(above))
            steps += [] if os.path.isdir(path) else [": >" + shlex.quote(to)]
            steps.append(f"mount --rbind {shlex.quote(path)} {shlex.quote(to)}")
        return [*steps, f"mount --rbind {shlex.quote(inner)} {shlex.quote(place)}"]

    def seen(self, env: Mapping[str, str]) -> List[str]:
        """The paths that a job must see: beside those of the search its own, and what is found by
        its environment."""
        named = [env.get(name, "") for name in FOLDERS]
        named += [self.rooms, *env.get("PATH", "").split(os.pathsep)]
        return [*self.paths, *(os.path.realpath(one) for one in named if os.path.exists(one))]

    @staticmethod
    def back() -> List[str]:
        """What makes the user that root was for the mounts the caller again."""
        uid, gid = os.getuid(), os.getgid()
        return ["unshare", "--user", f"--map-user={uid}", f"--map-group={gid}", "--"] if uid else []

    @staticmethod
    def environment(env: Mapping[str, str]) -> Dict[str, str]:
        """An environment whose temporary files are in the folders of its own."""
        return {name: PLACES[0] if name in VARIABLES else text for name, text in env.items()}

    @staticmethod
    def mark(room: str) -> str:
        """The file which says that the command itself has begun."""
        return os.path.join(room, "begun")

    def has_begun(self, seat: int) -> bool:
        """Whether the last command of a seat has begun, and what it ended with is its own."""
        return os.path.exists(self.mark(self.used[seat]))
