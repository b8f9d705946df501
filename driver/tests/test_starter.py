"""The few lines of sh that find a Python: one that is too old, is not there, or is another one; and
what a shell may have got."""
from __future__ import annotations

import os
import re
import shutil
import signal
import stat
import subprocess
import tempfile
import unittest
from typing import Dict, List, Set

from helpers import ROOM, TOP

SHORT_TESTS = True

STARTER = os.path.join(TOP, "driver", "bin", "git-farmdawn")
HOLDS = (
    subprocess.run(
        ["env", "--block-signal=INT", "true"], stderr=subprocess.DEVNULL, check=False
    ).returncode
    == 0
)


class Starter(unittest.TestCase):
    """A copy of it, in a room where the Python of the system is not there."""

    def setUp(self) -> None:
        """The room, with a folder of programs."""
        room = tempfile.TemporaryDirectory(dir=ROOM)
        self.addCleanup(room.cleanup)
        self.room = os.path.realpath(room.name)
        for folder in ("bin", "tree/bin"):
            os.makedirs(os.path.join(self.room, folder))
        os.symlink(os.path.join(TOP, "driver", "git_farmdawn"), self.room + "/tree/git_farmdawn")
        with open(STARTER, encoding="utf-8") as file:
            text = file.read()
        self.assertIn("/usr/bin/python3", text)
        self.starter = self.program(
            "tree/bin/git-farmdawn", text.replace("/usr/bin/python3", self.room + "/system/python3")
        )
        for name in ("sh", "readlink"):
            os.symlink("/bin/" + name, os.path.join(self.room, "bin", name))

    def program(self, name: str, text: str) -> str:
        """A program in the room."""
        path = os.path.join(self.room, name)
        os.makedirs(os.path.dirname(path), exist_ok=True)
        with open(path, "w", encoding="utf-8") as file:
            file.write(text)
        os.chmod(path, os.stat(path).st_mode | stat.S_IXUSR)
        return path

    def start(self, *words: str, **env: str) -> "subprocess.CompletedProcess[str]":
        """The starter with these words, where the folder of programs is all of the path."""
        every: Dict[str, str] = {"PATH": self.room + "/bin", **env}
        start: List[str] = ["/bin/sh", self.starter, *words]
        return subprocess.run(
            start,
            env=every,
            stdout=subprocess.PIPE,
            stderr=subprocess.PIPE,
            text=True,
            errors="surrogateescape",
            timeout=120,
            check=False,
        )

    def changed(self, starter: str) -> Set[str]:
        """Which variables of the caller have another value in the Python that is started; each word
        of the starter is one."""
        with open(starter, encoding="utf-8") as file:
            mine = {
                name: "mine"
                for name in re.findall("[A-Za-z_][A-Za-z_0-9]*", file.read())
                if name != "PATH"
            }
        mine["FARMDAWN_PYTHON"] = self.program("told/python3", "#!/bin/sh\nexec /usr/bin/env -0\n")
        found = dict(pair.split("=", 1) for pair in self.start(**mine).stdout.split("\0") if pair)
        return {name for name in mine if found[name] != mine[name]}

    def test_none(self) -> None:
        """One line says so."""
        done = self.start("-h")
        self.assertEqual((done.returncode, done.stdout), (1, ""))
        self.assertEqual(
            done.stderr,
            (
                "git farmdawn: Python is not installed (needed are Linux, Python from 3.8 on, git"
                " from 2.31 on, and farmdawn)\n"
            ),
        )

    def test_found(self) -> None:
        """By each name, behind one that is too old; the named one comes first."""
        real = '#!/bin/sh\nexec /usr/bin/python3 "$@"\n'
        for name in ("bin/python3", "bin/python3.9", "system/python3", "elsewhere/a python"):
            with self.subTest(name):
                path = self.program(name, real)
                done = self.start(
                    "-h", **({"FARMDAWN_PYTHON": path} if name.startswith("elsewhere") else {})
                )
                self.assertEqual((done.returncode, done.stderr), (0, ""), name)
                self.assertTrue(done.stdout.startswith("usage: git farmdawn"), name)
                os.unlink(path)
        self.program("old/python3.6", "#!/bin/sh\nexit 99\n")
        os.symlink(self.room + "/old/python3.6", self.room + "/bin/python3")
        self.assertEqual(self.start("-h").returncode, 1)
        self.program("bin/python3.11", real)
        self.assertEqual(self.start("-h").returncode, 0)

    def test_environment(self) -> None:
        """Nothing of the environment is read on the way, and nothing in the folder at hand is
        imported."""
        self.program("system/python3", '#!/bin/sh\nexec /usr/bin/python3 "$@"\n')
        self.program("evil/os.py", "raise SystemExit(99)\n")
        self.program("evil/git_farmdawn/__init__.py", "raise SystemExit(99)\n")
        for env in (
            {"PYTHONPATH": self.room + "/evil"},
            {"PYTHONSTARTUP": self.room + "/evil/os.py"},
            {"PYTHONHOME": "/nowhere"},
            {"IFS": "/"},
            {"CDPATH": "/"},
            {
                "BASH_FUNC_readlink%%": "() { echo /nowhere; }",
                "BASH_FUNC_command%%": "() { :; }",
                "BASH_FUNC_exec%%": "() { :; }",
            },
        ):
            with self.subTest(env):
                done = self.start("-h", **env)
                self.assertEqual((done.returncode, done.stderr), (0, ""), env)
        self.assertEqual(self.changed(self.starter), set())
        link = self.room + "/bin/git-farmdawn"
        os.symlink(self.starter, link)
        self.assertEqual(
            subprocess.run(
                [link, "-h"], cwd=self.room + "/evil", stdout=subprocess.DEVNULL, check=False
            ).returncode,
            0,
        )

    @unittest.skipUnless(HOLDS, "an env that holds a signal back is not here")
    def test_interrupted_early(self) -> None:
        """Ctrl-C while Python starts is held back, and then just ends it. A path with a = is no
        variable for env."""
        for name in ("env", "true"):
            os.symlink(str(shutil.which(name)), os.path.join(self.room, "bin", name))
        early = f'#!/bin/sh\nkill -INT $$\n: >{self.room}/held\nexec /usr/bin/python3 "$@"\n'
        done = self.start("-h", FARMDAWN_PYTHON=self.program("early/python3", early))
        self.assertEqual((done.returncode, done.stdout, done.stderr), (-signal.SIGINT, "", ""))
        self.assertTrue(os.path.exists(self.room + "/held"))
        done = self.start(
            "-h",
            FARMDAWN_PYTHON=self.program("a=b/python3", '#!/bin/sh\nexec /usr/bin/python3 "$@"\n'),
        )
        self.assertEqual((done.returncode, done.stderr), (0, ""))


if __name__ == "__main__":
    unittest.main()
