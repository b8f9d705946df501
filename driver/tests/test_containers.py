"""The commands of docs/CONTAINERS.md, run in the practice repository and in one of Python; podman,
pip and Bazel are stand-ins."""
from __future__ import annotations

import os
import re
import shutil
import subprocess
import sys
import tempfile
import textwrap
import unittest
from typing import Dict, List

from helpers import ROOM, SECONDS, TOP, needs_engine
from test_ended import engine_of_containers
from test_trust import blocks, engine_in, pattern_of

PAGE = os.path.join(TOP, "docs", "CONTAINERS.md")
# as Bazel: what it builds is kept in its output base, 3 says that a test failed, 1 that it does not
# build, and a server lives on
BAZEL = """#!/bin/sh
for word; do case $word in --output_base=*) base=${word#*=} ;; test | shutdown) verb=$word ;; esac; done
mkdir -p "$base"
[ "$verb" = test ] || exit 0
make -s count >"$base/log" 2>&1 || exit 1
sh test.sh || exit 3
"""
# makes an environment whose pip is a stand-in: it installs by a link, as pip does, and wants no
# network
PYTHON = """#!/bin/sh
[ "$1 $2" = '-m venv' ] || exec '%(python)s' "$@"
'%(python)s' -m venv --without-pip "$3" || exit
printf '%%s\\n' '#!/bin/sh' 'echo "$PWD" >"$(echo "${0%%/bin/pip}"/lib/python3*/site-packages)/here.pth"' >"$3/bin/pip"
chmod +x "$3/bin/pip"
"""
SHOP = """def add(a, b):
    return a + b%s
"""
TEST = textwrap.dedent(
    """\
    import unittest
    import shop


    class Shop(unittest.TestCase):
        def test_add(self):
            self.assertEqual(shop.add(1, 2), 3)
    """
)


def scripts() -> List[str]:
    """The scripts of the page, by its order."""
    with open(PAGE, encoding="utf-8") as file:
        return re.findall("^```sh\n(.*?)^```", file.read(), re.M | re.S)


@needs_engine
class Page(unittest.TestCase):
    """The page, part by part."""

    def setUp(self) -> None:
        """A folder, an environment with the stand-ins, and the scripts of the page."""
        room = tempfile.TemporaryDirectory(dir=ROOM)
        self.addCleanup(room.cleanup)
        self.room = room.name
        self.env = {
            **engine_of_containers(self, self.room),
            "FARMDAWN": engine_in(self.room)["FARMDAWN"],
            "HOME": self.room,
            "IMAGE": "debian:12",
        }
        self.write("bin/bazel", BAZEL)
        for name, text in zip(("in-container", "in-bazel"), scripts()):
            self.write(name, text)
        self.path = os.path.join(self.room, "practice")

    def write(self, name: str, text: str) -> None:
        """A script."""
        with open(os.path.join(self.room, name), "w", encoding="utf-8") as file:
            file.write(text)
        os.chmod(file.name, 0o755)

    def run_block(self, word: str, env: Dict[str, str]) -> None:
        """The commands of the block that has a word: each prints what the page shows."""
        commands = next(
            block for block in blocks(PAGE) if word in block[-1][0] or word in block[0][0]
        )
        for command, shown in commands:
            with self.subTest(command):
                done = subprocess.run(
                    ["sh", "-c", command],
                    cwd=self.path,
                    env=env,
                    stdout=subprocess.PIPE,
                    stderr=subprocess.PIPE,
                    text=True,
                    timeout=5 * SECONDS,
                    check=False,
                )
                self.assertRegex(done.stdout, "^" + pattern_of(shown) + "$", done.stderr)

    @unittest.skipUnless(
        all(shutil.which(name) for name in ("cc", "make", "awk")), "cc, make and awk are wanted"
    )
    def test_containers_and_bazel(self) -> None:
        """In containers, none of which is left; and by Bazel, in whose output base a search finds
        what another one built."""
        subprocess.run(
            ["sh", os.path.join(TOP, "docs", "practice.sh"), self.path],
            env=self.env,
            stdout=subprocess.DEVNULL,
            check=True,
        )
        self.run_block("podman ps", self.env)
        self.run_block("bazel", self.env)
        built = [
            name
            for name in os.listdir(self.room + "/pool")
            if os.path.isdir(f"{self.room}/pool/{name}/bazel")
        ]
        self.assertTrue(built, os.listdir(self.room + "/pool"))
        for image, status in (
            ("nowhere", 6),
            ("debian:12", 2),
        ):  # podman's own 125 is none of the commit, and 77 is a skip
            with self.subTest(row=(image, status)):
                words = [
                    "git",
                    "farmdawn",
                    "--quiet",
                    "--trust-ends",
                    "main",
                    "main~2",
                    "--",
                    "sh",
                    "../in-container",
                    "sh",
                    "-c",
                    "exit 77",
                ]
                done = subprocess.run(
                    words,
                    cwd=self.path,
                    env={**self.env, "IMAGE": image},
                    stdout=subprocess.PIPE,
                    stderr=subprocess.STDOUT,
                    text=True,
                    check=False,
                )
                self.assertEqual(done.returncode, status, done.stdout)

    def test_venv(self) -> None:
        """An install by a link leads to each checkout, and not to the work tree."""
        subprocess.run(["git", "init", "-q", "-b", "main", self.path], env=self.env, check=True)
        for number in range(1, 9):
            self.write("practice/shop.py", SHOP % ("" if number < 6 else " + 1"))
            self.write("practice/notes", str(number))
            self.write("practice/test_shop.py", TEST)
            self.write("practice/.gitignore", ".venv\n__pycache__\n")
            env = {
                **self.env,
                "GIT_AUTHOR_DATE": f"{1700000000 + number} +0000",
                "GIT_COMMITTER_DATE": f"{1700000000 + number} +0000",
            }
            for words in (
                ["add", "."],
                ["commit", "-q", "-m", f"Change {number}"],
                ["tag", f"v{number}"],
            ):
                subprocess.run(["git", *words], cwd=self.path, env=env, check=True)
        self.write("bin/python3", PYTHON % {"python": sys.executable})
        self.run_block("venv", self.env)


if __name__ == "__main__":
    unittest.main()
