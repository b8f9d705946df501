"""The commands of docs/TRUST.md, taken from the page and run in the practice repository; and
--retest by itself.

The program's `check` stands in for by one that accepts each file, where the program was not built:
what is checked is tested elsewhere."""
from __future__ import annotations

import os
import pty
import re
import shutil
import stat
import subprocess
import tempfile
import unittest
from typing import Dict, Iterator, List, Tuple

from helpers import ENGINE, ENV, PROGRAM, ROOM, SECONDS, TOP, Repository, begins_first, needs_engine

PAGE = os.path.join(TOP, "docs", "TRUST.md")
ACCEPTS = """#!/bin/sh
case $1 in check) cat >/dev/null ;; *) exec '%s' "$@" ;; esac
"""


def engine_in(room: str) -> Dict[str, str]:
    """An environment whose program accepts each certificate, where the real one is not there."""
    if os.access(PROGRAM, os.X_OK):
        return ENV
    path = os.path.join(room, "farmdawn")
    with open(path, "w", encoding="utf-8") as file:
        file.write(ACCEPTS % ENGINE)
    os.chmod(path, stat.S_IRWXU)
    return {**ENV, "FARMDAWN": path}


def blocks(page: str) -> Iterator[List[Tuple[str, str]]]:
    """The commands of each block with what the page shows of them."""
    with open(page, encoding="utf-8") as file:
        text = file.read()
    for block in re.findall("^```console\n(.*?)^```", text, re.M | re.S):
        yield re.findall(r"^\$ (.*)\n((?:(?!\$ ).*\n)*)", block, re.M)


def pattern_of(shown: str) -> str:
    """What is printed: a line `...` stands for any lines, and within a line for anything."""
    parts = [
        (
            "(?:.*\n)*"
            if line == "..."
            else ".*".join(re.escape(part) for part in line.split("...")) + "\n"
        )
        for line in shown.splitlines()
    ]
    return "".join(parts)


@needs_engine
class Page(unittest.TestCase):
    """The page."""

    @unittest.skipUnless(
        all(shutil.which(name) for name in ("cc", "make", "awk")), "cc, make and awk are wanted"
    )
    @begins_first
    def test_commands(self) -> None:
        """Each prints what the page shows."""
        with tempfile.TemporaryDirectory(dir=ROOM) as room:
            repository, env = os.path.join(room, "practice"), engine_in(room)
            subprocess.run(
                ["sh", os.path.join(TOP, "docs", "practice.sh"), repository],
                env=env,
                stdout=subprocess.DEVNULL,
                check=True,
            )
            for block in blocks(PAGE):
                for command, shown in block:
                    with self.subTest(command):
                        done = subprocess.run(
                            ["sh", "-c", command],
                            cwd=repository,
                            env=env,
                            stdout=subprocess.PIPE,
                            stderr=subprocess.PIPE,
                            text=True,
                            timeout=5 * SECONDS,
                            check=False,
                        )
                        self.assertRegex(done.stdout, "^" + pattern_of(shown) + "$", done.stderr)


@needs_engine
class Retest(unittest.TestCase):
    """--retest FILE."""

    def test_retest(self) -> None:
        """What is as claimed, what is not, what says nothing; what the line and the file have of
        how it is done."""
        repo = Repository(self)
        env = engine_in(repo.room)
        script = "echo seen; test $(cat number) -lt 7 || exit 3"
        done = repo.search(
            "--certificate",
            "../found",
            "--build",
            "cp number built",
            "--term-new",
            "slow",
            "--term-old",
            "fast",
            "c12",
            "c1",
            "--",
            "sh",
            "-c",
            script,
            env=env,
        )
        self.assertEqual(done.returncode, 0, done.stderr)
        c7, c6 = repo.name("c7")[:12], repo.name("c6")[:12]
        rows: List[Tuple[Tuple[str, ...], int, List[str]]] = [
            (
                ("--", "sh", "-c", script),
                0,
                [
                    f"slow  {c7}  as claimed (ended with 3)",
                    f"fast  {c6}  as claimed (ended with 0)",
                    "confirmed on this machine",
                ],
            ),
            (
                ("--confirm=2", "-j", "4", "--", "sh", "-c", "test $(cat built) -lt 7"),
                0,
                [
                    f"slow  {c7}  as claimed (ended with 1, 3 of 3)",
                    f"fast  {c6}  as claimed (ended with 0, 3 of 3)",
                    "confirmed on this machine",
                ],
            ),
            (
                ("--", "sh", "-c", "echo so; exit 9"),
                1,
                [
                    f"slow  {c7}  as claimed (ended with 9)",
                    f"slow  {c6}  NOT as claimed (ended with 9)",
                    "not confirmed on this machine",
                ],
            ),
            (
                ("--", "sh", "-c", "exit 125"),
                1,
                [
                    f"none  {c7}  its test says nothing here: it ended with 125",
                    f"none  {c6}  its test says nothing here: it ended with 125",
                    "not confirmed on this machine",
                ],
            ),
        ]
        retest = ("--retest", "../found", "--build", "cp number built")
        for words, status, lines in rows:
            with self.subTest(words=words):
                got = repo.search(*retest, *words, env=env)
                self.assertEqual(
                    (got.returncode, got.stdout.splitlines()), (status, lines), got.stderr
                )
                repo.check_left()
        self.assertIn(
            "    so",
            repo.search(*retest, "--", "sh", "-c", "echo so; exit 9", env=env).stderr,
        )

    def test_refused(self) -> None:
        """Neither the command of a file nor its build is run without a word; nor the command where
        it was run in another folder."""
        repo = Repository(self)
        env = engine_in(repo.room)
        repo.search(
            "--certificate",
            "../found",
            "--build",
            "touch %s/owned" % repo.room,
            "c12",
            "c1",
            "--",
            "sh",
            "-c",
            "test $(cat number) -lt 7",
            env=env,
        )
        os.unlink(repo.room + "/owned")
        build = "--build 'touch %s/owned'" % repo.room
        own = ["--", "sh", "-c", "test $(cat number) -lt 7"]
        given: List[List[str]] = [[], own, ["--build", "true"]]
        for line in given:
            got = repo.search("--retest", "../found", *line, env=env, start_new_session=True)
            self.assertEqual((got.returncode, got.stdout), (1, ""))
            named = "--" if "--build" in line else build + " --"
            told = "git farmdawn --retest ../found %s sh -c 'test $(cat number) -lt 7'" % named
            self.assertIn(told, got.stderr)
            self.assertFalse(os.path.exists(repo.room + "/owned"))
        shown = self.asked(repo, env)
        self.assertIn("    the build touch %s/owned\r\n    the command sh -c " % repo.room, shown)
        self.assertFalse(os.path.exists(repo.room + "/owned"))
        os.mkdir(repo.path + "/deep")
        got = repo.search("--retest", "../../found", "--", "true", env=env, cwd=repo.path + "/deep")
        self.assertIn("its command was run in the folder at the top of the work tree", got.stderr)
        for words, status in (
            (("--retest", "../nowhere"), 16),
            (("--retest",), 1),
            (("--retest", "../found", "c1", "--", "true"), 1),
            (("--retest", "../found", "--"), 1),
        ):
            with self.subTest(row=(words, status)):
                self.assertEqual(repo.search(*words, env=env).returncode, status, words)
        repo.check_left()

    def test_shown(self) -> None:
        """What it asks on a terminal shows the signs of the file that would turn it."""
        repo = Repository(self)
        env = engine_in(repo.room)
        spoof = "test $(cat number) -lt 7 # \r\x1b[2K\x1b[1A\x1b[8m\u202e"
        certificate = ("--certificate", "../found", "c12", "c1")
        got = repo.search(*certificate, "--", "sh", "-c", spoof, env=env)
        self.assertEqual(got.returncode, 0, got.stderr)
        shown = self.asked(repo, env)
        self.assertIn("# ^M[U+202E]", shown)
        self.assertFalse({"\x1b", "\u202e"} & set(shown))

    @staticmethod
    def asked(repo: Repository, env: Dict[str, str]) -> str:
        """What is asked on the terminal before something of the file is run; the answer is no."""
        pid, terminal = pty.fork()
        if pid == 0:
            os.chdir(repo.path)
            os.execvpe("git", ["git", "farmdawn", "--retest", "../found"], env)
        shown = b""
        while not shown.endswith(b"[y/N] "):
            shown += os.read(terminal, 4096)
        os.write(terminal, b"n\n")
        try:
            while os.read(terminal, 4096):
                pass
        except OSError:
            pass  # it has ended
        os.waitpid(pid, 0)
        os.close(terminal)
        return shown.decode()


if __name__ == "__main__":
    unittest.main()
