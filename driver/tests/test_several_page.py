"""The commands of docs/SEVERAL.md, taken from the page itself, print what the page shows."""
from __future__ import annotations

import os
import re
import subprocess
import tempfile
import unittest
from typing import List, Tuple

from helpers import ENV, PROGRAM, ROOM, TOP, needs_engine

PAGE = os.path.join(TOP, "docs", "SEVERAL.md")
MARK = "=== "


def commands(text: str) -> List[Tuple[str, List[str]]]:
    """The commands of a page, each with the lines that it prints there."""
    found: List[Tuple[str, List[str]]] = []
    for block in re.findall("^```console\n(.*?)^```", text, re.M | re.S):
        for line in block.split("\n")[:-1]:
            if line.startswith("$ "):
                found.append((line[2:], []))
            elif line.startswith("> ") and not found[-1][1]:
                found[-1] = (found[-1][0] + "\n" + line[2:], [])
            else:
                found[-1][1].append(line)
    return found


def is_shown(shown: List[str], printed: List[str]) -> bool:
    """Whether lines are those that a page shows; `...` there stands for any lines."""
    pattern = "".join("(?:.*\n)*" if line == "..." else re.escape(line) + "\n" for line in shown)
    return re.fullmatch(pattern, "".join(line + "\n" for line in printed)) is not None


@needs_engine
class Page(unittest.TestCase):
    """The page."""

    def test_commands(self) -> None:
        """All of them, one after the other in one shell."""
        with open(PAGE, encoding="utf-8") as file:
            found = commands(file.read())
        room = tempfile.TemporaryDirectory(dir=ROOM)
        self.addCleanup(room.cleanup)
        home = os.path.realpath(room.name)
        script = "".join(
            f'echo "{MARK}{number}"\n{command}\n' for number, (command, _) in enumerate(found)
        )
        # a report asks for a version, and nothing else here is asked of the program
        program = PROGRAM if os.access(PROGRAM, os.X_OK) else "/bin/true"
        env = {
            **ENV,
            "HOME": home,
            "GIT_COMMITTER_DATE": "1700000000 +0000",
            "FARMDAWN_PROGRAM": program,
        }
        got = subprocess.run(
            ["sh", "-c", script],
            cwd=home,
            env=env,
            stdout=subprocess.PIPE,
            stderr=subprocess.STDOUT,
            timeout=300,
            check=False,
        )
        printed: List[List[str]] = []
        for line in got.stdout.decode().replace(home, "/home/ann").split("\n")[:-1]:
            if line.startswith(MARK):
                printed.append([])
            else:
                printed[-1].append(line)
        self.assertEqual(len(printed), len(found), got.stdout.decode())
        for (command, shown), lines in zip(found, printed):
            with self.subTest(command):
                self.assertTrue(is_shown(shown, lines), "\n".join(lines))


if __name__ == "__main__":
    unittest.main()
