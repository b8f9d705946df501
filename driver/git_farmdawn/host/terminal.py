"""The terminal of the person who started this, whatever the standard streams are."""
from __future__ import annotations

import os
import select
import subprocess
import termios
from typing import Dict, Optional

LONGEST = 1000  # bytes of a line that is typed


def open_terminal() -> int:
    """The terminal; raises OSError where there is none."""
    return os.open("/dev/tty", os.O_RDWR | os.O_CLOEXEC | os.O_NOCTTY)


def is_there() -> bool:
    """Whether a person can be asked: there is a terminal, and it shows what is told."""
    try:
        os.close(open_terminal())
        return os.isatty(2)
    except OSError:
        return False


class Terminal:
    """Asks there, and does not wait for what is typed."""

    def __init__(self) -> None:
        self.fd = open_terminal()

    def write(self, text: str) -> None:
        """Shows a question, without a line break behind it."""
        os.write(self.fd, os.fsencode(text))

    def typed(self) -> Optional[str]:
        """A line that was typed; None where there is none yet, and empty at the end of all."""
        if not select.select([self.fd], [], [], 0)[0]:
            return None
        return os.read(self.fd, LONGEST).decode("utf-8", "replace")

    def forget(self) -> None:
        """Forgets what was typed until now."""
        termios.tcflush(self.fd, termios.TCIFLUSH)

    def run_shell(self, folder: str, env: Dict[str, str]) -> None:
        """A shell in a folder, until the person leaves it."""
        shell = env.get("SHELL") or "/bin/sh"
        subprocess.run([shell], cwd=folder, env=env, stdin=self.fd, stdout=self.fd, stderr=self.fd)
