"""The user's browser, in which a page is opened: the one that git is told of (`web.browser`), else
the one that Python finds, for which BROWSER comes first.

Nothing waits for it, and nothing comes of it where there is none: whoever opens a page tells where
the page is."""
from __future__ import annotations

import os
import subprocess
import sys
from typing import Mapping

PLAIN = frozenset(b"/-._~0123456789ABCDEFGHIJKLMNOPQRSTUVWXYZabcdefghijklmnopqrstuvwxyz")
BY_GIT = 'exec git web--browse "$1"'
# without what stands in the folder, or in a variable; the smallest installs have no such module
BY_PYTHON = '"$0" -I -m webbrowser "$1" || ' + BY_GIT


def url_of(path: str) -> str:
    """A file as browsers name it."""
    signs = (chr(sign) if sign in PLAIN else f"%{sign:02X}" for sign in os.fsencode(path))
    return "file://" + "".join(signs)


def open_page(path: str, by_git: bool, folder: str, env: Mapping[str, str]) -> None:
    """Has the browser open a file, which may outlive this process; git reads its settings in the
    folder."""
    words = ["/bin/sh", "-c", BY_GIT if by_git else BY_PYTHON, sys.executable, url_of(path)]
    nothing = subprocess.DEVNULL
    try:
        subprocess.Popen(
            words,
            cwd=folder,
            env=dict(env),
            stdin=nothing,
            stdout=nothing,
            stderr=nothing,
            start_new_session=True,
        )
    except OSError:
        pass
