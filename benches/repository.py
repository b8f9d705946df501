"""Repositories that are made of a stream, and the words of git in them."""
import os
import subprocess

CALM = {**os.environ, "GIT_AUTHOR_NAME": "Ann Lee", "GIT_AUTHOR_EMAIL": "ann@example.org", "GIT_COMMITTER_NAME": "Bo",
        "GIT_COMMITTER_EMAIL": "bo@example.org", "GIT_CONFIG_GLOBAL": os.devnull, "GIT_CONFIG_SYSTEM": os.devnull,
        "GIT_CONFIG_NOSYSTEM": "1", "LC_ALL": "C"}


def git(folder, *words, check=True):
    """What git prints in a folder, or the end of the script where git fails."""
    done = subprocess.run(["git", "-C", folder, *words], stdout=subprocess.PIPE, stderr=subprocess.DEVNULL, env=CALM, check=check)
    return done.stdout.decode(errors="surrogateescape").strip()


def empty(folder):
    """A new repository that keeps its objects as they are."""
    git(".", "init", "-q", "-b", "main", folder)
    git(folder, "config", "core.compression", "0")
    return folder


def filled(folder, stream):
    """A new repository of the stream in a file, with `main` checked out."""
    empty(folder)
    with open(stream, "rb") as text:
        subprocess.run(["git", "-C", folder, "fast-import", "--quiet"], stdin=text, env=CALM, check=True)
    git(folder, "reset", "-q", "--hard", "main")
    return folder
