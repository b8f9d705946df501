#!/usr/bin/env python3
"""A stand-in for an engine of containers, as podman and docker are seen from outside: a service,
which no test started, starts what is run, and it lives on where its client is killed; it ignores
TERM, as the first process of a container does.

    containers.py serve                         the service
    containers.py run [--rm] [--name NAME] [-v FROM:TO] [-w FOLDER] [..] IMAGE COMMAND [WORD..]
    containers.py rm -f [-t SECONDS] NAME..     ends containers
    containers.py ps                            the names of those that run

The folder CONTAINERS is theirs. A checkout is no mount here: a path below TO is that below FROM."""
from __future__ import annotations

import json
import os
import signal
import subprocess
import sys
import time
from typing import Any, Dict, List, Tuple

ROOM = os.environ.get("CONTAINERS", "")
WITH_VALUE = ("--name", "-v", "-w", "-t", "-e", "--user", "--userns", "--network")


def write(path: str, text: str) -> None:
    """A file that is whole as soon as it has its name."""
    with open(path + ".new", "w", encoding="utf-8") as file:
        file.write(text)
    os.replace(path + ".new", path)


def read(path: str) -> str:
    """A file, or nothing where there is none."""
    try:
        with open(path, encoding="utf-8") as file:
            return file.read()
    except OSError:
        return ""


def wait_for(path: str) -> str:
    """What comes to stand in a file."""
    while not read(path):
        time.sleep(0.01)
    return read(path)


def options_of(words: List[str]) -> Tuple[Dict[str, List[str]], List[str]]:
    """The options in front, and the words behind them."""
    given: Dict[str, List[str]] = {}
    while words and words[0].startswith("-"):
        name, sign, value = words.pop(0).partition("=")
        given.setdefault(name, []).append(
            value if sign else words.pop(0) if name in WITH_VALUE else ""
        )
    return given, words


def start(name: str, asked: Dict[str, Any], running: Dict[str, subprocess.Popen[bytes]]) -> None:
    """Starts the command of a container; one that is not there has the status 127."""
    with open(asked["out"], "ab") as out:
        try:
            running[name] = subprocess.Popen(
                asked["words"],
                cwd=asked["cwd"],
                stdout=out,
                stderr=out,
                stdin=subprocess.DEVNULL,
                start_new_session=True,
                preexec_fn=lambda: signal.signal(signal.SIGTERM, signal.SIG_IGN),
            )
        except OSError:
            os.unlink(f"{ROOM}/{name}.run")
            write(f"{ROOM}/{name}.status", "127")


def serve() -> None:
    """Starts what is asked for, ends what is to be ended, and notes how each ended."""
    running: Dict[str, subprocess.Popen[bytes]] = {}
    while True:
        for name in os.listdir(ROOM):
            if name.endswith(".run") and name[:-4] not in running:
                asked = json.loads(read(ROOM + "/" + name))
                start(name[:-4], asked, running)
        for name, child in list(running.items()):
            if os.path.exists(f"{ROOM}/{name}.rm") and child.poll() is None:
                os.killpg(child.pid, signal.SIGKILL)
            if child.poll() is not None:
                del running[name]
                os.unlink(f"{ROOM}/{name}.run")
                write(
                    f"{ROOM}/{name}.status",
                    str(child.returncode if child.returncode >= 0 else 128 - child.returncode),
                )
        time.sleep(0.01)


def run(words: List[str]) -> int:
    """A client: what is printed comes through it, and so does the status."""
    given, behind = options_of(words)
    name = given.get("--name", ["c%d" % os.getpid()])[-1]
    begin, _, inside = given.get("-v", [":"])[0].partition(":")
    inside = inside.split(":")[0]
    cwd = given.get("-w", ["/"])[-1]
    cwd = begin + cwd[len(inside) :] if inside and (cwd + "/").startswith(inside + "/") else cwd
    if not os.path.isdir(cwd) or os.path.exists(f"{ROOM}/{name}.run") or behind[0] == "nowhere":
        print("Error: no such folder or image, or the name is in use", file=sys.stderr)
        return 125
    out = f"{ROOM}/{name}.out"
    for path in (out, f"{ROOM}/{name}.rm", f"{ROOM}/{name}.status"):
        if os.path.exists(path):
            os.unlink(path)
    signal.signal(signal.SIGTERM, lambda *_: None)  # handed on to the container, which ignores it
    write(f"{ROOM}/{name}.run", json.dumps({"words": behind[1:], "cwd": cwd, "out": out}))
    status = int(wait_for(f"{ROOM}/{name}.status"))
    print(read(out), end="")
    return status


def remove(words: List[str]) -> int:
    """Ends containers; with -f none that is not there is a fault."""
    for name in options_of(words)[1]:
        if os.path.exists(f"{ROOM}/{name}.run"):
            write(f"{ROOM}/{name}.rm", "x")
            wait_for(f"{ROOM}/{name}.status")
    return 0


def main(words: List[str]) -> int:
    """The service, or a client."""
    verb, rest = words[0], words[1:]
    if verb == "serve":
        serve()
    if verb == "ps":
        print(*[name[:-4] for name in os.listdir(ROOM) if name.endswith(".run")], sep="\n", end="")
        return 0
    return run(rest) if verb == "run" else remove(rest)


if __name__ == "__main__":
    sys.exit(main(sys.argv[1:]))
