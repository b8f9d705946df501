"""Writes down how much processor time each check of the merge gate takes, while `rt ci` runs.

A check is a process `rattle`. What it has used is read every few seconds, so up to that much of each is missed. What is
known is written to a file of JSON: by crate, the seconds of its proof, of its tests, and of its edits with the check that
they begin with.
"""
import json
import os
import re
import time

TICKS = os.sysconf("SC_CLK_TCK")
SECONDS = 3
PARTS = ("proof", "tests", "edits")


def check_of(process):
    """The crate and the part of a check, its start, and its processor seconds; none where the process is no check of `rt ci`."""
    with open(f"/proc/{process}/cmdline", errors="replace") as file:
        words = file.read().split("\0")
    if not words[0].endswith("/rattle"):
        return None
    told = re.search(r"--crate-name (\w+)", " ".join(words))
    if not told:
        return None
    folder = os.readlink(f"/proc/{process}/cwd")
    with open(f"/proc/{process}/stat") as file:
        fields = file.read().rsplit(")", 1)[1].split()
    seconds = sum(int(it) for it in fields[11:15]) / TICKS
    # the checks of edits, and the first of them, run in folders of their own
    if re.search(r"/rt-(edit|seed)-", folder):
        part = "edits"
    elif words[1] == "check" and "--incremental" in words:
        return None
    else:
        part = "tests" if "--test" in words else "proof"
    return told[1], part, f"{process}.{fields[19]}", seconds


def look(seen):
    for process in os.listdir("/proc"):
        if not process.isdigit():
            continue
        try:
            found = check_of(process)
        except OSError:
            continue
        if found:
            crate, part, start, seconds = found
            seen[start] = crate, part, seconds


def summed(seen):
    crates = {}
    for crate, part, seconds in seen.values():
        crates.setdefault(crate, dict.fromkeys(PARTS, 0))[part] += round(seconds, 1)
    return crates


def watch(path):
    """Looks until it is interrupted, and writes what it has seen after each look."""
    seen = {}
    try:
        while True:
            look(seen)
            with open(f"{path}.new", "w") as file:
                json.dump(summed(seen), file, indent=1, sort_keys=True)
            os.replace(f"{path}.new", path)
            time.sleep(SECONDS)
    except KeyboardInterrupt:
        pass
