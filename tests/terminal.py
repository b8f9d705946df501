#!/usr/bin/env python3
"""What git farmdawn shows on a terminal: the live line stays in one row, whatever subjects have, and is gone at the end.

Usage: tests/terminal.py

The terminal is a pty of 50 columns, whose rows are followed here: \\r, LF, the rest of a row erased, and colours; any other
control byte is a fault. Each test waits until the live line has named its commit.
"""
import os
import pty
import re
import select
import subprocess
import sys
import tempfile
import unicodedata

TOP = os.path.dirname(os.path.dirname(os.path.abspath(__file__)))
WIDTH = 50
SUBJECTS = ["first", "日本語の件名がここにあります、とても長いものです", "bell \a and \033[2J escape \udc9b1m \u009b2J \u202ereversed", "e\u0301\u0301 combining 😀😀😀😀😀😀😀😀😀😀😀😀", "x" * 300, "last"]
TEST = 'until [ -e "../seen/$FARMDAWN_COMMIT" ] || [ -n "${0#wait}" ]; do sleep 0.05; done; test ! -e bug'


def run(folder, *words, **more):
    return subprocess.run(words, cwd=folder, check=True, capture_output=True, **more).stdout.decode(errors="replace")


def make_repository(work):
    folder = os.path.join(work, "repository")
    text = b""
    for number, subject in enumerate(SUBJECTS):
        message = subject.encode("utf-8", "surrogateescape")
        text += b"commit refs/heads/main\ncommitter gen <gen@gen> %d +0000\ndata %d\n%s\n" % (number, len(message), message)
        text += b"M 100644 inline number\ndata 2\n%d\n\n" % number + (b"M 100644 inline bug\ndata 0\n\n" if number > 3 else b"")
    run(work, "git", "init", "-q", "-b", "main", folder)
    run(folder, "git", "fast-import", "--quiet", input=text)
    run(folder, "git", "reset", "-q", "--hard")
    return folder


def search(folder, how, *options, **environment):
    """What comes to the terminal; as soon as a commit stands in the live line, its test may end."""
    seen = os.path.join(folder, "..", "seen")
    os.makedirs(seen, exist_ok=True)
    for name in os.listdir(seen):
        os.remove(os.path.join(seen, name))
    ours, theirs = pty.openpty()
    subprocess.run(["stty", "cols", str(WIDTH), "-onlcr"], stdin=theirs, check=True)
    test = TEST.replace("../seen", os.path.abspath(seen))
    program = subprocess.Popen(["git", "farmdawn", "--fresh", "--workers", "2", *options, "main", "main~5", "--", "sh", "-c", test, how], cwd=folder, stdin=theirs,
                               stdout=subprocess.PIPE, stderr=theirs, env={**os.environ, "TERM": "xterm", **environment})
    os.close(theirs)
    names = {name[:12]: name for name in run(folder, "git", "rev-list", "main").split()}
    told = b""
    while True:
        try:
            ready, _, _ = select.select([ours], [], [], 60)
            part = os.read(ours, 10000) if ready else b""
        except OSError:
            part = b""
        if not part:
            break
        told += part
        live = told.rsplit(b"under test: ", 1)[-1] if b"under test: " in told else b""
        for short in re.findall(rb"[0-9a-f]{12}", live):
            if short.decode() in names:
                open(os.path.join(seen, names[short.decode()]), "w").close()
    log = program.communicate()[0].decode(errors="replace")
    os.close(ours)
    return told, log


def columns(text):
    return sum(0 if unicodedata.combining(sign) else 2 if unicodedata.east_asian_width(sign) in "WF" else 1 for sign in text)


def follow(told, faults):
    """The rows of the terminal at the end, and the longest live line."""
    rows, row, at, longest = [], "", 0, 0
    for part in re.split(r"(\r|\n|\033\[K|\033\[[0-9]*m)", told.decode("utf-8", "replace")):
        if part == "\r":
            at = 0
        elif part == "\n":
            rows.append(row)
            row, at = "", 0
        elif part == "\033[K":
            row = row[:at]
        elif not part.startswith("\033"):
            if re.search("[\0-\x1f\x7f-\x9f\u202a-\u202e]", part):
                faults.append(f"a control character comes through: {part!r}")
            row = row[:at] + part + row[at + len(part):]
            at += len(part)
            if "under test: " in part:
                longest = max(longest, columns(part))
    return rows + [row], longest


def main():
    faults = []
    with tempfile.TemporaryDirectory() as work:
        folder = make_repository(work)
        due = run(folder, "git", "rev-parse", "main~1").strip() + " is the first bad commit"
        for how, options, environment, live, colour in (
                ("wait", [], {}, True, True), ("wait", [], {"NO_COLOR": "1"}, True, False), ("go", [], {"TERM": "dumb"}, False, False),
                ("go", ["--quiet"], {}, False, False)):
            told, log = search(folder, how, *options, **environment)
            before = len(faults)
            rows, longest = follow(told, faults)
            if log.splitlines()[-1] != due:
                faults.append(f"the answer is {log.splitlines()[-1:]}")
            if (longest > 0) != live or longest >= WIDTH:
                faults.append(f"the live line has {longest} columns")
            if (b"\033[3" in told) != colour or (b"\033" in told) != live:
                faults.append("colours or moves of the cursor")
            if any("under test" in row for row in rows):
                faults.append("the live line is left")
            if live and not all(any(row.startswith(word) and name in row for row in rows) for word, name in (("good  ", "e\u0301"), ("bad   ", "xxx"))):
                faults.append("a test that ended is not told")
            if live and any(columns(row) >= WIDTH for row in rows if re.match("good|bad|skip", row)):
                faults.append("a line of a test does not fit")
            if "--quiet" in options and told:
                faults.append("something is told")
            if len(faults) > before:
                faults.append(f"{options} {environment}: {told!r}\n" + "\n".join(rows))
    print(*faults, sep="\n")
    sys.exit(1 if faults else 0)


if __name__ == "__main__":
    main()
