#!/usr/bin/env python3
"""git's own tests of `git bisect` as a test of farmdawn.

Usage: tests/git_tests.py SOURCES [SCRIPT..]

SOURCES has git's sources, of the version that is installed. The scripts of its `t/` are run with the git that is at hand,
behind tests/git-kept.sh; each `git bisect` and `git rev-list --bisect` of theirs is then given to the program that FARMDAWN
names, or the one that was built, and what the two say is compared: marks that are refused, the state that a log leads to,
what is asked next, logs both ways, runs. What differs must be a row of DIFFERENCES, and each row must differ.

  --kept FOLDER   keeps what git did there, or, where FOLDER is there, compares what it has
"""
from __future__ import annotations

import argparse
import collections
import os
import stat
import subprocess
import sys
import tempfile

import git_compared

HERE = os.path.dirname(os.path.abspath(__file__))
SCRIPTS = ("t6030-bisect-porcelain", "t6002-rev-list-bisect", "t6050-replace")

# ---- what is known to differ, and why

Row = collections.namedtuple("Row", "script test what")

# Why, and the rows that differ so: the script, the name of its test, and what differs.
DIFFERENCES: dict[str, list[Row]] = {
    "farmdawn waits for a good commit, where git goes on from a bad one alone": [
        Row("t6030", "bisect starts with only one bad", "next: git asks, farmdawn waiting"),
        Row("t6030", "bisect starts with only one new", "next: git asks, farmdawn waiting"),
    ],
    "a second --term-old is a usage fault on the command line": [
        Row("t6030", "bisect start takes options and revs in any order", "start: git asks, farmdawn refused"),
    ],
    "126 and 127 end a search, as a shell exits so where it cannot start a command; with --lenient-exit they are bad": [
        Row("t6030", "bisect run accepts exit code 126 as bad", "run: git first, farmdawn fault; alike with --lenient-exit"),
        Row("t6030", "bisect run accepts exit code 127 as bad", "run: git first, farmdawn fault; alike with --lenient-exit"),
    ],
    "the search had ended before the run: git tests the commit at hand all the same, and farmdawn tells the answer": [
        Row("t6030", "bisect run fails with exit code equals or greater than 128", "run: git fault, farmdawn first"),
    ],
    "git fast-export writes a replaced commit as the one that replaces it, which has another name": [
        Row("t6050", "bisect and replacements", "start: git asks, farmdawn refused"),
        Row("t6050", "bisect and replacements", "state: farmdawn refuses the log"),
        Row("t6050", "bisect and replacements", "back: farmdawn refuses the log"),
        Row("t6050", "bisect and replacements", "next: git asks, farmdawn refused"),
    ],
    "git fast-export does not take a tree that is lost": [
        Row("t6030", test, "stream: git does not export") for test in (
            "bisect fails if tree is broken on start commit", "bisect fails if tree is broken on trial commit",
            "bisect: --no-checkout - start commit bad", "bisect: --no-checkout - trial commit bad",
            "bisect: --no-checkout - target before breakage", "bisect: --no-checkout - target in breakage",
            "bisect: --no-checkout - target after breakage", "bisect: demonstrate identification of damage boundary")
    ],
    "a stream is searched with all its commits; it is git farmdawn that has paths": [
        Row("t6030", test, "paths: git bisects by paths") for test in (
            "bisect start without -- takes unknown arg as pathspec", "restricting bisection on one dir",
            "restricting bisection on one dir and a file", "erroring out when using bad path arguments")
    ],
    "a line of a log ends with LF alone, and a CR before it belongs to its last word": [
        Row("t6030", "bisect replay with CRLF log", "replay: farmdawn refuses the log"),
    ],
    "git refuses to begin where a changed file is in the way of its checkout": [
        Row("t6030", 'bisect start: no ".git/BISECT_START" if checkout error', "start: git refused, farmdawn asks"),
    ],
    "farmdawn keeps no marks that rev-list --bisect could take": [
        Row("t6002", "rev-list --bisect can default to good/bad refs", "choice: git takes the marks of the repository"),
    ],
    "git bisect replay stops where a merge base must be tested, with git's own log, too": [
        Row("t6030", test, "back: git comes to other marks") for test in (
            "good merge base when good and bad are siblings", "skipped merge base when good and bad are siblings",
            "bad merge base when good and bad are siblings", "good merge bases when good and bad are siblings",
            "optimized merge base checks")
    ],
}


# ---- git's tests, run with the git that is at hand


def make_build(sources: str, folder: str) -> None:
    """What the scripts look for in a git that was built, around links to the scripts themselves."""
    tests = os.path.join(folder, "t")
    for made in (os.path.join(tests, "helper"), os.path.join(folder, "templates", "blt"), os.path.join(folder, "bin")):
        os.makedirs(made)
    for name in os.listdir(os.path.join(sources, "t")):
        if name.endswith(".sh") or name in ("oid-info", "t6050"):
            os.symlink(os.path.join(sources, "t", name), os.path.join(tests, name))
    put_program(os.path.join(tests, "helper", "test-tool"), "#!/bin/sh\nexit 1\n")
    with open(os.path.join(HERE, "git-kept.sh"), encoding="utf-8") as file:
        put_program(os.path.join(folder, "bin", "git"), file.read())
    with open(os.path.join(folder, "GIT-BUILD-OPTIONS"), "w", encoding="utf-8") as file:
        file.write("SHELL_PATH=/bin/sh TEST_SHELL_PATH=/bin/sh PERL_PATH=perl DIFF=diff NO_PERL=1 NO_PYTHON=1 NO_GETTEXT=1 X='' TAR=tar\n")


def put_program(path: str, text: str) -> None:
    """A file that can be run."""
    with open(path, "w", encoding="utf-8") as file:
        file.write(text)
    os.chmod(path, stat.S_IRWXU)


def run_script(build: str, script: str, kept: str) -> None:
    """Runs a script of git's tests, which keeps what its bisections did. Its own tests must pass."""
    os.makedirs(kept)
    told = os.path.join(build, f"{script}.told")
    git = subprocess.run(["sh", "-c", "command -v git"], check=True, capture_output=True, text=True).stdout.strip()
    environment = {**os.environ, "GIT_TEST_INSTALLED": os.path.join(build, "bin"), "GIT_TEST_EXT_CHAIN_LINT": "0",
                   "GIT_TEST_CHAIN_LINT": "0", "ITSELF": git, "KEPT": kept, "TOLD": told}
    for name in ("GIT_CONFIG_GLOBAL", "GIT_CONFIG_SYSTEM"):
        environment.pop(name, None)
    with open(told, "wb") as file:
        done = subprocess.run(["sh", f"{script}.sh", "-v"], cwd=os.path.join(build, "t"), env=environment, stdout=file, stderr=file, check=False)
    if done.returncode:
        with open(told, encoding="utf-8", errors="replace") as file:
            failed = [line for line in file if line.startswith(("not ok", "Bail out", "error:"))]
        sys.exit(f"{script}: git's own tests fail here: {''.join(failed)}")


# ---- beside the program


def compare_script(script: str, kept: str, counts: collections.Counter) -> set[Row]:
    """What differs in the situations of a script, each as a row; the counts are of comparisons by kind."""
    found = set()
    for number in sorted(os.listdir(kept), key=int):
        record = git_compared.read_record(os.path.join(kept, number))
        for kind, difference in git_compared.compare(record):
            counts[kind, "differs" if difference else "agrees"] += 1
            if difference:
                found.add(Row(script.split("-")[0], record.test, f"{kind}: {difference}"))
    return found


def tell(found: set[Row], scripts: set[str]) -> int:
    """How many rows are not as the table has them; each is told."""
    known = {row for rows in DIFFERENCES.values() for row in rows if row.script in scripts}
    for title, rows in (("differs, and is no row", found - known), ("is a row, and does not differ", known - found)):
        for row in sorted(rows):
            print(f"{title}: {row}")
    return len(found ^ known)


def main() -> None:
    """Runs the scripts, compares, and tells what is not as the table has it."""
    parser = argparse.ArgumentParser(usage=__doc__)
    parser.add_argument("--kept")
    parser.add_argument("sources", type=os.path.abspath)
    parser.add_argument("scripts", nargs="*", default=SCRIPTS)
    arguments = parser.parse_args()
    counts: collections.Counter = collections.Counter()
    found: set[Row] = set()
    with tempfile.TemporaryDirectory() as work:
        kept, build = os.path.abspath(arguments.kept or os.path.join(work, "kept")), os.path.join(work, "git")
        make_build(arguments.sources, build)
        for script in arguments.scripts:
            folder = os.path.join(kept, script)
            if not os.path.isdir(folder):
                run_script(build, script, folder)
            found |= compare_script(script, folder, counts)
    wrong = tell(found, {script.split("-")[0] for script in arguments.scripts})
    for (kind, how), count in sorted(counts.items()):
        print(f"{kind} {how}: {count}")
    print(f"{sum(counts.values())} comparisons, {len(found)} rows differ, {wrong} not as the table has them")
    sys.exit(1 if wrong else 0)


if __name__ == "__main__":
    main()
