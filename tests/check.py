#!/usr/bin/env python3
"""check.py [NAME..]: runs the tests of git farmdawn, of the scripts and of the pages, with the
program that a build left, or the one that FARMDAWN names.

Without a name it runs all. A NAME is a file (`srun`, `tests/srun.sh`, `test_page.py`), a folder
(`driver/tests`), a test (`srun.ends`, `test_page.Pages.test_facts`), or the end of one
(`Pages.test_facts`). One that no test has is an error of usage, and nothing is run. Each test is a
process in a session of its own, but for short ones of a module. What they print comes in the order
of the files.

- JOBS: how many run at once; else three for each processor, at most twelve, since most wait more
  than they work
- TIMES=1: tells of each test its seconds, and those of processors
- PASSED_OVER=1: runs no test, and names those that would be passed over, with what is not here
- SHELL_UNDER_TEST=PROGRAM: another shell in the place of /bin/sh, for these tests alone, by root

A test that fails where it says that a clock decided it (`by_clock` in helpers.sh) is tried once
more, by itself and last. No other is. The last line counts all tests, and those that passed so."""
from __future__ import annotations

import argparse
import ast
import os
import re
import shutil
import signal
import subprocess
import sys
import tempfile
import time
from typing import Any, Dict, Iterator, List, NamedTuple, NoReturn, Optional, Sequence, Tuple

HERE = os.path.dirname(os.path.abspath(__file__))
TOP = os.path.dirname(HERE)
UNITS = os.path.join(TOP, "driver", "tests")
# how a test ends: helpers.sh and driver/tests/runner.py say the same
CLOCK_DECIDED, PASSED_OVER = 75, 77
USAGE = 2
# as long as a test may take to leave behind a signal
LONGEST_END = 10.0
SIGNALS = (signal.SIGHUP, signal.SIGINT, signal.SIGTERM)
# what a module of driver/tests says: by a decorator, and by a name that it sets
BEGINS_FIRST, SHORT_TESTS = "begins_first", "SHORT_TESTS"


class Test(NamedTuple):
    """A test: its name, the words that run it, whether it takes long and begins first, and the
    module with whose other tests it shares a process."""

    name: str
    words: Tuple[str, ...]
    first: bool
    module: str = ""


class Ended(NamedTuple):
    """How a test ended: its status, as a shell has it, what it printed, and what it took."""

    status: int
    printed: str
    seconds: float
    worked: float


class Stopped(Exception):
    """A signal ends all."""


def tests_of_script(name: str) -> Iterator[Test]:
    """The tests of a file of sh: its functions test_..; `long` has those that begin first."""
    with open(os.path.join(HERE, name), encoding="utf-8") as file:
        text = file.read()
    long = " ".join(re.findall(r"^long='([^']*)'$", text, re.MULTILINE)).split()
    for test in re.findall(r"^test_(\w+)\(\)", text, re.MULTILINE):
        yield Test(f"{name[:-3]}.{test}", ("sh", os.path.join(HERE, name), test), test in long)


def tests_of_module(name: str, compiled: str) -> Iterator[Test]:
    """The tests of a module of driver/tests: methods test_.. of its classes that have a base."""
    with open(os.path.join(UNITS, name), encoding="utf-8") as file:
        module = ast.parse(file.read())
    runner = (sys.executable, "-X", "pycache_prefix=" + compiled, "-m", "runner")
    short = any(
        isinstance(part, ast.Assign) and ast.dump(part.targets[0]).find(SHORT_TESTS) >= 0
        for part in module.body
    )
    for part in module.body:
        if not isinstance(part, ast.ClassDef) or not part.bases:
            continue
        for method in part.body:
            if isinstance(method, ast.FunctionDef) and method.name.startswith("test_"):
                test = f"{name[:-3]}.{part.name}.{method.name}"
                decorators = {one.id for one in method.decorator_list if isinstance(one, ast.Name)}
                first = BEGINS_FIRST in decorators
                yield Test(test, (*runner, test), first, name[:-3] if short else "")


def all_tests(compiled: str) -> List[Test]:
    """All tests, in the order of their files."""
    found: List[Test] = []
    for name in sorted(os.listdir(UNITS)):
        if name.startswith("test_") and name.endswith(".py"):
            found += tests_of_module(name, compiled)
    for name in sorted(os.listdir(HERE)):
        if name.endswith(".sh") and name != "helpers.sh":
            found += tests_of_script(name)
    return found


def meant(tests: Sequence[Test], name: str) -> List[Test]:
    """The tests that a NAME means: those of a folder, those that begin with it, or else end so."""
    folder = os.path.join(TOP, name)
    for place in (HERE, UNITS):
        if os.path.isdir(folder) and os.path.samefile(folder, place):
            return [test for test in tests if test.name.startswith("test_") == (place == UNITS)]
    name = re.sub(r"\.(sh|py)$", "", os.path.basename(name))
    begun = [test for test in tests if f"{test.name}.".startswith(name + ".")]
    return begun or [test for test in tests if test.name.endswith("." + name)]


def chosen(tests: Sequence[Test], names: Sequence[str]) -> List[Test]:
    """The tests that the words name, or all. A name that no test has ends this."""
    found = set()
    for name in names:
        those = meant(tests, name)
        if not those:
            print(f"check.py: no test has the name {name}; nothing was run", file=sys.stderr)
            sys.exit(USAGE)
        found.update(those)
    return [test for test in tests if test in found] if names else list(tests)


def joined(tests: Sequence[Test]) -> List[Test]:
    """The same, where short tests of a module are one: to start a process takes longer."""
    found: Dict[str, Test] = {}
    for test in tests:
        name = test.module or test.name
        words = found[name].words if name in found else test.words[:-1]
        found[name] = Test(name, (*words, test.words[-1]), test.first)
    return list(found.values())


def be_under_shell(shell: str) -> NoReturn:
    """This again, where /bin/sh is another shell for it and all that it starts."""
    script = (
        'mount --bind "$1" "$(readlink -f /bin/sh)" && shift && exec env -u SHELL_UNDER_TEST "$@"'
    )
    words = ["unshare", "-m", "sh", "-c", script, "sh", shell, sys.executable, *sys.argv]
    os.execvp(words[0], words)


class Room:
    """What all tests share: a folder for theirs; a copy of the driver, and of the model, whose
    modules are compiled, which spares each of many starts a tenth of a second; and the Slurm that
    the first test which asks for one starts."""

    def __init__(self) -> None:
        self.path = tempfile.mkdtemp()
        os.chmod(self.path, 0o711)  # another user may run the driver that is copied here
        self.folders = os.path.join(self.path, "folders")
        self.compiled = os.path.join(self.folders, "compiled")
        os.mkdir(self.folders)
        self.env = {**os.environ, "FARMDAWN_SHARED": self.path, "FARMDAWN_WORK": self.folders}
        for name in ("MAKEFLAGS", "MAKELEVEL", "MFLAGS"):  # a make within a test is its own
            self.env.pop(name, None)

    def fill(self) -> None:
        """Makes what is made once for all tests."""
        # a python3 that is a program, where that on the path is a script, as pyenv's
        with open(shutil.which("python3") or os.devnull, "rb") as file:
            if file.read(2) == b"#!":
                os.mkdir(os.path.join(self.path, "bin"))
                os.symlink(sys.executable, os.path.join(self.path, "bin", "python3"))
                self.env["PATH"] = os.path.join(self.path, "bin") + os.pathsep + self.env["PATH"]
        if "FARMDAWN_DRIVER" in self.env:
            return
        copy = os.path.join(self.path, "driver")
        for part in ("bin", "git_farmdawn", "model"):
            shutil.copytree(
                os.path.join(TOP, "driver", part),
                os.path.join(copy, part),
                symlinks=True,
                ignore=shutil.ignore_patterns("__pycache__"),
            )
        for python in (os.environ.get("FARMDAWN_PYTHON"), "/usr/bin/python3", sys.executable):
            if python and shutil.which(python):
                words = [python, "-I", "-m", "compileall", "-q", copy]
                subprocess.run(
                    words, stdout=subprocess.DEVNULL, stderr=subprocess.DEVNULL, check=False
                )
        self.env["FARMDAWN_DRIVER"] = os.path.join(copy, "bin")

    def leave(self) -> None:
        """Ends the Slurm, and removes the folder."""
        if os.path.exists(os.path.join(self.path, "slurm")):
            with open(os.path.join(self.path, "slurm"), encoding="utf-8") as file:
                folder = file.read().strip()
            if folder:
                subprocess.run(["sh", os.path.join(HERE, "slurm"), "stop", folder], check=False)
        shutil.rmtree(self.path, ignore_errors=True)


class Running(NamedTuple):
    """A test that runs: its process, the file that takes what it prints, and when it began."""

    test: Test
    process: "subprocess.Popen[bytes]"
    output: str
    began: float


class Runner:
    """Runs tests, so many at once."""

    def __init__(self, room: Room) -> None:
        self.room = room
        self.running: Dict[int, Running] = {}
        self.count = 0
        self.waits = False
        self.stopped = 0
        # they may be ignored, as in the background of a shell; what is started must end by them
        for number in SIGNALS:
            signal.signal(number, self.stop)
        signal.signal(signal.SIGQUIT, signal.SIG_DFL)

    def stop(self, number: int, _frame: Any) -> None:
        """What a signal does: it ends the wait, and what is begun meanwhile is noted first."""
        self.stopped = self.stopped or number
        if self.waits:
            raise Stopped

    def begin(self, test: Test) -> None:
        """Begins a test."""
        self.count += 1
        path = os.path.join(self.room.path, f"printed.{self.count}")
        with open(path, "wb") as output:
            process = subprocess.Popen(
                test.words,
                cwd=UNITS if test.words[0] == sys.executable else HERE,
                env=self.room.env,
                stdin=subprocess.DEVNULL,
                stdout=output,
                stderr=subprocess.STDOUT,
                start_new_session=True,
            )
        self.running[process.pid] = Running(test, process, path, time.monotonic())

    def wait(self) -> Tuple[Test, Ended]:
        """Waits for the end of one."""
        while True:
            self.waits = True
            try:
                if self.stopped:
                    raise Stopped
                pid, status, usage = os.wait4(-1, 0)
            finally:
                self.waits = False
            if pid in self.running:
                break
        one = self.running.pop(pid)
        code = 128 + os.WTERMSIG(status) if os.WIFSIGNALED(status) else os.WEXITSTATUS(status)
        one.process.returncode = code  # it was waited for here
        with open(one.output, encoding="utf-8", errors="backslashreplace") as file:
            printed = file.read()
        os.unlink(one.output)
        return one.test, Ended(
            code, printed, time.monotonic() - one.began, usage.ru_utime + usage.ru_stime
        )

    def run(self, tests: Sequence[Test], jobs: int) -> Iterator[Tuple[Test, Ended]]:
        """Runs all of these, and gives how they ended, in their order."""
        left = sorted(tests, key=lambda test: not test.first)
        ended: Dict[Test, Ended] = {}
        for test in tests:
            while test not in ended:
                while left and len(self.running) < jobs and not self.stopped:
                    self.begin(left.pop(0))
                one, how = self.wait()
                ended[one] = how
            yield test, ended.pop(test)

    def end_all(self) -> None:
        """Ends all that runs: by TERM, and what stays by KILL."""
        for number in SIGNALS:
            signal.signal(number, signal.SIG_IGN)
        for group in self.running:
            send(group, signal.SIGTERM)
        until = time.monotonic() + LONGEST_END
        while time.monotonic() < until and any(self.lives(one) for one in self.running.values()):
            time.sleep(0.1)
        for group in self.running:
            send(group, signal.SIGKILL)

    @staticmethod
    def lives(one: Running) -> bool:
        """Whether anything of a test runs on."""
        one.process.poll()
        return send(one.process.pid, 0)


def send(group: int, number: int) -> bool:
    """Sends a signal to a group, and gives whether anything was there."""
    try:
        os.killpg(group, number)
    except (ProcessLookupError, PermissionError):
        return False
    return True


class Counts:
    """How many tests ended how, and which of them are to be tried again."""

    def __init__(self) -> None:
        self.passed = self.again = self.failed = self.skipped = 0
        self.later: List[Test] = []

    def take(self, test: Test, how: Ended, second: bool = False) -> None:
        """Counts a test, and tells how it ended, with what it printed where it failed."""
        word, more = "FAILED", ""
        if how.status == 0:
            self.passed += 1
            self.again += second
            word = "ok at the second try" if second else "ok"
        elif how.status == PASSED_OVER:
            self.skipped += 1
            reasons = re.findall("^passed over: (.*)", how.printed, re.MULTILINE)
            word, more = "skipped", f" ({reasons[-1] if reasons else 'it does not say why'})"
        elif how.status == CLOCK_DECIDED and not second:
            self.later.append(test)
            word = "has a second try"
        else:
            self.failed += 1
            more = "" if how.status in (1, CLOCK_DECIDED) else f" (it ended with {how.status})"
        if word == "ok" and os.environ.get("PASSED_OVER"):  # it was only asked whether it can run
            return
        if os.environ.get("TIMES"):
            more += f" [{how.seconds:.1f} s, of processors {how.worked:.1f} s]"
        print(f"{word}: {test.name}{more}")
        if how.status not in (0, PASSED_OVER):
            print("".join(f"    {line}\n" for line in how.printed.splitlines()), end="")
        sys.stdout.flush()

    def line(self) -> str:
        """The last line."""
        if os.environ.get("PASSED_OVER"):
            return f"{self.passed} can run here, {self.skipped} cannot"
        passed = f"{self.passed} passed ({self.again} at the second try)"
        return f"{passed}, {self.failed} failed, {self.skipped} skipped"


def run_all(runner: Runner, tests: Sequence[Test], jobs: int) -> Counts:
    """Runs the tests, and once more those of which a clock decided that they fail."""
    counts = Counts()
    for test, how in runner.run(tests, jobs):
        counts.take(test, how)
    for test, how in runner.run(counts.later, 1):
        counts.take(test, how, second=True)
    return counts


def main() -> int:
    """Runs the tests that the words name."""
    about, _, more = (__doc__ or "").partition("\n\n")
    parser = argparse.ArgumentParser(
        usage="check.py [NAME..]",
        description=about,
        epilog=more,
        formatter_class=argparse.RawDescriptionHelpFormatter,
    )
    parser.add_argument(
        "names", nargs="*", metavar="NAME", help="a file, a folder or a test; without one all"
    )
    names = parser.parse_args().names
    if os.environ.get("SHELL_UNDER_TEST"):
        be_under_shell(os.environ["SHELL_UNDER_TEST"])
    jobs = int(os.environ.get("JOBS") or min(12, 3 * (os.cpu_count() or 1)))
    room = Room()
    runner: Optional[Runner] = None
    try:
        tests = joined(chosen(all_tests(room.compiled), names))
        runner = Runner(room)
        room.fill()
        counts = run_all(runner, tests, jobs)
    except Stopped:
        return 128 + (runner.stopped if runner else 0)
    finally:
        if runner:
            runner.end_all()
        room.leave()
    print(counts.line())
    return int(counts.failed > 0)


if __name__ == "__main__":
    sys.exit(main())
