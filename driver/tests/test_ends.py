"""However a search ends, its tests end with it, nothing of it is left, and the same line goes
on."""
from __future__ import annotations

import os
import pty
import re
import signal
import subprocess
import time
import unittest
from typing import List

from helpers import DRIVER, ENV, LIMITS, LONG, Repository, needs_engine, wait_until

# a test that leaves two processes, one of them in a session of its own
LEAVES = f'touch "$0/began.$FARMDAWN_COMMIT"; {LONG} & setsid {LONG} & {LONG}'


def children(pid: int, word: str = "") -> List[int]:
    """The processes that a process started, of whose words one has this."""
    rows = subprocess.run(
        ["ps", "--ppid", str(pid), "-o", "pid=,args="], stdout=subprocess.PIPE, text=True
    ).stdout.splitlines()
    return [int(row.split()[0]) for row in rows if word in row]


@needs_engine
class Ends(unittest.TestCase):
    """Signals, kills, a deadline, a lost engine."""

    def begin(self, repo: Repository, *words: str) -> subprocess.Popen[str]:
        """A search whose three tests do not end by themselves."""
        process = repo.begin(
            "--workers", "3", *words, *repo.ends(), "--", "sh", "-c", LEAVES, repo.room
        )
        wait_until(
            lambda: sum(name.startswith("began.") for name in os.listdir(repo.room)) >= 3
            or process.poll() is not None,
            "three tests",
        )
        self.assertIsNone(
            process.poll(), process.poll() is not None and process.stderr and process.stderr.read()
        )
        return process

    def test_signals(self) -> None:
        """Each ends all, and prints the log so far."""
        for number, status in ((signal.SIGINT, 130), (signal.SIGTERM, 143), (signal.SIGHUP, 129)):
            with self.subTest(number.name):
                repo = Repository(self)
                process = self.begin(repo)
                process.send_signal(number)
                out, told = process.communicate(timeout=60)
                self.assertEqual(process.returncode, status, told)
                self.assertIn("git bisect start", out)
                self.assertIn("stopped; the same line goes on from 0 outcomes", told)
                repo.check_left()

    def test_deadline(self) -> None:
        """The time is over: a status of its own."""
        repo = Repository(self)
        got = repo.search(
            "--workers", "3", "--deadline", "4s", *repo.ends(), "--", "sh", "-c", LEAVES, repo.room
        )
        self.assertEqual(got.returncode, 25, got.stderr)
        self.assertIn("git bisect start", got.stdout)
        self.assertIn(
            "the time of --deadline is over, and no test has ended; does one hang? --timeout ends"
            " it: stopped; the same line goes on from 0 outcomes",
            got.stderr,
        )
        repo.check_left()
        # the first one ends, and no other
        slow = (
            '[ -e "$0/first" ] || echo "$FARMDAWN_COMMIT" >"$0/first"; [ "$(cat "$0/first")" ='
            ' "$FARMDAWN_COMMIT" ] || sleep 600; test $(cat number) -lt 7'
        )
        for limit in LIMITS:
            words = ("--workers", "1", "--trust-ends", "--deadline", f"{limit}s", *repo.ends())
            got = repo.search(*words, "--", "sh", "-c", slow, repo.room)
            if got.returncode != 25:
                break
        self.assertEqual(got.returncode, 24, got.stderr)
        self.assertIn("the time of --deadline is over: stopped; the same line goes", got.stderr)
        repo.check_left()

    def test_few_files(self) -> None:
        """Where the system lets it open too few files, a line says so, and nothing is left, by the
        guardian at last."""
        repo = Repository(self)
        for files in (12, 14, 16):
            with self.subTest(files):
                done = repo.run(
                    "sh",
                    "-c",
                    f'ulimit -n {files}; exec git farmdawn "$@"',
                    "sh",
                    *repo.ends(),
                    "--",
                    "true",
                    check=False,
                )
                self.assertEqual(
                    (done.returncode, done.stdout.count("first bad")), (12, 0), done.stderr
                )
                self.assertRegex(
                    done.stderr.splitlines()[-1],
                    "Too many open files; fewer --workers need fewer$|: stopped; ",
                )
                wait_until(lambda: not repo.left(), "the guardian has removed the folder")

    def test_killed(self) -> None:
        """Where the driver is killed, the guardian ends all and removes the folders; also one that
        came for another one."""
        for with_guardian in (False, True):
            with self.subTest(with_guardian):
                repo = Repository(self)
                process = self.begin(repo)
                if with_guardian:
                    first = self.guardian_of(process.pid)
                    os.kill(first, signal.SIGKILL)
                    wait_until(
                        lambda: self.guardian_of(process.pid) not in (0, first), "another guardian"
                    )
                process.kill()
                process.communicate()
                folder = repo.path + "/.git/farmdawn"
                wait_until(
                    lambda: not [name for name in os.listdir(folder) if name.startswith("run.")],
                    "the end of the folder",
                )
                repo.check_left()

    @staticmethod
    def guardian_of(pid: int) -> int:
        """The child that is neither the engine nor a test: it has the words of the driver."""
        with open(f"/proc/{pid}/cmdline", "rb") as file:
            words = file.read()
        for child in children(pid):
            try:
                with open(f"/proc/{child}/cmdline", "rb") as file:
                    if file.read() == words:
                        return child
            except OSError:
                continue
        return 0

    def test_prompt(self) -> None:
        """What takes long to remove is removed behind the end, and whoever reads the outputs does
        not wait for it: here the guardian cannot go on before that."""
        fills = 'cd "$FARMDAWN_BUILD" && seq 1200 | xargs touch && touch "$0/began" && '
        waits = 'until [ -e "$0/go" ]; do sleep 0.1; done; exit 1'
        for is_stopped, status in ((False, 0), (True, 130)):
            with self.subTest(is_stopped):
                repo = Repository(self)
                words = ["-j", "1", "--trust-ends", *repo.ends(), "--", "sh", "-c", fills + waits]
                process = repo.begin(*words, repo.room)
                wait_until(lambda: os.path.exists(repo.room + "/began"), "a test")
                guardian = self.guardian_of(process.pid)
                os.kill(guardian, signal.SIGSTOP)
                try:
                    repo.sh("touch ../go")
                    if is_stopped:
                        process.send_signal(signal.SIGINT)
                    _, told = process.communicate(timeout=60)
                    self.assertEqual(process.returncode, status, told)
                    self.assertRegex(" ".join(repo.left()), r"^run\.[0-9a-f]+$")
                finally:
                    os.kill(guardian, signal.SIGCONT)
                wait_until(lambda: not repo.left(), "the guardian has removed the folder")

    def test_engine_killed(self) -> None:
        """Another engine goes on from the outcomes: the same log and answer."""
        repo = Repository(self, 30)
        command = (
            f"touch {repo.room}/began; sleep 0.3; n=$(cat number); [ $((n % 7)) -ne 1 ] || exit"
            " 125; test $n -lt 20"
        )
        due = repo.search("--workers", "1", "--trust-ends", *repo.ends(), "--", "sh", "-c", command)
        for pause in (0.0, 0.4, 0.9):
            with self.subTest(pause):
                os.unlink(repo.room + "/began")
                process = repo.begin(
                    "--fresh",
                    "--workers",
                    "4",
                    "--trust-ends",
                    *repo.ends(),
                    "--",
                    "sh",
                    "-c",
                    command,
                )
                wait_until(
                    lambda: os.path.exists(repo.room + "/began") and children(process.pid, "serve"),
                    "the engine",
                )
                time.sleep(pause)
                os.kill(children(process.pid, "serve")[0], signal.SIGKILL)
                out, told = process.communicate(timeout=100)
                self.assertEqual((process.returncode, out), (due.returncode, due.stdout), told)
                self.assertIn("farmdawn ended with -9; another one goes on", told)
                repo.check_left()

    def test_other_files(self) -> None:
        """What a git folder that came from elsewhere names is not removed, and an old folder
        without a lock is."""
        repo = Repository(self)
        other = repo.room + "/mine.farmdawn.1"
        os.makedirs(other)
        with open(other + "/precious", "w", encoding="utf-8") as file:
            file.write("x")
        for name in ("evil", "old"):
            os.makedirs(f"{repo.path}/.git/farmdawn/run.{name}/places")
        with open(repo.path + "/.git/farmdawn/run.evil/places/0", "w", encoding="utf-8") as file:
            file.write(other + "\n1 2\n")
        with open(repo.path + "/.git/farmdawn/run.old/places/0", "w", encoding="utf-8") as file:
            file.write(other + "\n")
        open(repo.path + "/.git/farmdawn/run.evil/lock", "w", encoding="utf-8").close()
        os.utime(repo.path + "/.git/farmdawn/run.old", (1, 1))
        got = repo.search(*repo.ends(), "--", "sh", "-c", "test $(cat number) -lt 7")
        self.assertEqual(got.returncode, 0, got.stderr)
        self.assertEqual(os.listdir(other), ["precious"])
        self.assertEqual(
            [name for name in os.listdir(repo.path + "/.git/farmdawn") if name.startswith("run.")],
            [],
        )

    def test_not_kept(self) -> None:
        """An outcome that cannot be kept, as on a disk that is full, is not told either."""
        repo = Repository(self)
        command = (
            'mkdir "$(echo "$0"/results-*)/$FARMDAWN_COMMIT.outcome"; test $(cat number) -lt 7'
        )
        got = repo.search(
            "--state",
            repo.room + "/state",
            *repo.ends(),
            "--",
            "sh",
            "-c",
            command,
            repo.room + "/state",
        )
        self.assertEqual(got.returncode, 14, got.stderr)
        self.assertIn("testing", got.stderr)
        self.assertNotRegex(got.stderr, "(?m)^(good|bad) ")
        self.assertIn("goes on from", got.stderr)
        repo.check_left()

    def test_without_output(self) -> None:
        """A caller that wants no output is not one that has closed it."""
        repo = Repository(self)
        command = ("--", "sh", "-c", "test $(cat number) -lt 7")
        rows = [
            (("--quiet",), "out", 0),
            (("--report", repo.room + "/report"), "out", 0),
            ((), "both", 0),
            ((), "out", 13),
        ]
        for words, which, status in rows:
            with self.subTest((words, which)):
                more = {"stderr": subprocess.DEVNULL} if which == "both" else {}
                got = repo.search(
                    "--fresh", *words, *repo.ends(), *command, stdout=subprocess.DEVNULL, **more
                )
                self.assertEqual(got.returncode, status, got.stderr)
        self.assertIn("result.json", os.listdir(repo.room + "/report"))

    def test_several_at_once(self) -> None:
        """Searches with --fresh and --prune beside each other have their answers, and checkouts of
        their own."""
        repo = Repository(self)
        due = repo.name("c7") + " is the first bad commit"
        processes = [
            repo.begin(
                "--fresh",
                "--workers",
                "2",
                *repo.ends(),
                "--",
                "sh",
                "-c",
                "sleep 0.1; test $(cat number) -lt 7",
            )
            for _ in range(4)
        ]
        while any(process.poll() is None for process in processes):
            repo.search("--prune")
        for process in processes:
            out, told = process.communicate(timeout=60)
            self.assertEqual(out.splitlines()[-1:], [due], told)
        repo.check_left()


@needs_engine
class Terminal(unittest.TestCase):
    """Ctrl-C: git and the driver are in the foreground group, and git hands the signal on, so that
    the driver gets it twice."""

    def test_ctrl_c(self) -> None:
        """At many moments, also while Python starts: no traceback, and nothing is left."""
        repo = Repository(self, 30)
        for tool in (["git", "farmdawn"], [os.path.join(DRIVER, "git-farmdawn")]):
            for pause in (0.05, 0.3, 1.5):
                with self.subTest(tool=tool, pause=pause):
                    words = [
                        *tool,
                        "--fresh",
                        "--workers",
                        "3",
                        *repo.ends(),
                        "--",
                        "sh",
                        "-c",
                        f"{LONG} & {LONG}",
                    ]
                    out = self.interrupt(words, repo.path, pause)
                    self.assertNotIn(b"Traceback", out)
                    # git that gets it before it has noted its command ends at once, and the command
                    # behind it
                    wait_until(lambda: not repo.left(), "the end of all", 30)

    @staticmethod
    def interrupt(words: List[str], folder: str, pause: float) -> bytes:
        """What it prints on a terminal on which Ctrl-C is typed a while behind it has one."""
        has_terminal, tells = os.pipe()
        pid, fd = pty.fork()
        if pid == 0:
            # up to the exec it is a copy of this process, whose handler prints where it was
            signal.signal(signal.SIGINT, signal.SIG_DFL)
            os.chdir(folder)
            os.write(tells, b".")
            os.execvpe(words[0], words, {**ENV, "TERM": "dumb"})
        os.close(tells)
        os.read(has_terminal, 1)
        os.close(has_terminal)
        time.sleep(pause)
        os.write(fd, b"\x03")
        out = b""
        while True:
            try:
                part = os.read(fd, 4096)
            except OSError:
                break
            if not part:
                break
            out += part
        os.waitpid(pid, 0)
        return re.sub(rb"\s+", b" ", out)


if __name__ == "__main__":
    unittest.main()
