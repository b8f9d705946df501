"""--ended COMMAND: what no process of a test is, as a container, ends with it all the same; tried
with a stand-in for an engine."""
from __future__ import annotations

import json
import os
import signal
import subprocess
import time
import unittest
from typing import Dict, List, Sequence, Tuple

from helpers import ENV, LIMITS, Repository, begins_first, needs_engine, wait_until

HERE = os.path.dirname(os.path.abspath(__file__))
NAME = "fd-$FARMDAWN_WORKER-$FARMDAWN_COMMIT"
ENDED = ("--ended", f"podman rm -f -t 0 {NAME}")
RUNS = f'exec podman run --rm --name {NAME} -v "$FARMDAWN_WORKTREE:/src" -w /src debian sh -c "%s"'
LONG = "test $(cat number) -gt 10 || test $(cat number) -lt 3 || sleep 600"  # from c3 to c10


def within(words: Sequence[str], limit: int) -> List[str]:
    """The words, with this limit of seconds where one stands."""
    return [f"{limit}s" if word == "LIMIT" else word for word in words]


def enough(log: str) -> bool:
    """Whether a limit was long enough for all tests but the one that hangs."""
    return log.count("\ngit bisect skip ") <= 1


def engine_of_containers(case: unittest.TestCase, room: str) -> Dict[str, str]:
    """An environment that has `podman`: the stand-in, whose service runs as long as the test."""
    os.makedirs(room + "/bin")
    os.makedirs(room + "/containers")
    os.symlink(os.path.join(HERE, "containers.py"), room + "/bin/podman")
    env = {**ENV, "PATH": room + "/bin:" + ENV["PATH"], "CONTAINERS": room + "/containers"}
    service = subprocess.Popen(
        [room + "/bin/podman", "serve"],
        env=env,
        start_new_session=True,
        stdin=subprocess.DEVNULL,
        stdout=subprocess.DEVNULL,
    )

    def end() -> None:
        """Ends the service, and what it started."""
        subprocess.run([room + "/bin/podman", "rm", "-f", *running(env)], env=env, check=True)
        service.kill()
        service.wait()

    case.addCleanup(end)
    return env


def running(env: Dict[str, str]) -> List[str]:
    """The names of the containers that run, as `podman ps` lists them; the folder is read here, as
    it is often asked for."""
    return [name[:-4] for name in os.listdir(env["CONTAINERS"]) if name.endswith(".run")]


@needs_engine
class Ended(unittest.TestCase):
    """Each way in which a test ends that does not end by itself."""

    def begin(self, *words: str) -> Tuple[Repository, Dict[str, str], subprocess.Popen[str]]:
        """A search whose containers do not end by themselves, with two of them under way."""
        repo = Repository(self)
        env = engine_of_containers(self, repo.room)
        process = repo.begin(
            "--workers", "2", *words, *repo.ends(), "--", "sh", "-c", RUNS % LONG, env=env
        )
        wait_until(lambda: len(running(env)) == 2 or process.poll() is not None, "two containers")
        self.assertIsNone(process.poll())
        return repo, env, process

    @begins_first
    def test_signals(self) -> None:
        """A signal ends them; without the command they live on; and where the driver is killed the
        guardian runs it."""
        for words, number, left in (
            ((), signal.SIGINT, 2),
            (ENDED, signal.SIGINT, 0),
            (ENDED, signal.SIGTERM, 0),
            (ENDED, signal.SIGKILL, 0),
        ):
            with self.subTest(words=words, number=number.name):
                repo, env, process = self.begin(*words)
                process.send_signal(number)
                process.communicate(timeout=100)
                folder = repo.path + "/.git/farmdawn"
                wait_until(
                    lambda: not [name for name in os.listdir(folder) if name.startswith("run.")],
                    "the end of the folder",
                )
                self.assertEqual(len(running(env)), left)
                repo.check_left()

    @begins_first
    def test_searches(self) -> None:
        """At a limit, where nobody needs them any more, and at a deadline; a build as well as a
        test."""
        first = Repository(self)
        repo_name = first.name
        hangs = "test $(cat number) != 6 || sleep 600; test $(cat number) -lt 8"
        rows: List[Tuple[Tuple[str, ...], str, int, str]] = [
            (
                ("--timeout", "LIMIT", "--trust-ends", "--workers", "1"),
                RUNS % hangs,
                0,
                repo_name("c8"),
            ),
            (
                ("--workers", "3", "--trust-ends"),
                RUNS % "test $(cat number) -ge 6 || sleep 600; test $(cat number) -lt 7",
                0,
                repo_name("c7"),
            ),
            (("--deadline", "LIMIT", "--trust-ends", "--workers", "2"), RUNS % LONG, 25, ""),
            (
                (
                    "--build-timeout",
                    "LIMIT",
                    "--trust-ends",
                    "--workers",
                    "1",
                    "--build",
                    RUNS % hangs.split(";", 1)[0],
                ),
                "test $(cat number) -lt 8",
                0,
                repo_name("c8"),
            ),
        ]
        for words, command, status, answer in rows:
            with self.subTest(words=words):
                for limit in LIMITS:
                    repo = Repository(self)
                    env = engine_of_containers(self, repo.room)
                    line = [*ENDED, *within(words, limit), *repo.ends(), "--", "sh", "-c", command]
                    got = repo.search(*line, env={**env, "FARMDAWN_NEEDED": "0"})
                    if enough(got.stdout):
                        break
                self.assertEqual(got.returncode, status, got.stderr)
                self.assertIn(answer, got.stdout)
                self.assertEqual(running(env), [])
                repo.check_left()

    def test_command(self) -> None:
        """It is run where a test was ended alone, in its checkout, with the names of the test;
        where it fails, a line tells it once."""
        for limit in LIMITS:
            repo = Repository(self)
            note = (
                f'pwd >>{repo.room}/said; echo "$FARMDAWN_COMMIT $FARMDAWN_WORKER $FARMDAWN_WORKTREE"'
                f" >>{repo.room}/said; exit 3"
            )
            words = ("--workers", "1", "--trust-ends", "--timeout", f"{limit}s", "--ended", note)
            hangs = "test $(cat number) != 6 || sleep 600; test $(cat number) -lt 8"
            got = repo.search(*words, *repo.ends(), "--", "sh", "-c", hangs)
            if enough(got.stdout):
                break
        self.assertEqual(got.returncode, 0, got.stderr)
        with open(repo.room + "/said", encoding="utf-8") as file:
            folder, names = file.read().splitlines()
        self.assertEqual(names, f'{repo.name("c6")} 0 {folder}')
        self.assertEqual(
            got.stderr.count(f'--ended, run for {repo.name("c6")[:12]}: it ended with 3'),
            1,
            got.stderr,
        )
        repo.check_left()


@needs_engine
class Grace(unittest.TestCase):
    """A client of something elsewhere, as of a cluster, takes seconds to give it back where it is
    asked to end; the shell that started it ends at once."""

    CLIENT = (
        'cd "$0"; trap "sleep 3; rm $FARMDAWN_COMMIT; exit 1" TERM; : >$FARMDAWN_COMMIT; '
        "while :; do sleep 0.1; done"
    )

    def words(self, repo: Repository, hangs: str) -> Tuple[str, ...]:
        """The words of a test that has a client, where a test of its number says so."""
        os.makedirs(repo.room + "/taken")
        client = f"sh -c '{self.CLIENT}' {repo.room}/taken & wait"
        return "--", "sh", "-c", f"n=$(cat number); if {hangs}; then {client}; fi; test $n -lt 7"

    def check(self, repo: Repository) -> None:
        """All was given back, and nothing is left."""
        folder = repo.path + "/.git/farmdawn"
        wait_until(
            lambda: not [name for name in os.listdir(folder) if name.startswith("run.")],
            "the end of the folder",
        )
        self.assertEqual(os.listdir(repo.room + "/taken"), [])
        repo.check_left()

    def test_signals(self) -> None:
        """Where the search is ended, and where the driver is killed."""
        for number in (signal.SIGINT, signal.SIGTERM, signal.SIGKILL):
            with self.subTest(number=number.name):
                repo = Repository(self)
                words = self.words(repo, "true")
                process = repo.begin("--workers", "3", *repo.ends(), *words)
                wait_until(lambda: len(os.listdir(repo.room + "/taken")) == 3, "three clients")
                process.send_signal(number)
                process.communicate(timeout=100)
                self.check(repo)

    def test_searches(self) -> None:
        """Where nobody needs a test any more, at its limit, and at the deadline."""
        for words, hangs, status in (
            (("--workers", "4"), "[ $n -gt 9 ] || [ $n -eq 2 ]", 0),
            (("--workers", "1", "--timeout", "2s"), "[ $n -eq 8 ]", 0),
            (("--workers", "3", "--deadline", "3s"), "true", 25),
        ):
            with self.subTest(words=words):
                repo = Repository(self)
                more = ("--trust-ends", *words, *repo.ends(), *self.words(repo, hangs))
                got = repo.search(*more, env={**ENV, "FARMDAWN_NEEDED": "0"})
                self.assertEqual(got.returncode, status, got.stderr)
                self.assertNotIn("killed", got.stderr)
                self.check(repo)

    def test_stubborn(self) -> None:
        """What does not end in ten seconds is killed, and a line says so."""
        repo = Repository(self)
        command = (
            "test $(cat number) -ne 6 || { trap '' TERM; sleep 600; }; test $(cat number) -lt 8"
        )
        words = ("--workers", "1", "--trust-ends", "--timeout", "1s", *repo.ends())
        began = time.monotonic()
        got = repo.search(*words, "--", "sh", "-c", command)
        self.assertEqual(got.returncode, 0, got.stderr)
        self.assertGreater(time.monotonic() - began, 11)
        line = f"the test of {repo.name('c6')[:12]} was killed 10 s behind SIGTERM"
        self.assertEqual(got.stderr.count(line), 1, got.stderr)
        repo.check_left()


@needs_engine
class Hosts(unittest.TestCase):
    """The machine that a command runs its test on."""

    def test_hosts(self) -> None:
        """What the command writes into the file stands in the report, in one line, and no test has
        that of another one."""
        repo = Repository(self)
        command = (
            'test -s "$FARMDAWN_HOST_FILE" && exit 9; n=$(cat number); [ $((n % 2)) = 0 ] || '
            'printf "node$n\\a\\nmore\\n" >"$FARMDAWN_HOST_FILE"; test $n -lt 7'
        )
        got = repo.search(
            "--report",
            repo.room + "/report",
            "--trust-ends",
            *repo.ends(),
            "--",
            "sh",
            "-c",
            command,
        )
        self.assertEqual(got.returncode, 0, got.stderr)
        with open(repo.room + "/report/result.json", encoding="utf-8") as file:
            tests = json.load(file)["tests"]
        for one in tests:
            number = int(one["subject"].split()[1])
            self.assertEqual(
                one["host"],
                "node%d?" % number if number % 2 and one["status"] is not None else None,
            )
        self.assertTrue(any(one["host"] for one in tests))

    def test_waits(self) -> None:
        """The time in which a test waits for a machine is none of its limit; what began there and
        takes longer is skipped, and what never began is not."""
        repo = Repository(self)
        command = (
            'echo >"$FARMDAWN_HOST_FILE"; test "$FARMDAWN_TIMEOUT" = 2 || exit 9; sleep 4; '
            f"n=$(cat number); date +%s.%N >{repo.room}/at.$n; "
            'echo node >"$FARMDAWN_HOST_FILE"; [ $n -ne 6 ] || sleep 60; test $n -lt 8'
        )
        words: Tuple[str, ...] = ("--trust-ends", "--timeout", "2s", "--workers", "1")
        words += ("--report", repo.room + "/report", *repo.ends())
        env = {**ENV, "FARMDAWN_WATCH": "3"}
        got = repo.search(*words, "--", "sh", "-c", command, env=env)
        self.assertEqual(got.returncode, 0, got.stderr)
        self.assertIn(repo.name("c8") + " is the first bad", got.stdout)
        self.assertIn(" has waited for 3 s", got.stderr)
        with open(repo.room + "/report/result.json", encoding="utf-8") as file:
            tests = json.load(file)["tests"]
        for one in tests:
            is_late = one["subject"] == "change 6"
            self.assertEqual(one["outcome"] == "skipped", is_late, one)
            with open(f"{repo.room}/at.{one['subject'].split()[1]}", encoding="ascii") as file:
                # it is told in hundredths, and the time of a file is that of the last tick
                self.assertGreater(one["began"] + 0.03, float(file.read()), one)
        self.assertTrue(any(one["outcome"] == "skipped" for one in tests))

    def test_lost(self) -> None:
        """What a command tells of its machines is told once, and counted."""
        repo = Repository(self)
        command = (
            'printf "\nwas lost on n1\nwas lost on n2\n" >"$FARMDAWN_HOST_FILE"; sleep 2; '
            'printf "n3\nwas lost on n1\nwas lost on n2\nis\033 odd" >"$FARMDAWN_HOST_FILE"; '
            "test $(cat number) -lt 8"
        )
        words = ("--trust-ends", "--workers", "1", "--report", repo.room + "/report")
        got = repo.search(*words, *repo.ends(), "--", "sh", "-c", command)
        self.assertEqual(got.returncode, 0, got.stderr)
        with open(repo.room + "/report/result.json", encoding="utf-8") as file:
            tests = json.load(file)["tests"]
        for one in tests:
            self.assertEqual((one["host"], one["lost"]), ("n3", 2))
            for host in ("n1", "n2"):
                with self.subTest(host):
                    line = f"git farmdawn: the test of {one['commit'][:12]} was lost on {host}\n"
                    self.assertEqual(got.stderr.count(line), 1, got.stderr)
        self.assertNotIn("odd", got.stderr)  # no whole line
        with open(repo.room + "/report/summary.md", encoding="utf-8") as file:
            self.assertIn(f"; {2 * len(tests)} more tests lost with a machine", file.read())


if __name__ == "__main__":
    unittest.main()
