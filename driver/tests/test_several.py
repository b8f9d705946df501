"""Several tests over one history, with one build a commit; and in which order outcomes are kept and
told."""
from __future__ import annotations

import json
import os
import random
import re
import signal
import stat
import subprocess
import sys
import unittest
import xml.etree.ElementTree as ElementTree
from collections import Counter
from typing import List, Optional

sys.path.insert(0, os.path.dirname(os.path.dirname(os.path.abspath(__file__))))

from git_farmdawn.telling.facts import Row  # noqa: E402
from git_farmdawn.known.outcomes import Outcomes  # noqa: E402
from git_farmdawn.known.record import Seen, Test, Told, pays  # noqa: E402
from helpers import ENGINE, ENV, LONG, SECONDS, Repository, needs_engine, wait_until  # noqa: E402
from made_search import Room  # noqa: E402
from test_ends_random import is_small_disk  # noqa: E402

# an engine that looks, at each outcome that it is told, whether so many outcomes are kept
WATCHED = """#!/usr/bin/env python3
import glob, os, subprocess, sys
engine = subprocess.Popen(['farmdawn', *sys.argv[1:]], executable=%r, stdin=subprocess.PIPE)
told = 0
for line in sys.stdin.buffer:
    if line.startswith(b'post '):
        told += 1
        kept = len(glob.glob(%r))
        with open(%r, 'a') as file:
            file.write('first ' if kept >= told else 'late ')
    engine.stdin.write(line)
    engine.stdin.flush()
engine.stdin.close()
sys.exit(engine.wait())
"""


# a test by its name, and what is told at the end; a letter c and a number stand for a commit, a
# large one for its whole name
CHECK = """n=$(cat number)
[ "$(cat built)" = "$n" ] || exit 99
case $1 in
plain) test $n -lt 10 ;;
skipped) test $n -lt 12 ;;
stuck) test $n -lt 14 ;;
stop) test $n != 7 || exit 200; test $n -lt 8 ;;
late) test $n != 6 || sleep 600; test $n -lt 7 ;;
new) test $n -ge 9 || exit 5; exit 1 ;;
fit) exit 0 ;;
ill) exit 1 ;;
low) test $n -lt 4 ;;
esac
"""
DECIDED = [
    "c10 is the first bad commit of plain",
    "skipped: one of 2 commits: c11 c12",  # the build of c11 fails
    "stuck: one of 2 commits: c13 c14",  # that of c13 takes too long
    "stop: its test of c7 ended with 200, which stops its search",
    "late: one of 2 commits: c6 c7",
    "c9 is the first bad commit of new",
    (
        "new: it was not there in [0-9]+ commits?; the commit that was found is the first one that"
        " has it"
    ),
    "fit is left out: C16 was called bad, and its test ended with 0",
    "ill is left out: C1 was called good, and its test ended with 1",
    "low: the build of c3 ended with 130, which stops its search",
]


def open_lines(path: str) -> List[str]:
    """The lines of a file."""
    with open(path, encoding="utf-8") as file:
        return file.read().splitlines()


# workers, searches that go on, seconds of a build and of the test, both None where none has ended:
# whether such a test is run ahead
AHEAD = (
    (4, 4, 20.0, 5.0, True),
    (4, 4, 20.0, 5.1, False),
    (4, 4, 2.0, 0.9, True),
    (4, 4, 2.0, 1.1, False),  # a quarter, or a second
    (3, 4, 20.0, 300.0, True),
    (4, 3, 20.0, 300.0, False),  # fewer workers than searches
    (4, 4, None, 300.0, True),
    (4, 4, 20.0, None, True),  # not known yet
)


class Ahead(Room):
    """Which tests are run where a commit stands built that their searches may ask for later."""

    def setUp(self) -> None:
        """A folder for outcomes."""
        Room.setUp(self)
        self.outcomes = Outcomes(self.room, lambda: "0" * 12, lambda text: None)

    def test_rule(self) -> None:
        """By what a build takes, and the test."""
        for workers, searches, build, seconds, due in AHEAD:
            with self.subTest(row=(workers, searches, build, seconds, due)):
                rows = [] if seconds is None else [Row("a", 0, 1.0, 1.0 + seconds, 0)]
                tests = [self.made(None, rows) for _ in range(searches)] + [self.made(0, [])]
                builds = (
                    []
                    if build is None
                    else [Row("a", 0, 1.0, 1.0 + build, 0), Row("b", 0, 1.0, 900.0, None)]
                )
                self.assertEqual(
                    pays(tests[0], tests, builds, workers), due, (workers, searches, build, seconds)
                )

    def made(self, status: Optional[int], rows: List[Row]) -> Test:
        """A test of which so much is known."""
        return Test("", [], Seen(self.outcomes, {}, rows), told=Told(status=status))


@needs_engine
class Several(unittest.TestCase):
    """Several tests."""

    def test_each_log_is_that_of_a_search_alone(self) -> None:
        """Byte for byte, whatever the others do."""
        choice = random.Random(7)
        for number in range(3):
            with self.subTest(number):
                repo = Repository(self, choice.choice([9, 24, 40]))
                tests = []
                for name in ("unit", "perf", "lint", "docs")[: choice.choice([1, 2, 4])]:
                    first, away = choice.randrange(2, repo.commits), choice.choice([3, 5, 99])
                    tests.append(
                        (
                            name,
                            (
                                f'n=$(cat number); [ $((n % {away})) -ne 1 ] || exit 125; test "$n"'
                                f" -lt {first}"
                            ),
                        )
                    )
                words = [word for name, command in tests for word in ("--test", name, command)]
                got = repo.search(
                    "--trust-ends", "--workers", str(choice.choice([1, 3, 8])), *repo.ends(), *words
                )
                parts = re.split("^# search of .*\n", got.stdout, flags=re.M)[1:]
                self.assertEqual(len(parts), len(tests), got.stderr)
                for (name, command), part in zip(tests, parts):
                    alone = repo.search(
                        "--fresh",
                        "--trust-ends",
                        "--workers",
                        "1",
                        *repo.ends(),
                        "--",
                        "sh",
                        "-c",
                        command,
                    )
                    self.assertEqual(part, alone.stdout, name)
                repo.check_left()

    def test_a_commit_is_built_once(self) -> None:
        """Also where several searches ask for it; one whose build fails is skipped in all. Those
        that are tested alone, for both of the searches that found them, are built once more."""
        repo = Repository(self, 30)
        built = repo.room + "/built"
        build = f'echo "$FARMDAWN_COMMIT" >>{built}; test "$(cat number)" != 14 && cp number binary'
        test = 'test "$(cat binary)" = "$(cat number)" || exit 255; test "$(cat binary)" -lt %d'
        got = repo.search(
            "--workers",
            "4",
            "--build",
            build,
            *repo.ends(),
            "--test",
            "a",
            test % 17,
            "--test",
            "b",
            test % 9,
            "--test",
            "c",
            test % 17,
        )
        self.assertEqual(got.returncode, 0, got.stderr)
        with open(built, encoding="utf-8") as file:
            names = file.read().split()
        again = Counter(names) - Counter(set(names))
        ends = [repo.name(commit) for commit in ("c8", "c9", "c16", "c17")]
        self.assertEqual(again - Counter(ends), Counter(), got.stderr)
        said = sum(map(int, re.findall("are tested alone: ([0-9]+) test", got.stderr)))
        self.assertEqual(bool(again), said > 0, got.stderr)
        self.assertEqual(
            [line for line in got.stdout.splitlines() if "is the first bad" in line],
            [repo.name(commit) + " is the first bad commit" for commit in ("c17", "c9", "c17")],
        )
        repo.check_left()

    def test_interrupted(self) -> None:
        """The same line goes on from the outcomes of all tests, and comes to the same answers;
        nothing that is known is tested again."""
        repo = Repository(self, 20)
        made, hold = repo.room + "/made", repo.room + "/hold"
        with open(repo.room + "/list", "w", encoding="utf-8") as file:
            file.write("5\n12\n17\n")
        test = (
            f'echo "$FARMDAWN_COMMIT $0" >>{made}; n=$(cat number); while [ -e {hold} ] && [ "$(wc'
            f' -l <{made})" -gt 4 ]; do sleep 0.1; done; [ "$n" -lt "$0" ]'
        )
        words = [
            "--trust-ends",
            "--workers",
            "2",
            "--build",
            "true",
            "--tests",
            repo.room + "/list",
            *repo.ends(),
            "--",
            "sh",
            "-c",
            test,
            "{}",
        ]
        with open(hold, "w", encoding="utf-8"):
            process = repo.begin(*words)
        wait_until(
            lambda: os.path.exists(made)
            and len(open_lines(made)) > 4
            or process.poll() is not None,
            "five tests",
        )
        process.send_signal(signal.SIGINT)
        out, told = process.communicate(timeout=SECONDS)
        self.assertEqual(process.returncode, 130, told)
        self.assertEqual(out.count("# search of "), 3)
        self.assertRegex(told, "stopped; the same line goes on from [34] outcomes")
        repo.check_left()
        os.unlink(hold)
        before = open_lines(made)
        got = repo.search(*words)
        self.assertEqual(
            re.findall("^([0-9a-f]*) is the first bad commit$", got.stdout, re.M),
            [repo.name(name) for name in ("c5", "c12", "c17")],
            got.stderr,
        )
        self.assertLessEqual(
            len(set(before) & set(open_lines(made)[len(before) :])), 2
        )  # those that were ended
        repo.check_left()

    def test_interrupted_build(self) -> None:
        """It ends with the search, with all that it started, and says nothing of its commit; the
        same line goes on."""
        repo = Repository(self, 6)
        hold, began = repo.room + "/hold", repo.room + "/began"
        with open(repo.room + "/list", "w", encoding="utf-8") as file:
            file.write("3\n5\n")
        build = f"touch {began}; [ ! -e {hold} ] || {{ setsid {LONG} & {LONG}; }}"
        words = [
            "--trust-ends",
            "--workers",
            "2",
            "--build",
            build,
            "--tests",
            repo.room + "/list",
            *repo.ends(),
            "--",
            "sh",
            "-c",
            'test $(cat number) -lt "$0"',
            "{}",
        ]
        for number, status in ((signal.SIGINT, 130), (signal.SIGKILL, -signal.SIGKILL)):
            with self.subTest(row=(number, status)):
                with open(hold, "w", encoding="utf-8"):
                    process = repo.begin(*words)
                wait_until(lambda: os.path.exists(began) or process.poll() is not None, "a build")
                process.send_signal(number)
                out, told = process.communicate(timeout=SECONDS)
                self.assertEqual(process.returncode, status, told)
                wait_until(lambda: not repo.left(), "the end of all")
                self.assertNotRegex(out + told, "(?m)^(git bisect )?(good|bad|skip) ")
                os.unlink(began)
        os.unlink(hold)
        got = repo.search(*words)
        self.assertEqual(
            re.findall("^([0-9a-f]*) is the first bad commit$", got.stdout, re.M),
            [repo.name(name) for name in ("c3", "c5")],
            got.stderr,
        )
        repo.check_left()

    def test_full_disk(self) -> None:
        """A disk that fills stops all searches; what was found before is kept, and the same line
        goes on when there is room."""
        repo = Repository(self, 20)
        state = repo.room + "/state"
        os.mkdir(state)
        if not is_small_disk(state):
            self.skipTest("no small disk can be made here")
        self.addCleanup(lambda: subprocess.run(["umount", "-l", state], check=False))
        with open(repo.room + "/list", "w", encoding="utf-8") as file:
            file.write("5\n12\n17\n")
        with open(repo.room + "/fills", "w", encoding="utf-8"):
            pass
        test = (
            f'[ "$0" != 12 ] || [ ! -e {repo.room}/fills ] || dd if=/dev/zero of={state}/fill'
            ' bs=64k 2>/dev/null; test "$(cat number)" -lt "$0"'
        )
        words = [
            "--trust-ends",
            "--workers",
            "2",
            "--state",
            state,
            "--build",
            "true",
            "--tests",
            repo.room + "/list",
            *repo.ends(),
            "--",
            "sh",
            "-c",
            test,
            "{}",
        ]
        got = repo.search(*words)
        self.assertEqual(got.returncode, 14, got.stderr)
        self.assertRegex(got.stderr, "no room in .*: a test gives no verdict there\n")
        self.assertRegex(got.stderr, "stopped; the same line goes on from [0-9]+ outcomes?")
        repo.check_left()
        os.unlink(state + "/fill")
        os.unlink(repo.room + "/fills")
        got = repo.search(*words)
        self.assertEqual(
            re.findall("^([0-9a-f]*) is the first bad commit$", got.stdout, re.M),
            [repo.name(name) for name in ("c5", "c12", "c17")],
            got.stderr,
        )
        repo.check_left()

    def test_decided(self) -> None:
        """What each test comes to, and no other one by it: limits of time, faults of the build, a
        test that is not there, ends, stops."""
        repo = Repository(self, 16)
        script = repo.room + "/check"
        with open(script, "w", encoding="utf-8") as file:
            file.write(CHECK)
        with open(repo.room + "/list", "w", encoding="utf-8") as file:
            file.write("plain\nskipped\nstuck\nstop\nlate\nnew\nfit\nill\nlow\n")
        build = (
            "case $(cat number) in 3) exit 130 ;; 11) exit 1 ;; 13) sleep 600 ;; esac; cp number"
            " built"
        )
        got = repo.search(
            "--workers",
            "4",
            "--timeout",
            "15",
            "--build-timeout",
            "12",
            "--build",
            build,
            "--missing",
            "5=good",
            "--tests",
            repo.room + "/list",
            *repo.ends(),
            "--",
            "sh",
            script,
            "{}",
        )
        self.assertEqual(got.returncode, 6, got.stderr)
        told = got.stderr[got.stderr.index(" broke with ") :]
        for line in DECIDED:
            with self.subTest(line):
                named = re.sub(
                    r"\b[cC][0-9]+",
                    lambda found: repo.name(found.group().lower())[
                        : 12 if found.group()[0] == "c" else 40
                    ],
                    line,
                )
                self.assertRegex(told, f"(?m)^{named}$")
        self.assertIn("git farmdawn: 2 of 9 tests broke with 2 commits:", got.stderr)
        repo.check_left()

    def test_together(self) -> None:
        """Tests of a commit run in its checkout at once, each with a number of its own; without
        --together one after the other."""
        repo = Repository(self, 12)
        with open(repo.room + "/list", "w", encoding="utf-8") as file:
            file.write("3\n4\n5\n")
        test = (
            f'exec 9>{repo.room}/seat."$FARMDAWN_WORKER"; flock -n 9 || exit 200; touch here."$0";'
            f' sleep 0.4; [ "$(ls -d here.* | wc -l)" = 1 ] || touch {repo.room}/at-once; rm'
            ' here."$0"; [ "$(cat number)" -lt "$0" ]'
        )
        for together in (False, True):
            with self.subTest(together):
                words = ["--together"] if together else []
                got = repo.search(
                    "--fresh",
                    "--workers",
                    "4",
                    *words,
                    "--tests",
                    repo.room + "/list",
                    *repo.ends(),
                    "--",
                    "sh",
                    "-c",
                    test,
                    "{}",
                )
                self.assertEqual(got.returncode, 0, got.stderr)
                self.assertEqual(os.path.exists(repo.room + "/at-once"), together)
                self.assertIn(f'{repo.name("c4")[:12]} is the first bad commit of 4\n', got.stderr)

    def test_together_left_out(self) -> None:
        """Tests that are left out before their first step leave those of their checkout as they
        are, whichever of them was to begin first there."""
        repo = Repository(self, 6)
        with open(repo.room + "/list", "w", encoding="utf-8") as file:
            file.write("fit.1\nfit.2\n4.1\nfit.3\n4.2\nfit.4\n4.3\nfit.5\n4.4\n")
        test = 'case $0 in fit.*) exit 0 ;; esac; test "$(cat number)" -lt "${0%.*}"'
        words = ["--fresh", "--together", "--check-ends", "--workers", "16", "--build", "sleep 0.3"]
        words += ["--tests", repo.room + "/list", *repo.ends(), "--", "sh", "-c", test, "{}"]
        for turn in range(2):
            with self.subTest(turn):
                got = repo.search(*words)
                self.assertEqual(got.returncode, 1, got.stderr)
                self.assertNotIn("Traceback", got.stderr)
                found = got.stdout.count(repo.name("c4") + " is the first bad commit")
                self.assertEqual(found, 4, got.stderr)
        repo.check_left()

    def test_needless_build(self) -> None:
        """A build that no search asks for any more is ended: where there is one test, and where
        there are two."""
        repo = Repository(self, 12)
        began = repo.room + "/began"
        with open(repo.room + "/list", "w", encoding="utf-8") as file:
            file.write("2\n3\n")
        build = f'n=$(cat number); [ "$n" -lt 8 ] || {{ touch {began}; sleep 600; }}'
        test = [
            "--",
            "sh",
            "-c",
            f'n=$(cat number); while [ ! -e {began} ]; do sleep 0.1; done; [ "$n" -lt "$0" ]',
        ]
        for words in (
            [*repo.ends(), *test, "2"],
            ["--tests", repo.room + "/list", *repo.ends(), *test, "{}"],
        ):
            with self.subTest(words):
                got = repo.search(
                    "--trust-ends",
                    "--workers",
                    "4",
                    "--build",
                    build,
                    *words,
                    env={**ENV, "FARMDAWN_NEEDED": "0"},
                )
                self.assertEqual(got.returncode, 0, got.stderr)
                self.assertRegex(got.stderr, "the build of [0-9a-f]{12} is no longer needed")
                repo.check_left()
                os.unlink(began)

    def test_not_there(self) -> None:
        """A test that is not there in old commits: a line says so, also where the answer is of kept
        outcomes, and where there is one test."""
        repo = Repository(self, 12)
        with open(repo.room + "/list", "w", encoding="utf-8") as file:
            file.write("new\nold\n")
        test = [
            "--",
            "sh",
            "-c",
            (
                "[ $0 = new ] || exec test $(cat number) -lt 9; test $(cat number) -ge 7 || exit 5;"
                " exit 1"
            ),
        ]
        for words, name in (
            (["--tests", "../list", *repo.ends(), *test, "{}"], "new"),
            ([*repo.ends(), *test, "new"], "git farmdawn: the test"),
        ):
            with self.subTest(row=(words, name)):
                told = []
                for _ in range(2):
                    got = repo.search("--missing", "5=good", *words)
                    self.assertEqual(got.returncode, 0, got.stderr)
                    told += re.findall(
                        (
                            f"(?m)^{name}: it was not there in [0-9]+ commits?; the commit that was"
                            " found is the first one that has it$"
                        ),
                        got.stderr,
                    )
                self.assertEqual(len(told), 2, told)
                self.assertEqual(told[0], told[1])

    def test_refused(self) -> None:
        """Lines that search for nothing, each with what may help."""
        repo = Repository(self, 2)
        with open(repo.room + "/list", "w", encoding="utf-8") as file:
            file.write("t1\n")
        for words, due in (
            (
                ["--tests", "../list"],
                (
                    "../list: a line NAME: COMMAND is wanted, not 't1'; or is a command missing"
                    " behind --, in which {} stands"
                ),
            ),
            (
                ["--tests", "../list", "--", "make", "test"],
                "{} in it stands for the test, as in: -- make test {}",
            ),
            (["--tests", os.devnull, "--", "make", "{}"], "/dev/null: no line is a test"),
            (["--together", "--", "make"], "--together is for several tests"),
            (["--test", "a b", "make"], "--test wants a name of at most 40 letters"),
            (["--test", 41 * "a", "make"], "--test wants a name of at most 40 letters"),
            (["--test", "a", "make", "--test", "a", "make"], "that no other test has"),
        ):
            with self.subTest(words):
                got = repo.search(*repo.ends(), *words)
                self.assertEqual((got.returncode, got.stdout), (1, ""), got.stderr)
                self.assertIn(due, got.stderr)

    def test_told_as_found(self) -> None:
        """A search that has its end is told at once, while others run; one that stands on an end
        which was not seen is not."""
        repo = Repository(self, 12)
        hold = repo.room + "/hold"
        with open(repo.room + "/list", "w", encoding="utf-8") as file:
            file.write("3\n8\n99\n")
        test = (
            f'n=$(cat number); [ "$0" != 8 ] || while [ -e {hold} ]; do sleep 0.1; done; [ "$n" -lt'
            ' "$0" ]'
        )
        with open(hold, "w", encoding="utf-8"):
            process = repo.begin(
                "--workers",
                "3",
                "--tests",
                repo.room + "/list",
                *repo.ends(),
                "--",
                "sh",
                "-c",
                test,
                "{}",
            )
        lines: List[str] = []
        assert process.stderr is not None
        for line in process.stderr:
            lines.append(line)
            if line == f'found {repo.name("c3")[:12]}  change 3  [3]\n':
                self.assertNotIn(
                    "[8]", "".join(line for line in lines if line.startswith(("good", "bad")))
                )
                os.unlink(hold)
        self.assertEqual(process.wait(SECONDS), 1, lines)
        left = [line for line in lines if re.search("commits? left, ", line)]
        self.assertTrue(
            left and all(re.search("about [0-9]+ rounds?  \\[", line) for line in left), left
        )
        self.assertEqual(
            [line for line in lines if line.startswith("found")],
            [
                f"found {repo.name(name)[:12]}  change {number}  [{number}]\n"
                for name, number in (("c3", 3), ("c8", 8))
            ],
        )
        assert process.stdout is not None
        process.stdout.close()
        process.stderr.close()

    def test_more_than_64(self) -> None:
        """They have their turns; one result for each, and all together by commit."""
        repo = Repository(self, 3)
        with open(repo.room + "/list", "w", encoding="utf-8") as file:
            file.write("".join(f"t{n}\n" for n in range(66)))
        got = repo.search(
            "--quiet",
            "--trust-ends",
            "--workers",
            "2",
            "--report",
            repo.room + "/report",
            "--tests",
            repo.room + "/list",
            *repo.ends(),
            "--",
            "sh",
            "-c",
            "case $0 in *7) exit 125 ;; t2* | t65) exit 1 ;; esac",
            "{}",
        )
        self.assertEqual(got.returncode, 2, got.stderr)
        with open(repo.room + "/report/result.json", encoding="utf-8") as file:
            facts = json.load(file)
        second = ["t2", "t20", "t21", "t22", "t23", "t24", "t25", "t26", "t28", "t29", "t65"]
        found = {answer["commit"]["name"]: answer["tests"] for answer in facts["answers"]}
        self.assertEqual(found[repo.name("c2")], second)
        self.assertEqual(len(found[repo.name("c3")]), 66 - len(second) - 6)
        self.assertEqual(
            [
                one["test"]
                for one in facts["searches"]
                if sorted(one["candidates"]) == sorted([repo.name("c2"), repo.name("c3")])
            ],
            ["t7", "t17", "t27", "t37", "t47", "t57"],
        )

    def test_report_for_a_build_server(self) -> None:
        """Each test that failed there stands in junit.xml under its own class and name, and fails
        by its commit; also in its own folder."""
        repo = Repository(self, 4)
        with open(repo.room + "/junit.xml", "w", encoding="utf-8") as file:
            file.write(
                '<testsuite><testcase classname="a.B" name="2"><failure/></testcase><testcase'
                ' classname="a.C" name="4"><error/></testcase></testsuite>'
            )
        got = repo.search(
            "--tests-from",
            "../junit.xml",
            "--report",
            "../report",
            *repo.ends(),
            "--",
            "sh",
            "-c",
            'test $(cat number) -lt "$0"',
            "{name}",
        )
        self.assertEqual(got.returncode, 0, got.stderr)
        for folder, due in (
            ("", [("a.B", "2", "c2"), ("a.C", "4", "c4")]),
            ("/a.C-4", [("a.C", "4", "c4")]),
        ):
            with self.subTest(row=(folder, due)):
                cases = list(
                    ElementTree.parse(f"{repo.room}/report{folder}/junit.xml").iter("testcase")
                )
                self.assertEqual(
                    [(case.get("classname"), case.get("name")) for case in cases],
                    [row[:2] for row in due],
                )
                for case, row in zip(cases, due):
                    self.assertIn(
                        "first bad commit: " + repo.name(row[2]), case[0].get("message", "")
                    )

    def test_kept_before_told(self) -> None:
        """An outcome is kept before the engine is told of it."""
        repo = Repository(self, 30)
        watched, order = repo.room + "/engine", repo.room + "/order"
        with open(watched, "w", encoding="utf-8") as file:
            file.write(WATCHED % (ENGINE, repo.path + "/.git/farmdawn/results-*/*.outcome", order))
        os.chmod(watched, stat.S_IRWXU)
        got = repo.search(
            "--workers",
            "3",
            "--trust-ends",
            *repo.ends(),
            "--",
            "sh",
            "-c",
            "test $(cat number) -lt 20",
            env={**ENV, "FARMDAWN": watched},
        )
        self.assertEqual(got.returncode, 0, got.stderr)
        with open(order, encoding="utf-8") as file:
            self.assertEqual(set(file.read().split()), {"first"})


if __name__ == "__main__":
    unittest.main()
