"""Whole searches whose outcomes can be seen to be wrong, or that travel; and what a person sees on
a terminal."""
from __future__ import annotations

import fcntl
import json
import os
import pty
import re
import select
import shutil
import struct
import subprocess
import termios
import time
import unittest
from typing import List, Tuple

from helpers import DRIVER, ENV, LONG, SECONDS, Repository, needs_engine, needs_program

LATE_BUILD = "its build took longer than its time limit"
BAD_FROM_7 = "[ $(cat number) -lt 7 ]"
# bad from 7 on, and c3, which tests of four workers come to, too
ODD = BAD_FROM_7 + " && [ $(cat number) != 3 ]"


def command(script: str) -> List[str]:
    """The words behind the ends."""
    return ["--", "sh", "-c", script]


def told(done: subprocess.CompletedProcess[str]) -> List[str]:
    """The lines of the standard error that are no verdict."""
    return [line for line in done.stderr.splitlines() if "testing" not in line]


@needs_engine
class Wrong(unittest.TestCase):
    """Outcomes that can be seen to be wrong."""

    def test_command_that_fails_everywhere(self) -> None:
        """Nothing is found by it, with any number of workers and the ends beside each other or
        not."""
        repo = Repository(self)
        for words in (
            ["c12", "c1"],
            ["c2", "c1"],
            ["-j", "1", "c12", "c1"],
            ["-j", "16", "c12", "c1"],
        ):
            with self.subTest(words):
                for script, what in (("exit 3", "c1"), ("exit 0", words[-2])):
                    done = repo.search("--fresh", *words, *command(script))
                    self.assertEqual(done.returncode, 1, done.stderr)
                    self.assertEqual(done.stdout, "")
                    called = "good" if what == "c1" else "bad"
                    self.assertTrue(
                        any(
                            "%s was called %s, and its test ended with" % (repo.name(what), called)
                            in line
                            for line in told(done)
                        ),
                        done.stderr,
                    )
        done = repo.search("--fresh", "--trust-ends", "c12", "c1", *command("exit 3"))
        self.assertEqual(done.returncode, 0)
        self.assertIn("no test was good, and %s was not tested" % repo.name("c1")[:12], done.stderr)
        repo.check_left()

    def test_end_that_cannot_be_tested(self) -> None:
        """A skip of an end is no word against it."""
        repo = Repository(self)
        done = repo.search(
            "c12", "c1", *command("case $(cat number) in 1 | 12) exit 125 ;; esac; " + BAD_FROM_7)
        )
        self.assertEqual(done.returncode, 0, done.stderr)
        self.assertIn(repo.name("c7") + " is the first bad commit", done.stdout)

    def test_end_that_cannot_be_built(self) -> None:
        """Its build is told as such, and counts as no test: on the standard error and in the
        report, for one test and for several, and whether or not an earlier run found it."""
        repo = Repository(self)
        bad = repo.name("c12")
        build = ["--build", "test $(cat number) != 12"]
        several = ["--test", "one", BAD_FROM_7, "--test", "two", BAD_FROM_7]
        for tests in (command(BAD_FROM_7), several):
            for options, how, status in (
                (["--check-ends", "--fresh"], "its build failed", 1),
                (["--check-ends"], "an earlier run skipped it", 1),
                (["--fresh"], None, 0),
            ):
                with self.subTest(tests=tests, options=options):
                    line = [*options, *build, "--report", "../report", *repo.ends(), *tests]
                    done = repo.search(*line)
                    self.assertEqual(done.returncode, status, done.stderr)
                    self.assertNotIn("ended with 125", done.stderr)
                    if how:
                        self.assertIn("%s was called bad, and %s" % (bad, how), done.stderr)
                    folder = repo.room + "/report/" + ("one/" if tests is several else "")
                    with open(folder + "result.json", encoding="utf-8") as file:
                        facts = json.load(file)
                    rows = [one for one in facts["tests"] if one["commit"] == bad]
                    self.assertFalse(any(one["ran"] for one in rows), rows)
                    found = (how,) if how else ("its build failed", None)  # where it was tested
                    self.assertIn(facts["ends"][0]["how"], found)
                    if tests is not several and not status:
                        ran = sum(one["ran"] for one in facts["tests"])
                        self.assertRegex(done.stderr, r"builds?, %d tests? \(" % ran)
                    with open(folder + "index.html", encoding="utf-8") as page:
                        self.assertNotIn("ended with 125", page.read())

    def test_ends_early(self) -> None:
        """With six workers the ends are tested with the first commits, with five behind them."""
        waits = "; until [ $(ls $0 | grep -c began) -ge %d ]; do sleep 0.1; done; "
        rows: List[Tuple[int, List[str], bool]] = [
            (5, [], False),
            (6, [], True),
            (7, [], True),
            (6, ["--trust-ends"], False),
        ]
        for workers, words, is_early in rows:
            with self.subTest(workers=workers, words=words):
                repo = Repository(self, 40)
                script = 'touch "$0/began.$FARMDAWN_COMMIT"' + waits % workers + BAD_FROM_7
                line = ["-j", str(workers), *words, *repo.ends(), *command(script), repo.room]
                done = repo.search(*line)
                self.assertEqual(done.returncode, 0, done.stderr)
                first = re.findall("testing ([0-9a-f]+)", done.stderr)[:workers]
                ends = [repo.name(end)[:12] in first for end in repo.ends()]
                self.assertEqual(ends, [is_early] * 2)

    def test_skips_alone(self) -> None:
        """Behind ten skips, and no other outcome, the ends are tested. Where one is skipped, too,
        the search ends; an outcome before that, or ends as they were called, let it go on."""
        count, always = "echo >>$ROOM/count; ", "exit 125"
        but_ends = "case $(cat number) in 1) ;; 30) exit 1 ;; *) exit 125 ;; esac"
        but_one = "case $(cat number) in 15) ;; *) exit 125 ;; esac"
        two = ["--test", "one", "true", "--test", "two", "true"]
        for words, status, least, most in (
            (["-j", "1", *command(count + always)], 1, 11, 11),
            (["-j", "2", *command(count + always)], 1, 11, 13),
            (["-j", "4", *command(count + always)], 1, 11, 18),
            (["-j", "8", *command(count + always)], 1, 12, 20),
            (["-j", "2", "--trust-ends", *command(count + always)], 2, 28, 28),
            (["-j", "2", *command(count + but_ends)], 2, 30, 30),
            (["-j", "1", *command(count + but_one)], 2, 16, 30),
            (["-j", "2", "--build", count + always, *command("true")], 1, 11, 13),
            (["-j", "2", "--build", count + always, *two], 1, 11, 16),
        ):
            with self.subTest(words=words):
                repo = Repository(self, 30)
                env = {**ENV, "ROOM": repo.room}
                ends = words.index("--") if "--" in words else len(words)
                line = [*words[:ends], *repo.ends(), *words[ends:]]
                done = repo.search(*line, env=env)
                self.assertEqual(done.returncode, status, done.stderr)
                tests = len(repo.sh("cat ../count"))
                self.assertTrue(least <= tests <= most, (tests, done.stderr))
                wrong = r" was called \w+, and its (test ended with 125|build failed); 1\d commits"
                wrong += " were skipped, and none was good or bad"
                self.assertEqual(bool(re.search(wrong, done.stderr)), status == 1, done.stderr)
                if status == 1:  # what was found is known
                    repo.search(*line, env=env)
                    self.assertEqual(len(repo.sh("cat ../count")), tests)

    def test_reasons(self) -> None:
        """The first failure and the first skip are told with their reason and the last lines of
        their output, all others without; an end that was skipped at its limit, too."""
        repo = Repository(self)
        speaks = "echo first; seq 9; echo number $(cat number); "
        rows: List[Tuple[List[str], str, str, str, int]] = [
            ([], "exit 3", "bad", "its test ended with 3", 3),
            ([], "exit 125", "skip", "its test ended with 125", 3),
            (["--timeout", "1s"], LONG, "skip", "its test took longer than --timeout", 3),
            (["--build", "seq 9; exit 4"], "true", "skip", "its build failed", 3),
            (["--build", LONG, "--build-timeout", "1s"], "true", "skip", LATE_BUILD, 1),
            (["--quiet"], "exit 3", "", "its test ended with 3", 0),
            (["--fixed"], "exit 3", "broken", "its test failed", 3),
            (["--fixed"], "exit 125", "skip", "its test ended with 125", 3),
            (["--fixed"], "exit 0", "", "its test ended with 0", 0),
        ]
        for words, script, kind, why, count in rows:
            with self.subTest(words=words, script=script):
                line = ["--fresh", "-j", "1", "--trust-ends", *words, "c4", "c1"]
                done = repo.search(*line, *command(speaks + script))
                told_lines = done.stderr.splitlines()
                at = [number for number, row in enumerate(told_lines) if row == "    " + why]
                self.assertEqual(len(at), int(bool(kind)), done.stderr)
                if kind:
                    self.assertRegex(told_lines[at[0] - 1], "^%s  +[0-9a-f]{12}  change" % kind)
                    shown = told_lines[at[0] + 1 : at[0] + 1 + count]
                    self.assertTrue(all(row.startswith("    ") for row in shown), done.stderr)
        done = repo.search("--check-ends", "--timeout", "1s", "c4", "c1", *command(LONG))
        self.assertIn("was called bad, and its test took longer than --timeout", done.stderr)
        self.assertNotIn("ended with 125", done.stderr)

    @needs_program
    def test_contradiction(self) -> None:
        """It is told, and stands in the report and in the certificate; the answer and its status
        are what they were."""
        repo = Repository(self)
        repo.search("--check-ends", "c3", "c2", *command(ODD))  # so its outcome is known
        done = repo.search(
            "--report", "../report", "--certificate", "../answer", "c12", "c1", *command(ODD)
        )
        self.assertEqual(done.returncode, 0, done.stderr)
        self.assertIn("1 outcome contradicts the answer", done.stderr)
        self.assertIn(
            "%s: it is bad, and does not have the first bad commit (1)" % repo.name("c3")[:12],
            done.stderr,
        )
        with open(repo.room + "/report/result.json", encoding="utf-8") as file:
            found = json.load(file)["contradictions"]
        self.assertEqual(
            [(one["commit"], one["outcome"], one["status"]) for one in found],
            [(repo.name("c3"), "bad", 1)],
        )
        with open(repo.room + "/report/index.html", encoding="utf-8") as page:
            self.assertIn("it is bad, and does not have the first bad commit", page.read())
        checked = repo.search("--check", "../answer")
        self.assertEqual(checked.returncode, 0, checked.stderr)
        self.assertIn("1 further outcome contradicts it: " + repo.name("c3")[:12], checked.stdout)

    def test_unkept(self) -> None:
        """What is built, and is removed as git does not ignore it, is told once."""
        repo = Repository(self)
        for ignored, made, told in (
            ("none", "echo >x.o", "x.o"),
            ("none", "mkdir -p b/c; echo >b/c/x.o", "b/c/x.o"),
            ("*.o", "echo >x.o", ""),
            ("b", "mkdir -p b; echo >b/x.o", ""),
            ("none", "echo >x.log", ""),
        ):
            with self.subTest((ignored, made)):
                repo.sh(f"echo '{ignored}' >.git/info/exclude")
                test = f"{made}; test $(cat number) -lt 7"
                words = ["--fresh", "--workers", "1", *repo.ends(), "--", "sh", "-c", test]
                lines = repo.search(*words).stderr.split("\n")
                found = [line for line in lines if "does not ignore what is built" in line]
                self.assertEqual(len(found), bool(told), lines)
                self.assertTrue(all(f"as {told}: it is removed" in line for line in found), found)

    def test_large_commit(self) -> None:
        """Of a long message and of many files the first are shown, and how many files there are."""
        repo = Repository(self)
        repo.sh("seq 40 | xargs touch; git add .; (echo long; echo; seq 30) | git commit -qF -")
        done = repo.search("-j", "1", "--trust-ends", "main", "c12", *command("true"))
        shown = done.stderr[done.stderr.index("commit " + repo.name("main")) :].splitlines()[:24]
        self.assertRegex(shown[-1], "^ 40 files changed")
        self.assertIn("    ..", shown)
        self.assertEqual(sum(" | " in line for line in shown), 12, done.stderr)

    def test_shallow(self) -> None:
        """Ends that have no common history in a shallow clone are no search; deep enough they
        are."""
        repo = Repository(self)
        for depth, status in ((4, 8), (12, 0)):
            with self.subTest(row=(depth, status)):
                clone = "%s/clone%d" % (repo.room, depth)
                repo.run("git", "clone", "-q", "--depth", str(depth), "file://" + repo.path, clone)
                repo.run("git", "fetch", "-q", "--depth", "1", "origin", "tag", "c1", cwd=clone)
                done = repo.search("HEAD", "c1", *command(BAD_FROM_7), cwd=clone)
                self.assertEqual(done.returncode, status, done.stderr)
                if status:
                    self.assertIn("git fetch --unshallow --tags brings the rest", done.stderr)
                lacking = repo.search("HEAD", "v9", *command(BAD_FROM_7), cwd=clone)
                self.assertIn("this clone is shallow", lacking.stderr)

    def test_told_before(self) -> None:
        """Swapped ends, no common history, changes, and paths that lead back."""
        repo = Repository(self)
        self.assertIn("are the two swapped?", repo.search("c1", "c12", *command("true")).stderr)
        repo.search("--check-ends", "c12", "c1", *command(BAD_FROM_7))
        self.assertIn(
            "the two seem to be swapped", repo.search("c1", "c12", *command(BAD_FROM_7)).stderr
        )
        for word, meant in (
            ("mian", "; did you mean main?"),
            ("c122~2^", "; did you mean c12~2^?"),
            ("c12^{tree}", "; c12 is one"),
            ("c12~99", "; c12 is one"),
            ("nothing", ""),
            ("~2", ""),
        ):
            with self.subTest(row=(word, meant)):
                told = repo.search(word, "c1", *command("true")).stderr
                self.assertEqual(told, f"git farmdawn: {word}: no commit of that name{meant}\n")
        repo.sh(
            "git checkout -q --orphan apart && git commit -q -m apart && git checkout -q -f main"
        )
        done = repo.search("c12", "apart", *command(BAD_FROM_7))
        self.assertIn("have no common history", done.stderr)
        repo.sh("echo 13 >number")
        test, env = "test $(cat n*) -lt 7", dict(ENV, PYTHONPATH=repo.path + "/src")
        done = repo.search("c12", "c1", *command(test), env=env)
        self.assertIn("the changes of 1 file are not committed, and not tested", done.stderr)
        self.assertIn("PYTHONPATH leads to %s/src" % repo.path, done.stderr)
        repo.sh(
            "mkdir -p .venv/bin && touch .venv/pyvenv.cfg && ln -s /usr/bin/python3"
            " .venv/bin/python"
        )
        done = repo.search(
            "c12",
            "c1",
            "--",
            ".venv/bin/python",
            "-c",
            'import sys; sys.exit(int(open("number").read()) > 6 or ".venv" not in sys.executable)',
        )
        self.assertIn(
            (
                ".venv/bin/python is of a virtual environment in the work tree; it is run by its"
                " full name"
            ),
            done.stderr,
        )
        self.assertIn(repo.name("c7") + " is the first bad commit", done.stdout)
        self.assertIn(
            "a line of sh is: -- sh -c 'make -s test'",
            repo.search("c12", "c1", "--", "make -s test").stderr,
        )
        os.makedirs(repo.path + "/mine")
        self.assertIn(
            "the folder mine is not tracked", repo.search("c12", "c1", "--", "ls", "mine").stderr
        )
        repo.sh("touch .gitmodules")
        self.assertIn(
            "checkouts have no submodules",
            repo.search("c12", "c1", "--", "true", cwd=repo.path + "/mine").stderr,
        )
        repo.sh("echo mine >>.git/info/exclude")
        self.assertNotIn("the folder mine", repo.search("c12", "c1", "--", "ls", "mine").stderr)


@needs_engine
class Travel(unittest.TestCase):
    """State that is carried to another clone."""

    def test_state(self) -> None:
        """What was found serves in a clone, for the same command and the same contents of its files
        alone."""
        repo = Repository(self)
        with open(repo.path + "/check.sh", "w", encoding="utf-8") as file:
            file.write('echo >>"$COUNT"; ' + BAD_FROM_7)
        clone, count = repo.room + "/elsewhere/clone", repo.room + "/count"
        env = dict(ENV, COUNT=count)
        words = ["--trust-ends", "--state", "../state", "c1..main", "--", "sh", "check.sh"]
        first = repo.search(*words, env=env)
        self.assertEqual(first.returncode, 0, first.stderr)
        self.assertFalse(
            [
                name
                for name in os.listdir(repo.path + "/.git/farmdawn")
                if name.startswith("results-")
            ]
        )
        repo.run("git", "clone", "-q", repo.path, clone)
        shutil.copytree(repo.room + "/state", os.path.dirname(clone) + "/state")
        shutil.copy(repo.path + "/check.sh", clone)
        os.unlink(count)
        again = repo.search(*words, env=env, cwd=clone)
        self.assertEqual(again.stdout, first.stdout)
        self.assertFalse(os.path.exists(count), again.stderr)
        self.assertIn("outcomes of earlier runs are known", again.stderr)
        with open(clone + "/check.sh", "a", encoding="utf-8") as file:
            file.write("\n")
        other = repo.search(*words, env=env, cwd=clone)
        self.assertEqual(other.stdout, first.stdout)
        self.assertTrue(os.path.exists(count))
        done = repo.search("--prune", "--state", "../state")
        self.assertIn("removed what 1 search had kept", done.stderr)
        self.assertEqual(os.listdir(repo.room + "/state"), [])

    def test_other_test(self) -> None:
        """The words are the same, and what they lead to is not: what the earlier test told is not
        taken."""
        repo = Repository(self)
        script = "#!/bin/sh\n[ $(cat number) -lt %d ]\n"
        for name in ("bin", "tools", "repository/d"):
            os.mkdir(os.path.join(repo.room, name))
        repo.sh("ln -s ../tools/t.sh linked.sh; ln -s one d/limit; echo 3 >d/one; echo 7 >d/two")
        rows = (
            (["mytest"], "bin/mytest"),
            (["sh", "linked.sh"], "tools/t.sh"),
            (["sh", "../tools/t.sh"], "tools/t.sh"),
            (["sh", "-c", "[ $(cat number) -lt $(cat d/limit) ]"], ""),
        )
        for words, file in rows:
            for limit in (3, 7):
                with self.subTest(limit):
                    path = os.path.join(repo.room, file or "unused")
                    with open(path, "w", encoding="utf-8") as out:
                        out.write(script % limit)
                    os.chmod(path, 0o755)
                    repo.sh("ln -sfn %s d/limit" % {3: "one", 7: "two"}[limit])
                    env = dict(ENV, PATH=repo.room + "/bin:" + ENV["PATH"])
                    done = repo.search(
                        *([] if file else ["--copy", "d"]), "c12", "c1", "--", *words, env=env
                    )
                    self.assertEqual(
                        done.stdout.splitlines()[-1:],
                        [repo.name("c%d" % limit) + " is the first bad commit"],
                        done.stderr,
                    )

    def test_replay(self) -> None:
        """Each front of a log goes on to the same end, and its marks are not tested again."""
        repo = Repository(self)
        whole = repo.search("-j", "1", "c12", "c1", *command(BAD_FROM_7)).stdout.splitlines()
        begin = next(at for at, line in enumerate(whole) if line.startswith("git bisect start")) + 1
        for length in range(begin, len(whole) - 1):
            with open(repo.room + "/log", "w", encoding="utf-8") as file:
                file.write("\n".join(whole[:length]) + "\n")
            done = repo.search("--fresh", "-j", "1", "--replay", "../log", *command(BAD_FROM_7))
            self.assertEqual(done.stdout.splitlines()[-1], whole[-1], done.stderr)
            due = [line for line in whole if line.startswith("git bisect ")]
            got = [line for line in done.stdout.splitlines() if line.startswith("git bisect ")]
            self.assertEqual(got, due)
            marked = {
                line.split()[-1][:12]
                for line in whole[:length]
                if line.startswith(("git bisect good", "git bisect bad"))
            }
            self.assertFalse(marked & set(re.findall("testing ([0-9a-f]{12})", done.stderr)))
        for text in ("", "git bisect good c3\n", "git bisect start c12 nowhere\n"):
            with self.subTest(text):
                with open(repo.room + "/log", "w", encoding="utf-8") as file:
                    file.write(text)
                self.assertIn(
                    repo.search("--replay", "../log", *command("true")).returncode, (8, 10, 17)
                )
        self.assertEqual(repo.search("--replay", "../nowhere", *command("true")).returncode, 16)

    def test_fresh_is_told(self) -> None:
        """What goes on is the line without --fresh."""
        repo = Repository(self)
        done = repo.search("--fresh", "--deadline", "1", "c12", "c1", *command("sleep 600"))
        self.assertEqual(done.returncode, 25, done.stderr)
        self.assertRegex(
            done.stderr, "stopped; the same line without --fresh goes on from 0 outcomes"
        )


def on_terminal(repo: Repository, words: List[str], columns: int) -> Tuple[str, int]:
    """What a terminal gets of a search that has it as its standard output and error, and the
    status; it is made narrow meanwhile."""
    ours, theirs = pty.openpty()
    fcntl.ioctl(theirs, termios.TIOCSWINSZ, struct.pack("HHHH", 24, columns, 0, 0))
    search = subprocess.Popen(
        [DRIVER + "/git-farmdawn", *words],
        cwd=repo.path,
        stdin=theirs,
        stdout=theirs,
        stderr=theirs,
        env=dict(ENV, TERM="xterm"),
        start_new_session=True,
    )
    os.close(theirs)
    parts, until, narrow = b"", time.monotonic() + SECONDS, False
    while time.monotonic() < until:
        try:
            ready, _, _ = select.select([ours], [], [], 1)
            part = os.read(ours, 10000) if ready else None
        except OSError:
            break
        if part == b"":
            break
        parts += part or b""
        if not narrow and b"under test: " in parts:
            narrow = True
            fcntl.ioctl(ours, termios.TIOCSWINSZ, struct.pack("HHHH", 24, 40, 0, 0))
            os.kill(search.pid, 28)
    os.close(ours)
    return parts.decode("utf-8", "replace"), search.wait(SECONDS)


@needs_engine
class Terminal(unittest.TestCase):
    """What a person sees."""

    def test_answer_alone(self) -> None:
        """The answer stands there, and the log is in a file that is told; what comes behind the
        resize fits."""
        repo = Repository(self)
        text, status = on_terminal(
            repo, ["-j", "2", "c12", "c1", *command("sleep 1.2; echo checking; " + BAD_FROM_7)], 100
        )
        self.assertEqual(status, 0, text)
        answer = repo.name("c7") + " is the first bad commit"
        self.assertIn("\033[1m%s\033[m" % answer, text)
        self.assertNotIn("git bisect", text)
        path = re.search("the log is in ([^\r\n]*)", text)
        assert path is not None
        with open(path.group(1), encoding="utf-8") as file:
            log = file.read().splitlines()
        self.assertEqual(log[-1], answer)
        self.assertTrue(any(line.startswith("git bisect start") for line in log))
        self.assertRegex(text, r"\[[#-]{10}\] [0-9]+ of 11 left, ~[0-9] rounds")
        behind = text.split("\033[J", 1)
        self.assertEqual(len(behind), 2, "the live line is taken away where the window gets narrow")
        live = [row for row in re.findall("\r([^\r\n\033]*under test: [^\r\n\033]*)", behind[1])]
        self.assertTrue(all(len(row) < 40 for row in live), live)
        for due in (
            "its test ended with 1",
            "    checking",
            "its parent %s was good" % repo.name("c6")[:12],
            "needed) in ",
        ):
            with self.subTest(due):
                self.assertIn(due, text)

    def test_several(self) -> None:
        """The live line says how many tests are left; their commits stand there as they are found,
        and at the end. One test's rest does not."""
        repo = Repository(self)
        words = [
            "-j",
            "2",
            "--trust-ends",
            "--test",
            "early",
            "sleep 1.2; [ $(cat number) -lt 3 ]",
            "--test",
            "late",
            "sleep 1.2; [ $(cat number) -lt 9 ]",
        ]
        text, status = on_terminal(repo, [*words, "c12", "c1"], 100)
        self.assertEqual(status, 0, text)
        self.assertRegex(text, r"\[[#-]{10}\] [12] of 2 tests left")
        for name, commit in (("early", "c3"), ("late", "c9")):
            with self.subTest(row=(name, commit)):
                self.assertIn("\033[1mfound\033[m %s  " % repo.name(commit)[:12], text)
                self.assertIn(
                    "\033[1m%s is the first bad commit of %s\033[m"
                    % (repo.name(commit)[:12], name),
                    text,
                )
        self.assertNotIn("commits left", text)


if __name__ == "__main__":
    unittest.main()
