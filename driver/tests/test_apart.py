"""No test sees another one. A row says what a test leaves, and by what the next one would see it."""
from __future__ import annotations

import json
import os
import re
import shutil
import signal
import socket
import subprocess
import sys
import tempfile
import unittest
from typing import Dict, List, NamedTuple, Tuple

sys.path.insert(0, os.path.dirname(os.path.dirname(os.path.abspath(__file__))))

from git_farmdawn.known import outcomes  # noqa: E402
from helpers import ENV, LIMITS, LONG, Repository, begins_first, needs_engine  # noqa: E402
from helpers import wait_until  # noqa: E402

COMMITS = 8
BROKEN = {"one": 3, "two": 6, "three": 6}  # the first bad commits of the tests


class Row(NamedTuple):
    """What a test leaves, how that is seen, and what the build makes. `again` says that it cannot
    be put back, so that the commit is built again."""

    what: str
    leaves: str
    sees: str
    build: str = ":"
    again: bool = False


ROWS = [
    Row("a folder", "mkdir out", "[ -e out ]"),
    Row("a file that git ignores", "echo >ignored.x", "[ -e ignored.x ]"),
    Row("a pipe, and a link that leads nowhere", "mkfifo p; ln -s none l", "[ -e p -o -L l ]"),
    Row("a file of the commit, changed", "echo x >golden", "! grep -q same golden"),
    Row("one of the same size and time", "echo sAme >golden; touch -r number golden",
        "! grep -q same golden"),
    Row("one that is removed, and one with another mode", "rm golden; chmod +x number",
        "[ ! -e golden -o -x number ]"),
    Row("a folder in place of a file", "rm golden; mkdir golden; echo x >golden/x",
        "[ -d golden ]"),
    Row("a link in place of a folder", "rm -r sub; ln -s . sub", "[ -L sub -o ! -f sub/file ]"),
    Row("a link of the commit that leads elsewhere", "ln -sf number link",
        '[ "$(readlink link)" != golden ]'),
    Row("the mode of a folder", "chmod 700 sub", '[ "$(stat -c %a sub)" = 700 ]'),
    Row("what was built, changed", "echo x >built/a.x; rm built/b.x",
        '[ "$(cat built/a.x built/b.x)" != "$(printf "a\\nb")" ]',
        build="mkdir -p built; echo a >built/a.x; echo b >built/b.x"),
    Row("what was built, removed", "rm -r built", "[ ! -x built/sub/a.x ]",
        build="mkdir -p built/sub; echo a >built/sub/a.x; chmod 555 built/sub/a.x"),
    Row("what was built elsewhere", 'echo x >"$FARMDAWN_BUILD/a"; echo >"$FARMDAWN_BUILD/b"',
        '[ "$(cat "$FARMDAWN_BUILD/a")" != a -o -e "$FARMDAWN_BUILD/b" ]',
        build='rm -rf "$FARMDAWN_BUILD/a"; echo a >"$FARMDAWN_BUILD/a"'),
    Row("a file of the commit that the build has changed", "git checkout golden",
        "! grep -q patched golden", build="echo patched >golden"),
    Row("a source that is newer than what was built", "echo x >golden",
        "[ golden -nt made.x ]", build="cp golden made.x; touch made.x"),
    Row("what is git's", "git tag mine; git config a.b c; git rm -q --cached golden; git stash -q",
        '[ -n "$(git tag -l mine; git config a.b; git stash list; git status --short -uno)" ]'),
    Row("a pipe that was built, removed", "rm pipe", "[ ! -p pipe ]",
        build="[ -p pipe ] || mkfifo pipe", again=True),
]  # fmt: skip


@needs_engine
class Tests(unittest.TestCase):
    """Tests of one commit: each begins with what was behind the build."""

    def test_rows(self) -> None:
        """Three tests, each of which looks for what the others leave; what was made of it."""
        repo = Repository(self, 1)
        repo.sh(
            "mkdir sub; echo same >golden; ln -s golden link; echo file >sub/file; echo '*.x' >.gitignore;"
            f"for n in $(seq {COMMITS}); do echo $n >number; git add .; git commit -qm $n; git tag -f c$n; done"
        )
        for row in ROWS:
            with self.subTest(row.what):
                answers, built = (
                    self.answers(repo, row),
                    repo.sh("cat ../built; rm ../built").split(),
                )
                self.assertEqual(answers, [f"c{at}" for at in BROKEN.values()])
                self.assertEqual(len(built) > len(set(built)), row.again, built)
        repo.check_left()

    @staticmethod
    def answers(repo: Repository, row: Row) -> List[str]:
        """The commits that one search finds for all the tests."""
        words: List[str] = []
        for name, first in BROKEN.items():
            test = f"if {row.sees}; then exit 9; fi; {row.leaves}; test $(cat number) -lt {first}"
            words += ["--test", name, test]
        build = f"cat number >>'{os.path.join(repo.room, 'built')}'; {row.build}"
        words = ["--fresh", "--workers", "1", "--build", build, *words]
        got = repo.search(*words, f"c{COMMITS}", "c1")
        found = [line.split()[0] for line in got.stdout.splitlines() if "is the first bad" in line]
        names = repo.run("git", "name-rev", "--tags", "--name-only", *found).stdout.split()
        return [name.split("^")[0] for name in names] or [got.stdout + got.stderr]


# a test that writes one file for all, and reads it later; and one that serves on one port for all
CLASH = "cat number >%s; sleep 0.5; test $(cat %s) -lt 13"
PORT = """
import socket, sys, time, threading
def serve(server):
    while True:
        server.accept()[0].send(open("number", "rb").read())
try:
    server = socket.create_server(("127.0.0.1", int(sys.argv[1])))
    threading.Thread(target=serve, args=(server,), daemon=True).start()
except OSError:
    pass
found = []
for turn in range(3):
    found.append(int(socket.create_connection(("127.0.0.1", int(sys.argv[1]))).recv(9)))
    time.sleep(0.15)
sys.exit(max(found) > 12)
"""
NAMESPACES = subprocess.run(
    ["unshare", *(["--user"] if os.getuid() else []), "--mount", "--net", "true"],
    stderr=subprocess.DEVNULL,
    check=False,
).returncode


def free_port() -> int:
    """A port that nobody has."""
    with socket.socket() as one:
        one.bind(("127.0.0.1", 0))
        port: int = one.getsockname()[1]
        return port


def disturbing(repo: Repository) -> List[Tuple[str, List[str]]]:
    """Commands whose tests disturb each other, and what they do it by."""
    with open(os.path.join(repo.path, "serve.py"), "w", encoding="ascii") as file:
        file.write(PORT)
    commands = [("a port", ["python3", "serve.py", str(free_port())])]
    for folder in ("/tmp", "/dev/shm"):
        clash = f"{folder}/farmdawn-clash.{os.getpid()}"
        commands.append((folder, ["sh", "-c", CLASH % (clash, clash)]))
    return commands


class Refused(NamedTuple):
    """A line that --private refuses, and why."""

    words: List[str]
    why: str
    unshare: str = ""  # a program in its place


REFUSED = [
    Refused(["--private", "c9", "c1", "--", "true"], "of its own: unshare: no", "echo unshare: no; exit 1"),
    Refused(["--private", "c9", "c1", "--", "true"], "of its own: it does not begin", "exit 0"),
    Refused(["--private", "c9", "c1", "--build", "true"], "-- and a command are missing"),
    Refused(["--private", "c9", "c1", "--", "farmdawn-ssh", "host", "--", "true"], "runs them on others"),
]  # fmt: skip


class Private(unittest.TestCase):
    """--private: what a test has for itself."""

    @needs_engine
    @unittest.skipIf(NAMESPACES, "this system gives no namespaces")
    def test_disturbing(self) -> None:
        """Tests that disturb each other do not."""
        repo = Repository(self, 24)
        for what, command in disturbing(repo):
            with self.subTest(what):
                words = ["--private", "--fresh", "--workers", "4", *repo.ends(), "--", *command]
                got = repo.search(*words)
                self.assertEqual(
                    got.stdout.splitlines()[-1:], [repo.name("c13") + " is the first bad commit"]
                )
                self.assertNotIn("disturb", got.stderr)
        repo.check_left()

    @needs_engine
    @unittest.skipIf(NAMESPACES, "this system gives no namespaces")
    def test_seen(self) -> None:
        """A test sees the repository and what the line names, also where temporary files are, and
        is who the caller is; its folders are empty and may be written, and a build has the network;
        what it wrote there is gone, and is seen by nobody."""
        repo = Repository(self, 4)
        links = []
        for place in ("/tmp", "/dev/shm"):
            linked = tempfile.TemporaryDirectory(dir=place)
            self.addCleanup(linked.cleanup)
            links += ["--link", place.replace("/", "")]
            repo.sh(f"ln -s {linked.name} {links[-1]}; echo >{links[-1]}/x")
        with tempfile.TemporaryDirectory(dir="/tmp") as named:
            for name in ("script", "beside"):
                with open(os.path.join(named, name), "w", encoding="ascii") as file:
                    file.write("exit 0\n")
            mine = f"farmdawn-seen.{os.getpid()}"
            test = (
                f"sh {named}/script || exit 9; test $(ls $(dirname {named}/script)) = script || exit 8;"
                f"test $(id -u).$(id -g) = {os.getuid()}.{os.getgid()} || exit 7;"
                "git log -1 >/dev/null && git rev-list --all --objects >/dev/null || exit 6;"
                f"for at in /tmp /var/tmp /dev/shm; do test ! -e $at/{mine} || exit 5;"
                f" echo >$at/{mine} && test $(stat -c %a $at) = 1777 || exit 4; done;"
                'test "${TMPDIR-/tmp}" = /tmp || exit 3; mktemp >/dev/null || exit 2;'
                'test "$(grep -c : /proc/net/dev)" = 1 || exit 10;'
                "test -e tmp/x -a -e devshm/x || exit 11;"
                "test $(cat number) -lt 3"
            )
            with open("/proc/net/dev", encoding="ascii") as devices:
                network = devices.read().count(":")
            build = f'test "$(grep -c : /proc/net/dev)" = {network} && echo >/tmp/{mine}'
            words = ["--private", "--workers", "2", "--build", build, *links]
            words += [*repo.ends(), "--"]
            env = {**ENV, "TMPDIR": repo.room}
            got = repo.search(*words, "sh", "-c", test, env=env)
        found = got.stdout.splitlines()[-1:]
        self.assertEqual(found, [repo.name("c3") + " is the first bad commit"], got.stderr)
        self.assertEqual(
            [one for one in ("/tmp", "/dev/shm") if os.path.exists(f"{one}/{mine}")], []
        )
        repo.check_left()

    @needs_engine
    def test_refused(self) -> None:
        """Where it cannot be had, nothing is tested."""
        repo = Repository(self, 9)
        for row in REFUSED:
            with self.subTest(row.why):
                folder = os.path.join(repo.room, "bin")
                os.makedirs(folder, exist_ok=True)
                path = ENV["PATH"]
                if row.unshare:
                    with open(folder + "/unshare", "w", encoding="ascii") as file:
                        file.write("#!/bin/sh\n" + row.unshare + "\n")
                    os.chmod(folder + "/unshare", 0o755)
                    path = folder + os.pathsep + path
                got = repo.search(*row.words, env={**ENV, "PATH": path})
                self.assertEqual((got.returncode, got.stdout), (1, ""))
                self.assertIn(row.why, got.stderr)
        repo.check_left()

    @needs_engine
    @unittest.skipIf(NAMESPACES, "this system gives no namespaces")
    def test_fault(self) -> None:
        """A command that could not be begun apart tells nothing of its commit."""
        repo = Repository(self, 9)
        folder = os.path.join(repo.room, "bin")
        os.makedirs(folder)
        real = shutil.which("unshare")
        with open(folder + "/unshare", "w", encoding="ascii") as file:
            file.write(f'#!/bin/sh\n[ -z "$FARMDAWN_COMMIT" ] || exit 1\nexec {real} "$@"\n')
        os.chmod(folder + "/unshare", 0o755)
        env = {**ENV, "PATH": folder + os.pathsep + ENV["PATH"]}
        got = repo.search("--private", *repo.ends(), "--", "true", env=env)
        self.assertEqual(got.returncode, 6, got.stderr)
        self.assertIn("the command did not begin (--private); 1 is not its own", got.stderr)


# A test of the number of the first bad commit, whose runs end otherwise where the file `lies` has
# the commit and the run. As many as $2 are under way before one ends, and the first run of a commit
# waits a second for another one; `beside` has the commits that had one beside them.
LIES = """n=$(cat number) run=1
while ! mkdir "$0/runs/$n.$run" 2>/dev/null; do run=$((run + 1)); done
if [ $run -eq 1 ]; then
    mkdir "$0/now/$n"
    for other in $(ls "$0/now"); do [ $other = $n ] || : >"$0/beside/$other" >"$0/beside/$n"; done
    until [ $(ls "$0/runs" | wc -l) -ge $2 ]; do sleep 0.05; done
    for i in $(seq $(($2 > 1 ? 20 : 0))); do [ -e "$0/beside/$n" ] || sleep 0.05; done
    rmdir "$0/now/$n"
fi
[ $run -eq 1 ] || [ ! -e "$0/hangs" ] || exec LONG
status=$(sed -n "s/^$n $run //p" "$0/lies")
exit "${status:-$((n >= $1))}"
""".replace(
    "LONG", LONG
)
TRIES = 9  # searches for one in which all that it looks at have others beside them
SSH = 'while [ "$1" != -- ]; do shift; done; shift; exec "$@"\n'
NOT_ALONE = "not tested alone; --confirm=alone does it"
DISTURB = "tests disturb each other; --private or --workers 1"


class Look(NamedTuple):
    """A search, and how many tests it makes alone; `lies` are runs of commits, with what they end
    with. `says` are parts of what it says, and `not_` some of what it does not say. `looked_at` are
    the answers and parents that it comes to."""

    words: List[str]
    alone: int
    says: Tuple[str, ...] = ()
    not_: Tuple[str, ...] = (NOT_ALONE, DISTURB)
    lies: Dict[Tuple[int, int], int] = {}
    workers: int = 4
    elsewhere: bool = False
    looked_at: Tuple[int, ...] = (12, 13)


# c13 is the first bad one of 24
LOOKS = [
    Look([], 2),
    Look([], 0, workers=1),
    Look(["--confirm=0"], 0),
    Look(["--confirm=alone"], 2),
    Look(["--confirm=alone"], 0, workers=1),
    Look(["--confirm"], 2, ("bad 4 of 4", "good 4 of 4")),
    Look([], 0, (NOT_ALONE,), (DISTURB,), elsewhere=True),
    Look(["--confirm=alone"], 2, elsewhere=True),
    # a good one that is bad beside others, and a bad one that is good there
    Look([], 3, (DISTURB, "is taken back: it was bad, and is good 2 of 3"), (NOT_ALONE,), {(12, 1): 3}),
    Look([], 4, (DISTURB, "is taken back: it was good, and is bad 2 of 3"), (NOT_ALONE,), {(13, 1): 0},
         looked_at=(12, 13, 14)),
    # one that is not the same alone, either: its outcome stands
    Look([], 3, lies={(13, 2): 0}),
    Look([], 3, lies={(12, 2): 5}),
    # one that cannot be tested alone
    Look([], 2, lies={(13, 2): 125}),
]  # fmt: skip


@needs_engine
class Alone(unittest.TestCase):
    """One look alone: the answer and its parents are tested with nothing beside them."""

    def setUp(self) -> None:
        """A repository, and a program that is named as if it ran tests elsewhere."""
        self.repo = Repository(self, 24)
        self.folder = ""
        os.mkdir(self.repo.room + "/bin")
        with open(self.repo.room + "/bin/farmdawn-ssh", "w", encoding="ascii") as file:
            file.write("#!/bin/sh\n" + SSH)
        os.chmod(self.repo.room + "/bin/farmdawn-ssh", 0o755)

    def command(self, row: Look) -> List[str]:
        """The test of a row, whose runs are all to be made yet."""
        self.folder = tempfile.mkdtemp(prefix="plan.", dir=self.repo.room)
        for name in ("runs", "now", "beside"):
            os.mkdir(f"{self.folder}/{name}")
        with open(self.folder + "/lies", "w", encoding="ascii") as file:
            lies = row.lies.items()
            file.writelines("%d %d %d\n" % (*place, status) for place, status in lies)
        elsewhere = [self.repo.room + "/bin/farmdawn-ssh", "host", "--"]
        words = ["sh", "-c", LIES, self.folder, "13", str(row.workers)]
        return [*(elsewhere if row.elsewhere else []), *words]

    def line(self, row: Look) -> List[str]:
        """The words of a search."""
        words = ["--workers", str(row.workers), *row.words, "--trust-ends"]
        return [*words, *self.repo.ends(), "--", *self.command(row)]

    def search(self, row: Look) -> Tuple[List[str], subprocess.CompletedProcess[str]]:
        """The words of a search, and what it told: one of several, until all that it looks at had
        others beside them, since none is tested again that had nothing beside it."""
        for _ in range(TRIES):
            line = self.line(row)
            got = self.repo.search("--report", "../report", *line)
            beside = set(map(int, os.listdir(self.folder + "/beside")))
            if row.workers == 1 or beside.issuperset(row.looked_at):
                break
        return line, got

    def runs(self) -> List[str]:
        """The runs of commits that there were."""
        return sorted(os.listdir(self.folder + "/runs"))

    def test_rows(self) -> None:
        """What is tested alone, and what comes of it; the same line again tests nothing."""
        for row in LOOKS:
            with self.subTest(row=row):
                line, got = self.search(row)
                found = [self.repo.name("c13") + " is the first bad commit"]
                self.assertEqual(got.stdout.splitlines()[-1:], found, got.stderr)
                said = sum(map(int, re.findall("are tested alone: ([0-9]+) test", got.stderr)))
                self.assertEqual(said > 0, row.alone > 0, got.stderr)
                runs = self.runs()
                again = [name for name in runs if not name.endswith(".1")]
                more = 4 if "--confirm" in row.words else 0
                self.assertEqual(len(again) - more, row.alone, again)
                for text in row.says:
                    self.assertIn(text, got.stderr)
                for text in row.not_:
                    self.assertNotIn(text, got.stderr)
                self.look_at_report(row)
                same = self.repo.search(*line)
                self.assertEqual((same.stdout, self.runs()), (got.stdout, runs))
                self.assertEqual(NOT_ALONE in same.stderr, NOT_ALONE in got.stderr)
        self.repo.check_left()

    def look_at_report(self, row: Look) -> None:
        """Each file of the report has what is told."""
        texts = {}
        for name in ("index.html", "summary.md", "junit.xml", "result.json"):
            with open("%s/report/%s" % (self.repo.room, name), encoding="utf-8") as file:
                texts[name] = file.read()
        texts["summary.md"] = texts["summary.md"].replace("\\", "")  # no marks of Markdown
        facts = json.loads(texts["result.json"])
        is_told = NOT_ALONE in row.says
        self.assertEqual(facts["alone"], None if "--confirm=0" in row.words else not is_told)
        self.assertEqual(len(facts["disturbed"]), DISTURB in row.says)
        for name, text in texts.items():
            told = NOT_ALONE in text or name == "result.json" and is_told
            self.assertEqual(
                (told, "tests disturb each other" in text), (is_told, DISTURB in row.says)
            )

    def test_long(self) -> None:
        """Where a test takes five minutes there is no look, also of outcomes that were kept."""
        row = LOOKS[0]
        line = self.line(row)
        self.repo.search("--confirm=0", *line)
        kept = os.path.join(self.repo.path, ".git", "farmdawn")
        (name,) = [name for name in os.listdir(kept) if name.startswith("results-")]
        for seconds, due in ((299, 2), (300, 0), (0, 2)):
            with self.subTest(seconds):
                found = outcomes.Outcomes(kept, lambda: name[len("results-") :], print)
                for commit, status in found.load(found.names()).items():
                    found.keep(commit, status, beside=seconds)
                os.close(found.lock)
                before = len(self.runs())
                got = self.repo.search(*line)
                self.assertEqual(len(self.runs()) - before, due, got.stderr)
                self.assertEqual(NOT_ALONE in got.stderr, not due)

    def test_stopped(self) -> None:
        """A signal during a look stops the search, and the same line makes it; the time of
        --deadline ends it, and the answer is told."""
        line = self.line(LOOKS[0])
        hangs = self.folder + "/hangs"
        with open(hangs, "w", encoding="ascii"):
            pass
        begun = self.repo.begin(*line)
        again = lambda: any(not name.endswith(".1") for name in self.runs())  # noqa: E731
        wait_until(again, "a look")
        begun.send_signal(signal.SIGINT)
        self.assertEqual((begun.communicate()[0].count("is the first"), begun.returncode), (0, 130))
        for limit in LIMITS:
            got = self.repo.search("--deadline", str(limit), *line)
            if got.returncode != 25:
                break
        self.assertEqual((got.returncode, NOT_ALONE in got.stderr), (0, True), got.stderr)
        got = self.repo.search("--confirm=alone", "--deadline", "3", *line)
        self.assertEqual(got.returncode, 25, got.stderr)
        os.unlink(hangs)
        got = self.repo.search(*line)
        self.assertEqual((got.returncode, NOT_ALONE in got.stderr), (0, False), got.stderr)
        self.assertIn("are tested alone: 2 tests", got.stderr)
        self.repo.check_left()

    @begins_first
    def test_disturbing(self) -> None:
        """Tests that disturb each other: the answer is right; where an end is refused for that, it is
        said by what."""
        for what, command in disturbing(self.repo):
            with self.subTest(what):
                got = self.repo.search(
                    "--fresh", "--workers", "4", *self.repo.ends(), "--", *command
                )
                found = [self.repo.name("c13") + " is the first bad commit"]
                is_refused = got.returncode == 1 and "where these disturb each other" in got.stderr
                self.assertTrue(got.stdout.splitlines()[-1:] == found or is_refused, got.stderr)
        self.repo.check_left()


@needs_engine
class Commits(unittest.TestCase):
    """Tests of two commits."""

    def test_compiled(self) -> None:
        """Python takes what it compiled for a source of the same second and size: of the commit
        before it is none."""
        repo = Repository(self, 1)
        repo.sh(
            "printf '__pycache__\\n' >.gitignore; echo 'import calc; assert calc.add(2, 2) == 4' >check.py;"
            "for n in $(seq -w 1 30); do s=+; [ $n -lt 17 ] || s=-; echo $n >number;"
            "printf '# %s\\ndef add(a, b): return a %s b\\n' $n $s >calc.py; git add .; git commit -qm $n;"
            "git tag -f c$n; done"
        )
        env = {name: text for name, text in ENV.items() if name != "PYTHONDONTWRITEBYTECODE"}
        for turn in range(3):
            words = ["--fresh", "--workers", "1", "c30", "c01", "--", "python3", "check.py"]
            got = repo.search(*words, env=env)
            self.assertEqual(
                got.stdout.splitlines()[-1:], [repo.name("c17") + " is the first bad commit"], turn
            )


if __name__ == "__main__":
    unittest.main()
