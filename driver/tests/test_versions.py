"""The user's own versions of files, in place of those of the commits, and patches."""
from __future__ import annotations

import json
import os
import sys
import unittest
from typing import List, NamedTuple, Sequence

from folders import differs
from helpers import Repository, needs_engine, needs_program

HERE = os.path.dirname(os.path.abspath(__file__))
FIXED = "grep -q fixed code"
NUMBER = "test $(cat number) -lt 7"


class Row(NamedTuple):
    """The options of a search, its test, and what comes of it."""

    words: Sequence[str]
    test: str
    answer: str = "{c7} is the first bad commit"
    told: str = ""
    status: int = 0


BUILD = "--build", FIXED
ROWS = (
    Row(("--with", "t.sh"), "sh t.sh"),
    Row((), "sh t.sh", "", "t.sh has changes that are not committed; checkouts have", 1),
    Row(("--with", "suite"), "sh suite/new && test ! -e suite/b -a ! -e suite/x.o"),
    Row(("--with", "suite/", "--with", "t.sh"), "sh suite/new && sh t.sh && test -e suite/a"),
    # a file where a commit has a folder, and a link
    Row(("--with", "folder"), "test -f folder && " + NUMBER),
    Row(("--with", "link"), "test $(readlink link) = number && " + NUMBER),
    Row(("--with", "ignored.o"), "sh ignored.o"),
    # the build finds it, and a test that changes it does not
    Row(("--build", "cp t.sh built", "--with", "t.sh"), "sh built && sh t.sh"),
    Row(("--with", "t.sh", "--with", "suite"), "sh t.sh || r=1; echo >t.sh; rm -r suite; exit $r"),
    Row(("--with", "t.sh", "--repeat", "2"), "sh t.sh || r=1; echo >t.sh; exit $r"),
    # nothing where the commit has it, and a skip where it does not fit
    Row((*BUILD, "--apply", "{c9}"), NUMBER),
    Row((*BUILD, "--apply", "fix.patch"), NUMBER),
    Row((*BUILD, "--apply", "plain.patch"), NUMBER),
    Row(("--apply", "{c9}"), "! grep -q other code && " + FIXED + " && " + NUMBER),
    Row(BUILD, NUMBER, "The first bad commit could be any of", "its build failed", 2),
    Row((*BUILD, "--apply", "{c9}"), "test $(cat number) -lt 3", "{c3}\n{c4}\n", "", 2),
    # the same as another commit, and its test with it, which is the user's
    Row((*BUILD, "--apply", "{picked}"), NUMBER),
    Row((*BUILD, "--apply", "{picked}", "--with", "t.sh"), "sh t.sh && " + FIXED),
    Row(("--apply", "{c9}", "--with", "code"), "grep -q mine code && " + NUMBER),
    # a link, which git does not see; in place of what a build left, and not of what a commit has
    Row(("--link", "made"), 'test -L made && test -z "$(git status -s)" && ' + NUMBER),
    Row(("--link", "c9", "--clean"), "test $(cat c9) = x && " + NUMBER),
    Row(("--link", "own"), "test ! -L own || test $(cat own/x) != mine"),
    Row(("--link", "made"), "rm made && mkdir made && " + NUMBER),
    Row(("--link", "made"), NUMBER, told="/made/package leads to "),
    Row(("--link", "env"), NUMBER, told="/site-packages/x.pth leads to "),
    # what cannot be brought
    Row(("--link", "none"), "", "", "none: no such file", 1),
    Row(("--link", "../told"), "", "", "../told is outside the work tree", 1),
    Row(("--link", ".."), "", "", ".. is outside the work tree", 1),
    Row(("--link", "."), "", "", ". is the work tree itself", 1),
    Row(("--link", ".git"), "", "", ".git is git's own", 1),
    Row(("--link", "t.sh"), "", "", "git has t.sh; --link is for what it does not have", 1),
    Row(("--link", "suite"), "", "", "git has suite; --link is for what it does not have", 1),
    Row(("--link", "made", "--copy", "made/x"), "", "", "--link made: made/x cannot be", 1),
    Row(("--link", "made/x", "--copy", "made"), "", "", "--link made/x: made cannot be", 1),
    Row(("--link", "made", "--link", "made/x"), "", "", "--link made: made/x cannot be", 1),
    Row(("--link", "c9", "--with", "c9"), "", "", "--link c9: c9 cannot be brought, too", 1),
    Row(("--copy", "suite/../.."), "", "", "suite/../.. is outside the work tree", 1),
    Row(("--copy", "."), "", "", ". is the work tree itself", 1),
    Row(("--with", "none"), "", "", "none: no such file", 1),
    Row(("--with", "../told"), "", "", "../told is outside the work tree", 1),
    Row(("--with", "made"), "", "", "git ignores all that made has; --copy made brings", 1),
    Row(("--with", ".git/config"), "", "", ".git/config is git's own", 1),
    Row(("--apply", "no"), "", "", "--apply no: neither a commit nor a file", 1),
    Row(("--apply", "c9"), "", "", "c9 is a commit and a file", 1),
    Row(("--apply", "empty"), "", "", "empty is no patch that could be brought", 1),
    Row(("--apply", "{none}"), "", "", "this commit changes no file", 1),
)
# what else a checkout has, or how it is made
BESIDE = (
    "",
    "--clean",
    "--copy given",
    "--build true",
    "--submodules",
    "--pool ../pool --workers 1",
    "--pool ../pool",
)
SEVERAL = ("--workers 3", "--pool ../pool --workers 2", "--clean --build true")


def make(test: unittest.TestCase) -> Repository:
    """Twelve commits, of which the ninth mends what the ones before it cannot be built with; the
    third has other lines there. The work tree has another version of most files, and files of its
    own, one of which the first commits had."""
    repo = Repository(test, 1)
    repo.sh(
        "git init -q ../lib; cd ../lib; echo 1 >f; git add .; git commit -qm l; cd ../repository;"
        "git submodule -q add ../lib lib; printf '*.o\\nmade/\\n' >.gitignore; mkdir suite folder;"
        "echo exit 0 | tee t.sh suite/a suite/b folder/x; ln -s t.sh link;"
        "for n in $(seq 2 12); do why=broken; [ $n -lt 9 ] || why=fixed;"
        "printf '1\\n2\\n3\\n%s\\n5\\n6\\n7\\n' $why >code; [ $n != 3 ] || echo other >code;"
        "[ $n = 9 ] || echo $n | tee number >suite/b; rm -rf own;"
        "[ $n -gt 6 ] || { mkdir own; echo $n >own/x; };"
        "git add .; git commit -qm c$n; git tag -f c$n; done;"
        "git checkout -q -b side c8; sed -i s/broken/fixed/ code; echo exit 1 >t.sh;"
        "git commit -qam picked; git tag picked; git commit -q --allow-empty -m none; git tag none;"
        "git checkout -q main; git show c9 -- code >fix.patch; git diff c10 c10 >empty;"
        "sed /^index/d fix.patch >plain.patch; echo x >c9; mkdir made; echo x >made/x;"
        f"echo '{NUMBER}' | tee t.sh suite/new ignored.o; echo exit 1 | tee suite/x.o suite/a;"
        "rm -r suite/b folder; echo mine | tee code folder; ln -sf number link; mkdir ../told;"
        "echo given >given; mkdir -p own env/lib/python3/site-packages; echo mine >own/x;"
        "ln -s ../suite made/package; echo $PWD/suite >env/lib/python3/site-packages/x.pth"
    )
    repo.commits = 12
    return repo


@needs_engine
class Versions(unittest.TestCase):
    """Whole searches."""

    def test_rows(self) -> None:
        """What tests find, and what cannot be brought."""
        repo = make(self)
        names = {f"c{n}": repo.name(f"c{n}") for n in range(2, 13)}
        names.update({name: repo.name(name) for name in ("picked", "none")})
        for row in ROWS:
            with self.subTest(row):
                words = [word.format(**names) for word in row.words]
                done = repo.search("--fresh", *words, "c12", "c2", "--", "sh", "-c", row.test)
                self.assertEqual(done.returncode, row.status, done.stderr)
                self.assertIn(row.answer.format(**names), done.stdout)
                self.assertIn(row.told, done.stderr)
        repo.check_left()

    def test_exact(self) -> None:
        """Beside what is brought a checkout is that of a fresh clone, also behind tests that
        change it all; the same for the second test of a commit."""
        repo = make(self)
        look = f"{sys.executable} {HERE}/folders.py . >../part.$$"
        look += " && mv ../part.$$ ../told/$(git rev-parse HEAD).$$"
        script = f"{look}; rm -r t.sh suite code link; mkdir t.sh link; {NUMBER}"
        alone = ["--", "sh", "-c", script]
        several = ["--test", "one", script, "--test", "two", script]
        for options in BESIDE + SEVERAL:
            named = several if options in SEVERAL else alone
            with self.subTest(options=options):
                words = ["--fresh", *options.split(), "--with", "t.sh", "--with", "suite"]
                words += ["--apply", "fix.patch", "--copy", "given", "c12", "c2"]
                done = repo.search(*words, *named)
                self.assertIn(repo.name("c7"), done.stdout, done.stderr)
                self.assertEqual(self.look(repo, "--submodules" in options), [])

    def look(self, repo: Repository, has_modules: bool) -> List[str]:
        """How the checkouts differed from fresh clones with the same brought into them."""
        wrong, room = [], repo.room
        for told in os.listdir(room + "/told"):
            commit, clone = told.split(".")[0], room + "/clone"
            repo.sh(
                f"rm -rf {clone}; git clone -q -s -n . {clone}; cd {clone}; git config remote.origin.url {repo.path};"
                f"git checkout -q --detach {commit};"
                + ("git submodule -q update --init;" if has_modules else "")
                + "git apply ../repository/fix.patch 2>/dev/null || true; rm -r suite; mkdir suite;"
                f"cd {repo.path}; cp -p t.sh given {clone}; cp -p suite/a suite/new {clone}/suite"
            )
            with open(f"{room}/told/{told}", encoding="ascii") as file:
                wrong += [f"{told}: {one}" for one in differs(json.load(file), clone)]
            os.unlink(f"{room}/told/{told}")
        return wrong

    def test_kept(self) -> None:
        """Outcomes are kept by the content of what is brought, which may change meanwhile."""
        repo = make(self)
        line = ["--with", "t.sh", "--apply", "./fix.patch", "c12", "c2", "--", "sh", "-c"]
        line += ["echo >>../ran; echo exit 9 >../repository/t.sh; " + NUMBER]
        counts = []
        for change in ("", "", "echo exit 2 >t.sh", "echo >>fix.patch", "chmod 755 t.sh"):
            repo.sh("echo exit 1 >t.sh;" + change)
            repo.search(*line)
            counts.append(int(repo.sh("wc -l <../ran; rm ../ran; touch ../ran")))
        self.assertEqual([count > 0 for count in counts], [True, False, True, True, True], counts)

    def test_built_before(self) -> None:
        """What an earlier search built in a pool of the commit's version is older than the user's
        own, whenever that was written."""
        repo = make(self)
        build = "[ made/built -nt t.sh ] || { mkdir -p made; cp t.sh made/built; }"
        repo.sh("touch -d '2001-01-01' t.sh")
        line = ["--pool", "../pool", "--build", build, "c12", "c2", "--", "sh", "made/built"]
        repo.search("--trust-ends", *line)
        done = repo.search("--with", "t.sh", *line)
        self.assertIn(repo.name("c7") + " is the first bad commit", done.stdout, done.stderr)
        again = repo.search(*line)
        self.assertIn("was called bad, and its test ended with 0", again.stderr)

    def test_linked_behind(self) -> None:
        """In a pool a link stands in place of what an earlier search built there."""
        repo = make(self)
        line = ["--pool", "../pool", "--workers", "1"]
        end = ["c12", "c2", "--", "sh", "-c", "touch made/built; " + NUMBER]
        repo.search(*line, "--build", "mkdir -p made; echo >made/built", *end)
        done = repo.search(*line, "--link", "made", "--build", "test -L made", *end)
        self.assertIn(repo.name("c7") + " is the first bad commit", done.stdout, done.stderr)
        self.assertEqual(repo.sh("ls made"), "built\npackage\nx\n")  # by the tests themselves

    @needs_program
    def test_told_on(self) -> None:
        """A certificate and a report have both, and --retest brings them."""
        repo = make(self)
        name, path = repo.name("c9"), os.path.join(repo.room, "answer")
        words = ["--with", "../t.sh", "--apply", "c9^{commit}", "--apply", "../fix.patch"]
        command = ["--", "sh", "-c", "cd .. && sh t.sh && " + FIXED]
        more = ["--certificate", path, "--report", repo.room + "/report"]
        done = repo.search(*words, *more, "c12", "c4", *command, cwd=repo.path + "/suite")
        self.assertEqual(done.returncode, 0, done.stderr)
        told = repo.search("--check", path)
        brought = f"--with ../t.sh --apply {name} --apply ../fix.patch"
        self.assertIn(f"it claims: searched with {brought}\n", told.stdout)
        with open(repo.room + "/report/result.json", encoding="utf-8") as file:
            again = json.load(file)["again"]
        self.assertEqual(again["see"], "")
        self.assertIn(brought, again["search"])
        tested = repo.search("--retest", path, *command, cwd=repo.path + "/suite")
        self.assertEqual((tested.returncode, tested.stdout.count("  as claimed")), (0, 2))
        repo.sh("git checkout -q t.sh")
        other = repo.search("--retest", path, *command, cwd=repo.path + "/suite")
        self.assertEqual(other.returncode, 1)


if __name__ == "__main__":
    unittest.main()
