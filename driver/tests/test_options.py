"""The table of options: what is read, kept, told and certified follows from it, and so does the page
of help; the manual and the completions have the same."""
from __future__ import annotations

import json
import os
import re
import sys
import unittest
from typing import List, Tuple

from helpers import TOP, Repository, needs_engine, needs_program

sys.path.insert(0, os.path.dirname(os.path.dirname(os.path.abspath(__file__))))

from git_farmdawn.certificate.answer_file import with_sum  # noqa: E402
from git_farmdawn.line.options import READ, read  # noqa: E402
from git_farmdawn.line.settings import Settings  # noqa: E402
from git_farmdawn.line.table import BY_WORD, OPTIONS, OTHER_NAMES, usage  # noqa: E402

# the kinds that options.py and settings.py read by themselves
OTHERS = "flag action file test state shares statuses until pool sh".split()
OF_REPOSITORY = "commits paths copies owns patches list junit log".split()
STALE = "test -e obj && exit 0; echo built >obj; test $(cat number) -lt 9"


def text_of(*path: str) -> str:
    """A file of the repository."""
    with open(os.path.join(TOP, *path), encoding="utf-8") as file:
        return file.read()


class Table(unittest.TestCase):
    """The rows."""

    def test_rows(self) -> None:
        """Each kind is read by somebody; each word stands once; whoever is told of again, kept or
        certified has a place in Settings, with the value that the row has for it."""
        self.assertEqual(len(BY_WORD), len(OPTIONS))
        settings = Settings()
        for row in OPTIONS:
            with self.subTest(row.word):
                self.assertIn(row.kind, [*READ, *OTHERS, *OF_REPOSITORY])
                self.assertTrue(row.help)
                self.assertEqual(row.value == "", row.kind in ("flag", "action"))
                if row.outcome or row.again or row.certified:
                    self.assertEqual(settings.words_of(row), [])
                if row.outcome:  # else a certificate keeps back on what its outcomes depend
                    self.assertTrue(row.certified)
                if row.certified:  # else what is searched again is another search
                    self.assertTrue(row.again)
        groups = [row.group for row in OPTIONS]
        changes = [group for at, group in enumerate(groups) if group not in groups[:at]]
        self.assertEqual(groups, sorted(groups, key=changes.index))

    def test_words_of(self) -> None:
        """What settings have of an option stands in a line as it was given."""
        for given in (
            ["--timeout", "90"],
            ["--build-timeout", "3600"],
            ["--retry", "2"],
            ["--repeat", "3"],
            ["--term-new", "slow"],
            ["--sure", "0.999"],
        ):
            with self.subTest(given):
                option, value = read([*given, "BAD", "GOOD", "--", "true"]).values[0]
                row, settings = BY_WORD[option], Settings()
                setattr(settings, row.place, READ[row.kind](option, value))
                self.assertEqual(settings.words_of(row), given)
        settings = Settings()
        settings.missing, settings.noise = {5: 125, 4: 125}, (0.05, 0.02)
        settings.build, settings.clean = ["/bin/sh", "-c", "make all"], True
        settings.confirm, settings.copies, settings.together = 2, ["a b", "c"], True
        settings.links = ["d"]
        self.assertEqual(
            settings.outcome_words(),
            "--build,make all,--clean,--copy,a b,--copy,c,--link,d,--missing,4=skip,--missing,5=skip,"
            "--together".split(","),
        )
        self.assertEqual(settings.words_of(BY_WORD["--confirm"]), ["--confirm=2"])
        settings.take_alone()
        both = ["--confirm=2", "--confirm=alone"]
        self.assertEqual(settings.words_of(BY_WORD["--confirm"]), both)
        settings.confirm = None
        self.assertEqual(settings.words_of(BY_WORD["--confirm"]), both[1:])
        self.assertEqual(settings.words_of(BY_WORD["--noise"]), ["--noise", "0.05,0.02"])

    def test_pages(self) -> None:
        """A page says to which options an outcome belongs."""
        told = text_of("docs", "USING.md").split("It belongs to ")[1].split("too.")[0]
        self.assertEqual(
            sorted(re.findall("`(--[a-z-]+)`", told)),
            sorted(row.word for row in OPTIONS if row.outcome),
        )

    def test_help(self) -> None:
        """Each row is in the page of help, in its group, in at most 120 columns."""
        lines = usage().split("\n")
        self.assertLessEqual(max(map(len, lines)), 120)
        found, group = [], ""
        for line in lines:
            group = line[:-1] if re.fullmatch("[A-Z].*:", line) else group
            match = re.match("  (?:(-[a-z]), )?(--[a-z-]+)(.*)", line)
            if match:
                found.append((group, match.group(2), match.group(1) or ""))
                row = BY_WORD[match.group(2)]
                self.assertTrue(match.group(3).startswith(row.value), line)
                self.assertTrue(line.endswith(row.help.split("\n")[0]), line)
        self.assertEqual(found, [(row.group, row.word, row.short) for row in OPTIONS])

    def test_manual(self) -> None:
        """The manual has an item for each, in the groups and the order of the table."""
        found, group = [], ""
        for line in text_of("man", "git-farmdawn.1").split("\n"):
            group = line[len(".Ss ") :] if line.startswith(".Ss ") else group
            short = ""
            for word, rest in re.findall("Fl (-?[a-z][a-z-]*)([^,]*)", line) * (line[:4] == ".It "):
                if word.startswith("-"):
                    found.append((group, "-" + word, short, "Ar" in rest))
                short = "" if word.startswith("-") else "-" + word
        due = [(row.group, row.word, row.short, row.value != "") for row in OPTIONS]
        self.assertEqual(found, due)
        for other in OTHER_NAMES:
            with self.subTest(other):
                self.assertIn(".Fl %s\n" % other[1:], text_of("man", "git-farmdawn.1"))

    def test_completions(self) -> None:
        """Each shell completes all of them, and knows which have a value."""
        bash = text_of("completions", "farmdawn.bash")
        words = re.findall("__gitcomp '([^']*)'", bash)[0]
        self.assertEqual(sorted(words.split()), sorted(BY_WORD))
        behind = {row.word for row in OPTIONS if row.value and not row.without}
        self.assertEqual(set(re.findall(r"\*:(--[a-z-]+)(?= \||\))", bash)), behind)
        zsh = [
            (word.split("{")[-1], re.search(r"(?<!-)-[a-z]\b", word), ":" in text.split("]")[1])
            for word, text in re.findall(
                r"^    '(.*?)\[(.*)'(?: \\)?$", text_of("completions", "_git-farmdawn"), re.M
            )
        ]
        fish = [
            (long, short, " -x" in rest or " -r" in rest)
            for short, long, rest in re.findall(
                "^__git_farmdawn_complete (?:-s ([a-z]) )?-l ([a-z-]+)(.*?)(?: -d .*)$",
                text_of("completions", "git-farmdawn.fish"),
                re.M,
            )
        ]
        found = {
            (re.findall("--[a-z-]*[a-z]", word)[0], short.group() if short else "", value)
            for word, short, value in zsh
        }
        self.assertEqual(found, {(row.word, row.short, row.value != "") for row in OPTIONS})
        self.assertEqual(
            {("--" + long, "-" + short if short else "", value) for long, short, value in fish},
            {(row.word, row.short, row.value != "" and not row.without) for row in OPTIONS},
        )


@needs_engine
class Searches(unittest.TestCase):
    """Whole searches."""

    def answer(self, repo: Repository, printed: str) -> str:
        """The commit that a search has found, as its tag."""
        name = printed.strip().split("\n")[-1].split()[0]
        return repo.run("git", "describe", "--tags", name).stdout.strip()

    def test_clean_is_kept_apart(self) -> None:
        """What was found in folders with stale files says nothing of a search with --clean."""
        repo = Repository(self, 16)
        repo.sh("echo obj >.git/info/exclude")
        line = ["--trust-ends", "--workers", "1", *repo.ends(), "--", "sh", "-c", STALE]
        self.assertEqual(self.answer(repo, repo.search(*line).stdout), "c16")
        self.assertEqual(self.answer(repo, repo.search("--clean", *line).stdout), "c9")
        again = repo.search("--clean", *line)
        self.assertIn("outcomes of earlier runs are known", again.stderr)
        self.assertEqual(self.answer(repo, again.stdout), "c9")

    def test_again(self) -> None:
        """The line that searches again trusts the ends, and cleans, where the search did."""
        repo = Repository(self, 16)
        repo.sh("echo obj >.git/info/exclude")
        test = "test $(cat number) = 1 && exit 1; " + STALE  # its good end fails, too
        folder = os.path.join(repo.room, "report")
        options = ["--trust-ends", "--clean", "--report", folder]
        repo.search(*options, *repo.ends(), "--", "sh", "-c", test)
        with open(os.path.join(folder, "result.json"), encoding="utf-8") as file:
            line = json.load(file)["again"]["search"]
        self.assertIn(" --clean --trust-ends ", line)
        line = line.replace("git farmdawn", "git farmdawn --fresh --workers 16", 1)
        self.assertEqual(self.answer(repo, repo.sh(line)), "c9")

    @needs_program
    def test_certified(self) -> None:
        """A certificate has all on which its outcomes depend, and --retest heeds it; so it does
        where an older file has the options behind its machine."""
        repo = Repository(self)
        repo.sh("echo so >'a b'; mkdir deep; cd deep; echo so >'c'")
        path = os.path.join(repo.room, "answer")
        script = "test -e 'a b' && test -e deep/c || exit 9; test $(cat number) -lt 7 && exit 5"
        command = ["--", "sh", "-c", script + "; exit 1"]
        options = ["--missing", "5=good", "--timeout", "2m", "--copy", "a b", "--link", "deep/c"]
        repo.search(*options, "--clean", "--certificate", path, *repo.ends(), *command)
        claim = "it claims: searched with --missing 5=good --timeout 120 --copy a b --link deep/c"
        told = repo.search("--check", path)
        self.assertIn("\n%s --clean\n" % claim, told.stdout, told.stderr)
        refused = repo.search("--retest", path, *command)
        self.assertEqual((refused.returncode, refused.stdout), (1, ""))
        self.assertIn("the file has --link deep/c: what tests change there is", refused.stderr)
        command = ["--link", "deep/c", *command]
        tested = repo.search("--retest", path, *command)
        self.assertEqual((tested.returncode, tested.stdout.count("  as claimed")), (0, 2))
        given = repo.search("--retest", path, "--missing", "5=bad", *command)
        self.assertEqual(given.returncode, 1)  # what the line has is not that of the file
        os.unlink(repo.path + "/a b")
        lacking = repo.search("--retest", path, *command)
        self.assertEqual((lacking.returncode, lacking.stdout), (1, ""))
        self.assertIn("a b: no such file", lacking.stderr)

    def change(self, path: str, options: List[str], machine: str) -> str:
        """Another certificate, with such lines of options and such a machine."""
        with open(path, encoding="ascii") as file:
            lines = file.read().split("\n")[2:-1]
        lines = [line for line in lines if not line.startswith("option ")]
        at = next(at for at, line in enumerate(lines) if line.startswith("machine "))
        lines[at : at + 1] = ["machine " + machine, *("option " + word for word in options)]
        with open(path + ".x", "wb") as changed:
            changed.write(with_sum(lines))
        return path + ".x"

    @needs_program
    def test_lines_of_options(self) -> None:
        """What a file may bring with it: options of the table that a certificate has, and no
        others; those of several tests mean nothing for one."""
        repo = Repository(self)
        path = os.path.join(repo.room, "answer")
        command = ["--", "sh", "-c", "test $(cat number) -lt 7 && exit 5; exit 1"]
        options = ["--missing", "5=good", "--certificate", path]
        repo.search(*options, *repo.ends(), *command)
        rows: List[Tuple[List[str], str, int, str]] = [
            (["--missing", "5=good"], "", 0, ""),
            ([], "Linux 6.1 x86_64, searched with --clean --missing 5=good", 0, ""),
            (["--missing", "5=good", "--together"], "", 0, ""),
            ([], "", 1, ""),
            (["--missing"], "", 1, "--missing wants a value"),
            (["--report", "/tmp"], "", 1, "the file has an option --report"),
            (["--ended", "true"], "", 1, "the file has an option --ended"),
            (["\\033[31m"], "", 1, "the file has an option \\033[31m"),
            ([], ", searched with --state /tmp", 1, "the file has an option --state"),
        ]
        for words, machine, status, why in rows:
            with self.subTest(words=words, machine=machine):
                file = self.change(path, words, machine)
                tested = repo.search("--retest", file, *command)
                self.assertEqual(tested.returncode, status, tested.stderr)
                self.assertIn(why, tested.stderr)


if __name__ == "__main__":
    unittest.main()
