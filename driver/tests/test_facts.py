"""One set of facts: what a search tells on standard error stands in each file of its report, and what
is a claim in its certificate.

A row of `ROWS` is a whole search, and what must be told of it. What can be told is listed in three
places: the kinds of notes, the keys of result.json, and the places in the code that write to standard
error. A new one of each fails here until it has its row, or a reason for none."""
from __future__ import annotations

import ast
import html
import json
import os
import re
import sys
import unittest
import xml.etree.ElementTree as ElementTree
from typing import Any, Dict, Iterator, NamedTuple, Sequence, Tuple, Union

sys.path.insert(0, os.path.dirname(os.path.dirname(os.path.abspath(__file__))))

from git_farmdawn.known.notes import DOUBTS, Kind  # noqa: E402
from git_farmdawn.report.facts import Facts  # noqa: E402
from helpers import ENV, PROGRAM, Repository, needs_engine  # noqa: E402
from test_house import modules  # noqa: E402

FILES = ("result.json", "index.html", "summary.md", "junit.xml")
BAD4, BAD7 = "test $(cat number) -lt 4", "test $(cat number) -lt 7"
# how often a commit was tested before
COUNT = 'n=$(cat number); echo >>"$ROOM/$n"; c=$(wc -l <"$ROOM/$n"); '
# the first test of a commit waits for one of another commit
BESIDE = COUNT + 'until set -- "$ROOM"/[0-9]*; [ $c -gt 1 ] || [ $# -gt 1 ]; do sleep 0.05; done; '
LOST = 'printf "n2\\nwas lost on n1\\n" >"$FARMDAWN_HOST_FILE"; '


class Told(NamedTuple):
    """What one search tells: a kind of note or a key of result.json, and its text on standard error.
    {c4} is the short name of a commit, and {C4} the whole one. Where a file has it in other words,
    `files` has them. `claim` is what --check prints of it, or else nothing, as it is no claim."""

    what: Union[Kind, str]
    text: str
    files: Tuple[Tuple[str, str], ...] = ()
    claim: str = ""

    def in_file(self, name: str) -> str:
        """What a file has."""
        return dict(self.files).get(name, dict(self.files).get("", self.text))


class Row(NamedTuple):
    """A search of the commits between these ends: options, a script, what it ends with and what it
    tells. What was tested before is that between `before`."""

    words: str
    script: str
    told: Sequence[Told]
    status: int = 0
    ends: str = "c8 c1"
    before: str = ""


def of(what: Union[Kind, str], text: str, in_files: str = "", claim: str = "") -> Told:
    """What has these words in all files."""
    return Told(what, text, (("", in_files),) if in_files else (), claim)


def skipped(how: str) -> Told:
    """How a commit came to be skipped."""
    return Told("tests", how, (("", "skipped: " + how), ("result.json", "skipped\n" + how)))


LISTED = ("result.json", "only skipped commits are left")  # and their names
SKIPPED_END = "an end that is skipped says nothing; --trust-ends takes the ends as they are called"
WITHOUT_PATH = "; the same line without --path searches all commits"
ROWS = (
    Row(
        "",
        BAD4 + " || { echo as it is; exit 3; }",
        (
            of("answer", "commit {C4}", "{c4}", "certificate holds for {C4}"),
            of("output", "    as it is", "as it is"),
            of(Kind.OWN, "its test ended with 3", "ended with 3", "its test ended with 3"),
            Told(
                Kind.PARENT,
                "its parent {c3} was good",
                (("index.html", "Last good one{c3}"), ("summary.md", "last good commit: {c3}")),
                "its parents are good",
            ),
        ),
    ),
    Row(
        "--path other",
        "test $(cat number) -lt 10",
        [
            of(
                Kind.PATHS,
                "none of the commits that change these paths is bad, and {C10} changes none",
            )
        ],
        ends="c10 c1",
    ),
    Row(
        "--path other --confirm=0",
        "case $(cat number) in 9) exit 125 ;; 10) exit 1 ;; esac",
        (
            of(Kind.PATHS, "{C10} was called bad, and changes none of these paths" + WITHOUT_PATH),
            Told("candidates", "one of 2 commits", (LISTED, ("", "ne of 2 commits"))),
        ),
        2,
        "c10 c1",
    ),
    Row(
        "--confirm=1",
        BAD4,
        [
            of(
                Kind.CONFIRMED,
                "confirmed: {c4} bad 2 of 2, {c3} good 2 of 2",
                claim="tested again: {c4} bad 2 of 2, {c3} good 2 of 2",
            )
        ],
    ),
    Row(
        "--confirm=1",
        COUNT + "[ $n = 4 ] && [ $c -gt 1 ] && exit 125; test $n -lt 4",
        [
            of(
                Kind.NOT_CONFIRMED,
                "not confirmed: {c4} bad 1 of 1, {c3} good 2 of 2",
                claim="tested again: {c4} bad 1 of 1, {c3} good 2 of 2",
            )
        ],
    ),
    Row(
        "--confirm=3 --workers 1 --trust-ends",
        COUNT + "[ $n = 3 ] && [ $c = 1 ] && exit 1; test $n -lt 4",
        [
            of(
                Kind.TAKEN_BACK,
                "{c3} is taken back: it was bad, and is good 3 of 4",
                claim="{c3} good 3 of 4",
            )
        ],
    ),
    Row(
        "--noise 1% --workers 1",
        COUNT + "[ $n -lt 7 ] && [ $c = 1 ] && exit 3; test $n -lt 7",
        (
            of(Kind.UNLIKELY, "more tests deny the answer than --noise lets expect"),
            Told(
                Kind.ODDS,
                "odds: {c7} 99",
                (("index.html", "of 100: {c7}"), ("summary.md", "of 100: {c7}")),
            ),
        ),
    ),
    Row(
        "--trust-ends",
        "exit 1",
        (
            of(
                Kind.UNTESTED,
                "no test was good, and {c1} was not tested: --check-ends does",
                claim="no test was good: a command that always fails has such a certificate, too",
            ),
            Told(
                Kind.PARENT,
                "its parent {c1} was called good, and not tested",
                (("index.html", "{c1} change 1 (called so, and not tested)"),)
                + (("summary.md", "last good commit: {c1} change 1 (called so, and not tested)"),),
                "{c1} was called good, and not tested",
            ),
        ),
    ),
    Row(
        "--workers 1 --confirm=0",
        BAD7 + " && [ $(cat number) != 2 ]",
        (
            of(
                Kind.CONTRADICTION,
                "{c2}: it is bad, and does not have the first bad commit",
                "it is bad, and does not have the first bad commit",
                "1 further outcome contradicts it: {c2}",
            ),
            Told(
                Kind.KEPT,
                "2 outcomes of earlier runs are known",
                (("index.html", "2 known from earlier runs"),),
            ),
        ),
        before="c2 c1",
    ),
    Row(
        "--missing 5=good",
        "test $(cat number) -ge 4 || exit 5; exit 1",
        [
            of(
                Kind.NOT_THERE,
                "the commit that was found is the first one that has it",
                claim="searched with --missing 5=good",
            )
        ],
    ),
    Row(
        "",
        "case $(cat number) in 3) exit 125 ;; [4-8]) exit 1 ;; esac",
        (of(Kind.SKIPPED_PARENT, "its parent {c3} was skipped", claim="1 skipped"),),
        ends="c8 side",
    ),
    Row(
        "--confirm=0",
        "[ $(cat number) != 8 ] || exit 125",
        (
            of(
                Kind.END,
                "{C8} was called bad, and its test ended with 125: " + SKIPPED_END,
                claim="{c8} was called bad, and not tested",
            ),
            of("ends", "{C8} was called bad", claim="{c8} was called bad"),
        ),
    ),
    Row(
        "--check-ends",
        "exit 1",
        (
            of("reason", "{C1} was called good, and its test ended with 1"),
            of(Kind.ADVICE, "the command fails here, too: is something missing on this machine"),
            of(Kind.ADVICE, "or in a checkout, where --copy or --link brings it?"),
        ),
        1,
    ),
    Row(
        "-- a?b",
        "",
        [of(Kind.COMMAND, "a b is looked for as one program; a line of sh is: -- sh -c 'a b'")],
        6,
    ),
    Row(
        "--trust-ends",
        BAD4,
        [
            of(
                Kind.HISTORY,
                "{c8} and {apart} have no common history: the whole of {c8} is searched",
            )
        ],
        ends="c8 apart",
    ),
    Row(
        "",
        "[ $(cat number) != 4 ] || { %s sleep 1.5; }; " % LOST + BAD4,
        (
            of(Kind.LOST, "the test of {c4} was lost on n1", "lost with a machine"),
            Told(
                "tests",
                "{c4}  change 4",
                (("index.html", "{c4}change 4"), ("summary.md", "| bad | {c4} change 4 |"))
                + (("junit.xml", "{C4} change 4"), ("result.json", "{C4}\nchange 4")),
                " tests (",
            ),
        ),
    ),
    Row(
        "--trust-ends",
        "case $(cat number) in 2) ;; 8) exit 1 ;; *) exit 125 ;; esac",
        (
            Told("candidates", "one of 6 commits", (LISTED, ("", "ne of 6 commits"))),
            skipped("its test ended with 125"),
        ),
        2,
    ),
    Row(
        "--trust-ends --build test?$(cat?number)?-gt?7",
        "exit 1",
        [skipped("its build failed")],
        2,
    ),
    Row(
        "--trust-ends --timeout 1 --workers 8",
        "[ $(cat number) = 8 ] || sleep 60; exit 1",
        [skipped("its test took longer than --timeout")],
        2,
    ),
    Row(
        "",
        "[ $(cat number) -lt 4 ] || { echo why; exit 200; }",
        (of("reason", "{C4} stopped the search", "the test of {C4} stopped the search: exit 200"),),
        6,
    ),
    Row(
        "--deadline 1s",
        "sleep 60",
        [of("reason", "the time of --deadline is over")],
        25,
    ),
    Row(
        "--trust-ends --workers 2",
        BESIDE + "[ $n.$c = 4.1 ] || [ $n -lt 4 ]",
        [
            of(
                Kind.DISTURBED,
                "{c4} was good beside other tests, and is bad alone: tests disturb each other",
            )
        ],
    ),
    Row(
        "--trust-ends --workers 2",
        BESIDE + 'echo n1 >"$FARMDAWN_HOST_FILE"; [ $n -lt 4 ]',
        [of(Kind.NOT_ALONE, "not tested alone; --confirm=alone does it")],
    ),
    Row(
        "--measure --workers 1",
        "cat number",
        (
            Told(
                "threshold",
                "--measure='>4.5': half way from 1 ({c1}) to 8 ({c8})",
                (("junit.xml", "> 4.5"), ("", ">4.5")),
            ),
            Told(
                Kind.OWN,
                "its test measured 5 5 5 5 5 > 4.5",
                (("index.html", "Its test5 5 5 5 5 > 4.5"),),
            ),
            of(Kind.PARENT, "its parent {c4} was good (4 4 4 4 4 <= 4.5)", "4 4 4 4 4 <= 4.5"),
        ),
    ),
)

# what result.json has beside the notes: in a form of its own, or as what was asked and what it took
KEYS: Dict[str, Kind] = {
    "last_good": Kind.PARENT,
    "contradictions": Kind.CONTRADICTION,
    "sure": Kind.CONFIRMED,
    "sentence": Kind.CONFIRMED,
    "confirmed": Kind.CONFIRMED,
    "not_there": Kind.NOT_THERE,
    "odds": Kind.ODDS,
    "unlikely": Kind.UNLIKELY,
    "alone": Kind.NOT_ALONE,
    "disturbed": Kind.DISTURBED,
}
ASKED = "name repository remote bad good fixed terms first_parent paths command again"
TOOK = "report generator version state status link started ended workers host commits log notes"

# by why it is no further fact: who writes to standard error, and in how many places
ANSWERED = "the rows have it"
PLACES: Dict[str, Dict[str, int]] = {
    ANSWERED: {
        "conclusion.py:tell_output": 1,
        "conclusion.py:Together.tell_all": 3,
        "conclusion.py:Alone.show_commit": 1,
        "conclusion.py:Alone.tell_evidence": 1,
        "conclusion.py:Alone.tell_candidates": 3,
        "conclusion.py:Alone.tell_all": 1,
        "conclusion.py:Conclusion.tell_refused": 3,
        "conclusion.py:Conclusion.tell_not_alone": 1,
        "conclusion.py:Conclusion.tell_found": 2,
        "conclusion.py:Conclusion.tell_notes": 2,
        "conclusion.py:Conclusion.tell_stop": 2,
        "known/several.py:tell_answer": 2,
        "main.py:Program.attempt": 1,
        "checkouts/trial.py:Trials.look": 1,
        "search/confirm.py:Confirming.take_back": 1,
        "search/ends.py:Ends.check": 1,
        "search/alone.py:Alone.take_back": 1,
        "search/measuring.py:MeasuringEnds.take": 2,
        "search/ends.py:Ends.refuse": 2,
        "search/keeping.py:Keeping.tell_verdict": 1,
        "search/keeping.py:Keeping.show_first": 2,
        "search/noisy.py:Noisy.tell": 1,
    },
    "a row has one of them; the others say how much there is to do, and where": {
        "conclusion.py:tell_begin": 3,
        "conclusion.py:Conclusion.tell_stopped": 2,
        "main.py:Program.prepare": 3,
    },
    "how many tests, and how long, which is in the tests and times of the report": {
        "conclusion.py:Conclusion.tell_answers": 1,
    },
    "how far it is": {
        "checkouts/trial.py:Trials.prepare_steps": 2,
        "search/alone.py:Alone.all_stand": 2,
        "search/confirm.py:Confirming.all_confirmed": 1,
        "search/confirm.py:Confirming.tell_begin": 1,
        "search/keeping.py:Keeping.tell_candidates": 1,
        "search/looking.py:LookingBack.take": 1,
        "search/looking.py:LookingBack.tell_begin": 2,
        "search/needless.py:Needless.review_build": 1,
        "search/search.py:Search.begins": 1,
        "search/search.py:Search.stop_all": 1,
        "search/watch.py:Watch.tell_long": 1,
    },
    "what to look at while it runs; the tests of the report have each of these outcomes": {
        "search/keeping.py:Keeping.warn_of_skips": 2,
    },
    "how a process ended, or what it left; nothing of it is in an outcome": {
        "checkouts/trial.py:Trials.tell_killed": 1,
        "checkouts/trial.py:Trials.tell_unkept": 1,
        "checkouts/trial.py:Trials.run_ended": 1,
        "checkouts/trial.py:Trials.look_behind": 1,
        "engine/dialogue.py:Talk.restart": 1,
        "main.py:Program.undo": 1,
    },
    "files that cannot be written, or are": {
        "checkouts/trial.py:Trials.prepare": 1,
        "checkouts/trial.py:Trials.one": 1,
        "conclusion.py:Conclusion.print_log": 2,
        "results.py:Results.write_report": 2,
        "certificate/certificate.py:Writer.write_one": 2,
        "main.py:Program.tests_of": 1,
    },
    "of the line, before there is a search": {
        "line/named.py:NamedFiles.settle": 1,
        "line/named.py:NamedFiles.look_at_full_path": 1,
        "line/named.py:NamedFiles.look_at_file": 4,
        "line/named.py:NamedFiles.look_at_folder": 1,
        "line/named.py:NamedFiles.tell_lead": 1,
        "line/named.py:NamedFiles.look_at_place_of_program": 1,
        "line/named.py:NamedFiles.tell_changes": 1,
        "line/settings.py:Filler.find_ends": 1,
        "line/settings.py:Filler.add_failures": 1,
    },
    "without a report": {
        "main.py:Program.prune": 2,
        "main.py:Program.search_for": 1,
        "main.py:Program.run_to_end": 3,
        "retest.py:tell_outputs": 2,
        "certificate/certificate.py:check": 1,
        "checkouts/asking.py:Asking.show": 2,
    },
}
TELLS = ("say", "tell", "line", "once", "show", "verdict")


def tellers(node: ast.AST, name: str) -> Iterator[str]:
    """Where something is told, by the functions."""
    for child in ast.iter_child_nodes(node):
        inner = name
        if isinstance(child, (ast.FunctionDef, ast.ClassDef)):
            inner += ("." if name[-1] != ":" else "") + child.name
        if isinstance(child, ast.Attribute) and child.attr in TELLS:
            if getattr(child.value, "id", getattr(child.value, "attr", "")) == "voice":
                yield name
        yield from tellers(child, inner)


class Whole(unittest.TestCase):
    """Nothing that can be told is without a row."""

    def test_kinds(self) -> None:
        """Each kind of note."""
        there = {one.what for row in ROWS for one in row.told}
        self.assertEqual([kind for kind in Kind if kind not in there], [])
        self.assertLess(DOUBTS, set(Kind))

    def test_keys(self) -> None:
        """Each key of result.json."""
        there = {one.what for row in ROWS for one in row.told if isinstance(one.what, str)}
        known = there | set(KEYS) | set((ASKED + " " + TOOK).split())
        self.assertEqual(set(Facts.__annotations__), known)

    def test_places(self) -> None:
        """Each place that writes to standard error."""
        found: Dict[str, int] = {}
        for path, text in modules():
            for name in tellers(ast.parse(text), path + ":"):
                found[name] = found.get(name, 0) + 1
        listed: Dict[str, int] = {}
        for places in PLACES.values():
            self.assertFalse(listed.keys() & places.keys())
            listed.update(places)
        self.assertEqual(found, listed)


def strings(value: object) -> Iterator[str]:
    """All texts of a value of JSON."""
    if isinstance(value, str):
        yield value
    elif isinstance(value, (list, dict)):
        for one in value.values() if isinstance(value, dict) else value:
            yield from strings(one)


def read(folder: str, name: str) -> str:
    """What a reader of a file sees."""
    with open(os.path.join(folder, name), encoding="utf-8") as file:
        text = file.read()
    if name == "result.json":
        return "\n".join(strings(json.loads(text)))
    if name == "summary.md":
        return html.unescape(re.sub(r"\\(.)", r"\1", text.replace("`", "")))
    root = ElementTree.fromstring(text.encode())
    if name == "index.html":
        return "".join(root.itertext())
    return "\n".join(
        [*root.itertext(), *(one for row in root.iter() for one in row.attrib.values())]
    )


@needs_engine
class Searches(unittest.TestCase):
    """Whole searches, in a line of commits with a file `other` that the ninth one adds; `side` is
    behind the third one, and `apart` has no parent."""

    def setUp(self) -> None:
        """The repository."""
        repo = self.repo = Repository(self, 8)
        repo.sh(
            "echo 9 >number; echo >other; git add .; git commit -qm 'change 9'; git tag c9; "
            "echo 10 >number; git commit -qam 'change 10'; git tag c10; git checkout -qb side c3; "
            "echo 30 >number; git commit -qam side; git checkout -q --orphan apart; "
            "git commit -qm apart; git checkout -qf main"
        )
        names = [*("c%d" % n for n in range(1, 11)), "side", "apart"]
        whole = dict(zip(names, repo.run("git", "rev-parse", *names).stdout.split()))
        self.names = {name: commit[:12] for name, commit in whole.items()}
        self.names.update({name.upper(): commit for name, commit in whole.items()})

    def test_rows(self) -> None:
        """What is told is in each file, and is claimed where it is a claim."""
        for number, row in enumerate(ROWS):
            with self.subTest(number, words=row.words, script=row.script):
                self.look_at(row, "%s/row%d" % (self.repo.room, number))

    def look_at(self, row: Row, room: str) -> None:
        """One of them."""
        os.mkdir(room)
        options, _, other = row.words.partition("-- ")
        words = [word.replace("?", " ") for word in options.split()]
        command = ["--", other.replace("?", " ")] if other else ["--", "sh", "-c", row.script]
        more: Dict[str, Any] = {"env": {**ENV, "ROOM": room}}
        if row.before:
            self.repo.search("--check-ends", *row.before.split(), *command, **more)
        refuses = {"--noise", "--path"} & {*words}  # a certificate
        certified = not row.status and not refuses and os.access(PROGRAM, os.X_OK)
        words += ["--certificate", room + "/answer"] * certified
        got = self.repo.search("--report", room + "/r", *words, *row.ends.split(), *command, **more)
        self.assertEqual(got.returncode, row.status, got.stderr)
        texts = {name: read(room + "/r", name) for name in FILES}
        with open(room + "/r/result.json", encoding="utf-8") as file:
            notes = {(note["kind"], note["doubt"]) for note in json.load(file)["notes"]}
        checked = self.repo.search("--check", room + "/answer").stdout if certified else ""
        for one in row.told:
            self.assertIn(one.text.format(**self.names), got.stderr)
            for name, text in texts.items():
                self.assertIn(one.in_file(name).format(**self.names), text, name)
            if isinstance(one.what, Kind):
                self.assertIn((one.what.value, one.what in DOUBTS), notes)
            if certified:
                self.assertIn(one.claim.format(**self.names), checked)


if __name__ == "__main__":
    unittest.main()
