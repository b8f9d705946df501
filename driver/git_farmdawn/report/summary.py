"""summary.md, for a merge request or a ticket, and junit.xml, for a build server: made of the facts
of a report alone.

In Markdown any sign of a subject may mean something: so each stands behind a backslash, or in code
whose fence is longer than any in it. In JUnit a search is a test case that fails by the commit that
was found: so a build server shows that beside the test."""
from __future__ import annotations

import re
from typing import List, Mapping, NamedTuple, Optional, Sequence, Tuple

from ..telling.facts import NAME
from ..telling.numbers import of_hundred
from ..telling.voice import counted, span
from .drawing import plain
from .facts import CommitFact, Facts, GoodFact, doubts_of, further_notes, outcome_in_words
from .overview import OverviewFacts
from .overview_page import title_of_all

MARK = "<!-- git farmdawn -->"
FIRST = '<?xml version="1.0" encoding="UTF-8"?>\n<!-- git farmdawn -->\n'
MOST_CANDIDATES, MOST_ROWS, MOST_ODDS, LINES = 20, 40, 5, 10


def marked(text: str) -> str:
    """A text in which no sign means something to Markdown; in one line."""
    return re.sub(r"([\\`*_{}\[\]<>()#+!|~&@-])", r"\\\1", " ".join(plain(text).split()))


def code(text: str) -> str:
    """A text as code, in one line: its fence is longer than what it has of such signs."""
    text = " ".join(plain(text).split("\n"))
    fence = "`" * (1 + max((len(run) for run in re.findall("`+", text)), default=0))
    pad = " " if text[:1] == "`" or text[-1:] == "`" else ""
    return fence + pad + text + pad + fence


def fenced(lines: List[str]) -> List[str]:
    """Lines as they are, between fences that are longer than any of theirs."""
    text = plain("\n".join(lines))
    fence = "`" * max(3, 1 + max((len(run) for run in re.findall("`+", text)), default=0))
    return [fence + "text", text, fence]


def named(name: str, subject: str, link: object = None) -> str:
    """A commit with its subject."""
    shown = code(name[:NAME])
    return ("[%s](%s)" % (shown, link) if link else shown) + " " + marked(subject)


# -- Markdown ----------------------------------------------------------------------


def summary_of(facts: Facts) -> str:
    """All of it: what was found, what failed, the last good one, how sure, how to see it, and what
    was tested."""
    lines = [MARK, "## " + title_of(facts), ""]
    answer = facts["answer"]
    if answer:
        lines += [
            named(answer["name"], answer["subject"], facts["link"]),
            "",
            "by " + marked(answer["author"]),
            "",
        ]
    for one in facts["candidates"][:MOST_CANDIDATES]:
        lines.append(
            "- "
            + named(one["name"], one["subject"])
            + (" (%s)" % outcome_in_words(one["outcome"], one["how"]) if one["outcome"] else "")
        )
    if len(facts["candidates"]) > MOST_CANDIDATES:
        lines.append("- and %d more" % (len(facts["candidates"]) - MOST_CANDIDATES))
    if facts["output"]:
        lines += [
            "",
            "The last lines of the test of %s:" % code(facts["output"]["commit"][:NAME]),
            "",
        ]
        lines += fenced(facts["output"]["lines"][-LINES:])
    lines += ["", *sure_lines(facts), ""]
    for what, key in (("To see it:", "see"), ("To search again:", "search")):
        lines += (
            [what, "", *fenced(facts["again"][key].split("\n")), ""] if facts["again"][key] else []
        )
    lines += table(facts)
    text = "\n".join(lines) + "\n"
    return re.sub("\n{3,}", "\n\n", text)


def title_of(facts: Facts) -> str:
    """What came of it, in one line."""
    if facts["answer"]:
        return "First %s commit: %s" % (facts["terms"]["new"], marked(facts["answer"]["subject"]))
    if facts["candidates"]:
        return "One of " + counted(len(facts["candidates"]), "commit")
    return marked(
        "%s: %s"
        % ("The search runs" if facts["state"] == "running" else "No answer", facts["reason"])
    )


def how_good(facts: Facts, parent: GoodFact) -> str:
    """Whether a parent was tested, and what it measured."""
    if parent["status"] is None:
        return " (called so, and not tested)"
    rows = [one for one in facts["tests"] if one["commit"] == parent["commit"]]
    text = next((one["measured"] for one in rows if one["measured"] and not one["status"]), None)
    return " (%s)" % marked(text) if text else ""


def sure_lines(facts: Facts) -> List[str]:
    """The last good commits, and what speaks for the answer and against it."""
    out = [
        "- last %s commit: %s"
        % (
            facts["terms"]["old"],
            named(one["commit"], one["subject"]) + how_good(facts, one),
        )
        for one in facts["last_good"]
    ]
    out += ["- " + marked(note["text"]) for note in further_notes(facts)]
    out += [
        "- odds: %s: %s" % (of_hundred(one["odds"]), named(one["commit"], one["subject"]))
        for one in facts["odds"][:MOST_ODDS]
    ]
    out += [
        "- contradicts: %s: %s" % (named(one["commit"], one["subject"]), marked(one["why"]))
        for one in facts["contradictions"]
    ]
    untested = [end for end in facts["ends"] if end["status"] is None]
    if facts["answer"] and untested:
        out += [
            "- %s was called %s, and not tested" % (code(end["commit"][:NAME]), end["called"])
            for end in untested
        ]
    return out


def table(facts: Facts) -> List[str]:
    """The tests that the log has."""
    rows = [one for one in facts["tests"] if one["used"]]
    if not rows:
        return []
    hosts = any(one["host"] for one in rows)
    lost = sum(one["lost"] for one in facts["tests"])
    out = [
        "%s, %s on %s%s"
        % (
            counted(sum(one["ran"] for one in facts["tests"]), "test"),
            counted(facts["workers"], "worker"),
            code(facts["host"]),
            "; %s lost with a machine" % counted(lost, "more test") if lost else "",
        ),
        "",
        "| outcome | commit | took |" + (" on |" if hosts else ""),
        "|---|---|---|" + ("---|" if hosts else ""),
    ]
    for one in rows[:MOST_ROWS]:
        took = (
            ""
            if one["began"] is None or one["ended"] is None
            else span(one["ended"] - one["began"])
        )
        on = " %s |" % code(one["host"] or "-") if hosts else ""
        numbers = " (%s)" % marked(one["measured"]) if one["numbers"] and one["measured"] else ""
        out.append(
            "| %s | %s | %s |%s"
            % (
                outcome_in_words(one["outcome"], one["how"]),
                named(one["commit"], one["subject"]) + numbers,
                took,
                on,
            )
        )
    return out


# -- JUnit -------------------------------------------------------------------------


class Case(NamedTuple):
    """What a search counts as, its place in the tree of tests, how long it took, and what is said
    of it: of which type, in a line and in lines."""

    kind: str  # the element
    names: Tuple[str, str]
    seconds: float
    type: str
    message: str
    text: str = ""


# the attribute of a suite that counts the cases with an element
SUMS = {"failure": "failures", "error": "errors", "skipped": "skipped"}


def case_of(facts: Facts, names: Tuple[str, str], seconds: float) -> Case:
    """The test case of a search. It fails by the commit that was found, so that a build server
    shows that beside the test."""
    answer = facts["answer"]
    told = [note["text"] for note in facts["notes"] if not note["doubt"]]
    text = "\n".join(told + (facts["output"]["lines"] if facts["output"] else []))
    if answer:
        named_answer = answer["name"], answer["subject"], answer["author"]
        message = "first %s commit: " % facts["terms"]["new"] + "%s %s, by %s" % named_answer
        message = "; ".join([message, *doubts_of(facts)])
        return Case("failure", names, seconds, "found", message, text)
    if facts["candidates"]:
        text = "\n".join([candidate_line(one) for one in facts["candidates"]] + told)
        message = "one of " + counted(len(facts["candidates"]), "commit")
        message = "; ".join([message, *doubts_of(facts)])
        return Case("failure", names, seconds, "candidates", message, text)
    if facts["state"] == "running":
        return Case("skipped", names, seconds, "", "the search runs")
    return Case("error", names, seconds, facts["state"], facts["reason"] or "", text)


def candidate_line(one: CommitFact) -> str:
    """A commit that may be the first bad one, and what is known of it."""
    words = "%s %s" % (one["name"], one["subject"])
    if not one["outcome"]:
        return words
    return "%s (%s)" % (words, outcome_in_words(one["outcome"], one["how"]))


def junit_text(cases: Sequence[Case], seconds: float) -> str:
    """A file of JUnit, a line for each case; `plain` leaves nothing that XML cannot have."""
    from xml.etree.ElementTree import Element, SubElement, tostring  # read only for a report

    root = Element("testsuites")
    suite = SubElement(root, "testsuite", name="git farmdawn", tests=str(len(cases)))
    for kind, sums in SUMS.items():
        suite.set(sums, str(sum(case.kind == kind for case in cases)))
    suite.set("time", "%.2f" % seconds)
    for case in cases:
        words = {"classname": plain(case.names[0]), "name": plain(case.names[1])}
        row = SubElement(suite, "testcase", words, time="%.2f" % case.seconds)
        told = {"type": case.type} if case.type else {}
        SubElement(row, case.kind, told, message=plain(case.message)).text = plain(case.text)
        row.tail = "\n"
    root.text = suite.text = suite.tail = "\n"
    return FIRST + tostring(root, "unicode") + "\n"


def junit_of(facts: Facts, names: Optional[Tuple[str, str]] = None) -> str:
    """One test case: the search."""
    spent = (facts["ended"] or facts["started"]) - facts["started"]
    return junit_text([case_of(facts, names or names_of(facts), spent)], spent)


def names_of(facts: Facts) -> Tuple[str, str]:
    """Where a search stands among the tests of a build server, where its test has no place of its
    own there."""
    return "git farmdawn", facts["name"] or " ".join(facts["command"])


MOST_TESTS, LINES_OF_EACH = 40, 5


def summary_of_all(facts: OverviewFacts, searches: Mapping[str, Facts]) -> str:
    """What was found, and what the first test of each commit printed; the tests without an answer;
    and what it took."""
    lines = [MARK, "## " + title_of_all(facts), ""]
    for broken in facts["answers"]:
        commit, first = broken["commit"], searches[broken["tests"][0]]
        broke = "by %s; it broke %s" % (marked(commit["author"]), tests_of(broken["tests"]))
        lines += [named(commit["name"], commit["subject"], first["link"]), "", broke, ""]
        lines += [
            "- %s: %s" % (code(test), marked(doubt))
            for test in broken["tests"]
            for doubt in doubts_of(searches[test])
        ] + [""]
        if first["output"]:
            lines += [
                "The last lines of %s:" % code(broken["tests"][0]),
                "",
                *fenced(first["output"]["lines"][-LINES_OF_EACH:]),
                "",
            ]
    for one in facts["searches"]:
        if one["answer"] is None:
            names = " ".join(code(name[:NAME]) for name in one["candidates"][:MOST_CANDIDATES])
            more = (
                " and %d more" % (len(one["candidates"]) - MOST_CANDIDATES)
                if len(one["candidates"]) > MOST_CANDIDATES
                else ""
            )
            lines.append(
                "- %s: %s%s"
                % (
                    code(one["test"]),
                    marked(one["reason"] or one["state"]),
                    ": one of " + names + more if names else "",
                )
            )
            lines += [
                "  - " + marked(note["text"]) for note in further_notes(searches[one["test"]])
            ]
    text = "\n".join(lines + ["", sums_of(facts, searches), ""])
    return re.sub("\n{3,}", "\n\n", text)


def tests_of(names: List[str]) -> str:
    """Some names."""
    shown = ", ".join(code(name) for name in names[:MOST_TESTS])
    return shown + (" and %d more" % (len(names) - MOST_TESTS) if len(names) > MOST_TESTS else "")


def sums_of(facts: OverviewFacts, searches: Mapping[str, Facts]) -> str:
    """Builds, tests and workers, and how long it took."""
    count = sum(test["ran"] for one in searches.values() for test in one["tests"])
    builds = counted(len(facts["builds"]), "build") + ", " if facts["builds"] else ""
    took = ", " + span(facts["ended"] - facts["started"]) if facts["ended"] is not None else ""
    return "%s%s, %s%s" % (
        builds,
        counted(count, "test"),
        counted(facts["workers"], "worker"),
        took,
    )


def junit_of_all(
    facts: OverviewFacts,
    searches: Mapping[str, Facts],
    cases_by_name: Mapping[str, Tuple[str, str]],
) -> str:
    """A test case for each test; `cases_by_name` has the class and the name of those that are from
    a file of JUnit. Its time is that of all runs."""
    cases = []
    for name, one in searches.items():
        seconds = sum(
            (test["ended"] or test["began"]) - test["began"]
            for test in one["tests"]
            if test["ran"] and test["began"] is not None
        )
        cases.append(case_of(one, cases_by_name.get(name) or names_of(one), seconds))
    return junit_text(cases, (facts["ended"] or facts["started"]) - facts["started"])
