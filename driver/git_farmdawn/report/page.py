"""index.html: first what was found, what failed, and what speaks for it; then the change, the
search and its tests.

Build servers show it under a policy that allows no script and no style in the page: so there is
none, the style is a file of its own, and what is drawn is SVG whose colours stand in attributes. It
is XML, too, so that tests can read it. Each text of others goes through `page_text` or, where it
may run from right to left, through `apart`."""
from __future__ import annotations

import re
import time
from typing import TYPE_CHECKING, Dict, List, Optional

from ..known.notes import Kind
from ..telling.facts import NAME, ended_with
from ..telling.numbers import of_hundred
from ..telling.voice import counted, quoted, span
from .drawing import apart, farm, levels, page_text, patterns, strip
from .facts import AnswerFact, Facts, TestFact, further_notes, is_needless, is_not_built
from .facts import outcome_in_words, was_taken_back
from .source import MOST_BYTES

if TYPE_CHECKING:
    from ..known.record import Seen
    from .source import Source

MOST_LINES, OPEN_LINES = 2000, 120
MOST_LISTED = 100  # commits of which one is the first bad one
MOST_TOLD = 10  # commits with their odds
PLACES = re.compile(r"[+]{3} |--- |diff |index |(new|deleted) file mode |@@|\\")


def shown_time(seconds: float) -> str:
    """A time of the clock on the wall."""
    return time.strftime("%Y-%m-%d %H:%M:%S %z", time.localtime(seconds))


def fact(name: str, text: object) -> str:
    """A line of a list of facts."""
    return "<dt>%s</dt><dd>%s</dd>" % (name, page_text(str(text)))


def block(text: str, kind: str = "") -> str:
    """A text that keeps its lines."""
    return '<pre tabindex="0"%s>%s</pre>' % (' class="%s"' % kind if kind else "", text)


def measured_or(one: TestFact, ended: str) -> str:
    """What a test has measured, or how it ended."""
    return one["measured"] or ended


def head_of(title: str) -> str:
    """What a browser reads first: up to what fills the drawings."""
    return (
        '<!DOCTYPE html>\n<html xmlns="http://www.w3.org/1999/xhtml" lang="en">\n<head>\n<meta'
        ' charset="utf-8"/>\n<meta name="generator" content="git farmdawn"/>\n<meta'
        ' name="viewport" content="width=device-width, initial-scale=1"/>\n'
        '<title>%s</title>\n<link rel="stylesheet" href="report.css"/>\n</head>\n<body>\n%s'
        % (title, patterns())
    )


class Page:
    """The page of one search. `place` has the places of the commits."""

    def __init__(self, facts: Facts, seen: Seen, place: Dict[str, int], source: Source) -> None:
        self.facts, self.seen, self.place, self.source = facts, seen, place, source

    def text(self) -> str:
        """All of it."""
        facts, answer = self.facts, self.facts["answer"]
        parts = self.head() + (self.verdict(answer) if answer else self.no_verdict())
        parts += (
            self.output()
            + self.doubts()
            + strip(facts, self.place, self.seen.statuses)
            + levels(facts, self.place)
            + self.again()
        )
        parts += self.change(answer["name"]) if answer else []
        parts += self.search_part() + [
            "<h2>The log</h2>" + block(page_text("\n".join(facts["log"]))),
            "<h2>The tests</h2>",
        ]
        parts += [
            "<details><summary>Who tested what, and when</summary>",
            *farm(facts, self.counts()),
            "</details>",
            *self.table(),
        ]
        parts.append(
            '<footer>Made by git farmdawn %s; <a href="result.json">result.json</a> has the same,'
            ' and <a href="summary.md">summary.md</a> it in short.</footer>\n</body>\n</html>\n'
            % page_text(facts["version"])
        )
        return "\n".join(parts)

    def head(self) -> List[str]:
        """What a browser reads first."""
        facts, answer = self.facts, self.facts["answer"]
        if answer:
            title = "First %s commit: %s %s" % (
                page_text(facts["terms"]["new"]),
                answer["name"][:NAME],
                page_text(answer["subject"]),
            )
        elif facts["candidates"]:
            title = "First %s commit: one of %d" % (
                page_text(facts["terms"]["new"]),
                len(facts["candidates"]),
            )
        else:
            title = "No answer: " + page_text(facts["reason"] or "")
        return [head_of(title)]

    # -- what was found ----------------------------------------------------------------

    def verdict(self, answer: AnswerFact) -> List[str]:
        """The commit, who made it, how its test ended, and the last good one."""
        facts = self.facts
        name = page_text(answer["name"])
        shown = '<a href="%s">%s</a>' % (page_text(facts["link"]), name) if facts["link"] else name
        rows = [
            '<dt>Commit</dt><dd class="name">%s</dd>' % shown,
            "<dt>Author</dt><dd>%s</dd>" % apart(answer["author"]),
            fact("Date", shown_time(answer["date"])),
        ]
        own = self.row_of(answer["name"])
        if own and own["outcome"] == "bad":
            ended = ended_with(own["status"] or 0, facts["fixed"])
            rows.append(fact("Its test", measured_or(own, ended)))
        rows += self.parents()
        return [
            '<header class="verdict">\n<p class="kind">First %s'
            " commit</p>\n<h1>%s</h1>\n<dl>%s</dl>\n</header>"
            % (page_text(facts["terms"]["new"]), apart(answer["subject"]), "".join(rows))
        ]

    def parents(self) -> List[str]:
        """The parents of the answer that were good."""
        old = page_text(self.facts["terms"]["old"])
        return [
            "<dt>Last %s one</dt><dd>%s %s (%s)</dd>"
            % (
                old,
                self.linked(one["commit"]),
                apart(one["subject"]),
                "called so, and not tested" if one["status"] is None else "tested",
            )
            for one in self.facts["last_good"]
        ]

    def linked(self, name: str) -> str:
        """The short name of a commit, with a link to its page on the server of the remote."""
        link = self.source.link(name)
        shown = '<a href="%s">%s</a>' % (page_text(link), name[:NAME]) if link else name[:NAME]
        return '<span class="name">%s</span>' % shown

    def no_verdict(self) -> List[str]:
        """Why there is none, or the commits of which one is it."""
        facts, listed = self.facts, self.facts["candidates"]
        if not listed:
            kind = "The search runs" if facts["state"] == "running" else "No answer"
            return [
                '<header class="verdict none">\n<p class="kind">%s</p>\n<h1>%s</h1>\n</header>'
                % (kind, page_text(facts["reason"] or ""))
            ]
        out = [
            '<header class="verdict">\n<p class="kind">First %s commit</p>\n<h1>One of'
            " %s</h1>\n<ul>" % (page_text(facts["terms"]["new"]), counted(len(listed), "commit"))
        ]
        out += [
            "<li>%s %s%s</li>"
            % (
                self.linked(one["name"]),
                apart(one["subject"]),
                " (%s)" % outcome_in_words(one["outcome"], one["how"]) if one["outcome"] else "",
            )
            for one in listed[:MOST_LISTED]
        ]
        if len(listed) > MOST_LISTED:
            out.append(
                '<li>and %d more, which <a href="result.json">result.json</a> has</li>'
                % (len(listed) - MOST_LISTED)
            )
        return out + ['</ul>\n<p class="kind">%s</p>\n</header>' % page_text(facts["reason"] or "")]

    def row_of(self, name: str) -> Optional[TestFact]:
        """The test of a commit that has an outcome."""
        return next(
            (
                one
                for one in self.facts["tests"]
                if one["commit"] == name and one["status"] is not None
            ),
            None,
        )

    def output(self) -> List[str]:
        """The last lines of the test that decided."""
        output = self.facts["output"]
        if output is None:
            return []
        return [
            "<h2>The last lines of the output of %s</h2>" % output["commit"][:NAME]
            + block(page_text("\n".join(output["lines"])), "prose")
        ]

    def again(self) -> List[str]:
        """How the fault is seen, and how it is searched again."""
        lines = self.facts["again"]
        rows = [("To see it", lines["see"]), ("To search again", lines["search"])]
        texts = [
            "<dt>%s</dt><dd><code>%s</code></dd>" % (name, page_text(line))
            for name, line in rows
            if line
        ]
        return ['<h2>How to run it again</h2>\n<dl class="lines">%s</dl>' % "".join(texts)]

    def doubts(self) -> List[str]:
        """What speaks against the answer, and whether the ends were tested."""
        facts = self.facts
        title = "How sure it is" if facts["answer"] else "What is known"
        out = [
            '<li class="doubt">%s %s: %s</li>'
            % (one["commit"][:NAME], apart(one["subject"]), page_text(one["why"]))
            for one in facts["contradictions"]
        ]
        for end in facts["ends"]:
            if facts["answer"] and end["status"] is None:
                out.append(
                    "<li>%s was called %s, and not tested</li>"
                    % (end["commit"][:NAME], page_text(end["called"]))
                )
        against = {one["commit"] for one in facts["contradictions"]}
        agree = len(
            [
                one
                for one in facts["tests"]
                if one["outcome"] in ("good", "bad")
                and is_needless(one)
                and one["commit"] not in against
            ]
        )
        if facts["answer"] and agree:
            out.append(
                "<li>%s that the log does not need %s with it</li>"
                % (counted(agree, "outcome"), "agrees" if agree == 1 else "agree")
            )
        out += [
            "<li%s>%s</li>" % (' class="doubt"' if note["doubt"] else "", page_text(note["text"]))
            for note in further_notes(facts, Kind.OWN, Kind.KEPT)
        ]
        out += self.odds()
        return ["<h2>%s</h2>\n<ul>" % title] + out + ["</ul>"] if out else []

    def odds(self) -> List[str]:
        """The odds of the commits that have most of them, of a search by odds."""
        return [
            "<li>%s: %s %s</li>"
            % (of_hundred(one["odds"]), one["commit"][:NAME], apart(one["subject"]))
            for one in self.facts["odds"][:MOST_TOLD]
        ]

    # -- the change --------------------------------------------------------------------

    def change(self, name: str) -> List[str]:
        """The message of a commit, where it has more than a title, and its change."""
        message, stat, patch = self.source.change(name)
        out = (
            ["<h2>Its message</h2>" + block(page_text(message), "prose")] if "\n" in message else []
        )
        out.append("<h2>Its change</h2>")
        if not stat.strip():
            return out + ['<p class="kind">No file differs from its parent.</p>']
        lines = [self.patch_line(line) for line in patch.split("\n")[:MOST_LINES]]
        out += [
            block(page_text("\n".join(stat.split("\n")[:300]))),
            "<details%s><summary>The patch</summary>"
            % (' open="open"' if len(lines) <= OPEN_LINES else ""),
            block("\n".join(lines)),
        ]
        if patch.count("\n") > MOST_LINES or len(patch) > MOST_BYTES:
            out.append(
                '<p class="kind">The rest is cut off here; <code>git show %s</code> has it.</p>'
                % name
            )
        return out + ["</details>"]

    @staticmethod
    def patch_line(line: str) -> str:
        """A line of a patch in its colour."""
        kind = "place" if PLACES.match(line) else {"+": "added", "-": "removed"}.get(line[:1])
        text = page_text(line[:MOST_LINES])
        return '<span class="%s">%s</span>' % (kind, text) if kind else text

    # -- the search --------------------------------------------------------------------

    def search_part(self) -> List[str]:
        """What was searched, and by what."""
        facts = self.facts
        out = [
            "<h2>The search</h2>\n<dl>",
            fact("Repository", facts["remote"] or facts["repository"]),
            fact("Host", facts["host"]),
            "<dt>Command</dt><dd><code>%s</code></dd>"
            % page_text(" ".join(quoted(word) for word in facts["command"])),
        ]
        for end in facts["ends"]:
            how = page_text(end["how"] or "not tested")
            out.append(
                '<dt>%s</dt><dd><span class="name">%s</span> %s (%s)</dd>'
                % (page_text(end["called"]), end["commit"][:NAME], apart(end["subject"]), how)
            )
        out += [fact("Bad is", facts["threshold"])] if facts["threshold"] else []
        out += [fact("Path", path) for path in facts["paths"]]
        took = "" if facts["ended"] is None else ", took " + span(facts["ended"] - facts["started"])
        out += [
            fact(
                "Commits",
                "%d to search%s"
                % (facts["commits"], ", by first parents" if facts["first_parent"] else ""),
            ),
            fact("Began", shown_time(facts["started"]) + took),
            fact("Tests", self.counts()),
            fact("Workers", facts["workers"]),
        ]
        return out + ([fact("Status", facts["status"])] if facts["status"] else []) + ["</dl>"]

    def counts(self) -> str:
        """How many tests there were."""
        tests = self.facts["tests"]
        counts = (
            (sum(one["ran"] for one in tests), "%d ran"),
            (sum(one["lost"] for one in tests), ", %d more were lost with a machine"),
            (sum(one["kept"] for one in tests), ", %d known from earlier runs"),
            (sum(is_not_built(one) for one in tests), ", %d not built"),
            (sum(one["ran"] and is_needless(one) for one in tests), "; %d needless"),
        )
        return "".join(text % count for at, (count, text) in enumerate(counts) if count or not at)

    def table(self) -> List[str]:
        """A row for each test."""
        hosts = any(one["host"] for one in self.facts["tests"])
        out = [
            "<table>\n<thead><tr><th>Outcome</th><th>Commit</th><th>Subject</th>%s<th"
            ' class="number">Time</th><th>Output</th></tr></thead>\n<tbody>'
            % ("<th>Host</th>" if hosts else "")
        ]
        for number, one in enumerate(self.facts["tests"], 1):
            spent = (
                "" if one["began"] is None else span((one["ended"] or time.time()) - one["began"])
            )
            note = (
                " (known)"
                if one["kept"]
                else " (not built)"
                if is_not_built(one)
                else (
                    " (taken back)"
                    if was_taken_back(self.seen, one)
                    else (
                        " (needless)"
                        if is_needless(one)
                        else " (run %d)" % one["run"]
                        if one["run"] > 1
                        else ""
                    )
                )
            )
            link = (
                '<a href="%s" aria-label="output of %s">output</a>'
                % (one["log"], one["commit"][:NAME])
                if one["log"]
                else ""
            )
            host = "<td>%s</td>" % page_text(one["host"] or "") if hosts else ""
            measured = page_text(one["measured"] or "")
            numbers = ' <span class="place">%s</span>' % measured if measured else ""
            out.append(
                '<tr id="t%d"><td>%s%s</td><td class="name">%s</td><td class="what">%s</td>%s<td'
                ' class="number">%s</td><td>%s</td></tr>'
                % (
                    number,
                    outcome_in_words(one["outcome"], one["how"]),
                    note,
                    one["commit"][:NAME],
                    apart(one["subject"]) + numbers,
                    host,
                    spent,
                    link,
                )
            )
        return out + ["</tbody>\n</table>"]
