"""The page of several searches: a card for each first bad commit, the tests without an answer, and
all outcomes in one matrix."""
from __future__ import annotations

from typing import Dict, List, Mapping, Sequence, Set

from ..known.notes import Kind
from ..telling.facts import NAME
from ..telling.voice import counted, span
from .drawing import OUTCOMES, apart, filling, legend, page_text
from .facts import Facts, doubts_of, further_notes
from .overview import BrokenFact, OutcomesFact, OverviewFacts, SearchFact
from .page import block, head_of, shown_time

MOST_COLUMNS, MOST_CANDIDATES, MOST_OUTPUT = 160, 20, 5
MOST_NAMES, MOST_ROWS = 5, 40  # tests of a commit, and rows, that are not folded
CELL, HEIGHT, MARGIN = 9, 18, 4  # pixels


def title_of_all(facts: OverviewFacts) -> str:
    """How many commits broke how many tests."""
    count = sum(len(broken["tests"]) for broken in facts["answers"])
    return "%d of %s broke with %s" % (
        count,
        counted(len(facts["searches"]), "test"),
        counted(len(facts["answers"]), "commit"),
    )


class OverviewPage:
    """Made of the facts alone: those of all searches together, and those of each."""

    def __init__(self, facts: OverviewFacts, searches: Mapping[str, Facts]) -> None:
        self.facts, self.searches = facts, searches
        self.tests: Dict[str, SearchFact] = {one["test"]: one for one in facts["searches"]}

    def text(self) -> str:
        """All of it."""
        facts, title = self.facts, page_text(title_of_all(self.facts))
        kind = "The searches run" if facts["status"] is None else "Several tests"
        parts = [
            head_of(title),
            '<header>\n<p class="kind">%s</p>\n<h1>%s</h1>\n</header>' % (kind, title),
        ]
        for broken in facts["answers"]:
            parts += self.card(broken)
        parts += self.others() + self.matrix() + self.search_part()
        parts.append(
            '<footer>Made by git farmdawn %s; <a href="result.json">result.json</a> has the same,'
            ' and <a href="summary.md">summary.md</a> it in short.</footer>\n</body>\n</html>\n'
            % page_text(facts["version"])
        )
        return "\n".join(parts)

    def link(self, name: str) -> str:
        """The name of a test, with a link to its page."""
        return '<a href="%s/index.html">%s</a>' % (
            page_text(self.tests[name]["folder"]),
            apart(name),
        )

    def links(self, names: Sequence[str]) -> str:
        """Some tests; of many, most are folded."""
        shown = [self.link(name) for name in names]
        first = ", ".join(shown[:MOST_NAMES])
        if len(shown) <= MOST_NAMES + 1:
            return ", ".join(shown)
        return "%s <details><summary>and %d more</summary>%s</details>" % (
            first,
            len(shown) - MOST_NAMES,
            ", ".join(shown[MOST_NAMES:]),
        )

    # -- answers -------------------------------------------------------------------

    def card(self, broken: BrokenFact) -> List[str]:
        """A first bad commit, the tests that it broke, and what the first of these printed."""
        commit, first = broken["commit"], self.searches[broken["tests"][0]]
        name = page_text(commit["name"])
        shown = '<a href="%s">%s</a>' % (page_text(first["link"]), name) if first["link"] else name
        rows = [
            ("Commit", '<span class="name">%s</span>' % shown),
            ("Author", apart(commit["author"])),
            ("Date", shown_time(commit["date"])),
            ("Broke", self.links(broken["tests"])),
        ]
        doubts = [
            '<li class="doubt">%s: %s</li>' % (self.link(test), page_text(doubt))
            for test in broken["tests"]
            for doubt in doubts_of(self.searches[test])
        ]
        out = [
            '<section class="verdict card">',
            "<h2>%s</h2>" % apart(commit["subject"]),
            "<dl>%s</dl>" % "".join("<dt>%s</dt><dd>%s</dd>" % row for row in rows),
            *["<ul>%s</ul>" % "".join(doubts)] * bool(doubts),
        ]
        output = first["output"]
        if output is not None:
            lines = page_text("\n".join(output["lines"][-MOST_OUTPUT:]))
            out += [
                '<p class="kind">The last lines of %s</p>' % apart(broken["tests"][0]),
                block(lines, "prose"),
            ]
        return out + ["</section>"]

    def others(self) -> List[str]:
        """The tests without an answer, and why; those of one reason together."""
        found: Dict[str, List[str]] = {}
        for one in self.facts["searches"]:
            if one["answer"] is None:
                why = page_text(one["reason"] or one["state"]) + self.candidates_of(one)
                for note in further_notes(self.searches[one["test"]], Kind.KEPT):
                    why += " (%s)" % page_text(note["text"])
                found.setdefault(why, []).append(one["test"])
        if not found:
            return []
        rows = [
            (
                "<li>%s: %s</li>" % (why, self.links(tests))
                if len(tests) > 1
                else "<li>%s: %s</li>" % (self.link(tests[0]), why)
            )
            for why, tests in found.items()
        ]
        return ["<h2>Without an answer</h2>", "<ul>%s</ul>" % "".join(rows)]

    @staticmethod
    def candidates_of(one: SearchFact) -> str:
        """The commits of which one is the first bad one."""
        if not one["candidates"]:
            return ""
        names = ", ".join(
            '<span class="name">%s</span>' % name[:NAME]
            for name in one["candidates"][:MOST_CANDIDATES]
        )
        more = (
            " and %d more" % (len(one["candidates"]) - MOST_CANDIDATES)
            if len(one["candidates"]) > MOST_CANDIDATES
            else ""
        )
        return ": one of %s: %s%s" % (counted(len(one["candidates"]), "commit"), names, more)

    # -- all outcomes --------------------------------------------------------------

    def columns(self) -> Sequence[OutcomesFact]:
        """The commits of the matrix: all, or those that most tests say something of."""
        found = self.facts["outcomes"]
        if len(found) <= MOST_COLUMNS:
            return found
        answers = {broken["commit"]["name"] for broken in self.facts["answers"]}
        kept = sorted(
            range(len(found)),
            key=lambda at: (found[at]["commit"] not in answers, -len(found[at]["tests"])),
        )[:MOST_COLUMNS]
        return [found[at] for at in sorted(kept)]

    def order(self) -> List[str]:
        """The tests by the commit that broke them, in the order of the history; then those without
        one."""
        broken = [test for one in self.facts["answers"] for test in one["tests"]]
        return broken + [
            one["test"] for one in self.facts["searches"] if one["test"] not in set(broken)
        ]

    def matrix(self) -> List[str]:
        """A row for each test, a column for each commit that has an outcome, and a cell for what a
        test says of a commit."""
        columns = self.columns()
        if not columns:
            return []
        words: Set[str] = {word for column in columns for word in column["tests"].values()}
        new = next(iter(self.searches.values()))["terms"]["new"]
        line = "a line stands before the first %s commit" % page_text(new)
        many = len(self.tests) > MOST_ROWS
        out = [
            "<h2>All outcomes</h2>",
            *legend([word for word in OUTCOMES if word in words], line),
            *["<details><summary>%s</summary>" % counted(len(self.tests), "test")] * many,
            '<table class="matrix">',
            (
                "<thead><tr><th>test</th><th>from the oldest commit to the newest"
                " one</th></tr></thead>"
            ),
            "<tbody>",
        ]
        out += [
            '<tr><td>%s</td><td class="what">%s</td></tr>'
            % (self.link(test), self.row(test, columns))
            for test in self.order()
        ]
        out += ["</tbody></table>" + "</details>" * many]
        left = len(self.facts["outcomes"]) - len(columns)
        rest = (
            " %s that fewer tests say something of are left out, too." % counted(left, "commit")
            if left
            else ""
        )
        return out + ['<p class="kind">Commits without an outcome are left out.%s</p>' % rest]

    def row(self, test: str, columns: Sequence[OutcomesFact]) -> str:
        """What a test says of each commit."""
        answer, out = self.tests[test]["answer"], []
        for at, column in enumerate(columns):
            x = MARGIN + at * CELL
            if column["commit"] == answer:
                out.append(
                    '<path d="M%d 0v%d" class="boundary" stroke="#777"/>' % (x - 1, HEIGHT + 4)
                )
            outcome = column["tests"].get(test)
            if outcome:
                out.append(
                    '<rect x="%d" y="2" width="%d" height="%d" class="%s" fill="%s"><title>%s %s:'
                    " %s</title></rect>"
                    % (
                        x,
                        CELL - 1,
                        HEIGHT,
                        outcome,
                        filling(outcome),
                        column["commit"][:NAME],
                        page_text(column["subject"]),
                        outcome,
                    )
                )
        width, height = 2 * MARGIN + len(columns) * CELL, HEIGHT + 4
        return (
            '<svg viewBox="0 0 %d %d" width="%d" height="%d" role="img"><title>%s</title>%s</svg>'
            % (width, height, width, height, page_text(test), "".join(out))
        )

    # -- the search ----------------------------------------------------------------

    def search_part(self) -> List[str]:
        """What was searched, and what it took."""
        facts = self.facts
        took = "" if facts["ended"] is None else ", took " + span(facts["ended"] - facts["started"])
        tests = sum(test["ran"] for one in self.searches.values() for test in one["tests"])
        rows = [
            ("Repository", facts["repository"]),
            ("Commits", "%d to search" % facts["commits"]),
            ("Began", shown_time(facts["started"]) + took),
            ("Builds", str(len(facts["builds"]))),
            ("Tests", str(tests)),
            ("Workers", str(facts["workers"])),
        ]
        rows += [("Status", str(facts["status"]))] if facts["status"] else []
        return [
            "<h2>The search</h2>",
            "<dl>%s</dl>"
            % "".join("<dt>%s</dt><dd>%s</dd>" % (name, page_text(text)) for name, text in rows),
        ]
