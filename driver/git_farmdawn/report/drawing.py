"""The drawings of a report: the history with its outcomes, and who tested what, and when."""
from __future__ import annotations

import time
from html import escape
from typing import Dict, List, NamedTuple, Optional, Sequence

from ..telling.facts import NAME, outcome_of
from ..telling.numbers import brief, threshold_of
from ..telling.text import by_number, visible
from ..telling.voice import span
from .facts import Facts, TestFact, is_needless

MEANT = {
    "ended": "ended before it was done",
    "stopped": "stopped the search",
}
OUTCOMES = ("good", "bad", "skipped", "stopped", "ended", "running")
STEPS = (
    0.1,
    0.2,
    0.5,
    1,
    2,
    5,
    10,
    15,
    30,
    60,
    120,
    300,
    600,
    900,
    1800,
    3600,
    7200,
    14400,
    28800,
    86400,
    172800,
    604800,
)
# a pattern for each outcome, for those who see few colours
PATTERNS = (
    ("good", ""),
    ("bad", "M-2 2 2-2M-2 10 10-2M6 10 10 6"),
    ("skipped", "M2 2h2M6 6h2"),
    ("stopped", "M0 0 8 8M8 0 0 8"),
)
PLAIN = {
    "good": "#0072b2",
    "bad": "#c94f00",
    "skipped": "#6f7378",
    "stopped": "#9c3d78",
}  # without a style
MOST_CELLS = 160
CELLS = range(9, 25)  # columns of pixels for a cell, by how many there are
HIGH, DOT = 160, 6  # pixels of the drawing of numbers, and of a number
WIDTH, PIECE, GAP = 700, 330, 4  # of all, of what a telephone has in a line, between two


def plain(text: str) -> str:
    """A text as a page may have it: lines and tabs stay, and what is hidden is told by number."""
    return visible(text, by_number, "\t\n")


def page_text(text: str) -> str:
    """The same as the page has it."""
    return escape(plain(text))


def apart(text: str) -> str:
    """The same where it may run from right to left: what stands beside it keeps its place."""
    return "<bdi>%s</bdi>" % page_text(text)


def patterns() -> str:
    """What fills the bars and cells."""
    out = ['<svg width="0" height="0" aria-hidden="true" class="patterns"><defs>']
    for name, path in PATTERNS:
        mark = '<path class="m" stroke="#fff" fill="none" d="%s"/>' % path if path else ""
        out.append(
            '<pattern id="p-%s" width="8" height="8" patternUnits="userSpaceOnUse"><rect width="8"'
            ' height="8" class="c-%s" fill="%s"/>%s</pattern>' % (name, name, PLAIN[name], mark)
        )
    return "\n".join(out) + "</defs></svg>"


def filling(outcome: str) -> str:
    """What fills a bar, by its own attribute, so that it is filled where a server allows no
    style."""
    return "url(#p-%s)" % outcome if outcome in PLAIN else "none"


def legend(words: Sequence[str], faint: str = "") -> List[str]:
    """What the fillings mean."""
    out = ['<ul class="legend">']
    for word in OUTCOMES:
        if word in words:
            out.append(
                '<li><svg width="22" height="12" aria-hidden="true"><rect x="1" y="1" width="20"'
                ' height="10" class="%s" fill="%s"/></svg>%s</li>'
                % (word, filling(word), MEANT.get(word, word))
            )
    return out + (["<li>%s</li>" % faint] if faint else []) + ["</ul>"]


# -- the history -------------------------------------------------------------------


class Cell(NamedTuple):
    """A commit of the strip."""

    commit: str
    at: int  # its place in the history
    outcome: str
    number: Optional[int]  # of its row in the table


def cells_of(facts: Facts, place: Dict[str, int], known: Dict[str, int]) -> List[Cell]:
    """The commits that have an outcome, and the ends, in the order of the history."""
    found: Dict[str, Cell] = {}
    for end in facts["ends"]:
        called = "bad" if end["commit"] == facts["bad"] else "good"
        if end["commit"] in place and end["status"] is None:
            found[end["commit"]] = Cell(end["commit"], place[end["commit"]], called, None)
    for number, one in enumerate(facts["tests"], 1):
        if (
            one["commit"] in place
            and one["status"] is not None
            and (one["run"] == 1 or one["commit"] not in found)
        ):
            outcome = outcome_of(known[one["commit"]]) if one["commit"] in known else one["outcome"]
            found[one["commit"]] = Cell(one["commit"], place[one["commit"]], outcome, number)
    cells = sorted(found.values(), key=lambda cell: cell.at)
    if len(cells) <= MOST_CELLS:
        return cells
    answer = facts["answer"]
    middle = next(
        (at for at, cell in enumerate(cells) if answer and cell.commit == answer["name"]),
        len(cells) // 2,
    )
    begin = max(0, min(middle - MOST_CELLS // 2, len(cells) - MOST_CELLS))
    return cells[begin : begin + MOST_CELLS]


def strip(facts: Facts, place: Dict[str, int], known: Dict[str, int]) -> List[str]:
    """The history from the good commits to the bad one: a cell for each commit that has an outcome,
    with the answer marked. It is drawn in pieces that stand in as many lines as a page wants."""
    cells = cells_of(facts, place, known)
    if len(cells) < 2:
        return []
    notes = {one["commit"]: ": contradicts" for one in facts["contradictions"]}
    notes.update((one["name"], ": may be the first one") for one in facts["candidates"])
    wide = max(CELLS[0], min(CELLS[-1], WIDTH // len(cells) - GAP))
    many, new = PIECE // (wide + GAP), page_text(facts["terms"]["new"])
    name = facts["answer"]["name"] if facts["answer"] else ""
    text = "the line stands before the first %s commit" % new if name else ""
    if facts["candidates"]:
        text = "framed: may be the first %s one" % new
    out = [
        "<h2>The history</h2>",
        *legend(sorted({cell.outcome for cell in cells}), text),
        '<p class="strip" role="group" aria-label="Outcomes from the oldest commit to the newest">',
    ]
    out += [piece(cells[at : at + many], wide, name, notes) for at in range(0, len(cells), many)]
    far = (
        ""
        if len(cells) < MOST_CELLS
        else ", and those far from that line"
        if name
        else ", and the outermost ones"
    )
    return out + [
        "</p>",
        '<p class="kind">From the oldest commit to the newest one; commits without '
        "an outcome are left out%s.</p>" % far,
    ]


def piece(cells: List[Cell], wide: int, answer: str, notes: Dict[str, str]) -> str:
    """Some cells of the strip; notes say why a commit is framed."""
    out, x, last = [], 2, cells[0].at - 1
    for cell in cells:
        x += 0 if cell.at == last + 1 else GAP
        if cell.commit == answer:
            out.append('<path d="M%d 0v30" class="boundary" stroke="#777"/>' % (x - 1))
        note = notes.get(cell.commit, "")
        title = "<title>%s %s%s</title>" % (cell.commit[:NAME], cell.outcome, note)
        bar = '<rect x="%d" y="6" width="%d" height="18" class="%s%s" fill="%s"/>' % (
            x,
            wide - 1,
            cell.outcome,
            " doubt" if note else "",
            filling(cell.outcome),
        )
        out.append(
            '<a href="#t%d" tabindex="-1">%s%s</a>' % (cell.number, title, bar)
            if cell.number
            else bar
        )
        x, last = x + wide, cell.at
    return '<svg width="%d" height="30">%s</svg>' % (x + 1, "".join(out))


# -- the numbers -------------------------------------------------------------------


def levels(facts: Facts, place: Dict[str, int]) -> List[str]:
    """What was measured along the history: a dot for each number, and a line at the threshold."""
    threshold = threshold_of(facts["threshold"] or "")
    tests = [
        (place[one["commit"]], number, one)
        for number, one in enumerate(facts["tests"], 1)
        if one["numbers"] and one["commit"] in place
    ]
    places = sorted({at for at, _, _ in tests})
    if threshold is None or threshold.number is None or len(places) < 2:
        return []
    numbers = [number for _, _, one in tests for number in one["numbers"]]
    low, high = min(*numbers, threshold.number), max(*numbers, threshold.number)
    rank = {at: (number + 0.5) * 100 / len(places) for number, at in enumerate(places)}

    def height(number: float) -> float:
        """How far from the top it is."""
        return DOT + (HIGH - 2 * DOT) * (high - number) / ((high - low) or 1.0)

    line = height(threshold.number)
    text = "From the oldest commit to the newest one, from %s up to %s; %s %s is bad." % (
        brief(low),
        brief(high),
        "above" if threshold.is_above else "below",
        brief(threshold.number),
    )
    out = [
        "<h2>The numbers</h2>",
        '<svg class="drawing" height="%d" role="group" aria-labelledby="levels-title levels-text">'
        '<title id="levels-title">What each commit measured</title><desc id="levels-text">%s The'
        " table below has the numbers.</desc>" % (HIGH, text),
        '<line x1="0%%" x2="100%%" y1="%.1f" y2="%.1f" class="boundary" stroke="#777"/>'
        % (line, line),
    ]
    for at, number, one in sorted(tests, key=lambda test: test[:2]):
        dots = "".join(
            '<rect x="%.3f%%" y="%.1f" width="%d" height="%d" class="%s" fill="%s"/>'
            % (rank[at], height(dot) - DOT / 2, DOT, DOT, one["outcome"], filling(one["outcome"]))
            for dot in one["numbers"]
        )
        out.append(
            '<a href="#t%d" tabindex="-1"><title>%s %s: %s</title>%s</a>'
            % (number, one["commit"][:NAME], one["outcome"], page_text(one["measured"] or ""), dots)
        )
    return out + ["</svg>", '<p class="kind">%s</p>' % text]


# -- who tested what -----------------------------------------------------------------


class Scale(NamedTuple):
    """The time and the places of the drawing."""

    first: float
    total: float
    places: int
    row: int
    now: float


def scale_of(ran: List[TestFact]) -> Scale:
    """The scale of these tests."""
    now = time.time()
    first, places = min(one["began"] or now for one in ran), max(one["worker"] or 1 for one in ran)
    total = max(0.001, max(one["ended"] or now for one in ran) - first)
    return Scale(first, total, places, 12 if places > 24 else 16 if places > 8 else 22, now)


def ticks(scale: Scale) -> List[str]:
    """The rows of the workers, and lines of time."""
    out = []
    for i in range(scale.places):
        if i % 2 == 0:
            out.append(
                '<rect x="0" y="%d" width="100%%" height="%d" class="row"/>'
                % (i * scale.row, scale.row)
            )
        if scale.places <= 24 or i == 0 or i % 4 == 3:
            out.append(
                '<text x="-6" y="%d" text-anchor="end">%d</text>'
                % ((i + 0.5) * scale.row + 4, i + 1)
            )
    step = next((step for step in STEPS if scale.total / step <= 5), STEPS[-1])
    for i in range(int(scale.total / step) + 1):
        share = i * step / scale.total * 100
        anchor = "start" if share < 4 else "end" if share > 94 else "middle"
        out.append(
            '<line x1="%.3f%%" x2="%.3f%%" y1="0" y2="%d" class="tick"/>'
            % (share, share, scale.places * scale.row)
        )
        out.append(
            '<text x="%.3f%%" y="%d" text-anchor="%s">%s</text>'
            % (share, scale.places * scale.row + 14, anchor, span(i * step))
        )
    return out


def bar_of(number: int, one: TestFact, scale: Scale) -> str:
    """The bar of a test."""
    began = one["began"] or scale.first
    spent = max(0.0, (one["ended"] or scale.now) - began)
    where = "worker %d%s" % (
        one["worker"] or 1,
        " on " + page_text(one["host"]) if one["host"] else "",
    )
    title = "%s %s: %s, %s, from %.1f s for %s" % (
        one["commit"][:NAME],
        page_text(one["subject"]),
        one["outcome"],
        where,
        began - scale.first,
        span(spent),
    )
    return (
        '<a href="#t%d" tabindex="-1"><rect x="%.3f%%" y="%d" width="%.3f%%" height="%d"'
        ' class="%s%s" fill="%s"><title>%s</title></rect></a>'
        % (
            number,
            (began - scale.first) / scale.total * 100,
            ((one["worker"] or 1) - 1) * scale.row + 2,
            spent / scale.total * 100,
            scale.row - 4,
            one["outcome"],
            " needless" if is_needless(one) else "",
            filling(one["outcome"]),
            title,
        )
    )


def farm(facts: Facts, counts: str) -> List[str]:
    """Each test as a bar, by worker and time."""
    ran = [one for one in facts["tests"] if not one["kept"]]
    if not ran:
        return ['<p class="kind">No test ran.</p>']
    scale = scale_of(ran)
    words = {one["outcome"] for one in ran}
    faint = "faint: needless, not in the log" if any(is_needless(one) for one in ran) else ""
    return (
        legend(sorted(words), faint)
        + [
            '<svg class="drawing" height="%d" role="group" aria-labelledby="drawing-title'
            ' drawing-text">' % (scale.places * scale.row + 20),
            '<title id="drawing-title">Tests by worker and time</title><desc id="drawing-text">%s,'
            " by %d workers. Each bar is a test; the table below has the same.</desc>"
            % (counts, scale.places),
        ]
        + ticks(scale)
        + [
            bar_of(number, one, scale)
            for number, one in enumerate(facts["tests"], 1)
            if not one["kept"]
        ]
        + ["</svg>"]
    )
