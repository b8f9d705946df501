"""The folder of a report: result.json for a build server, index.html for people, and the outputs of
the tests.

The folder may be one of the user's: nothing in it is replaced or removed but what an earlier report
left, which is known by a mark in each file. While the search runs the report is written again and
again; each file is written under another name first, so that nobody reads the half of one."""
from __future__ import annotations

import json
import os
import re
import shutil
from typing import TYPE_CHECKING, Callable, Iterable, Iterator, List, Mapping, Optional, Sequence

from ..host.files import FIRST_RUN, has_room, kind_of_log
from ..host.trees import remove_tree
from ..known.record import UnderWay
from ..telling.status import ENDS, Status
from ..telling.voice import Stop
from .facts import Collector, Facts, TestFact, was_taken_back
from .page import Page
from .style import STYLE
from .summary import junit_of, summary_of

if TYPE_CHECKING:
    from ..known.record import Searched, Test
    from .source import Source

NEW = ".farmdawn-report."
MARKS = {
    "index.html": b'<meta name="generator" content="git farmdawn"/>',
    "result.json": b'"generator": "git farmdawn",',
    "report.css": b"/* of a report of git farmdawn */",
    "summary.md": b"<!-- git farmdawn -->",
    "junit.xml": b"<!-- git farmdawn -->",
}
# a line for each of their parts
LISTS = (
    "tests",
    "log",
    "candidates",
    "notes",
    "contradictions",
    "confirmed",
    "disturbed",
    "last_good",
    "odds",
    "answers",
    "searches",
    "outcomes",
    "builds",
)
OUTPUT = "[0-9a-f]{4,64}([.]run[0-9]+)?[.]txt"


def is_of_report(path: str, name: str) -> bool:
    """Whether a file or folder is one that a report has."""
    if os.path.islink(path):
        return False
    if name.startswith(NEW):
        return True
    if os.path.isdir(path):
        return name == "outputs" and all(re.fullmatch(OUTPUT, inner) for inner in os.listdir(path))
    if name in MARKS and os.path.isfile(path):
        with open(path, "rb") as file:
            return MARKS[name] in file.read()
    return False


def is_of_test(path: str) -> bool:
    """Whether a folder is the report of one of several tests, tonight's or an earlier one."""
    if os.path.islink(path) or not os.path.isdir(path):
        return False
    return not os.listdir(path) or (
        is_of_report(os.path.join(path, "result.json"), "result.json")
        and all(is_of_report(os.path.join(path, name), name) for name in os.listdir(path))
    )


def find_foreign(folder: str) -> Optional[str]:
    """What no report has, in the folder of a report."""
    for name in sorted(os.listdir(folder)):
        path = os.path.join(folder, name)
        if not is_of_report(path, name) and not is_of_test(path):
            return path
    return None


def remove_earlier(folder: str, names: Sequence[str]) -> None:
    """The reports of tests that are searched no more, in the folder of a report; `names` are those
    of the tests that are."""
    for name in os.listdir(folder):
        path = os.path.join(folder, name)
        if name not in names and not is_of_report(path, name) and is_of_test(path):
            remove_tree(path)
    if names:
        remove_tree(os.path.join(folder, "outputs"))


def open_folder(folder: str, known: Searched, top: str, gitdir: str) -> str:
    """The folder, which is made where it is missing; raises Stop where it has what no report has,
    or holds the repository with this work tree and this folder of git."""
    given = folder
    try:
        os.makedirs(folder, exist_ok=True)
        folder = os.path.realpath(folder)
        if not has_room(folder):
            raise OSError
    except OSError:
        raise Stop(
            Status.NO_ROOM, "%s cannot be written, or has no room; nothing was tested" % folder
        ) from None
    if "\n" in folder:
        raise Stop(Status.REFUSED, "the path of the report has a line break")
    if (gitdir + "/").startswith(folder + "/") or top == folder:
        raise Stop(
            Status.REFUSED, "%s holds the repository; --report wants a folder of its own" % given
        )
    if any((test.outcomes.log_dir + "/").startswith(folder + "/") for test in known.tests):
        raise Stop(Status.REFUSED, "the outputs of --log-dir cannot be in the folder of the report")
    foreign = find_foreign(folder)
    if foreign:
        raise Stop(
            Status.REFUSED, "%s is not of a report; --report wants a folder of its own" % foreign
        )
    return folder


class Report:
    """The report of all searches; each of several has a folder of its own in it."""

    def __init__(
        self,
        folder: str,
        known: Searched,
        source: Source,
        version: str,
        running: Callable[[Test], List[UnderWay]] = lambda test: [],
    ) -> None:
        self.folder, self.known, self.source = folder, known, source
        self.version, self.running = version, running

    def write(self, status: Optional[int], reason: str = "", with_answer: bool = True) -> None:
        """All of it, at once."""
        for _ in self.writing(status, reason, with_answer):
            pass

    def writing(
        self, status: Optional[int], reason: str = "", with_answer: bool = True
    ) -> Iterator[None]:
        """The files of each search, one search a step; where they cannot be written, nothing of a
        report is left, and OSError is raised. A status of None is that of a search that runs."""
        searches = {}
        remove_earlier(
            self.folder, [test.short for test in self.known.tests if self.known.has_names]
        )
        for test in self.known.tests:
            yield
            folder = test.folder(self.folder)
            try:
                os.makedirs(folder, exist_ok=True)
                facts = self.facts_of(test, status, reason, with_answer)
                self.write_one(folder, test, facts)
                searches[test.name] = facts
            except OSError:
                if status is not None:
                    self.remove(folder)
                raise
        if self.known.has_names:
            self.write_overview(status, reason, searches)

    def facts_of(self, test: Test, status: Optional[int], reason: str, with_answer: bool) -> Facts:
        """The facts of one search. Of several, one that has its end has it also where others still
        run or were stopped."""
        running = self.running(test)
        collector = Collector(self.known, test, self.source, self.version, running)
        if test.wrong is not None:
            return collector.collect(Status.REFUSED, test.wrong.text, False)
        if self.known.has_names and test.status is not None:
            return collector.collect(test.status, "", True)
        own = test.status if with_answer and test.status is not None and status in ENDS else status
        return collector.collect(own, reason, with_answer)

    def write_overview(
        self, status: Optional[int], reason: str, searches: Mapping[str, Facts]
    ) -> None:
        """The files of several searches together."""
        from .overview import Overview
        from .overview_page import OverviewPage
        from .summary import junit_of_all, summary_of_all

        facts = Overview(self.known, self.source, self.version, searches).facts(status, reason)
        self.put(
            self.folder,
            {
                "result.json": json_of(facts),
                "index.html": OverviewPage(facts, searches).text(),
                "report.css": STYLE,
                "summary.md": summary_of_all(facts, searches),
                "junit.xml": junit_of_all(facts, searches, self.known.settings.cases),
            },
        )

    @staticmethod
    def put(folder: str, texts: Mapping[str, str]) -> None:
        """Files that are there whole."""
        for name, text in texts.items():
            new = os.path.join(folder, NEW + "new")
            with open(new, "w", encoding="utf-8", errors="replace") as file:
                file.write(text)
            os.replace(new, os.path.join(folder, name))

    def write_one(self, folder: str, test: Test, facts: Facts) -> None:
        """The report of one search."""
        bring_outputs(test, folder, facts["tests"])
        page = Page(facts, test.seen, self.known.commits.place, self.source)
        self.put(
            folder,
            {
                "result.json": json_of(facts),
                "index.html": page.text(),
                "report.css": STYLE,
                "summary.md": summary_of(facts),
                "junit.xml": junit_of(facts, self.known.settings.cases.get(test.name)),
            },
        )
        remove_others(folder, [one["log"] for one in facts["tests"]])

    @staticmethod
    def remove(folder: str) -> None:
        """All that a report has."""
        remove_others(folder, ())
        for name in (*MARKS, "outputs"):
            remove_tree(os.path.join(folder, name))


def bring_outputs(test: Test, folder: str, rows: List[TestFact]) -> None:
    """Each as a second name of the same file where the disk is the same, or else a copy."""
    os.makedirs(folder + "/outputs", exist_ok=True)
    kept_with_outcomes = test.outcomes.log_dir == test.outcomes.folder
    for one in rows:
        kind = FIRST_RUN if was_taken_back(test.seen, one) else kind_of_log(one["run"])
        path, name = os.path.join(test.outcomes.log_dir, one["commit"] + kind), "outputs/%s%s" % (
            one["commit"],
            kind[:-4] + ".txt",
        )
        if (
            one["outcome"] == "running"
            or not os.path.isfile(path)
            or os.path.islink(path)
            or one["kept"]
            and not kept_with_outcomes
        ):
            continue
        one["log"], target = name, os.path.join(folder, name)
        if os.path.exists(target) and os.path.samefile(path, target):
            continue
        new = os.path.join(folder, NEW + "output")
        remove_tree(new)
        try:
            os.link(path, new)
        except OSError:
            shutil.copyfile(path, new)
        os.replace(new, target)


def remove_others(folder: str, logs: Iterable[Optional[str]]) -> None:
    """What an earlier report left, or one that did not come to its end."""
    kept = {name for name in logs if name}
    for name in os.listdir(folder):
        if name.startswith(NEW):
            remove_tree(os.path.join(folder, name))
    outputs = os.path.join(folder, "outputs")
    for name in os.listdir(outputs) if os.path.isdir(outputs) else ():
        if "outputs/" + name not in kept and re.fullmatch(OUTPUT, name):
            remove_tree(os.path.join(outputs, name))


def json_text(value: object) -> str:
    """A value in one line, without a control character."""
    return re.sub(
        "[\x7f-\x9f]",
        lambda match: "\\u%04x" % ord(match.group()),
        json.dumps(value, ensure_ascii=False),
    )


def json_of(facts: Mapping[str, object]) -> str:
    """A line for each fact, each test and each line of the log."""
    out = []
    for key, value in facts.items():
        text = json_text(value)
        if key in LISTS and isinstance(value, list) and value:
            text = "[\n" + ",\n".join("    " + json_text(row) for row in value) + "\n  ]"
        out.append("  %s: %s" % (json_text(key), text))
    return "{\n" + ",\n".join(out) + "\n}\n"
