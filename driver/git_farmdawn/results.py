"""What a search leaves, in order: its log and answer, the standard error, certificates, the
report."""
from __future__ import annotations

import subprocess
import time
from typing import TYPE_CHECKING, Optional

from .conclusion import Conclusion
from .telling.status import ENDS, Status

if TYPE_CHECKING:
    from .report.report import Report
    from .search.search import Search
    from .telling.voice import Stop, Telling


class Results:
    """Has all of it made of what is known, whichever way the search ended."""

    def __init__(self, search: Search, voice: Telling) -> None:
        self.search, self.known, self.voice = search, search.known, voice
        self.repo = search.shop.repo
        self.conclusion = Conclusion(search.known, self.repo, voice)
        self.report: Optional[Report] = None

    # -- three ways to end ---------------------------------------------------------

    def answered(self) -> int:
        """Each search has its answer; gives the status."""
        status = max(test.status or 0 for test in self.known.tests)
        if not self.conclusion.print_log(True):
            status = Status.NO_OUTPUT
        self.conclusion.tell_answers()
        self.voice.ring(time.monotonic() - self.known.began)
        return self.write_report(self.certify(status))

    def stopped(self, status: int, reason: str) -> int:
        """The searches are stopped, and can go on."""
        if not self.conclusion.print_log(False):
            status = Status.NO_OUTPUT
        status = self.write_report(status, reason, with_answer=False)
        self.conclusion.tell_stopped(
            reason if status in (Status.DEADLINE, Status.NO_PROGRESS) else ""
        )
        return status

    def refused(self, stop: Stop) -> int:
        """Nothing can be found: an end is not as it was called, or the engine refuses the
        search."""
        self.conclusion.tell_refused(stop)
        self.voice.ring(time.monotonic() - self.known.began)
        return self.write_report(stop.status, stop.text, with_answer=False)

    # -- files ---------------------------------------------------------------------

    def certify(self, status: int) -> int:
        """Writes the certificates, where they are wanted; gives the status then."""
        if self.known.settings.certificate is None:
            return status
        from .certificate.certificate import Writer

        for test in self.known.tests:
            if test.status == Status.FOUND:
                self.search.dialogue.of(test).certify(test)
        state = self.search.shop.run.state
        return Writer(self.known, self.repo, self.voice, state).write_all(status)

    def open_report(self) -> Optional[Report]:
        """The folder of the report, where one is wanted; for --open alone it stands with the
        outcomes."""
        settings, repo = self.known.settings, self.repo
        named = settings.report
        if named is None and settings.open:
            named = self.known.tests[0].outcomes.folder + "/report"
        if named is None:
            return None
        from .report.report import Report, open_folder
        from .report.source import source_of

        said = subprocess.run(
            ["farmdawn", "--version"],
            executable=settings.farmdawn,
            stdin=subprocess.DEVNULL,
            stdout=subprocess.PIPE,
        ).stdout
        version = said.decode("ascii", "replace").replace("farmdawn ", "").strip()
        folder = open_folder(named, self.known, repo.top, repo.gitdir)
        running = self.search.claims.running_of
        self.report = Report(folder, self.known, source_of(repo), version, running)
        return self.report

    def write_report(self, status: int, reason: str = "", with_answer: bool = True) -> int:
        """The report, where there is one; the status is 14 in place of an answer's where it cannot
        be written."""
        if self.report is None:
            return status
        try:
            self.report.write(status, reason, with_answer)
            self.voice.tell("the report is %s/index.html" % self.report.folder)
            if self.known.settings.open and status < Status.SIGNAL:
                self.open_page(self.report.folder + "/index.html")
        except OSError:
            self.voice.say(
                "there is no report: %s cannot be written, or has no room" % self.report.folder
            )
            return Status.NO_ROOM if status in ENDS else status
        return status

    def open_page(self, path: str) -> None:
        """Opens the page of the report for --open. Who has stopped the search sees it no more."""
        from .host.browser import open_page

        by_git = self.repo.succeeds("config", "web.browser")
        open_page(path, by_git, self.repo.top or self.repo.gitdir, self.repo.user_env)
