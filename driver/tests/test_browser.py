"""The page as Chromium draws it, on a telephone and on a desk, in light and in dark colours, and
where a server allows no style but that of a file: nothing is outside, over something else, or pale.
Passed over where Chromium is not here."""
from __future__ import annotations

import os
import sys
import unittest
from typing import List

sys.path.insert(0, os.path.dirname(os.path.dirname(os.path.abspath(__file__))))

from browser import CHROMIUM, Browser  # noqa: E402
from git_farmdawn.telling.facts import Row  # noqa: E402
from made_search import Made, Room, make_search, make_several, open_report  # noqa: E402

SUBJECTS = [
    "修复解析器在空文件上的崩溃，并且为此添加一个测试",
    "إصلاح خطأ في قراءة الملفات الطويلة (issue 17)",
    "תיקון באג בקריאת קבצים",
    "x",
    "Supercalifragilisticexpialidocious" * 4,
    "Make the reader of src/" + "very/long/" * 9 + "path.c faster",
    "A quite ordinary subject",
]
LONG = "tests/integration/test_module_with_a_long_name.py::TestClassOfSomething::test_that_number_%d_holds"
NARROW, WIDE = 390, 1280
# the parts of an answer that may be folded: the patch, and who tested what
PATCH = b"diff --git a/x b/x\n@@ -1 +1 @@\n-" + b"old " * 60 + b"\n+" + b"new " * 60 + b"\n"


def texts_of(count: int) -> List[str]:
    """Subjects of so many commits."""
    return [SUBJECTS[at % len(SUBJECTS)] for at in range(count)]


@unittest.skipUnless(CHROMIUM, "Chromium is not here")
class Drawn(Room):
    """Each report at both widths, in both schemes, with and without the policy."""

    def one(self, workers: int, commits: int) -> Made:
        """A search by so many workers, with a command of 300 letters and a machine for each
        test."""
        search = make_search(self.room, texts_of(commits), commits // 2, PATCH)
        search.known.settings.workers = workers
        test = search.tests[0]
        test.words = [
            "sh",
            "-c",
            'make -s test || { echo "%s" >&2; exit 2; }; : %s' % (LONG % 7, "y" * 300),
        ]
        host = "node-%d.cluster.example.org"
        test.seen.rows[:] = [
            Row(
                row.commit,
                at % workers,
                5.0 + at // 4 * 1000,
                900.0 + at // 4 * 1000,
                row.status,
                host=host % (at % workers),
            )
            for at, row in enumerate(test.seen.rows)
        ]
        return search

    def several(self, tests: int) -> Made:
        """Searches for so many tests, some of them without an answer."""
        answers = [None if at % 11 == 5 else 9 + at % 4 * 12 for at in range(tests)]
        names = [LONG % at for at in range(tests)]
        return make_several(self.room, texts_of(60), answers, names, PATCH)

    def test_reports(self) -> None:
        """One test, twelve, 64 workers, and 300 tests."""
        made = {
            "one": self.one(4, 12),
            "workers": self.one(64, 300),
            "twelve": self.several(12),
            "hundreds": self.several(300),
        }
        for name, search in made.items():
            open_report(os.path.join(self.room, "reports", name), search).write(
                0 if search.tests[0].name == "" else 1
            )
        browser = Browser(self, os.path.join(self.room, "reports"))
        for name, search in made.items():
            least = 2 * len(search.tests) + len(search.tests[0].seen.rows)
            # of many the names of each commit, those without an answer, and the rows
            folded = {"twelve": 0, "hundreds": 6}.get(name, 1)
            for width in (NARROW, WIDE):
                for scheme in ("light", "dark"):
                    for kind in ("policy", "plain") if scheme == "light" else ("policy",):
                        with self.subTest(name=name, width=width, scheme=scheme, kind=kind):
                            browser.show("%s/%s/index.html" % (kind, name), width, scheme)
                            seen = browser.probe()
                            self.assertEqual((seen.wrong, seen.folded), ([], folded))
                            browser.unfold()
                            seen = browser.probe()
                            self.assertEqual((seen.wrong, seen.folded), ([], 0))
                            self.assertGreater(seen.texts, least)

    def test_probe(self) -> None:
        """What is wrong is found."""
        page = (
            '<!DOCTYPE html><html><head><meta charset="utf-8"><link rel="stylesheet"'
            ' href="report.css"></head><body>%s</body></html>'
        )
        css = "body { max-width: 70rem; background: #fff; color: #222; margin: 0 }\n"
        css += ".w { width: 3000px } .o { position: absolute; top: 4px } .p { color: #999 }"
        os.makedirs(self.room + "/pages")
        for name, text in (
            ("report.css", css),
            ("wide.html", page % '<p class="w">wide</p>'),
            ("over.html", page % '<p class="o">first</p><p class="o">second</p>'),
            ("pale.html", page % '<p class="p">pale</p>'),
            ("style.html", page % '<p style="color: red">a style</p>'),
            ("bare.html", (page % "<p>bare</p>").replace("report", "other")),
            ("well.html", page % "<p>well</p>"),
        ):
            with open(os.path.join(self.room, "pages", name), "w", encoding="utf-8") as file:
                file.write(text)
        browser = Browser(self, self.room + "/pages")
        for name, due in (
            ("wide", "outside: P wide"),
            ("wide", "sideways"),
            ("over", "over each other: first | second"),
            ("pale", "pale: P pale"),
            ("bare", "no style"),
            ("style", "Content Security Policy"),
        ):
            with self.subTest(row=(name, due)):
                browser.show("policy/%s.html" % name, NARROW, "light")
                self.assertTrue(
                    [text for text in browser.probe().wrong if due in text],
                    (name, due, browser.probe().wrong),
                )
        browser.show("policy/well.html", NARROW, "light")
        self.assertEqual(browser.probe().wrong, [])


if __name__ == "__main__":
    unittest.main()
