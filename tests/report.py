#!/usr/bin/env python3
"""Checks a report of git farmdawn: report.py FOLDER LOG [KEY=VALUE..]. The two files must be whole and UTF-8, have the facts of the
log that was printed and of each other, and the values that are named, which are JSON. Run in the repository."""
import json
import os
import re
import subprocess
import sys
import xml.etree.ElementTree as ElementTree

HTML = "{http://www.w3.org/1999/xhtml}"
NAME, TIME, TEXT = r"[0-9a-f]{40}([0-9a-f]{24})?", (int, float), str
NONE = type(None)
# as the manual page has them, in its order
FIELDS = {
    "report": int, "generator": TEXT, "version": TEXT, "name": TEXT, "repository": TEXT, "remote": (TEXT, NONE), "bad": TEXT, "good": list,
    "fixed": bool, "terms": dict, "first_parent": bool, "paths": list, "command": list, "again": dict, "state": TEXT, "status": (int, NONE),
    "answer": (dict, NONE), "link": (TEXT, NONE), "output": (dict, NONE), "last_good": list, "reason": (TEXT, NONE), "candidates": list, "notes": list,
    "contradictions": list, "sure": (bool, NONE), "sentence": (TEXT, NONE), "alone": (bool, NONE), "disturbed": list, "not_there": (TEXT, NONE), "confirmed": list, "odds": list, "unlikely": (TEXT, NONE), "threshold": (TEXT, NONE), "ends": list, "started": TIME,
    "ended": (int, float, NONE), "workers": int, "host": TEXT, "commits": int, "tests": list, "log": list,
}
TEST = {
    "commit": TEXT, "subject": TEXT, "worker": (int, NONE), "host": (TEXT, NONE), "lost": int, "began": (int, float, NONE), "ended": (int, float, NONE), "status": (int, NONE),
    "outcome": TEXT, "how": (TEXT, NONE), "numbers": list, "measured": (TEXT, NONE), "run": int, "ran": bool, "kept": bool, "used": bool, "log": (TEXT, NONE),
}
MORE = {
    "ends": {"commit": TEXT, "subject": TEXT, "called": TEXT, "status": (int, NONE), "how": (TEXT, NONE)},
    "candidates": {"name": TEXT, "subject": TEXT, "outcome": (TEXT, NONE), "how": (TEXT, NONE)},
    "notes": {"kind": TEXT, "text": TEXT, "doubt": bool},
    "contradictions": {"commit": TEXT, "subject": TEXT, "outcome": TEXT, "status": int, "why": TEXT},
    "last_good": {"commit": TEXT, "subject": TEXT, "status": (int, NONE)},
    "confirmed": {"commit": TEXT, "subject": TEXT, "outcome": TEXT, "times": int, "runs": int},
}
ANSWER = {"name": TEXT, "subject": TEXT, "author": TEXT, "date": (int, NONE)}
OUTCOMES = {"good": range(1), "bad": range(1, 125), "skipped": range(125, 126), "stopped": range(126, 256)}


def expect(text, holds):
    if not holds:
        sys.exit(f"not so: {text}")


def read(path):
    with open(path, "rb") as file:
        return file.read()


def text_of(data):
    """Bytes as the report has them: each that is no UTF-8 is U+FFFD."""
    return re.sub("[\udc80-\udcff]", "\ufffd", data.replace(b"\0", b"\xff").decode("utf-8", "surrogateescape"))


def has_fields(value, fields):
    return list(value) == list(fields) and all(isinstance(value[key], kind) and (kind is not int or not isinstance(value[key], bool))
                                                for key, kind in fields.items())


def git(*words):
    return subprocess.run(["git", *words], stdout=subprocess.PIPE, check=True).stdout


def subject_of(commit):
    return text_of(git("log", "-1", "--encoding=UTF-8", "--format=%s", commit)[:-1])


def marks_of(log, terms):
    """The commits that lines of the log mark, each with the outcome that it must have had."""
    outcome = {terms["new"]: "bad", terms["old"]: "good", "skip": "skipped"}
    for line in log:
        found = re.fullmatch(rf"git bisect (\S+) ({NAME})", line) or re.fullmatch(rf"bisect aborted: (\S+) .*on ({NAME})", line)
        if found:
            yield found[2], outcome.get(found[1], "stopped")


def check_tests(result, folder):
    marks = dict(marks_of(result["log"], result["terms"]))
    ends = {result["bad"], *result["good"]}
    last = {}
    for test in result["tests"]:
        expect(f"the fields of a test: {test}", has_fields(test, TEST) and re.fullmatch(NAME, test["commit"]))
        expect(f"its subject: {test}", test["subject"] == subject_of(test["commit"]))
        if test["outcome"] in OUTCOMES:
            expect(f"its status: {test}", test["status"] in OUTCOMES[test["outcome"]])
        else:
            expect(f"no status: {test}", test["status"] is None and not test["used"])
        first = test["run"] == 1  # what comes behind it confirms, and is not in the log
        expect(f"used as the log says: {test}", test["used"] == ((test["commit"] in marks or test["commit"] in ends) and first) or test["status"] is None)
        if test["commit"] in marks and test["outcome"] != "ended" and first:
            expect(f"the outcome of the log: {test}", test["outcome"] == marks[test["commit"]])
        if test["log"]:
            run = "" if first else f".run{test['run']}"
            expect(f"its output: {test}", test["log"] == f"outputs/{test['commit']}{run}.txt" and os.path.isfile(os.path.join(folder, test["log"])))
        if test["kept"]:
            expect(f"kept: {test}", test["worker"] is test["began"] is test["ended"] is None)
            continue
        expect(f"a worker: {test}", 1 <= test["worker"] <= result["workers"])
        ended = result["ended"] if test["ended"] is None else test["ended"]
        expect(f"a time: {test}", result["ended"] is None or result["started"] <= test["began"] <= ended <= result["ended"])
        expect(f"one test after the other: {test}", last.get(test["worker"], 0) <= test["began"])
        last[test["worker"]] = ended
    tested = {test["commit"]: test for test in result["tests"] if test["status"] is not None}
    expect("each mark is of a test, or a skip that was asked for", all(commit in tested or commit in ends or outcome == "skipped" for commit, outcome in marks.items()))
    outputs = os.listdir(os.path.join(folder, "outputs"))
    expect("no other output", sorted(outputs) == sorted({os.path.basename(test["log"]) for test in result["tests"] if test["log"]}))


def check_answer(result):
    found = re.fullmatch(rf"({NAME}) is the first .* commit", result["log"][-1]) if result["log"] else None
    expect("an answer where the log has one", bool(found) == bool(result["answer"]) == (result["reason"] is None) == (result["state"] == "found"))
    if found:
        expect("its fields", has_fields(result["answer"], ANSWER) and result["answer"]["name"] == found[1])
        shown = text_of(git("log", "-1", "--encoding=UTF-8", "--format=%s%n%an <%ae>%n%at", found[1])[:-1]).split("\n")
        told = [result["answer"]["subject"], result["answer"]["author"], str(result["answer"]["date"])]
        expect(f"its facts, {shown}, in place of {told}", told == shown)


def check_more(result):
    """The lists of ends, candidates, outcomes that contradict, and what is sure."""
    for key, fields in MORE.items():
        expect(f"the fields of {key}", all(has_fields(one, fields) for one in result[key]))
    expect("each end", [end["commit"] for end in result["ends"]] == [result["bad"], *result["good"]])
    left = [line for line in result["log"] if re.fullmatch(NAME, line)] if result["status"] == 2 else []
    expect("the candidates of the log", [one["name"] for one in result["candidates"]] == left)


def check_result(result, folder, log):
    expect("the fields", has_fields(result, FIELDS) and has_fields(result["terms"], {"new": TEXT, "old": TEXT}))
    expect("what it is", (result["report"], result["generator"]) == (1, "git farmdawn"))
    expect("the ends", all(re.fullmatch(NAME, name) for name in [result["bad"], *result["good"]]))
    expect("the state", (result["state"] == "running") == (result["status"] is None) == (result["ended"] is None))
    expect("a state", result["state"] in ("found", "running", "ended", "stopped"))
    if log is not None:
        due = [text_of(line) for line in log.split(b"\n")[:-1]]
        expect(f"the log, {due!r}, in place of {result['log']!r}", result["log"] == due)
    check_answer(result)
    check_tests(result, folder)
    check_more(result)


def check_page(page, result):
    """The page is well formed, needs nothing else, and has a bar for each test that ran and a row for each."""
    root = ElementTree.fromstring(page)
    tags = {element.tag.split("}")[1] for element in root.iter()}
    expect(f"no other tags: {tags}", tags <= set("html head meta title style body svg defs pattern rect path header p h1 h2 dl dt dd code span link "
                                                  "ul li line text a bdi desc pre details summary table thead tr th tbody td footer".split()))
    for element in root.iter():
        for key, value in element.attrib.items():
            expect(f"no script: {key}", not key.startswith("on"))
            expect(f"nothing elsewhere: {value}", key not in ("href", "src") or re.fullmatch(r"#t\d+|report\.css|summary\.md|outputs/[0-9a-f]+(\.run\d+)?\.txt|result\.json", value))
    expect("nothing elsewhere in the style", not re.search(rb"url\((?!#p-)|@import", page))
    ran = [test for test in result["tests"] if not test["kept"]]
    bars = [element.get("class") for element in root.iter(f"{HTML}rect") if element.find(f"{HTML}title") is not None]
    pale = ["" if test["used"] or test["outcome"] == "running" or test["run"] > 1 else " needless" for test in ran]
    expect("the bars", bars == [test["outcome"] + needless for test, needless in zip(ran, pale)])
    rows = [row for row in root.iter(f"{HTML}tr") if row.get("id")]
    expect("the rows", len(rows) == len(result["tests"]))
    for row, test in zip(rows, result["tests"]):
        shown = "".join(row.itertext())
        expect(f"the facts of a row: {shown}", test["outcome"] in shown and test["commit"][:12] in shown)
    links = [element.get("href") for row in rows for element in row.iter(f"{HTML}a")]
    expect("the links", links == [test["log"] for test in result["tests"] if test["log"]])
    title = root.find(f"{HTML}head/{HTML}title").text
    first, several = f"First {result['terms']['new']} commit: ", f"one of {len(result['candidates'])}"
    expect("the title", title.startswith(first if result["answer"] else first + several if result["candidates"] else "No answer: "))
    return root


def main(folder, log, *wanted):
    data = read(os.path.join(folder, "result.json")).decode("utf-8")
    page = read(os.path.join(folder, "index.html"))
    page.decode("utf-8")
    result = json.loads(data)
    check_result(result, folder, None if log == "-" else read(log))
    check_page(page, result)
    for word in wanted:
        # bytes that are no UTF-8 are shown by a sign
        key, value = os.fsencode(word).decode("utf-8", "replace").split("=", 1)
        expect(f"{key} is {value}, and not {result[key]!r}", result[key] == json.loads(value))
    # one that is written anew at this time may be beside it
    there = sorted(name for name in os.listdir(folder) if log != "-" or not name.startswith(".farmdawn-report."))
    expect("nothing else is there", there == ["index.html", "junit.xml", "outputs", "report.css", "result.json", "summary.md"])


if __name__ == "__main__":
    main(*sys.argv[1:])
