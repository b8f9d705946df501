"""What `checkout` costs beside a checkout by git: a search of a project whose tests look for a word in a file."""
import os
import shutil

import repository
from measure import measure
from repository import git

BUG = "bug"


def project(out, files, commits, first_bad):
    """So many files of 1 to 8 KiB in twenty folders; each commit changes three of them, and one brings the file `bug`."""
    marks = 0
    for commit in range(commits):
        changed = range(files) if commit == 0 else [(commit * 7 + index * 131) % files for index in range(3)]
        texts = {f"d{file % 20}/f{file}": b"%d %d\n" % (file, commit) * (64 + file % 448) for file in changed}
        if commit == first_bad:
            texts[BUG] = b"bug\n"
        blobs = {}
        for path, text in texts.items():
            marks += 1
            blobs[path] = marks
            out.write(b"blob\nmark :%d\ndata %d\n%b\n" % (marks, len(text), text))
        out.write(b"commit refs/heads/main\ncommitter gen <gen> %d +0000\ndata 2\nc\n" % commit)
        for path, mark in blobs.items():
            out.write(b"M 100644 :%d %b\n" % (mark, path.encode()))


def sizes_of(folder, name):
    """The files of a commit by path: their blobs and sizes."""
    lines = git(folder, "ls-tree", "-r", "-l", name).splitlines()
    return {path: (head.split()[2], int(head.split()[3])) for head, path in (line.split("\t", 1) for line in lines)}


def written(folder, names):
    """The bytes that git writes into one work tree for these commits in turn, and those of all their files."""
    before, changed, whole = sizes_of(folder, "main"), 0, 0
    for name in names:
        now = sizes_of(folder, name)
        changed += sum(size for path, (blob, size) in now.items() if before.get(path, (None,))[0] != blob)
        whole += sum(size for _, size in now.values())
        before = now
    return changed, whole


def tested_in(log):
    """The commits that a log marks behind its start."""
    return [line.split()[-1].decode() for line in log.splitlines() if line.startswith((b"git bisect good", b"git bisect bad"))]


def folders(bench, files, commits, machine, tool):
    """Whether all three name the commit that brings the bug."""
    first_bad = commits * 5 // 8
    bench.write(project, files, commits, first_bad)
    folder = repository.filled(bench.path("project"), bench.stream)
    due = git(folder, "rev-parse", f"main~{commits - 1 - first_bad}").strip()
    ends, test = ["main", f"main~{commits - 1}"], ["test", "!", "-e", BUG]
    runs = {
        "`git bisect run`": ["sh", "-c", f"git bisect start {' '.join(ends)} && git bisect run {' '.join(test)} && git bisect log"],
        "`git farmdawn --workers 1`": [tool, "--fresh", "--workers", "1", *ends, "--", *test],
        "`checkout run`": [bench.program, "checkout", "run", *ends, "--", "sh", "-c", f'test ! -e "$1/{BUG}"', "sh"],
    }
    print(f"{files} files, {commits} commits; {machine}.\n\n| | seconds by the clock | tests | bytes a test |\n|---|---:|---:|---:|")
    right = True
    for name, words in runs.items():
        work = bench.path("work")
        shutil.rmtree(work, ignore_errors=True)
        shutil.copytree(folder, work)
        cost = measure(words, given=bench.stream, keep=bench.path("log"), folder=work,
                       environment={**repository.CALM, "FARMDAWN": os.path.abspath(bench.program)})
        tests = tested_in(cost.output)
        changed, whole = written(folder, tests)
        share = (whole if name == "`checkout run`" else changed) // max(len(tests), 1)
        print(f"| {name} | {cost.seconds:.2f} | {len(tests)} | {share} |", flush=True)
        right &= f"{due} is the first bad commit".encode() in cost.output
    return right
