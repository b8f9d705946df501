"""A table of the merge gate, crate by crate, of what watch.py wrote beside it, and of the logs of `rt ci` where there are some."""
import glob
import json
import os
import platform
import re
import subprocess
from dataclasses import dataclass, field
from datetime import date

import watch

TABLE = """{made}

| Crate | Functions proved | Tests passed | Edits refused | Proof | Tests | Edits |
|---|---:|---:|---:|---:|---:|---:|
"""


@dataclass
class Row:
    functions: int | None = None
    tests: int | None = None
    edits: int | None = None
    seconds: dict = field(default_factory=dict)  # of the processor, by the parts of the gate


def read(path, rows):
    """Adds what a log tells."""
    crate, passed = None, 0
    with open(path, errors="replace") as file:
        for line in file:
            if told := re.match(r"== (\w+)(: its tests)?$", line):
                crate = told[1]
            elif told := re.match(r"crate (\w+): modules ", line):
                crate = told[1]
            elif told := re.match(r"logic=proved functions=(\d+)", line):
                row = rows.setdefault(crate, Row())
                row.functions = min(int(told[1]), row.functions or int(told[1]))
            elif told := re.match(r"test result: ok\. (\d+) passed", line):
                passed = int(told[1])
            elif told := re.match(r"rt: (\w+): its tests passed", line):
                rows.setdefault(told[1], Row()).tests = passed
            elif told := re.match(r"rt: must-fail (\w+)/\S+: refused", line):
                row = rows.setdefault(told[1], Row())
                row.edits = (row.edits or 0) + 1


def read_times(path, rows):
    with open(path) as file:
        for crate, seconds in json.load(file).items():
            rows.setdefault(crate, Row()).seconds = seconds


def standing(folder):
    """How many tests and edits stand in the sources of a crate."""
    tests = 0
    for path in glob.glob(os.path.join(folder, "src", "**", "*.rt"), recursive=True):
        with open(path) as file:
            tests += len(re.findall(r"^\s*#\[test\]", file.read(), re.M))
    return tests, len(glob.glob(os.path.join(folder, "must-fail", "*.edit")))


def number(told, stands=None):
    if told is None:
        return f"({stands})" if stands is not None else "-"
    return str(told)


def minutes(seconds):
    return "-" if not seconds else f"{seconds / 60:.1f}"


def made(top):
    """When a table is made, of which commit, and on what."""
    commit = subprocess.run(["git", "-C", top, "rev-parse", "--short=12", "HEAD"], capture_output=True, text=True).stdout.strip()
    with open("/proc/cpuinfo") as file:
        model = re.search(r"^model name\s*: (.*)$", file.read(), re.M)
    machine = model[1] if model else platform.machine()
    today = date.today()
    return f"The merge gate on {today.day} {today:%B %Y}, of commit {commit or 'unknown'}, on {os.cpu_count()} processors ({machine})"


def rows_of(path):
    """The rows of a table: the cells of each crate, as numbers where they are."""
    with open(path) as file:
        return {told[1]: told[2].split("|") for told in re.finditer(r"^\| `?(\w[\w ]*?)`? \|(.*)\|$", file.read(), re.M)
                if told[1] != "Crate"}


def cell(row, at):
    told = re.search(r"[\d.]+", row[at]) if row else None
    return float(told[0]) if told else 0.0


def beside(old_path, new_path):
    """What two tables say: each crate whose functions, tests, edits or minutes are not the same, and the sum of all."""
    old, new = rows_of(old_path), rows_of(new_path)
    text = "crate: functions, tests, edits, minutes\n"
    sums = [[0.0] * 4, [0.0] * 4]
    for crate in [it for it in [*old, *(it for it in new if it not in old)] if not it[0].isdigit()]:
        pair = []
        for row, total in zip((old.get(crate), new.get(crate)), sums):
            told = [cell(row, 0), cell(row, 1), cell(row, 2), sum(cell(row, at) for at in (3, 4, 5))]
            pair.append(told)
            total[:] = [a + b for a, b in zip(total, told)]
        if pair[0] != pair[1]:
            text += f"{crate}: {changes(*pair)}\n"
    return text + f"all: {changes(*sums)}\n"


def changes(before, after):
    return ", ".join(f"{a:g}" if a == b else f"{a:g} -> {b:g}" for a, b in ((round(x, 1), round(y, 1)) for x, y in zip(before, after)))


def table(top, paths):
    """The table, of the crates in the order of crates.txt; what several logs tell of a crate, the last of them tells."""
    rows = {}
    for path in paths:
        (read_times if path.endswith(".json") else read)(path, rows)
    with open(os.path.join(top, "crates.txt")) as file:
        crates = re.findall(r"^(\w+)[^:\n]*:", file.read(), re.M)
    text, total = TABLE.format(made=made(top)), Row(0, 0, 0, dict.fromkeys(watch.PARTS, 0))
    for crate in crates:
        row = rows.get(crate, Row())
        tests, edits = standing(os.path.join(top, "crates", crate))
        times = " | ".join(minutes(row.seconds.get(part)) for part in watch.PARTS)
        text += f"| `{crate}` | {number(row.functions)} | {number(row.tests, tests)} | {number(row.edits, edits)} | {times} |\n"
        total.functions += row.functions or 0
        total.tests += tests if row.tests is None else row.tests
        total.edits += edits if row.edits is None else row.edits
        for part in watch.PARTS:
            total.seconds[part] += row.seconds.get(part, 0)
    told = sum(crate in rows and rows[crate].functions is not None for crate in crates)
    functions = f"{total.functions}" if told == len(crates) else f"{total.functions} of {told} crates"
    times = " | ".join(minutes(total.seconds[part]) for part in watch.PARTS)
    return text + f"| {len(crates)} crates | {functions} | {total.tests} | {total.edits} | {times} |\n"
