#!/usr/bin/env python3
"""Whether the pages say what stands: that each file that they name is there, that each name in a file stands in that file,
that each link leads to a page and a heading, and that the code of docs/LIBRARY.md is that of its files. Prints what is not
so."""
import glob
import os
import re
import sys

TOP = os.path.dirname(os.path.dirname(os.path.abspath(__file__)))
FILE = r"`((?:crates/|benches/|tests/|docs/|tools/|man/)?[\w-]+(?:/[\w.-]+)+\.(?:rt|antt|edit|py|sh|md))`"
# `name`, `name` in `file`, and `name` (`file`)
NAMED = r"((?:`[\w:<>-]+`(?:, | and )?)+) (?:in |\()" + FILE
# `file`: `name`
FIRST_FILE = FILE + r": (`[\w:<>-]+`)"


def path_of(name):
    """Files are named from the top, from the folder of the crates, or from that of the driver's modules."""
    paths = (os.path.join(TOP, folder, name) for folder in ("", "crates", os.path.join("driver", "git_farmdawn")))
    return next((path for path in paths if os.path.exists(path)), None)


def read(path):
    with open(path) as file:
        return file.read()


def missing_in(text):
    """The files that a page names and are not there, and the names that are not in their files."""
    for name in re.findall(FILE, text):
        if not path_of(name):
            yield f"there is no {name}"
    for names, file in [*re.findall(NAMED, text), *((name, file) for file, name in re.findall(FIRST_FILE, text))]:
        for name in re.findall(r"`([^`]+)`", names):
            if path_of(file) and name.split("::")[-1] not in read(path_of(file)):
                yield f"there is no {name} in {file}"


def headings(page):
    """The headings of a page, as links name them."""
    found = re.findall(r"^#+ (.*)$", re.sub(r"^```.*?^```$", "", read(page), flags=re.M | re.S), re.M)
    return {re.sub(r"[^\w -]", "", heading.lower()).replace(" ", "-") for heading in found}


def dead_links(page):
    """The links of a page that lead to no file, or to no heading of a page."""
    for link in re.findall(r"\]\(([^()\s]+)\)", read(page)):
        name, _, heading = link.partition("#")
        path = os.path.join(os.path.dirname(page), name) if name else page
        if "://" not in link and (not os.path.exists(path) or heading and heading not in headings(path)):
            yield f"nothing is at {link}"


def other_code(text):
    """The pieces of code that are not those of the file that is named before them."""
    for file, code in re.findall(FILE + r"[^`]*\n\n```rust\n(.*?)```", text, re.S):
        if not path_of(file) or code.strip() not in read(path_of(file)):
            yield f"{file} does not have the code that is shown: {code.strip().splitlines()[0]}"


def main():
    wrong = [f"{os.path.relpath(page, TOP)}: {fault}" for page in [os.path.join(TOP, "README.md"), *sorted(glob.glob(os.path.join(TOP, "docs", "*.md")))]
             for fault in [*missing_in(read(page)), *dead_links(page), *other_code(read(page))]]
    print(*wrong, sep="\n")
    return not wrong


if __name__ == "__main__":
    sys.exit(not main())
