#!/usr/bin/env python3
"""Whether the options of each program are the same wherever they stand: where they are read, in its help, in its manual page
and in the completions of the shells. Prints what one of these places lacks, or has beside the others."""
import os
import re
import sys

TOP = os.path.dirname(os.path.dirname(os.path.abspath(__file__)))
LONG = r"--[a-z][a-z-]*[a-z]"
ASKED = {"--help", "--version"}  # they stand alone, and every program has the first
SCRIPTS = ("farmdawn-srun", "farmdawn-ssh")


def read(*path):
    with open(os.path.join(TOP, *path), encoding="utf-8") as file:
        return file.read()


def cut(text, begin, end):
    """What stands between two texts."""
    return text.split(begin, 1)[1].split(end, 1)[0]


def in_manual(name):
    items = re.findall(r"^\.It (Fl .*)$", read("man", f"{name}.1"), re.M)
    return {"-" + option for item in items for option in re.findall(r"Fl (-[a-z][a-z-]*)", item)}


def in_zsh(text):
    return set(re.findall(rf"\*?({LONG})=?-?\[", text)) | set(re.findall(r"(?<=,)--[a-z]+(?==?\})", text))


def in_fish(text):
    return {"--" + option for option in re.findall(r"^(?:complete|__git_farmdawn_complete) (?:.* )?-l ([a-z-]+)", text, re.M)}


def places_of_program():
    """The options of farmdawn by place, and those of each command by the table and by the completion of bash."""
    table = read("crates", "bf_words", "src", "options.rt")
    words = dict(re.findall(rf'Choice::(\w+) => b"({LONG})"', table))
    named = set(re.findall(rf'b"({LONG})"', read("crates", "bf_commands", "src", "names.rt")))
    arms = re.findall(r"((?:Choice::\w+[ |]*)+)=> [{\s]*&\[([^]]*)\]", cut(table, "fn verbs(", "\n    }\n"))
    verbs = {}
    for choices, names in arms:
        for verb in re.findall(r"Verb::(\w+)", names):
            verbs.setdefault(verb.lower(), set()).update(words[choice] for choice in re.findall(r"Choice::(\w+)", choices))
    verbs["check"] = verbs["serve"] = named
    bash = read("completions", "farmdawn.bash")
    cases = re.findall(r"^    ([a-z][a-z |]*)\) echo (--.*) ;;$", cut(bash, "_farmdawn_options() {", "\n}"), re.M)
    by_bash = {verb: set(options.split()) for names, options in cases for verb in names.split(" | ")}
    places = {
        "the table": set(words.values()) | named,
        "the help": set(re.findall(rf"(?<=  |; )({LONG})", cut(read("crates", "farmdawn", "src", "help.rt"), "\n  BAD", "\n\n"))),
        "the manual": in_manual("farmdawn") - ASKED,
        "zsh": in_zsh(read("completions", "_farmdawn")) - ASKED,
        "fish": in_fish(read("completions", "farmdawn.fish")) - ASKED,
    }
    return places, verbs, by_bash


def in_help(usage):
    lines = re.findall(rf"^  (?:-[a-z], )?({LONG}.*)$", usage, re.M)
    return {option for line in lines for option in re.findall(rf"(?:^|, )({LONG})", line)} - ASKED


def places_of_script(name):
    text = read("tools", name)
    cases = re.findall(r"^ *(-[a-z-]+(?: \| -[a-z-]+)*)\)", text, re.M)
    return {
        "its reading": {option for case in cases for option in re.findall(LONG, case)} - ASKED,
        "its help": in_help(cut(text, "<<'TEXT'\n", "\nTEXT\n")),
        "the manual": in_manual(name) - ASKED,
    }


def differences(name, places):
    every = set().union(*places.values())
    for place, options in places.items():
        for option in sorted(every - options):
            yield f"{name}: {place} lacks {option}"


def main():
    places, verbs, by_bash = places_of_program()
    wrong = list(differences("farmdawn", places))
    for verb in sorted(verbs.keys() | by_bash.keys()):
        sides = {"the table": verbs.get(verb, set()), "bash": by_bash.get(verb, set())}
        wrong += differences(f"farmdawn {verb}", sides)
    for name in SCRIPTS:
        wrong += differences(name, places_of_script(name))
    print(*wrong, sep="\n", end="\n" if wrong else "")
    return not wrong


if __name__ == "__main__":
    sys.exit(not main())
