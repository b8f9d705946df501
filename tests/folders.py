#!/usr/bin/env python3
"""Random repositories: `farmdawn checkout run` tests each commit in a folder that holds what `git ls-tree -r` lists.

Usage: tests/folders.py [--seed S] [--count N] [--from N]

Each repository has up to 16 commits with files, links and executables, submodules, empty and binary contents, names with
blanks, tabs, quotes, line ends and umlauts, folders that are renamed, files that become folders and back. It is searched
with one worker and with four, and once more behind a run that was killed in the middle and left its folders. The test
command compares its folder with the commit in git, path by path and byte by byte: a link is a file with its target, and
neither submodules nor the executable bit are there. Its status is what the commit's file `verdict` says, so the printed text
must be that of `farmdawn run` with a command that asks git.

The program is the one that FARMDAWN names, or the one that was built. The same seed and number make the same repository.
"""
import os
import random
import signal
import subprocess
import sys
import time

TOP = os.path.dirname(os.path.dirname(os.path.abspath(__file__)))
FARMDAWN = os.environ.get("FARMDAWN", os.path.join(TOP, "crates/farmdawn/out/farmdawn"))
CALM = {**os.environ, "GIT_CONFIG_GLOBAL": "/dev/null", "GIT_CONFIG_SYSTEM": "/dev/null", "GIT_CONFIG_NOSYSTEM": "1", "LC_ALL": "C"}
NAMES = ["a", "b.c", "-x", ".hidden", "two words", "tab\there", 'quo"te', "b\u00e4r", "back\\slash", "line\nend", "~1", "a" * 200, "'", "*"]
FOLDERS = ["d", "deep/er/still", "d e", "\u00fc"]


def git(folder, *words, data=None):
    return subprocess.run(["git", *words], cwd=folder, env=CALM, input=data, stdout=subprocess.PIPE, check=True).stdout


# ---- the test command


def listed(repository, name):
    """The files of a commit by path, without submodules."""
    blobs = {}
    for line in git(repository, "ls-tree", "-r", "-z", "--full-tree", name).split(b"\0")[:-1]:
        head, path = line.split(b"\t", 1)
        kind, blob = head.split()[1:3]
        if kind == b"blob":
            blobs[path] = blob
    text, files = git(repository, "cat-file", "--batch", data=b"".join(blob + b"\n" for blob in blobs.values())), {}
    for path, blob in blobs.items():
        head, _, text = text.partition(b"\n")
        named, size = head.rsplit(b" ", 1)
        if named != blob + b" blob" or text[int(size):int(size) + 1] != b"\n":
            sys.exit(255)
        files[path], text = text[:int(size)], text[int(size) + 1:]
    return files


def held(folder):
    """The files that a folder holds by path; None in place of the bytes of what is no plain file."""
    files, top = {}, os.fsencode(folder)
    for here, folders, names in os.walk(top):
        for name in names + [name for name in folders if os.path.islink(os.path.join(here, name))]:
            path = os.path.join(here, name)
            plain = os.path.isfile(path) and not os.path.islink(path)
            files[os.path.relpath(path, top)] = open(path, "rb").read() if plain else None
    return files


def compare(repository, log, folder, name):
    wanted, found = listed(repository, name), held(folder)
    with open(log, "a") as lines:
        lines.write(f"{'same' if wanted == found else 'different'} {name}\n")
    sys.exit(int(found.get(b"verdict") or b"128"))


# ---- a random repository


def is_free(files, path):
    """Whether no file stands in the way of a path, and none below it."""
    return not any(path.startswith(other + "/") or other.startswith(path + "/") for other in files)


def random_bytes(choice):
    return choice.choice([b"", b"x\n", b"\0\1\2", bytes(choice.randrange(256) for _ in range(choice.randrange(2000)))])


def change(choice, files):
    """Changes the files once."""
    kind = choice.choice(["put", "put", "put", "remove", "move", "turn"])
    if kind == "put":
        path = choice.choice(["", choice.choice(FOLDERS) + "/"]) + choice.choice(NAMES)
        if is_free(files, path):
            mode = choice.choice(["100644", "100644", "100755", "120000", "160000"])
            files[path] = (mode, b"target/of/link" if mode == "120000" else random_bytes(choice))
    elif kind == "remove" and files:
        del files[choice.choice(sorted(files))]
    elif kind == "move":
        old, new = choice.choice(FOLDERS), choice.choice(FOLDERS) + "/moved"
        for path in [path for path in files if path.startswith(old + "/")]:
            if is_free(files, new + path[len(old):]):
                files[new + path[len(old):]] = files.pop(path)
    elif kind == "turn" and files:
        path = choice.choice(sorted(files))
        del files[path]
        files[path + "/inside"] = ("100644", b"now a folder\n")


def quoted(path):
    octal = "".join(chr(byte) if 32 < byte < 127 and byte not in b'"\\' else f"\\{byte:03o}" for byte in path.encode())
    return f'"{octal}"'


def commit_text(choice, number, files):
    text = [f"commit refs/heads/main\nmark :{number + 1}\ncommitter gen <gen@gen> {number} +0000\ndata 2\nc\n".encode()]
    text += [f"from :{number}\n".encode()] if number else []
    text.append(b"deleteall\n")
    for path, (mode, data) in files.items():
        if mode == "160000":
            text.append(f"M 160000 {'1' * 40} {quoted(path)}\n".encode())
        else:
            text.append(f"M {mode} inline {quoted(path)}\ndata {len(data)}\n".encode() + data + b"\n")
    return b"".join(text)


def made_of(folder, text):
    """A repository of a stream."""
    git(".", "init", "-q", "-b", "main", folder)
    git(folder, "fast-import", "--quiet", data=text)


def make_repository(choice, folder):
    """A repository of commits in a line, the last ones bad; the number of commits."""
    count = choice.randrange(4, 17)
    first_bad = choice.randrange(1, count)
    files, text = {}, []
    for number in range(count):
        for _ in range(choice.randrange(1, 8)):
            change(choice, files)
        verdict = b"1" if number >= first_bad else choice.choice([b"0", b"0", b"0", b"125"]) if number else b"0"
        text.append(commit_text(choice, number, {**files, "verdict": ("100644", verdict)}))
    made_of(folder, b"".join(text))
    return count


# ---- searches


def started(work, stream, words):
    return subprocess.Popen([FARMDAWN, *words], cwd=work, env={**CALM, "FARMDAWN_QUIET": "1"}, stdin=open(stream, "rb"),
                            stdout=subprocess.PIPE, stderr=subprocess.DEVNULL, start_new_session=True)


def killed(choice, work, stream, words):
    """Kills a run, with its tests, at a random moment. True where it had not ended by then."""
    run = started(work, stream, words)
    time.sleep(choice.random() * 0.6)
    was_running = run.poll() is None
    os.killpg(run.pid, signal.SIGKILL) if was_running else None
    run.communicate()
    return was_running


def try_one(number, work, seed):
    """What is wrong with the searches of a repository, and the numbers of folders and of runs that were killed."""
    choice = random.Random(f"{seed} {number}")
    first, repository, stream, log = (os.path.join(work, name) for name in ("first", "repository", "stream", "log"))
    count = make_repository(choice, first)
    exported = git(first, "fast-export", "--all")
    # git 2.39 exports a file that becomes a folder so that the folder is removed with it: what git reads back is what counts.
    made_of(repository, exported)
    with open(stream, "wb") as out:
        out.write(exported)
    ends = ["main", f"main~{count - 1}"]
    asks = ["run", *ends, "--", "sh", "-c", f'exit $(git -C "{repository}" show $1:verdict)', "x"]
    due = started(work, stream, asks).communicate()[0]
    compared = os.path.join(work, "compared.py")  # by another name: a word that is no UTF-8 is refused
    os.symlink(os.path.abspath(__file__), compared)
    test = ["--", sys.executable, "-I", "-S", compared, "--compare", repository, log]
    wrong, kills = [], 0
    for workers in ("1", "4", "4"):
        words = ["checkout", "run", "--workers", workers, *ends, *test]
        text = started(work, stream, words).communicate()[0]
        wrong += [f"{workers} workers print something else"] if text != due else []
        kills += killed(choice, work, stream, words)
    lines = open(log).read().split("\n")[:-1]
    wrong += [line for line in lines if not line.startswith("same ")]
    return wrong, len(lines), kills


def main():
    if sys.argv[1:2] == ["--compare"]:
        compare(*sys.argv[2:])
    import trials   # which a comparison does not need
    arguments = trials.read_arguments(__doc__, 50)
    wrong, folders, kills = 0, 0, 0
    for number, (faults, compared, killed_here) in trials.try_all(arguments, lambda number, work: try_one(number, work, arguments.seed)):
        wrong, folders, kills = wrong + bool(faults), folders + compared, kills + killed_here
        for line in faults:
            print(f"{number}: {line}", flush=True)
    trials.end(arguments, "repositories", wrong or int(not folders), more=f"; {folders} folders compared, {kills} runs killed")


main()
