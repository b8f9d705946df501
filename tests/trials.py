"""What tests share that try many random cases, each by its number: their words, several at once, and how many agree."""
import argparse
import shutil
import sys
import tempfile
from concurrent.futures import ThreadPoolExecutor


def read_arguments(usage, count, jobs=None, flags=(), words=()):
    """The numbers of the cases by --seed, --count and --from; where several are tried at once, how many by --jobs; and what else is named."""
    parser = argparse.ArgumentParser(usage=usage)
    for option, default in (("seed", 1), ("count", count), ("from", 0)):
        parser.add_argument(f"--{option}", type=int, default=default, dest="first" if option == "from" else option)
    if jobs:
        parser.add_argument("--jobs", type=int, default=jobs)
    for option in flags:
        parser.add_argument(f"--{option}", action="store_true")
    for option in words:
        parser.add_argument(f"--{option}")
    return parser.parse_args()


def try_all(arguments, try_one):
    """Each number with what comes of it, in order. It is tried in a folder of its own, which is removed, whatever is left there."""
    def try_apart(number):
        work = tempfile.mkdtemp()
        try:
            return try_one(number, work)
        finally:
            shutil.rmtree(work, ignore_errors=True)

    numbers = range(arguments.first, arguments.first + arguments.count)
    with ThreadPoolExecutor(getattr(arguments, "jobs", 1)) as pool:
        yield from zip(numbers, pool.map(try_apart, numbers))


def counted(counts):
    """How often each kind came, in a line."""
    return ", ".join(f"{kind}: {count}" for kind, count in sorted(counts.items()))


def end(arguments, kind, wrong, right="right", more=""):
    """Tells how many cases are right, and ends."""
    print(f"{arguments.count} {kind}: {arguments.count - wrong} {right}, {wrong} wrong{more}")
    sys.exit(1 if wrong else 0)
