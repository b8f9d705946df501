"""An engine that is lost at a request: `LOST='VERB NUMBER ..'`, so many pairs, counts the requests of
each verb of all engines of a search, and ends at these. It hands all else to the program that REAL
names; RECORD is the folder in which it counts."""
from __future__ import annotations

import os
import subprocess
import sys
from typing import IO


def count(verb: str) -> int:
    """How many requests of this verb came, with this one."""
    with open(os.path.join(os.environ["RECORD"], verb), "ab") as file:
        file.write(b".")
        file.flush()
        return os.fstat(file.fileno()).st_size


def forward(source: IO[bytes], sink: IO[bytes], program: "subprocess.Popen[bytes]") -> None:
    """Hands requests on, up to the one at which the engine is lost."""
    words = os.environ["LOST"].split()
    lost = {(verb, int(number)) for verb, number in zip(words[::2], words[1::2])}
    is_asked = False
    for line in source:
        verb = line.split()[0].decode("ascii", "replace") if is_asked or line == b"done\n" else ""
        is_asked = is_asked or bool(verb)
        if verb and (verb, count(verb)) in lost:
            program.kill()
            program.wait()
            os._exit(9)
        sink.write(line)
        if is_asked:
            sink.flush()
    sink.close()


def main() -> int:
    """The engine, as long as it lasts."""
    real = os.environ["REAL"]
    if sys.argv[1:2] != ["serve"]:
        os.execv(real, ["farmdawn", *sys.argv[1:]])
    program = subprocess.Popen(["farmdawn", *sys.argv[1:]], executable=real, stdin=subprocess.PIPE)
    assert program.stdin is not None
    forward(sys.stdin.buffer, program.stdin, program)
    return program.wait()


if __name__ == "__main__":
    sys.exit(main())
