"""Commands that run their tests on other machines: how many of these run at once is said by the
line, and not by the processors of this machine."""
from __future__ import annotations

import os
from typing import List, Mapping, Optional

from ..telling.status import Status
from ..telling.voice import ME, Stop

RUNNERS = ("farmdawn-ssh", "farmdawn-srun")
VALUES = ("--folder", "--tries", "--slots", "--wait", "--ssh")  # options of farmdawn-ssh


def are_others(words: List[str]) -> bool:
    """Whether a command runs its tests on other machines."""
    return os.path.basename(words[0]) in RUNNERS


def workers_of(words: List[str], env: Mapping[str, str]) -> Optional[int]:
    """The tests at once that a command asks for; None where it runs them here. What Slurm may run
    is said by an allocation alone: elsewhere the number is wanted."""
    name = os.path.basename(words[0])
    if name == "farmdawn-ssh":
        return sum(places_of(word) for word in hosts_of(words[1:])) or None
    if name != "farmdawn-srun":
        return None
    tasks = env.get("SLURM_NTASKS", "")
    if "SLURM_JOB_ID" in env and tasks.isdigit():
        return int(tasks) or None
    raise Stop(
        Status.REFUSED,
        "with farmdawn-srun say by --workers how many tests run at once: this machine's processors"
        " are none of Slurm's; see %s -h" % ME,
    )


def hosts_of(words: List[str]) -> List[str]:
    """The hosts in a line of farmdawn-ssh."""
    front, found = words[: words.index("--") if "--" in words else None], []
    while front:
        word = front.pop(0)
        if word in VALUES:
            front = front[1:]
        elif not word.startswith("-"):
            found.append(word)
    return found


def places_of(host: str) -> int:
    """How many tests a host runs at once."""
    count = host.rpartition(":")[2] if ":" in host else "1"
    return int(count) if count.isdigit() else 0
