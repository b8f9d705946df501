"""What a command costs: seconds, processor seconds, and the peak memory of the command alone."""
import os
import resource
import signal
import subprocess
import sys
import time
from dataclasses import dataclass, replace

STOPPED = -signal.SIGKILL  # what a command that reached its limit ended with


@dataclass
class Cost:
    seconds: float      # by the clock
    processor: float    # seconds of all processors, with those of the children that the command waited for
    peak: int           # KiB
    status: int         # what the command ended with; negative where a signal ended it
    output: bytes       # its standard output, where it was wanted

    def __str__(self):
        return f"{self.processor:.2f} s, {self.peak / 1024:.1f} MiB"


def peak_of(process):
    """The greatest resident size of a running process so far, in KiB, and 0 where it has ended."""
    try:
        with open(f"/proc/{process}/status") as status:
            for line in status:
                if line.startswith("VmHWM:"):
                    return int(line.split()[1])
    except OSError:
        pass
    return 0


def measure(command, given=os.devnull, limit=600.0, keep=None, folder=None, stack=None, environment=None, due=(0,)):
    """Runs a command on a file as standard input, in a folder, with a stack of so many bytes. Its standard output goes to the
    file `keep`, or is dropped.

    The peak is the high-water mark that the system keeps for the running program, read again and again while it
    runs, so that the size of this script does not count. A command that reaches the limit is stopped; where STOPPED is due,
    the limit stands for its seconds.

    A command must end with one of the statuses that are due, or with any where these are None; else the script ends, for a
    program that dies at once would pass for a fast one.
    """
    def limit_stack():
        resource.setrlimit(resource.RLIMIT_STACK, (stack, stack))

    began = time.time()
    with open(given, "rb") as text, open(keep or os.devnull, "wb") as output:
        child = subprocess.Popen(command, stdin=text, stdout=output, stderr=subprocess.DEVNULL, cwd=folder, env=environment,
                                 preexec_fn=limit_stack if stack else None)
    peak, pause = 0, 0.0005
    while True:
        peak = max(peak, peak_of(child.pid))
        process, status, usage = os.wait4(child.pid, os.WNOHANG)
        if process:
            break
        if time.time() - began > limit:
            child.kill()
            _, status, usage = os.wait4(child.pid, 0)
            break
        time.sleep(pause)
        pause = min(pause * 1.5, 0.02)
    seconds = time.time() - began
    child.returncode = -os.WTERMSIG(status) if os.WIFSIGNALED(status) else os.WEXITSTATUS(status)
    kept = b""
    if keep:
        with open(keep, "rb") as file:
            kept = file.read()
    if due is not None and child.returncode not in due:
        ended = f"took longer than {limit:g} s" if seconds > limit else f"ended with status {child.returncode}"
        says = f", and says {kept[-200:].decode(errors='replace').strip()}" if kept else ""
        sys.exit(f"{' '.join(command)[:200]}: {ended}, where {' or '.join(map(str, due))} is due{says}")
    return Cost(seconds, usage.ru_utime + usage.ru_stime, peak, child.returncode, kept)


def least(run):
    """The cost of the cheapest of five runs where one takes less than five seconds of a processor, for what else a machine does
    only adds to them. A longer one is run once. The peak is the greatest of them, for a short run may end before it is read."""
    costs = [run()]
    while costs[0].processor < 5 and len(costs) < 5:
        costs.append(run())
    return replace(min(costs, key=lambda cost: cost.processor), peak=max(cost.peak for cost in costs))
