"""What the benchmarks share: what a run of a program takes, what has to be there, and what they say when they are asked for help."""
import os
import shutil
import subprocess
import sys
import time
from typing import NamedTuple


class Run(NamedTuple):
    """A run that ended: its exit status, seconds of the processor, seconds by the clock, and its peak memory in MiB."""
    status: int
    seconds: float
    elapsed: float
    peak: float


def run(command, **streams):
    """Runs a command, with its streams as `subprocess` has them."""
    begun = time.perf_counter()
    child = subprocess.Popen(command, **streams)
    _, status, usage = os.wait4(child.pid, 0)
    elapsed = time.perf_counter() - begun
    return Run(os.waitstatus_to_exitcode(status), usage.ru_utime + usage.ru_stime, elapsed, usage.ru_maxrss / 1024)


def run_well(command, **streams):
    """A run whose status is 0; the script ends at any other."""
    taken = run(command, **streams)
    if taken.status != 0:
        sys.exit(f"{' '.join(map(str, command))[:200]} ended with status {taken.status}")
    return taken


def help_if_asked(head):
    """Prints the head of a script and ends it, where that alone is what its words ask for."""
    if sys.argv[1:] in (["help"], ["--help"], ["-h"]):
        print(head, end="")
        sys.exit()


def stop_unless_built(program):
    """Ends a script where the program is not there."""
    if not os.path.exists(program):
        sys.exit("build the program first: ./isorepo check-xml examples/note.repository - demo.001.001.01 < examples/note.xml")


def stop_without(command, package):
    """Ends a script where a command of a Debian package is not there."""
    if not shutil.which(command):
        sys.exit(f"{command} is not there: it is in Debian's package {package}")
