"""Where the built program stands, and what a command takes."""

import os
import subprocess
import sys
import time

HERE = os.path.dirname(os.path.abspath(__file__))
PROGRAM = os.path.join(HERE, "..", "crates", "phosphor_cli", "out", "phosphor_cli")
MIB = 1024 * 1024


def build():
    """Builds the program where it is not built yet."""
    if not os.path.exists(PROGRAM):
        where = os.path.join(HERE, "..", "crates", "phosphor_cli")
        subprocess.run(["rt", "run"], cwd=where, stdout=subprocess.DEVNULL, stderr=subprocess.DEVNULL)
    if not os.path.exists(PROGRAM):
        sys.exit("the program is not built: run 'rt run' in crates/phosphor_cli")


def measured(command, cwd, status=None):
    """Seconds and peak memory, in bytes, of a command. Where a status is given, it has to end with that."""
    start = time.perf_counter()
    child = subprocess.Popen(command, cwd=cwd, stdout=subprocess.DEVNULL, stderr=subprocess.DEVNULL)
    _, ended, usage = os.wait4(child.pid, 0)
    seconds = time.perf_counter() - start
    child.returncode = os.waitstatus_to_exitcode(ended)
    if status is not None and child.returncode != status:
        sys.exit("%s: status %d, not %d" % (" ".join(command), child.returncode, status))
    return seconds, usage.ru_maxrss * 1024


def best(command, cwd, runs, status=None):
    """The least seconds and the highest peak of several runs."""
    results = [measured(command, cwd, status) for _ in range(runs)]
    return min(r[0] for r in results), max(r[1] for r in results)
