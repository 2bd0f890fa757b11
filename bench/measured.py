"""Runs the built program once, and tells what that cost."""
import math
import os
import pathlib
import subprocess
import sys

ROOT = pathlib.Path(__file__).resolve().parent.parent
PROGRAM = ROOT / "crates/helics_run/out/helics_run"


def sim(folder):
    """Seconds of the processor, peak memory in MiB, and the output of `sim` on the folder's run.json."""
    out = folder / "out.txt"
    with open(out, "wb") as sink:
        child = subprocess.Popen([str(PROGRAM), "sim", str(folder / "run.json")], stdout=sink)
        _, status, usage = os.wait4(child.pid, 0)
    if os.waitstatus_to_exitcode(status) != 0:
        sys.exit("bench: the program ended with status %d" % os.waitstatus_to_exitcode(status))
    return usage.ru_utime + usage.ru_stime, usage.ru_maxrss / 1024, out.read_bytes()


def exponent(first, last, first_cost, last_cost):
    """The power of the size by which a cost grows from the first size to the last: 1 is linear."""
    return math.log(last_cost / first_cost) / math.log(last / first)
