"""Runs programs, and says what they took: for the scripts of this folder.

The peak memory of a run counts that of the process that starts it. So inputs are made by processes of their own (`apart`). A script that uses modules
of the second judge imports this one first, which lets Python find them.
"""
import os
import subprocess
import sys
import time
from pathlib import Path
from typing import NamedTuple

sys.path.extend(str(Path(__file__).resolve().parents[1] / "oracle" / folder) for folder in ("judge", "generators", "comparisons"))


class Ran(NamedTuple):
    """What a run wrote and its exit status; its time by the clock and its processor time, in seconds; its peak memory in megabytes."""

    said: bytes
    status: int
    seconds: float
    processor: float
    memory: float


def run(folder, words, errors=True, stdin=None):
    """Runs a program in a folder. What it writes on standard error is kept with the rest, or thrown away."""
    with open(Path(folder, "said"), "wb") as sink:
        begun = time.monotonic()
        process = subprocess.Popen(words, cwd=folder, stdin=stdin, stdout=sink, stderr=sink if errors else subprocess.DEVNULL)
        _, status, used = os.wait4(process.pid, 0)
        seconds = time.monotonic() - begun
        process.returncode = os.waitstatus_to_exitcode(status)
    return Ran(Path(folder, "said").read_bytes(), process.returncode, seconds, used.ru_utime + used.ru_stime, used.ru_maxrss * 1024 / 1e6)


def apart(work, *inputs):
    """Works in a process of its own."""
    child = os.fork()
    if child == 0:
        try:
            work(*inputs)
        except BaseException as fault:
            print(fault, file=sys.stderr, flush=True)
            os._exit(1)
        os._exit(0)
    if os.waitpid(child, 0)[1] != 0:
        sys.exit("the inputs cannot be made")
