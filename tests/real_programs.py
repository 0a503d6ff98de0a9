"""Runs a program that starts others, and reports which of these are left after it.

A process whose parent has ended is adopted by this one, whether it still runs or nobody waited for its end: so those that
are left can be counted.
"""
import ctypes
import os
import signal
import subprocess
from collections import namedtuple

PR_SET_CHILD_SUBREAPER = 36
SECONDS = 60

# What a run printed, what it wrote to standard error, its exit status, and how many processes it left.
Ran = namedtuple("Ran", "out err status left")


def adopt():
    """Adopts each process that loses its parent, and restores the default of signals: whoever started this one in the
    background, or without a terminal, may have ignored them, which programs inherit."""
    for it in [signal.SIGCHLD, signal.SIGHUP, signal.SIGINT, signal.SIGQUIT]:
        signal.signal(it, signal.SIG_DFL)
    if ctypes.CDLL(None, use_errno=True).prctl(PR_SET_CHILD_SUBREAPER, 1, 0, 0, 0) != 0:
        raise OSError(ctypes.get_errno(), "prctl")


def children():
    """The processes whose parent is this one, those that have ended and were not waited for among them."""
    with open(f"/proc/self/task/{os.getpid()}/children") as file:
        return [int(word) for word in file.read().split()]


def end(left):
    """Ends the processes that are left, and waits for them."""
    for number in left:
        os.kill(number, signal.SIGKILL)
        os.waitpid(number, 0)


def ran(words, typed, folder, more=None):
    """The run of a program on typed bytes in a folder, with more variables in its environment. Call adopt() first."""
    given = {**os.environ, "XDG_CONFIG_HOME": "/dev/null", **(more or {})}
    done = subprocess.run(words, input=typed, cwd=folder, env=given, capture_output=True, timeout=SECONDS)
    left = children()
    end(left)
    return Ran(done.stdout, done.stderr, done.returncode, len(left))
