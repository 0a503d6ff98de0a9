"""Runs a program repeatedly, and makes one allocation fail in each run: the first, the second, the third .."""
import os
import subprocess
import sys
from concurrent.futures import ProcessPoolExecutor

ROOT = os.path.dirname(os.path.dirname(os.path.realpath(__file__)))
sys.path.insert(0, f"{ROOT}/tests")
from real_programs import adopt, ran


def workers():
    """Processes, one for each processor, each of which counts those that its own runs leave."""
    return ProcessPoolExecutor(len(os.sched_getaffinity(0)), initializer=adopt)


def library(room, name):
    """The library of scripts/NAME.c, built in a folder."""
    path = f"{room}/{name}.so"
    subprocess.run(["gcc", "-shared", "-fPIC", "-O1", "-o", path, f"{ROOT}/scripts/{name}.c", "-ldl"], check=True)
    return path


def was_marked(mark):
    """Returns whether a file was made, and removes it."""
    if not os.path.exists(mark):
        return False
    os.remove(mark)
    return True


class Refusals:
    """The library that makes allocations fail, in a folder of its own: one in `near` of the first `many` of a program, and after
    them one in `far`."""

    def __init__(self, room, many, near, far):
        self.room, self.many, self.near, self.far = room, many, near, far
        self.library = library(room, "refuse")

    def start_of(self, name, words, given):
        """Returns how many allocations the program makes before it first reads its standard input, which is `given`; 0 if it
        reads none."""
        started = f"{self.room}/{name}.started"
        ran(words, given, ".", {"LD_PRELOAD": self.library, "STARTED": started})
        if not os.path.exists(started):
            return 0
        with open(started) as file:
            return int(file.read())

    def runs(self, name, words, given, first=1):
        """Gives the number of each allocation that failed, from the first, how that run ended, and whether the program
        waited for a process that did not exist.

        The words are the program's, `given` is its standard input, and the name is that of no other run at the time.
        """
        refused, missed = f"{self.room}/{name}.refused", f"{self.room}/{name}.missed"
        number = first
        while True:
            more = {"LD_PRELOAD": self.library, "REFUSE": str(number), "REFUSED": refused, "MISSED": missed}
            came = ran(words, given, ".", more)
            if not was_marked(refused):
                return
            yield number, came, was_marked(missed)
            number += self.near if number < self.many else self.far
