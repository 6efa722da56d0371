"""Runs of a program in which one allocation is refused, by scripts/refuse.c. That needs a C compiler."""
import os
import subprocess

from files import TOP

REFUSALS_MAX = 100_000


class Refuser:
    """A folder in which programs run, with the library that refuses an allocation."""

    def __init__(self, room):
        self.room, self.shim, self.report = room, f"{room}/refuse.so", f"{room}/report"
        words = [os.environ.get("CC", "cc"), "-O1", "-shared", "-fPIC", "-o", self.shim, f"{TOP}/scripts/refuse.c", "-ldl"]
        subprocess.run(words, check=True)

    def run(self, words, number):
        """How a command ended, and whether the allocation of this number was asked for; number 0 refuses none."""
        if os.path.exists(self.report):
            os.remove(self.report)
        given = {"LD_PRELOAD": self.shim, "REFUSE_ALLOC": str(number), "REFUSE_REPORT": self.report}
        ran = subprocess.run(words, cwd=self.room, env=given, capture_output=True, timeout=60, check=False)
        return ran, os.path.exists(self.report)


def refuse_all(run, fault):
    """How many refusals were tried, and how many ended wrongly. `run` is told the number of an allocation, and gives what came and
    whether that allocation was asked for; `fault` is told both, and prints and gives what is wrong, or gives nothing.
    """
    wrong = 0
    for number in range(1, REFUSALS_MAX):
        came, is_refused = run(number)
        wrong += bool(fault(number, came, is_refused))
        if not is_refused:
            return number - 1, wrong
    return REFUSALS_MAX, wrong + 1
