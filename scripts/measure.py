"""What the speed scripts share: how long a command takes, what a built file has, and tables.

A time is read from the clock before a command is started and after it has ended, so the start of its process counts. A figure
is the median of several runs, and where it is called so the least: what disturbs a run only makes it longer. Figures mean
something only on a quiet machine.
"""
import os
import re
import shutil
import statistics
import subprocess
import sys
import tempfile

from files import read, written
from program import NO_RESULT, PROGRAM, Ended, ended, told
from safl_bench import bench

SECONDS_ENOUGH = 0.1
RUNS = 25
LIMIT_MAX = 1_000_000_000


def seconds(words, statuses=(0, NO_RESULT)):
    """The median time of a command."""
    first = ended(words, statuses).seconds
    times = 41 if first < 0.02 else 15 if first < 0.2 else 5 if first < 5 else 3
    return statistics.median([ended(words, statuses).seconds for _ in range(times - 1)] + [first])


def least_seconds(words, statuses=(0, NO_RESULT), times=RUNS):
    """The least time of a command."""
    return min(ended(words, statuses).seconds for _ in range(times))


def seconds_between(words, others, statuses=(0, NO_RESULT)):
    """The median times of two commands, whose runs take turns, so that what disturbs one disturbs the other as well."""
    first = max(ended(each, statuses).seconds for each in (words, others))
    times = 41 if first < 0.02 else 15 if first < 0.2 else 5
    pairs = [(ended(words, statuses).seconds, ended(others, statuses).seconds) for _ in range(times)]
    return tuple(statistics.median(column) for column in zip(*pairs))


def peak(words):
    """The most memory that a command has, in bytes, if GNU time is there; a child of this process would count its own too."""
    if not os.access("/usr/bin/time", os.X_OK):
        return None
    with tempfile.NamedTemporaryFile("r") as report:
        Ended(["/usr/bin/time", "-q", "-f", "%M", "-o", report.name, *words])
        return int(report.read()) * 1024


class Rate:
    """What a turn of a command takes that is told how many turns to go: the difference between the least times of two limits. The
    runs are many and short, so that some of them are not disturbed.
    """

    def __init__(self, words_of, turns_of=lambda limit: limit, first=1_000, runs=RUNS):
        self.limit = first
        begun = seconds(words_of(1))
        while ended(words_of(self.limit)).seconds - begun < SECONDS_ENOUGH and self.limit < LIMIT_MAX:
            self.limit = min(self.limit * 4, LIMIT_MAX)
        self.turns = turns_of(self.limit) - turns_of(1)
        longer, shorter = (least_seconds(words_of(limit), times=runs) for limit in (self.limit, 1))
        self.turn = (longer - shorter) / self.turns
        self.begun = begun


def cycles_of(words, limit):
    """How many cycles a simulation goes: to done, or to its limit."""
    found = re.search(r"^cycle (\d+)$", told(words).stdout, re.M)
    return int(found[1]) + 1 if found else limit


def rate_of(words_of, first=1_000, runs=RUNS):
    """What a cycle of a simulation takes that is told how many cycles to go at most."""
    return Rate(words_of, lambda limit: 1 if limit == 1 else cycles_of(words_of(limit), limit), first, runs)


def rate_of_sim(path, args, *options, runs=RUNS):
    return rate_of(lambda limit: [PROGRAM, "sim", path, "--cycles", str(limit), *options, *args], runs=runs)


def icarus(folder, built, args, dump=None):
    """Seconds a cycle of Icarus Verilog, which dumps the named signals to a file if one is given; or nothing if it is missing. The
    limit is the bench's, so each has a file.
    """
    if not shutil.which("iverilog"):
        return None

    def words_of(limit):
        made = os.path.join(folder, f"made_{limit}")
        if not os.path.exists(made):
            path = written(folder, "bench.v", bench(read(built), limit, args, dump))
            subprocess.run(["iverilog", "-o", made, path, built], check=True)
        return ["vvp", "-n", made]

    return rate_of(words_of, 250, 3).turn


def signals_of(path):
    """How many inputs, registers and wires a built file declares, but for its clock and reset."""
    return len(re.findall(r"^  (?:input \[|reg|wire)", read(path), re.M))


def depth_of(path):
    """The most cells on a path through a built file without registers; copies, constants, slices and joined words don't count."""
    cells = dict(re.findall(r"^  assign (\S+) = (.*);", read(path), re.M))
    operands = {name: re.findall(r"(?<![\w$'])[A-Za-z_][\w$]*", cell) for name, cell in cells.items()}
    depths = {}
    for name in cells:
        left = [name]
        while left:
            last = left[-1]
            unknown = [other for other in operands[last] if other in cells and other not in depths]
            if unknown:
                left += unknown
                continue
            counts = re.search(r"[ ~]", cells[last]) is not None and cells[last][0] != "{"
            depths[last] = counts + max((depths.get(other, 0) for other in operands[last]), default=0)
            left.pop()
    return max(depths.values(), default=0)


def as_memory(value):
    return "-" if value is None else f"{value / 1e6:.1f} MB"


def as_time(value):
    """A time in seconds, milliseconds or microseconds."""
    if value < 0:
        return "-" + as_time(-value)
    if value >= 1:
        return f"{value:.2f} s"
    return f"{value * 1e3:.1f} ms" if value >= 1e-3 else f"{value * 1e6:.0f} us"


def as_nanoseconds(value):
    return f"{value * 1e9:,.0f}" if value >= 1e-8 else f"{value * 1e9:.2f}"


def table(title, head, rows):
    """Prints a table as the documents have it."""
    print(f"\n{title} (`scripts/{os.path.basename(sys.argv[0])}`)\n")
    print("| " + " | ".join(head) + " |")
    print("|" + "---|" * len(head))
    for row in rows:
        print("| " + " | ".join(str(cell) for cell in row) + " |")
    sys.stdout.flush()
