"""What a source costs: what it replies to the calls, in how many cycles, how many register bits it has, and how large its circuit is.

`measured` may run in another process or on another machine, so it takes and gives plain values only.
"""
import os
import re
from dataclasses import dataclass

import safl_place
from safl_explore import tree
from safl_explore.estimate import PRODUCT, Guess
from safl_tools import files, outside, temporary
from safl_tools.ending import TOOL_FAILED, Refusal, told_of

REGISTER_BIT = 8  # a bit of a register counts as much as so many ANDs


@dataclass(frozen=True)
class Task:
    """How sources are measured: the calls, the most cycles of each, the program, and the device and the seeds of the placement."""

    calls: str
    limit: int
    program: str
    device: str = None
    clock: bool = False
    seed: int = 1
    seeds: int = 1
    dsp: bool = False

    @property
    def products(self):
        """What a bit of a row of a product costs: nothing if the device has blocks for products."""
        has_blocks = self.device and (self.dsp or safl_place.DEVICES[self.device].family == "ecp5")
        return 0 if has_blocks else PRODUCT


def replies(safl, path, script, limit):
    """The value and the cycle of each call."""
    try:
        lines = safl.text("session", path, script, "--cycles", limit).splitlines()[:-1]
    except Refusal as refusal:
        raise Refusal(refusal.status, f"the calls: {refusal.line}") from None
    return [tuple(map(int, line.split())) for line in lines]


def reported(safl, path):
    """The bits of registers, and the number of call sites that wait for an arbiter."""
    report = safl.text("report", path)
    arbitrated = sum(map(int, re.findall(r"^function \w+ sites (\d+) arbiter yes$", report, re.M)))
    return {"bits": int(re.search(r"^registers \d+ bits (\d+)$", report, re.M)[1]), "arbitrated": arbitrated}


def timed(safl, text, task):
    """What is known of a source before its circuit is built: the replies, the cycles of all calls and what the report says."""
    with temporary.folder() as folder:
        path, script = (os.path.join(folder, name) for name in ("point.safl", "calls"))
        files.write(path, text)
        files.write(script, task.calls)
        found, told = reported(safl, path), replies(safl, path, script, task.limit)
    return {"replies": [value for value, _ in told], "cycles": sum(cycle for _, cycle in told), **found}


def bit_level(safl, path, folder):
    """The ANDs and the register bits of the bit-level circuit."""
    built, circuit = (os.path.join(folder, name) for name in ("built.v", "built.aag"))
    safl.text("build", path, built, "--opt")
    safl.text("aig", built, circuit)
    with open(circuit, encoding="ascii") as file:
        _, _, _, latches, _, ands = file.readline().split()
    return {"ands": int(ands), "bits": int(latches)}


def on_device(safl, path, folder, task):
    """The LUTs, the flip-flops and the clock on a device."""
    built = os.path.join(folder, "built.v")
    safl.text("build", path, built, "--opt")
    device = safl_place.DEVICES[task.device]
    options = safl_place.Options(seed=task.seed, seeds=task.seeds, dsp=task.dsp)
    counts, megahertz, path = safl_place.figures([built], device, options=options, clock=task.clock)
    if counts.dsps > device.dsps:
        raise Refusal(TOOL_FAILED, f"{counts.dsps} DSP blocks are needed, and {task.device} has {device.dsps}")
    figures = {"luts": counts.luts, "flops": counts.flops}
    figures |= {"dsps": counts.dsps} if not task.products else {}
    return {**figures, "mhz": megahertz, "longest path": path} if megahertz else figures


def measured(text, task):
    """The figures of a source's circuit, for the values of a task; or the status and the line with which a program refuses it."""
    task = Task(*task)
    try:
        safl = outside.safl(task.program if os.access(task.program, os.X_OK) else None)
        with temporary.folder() as folder:
            path = os.path.join(folder, "point.safl")
            files.write(path, text)
            return on_device(safl, path, folder, task) if task.device else bit_level(safl, path, folder)
    except Exception as fault:  # pylint: disable=broad-except
        status, line = told_of(fault)
        return {"status": status, "line": line}


class Point:
    """A source that was timed: how it came, its cycles and bits, a guess of its area, and its figures once it is built.

    `program` and `text` are what the next step begins with, and `shown` is what is measured and written. `how` has the steps by name, and `chain`
    what each of them is made of: ("unfold", site), ("copy", site), or ("text", what was done).
    """

    def __init__(self, program, text, shown, how, chain, before, told, products):
        self.program, self.text, self.how, self.chain, self.before = program, text, how, chain, before
        self.shown, self.cycles, self.bits = tree.text_of(shown), told["cycles"], told["bits"]
        self.guess = Guess(shown, products).ands(told["bits"], told["arbitrated"])
        self.figures, self.refused, self.continued = None, None, False

    @property
    def built(self):
        return self.figures is not None

    def nearest(self):
        """The nearest source on the way from the first that was built."""
        return self if self.built else self.before.nearest()

    @property
    def area(self):
        """LUTs where they are counted, or else ANDs and register bits. If this is not built, as its guess and the nearest one's say."""
        near = self.nearest()
        scale = self.guess / near.guess if self is not near else 1
        if "luts" in near.figures:
            return near.figures["luts"] * scale
        return near.figures["ands"] * scale + REGISTER_BIT * self.bits

    @property
    def time(self):
        """Microseconds of all calls where the clock is known, or else cycles."""
        clock = self.nearest().figures.get("mhz")
        return self.cycles / clock if clock else self.cycles

    def calls_a_second(self, calls):
        """How many calls the circuit makes in a second, if so many take its cycles: the next one can begin one cycle after the last."""
        return int(calls * 1e6 * self.figures["mhz"] / (self.cycles + calls))

    def calls_for_area(self, calls):
        """How many of so many calls the circuit makes in a unit of time, for a unit of its area."""
        return calls * self.figures.get("mhz", 1) / (self.cycles + calls) / self.area


def unbeaten(points):
    """The points that no other beats, the fastest first: any other one takes more time, or has more area."""
    found = []
    for point in sorted(points, key=lambda point: (point.time, point.area, len(point.chain))):
        if not found or point.area < found[-1].area:
            found.append(point)
    return found
