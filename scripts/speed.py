#!/usr/bin/env python3
"""Times the program on sources of growing size: speed.py [PART..] [--verilator FUNCTIONS]

    compile    nodes, signals, signals with --opt, the longest path, bytes of Verilog, and the time of `build`
    simulate   the time of a cycle of `sim`, and of Icarus Verilog and Verilator on the same file if they are there
    plan       the plan of nearly 4,000 call sites alone
    nets       the simulator on nets in which nearly all wires change in every cycle, and what it takes to order and prepare them
    session    a cycle and a call of a session, as scripts/speed_tools.py has it
    vcd        a cycle of a run with a trace and of one without, as scripts/speed_tools.py has it

All parts are done if none is named. Verilator is left out for sources of more than 100 functions, or of another number, as
its C++ compiler takes more than a quarter of an hour of the processor for 900. The programs are those of the crates safl and
safl_bench, as `rt` builds them, or SAFL and BENCH name them; one that isn't built is skipped.
"""
import argparse
import os
import re
import shutil
import tempfile
import time

from files import TOP, read, write
from measure import as_memory, as_nanoseconds, as_time, depth_of, icarus, least_seconds, peak, rate_of, rate_of_sim, seconds
from measure import seconds_between, signals_of, table
from program import PROGRAM, Ended, ended, knows, lacks, program_of
import speed_tools
from speed_sources import busy, sized, work
from verilate import verilate

BENCH = program_of("BENCH", "safl_bench")
RUNS = 100


def sources():
    return [*sized(), busy(), work()]


class Room:
    """A folder with a source, and with the files that are built of it."""

    def __init__(self, folder, source):
        self.source, self.path = source, os.path.join(folder, "source.safl")
        self.built, self.optimised, self.made = (os.path.join(folder, name) for name in ("built.v", "optimised.v", "made"))
        write(self.path, source.text)
        ended([PROGRAM, "build", self.path, self.built], (0,))


def optimised_signals(room):
    """The number of signals with --opt, or a dash if the program doesn't know it."""
    words = ["build", room.path, room.optimised, "--opt"]
    return f"{signals_of(room.optimised):,}" if knows(words) else "-"


def compile_row(source):
    with tempfile.TemporaryDirectory() as folder:
        room = Room(folder, source)
        took = seconds([PROGRAM, "build", room.path, room.built])
        signals, size = signals_of(room.built), os.path.getsize(room.built)
        numbers = (f"{source.nodes:,}", f"{signals:,}", f"{signals / source.nodes:.1f}", optimised_signals(room))
        return source.name, *numbers, depth_of(room.built), f"{size / 1e3:,.0f} kB", as_time(took), f"{source.nodes / took:,.0f}"


def compiling():
    head = ("source", "nodes", "signals", "a node", "with `--opt`", "longest path, in cells", "Verilog", "`build`", "nodes a second")
    table("Compiling", head, [compile_row(source) for source in sources()])


def verilator(room, functions):
    """Seconds a cycle of Verilator, and of its compiling by the clock; or nothing if it is missing or left out."""
    if not shutil.which("verilator") or room.source.functions > functions:
        return None, None
    begun = time.perf_counter()
    if not verilate(room.built, room.made):
        return None, None
    took = time.perf_counter() - begun
    return rate_of(lambda limit: [room.made, str(limit), *room.source.args], runs=RUNS).turn, took


def ratio(other, own):
    """Another simulator's time, and how many times the program's it is."""
    if not other:
        return "-"
    times = other / own
    return f"{as_nanoseconds(other)} ({times:,.0f} times)" if times >= 10 else f"{as_nanoseconds(other)} ({times:.2f} times)"


def simulate_row(source, functions):
    with tempfile.TemporaryDirectory() as folder:
        room = Room(folder, source)
        own = rate_of_sim(room.path, source.args, runs=RUNS)
        verilated, took = verilator(room, functions)
        others = (ratio(icarus(folder, room.built, source.args), own.turn), ratio(verilated, own.turn), as_time(took) if took else "-")
        return source.name, f"{signals_of(room.built):,}", as_nanoseconds(own.turn), f"{own.turns:,}", as_time(own.begun), *others


def simulating(functions):
    head = ("source", "signals", "`sim`, ns a cycle", "cycles", "`sim` of one cycle", "Icarus Verilog", "Verilator", "its compiling")
    table("Simulating", head, [simulate_row(source, functions) for source in sources()])


def plan():
    planned, checked = seconds_between([BENCH, "plan"], [BENCH, "plan", "check"])
    after, before = peak([BENCH, "plan"]), peak([BENCH, "plan", "check"])
    more = as_memory(after - before) if after else "-"
    head = ("check", "its memory", "plan", "its memory")
    table("The plan of 1,000 functions with 3,981 call sites", head, [(as_time(checked), as_memory(before), as_time(planned - checked), more)])


def net_row(folder, number, line):
    """A net that the benchmark knows by its number, and what it has to print."""
    out = os.path.join(folder, "printed")
    Ended([BENCH, "sim", str(number)], out)
    if read(out) != line:
        raise SystemExit(f"speed: net {number} does not print {line}")
    wires, width, cycles, steps = map(int, re.findall(r"\d+", line)[:4])
    took, most = least_seconds([BENCH, "sim", str(number)], times=9), peak([BENCH, "sim", str(number)])
    signal = f"{most / wires:.0f}" if most and wires >= 1_000_000 else "-"
    made, ready = (least_seconds([BENCH, "sim", str(number), stage], times=9) for stage in ("net", "sim"))
    set_up = as_time(ready - made), f"{(ready - made) / wires * 1e9:.0f}"
    return f"{wires:,}", width, f"{cycles:,}", as_time(took), f"{steps / took / 1e6:,.0f}", signal, *set_up


def nets():
    lines = [line for line in read(f"{TOP}/crates/safl_bench/stdout").splitlines(keepends=True) if " wires of " in line]
    with tempfile.TemporaryDirectory() as folder:
        rows = [net_row(folder, number, line) for number, line in enumerate(lines, 1)]
    head = ("wires", "bits", "cycles", "time, set-up counted in", "million steps a second", "bytes a signal", "order and simulator", "ns a wire")
    table("Nets that change nearly everywhere", head, rows)


def main():
    parser = argparse.ArgumentParser(description="Times the program on sources of growing size.")
    parser.add_argument("parts", nargs="*", metavar="PART", help="compile, simulate, plan, nets, session or vcd; all if none is named")
    parser.add_argument("--verilator", type=int, default=100, metavar="FUNCTIONS", help="the most functions for Verilator")
    words = parser.parse_args()
    every = ["compile", "simulate", "plan", "nets", "session", "vcd"]
    parts = words.parts or every
    for part in parts:
        if part not in every:
            parser.error(f"there is no part {part}")
    if "compile" in parts and not lacks(PROGRAM):
        compiling()
    if "simulate" in parts and not lacks(PROGRAM):
        simulating(words.verilator)
    if "plan" in parts and not lacks(BENCH):
        plan()
    if "nets" in parts and not lacks(BENCH):
        nets()
    if "session" in parts and not lacks(PROGRAM):
        speed_tools.session()
    if "vcd" in parts and not lacks(PROGRAM):
        speed_tools.vcd()


if __name__ == "__main__":
    main()
