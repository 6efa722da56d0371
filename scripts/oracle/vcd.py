#!/usr/bin/env python3
"""Prints the trace of a source's circuit as a value change dump, worked out from the rules.

It holds the inputs, the registers, the named wires and the outputs in this order, a unit of time for each cycle, from cycle 0
to the one in which `done` is 1.
"""
import argparse
import os
import sys
import threading

import language
from circuit import Circuit, Cycle

CYCLES_MAX = 1_000_000


def code(number):
    """The short name of a signal: its number in base 94, lowest digit first, with the characters from ! on."""
    digits = chr(33 + number % 94)
    while number >= 94:
        number //= 94
        digits += chr(33 + number % 94)
    return digits


def wires(cycle):
    """The named wires of a cycle."""
    circuit = cycle.circuit
    found = {"go$main": int(bool(cycle.go_main))}
    for f in circuit.program.functions:
        found[f"end${f.name}"] = int(f.name in cycle.ends)
        found[f"loop${f.name}"] = int(f.name in cycle.loops)
    for k in circuit.sites:
        found[f"want${k}"] = int(k in cycle.wants)
        found[f"ret${k}"] = int(bool(cycle.ret[k]))
        found[f"arb${k}"] = found[f"go${k}"] = int(bool(cycle.go[k]))
    return found


def frames(circuit, args, cycles=CYCLES_MAX):
    """The signals' values in each cycle up to the first with `done`, by name."""
    registers = {name: 0 for name, _ in circuit.registers()}
    u = circuit.unit_name(circuit.program.main.group)
    for number in range(cycles):
        words = args if number == 0 else [0] * len(args)
        cycle = Cycle(circuit, registers, int(number == 0), words)
        inputs = dict(zip((name for name, _ in circuit.inputs()), [int(number == 0)] + words))
        yield {**inputs, **registers, **wires(cycle), "done": registers[f"fin${u}"], "result": registers[f"res${u}"]}
        if registers[f"fin${u}"]:
            return
        registers = cycle.edge()


def change(width, value, name):
    return f"{value}{name}" if width == 1 else f"b{value:b} {name}"


def trace(circuit, args, cycles=CYCLES_MAX):
    """The lines of the dump."""
    outputs = [("done", 1), ("result", circuit.program.main.width)]
    signals = circuit.inputs() + circuit.registers() + [(name, 1) for name in circuit.named_wires()] + outputs
    codes = [code(i) for i in range(len(signals))]
    yield from ("$timescale 1 ns $end", "$scope module safl $end")
    for short, (name, width) in zip(codes, signals):
        yield f"$var wire {width} {short} {name} $end"
    yield from ("$upscope $end", "$enddefinitions $end")
    last, number = None, -1
    for number, values in enumerate(frames(circuit, args, cycles)):
        changed = [
            change(width, values[name], short)
            for short, (name, width) in zip(codes, signals)
            if last is None or values[name] != last[name]
        ]
        if last is None:
            yield from ["#0", "$dumpvars"] + changed + ["$end"]
        elif changed:
            yield from [f"#{number}"] + changed
        last = values
    yield f"#{number + 1}"


def starts(circuit, args, cycles):
    """A line for each call that begins: the cycle, and the wire that is 1."""
    names = [name for name in circuit.named_wires() if name.startswith("go$")]
    for number, values in enumerate(frames(circuit, args, cycles)):
        yield from (f"{number} {name}" for name in names if values[name])


def toggles(circuit, args, cycles):
    """A line for each cycle: how many bits of registers differ from the cycle before."""
    last = {}
    for number, values in enumerate(frames(circuit, args, cycles)):
        bits = sum((values[name] ^ last.get(name, values[name])).bit_count() for name, _ in circuit.registers())
        yield f"{number} {bits}"
        last = values


TEXTS = {"vcd": trace, "starts": starts, "toggles": toggles}


def given():
    """The path of the source, and the arguments of main."""
    reader = argparse.ArgumentParser(description=__doc__, formatter_class=argparse.RawDescriptionHelpFormatter)
    reader.add_argument("source", metavar="SOURCE")
    reader.add_argument("args", type=int, nargs="*", metavar="ARG")
    words = reader.parse_args()
    if not os.path.isfile(words.source):
        reader.error(f"there is no file {words.source}")
    return words.source, words.args


def main(path, args):
    with open(path, "rb") as file:
        source = file.read()
    try:
        circuit = Circuit(language.accept(source))
    except language.Fault as fault:
        print(language.fault_line(path, source, fault), file=sys.stderr)
        return
    print("\n".join(trace(circuit, args)))


if __name__ == "__main__":
    sys.setrecursionlimit(1_000_000)
    threading.stack_size(512 * 1024 * 1024)
    thread = threading.Thread(target=main, args=given())
    thread.start()
    thread.join()
