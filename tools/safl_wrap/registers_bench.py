"""Test benches of a wrapper with registers: a master that makes the calls of a script, and compares with `safl session`.

The templates registers_bench.v and registers_bench.cpp are the same bench, step by step.
"""
import random
from dataclasses import dataclass

from safl_wrap.registers import CONTROL, STATUS
from safl_wrap.templates import filled
from safl_wrap.verilog import plural

SPARE = 1000  # random pauses of so many cycles hardly ever come
START, ENABLE, DONE = 1, 2, 2  # bits of control and of status


@dataclass(frozen=True)
class Step:
    """What the master does: a write, a read with what has to be there, or waiting for the end of a run."""

    kind: str
    address: int = 0
    data: int = 0
    strobes: int = 15


class Master:
    """The steps of the calls, in an order that a seed picks."""

    def __init__(self, wrapper, calls, seed):
        self.wrapper, self.calls, self.random = wrapper, calls, random.Random(seed)

    def steps(self):
        yield from self.arguments(0)
        for call in range(len(self.calls.results)):
            interrupt = self.random.randrange(2)
            yield Step("WRITE", CONTROL, START | ENABLE * interrupt)
            early = call + 1 < len(self.calls.results) and self.random.randrange(2)
            if early:
                yield from self.arguments(call + 1)
            yield Step("WAIT") if interrupt else Step("POLL", STATUS)
            yield Step("READ", STATUS, DONE)
            yield from self.results(call)
            if self.random.randrange(2):
                yield from (Step("WRITE", STATUS, DONE), Step("READ", STATUS, 0))
            if not early and call + 1 < len(self.calls.results):
                yield from self.arguments(call + 1)

    def words(self, registers, values):
        """The registers in any order, each with its word."""
        found = [(register, values[register.signal] >> register.low & (1 << register.bits) - 1) for register in registers]
        return self.random.sample(found, len(found))

    def arguments(self, call):
        """Writes the arguments of a call, some of them in two parts, and reads some back."""
        values = {f"argument_{place}": word for place, word in enumerate(self.calls.arguments[call])}
        for register, word in self.words(self.wrapper.arguments, values):
            strobes = self.random.choice((15, 15, self.random.randrange(1, 15)))
            for part in (strobes, 15 ^ strobes):
                kept = sum(255 << 8 * byte for byte in range(4) if part >> byte & 1)
                yield Step("WRITE", register.address, word & kept | self.random.getrandbits(32) & ~kept, part)
            if self.random.randrange(2):
                yield Step("READ", register.address, word)

    def results(self, call):
        values = {"result": self.calls.results[call]}
        yield from (Step("READ", register.address, word) for register, word in self.words(self.wrapper.results, values))


def common(wrapper, calls, name, paths, seed, stalls, steps):
    """The values of both templates."""
    return {
        "bench": name, "wrapper": wrapper.name, "script": calls.script, "files": " ".join(paths), "seed": seed, "stalls": stalls,
        "calls": plural(len(calls.results), "call"), "steps": len(steps), "patience": max(calls.cycles) + SPARE,
        "span": 10 * len(steps) + calls.cycles[0],
    }


def verilog(wrapper, calls, name, paths, seed, stalls):
    """A bench for Icarus Verilog."""
    steps, width = list(Master(wrapper, calls, seed).steps()), wrapper.address_bits
    rows = [
        f"    kind[{place}] = {each.kind}; address[{place}] = {width}'h{each.address:x};"
        f" data[{place}] = 32'h{each.data:x}; strobes[{place}] = 4'h{each.strobes:x};"
        for place, each in enumerate(steps)
    ]
    return filled("registers_bench.v", {
        **common(wrapper, calls, name, paths, seed, stalls, steps), "address_high": width - 1, "unknown": f"{width}'bx",
        "table": "\n".join(rows),
    })


def cpp(wrapper, calls, name, paths, seed, stalls):
    """A bench for Verilator."""
    steps = list(Master(wrapper, calls, seed).steps())
    rows = [f"    {{{each.kind}, 0x{each.address:x}, 0x{each.data:x}, {each.strobes}}}," for each in steps]
    return filled("registers_bench.cpp", {**common(wrapper, calls, name, paths, seed, stalls, steps), "table": "\n".join(rows)})
