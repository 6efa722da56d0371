#!/usr/bin/env python3
"""Proves what tools/safl-wrap writes, and has faults refuted: tools_wrap_formal.py [--solver NAME] [--table] [--only PART]

For each shape of wrapper, with arguments and results of 1, 8, 33 and 128 bits, the properties are proved by induction from each
cycle to the next. So they hold in every cycle after a reset, whatever comes in. The circuit inside is replaced by one whose
outputs are free, but for what is proved of every file of `safl build`. Each fault of wrapper_faults.py has to be refuted, by a
trace from the first cycle on; a path from an input to an output is refuted by Yosys, without a trace. --table prints a row for
each proof and each fault. SAFL names the program (else crates/safl/out/safl, which is built if it is missing).
"""
import argparse
import os
import shutil
import sys
import tempfile

from files import TOP, written
from program import built, told
from wrapper_faults import FAULTS, planted

sys.path.insert(0, f"{TOP}/tools")
from safl_tools.ending import Refusal  # noqa: E402
from safl_wrap import command, formal  # noqa: E402
from safl_wrap.module import module  # noqa: E402
from safl_wrap.prover import SOLVERS, Prover  # noqa: E402

WIDTHS = (1, 8, 33, 128)
SHAPES = (
    "", "--last", "--axi", "--axi --last", "--width 1", "--width 8", "--width 8 --last", "--axi --width 32", "--axi --width 32 --last",
    "--axi-lite",
)
SMALL = "fun main(a:2, b:1):2 = a + cat(b, b)\n"  # of faulty wrappers: traces are found soon


def seconds_of_children():
    times = os.times()
    return times.children_user + times.children_system


class Trace:
    """A trace that is kept in place of a file."""

    name = "trace.vcd"
    content = b""

    def write(self, content):
        self.content = content


class Proofs:
    """A folder, the programs, and how much was proved and refuted."""

    def __init__(self, folder, program, solver, tells):
        self.folder, self.program, self.prover, self.tells = folder, program, Prover(solver), tells
        self.proved = self.refuted = self.failed = 0

    def say(self, text):
        print(f"tools_wrap_formal: {text}", flush=True)
        self.failed += 1

    def texts(self, source, shape):
        """A wrapper of this shape for the circuit of a source: its text, its properties, and its two sides."""
        path = os.path.join(self.folder, "built.v")
        told([self.program, "build", written(self.folder, "source.safl", source), path])
        wrapper = command.shape_of(command.agreed(command.words(), ["built.v", *shape.split()]), module(path))
        return wrapper.text(), formal.text(wrapper, "properties", "properties.sv", "wrapper.v"), wrapper.sides()

    def prove(self, shape, width):
        """The seconds of a processor that a proof takes."""
        text, properties, sides = self.texts(f"fun main(a:{width}):{width} = a\n", shape)
        begun = seconds_of_children()
        try:
            self.prover.proved(text, properties, sides, Trace())
            self.proved += 1
        except Refusal as refusal:
            self.say(f"{shape or 'plain'}, {width} bits: {refusal.line}")
        return seconds_of_children() - begun

    def refute(self, shape, faults):
        text, properties, sides = self.texts(SMALL, shape)
        for what, old, new in faults:
            faulty, trace = planted(text, old, new), Trace()
            if not faulty:
                self.say(f"the wrapper has no {old!r}")
                continue
            line = self.prover.refute(faulty, properties, sides, trace).line
            self.refuted += 1
            if not trace.content and "depends on an input" not in line:
                self.say(f"{what}: {line}")
            elif self.tells:
                print(f"| {shape} | {what} | {line.removeprefix('not proved: ').partition(' (the')[0]} |", flush=True)


def main():
    parser = argparse.ArgumentParser(description="Proves what tools/safl-wrap writes, and has faults refuted.")
    parser.add_argument("--solver", choices=SOLVERS, default="z3", help="the solver (%(default)s)")
    parser.add_argument("--table", action="store_true", help="print a row for each proof and each fault")
    parser.add_argument("--only", choices=("proofs", "faults"), help="do a part")
    given = parser.parse_args()
    missing = [name for name in ("yosys", "yosys-smtbmc", SOLVERS[given.solver][0]) if not shutil.which(name)]
    if missing:
        print(f"tools_wrap_formal: SKIPPED, {missing[0]} is missing")
        return 0
    with tempfile.TemporaryDirectory() as folder:
        proofs = Proofs(folder, built(), given.solver, given.table)
        for shape in SHAPES if given.only != "faults" else ():
            for width in WIDTHS:
                seconds = proofs.prove(shape, width)
                if given.table:
                    print(f"| {shape or 'plain'} | {width} | {given.solver} | 1 | {seconds:.1f} |", flush=True)
        for shape, faults in FAULTS.items() if given.only != "proofs" else ():
            proofs.refute(shape, faults)
    done = f"{proofs.proved} wrappers proved, {proofs.refuted} faults refuted ({given.solver})"
    print(f"tools_wrap_formal: {done}, {proofs.failed} differences")
    return 1 if proofs.failed else 0


if __name__ == "__main__":
    sys.exit(main())
