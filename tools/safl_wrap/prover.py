"""Proofs of a wrapper's properties, by Yosys, yosys-smtbmc and a solver: by induction from each cycle to the next."""
import os
import re

from safl_tools import outside, temporary
from safl_tools.ending import DIFFERENT, Refusal
from safl_tools.files import write

# The solvers by the names that yosys-smtbmc has for them: the program of each, and its Debian package.
SOLVERS = {"z3": ("z3", "z3"), "cvc4": ("cvc4", "cvc4"), "cvc5": ("cvc5", "cvc5"), "yices": ("yices-smt2", None)}
DEPTH = 40  # the cycles in which a fault is looked for if the induction fails
# What Yosys does: it reads the files, writes the circuit for the solver, and sees to it that no output depends on an input of the
# same cycle, but for the reset. The names of files, inputs and outputs are the same in every proof.
SCRIPT = """
read_verilog -sv -formal properties.sv
read_verilog wrapper.v
hierarchy -auto-top
prep -flatten
dffunmap
opt_clean
write_smt2 -wires circuit.smt2
select -set ins {inputs}
select -set outs {outputs}
select -set free @ins %ci* t:$anyseq %i
select -assert-count {count} @free
select -assert-none @outs %ci*:-$dff @free %i
"""
DEPENDS = "selection is not empty"


class Prover:
    """The programs of a proof."""

    def __init__(self, solver):
        self.yosys, self.smtbmc = outside.tool("yosys", "yosys"), outside.tool("yosys-smtbmc", "yosys")
        self.solver = solver
        name, package = SOLVERS[solver]
        told = outside.Told([outside.tool(name, package), "--version"])  # whether it runs: yosys-smtbmc does not say it well
        if told.status:
            raise outside.failed(name, told)

    def proved(self, wrapper, properties, sides, trace):
        """How many properties are proved of the texts. A refusal says which one is not; a trace that shows it is written."""
        with temporary.folder() as folder:
            self.read(folder, wrapper, properties, *sides)
            if self.fault(folder, "-i", "-t", "1") or self.fault(folder, "-t", "2"):
                raise self.refuted(folder, trace)
        return len(re.findall(r":\s+assert \(", properties))

    def refute(self, wrapper, properties, sides, trace):
        """Why the properties do not hold of a wrapper that has a fault."""
        with temporary.folder() as folder:
            try:
                self.read(folder, wrapper, properties, *sides)
            except Refusal as refusal:
                return refusal
            return self.refuted(folder, trace)

    def read(self, folder, wrapper, properties, inputs, outputs):
        """Has Yosys write the circuit for the solver, and refuses a path from an input to an output."""
        write(os.path.join(folder, "wrapper.v"), wrapper)
        write(os.path.join(folder, "properties.sv"), properties)
        ins, outs = (" ".join(f"w:{name}" for name in names) for names in (inputs, outputs))
        write(os.path.join(folder, "script.ys"), SCRIPT.format(inputs=ins, outputs=outs, count=len(inputs)))
        told = outside.Told([self.yosys, "-q", "-s", "script.ys"], folder)
        if DEPENDS in told.err:
            raise Refusal(DIFFERENT, "not proved: an output depends on an input of the same cycle")
        if told.status:
            raise outside.failed("yosys", told)

    def fault(self, folder, *words):
        """The line that says what fails, if something does."""
        words = ["--unroll", "--noprogress", "-s", self.solver, "--dump-vcd", "trace.vcd", *words, "circuit.smt2"]
        told = outside.Told([self.smtbmc, *words], folder)
        if not told.status:
            return None
        step, found = 0, None
        for line in told.out.splitlines():
            step = int(re.search(r"in step (\d+)", line)[1]) if "in step" in line else step
            found = found or re.search(r"Assert failed in \S+: (\S+)", line)
        if not found:
            raise outside.failed("yosys-smtbmc", told)
        return f"{found[1]} in cycle {step}"

    def refuted(self, folder, trace):
        """The refusal that names the property, with a trace from the first cycle on if there is a short one."""
        found = self.fault(folder, "-t", str(DEPTH))
        if not found:
            return Refusal(DIFFERENT, f"not proved: the induction fails, but nothing is wrong in the first {DEPTH} cycles")
        with open(os.path.join(folder, "trace.vcd"), "rb") as file:
            trace.write(file.read())
        return Refusal(DIFFERENT, f"not proved: {found} (the trace is {trace.name})")
