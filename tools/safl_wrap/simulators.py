"""The programs that run benches."""
import os
from dataclasses import dataclass
from typing import Callable

from safl_tools import files, outside, temporary
from safl_wrap import bench, registers_bench
from safl_wrap.registers import Registers


@dataclass(frozen=True)
class Simulator:
    """A kind of bench: how the file's name ends, what writes its text, and what finds the programs that run it, and runs it."""

    ending: str
    of_stream: Callable
    of_registers: Callable
    tools: Callable
    made: Callable

    def text(self, wrapper, *given):
        """The text of a bench of a wrapper."""
        return (self.of_registers if isinstance(wrapper, Registers) else self.of_stream)(wrapper, *given)

    def printed(self, texts, top, name):
        """The status of a bench, and what it prints. The texts are those of the bench, of the wrapper and of the module.

        They have plain names in the folder where the programs run: makefiles and shells read names as more than names.
        """
        tools, names = self.tools(), (f"bench{self.ending}", "wrapper.v", "module.v")
        with temporary.folder() as folder:
            for plain, text in zip(names, texts):
                files.write(os.path.join(folder, plain), text)
            build, words = self.made(tools, names, top, name)
            built = outside.Told(build, folder)
            if built.status:
                raise outside.failed(os.path.basename(tools[0]), built, 0)
            told = outside.Told(words, folder)
        return told.status or int("FAILED" in told.out), told.out


def icarus_tools():
    return outside.tool("iverilog", "iverilog"), outside.tool("vvp", "iverilog")


def icarus_made(tools, names, top, name):
    """What makes a simulation of these files, and the simulation."""
    return [tools[0], "-g2005", "-s", name, "-o", "made", *names], [tools[1], "-n", "made"]


def verilator_tools():
    return (outside.tool("verilator", "verilator"),)


def verilator_made(tools, names, top, name):
    build = [*tools, "--cc", "--exe", "--build", "--top-module", top, "--Mdir", "made", "-o", "bench", *names]
    return build, ["made/bench"]


SIMULATORS = {
    "verilog": Simulator(".v", bench.verilog, registers_bench.verilog, icarus_tools, icarus_made),
    "cpp": Simulator(".cpp", bench.cpp, registers_bench.cpp, verilator_tools, verilator_made),
}
