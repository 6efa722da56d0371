"""The command line of safl-wrap."""
import os
import sys

from safl_tools import files, outside
from safl_tools.ending import DIFFERENT, WRONG_USE, Refusal
from safl_tools.words import Words, count, quoted
from safl_wrap import bench, formal, stream, verilog
from safl_wrap.calls import Calls, same_ports
from safl_wrap.module import module, renamed, shown
from safl_wrap.prover import SOLVERS, Prover
from safl_wrap.registers import Registers
from safl_wrap.simulators import SIMULATORS

NAME = "safl-wrap"
PURPOSE = """Writes a wrapper around the module in FILE, which `safl build` wrote: a module that takes calls and gives results
with valid and ready on both sides, in Verilog-2005. With --bench it also writes a test bench, which makes the calls of a
script with random pauses on both sides, and compares results and order with the replies of `safl session`. With --formal it
also writes properties of the wrapper, which a prover can show of every cycle."""
NOTE = "A wrapper is not covered by the proofs of safl. It can be tested (--bench), and proved by Yosys and a solver (--formal)."


def words():
    parser = Words(NAME, PURPOSE, epilog=NOTE)
    parser.add_argument("file", metavar="FILE", help="a file that `safl build` wrote")
    parser.add_argument("--out", metavar="OUT", help="the file for the wrapper (else it is printed)")
    parser.add_argument("--module", metavar="NAME", help="the wrapper's name (else that of the module inside, and _stream or _registers)")
    parser.add_argument("--core", metavar="NAME", help="the name of the module inside: a copy of FILE with it is put beside OUT")
    parser.add_argument(
        "--width", metavar="W", type=count(1, stream.WIDTH_MAX, "width"),
        help="W bits in each transfer (else a call is one transfer, and a result too)",
    )
    parser.add_argument("--axi", action="store_true", help="ports with the names of AXI-Stream; transfers of whole bytes")
    parser.add_argument("--last", action="store_true", help="each call is a frame, whose last transfer is told; wrong ones are dropped")
    parser.add_argument("--axi-lite", action="store_true", help="registers on AXI4-Lite in place of valid and ready")
    parser.add_argument("--header", metavar="HEADER", help="write a C header with the addresses of the registers")
    parser.add_argument("--run", action="store_true", help="run the bench and print what it prints, or prove the properties")
    bench_words(parser.add_argument_group("test bench"))
    group = parser.add_argument_group("properties")
    group.add_argument("--formal", metavar="PROPERTIES", help="write properties of the wrapper: a file for Yosys, NAME.sv")
    group.add_argument("--solver", choices=SOLVERS, default="z3", help="what proves them (%(default)s)")
    return parser


def bench_words(group):
    group.add_argument("--bench", choices=sorted(SIMULATORS), help="write a bench: in Verilog for Icarus, in C++ for Verilator")
    group.add_argument("--bench-out", metavar="BENCH", help="the file for the bench")
    group.add_argument("--source", metavar="IN", help="the source from which FILE was built")
    group.add_argument("--script", metavar="SCRIPT", help="the calls, as for `safl session`: a line of arguments for each")
    group.add_argument(
        "--cycles", metavar="L", type=count(1, 1_000_000_000, "number of cycles"), default=1_000_000,
        help="the most cycles of a call (%(default)s)",
    )
    group.add_argument(
        "--seed", metavar="N", type=count(0, 2**31 - 1, "seed"), default=1, help="what picks the pauses (%(default)s)"
    )
    group.add_argument(
        "--stalls", metavar="P", type=count(0, bench.STALLS_MAX, "percentage"), default=50,
        help="in how many cycles of 100 each side pauses (%(default)s)",
    )


def agreed(parser, arguments):
    """The words of the command line, if they go together."""
    given = parser.parse_args(arguments)
    needed = {"--out": given.out, "--bench-out": given.bench_out, "--source": given.source, "--script": given.script}
    if given.bench:
        for option, value in needed.items():
            if not value:
                parser.error(f"--bench needs {option} too")
        ending = SIMULATORS[given.bench].ending
        if not given.bench_out.endswith(ending):
            parser.error(f"the name {given.bench_out} does not end with {ending}")
    elif given.bench_out or given.source or given.script:
        parser.error("--bench is missing: verilog or cpp")
    for option, value in (("--axi", given.axi), ("--width", given.width), ("--last", given.last)):
        if value and given.axi_lite:
            parser.error(f"{option} does not go with --axi-lite")
    if given.header and not given.axi_lite:
        parser.error("--header needs --axi-lite too")
    for option, value in (("--formal", given.formal), ("--core", given.core), ("--header", given.header)):
        if value and not given.out:
            parser.error(f"{option} needs --out too")
    if given.formal and not given.formal.endswith(".sv"):
        parser.error(f"the name {given.formal} does not end with .sv")
    if given.run and not (given.bench or given.formal):
        parser.error("--run needs --bench or --formal")
    return given


def opened(given):
    """Reads all inputs, and opens the outputs. The copy of the circuit is beside the wrapper, and named like its module."""
    given.file = files.verilog(given.file)
    given.source = given.source and files.source(given.source)
    given.script = given.script and files.script(given.script)
    core = given.core and os.path.join(os.path.dirname(given.out), f"{given.core}.v")
    if core and files.mark_of(core) == given.file.identity:
        raise Refusal(WRONG_USE, f"the copy for --core would be {given.file} itself: choose another name, or another folder for --out")
    trace = given.formal and given.run and given.formal.removesuffix(".sv") + ".vcd"
    names = [given.out, core, given.bench_out, given.formal, trace, given.header]
    opened_files = files.outputs([given.file, given.source, given.script], names)
    given.out, given.core_out, given.bench_out, given.formal, given.trace, given.header = opened_files
    if given.core and not given.out.new:
        raise Refusal(WRONG_USE, f"--core needs a file as --out, and {given.out.name} is none")


def module_name(output, shape, option):
    """The name of a module that is written beside the wrapper: that of its file."""
    name = os.path.splitext(os.path.basename(output.name))[0]
    if not verilog.is_name(name) or name in (shape.name, shape.core):
        raise Refusal(WRONG_USE, f"{name} is no name for a module: choose another {option}")
    return name


def shape_of(given, built):
    """The wrapper that is asked for, if its names can be had."""
    core = given.core or built.name
    name = given.module or core + ("_registers" if given.axi_lite else "_stream")
    for word in filter(None, (name, given.core)):
        if not verilog.is_name(word):
            raise Refusal(WRONG_USE, f"{word} is no name for a module")
    if name == core:
        raise Refusal(WRONG_USE, f"the module inside is called {name} already (name the wrapper with --module)")
    if given.axi_lite:
        return Registers(built, name, core)
    return stream.Stream(built, name, core, given.width, given.axi, given.last)


def bench_text(given, shape, name):
    safl = outside.safl(given.safl)
    same_ports(safl, given.source, shape.module)
    calls = Calls(safl, given.source, given.script, given.cycles)
    paths = [quoted(shown(each.name)) for each in (given.bench_out, given.out, given.core_out or given.file)]
    return SIMULATORS[given.bench].text(shape, calls, name, paths, given.seed, given.stalls)


class Texts:
    """What is written: the wrapper, the circuit, and the bench and the properties with the names of their modules."""

    def __init__(self, given, shape):
        self.wrapper = shape.text()
        self.header = shape.header() if given.header else None
        self.circuit = renamed(given.file.text, given.core) if given.core else given.file.text
        if given.bench:
            self.bench_name = module_name(given.bench_out, shape, "--bench-out")
            self.bench = bench_text(given, shape, self.bench_name)
        if given.formal:
            name = module_name(given.formal, shape, "--formal")
            self.formal = formal.text(shape, name, shown(given.formal.name), shown(given.out.name))

    def write(self, given):
        if given.out:
            given.out.write(self.wrapper)
        else:
            sys.stdout.write(self.wrapper)
        if given.header:
            given.header.write(self.header)
        if given.core:
            given.core_out.write(self.circuit)
        if given.bench:
            given.bench_out.write(self.bench)
        if given.formal:
            given.formal.write(self.formal)


def run_bench(given, shape, texts):
    """Runs the bench with the texts that were written, and the module that was read."""
    simulator = SIMULATORS[given.bench]
    status, text = simulator.printed([texts.bench, texts.wrapper, texts.circuit], shape.name, texts.bench_name)
    sys.stdout.write(text)
    if status:
        raise Refusal(DIFFERENT, f"the bench {given.bench_out.name} failed")


def prove(given, shape, texts, prover):
    found = prover.proved(texts.wrapper, texts.formal, shape.sides(), given.trace)
    print(f"{shape.name}: {found} properties hold in every cycle after a reset, by induction ({given.solver})")


def main(arguments=None):
    given = agreed(words(), arguments)
    opened(given)
    shape = shape_of(given, module(given.file))
    prover = Prover(given.solver) if given.run and given.formal else None
    if given.run and given.bench:
        SIMULATORS[given.bench].tools()
    texts = Texts(given, shape)
    texts.write(given)
    if given.run and given.bench:
        run_bench(given, shape, texts)
    if prover:
        prove(given, shape, texts, prover)
