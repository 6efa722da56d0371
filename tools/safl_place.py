"""Synthesises a module with Yosys, and places and routes it with nextpnr: its LUTs, its flip-flops and the clock it can have.

LUTs and flip-flops are counted in the module alone. It may have more ports than a device has pins, so what is placed is the
module in a harness: a shift register holds its inputs, and its outputs go through registers and a tree of XORs to one pin. The
harness is put around the module after its synthesis, so neither simplifies the other. Where pins are given, nothing is around
it: its ports are the pins.
"""
import json
import os
import re
import statistics
from dataclasses import dataclass

import safl_path
from safl_tools import files, outside, temporary
from safl_tools.ending import TOOL_FAILED, WRONG_USE, Refusal, one_line
from safl_tools.words import Words, count

NAME = "safl-place"


@dataclass(frozen=True)
class Device:
    """A device: its family, the words by which nextpnr knows it, its usual package, and how many DSP blocks it has."""

    family: str
    words: tuple
    package: str
    dsps: int = 0


def ice40(kind, package, dsps=0):
    return Device("ice40", (f"--{kind}",), package, dsps)


DEVICES = {
    "lp1k": ice40("lp1k", "qn84"), "lp8k": ice40("lp8k", "cm225"), "hx1k": ice40("hx1k", "tq144"), "hx4k": ice40("hx4k", "tq144"),
    "hx8k": ice40("hx8k", "ct256"), "up5k": ice40("up5k", "sg48", 8), "u4k": ice40("u4k", "sg48", 4),
    **{f"ecp5-{size}k": Device("ecp5", (f"--{size}k",), "CABGA381", dsps) for size, dsps in ((25, 28), (45, 72), (85, 156))},
}
DEVICES["ecp5"] = DEVICES["ecp5-25k"]
PACKAGES = {"nextpnr-ice40": "nextpnr-ice40", "icepack": "fpga-icestorm"}  # those that Debian has
PACKERS = {"ice40": ("icepack",), "ecp5": ("ecppack",)}
CLOCK, HARNESS, REPORT = "clk", "safl_place_harness", "report.json"
DSPS = ("SB_MAC16", "MULT18X18D")


@dataclass(frozen=True)
class Counts:
    """The cells of a module."""

    luts: int
    flops: int
    others: int  # memories and the like
    dsps: int = 0


def kind_of(cell):
    """What a cell counts as, and how many of it."""
    if cell in ("SB_LUT4", "LUT4"):
        return "luts", 1
    if cell == "CCU2C":
        return "luts", 2
    if cell.startswith(("SB_DFF", "TRELLIS_FF")):
        return "flops", 1
    if cell in DSPS:
        return "dsps", 1
    if cell in ("SB_CARRY", "PFUMX", "L6MUX21", "SB_IO", "SB_GB", "GND", "VCC"):
        return "", 0
    return "others", 1


def counts_of(module):
    found = {"luts": 0, "flops": 0, "others": 0, "dsps": 0}
    for cell in module["cells"].values():
        kind, number = kind_of(cell["type"])
        if kind:
            found[kind] += number
    return Counts(**found)


def complaint(told, named):
    """The line in which a tool says what it refuses, with the user's names in place of the plain ones."""
    lines = (told.err + told.out).strip().splitlines() or [f"status {told.status}"]
    line = next((line for line in lines if "ERROR" in line), lines[0]).strip()
    for plain, name in named.items():
        line = line.replace(plain, one_line(name))
    return line


def run(words, folder, named=None):
    told = outside.Told(words, folder)
    if told.status:
        raise Refusal(TOOL_FAILED, f"{os.path.basename(words[0])}: {complaint(told, named or {})}")
    return told


def yosys(script, folder, named=None):
    """Runs commands of Yosys. What it keeps for ABC goes to the folder, and so is removed even if Yosys is ended."""
    run([outside.tool("yosys", "yosys"), "-q", "-p", f"scratchpad -set abc.nocleanup true; {script}"], folder, named)


def linked(paths, folder):
    """Plain names in the folder, each with the user's name: a script of Yosys takes a name for commands if it looks like one.

    What a file includes is looked for in its own folder, which has a plain name too.
    """
    named = {}
    for number, path in enumerate(paths):
        named[f"file{number}.v"] = str(path)
        os.symlink(os.path.abspath(path), os.path.join(folder, f"file{number}.v"))
        os.symlink(os.path.dirname(os.path.abspath(str(path))), os.path.join(folder, f"from{number}"))
    return named


def synthesised(paths, top, family, folder, dsp=False):
    """The netlist of the top module, of cells of the family. With `dsp` an iCE40 UltraPlus multiplies by its DSP blocks."""
    named = linked(paths, folder)
    read = " ".join(f"read_verilog -Ifrom{number} {plain};" for number, plain in enumerate(named))
    options = " -dsp -device u" if dsp and family == "ice40" else ""
    yosys(f"{read} synth_{family}{options} -top {top} -json module.json", folder, named)
    return json.loads(files.read(os.path.join(folder, "module.json")))["modules"][top]


def ports(module, direction):
    """The names and widths of the module's ports of a direction."""
    return [(name, len(port["bits"])) for name, port in module["ports"].items() if port["direction"] == direction]


def slices(named):
    """Where each port's bits are in one long word: name, highest bit, lowest bit."""
    low = 0
    for name, width in named:
        yield name, low + width - 1, low
        low += width


def tree(width):
    """A pipeline that makes one bit of a word: each stage has a register for every four bits of the one before."""
    lines, stage = [], 0
    while width > 1:
        less = (width + 3) // 4
        lines.append(f"  reg [{less - 1}:0] some{stage + 1};")
        for bit in range(less):
            high = min(4 * bit + 3, width - 1)
            lines.append(f"  always @(posedge {CLOCK}) some{stage + 1}[{bit}] <= ^some{stage}[{high}:{4 * bit}];")
        width, stage = less, stage + 1
    return lines, f"some{stage}[0]"


def harness(module, top):
    """A module with three pins around this one."""
    inputs = [port for port in ports(module, "input") if port[0] != CLOCK]
    outputs = ports(module, "output")
    held, seen = (max(1, sum(width for _, width in named)) for named in (inputs, outputs))
    joined = [f".\\{name} (held[{high}:{low}])" for name, high, low in slices(inputs)]
    joined += [f".\\{name} (out[{high}:{low}])" for name, high, low in slices(outputs)]
    stages, last = tree(seen)
    shifted = f"{{held[{held - 2}:0], serial}}" if held > 1 else "serial"
    return "\n".join([
        f"module {HARNESS} (input {CLOCK}, input serial, output some);",
        f"  reg [{held - 1}:0] held;", f"  always @(posedge {CLOCK}) held <= {shifted};",
        f"  wire [{seen - 1}:0] out;",
        f"  reg [{seen - 1}:0] some0;", f"  always @(posedge {CLOCK}) some0 <= out;",
        f"  \\{top} measured (.{CLOCK}({CLOCK}), {', '.join(joined)});",
        *stages, f"  assign some = {last};", "endmodule",
    ]) + "\n"


def in_harness(module, top, family, folder):
    """The file of the synthesised module inside its harness."""
    if CLOCK not in module["ports"]:
        raise Refusal(WRONG_USE, f"the module {top} has no port {CLOCK}, so there is nothing to measure")
    files.write(os.path.join(folder, "harness.v"), harness(module, top))
    yosys(
        f"read_json module.json; setattr -mod -set keep_hierarchy 1 {top}; read_verilog harness.v;"
        f" synth_{family} -noflatten -top {HARNESS}; setattr -mod -unset keep_hierarchy {top}; flatten; clean;"
        " write_json placed.json",
        folder,
    )
    return "placed.json"


def placed(design, device, folder, options, seed):
    """The clock in MHz that the routed design can have, and the file of its configuration."""
    name = f"nextpnr-{device.family}"
    config, pins = ("--asc", "--pcf") if device.family == "ice40" else ("--textcfg", "--lpf")
    words = [outside.tool(name, PACKAGES.get(name)), *device.words, "--package", options.package or device.package]
    words += ["--json", design, config, "placed.config", "--seed", str(seed), "--timing-allow-fail", "--report", REPORT]
    if options.frequency:
        words += ["--freq", str(options.frequency)]
    if options.pins:
        words += [pins, os.path.abspath(options.pins)]
    told = run(words, folder)
    found = re.findall(r"Max frequency for clock\s+'[^']*': ([\d.]+) MHz", told.err + told.out)
    clocks = found[len(found) // 2:] if found else []  # they are told after placement and after routing
    return min(map(float, clocks), default=None), "placed.config"


def bit_stream(config, device, out, folder):
    packer = PACKERS[device.family][0]
    run([outside.tool(packer, PACKAGES.get(packer)), config, "placed.bits"], folder)
    with open(os.path.join(folder, "placed.bits"), "rb") as file:
        out.write(file.read())


def verilog_of(inputs, folder, program):
    """The Verilog files: those that are named, with each source built."""
    found = []
    for number, path in enumerate(inputs):
        if path.name.endswith(".safl"):
            built = os.path.join(folder, f"built{number}.v")
            outside.safl(program).text("build", path, built, "--opt")
            path = built
        found.append(path)
    return found


@dataclass(frozen=True)
class Options:
    """How a design is placed."""

    package: str = None
    seed: int = 1
    seeds: int = 1  # so many placements are made, from that seed on
    frequency: float = None
    pins: str = None
    dsp: bool = False


def measured(paths, device, top="safl", options=Options(), clock=True, bits=None):
    """The counts of the module of these Verilog files and, if it is asked for, the clock in MHz."""
    return figures(paths, device, top, options, clock, bits)[:2]


def figures(paths, device, top="safl", options=Options(), clock=True, bits=None):
    """The counts of the module, the clock in MHz and the longest path; writes a bit stream to `bits`.

    The clock is the median of those of all seeds, and the path and the bit stream are those of the first one.
    """
    with temporary.folder() as folder:
        module = synthesised(paths, top, device.family, folder, options.dsp)
        counts = counts_of(module)
        if not clock:
            return counts, None, None
        design, name = ("module.json", top) if options.pins else (in_harness(module, top, device.family, folder), HARNESS)
        megahertz, config = placed(design, device, folder, options, options.seed)
        path = safl_path.read(os.path.join(folder, REPORT), os.path.join(folder, design), name)
        if bits:
            bit_stream(config, device, bits, folder)
        others = range(options.seed + 1, options.seed + options.seeds)
        clocks = [megahertz, *(placed(design, device, folder, options, seed)[0] for seed in others)]
        return counts, statistics.median(clocks) if megahertz else None, path


def words():
    parser = Words(NAME, "Synthesise, place and route a module: LUTs, flip-flops and the clock that it can have.")
    add = parser.add_argument
    add("files", metavar="FILE", nargs="+", help="a Verilog file, as `safl build` writes it, or a source (NAME.safl)")
    add("--device", metavar="DEVICE", required=True, choices=DEVICES, help="one of " + ", ".join(DEVICES))
    add("--package", help="the device's package")
    add("--top", metavar="NAME", default="safl", help="the module that is measured (safl)")
    cycle = count(0, 10**9, "number of cycles")
    add("--cycles", metavar="T", type=cycle, help="the cycle of `done`, as `safl run` prints it: prints the calls a second")
    add("--seed", type=count(0, 2**31 - 1, "seed"), default=1, help="the seed of the placement (1)")
    add("--seeds", metavar="N", type=count(1, 1000, "number of seeds"), default=1, help="place N times and take the median clock (1)")
    add("--freq", metavar="MHZ", type=float, dest="frequency", help="the clock that the placement aims at")
    add("--counts", action="store_true", help="synthesise only: no clock")
    add("--dsp", action="store_true", help="multiply by the DSP blocks of the device (up5k, u4k); an ECP5 always does")
    add("--pins", metavar="PINS", help="a file of constraints (.pcf, .lpf): the ports of the module are the pins")
    add("--bits", metavar="OUT", help="with --pins: write the bit stream to OUT")
    return parser


def checked(chosen):
    if chosen.bits and not chosen.pins:
        raise Refusal(WRONG_USE, "--bits needs --pins: a bit stream is for a board")
    if chosen.counts and (chosen.pins or chosen.cycles is not None):
        raise Refusal(WRONG_USE, "--counts goes with neither --pins nor --cycles: there is no clock")
    if chosen.frequency is not None and not 0 < chosen.frequency < 10000:
        raise Refusal(WRONG_USE, "--freq needs a number of MHz from 0 to 10,000")
    if not re.fullmatch(r"[A-Za-z_][\w$]*", chosen.top, re.ASCII):
        raise Refusal(WRONG_USE, f"{chosen.top} is no name of a module")
    refuse_dsp(chosen.device, chosen.dsp)


def refuse_dsp(name, asked):
    """Refuses --dsp for a device without DSP blocks."""
    if asked and not DEVICES[name].dsps:
        have = [other for other, device in DEVICES.items() if device.dsps and device.family == "ice40"]
        raise Refusal(WRONG_USE, f"{name} has no DSP blocks; {' and '.join(have)} have")


def opened(chosen):
    """Reads all inputs, and opens the output."""
    chosen.files = [files.source(name) if name.endswith(".safl") else files.verilog(name) for name in chosen.files]
    chosen.pins = chosen.pins and files.Input(chosen.pins, "pins", files.VERILOG_MOST)
    chosen.bits, = files.outputs([*chosen.files, chosen.pins], [chosen.bits])


def needed(device, chosen):
    """Asks for all programs before any work is done."""
    outside.tool("yosys", "yosys")
    if not chosen.counts:
        name = f"nextpnr-{device.family}"
        outside.tool(name, PACKAGES.get(name))
    if chosen.bits:
        packer = PACKERS[device.family][0]
        outside.tool(packer, PACKAGES.get(packer))


def main(arguments=None):
    chosen = words().parse_args(arguments)
    checked(chosen)
    device = DEVICES[chosen.device]
    opened(chosen)
    needed(device, chosen)
    options = Options(chosen.package, chosen.seed, chosen.seeds, chosen.frequency, chosen.pins, chosen.dsp)
    with temporary.folder() as folder:
        paths = verilog_of(chosen.files, folder, chosen.safl)
        counts, megahertz, path = figures(paths, device, chosen.top, options, not chosen.counts, chosen.bits)
    print(f"luts {counts.luts}\nflip-flops {counts.flops}")
    if counts.dsps:
        print(f"dsp blocks {counts.dsps}")
    if counts.others:
        print(f"others {counts.others}")
    if megahertz is not None:
        print(f"mhz {megahertz:.2f}")
        if chosen.cycles is not None:
            print(f"calls {int(megahertz * 1e6 / (chosen.cycles + 1))} a second")
        if path:
            print(f"longest path {path}")
    elif not chosen.counts:
        print("mhz none: no path between two registers")
