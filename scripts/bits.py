#!/usr/bin/env python3
"""Compares the bit-level circuits that the program writes with the netlists of their Verilog files, or
has ABC look at the map of products that it hands to Yosys.

The circuit's text is read, and the netlist is run, by the programs of scripts/oracle. In each of 1,000 cycles with random inputs,
every bit of every output and register has to be the same.

If Yosys is installed, the number of the ANDs that it makes is printed as well. If ABC is installed too, it has to find the
program's circuit equal to the one that Yosys makes of the Verilog file. In both the registers are opened first: an input takes the
place of each register, and an output shows its next word. So ABC compares the next word of every register, and every output, for
all words of the registers and for all inputs. Reset is left out of both: `aig` takes only registers that reset to 0.

No tool is good at comparing two multipliers that are built in different ways. So Yosys is told to build products as the program
does, row by row (scripts/products.v); --products has ABC compare these with Yosys's own, for widths of 1 to 8 bits. Nor does Yosys
share operators (-noshare), which would move shifters behind choices. All else is what Yosys makes of the text by itself.
"""
import random
import re
import shutil
import subprocess
import sys
import tempfile

import yosys
from files import TOP, read, write
from given import a_file, a_program, parser
from program import told

sys.path.insert(0, f"{TOP}/scripts/oracle")
import aiger  # noqa: E402
import verilog  # noqa: E402

CYCLES = 1000
PRODUCTS = f"{TOP}/scripts/products.v"
WIDEST = 8  # the greatest width for which the map of products is checked
PATIENCE = 300  # seconds for ABC
CONFLICTS = 1_000_000
SYNTHESIS = "synth -flatten -noabc -noshare; aigmap; write_aiger -symbols"


def bits_of(width, number):
    return [number >> place & 1 for place in range(width)]


def listed(signals, values):
    return [bit for name, width in signals for bit in bits_of(width, values[name])]


def differences(net, known, bits):
    """What differs in some cycles with inputs at random."""
    random.seed(known.weight())
    registers = {name: 0 for name, _ in known.signals["l"]}
    state = [0] * len(bits.nexts)
    for cycle in range(CYCLES):
        inputs = {name: random.choice((0, 1, (1 << width) - 1, random.getrandbits(width), random.getrandbits(width))) for name, width in known.signals["i"]}
        values = {**registers, **inputs}
        for name in net.order:
            values[name] = net.value(net.cells[name], values)
        registers = {name: values[following] for name, (_, following) in net.updates.items()}
        outputs, state = bits.cycle(state, listed(known.signals["i"], inputs))
        shown = {name: values[net.shown[name]] for name, _ in known.signals["o"]}
        if outputs != listed(known.signals["o"], shown):
            return f"outputs differ in cycle {cycle}"
        if state != listed(known.signals["l"], registers):
            return f"registers differ after cycle {cycle}"
    return None


def faults(net, known, text, stat):
    """Everything in which the text is not that of the netlist's circuit."""
    bits = aiger.read(text)
    if aiger.written(bits) != text:
        yield "the text is written otherwise"
    if bits.counts() != stat or stat[:3] != known.counts():
        yield f"the counts are {stat}"
    named = [f"{letter}{place} {name.decode()}" for (letter, place), name in bits.names.items()]
    if named != known.symbols():
        yield "the symbols differ"
    if len(bits.ands) > 16 * known.weight():
        yield "there are more ANDs than 16 times the weight"
    found = differences(net, known, bits)
    if found:
        yield found


def told_by_abc(one, other):
    """Whether ABC finds two circuits without latches to have the same outputs for all inputs, which are matched by name."""
    try:
        verdict = yosys.abc(f"cec -T {PATIENCE} -C {CONFLICTS} {one} {other}", 2 * PATIENCE)
    except subprocess.TimeoutExpired:
        return "undecided"
    return "equal" if "Networks are equivalent" in verdict else "different" if "NOT EQUIVALENT" in verdict else "undecided"


def opened_text(text):
    """A file of `build` without its registers: an input has a register's word, and an output its next one."""
    registers = re.findall(r"^  reg \[\d+:0\] (\S+);$", text, re.M)
    ports = "".join(f"{name}, next${name}, " for name in registers)
    text = re.sub(r"^  input (clk|rst);\n", "", text.replace("(clk, rst, ", f"({ports}", 1), flags=re.M)
    text = re.sub(r"^  reg (\[\d+:0\]) (\S+);$", r"  input \1 \2;\n  output \1 next$\2;", text, flags=re.M)
    return re.sub(r"^  always .* else (\S+) <= (\S+);$", r"  assign next$\1 = \2;", text, flags=re.M)


def opened_bits(known, bits):
    """The same of a bit-level circuit. Its places have the names that Yosys gives to the bits of signals."""
    names = {}
    for letter, parts in (("i", [("i", ""), ("l", "")]), ("o", [("o", ""), ("l", "next$")])):
        signals = [(before + name, width) for kind, before in parts for name, width in known.signals[kind]]
        bit_names = [name if width == 1 else f"{name}[{bit}]" for name, width in signals for bit in range(width)]
        names |= {(letter, place): name.encode() for place, name in enumerate(bit_names)}
    return aiger.Bits(bits.inputs + len(bits.nexts), [], bits.outputs + bits.nexts, bits.ands, names)


def prepare(folder, known, bits):
    """Writes the circuit and what Yosys makes of the file `v`, each with its registers opened, and gives the number of Yosys's ANDs."""
    write(f"{folder}/open.v", opened_text(read(f"{folder}/v")))
    with open(f"{folder}/own.aag", "wb") as file:
        file.write(aiger.written(opened_bits(known, bits)))
    yosys.run(f"read_aiger -wideports -module_name own {folder}/own.aag; write_aiger -symbols {folder}/own.aig")
    yosys.run(f"read_verilog {folder}/open.v; techmap -map {PRODUCTS}; {SYNTHESIS} {folder}/yosys.aig")
    with open(f"{folder}/yosys.aig", "rb") as file:
        return int(file.readline().split()[5])


def verdict_on_products():
    """What ABC says of products as scripts/products.v has them and as Yosys makes them without it, for small widths."""
    widths = range(1, WIDEST + 1)
    with tempfile.TemporaryDirectory() as folder:
        text = f"module products({', '.join(f'a{w}, b{w}, y{w}' for w in widths)});\n"
        for w in widths:
            text += f"  input [{w - 1}:0] a{w}, b{w};\n  output [{w - 1}:0] y{w};\n  assign y{w} = a{w} * b{w};\n"
        write(f"{folder}/products.v", text + "endmodule\n")
        yosys.run(f"read_verilog {folder}/products.v; {SYNTHESIS} {folder}/yosys.aig")
        mapped = f"techmap -map {PRODUCTS}; select -assert-none t:$mul"
        yosys.run(f"read_verilog {folder}/products.v; {mapped}; {SYNTHESIS} {folder}/rows.aig")
        return told_by_abc(f"{folder}/rows.aig", f"{folder}/yosys.aig")


def compare(program, path, folder):
    """How the circuit of a file compares: the faults, and a line about it."""
    with open(path, "rb") as file:
        net = verilog.Netlist(file.read())
    known = aiger.Blasted.of_netlist(net)
    shutil.copy(path, f"{folder}/v")
    made = told([program, "aig", "v", "a"], folder)
    fault = known.fault()
    if fault or made.returncode:
        wanted = (fault[0], fault[1] + "\n") if fault else (0, "")
        return [] if (made.returncode, made.stderr) == wanted else [f"ends with {made.returncode}, {made.stderr.strip()}"], "refused"
    stat = told([program, "aigstat", "a"], folder).stdout.splitlines()
    with open(f"{folder}/a", "rb") as file:
        text = file.read()
    found = list(faults(net, known, text, stat))
    line = f"{stat[3]}, weight {known.weight()}"
    if not yosys.lacks("yosys"):
        line += f", {prepare(folder, known, aiger.read(text))} ANDs by Yosys"
        if not yosys.lacks("berkeley-abc"):
            verdict = told_by_abc(f"{folder}/own.aig", f"{folder}/yosys.aig")
            line += f", {verdict} by ABC"
            found += [f"{verdict} by ABC"] if verdict != "equal" else []
    return found, line


def main():
    reader = parser(__doc__)
    reader.add_argument("--products", action="store_true", help="compare products, and no file")
    reader.add_argument("program", nargs="?", type=a_program, metavar="PROGRAM")
    reader.add_argument("files", nargs="*", type=a_file, metavar="FILE.v")
    given = reader.parse_args()
    if given.products == bool(given.files):
        reader.error("a program and files are needed, or --products alone")
    if given.products:
        verdict = verdict_on_products()
        print(f"bits: products of 1 to {WIDEST} bits by scripts/products.v and by Yosys alone: {verdict} by ABC")
        sys.exit(verdict != "equal")
    failed = 0
    for path in given.files:
        with tempfile.TemporaryDirectory() as folder:
            found, line = compare(given.program, path, folder)
        print(f"bits: {path}: {line}")
        for fault in found:
            failed += 1
            print(f"bits: {path}: {fault}")
    sys.exit(failed != 0)


if __name__ == "__main__":
    main()
