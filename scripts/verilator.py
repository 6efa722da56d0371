#!/usr/bin/env python3
"""Runs the circuits that PROGRAM builds, with and without `--opt`, in Verilator, and compares results and cycles with what `sim` prints.

They are all examples with their arguments, and COUNT programs with shifts, products and slices of 1 to 128 bits that are made from SEED
on; the latter run in Icarus Verilog too. First come sources that some version of Verilator got wrong. No circuit may shift by a signal of
more than 32 bits. A simulator that is missing is named, with SKIPPED.
"""
import concurrent.futures
import os
import re
import shutil
import subprocess
import sys
import tempfile

from files import TOP, examples, read, written
from gallery import PAGES
from given import a_number, a_program, parser
from program import told
from safl_bench import inputs_of

sys.path.insert(0, f"{TOP}/scripts/oracle")
from programs import Dice  # noqa: E402

AMOUNT_MAX = 32  # the most bits of a signal that a circuit shifts by
KNOWN = [
    ("fun main(a:64, b:65):32 = bits(a << b, 31, 0)", [[2**64 - 1, 40], [2**64 - 1, 8], [1, 2**64]]),
    ("fun main(a:128, b:128):128 = a >> b", [[2**127, 127], [2**127, 2**64], [2**127, 256], [2**127, 2**32]]),
]
WITHOUT_PAGE = {"seven": [[]], "multiply": [[5, 3], [255, 255]], "shared": [[5]], "even_odd": [[3], [200]]}
EDGES = (1, 2, 8, 16, 31, 32, 33, 63, 64, 65, 95, 96, 97, 127, 128)
DEPTH, TERMS, ROWS = 3, 3, 4
LIMIT = 100_000


class Made:
    """The text of a program of one function, and its arguments, by a seed."""

    def __init__(self, seed):
        self.dice = Dice(seed)
        self.params = [("abc"[i], self.width()) for i in range(3)]
        width = self.width()
        body = " ^ ".join(self.expression(width, DEPTH) for _ in range(TERMS))
        heads = ", ".join(f"{name}:{w}" for name, w in self.params)
        self.text = f"fun main({heads}):{width} = {body}"
        self.rows = [[self.word(w) for _, w in self.params] for _ in range(ROWS)]

    def word(self, width):
        """A number of so many bits. Small ones come often."""
        return self.dice.word(width) if self.dice.happens(1, 2) else sum(self.dice.below(2) << i for i in range(width))

    def width(self):
        return self.dice.pick(EDGES) if self.dice.happens(2, 3) else self.dice.below(128) + 1

    def wider(self, width):
        """A width from this one on."""
        return max(width, self.width())

    def leaf(self, width):
        name, given = self.dice.pick(self.params)
        if given == width:
            return name
        if given < width:
            return f"ext({name}, {width})"
        low = self.dice.below(given - width + 1)
        return f"bits({name}, {low + width - 1}, {low})"

    def amount(self, size):
        """An amount of any width. Most are small words."""
        width, form = self.width(), self.dice.below(6)
        if form < 3 and width >= 5:
            return f"({self.leaf(width)} & {width}'d{min(2**width - 1, self.dice.pick((31, 63, 127, 2**64 + 63)))})"
        if form == 3:
            return f"{width}'d{self.dice.word(width)}"
        return self.expression(width, size)

    def slice(self, width, size):
        whole = self.wider(width)
        low = self.dice.below(whole - width + 1)
        return f"bits({self.expression(whole, size)}, {low + width - 1}, {low})"

    def expression(self, width, size):
        if size == 0:
            return self.leaf(width) if self.dice.happens(9, 10) else f"{width}'d{self.dice.word(width)}"
        form, less = self.dice.below(10), size - 1
        if form < 4:
            return f"({self.expression(width, less)} {self.dice.pick(('<<', '>>'))} {self.amount(less)})"
        if form < 6:
            return f"({self.expression(width, less)} * {self.expression(width, less)})"
        if form < 8:
            return self.slice(width, less)
        if form == 8 and width > 1:
            low = self.dice.below(width - 1) + 1
            return f"cat({self.expression(width - low, less)}, {self.expression(low, less)})"
        return f"({self.expression(width, less)} {self.dice.pick('+-&^')} {self.expression(width, less)})"


class Design:
    """A built file as a module of its own name, and a bench around it that prints a line for each row of arguments."""

    def __init__(self, number, title, text, rows, is_known=False):
        self.number, self.title, self.rows, self.is_known = number, title, rows, is_known
        self.high = re.search(r"^  output \[(\d+):0\] result;", text, re.M)[1]
        self.inputs = inputs_of(text)
        self.module = text.replace("module safl ", f"module d{number} ", 1)
        self.shifts = too_wide(text)

    def bench(self):
        """It starts a run as `sim` does, and resets the circuit between two runs."""
        ports = "".join(f"  reg [{w - 1}:0] p{i} = 0;\n" for i, (_, w) in enumerate(self.inputs))
        joined = "".join(f", .{name}(p{i})" for i, (name, _) in enumerate(self.inputs))
        zeros = "".join(f" p{i} <= 0;" for i in range(len(self.inputs)))
        given = "".join(f"        {row}: begin{self.given(args)} end\n" for row, args in enumerate(self.rows))
        return f"""module h{self.number} (input clk, output reg stopped);
  reg rst = 1, start = 0;
  reg [31:0] row = 0, cycle = 0;
{ports}  wire done;
  wire [{self.high}:0] result;
  d{self.number} circuit (.clk(clk), .rst(rst), .start(start), .done(done), .result(result){joined});
  initial stopped = 0;
  always @(posedge clk)
    if (rst) begin
      rst <= 0; start <= 1; cycle <= 0;
      case (row)
{given}        default: start <= 1;
      endcase
    end else if (!stopped) begin
      start <= 0; cycle <= cycle + 1;{zeros}
      if (cycle == {LIMIT}) $display("{self.number} %0d none", row);
      else if (done) $display("{self.number} %0d result %0d cycle %0d", row, result, cycle);
      if (done || cycle == {LIMIT}) begin
        row <= row + 1; rst <= 1;
        if (row == {len(self.rows) - 1}) stopped <= 1;
      end
    end
endmodule
"""

    def given(self, args):
        return "".join(f" p{i} <= {w}'d{args[i]};" for i, (_, w) in enumerate(self.inputs))


def rows_of(name):
    """The arguments of an example."""
    if name in WITHOUT_PAGE:
        return WITHOUT_PAGE[name]
    answer, values = PAGES[name]
    return [answer(*each)[1] for each in values]


def too_wide(text):
    """The widths above the greatest of the signals that a built file shifts by."""
    widths = {name: int(high) + 1 for high, name in re.findall(r"^  (?:input|reg|wire) \[(\d+):0\] (\S+);", text, re.M)}
    amounts = [widths[name] for name in re.findall(r"^  assign \S+ = \S+ (?:<<|>>) (\S+);", text, re.M)]
    return sorted({width for width in amounts if width > AMOUNT_MAX})


def top(designs):
    """All benches side by side. The simulation ends when each has stopped."""
    benches = "".join(f"  h{d.number} b{d.number} (clk, stopped[{i}]);\n" for i, d in enumerate(designs))
    return f"""module top (input clk);
  wire [{len(designs) - 1}:0] stopped;
{benches}  always @(posedge clk) if (&stopped) $finish;
endmodule
"""


MAIN = """#include "Vtop.h"
#include "verilated.h"
int main() {
    VerilatedContext context;
    Vtop top{&context};
    while (!context.gotFinish()) {
        top.clk = !top.clk;
        top.eval();
    }
}
"""
CLOCK = "module clock;\n  reg clk = 0;\n  top all (clk);\n  always #1 clk = !clk;\nendmodule\n"


class Refused(Exception):
    """A tool ended with an error."""


def ended(words, what):
    """What a tool prints."""
    found = told(words)
    if found.returncode != 0:
        raise Refused(f"{what} ends with {found.returncode}: {(found.stderr or found.stdout)[:1000].strip()}")
    return found.stdout


def verilator(folder, path):
    main = written(folder, "main.cpp", MAIN)
    words = ["verilator", "--cc", "--exe", "--build", "-Wno-fatal", "-Wno-lint", "--top-module", "top", "--prefix", "Vtop"]
    words += ["--Mdir", f"{folder}/made", "--output-split", "20000", "-CFLAGS", "-O0", "-MAKEFLAGS", "OPT_FAST=-O0 OPT_SLOW=-O0 OPT_GLOBAL=-O0"]
    ended([*words, "-o", "made", path, main], "Verilator")
    return ended([f"{folder}/made/made"], "a program that Verilator made")


def icarus(folder, path):
    ended(["iverilog", "-g2005", "-o", f"{folder}/simulated", path, written(folder, "clock.v", CLOCK)], "Icarus Verilog")
    return ended(["vvp", "-n", f"{folder}/simulated"], "vvp")


def lines(simulator, designs):
    """What a simulator prints for each row of each of the designs."""
    with tempfile.TemporaryDirectory() as folder:
        text = "".join(d.module + d.bench() for d in designs) + top(designs)
        printed = simulator(folder, written(folder, "top.v", text))
    found = [re.fullmatch(r"(\d+) (\d+) (none|result \d+ cycle \d+)", line) for line in printed.splitlines()]
    return {(int(m[1]), int(m[2])): m[3] for m in found if m}


def parts_of(designs):
    """The known ones, and the others in as many parts as there are processors: each part becomes one program."""
    known, others, count = [d for d in designs if d.is_known], [d for d in designs if not d.is_known], os.cpu_count() or 1
    return [part for part in [known, *(others[i::count] for i in range(count))] if part]


def differences(name, simulator, designs, wanted):
    """What differs in a simulator, a line for each row of arguments; or why it does not simulate the designs."""
    try:
        found = lines(simulator, designs)
    except Refused as refusal:
        return [str(refusal)]
    rows = [(design, row, found.get((design.number, row), "nothing")) for design in designs for row in range(len(design.rows))]
    return [f"{design.title} {design.rows[row]}: sim says {wanted[design.number][row]}, {name} {said}"
            for design, row, said in rows if said != wanted[design.number][row]]


def compared(name, simulator, designs, wanted):
    """How many differences there are in a simulator; they are printed."""
    with concurrent.futures.ThreadPoolExecutor(os.cpu_count()) as pool:
        found = [line for part in pool.map(lambda part: differences(name, simulator, part, wanted), parts_of(designs)) for line in part]
    for line in found:
        print(f"verilator: {line}", flush=True)
    return len(found)


class Sources:
    """The sources, the designs that are built from them, and what `sim` says of each row of these."""

    def __init__(self, program, folder):
        self.program, self.folder = program, folder
        self.designs, self.wanted, self.wide = [], {}, 0

    def add(self, title, path, rows, is_known=False):
        """The two designs of a source."""
        wanted = [self.said(path, args) for args in rows]
        for option in ([], ["--opt"]):
            built = f"{self.folder}/built.v"
            ended([self.program, "build", path, built, *option], f"build of {title}")
            design = Design(len(self.designs), " ".join([title, *option]), read(built), rows, is_known)
            if design.shifts:
                self.wide += 1
                print(f"verilator: {design.title} shifts by signals of {', '.join(map(str, design.shifts))} bits")
            self.designs.append(design)
            self.wanted[design.number] = wanted

    def add_text(self, text, rows, is_known=False):
        self.add(text, written(self.folder, "p.safl", text + "\n"), rows, is_known)

    def add_all(self, seeds):
        """Adds the known sources, those of the seeds, and then the examples. The answer is the number of designs before these."""
        for text, rows in KNOWN:
            self.add_text(text, rows, True)
        for made in map(Made, seeds):
            self.add_text(made.text, made.rows)
        count = len(self.designs)
        for name, path in examples():
            self.add(name, path, rows_of(name))
        return count

    def said(self, path, args):
        found = told([self.program, "sim", path, "--cycles", str(LIMIT), *map(str, args)])
        if found.returncode not in (0, 6):
            raise Refused(f"sim of {path} {args} ends with {found.returncode}: {found.stderr}")
        return " ".join(found.stdout.split()) if found.returncode == 0 else "none"


def run(program, seeds):
    """How many differences there are, and a line that says what was compared."""
    missing = [name for name in ("verilator", "iverilog") if not shutil.which(name)]
    with tempfile.TemporaryDirectory() as folder:
        sources = Sources(program, folder)
        count = sources.add_all(seeds)
    differing = sources.wide
    if "verilator" not in missing:
        differing += compared("Verilator", verilator, sources.designs, sources.wanted)
    if "iverilog" not in missing:
        differing += compared("Icarus Verilog", icarus, sources.designs[:count], sources.wanted)
    rows = sum(len(design.rows) for design in sources.designs)
    skipped = "".join(f", SKIPPED {name}" for name in missing)
    return differing, f"{len(sources.designs)} built files with {rows} rows of arguments, {differing} differences{skipped}"


def main():
    reader = parser(__doc__)
    reader.add_argument("program", type=a_program, metavar="PROGRAM")
    reader.add_argument("count", type=a_number, nargs="?", default=200, metavar="COUNT")
    reader.add_argument("seed", type=a_number, nargs="?", default=1, metavar="SEED")
    given = reader.parse_args()
    try:
        differing, line = run(given.program, range(given.seed, given.seed + given.count))
    except Refused as refusal:
        sys.exit(f"verilator: {refusal}")
    print(f"verilator: {line}")
    sys.exit(1 if differing else 0)


if __name__ == "__main__":
    main()
