"""A test bench of a Verilog file that `safl build` wrote: one call, with these arguments.

In its dump the values of cycle c stand at time 2 * c + 2.
"""
import re

from safl_tools import files, numbers
from safl_tools.ending import WRONG_USE, Refusal
from safl_tools.words import Words, count

NAME = "safl-bench"
LIMIT = 10**9  # the most cycles of a run


def quoted(name):
    """A name as it stands in a string of Verilog."""
    return name.replace("\\", "\\\\").replace('"', '\\"').replace("\n", "\\n")


def named(text):
    """The signals of a file but for clock, reset and temporaries."""
    names = re.findall(r"^  (?:input|output|reg|wire) (?:\[\d+:0\] )?(\S+);", text, re.M)
    return [name for name in names if name not in ("clk", "rst") and not name.startswith("n$")]


def inputs_of(text):
    """The names and the widths of the inputs that take arguments."""
    ports = re.findall(r"^  input \[(\d+):0\] (\S+);", text, re.M)
    return [(name, int(high) + 1) for high, name in ports if name != "start"]


def bench(text, cycles, args, dump=None):
    """The bench, which dumps the named signals of the circuit to a file if one is given."""
    module = re.search(r"^module (\S+) ", text, re.M)[1]
    inputs = inputs_of(text)
    high = re.search(r"^  output \[(\d+):0\] result;", text, re.M)[1]
    wires = "".join(f"  reg [{width - 1}:0] p{i};\n" for i, (name, width) in enumerate(inputs))
    joined = "".join(f", .{name}(p{i})" for i, (name, width) in enumerate(inputs))
    given = "".join(f" p{i} = {width}'d{args[i]};" for i, (name, width) in enumerate(inputs))
    zeros = "".join(f" p{i} = 0;" for i in range(len(inputs)))
    signals = ", ".join(f"circuit.{name}" for name in named(text))
    dumps = f'    $dumpfile("{quoted(dump)}"); $dumpvars(0, {signals});\n' if dump else ""
    return f"""module bench;
  reg clk = 0, rst = 1, start = 0;
  wire done;
  wire [{high}:0] result;
{wires}  integer cycle;
  {module} circuit (.clk(clk), .rst(rst), .start(start), .done(done), .result(result){joined});
  initial begin
{dumps}   {zeros} #1 clk = 1; #1 clk = 0; rst = 0; start = 1;{given}
    for (cycle = 0; cycle < {cycles}; cycle = cycle + 1) begin
      #1 if (done) begin $display("result %0d\\ncycle %0d", result, cycle); $finish; end
      clk = 1; #1 clk = 0; start = 0;{zeros}
    end
    $display("no result in {cycles} cycles");
    $finish;
  end
endmodule
"""


def words():
    parser = Words(NAME, "Print a test bench of a Verilog file that `safl build` wrote: it makes one call, and prints result and cycle.", calls_safl=False)
    add = parser.add_argument
    add("file", metavar="FILE", help="a file that `safl build` wrote; the module may have been renamed")
    add("arguments", metavar="ARG", nargs="*", type=numbers.argument, help="the arguments of main, in decimal or as 0x1f")
    add("--cycles", metavar="L", type=count(1, LIMIT, "number of cycles"), required=True, help="the most cycles of the run")
    add("--dump", metavar="DUMP.vcd", help="the simulator writes a value change dump of the named signals to DUMP.vcd")
    add("-o", "--out", metavar="BENCH.v", help="the file for the bench (else it is printed)")
    return parser


def checked(text, chosen):
    """Refuses a file that is no module, and arguments that do not fit its ports."""
    if not re.search(r"^module \S+ ", text, re.M) or not re.search(r"^  output \[\d+:0\] result;", text, re.M):
        raise Refusal(WRONG_USE, f"{chosen.file} is no file that `safl build` wrote")
    inputs = inputs_of(text)
    if len(inputs) != len(chosen.arguments):
        raise Refusal(WRONG_USE, f"the module takes {len(inputs)} arguments, {len(chosen.arguments)} given")
    for (name, width), word in zip(inputs, chosen.arguments):
        if int(word) >> width:
            raise Refusal(WRONG_USE, f"{word} does not fit {name}, which has {width} bits")


def main():
    chosen = words().parse_intermixed_args()
    chosen.file = files.verilog(chosen.file)
    chosen.out, = files.outputs([chosen.file], [chosen.out])
    text = chosen.file.text
    checked(text, chosen)
    made = bench(text, chosen.cycles, chosen.arguments, chosen.dump)
    if chosen.out:
        chosen.out.write(made)
    else:
        print(made, end="")
