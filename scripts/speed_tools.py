#!/usr/bin/env python3
"""Times the commands that speed.py doesn't: speed_tools.py [PART..], with these parts, all if none is named.

    commands   `gen`, `bench`, `report` and `reshape` on sources as large as the language allows
    optimise   `build --opt` less `build`, and how many signals are left, on the speed sources; the same without the rest of `build`
               on nets of up to 3,000,000 wires that safl_bench makes at random
    signals    the same number of signals for the examples
    files      `run` of a Verilog file of 1,000,000 wires: reading, the set-up of the simulator, and a cycle
    walk       what an event takes, and apart from it the set-up
    session    what a cycle of a session takes beside a cycle of `sim`, what a call takes besides, and the reading of a script
    ands       the ANDs of the bit-level circuits of the examples, beside what Yosys and ABC make of the same files
    vcd        what a cycle takes with a trace and without, and in Icarus Verilog with a trace of the same signals

The program is crates/safl/out/safl, or SAFL names it; a command that it doesn't have is skipped. So are the nets where
crates/safl_bench/out/safl_bench isn't built, or BENCH doesn't name it.
"""
import os
import re
import sys
import tempfile

import speed_sources
import yosys
from files import examples, read, written
from given import parser
from measure import Rate, as_memory, as_nanoseconds, as_time, icarus, least_seconds, peak, rate_of_sim, seconds, seconds_between, signals_of, table
from program import NO_RESULT, PROGRAM, USAGE, Ended, ended, knows, lacks, program_of, told

CALLS = 100_000
SCRIPT_MAX = 1_048_576
WRONG_ARGUMENT = 8
WIRES = 1_000_000
BENCH = program_of("BENCH", "safl_bench")


def skipped(what):
    print(f"speed_tools: there is no {what}, SKIPPED")
    return []


def less(command, what, words, others, wanted, statuses=(0, 6)):
    """A row: a command's time, that of another one which does a part of it, and what is left."""
    whole, part = seconds_between([PROGRAM, *words], [PROGRAM, *others], statuses)
    other = f"`{others[0]}`" if others else "start and usage line"
    return f"`{command}`", what, as_time(whole), f"{other} {as_time(part)}", as_time(whole - part), wanted


def generating():
    if not knows(["gen", "1", "1"]):
        return skipped("gen and bench")
    bench_words = ["bench", "1", "900", "--cycles", "1000"]
    return [
        less("gen 1 900", "", ["gen", "1", "900"], [], "5 ms in all", (0, 2)),
        less("bench 1 900 --cycles 1000", "", bench_words, ["gen", "1", "900"], ""),
    ]


def reporting(folder):
    source = speed_sources.sites()
    path = written(folder, "sites.safl", source.text)
    if not knows(["report", path]):
        return skipped("report")
    return [less("report", source.name, ["report", path], ["check", path], "200 ms in all")]


def reshaping(folder):
    """`reshape` of nearly as many nodes as a source may have. The 0.1 s that is wanted is for its own work, so less `check`, which reads
    and checks the same source; less the start it is all that a user waits for.
    """
    source = speed_sources.sums(484)
    path, out = written(folder, "sums.safl", source.text), os.path.join(folder, "reshaped.safl")
    if not knows(["reshape", path, out, "--copy", "484"]):
        return skipped("reshape")
    words, what = ["reshape", path, out], f"{source.nodes:,} nodes"
    rows = []
    for option in ("--copy", "--unfold"):
        for site in ("1", "484"):
            name = f"reshape {option} {site}"
            rows.append(less(name, what, [*words, option, site], ["check", path], "100 ms less `check`", (0,)))
            rows.append(less(name, what, [*words, option, site], [], "", (0, USAGE)))
    return rows


def commands():
    with tempfile.TemporaryDirectory() as folder:
        rows = generating() + reporting(folder) + reshaping(folder)
    if rows:
        table("Commands on large sources", ("command", "on", "time", "less", "is", "wanted"), rows)


def signals_row(folder, name, path):
    """The numbers of signals without and with --opt, and by how much the second is less."""
    files = [os.path.join(folder, each) for each in ("plain.v", "optimised.v")]
    ended([PROGRAM, "build", path, files[0]], (0,))
    ended([PROGRAM, "build", path, files[1], "--opt"], (0,))
    before, after = [signals_of(file) for file in files]
    return name, f"{before:,}", f"{after:,}", f"{100 * (before - after) / before:.0f} %"


def optimise_row(folder, source):
    path, out = written(folder, "source.safl", source.text), os.path.join(folder, "out.v")
    words = ["build", path, out]
    row = signals_row(folder, source.name, path)
    whole, plain = seconds_between([PROGRAM, *words, "--opt"], [PROGRAM, *words], (0,))
    peaks = [as_memory(peak([PROGRAM, *each])) for each in (words, words + ["--opt"])]
    return *row, as_time(plain), as_time(whole), as_time(whole - plain), *peaks


def has_opt(folder):
    path = written(folder, "seven.safl", "fun main():8 = 7\n")
    return knows(["build", path, os.path.join(folder, "seven.v"), "--opt"])


def net_row(wires):
    """A net of so many wires: what making and ordering it takes, and what making it smaller takes besides."""
    words = [BENCH, "opt", str(wires), "1"]
    ordered = [*words, "1"]
    before, after = (int(line.split()[1]) for line in told(words).stdout.splitlines())
    whole, part = seconds_between(words, ordered, (0,))
    sizes = (f"{before:,}", f"{after:,}", f"{100 * (before - after) / before:.0f} %")
    return *sizes, as_time(part), as_time(whole - part), as_memory(peak(ordered)), as_memory(peak(words))


def optimise():
    few = [speed_sources.sites(), speed_sources.largest(), speed_sources.busy(), speed_sources.work()]
    with tempfile.TemporaryDirectory() as folder:
        if not has_opt(folder):
            return skipped("build --opt")
        rows = [optimise_row(folder, source) for source in speed_sources.sized() + few]
    head = ("source", "signals", "with `--opt`", "less", "`build`", "`build --opt`", "difference", "memory of `build`", "of `build --opt`")
    table("Optimising", head, rows)
    if not lacks(BENCH):
        head = ("signals", "made smaller", "less", "making and ordering", "making smaller", "memory of the first", "of both")
        table("Optimising nets of single bits", head, [net_row(wires) for wires in (50_000, 500_000, 3_000_000)])
    return None


def signals():
    with tempfile.TemporaryDirectory() as folder:
        if not has_opt(folder):
            return skipped("build --opt")
        rows = [signals_row(folder, *example) for example in examples()]
    return table("Signals of the examples", ("example", "signals", "with `--opt`", "less"), rows)


def files():
    with tempfile.TemporaryDirectory() as folder:
        path = written(folder, "wires.v", speed_sources.file_of_wires(WIRES))
        words = [PROGRAM, "run", path, "--cycles"]
        refused = [*words, "1", "5"]  # an argument too many: the file is read and ordered, and then refused
        one, read = seconds_between([*words, "1"], refused, (NO_RESULT, WRONG_ARGUMENT))
        many, _ = seconds_between([*words, "101"], refused, (NO_RESULT, WRONG_ARGUMENT))
        size = f"{os.path.getsize(path) / 1e6:.0f} MB"
        numbers = (as_time(read), as_time(one - read), as_time((many - one) / 100), as_memory(peak([*words, "1"])))
    head = ("file", "reading and ordering", "set-up and first cycle (0.3 s wanted)", "a further cycle", "memory")
    table(f"`run` of {WIRES:,} wires of 64 bits", head, [(size, *numbers)])


def walk_row(folder, source):
    path = written(folder, "source.safl", source.text)
    checked = seconds([PROGRAM, "check", path])
    rate = Rate(lambda limit: [PROGRAM, "walk", path, "--order", "1", "--steps", str(limit), *source.args])
    wanted = "1" if source.functions >= 100 else "0.5"
    return source.name, f"{rate.turns:,}", f"{rate.turn * 1e6:.2f}", as_time(rate.begun - checked), as_time(checked), wanted


def wide_row(folder, source):
    """A walk that ends soon: all of it but what `check` takes, by its events."""
    path = written(folder, "source.safl", source.text)
    checked = least_seconds([PROGRAM, "check", path])
    begun, whole = ([PROGRAM, "walk", path, "--order", "7", "--steps", str(limit), *source.args] for limit in (1, 100_000))
    events = int(re.search(r"^events (\d+)$", told(whole).stdout, re.M)[1])
    each = (least_seconds(whole) - checked) / events
    return source.name, f"{events:,}", f"{each * 1e6:.2f}", as_time(least_seconds(begun) - checked), as_time(checked), "3"


def walk():
    large = [*map(speed_sources.calls, (100, 300, 900)), speed_sources.sites()]
    small = [speed_sources.work(), speed_sources.products(), speed_sources.busy()]
    with tempfile.TemporaryDirectory() as folder:
        rows = [walk_row(folder, source) for source in large + small]
        rows += [wide_row(folder, speed_sources.wide(count)) for count in (1_990, 3_990)]
    table("Walks", ("source", "events", "us an event", "set-up after `check`", "`check`", "us wanted"), rows)


class Session:
    """A session of so many equal calls: the time without that of an empty script, and the cycles."""

    def __init__(self, folder, path, line):
        script, out = written(folder, "script", f"{line}\n" * CALLS), os.path.join(folder, "lines")
        words, empty = [[PROGRAM, "session", path, each, "--cycles", "1000"] for each in (script, written(folder, "empty", ""))]
        Ended(words, out)
        self.cycles = sum(int(text.split()[1]) + 1 for text in read(out).splitlines()[:CALLS])
        whole, begun = seconds_between(words, empty)
        self.seconds = whole - begun


def reading(folder, path):
    """What it takes to read a script of 1 MiB, whose last line has a wrong argument, so that nothing is simulated."""
    line = "123 234\n"
    full = written(folder, "full", line * (SCRIPT_MAX // len(line) - 1) + "123 256\n")
    empty = written(folder, "empty", "")
    both = [[PROGRAM, "session", path, each, "--cycles", "1"] for each in (full, empty)]
    whole, begun = seconds_between(*both, (0, WRONG_ARGUMENT))
    return whole - begun


def session():
    path = dict(examples())["multiply"]
    with tempfile.TemporaryDirectory() as folder:
        if not knows(["session", path, written(folder, "empty", ""), "--cycles", "1"]):
            return skipped("session")
        long, short = Session(folder, path, "255 255"), Session(folder, path, "0 0")
        cycle = (long.seconds - short.seconds) / (long.cycles - short.cycles)
        call = (short.seconds - cycle * short.cycles) / CALLS
        loop = speed_sources.products()
        sim = rate_of_sim(written(folder, "products.safl", loop.text), loop.args)
        numbers = (f"{CALLS:,}", f"{long.cycles:,}", as_time(long.seconds), as_nanoseconds(cycle), as_time(call))
        row = (*numbers, as_nanoseconds(sim.turn), as_time(reading(folder, path)))
    head = ("calls", "cycles", "time", "ns a cycle", "a call besides", "`sim`, ns a cycle", "reading 1 MiB (20 ms wanted)")
    return table("A session of the multiplication of 8 bits", head, [row])


def vcd_row(source):
    with tempfile.TemporaryDirectory() as folder:
        path, trace, built = written(folder, "source.safl", source.text), os.path.join(folder, "trace.vcd"), os.path.join(folder, "built.v")
        plain, traced = rate_of_sim(path, source.args), rate_of_sim(path, source.args, "--vcd", trace)
        ended([PROGRAM, "build", path, built], (0,))
        sizes = []
        for limit in (1, traced.limit):
            ended([PROGRAM, "sim", path, "--cycles", str(limit), "--vcd", trace, *source.args])
            sizes.append(os.path.getsize(trace))
        size = (sizes[1] - sizes[0]) / traced.turns
        other = icarus(folder, built, source.args, os.path.join(folder, "icarus.vcd"))
        numbers = (f"{size:,.0f}", as_nanoseconds(plain.turn), as_nanoseconds(traced.turn), f"{traced.turn / plain.turn:.1f}")
        return source.name, *numbers, as_nanoseconds(other) if other else "-"


def vcd():
    with tempfile.TemporaryDirectory() as folder:
        path = written(folder, "seven.safl", "fun main():8 = 7\n")
        if not knows(["sim", path, "--cycles", "1", "--vcd", os.path.join(folder, "trace.vcd")]):
            return skipped("sim --vcd")
    large = [speed_sources.calls(100), speed_sources.calls(900)]
    small = [speed_sources.work(), speed_sources.products(), speed_sources.sums(50)]
    head = ("source", "bytes a cycle", "`sim`, ns a cycle", "with `--vcd`", "ratio (3 wanted below 1 KiB)", "Icarus Verilog with `$dumpvars`")
    return table("Traces", head, [vcd_row(source) for source in large + small])


PLAIN = "read_verilog {file}; proc; flatten; techmap; dffunmap; aigmap; tee -q -o {room}/stat stat"
WRITTEN = "setundef -zero -init; delete -port */clk; write_aiger {room}/plain.aig"
SYNTH = "read_verilog {file}; synth -flatten -top safl; dffunmap; aigmap; tee -q -o {room}/stat stat"


def ands_of_yosys(folder, script):
    if not yosys.run(script):
        sys.exit("speed_tools: Yosys refuses a file")
    return yosys.counts(read(os.path.join(folder, "stat"))).get("AND", 0)


def ands_of_abc(folder):
    """The ANDs of the circuit that Yosys has not optimised, with equal ones shared by ABC."""
    return int(re.search(r"and =\s*(\d+)", yosys.abc(f"read {folder}/plain.aig; strash; &get; &ps"))[1])


def ands_row(folder, name, path):
    built, bits = os.path.join(folder, "v"), os.path.join(folder, "aag")
    ended([PROGRAM, "build", path, built])
    ended([PROGRAM, "aig", built, bits])
    own = int(read(bits).partition("\n")[0].split()[-1])
    plain = ands_of_yosys(folder, f"{PLAIN}; {WRITTEN}".format(file=built, room=folder))
    shared = ands_of_abc(folder)
    synth = ands_of_yosys(folder, SYNTH.format(file=built, room=folder))
    return name, f"{own:,}", f"{plain:,}", f"{own / max(plain, 1):.2f}", f"{shared:,}", f"{synth:,}"


def ands():
    """The ANDs of the examples' circuits, beside what other tools make of the same files."""
    missing = yosys.lacks("yosys", "berkeley-abc")
    if missing:
        return skipped(missing)
    with tempfile.TemporaryDirectory() as folder:
        rows = [ands_row(folder, *example) for example in examples()]
    head = ("example", "ANDs of `aig`", "Yosys, nothing optimised", "ratio (1.3 wanted)", "the same, shared by ABC", "Yosys, `synth; aigmap`")
    return table("ANDs of bit-level circuits", head, rows)


PARTS = {
    "commands": commands,
    "optimise": optimise,
    "signals": signals,
    "files": files,
    "walk": walk,
    "session": session,
    "ands": ands,
    "vcd": vcd,
}


def main():
    reader = parser(__doc__)
    reader.add_argument("parts", nargs="*", metavar="PART", help=f"{', '.join(PARTS)}; all if none is named")
    parts = reader.parse_args().parts or list(PARTS)
    for part in parts:
        if part not in PARTS:
            reader.error(f"there is no part {part}")
    if not lacks(PROGRAM):
        for part in parts:
            PARTS[part]()


if __name__ == "__main__":
    main()
