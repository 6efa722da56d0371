"""The commands: words, the order of refusals, and what is printed. Written from docs/COMMANDS.md and the documents that it names."""
import aiger
import generator
import language
import machine
import report
import reshape
import session
import vcd
import verilog
from circuit import Circuit, meaning
from language import Fault
from words import NoCommand, in_order

USAGE = (
    "usage: safl check IN | build IN OUT | sim IN --cycles L [ARG..] | run FILE --cycles L [ARG..] | walk IN --order SEED --steps N [ARG..]"
    " | report IN | gen SEED COUNT | bench SEED COUNT --cycles L"
)


class Refusal(Exception):
    def __init__(self, status, line):
        super().__init__()
        self.status, self.line = status, line


def is_digits(word, most):
    return 1 <= len(word) <= most and all(c in "0123456789" for c in word)


def decimal(word, low, high):
    if is_digits(word, 20) and int(word) < 1 << 64 and low <= int(word) <= high:
        return int(word)
    raise Refusal(2, USAGE)


def arguments(words, widths):
    if len(words) != len(widths):
        raise Refusal(8, f"main takes {len(widths)} arguments, {len(words)} given")
    for i, (word, width) in enumerate(zip(words, widths), 1):
        if not is_digits(word, 39) or int(word) >= 1 << width:
            raise Refusal(8, f"argument {i} is no number of {width} bits")
    return [int(word) for word in words]


def read(files, name, most):
    if name not in files:
        raise Refusal(3, f"cannot read {name}")
    if len(files[name]) > most:
        raise Refusal(10, f"{name} is longer than {most} bytes")
    return files[name]


def accept(files, name):
    source = read(files, name, language.SOURCE_MAX)
    try:
        return language.accept(source)
    except Fault as fault:
        raise Refusal(1, language.fault_line(name, source, fault)) from None


def widths_of(program):
    return [width for _, _, width in program.main.params]


def timed(found, limit, unit):
    if found is None:
        return 6, [f"no result in {limit} {unit}"]
    return 0, [f"result {found[0]}", f"cycle {found[1]}"]


def check(words, files):
    program = accept(files, words[1])
    return 0, [f"functions {len(program.functions)}", f"sites {len(program.sites) - 1}"]


def sim(words, files, traces):
    limit = decimal(words[3], 1, 1_000_000_000)
    program = accept(files, words[1])
    args = arguments(words[4:], widths_of(program))
    circuit = Circuit(program)
    for kind, name in traces.items():
        files[name] = "".join(line + "\n" for line in vcd.TEXTS[kind](circuit, args, limit)).encode()
    return timed(circuit.run(args, limit), limit, "cycles")


def netlist(files, name):
    text = read(files, name, verilog.FILE_MAX)
    try:
        return verilog.Netlist(text)
    except Fault as fault:
        raise Refusal(7, verilog.fault_line(name, text, fault)) from None
    except verilog.Loop as loop:
        raise Refusal(7, f"{name}: V09 combinational loop: {' '.join(loop.names)}") from None


def run_file(words, files):
    limit = decimal(words[3], 1, 1_000_000_000)
    name = words[1]
    if isinstance(files.get(name), Circuit):
        circuit = files[name]
        return timed(circuit.run(arguments(words[4:], widths_of(circuit.program)), limit), limit, "cycles")
    net = netlist(files, name)
    return timed(net.run(arguments(words[4:], net.arguments()), limit), limit, "cycles")


def aig(words, files):
    if isinstance(files.get(words[1]), Circuit):
        known = aiger.Blasted.of_circuit(files[words[1]])
    else:
        known = aiger.Blasted.of_netlist(netlist(files, words[1]))
    fault = known.fault()
    if fault:
        raise Refusal(*fault)
    files[words[2]] = known
    return 0, []


def aigstat(words, files):
    """How many ANDs the program makes of a netlist is left open."""
    name = words[1]
    if isinstance(files.get(name), aiger.Blasted):
        return 0, files[name].counts() + ["ands .."]
    text = read(files, name, aiger.FILE_MAX)
    try:
        return 0, aiger.read(text).counts()
    except Fault as fault:
        raise Refusal(11, aiger.fault_line(name, fault)) from None


def walk(words, files):
    seed, steps = decimal(words[3], 0, (1 << 64) - 1), decimal(words[5], 1, 1_000_000_000)
    program = accept(files, words[1])
    result, events, units = machine.walk(program, arguments(words[6:], widths_of(program)), seed, steps)
    if result is None:
        return 6, [f"no result in {steps} events"]
    return 0, [f"result {result}", f"events {events}", f"units {units}"]


def called(words, files):
    limit = decimal(words[4], 1, 1_000_000_000)
    read(files, words[1], language.SOURCE_MAX)
    script = read(files, words[2], session.SCRIPT_MAX)
    program = accept(files, words[1])
    try:
        calls = session.calls_of(script, widths_of(program))
    except session.ScriptFault as fault:
        raise Refusal(8, str(fault)) from None
    found = session.replies(Circuit(program), calls, limit)
    lines = [f"{result} {cycle}" for result, cycle in found]
    if len(found) < len(calls):
        return 6, lines + [f"no result in {limit} cycles"]
    return 0, lines + [f"calls {len(calls)}"]


def reported(words, files):
    return 0, report.report_lines(built(words, files))


def generated(words):
    """The seed, the number of functions, and the lines of their source."""
    seed, count = decimal(words[1], 0, (1 << 64) - 1), decimal(words[2], 1, generator.COUNT_MAX)
    return seed, count, generator.source_lines(seed, count)


def bench(words):
    seed, count, lines = generated(words)
    limit = decimal(words[4], 1, 1_000_000_000)
    circuit = Circuit(language.accept("\n".join(lines).encode()))
    status, found = timed(circuit.run(generator.arguments(seed, count), limit), limit, "cycles")
    return status, report.summary_lines(circuit) + found


def built(words, files):
    """The circuit of IN's program: what of OUT's text is fixed comes from it, optimised or not."""
    return Circuit(accept(files, words[1]))


def reshaped(words, files):
    change, k = words[3].removeprefix("--"), decimal(words[4], 0, (1 << 64) - 1)
    accept(files, words[1])
    try:
        files[words[2]] = reshape.reshaped(files[words[1]], change, k)
    except reshape.Reason as reason:
        raise Refusal(13, f"site {k}: {reason}") from None
    return 0, []


def answered(words, traces, files):
    """What the words in their order come to."""
    verb = words[0]
    if verb == "check":
        return check(words, files)
    if verb == "build":
        files[words[2]] = built(words, files)
        return 0, []
    if verb == "sim":
        return sim(words, files, traces)
    if verb == "run":
        return run_file(words, files)
    if verb == "walk":
        return walk(words, files)
    if verb == "session":
        return called(words, files)
    if verb == "aig":
        return aig(words, files)
    if verb == "aigstat":
        return aigstat(words, files)
    if verb == "report":
        return reported(words, files)
    if verb == "gen":
        return 0, generated(words)[2]
    if verb == "bench":
        return bench(words)
    if verb == "reshape":
        return reshaped(words, files)
    raise Refusal(2, USAGE)


def call(words, files):
    """The status of a call, and the lines that are printed, or the line that is told."""
    try:
        return answered(*in_order(words), files)
    except NoCommand:
        return 2, [USAGE]
    except Refusal as refusal:
        return refusal.status, [refusal.line]


def plan_text(source):
    """The row of a table of plans."""
    circuit = Circuit(language.accept(source))
    plan = circuit.plan
    arbiters = [k for k in circuit.sites if plan.unit(k) in plan.arbiters]
    registers = circuit.registers()
    listed = ["".join(f" {k}" for k in sites) for sites in (arbiters, sorted(plan.kept))]
    return f"arb{listed[0]}, keep{listed[1]}, {len(registers)} registers of {sum(width for _, width in registers)} bits"


def meant(source, words):
    """The line of main's value by the meaning, or nothing if it isn't there in a million calls."""
    program = language.accept(source)
    found = meaning(program, [int(word) for word in words], 1_000_000)
    return f"result {found.value}" if found else None
