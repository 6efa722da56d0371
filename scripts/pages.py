"""What stands between the marker lines of the gallery's pages."""
import os

import faster
from files import TOP
from gallery import ALL_PUBLIC, PUBLIC, SUBJECTS, WAVES
from measured import DEVICE_NAME, DSP_BLOCKS, DSP_DEVICE_NAME, NONE

HEXADECIMAL_FROM = 256  # a number from here on is written in hexadecimal too
PLACED = (
    "LUTs and flip-flops are those of the module, by Yosys {yosys} (`synth_ice40`); MHz is the clock of a placement on an {device}"
    " by nextpnr-ice40 {nextpnr}, which another seed may change by a tenth (`tools/safl-place`)."
)


def both(value, width):
    """A number in decimal, as the program takes and prints it, and in hexadecimal, with all digits if it is a long word."""
    digits = (width + 3) // 4 if width > 64 else 0
    return f"{value} (`0x{value:0{digits}x}`)" if value >= HEXADECIMAL_FROM else str(value)


def table(head, rows):
    lines = [f"| {' | '.join(head)} |", f"|{'---|' * len(head)}"]
    return lines + [f"| {' | '.join(str(cell) for cell in row)} |" for row in rows]


def arguments(example, row):
    """Main's arguments by name, a line for each."""
    params = example.program.main.params
    if len(params) == 1:
        return both(row.args[0], params[0][2])
    return "<br>".join(f"{name} = {both(value, width)}" for (name, _, width), value in zip(params, row.args))


def circuit_block(example):
    return ["![The units and their calls](units.svg)", "", "```"] + example.report() + ["```"]


def cycles_after(example, cycles):
    """What the longest run of the page becomes in another circuit."""
    longest = example.longest
    after = cycles[example.rows.index(longest)]
    return f"in cycle {after}, as before" if after == longest.cycle else f"in cycle {after} instead of {longest.cycle}"


def apart_block(example):
    copies, named, cycles = example.apart
    return [
        f"With a copy of {named} no unit has an arbiter. Then there are {copies.bits} bits of registers instead of {example.bits},",
        f"and the longest of the runs below is done {cycles_after(example, cycles)}.",
    ]


def cycles_block(example):
    rows = [
        (row.title, arguments(example, row), both(row.result, example.program.main.width), row.calls, row.tails, row.bound, row.cycle)
        for row in example.rows
    ]
    shown = example.shown
    words = " ".join(str(a) for a in shown.args)
    return table(("what", "arguments", "result", "n", "l", "2n - l", "cycle"), rows) + [
        "", f"    safl sim {example.source_name} --cycles {example.limit} {words}",
        "", f"prints `result {shown.result}` and `cycle {shown.cycle}`.",
    ]


def run_block(example):
    what = f"The whole run for {example.shown.title}: a row for each unit, and a bar for each call, with the number of its site."
    lines = [what, "", "![The run](run.svg)"]
    if example.name in WAVES:
        first, last = waves_range(example)
        which = "all its cycles" if (first, last) == (0, example.shown.cycle) else f"its cycles {first} to {last}"
        lines += ["", f"Its registers in {which}:", "", "![Waveforms](waves.svg)"]
    return lines


def waves_range(example):
    """The first and the last cycle of the picture of waveforms."""
    _, first, last = WAVES[example.name]
    return first, min(last, example.shown.cycle)


def versions_of(example):
    """The versions of an example that are measured, with the texts that they are made of and their cycles of the longest run."""
    longest = example.rows.index(example.longest)
    yield "as written", example.source, example.longest.cycle
    if example.circuit.plan.arbiters:
        copies, _, cycles = example.apart
        yield "copies", copies.source, cycles[longest]
    if example.faster:
        other, cycles = example.faster
        yield "faster", other.source, cycles[longest]


def clock_of(figures):
    return f"{figures.mhz:.0f}" if figures.mhz else "does not fit" if figures.fits is False else ""


def tools_line(store):
    return PLACED.format(yosys=store.tools["Yosys"], nextpnr=store.tools["nextpnr-ice40"], device=DEVICE_NAME)


NAMES = {"as written": "as written", "copies": "with copies instead of arbiters", "faster": "faster, as below"}


def calls(figures, cycle):
    """The calls a second, one after another, if there is a clock."""
    return figures.mhz * 1e6 / (cycle + 1) if figures and figures.mhz and cycle else None


def calls_for_area(example, store, version):
    """The calls a second of the longest run, for each LUT."""
    for name, text, cycle in versions_of(example):
        figures = store.figures(example.name, name, text)
        rate = calls(figures, cycle)
        if name == version and rate:
            return rate / figures.luts
    return None


def rounded(number):
    """A number with three digits that count, as a cell of a table, which is empty without one."""
    return f"{float(f'{number:.3g}'):,.0f}" if number else ""


def area_block(example, store):
    rows = []
    for version, text, cycle in versions_of(example):
        figures = store.figures(example.name, version, text)
        rows.append((NAMES[version], cycle, *cells_of(figures), rounded(calls(figures, cycle))))
    if example.by_hand():
        figures = store.by_hand(example)
        cycle = figures.cycle if figures else ""
        rows.append(("[by hand](../by_hand/README.md)", cycle, *cells_of(figures), rounded(calls(figures, cycle))))
    head = ("circuit", "cycle of the longest run", "LUTs", "flip-flops", "MHz", "calls a second")
    return table(head, rows) + [""] + dsp_lines(example, store) + [tools_line(store)]


def dsp_lines(example, store):
    """The cells on a device with DSP blocks, if the example takes any."""
    rows = []
    for version, text, _ in versions_of(example):
        figures = store.figures(example.name, version, text)
        if figures and figures.dsp:
            rows.append((NAMES[version], *dsp_cells(figures.dsp)))
    if not rows:
        return []
    what = f"On a device with DSP blocks, as the {DSP_DEVICE_NAME}, which has {DSP_BLOCKS} (`safl-place --dsp`):"
    return [what, ""] + table(("circuit", "LUTs", "flip-flops", "DSP blocks"), rows) + [""]


def dsp_cells(dsp):
    """The counts as cells of a table; where there are none, the first cell says why."""
    return (f"none: {dsp[NONE]}", "", "") if NONE in dsp else tuple(f"{dsp[name]:,}" for name in ("luts", "flip-flops", "dsp blocks"))


def cells_of(figures):
    """Figures as cells of a table, which are empty where nothing was measured."""
    return (f"{figures.luts:,}", f"{figures.flip_flops:,}", clock_of(figures)) if figures else ("", "", "")


def steps(example):
    """How the faster source is made."""
    point, file = faster.proposed(faster.found()[example.name]), f"{example.name}_faster.safl"
    return [
        f"[{file}](../faster/{file}) is what `safl-explore` proposes by itself: {faster.in_words(point['steps'])}. `calls` has the arguments of the"
        " table above, a call on each line.", "",
        f"    safl-explore {example.source_name} --calls calls --luts --front --out faster", "",
    ]


def faster_block(example, store):
    other, cycles = example.faster
    before, after = store.figures(example.name, "as written", example.source), store.figures(example.name, "faster", other.source)
    rows = [
        ("cycles", span([row.cycle for row in example.rows]), span(cycles)), ("bits of registers", example.bits, other.bits),
        *((name, *pair) for name, *pair in zip(("LUTs", "flip-flops", "MHz"), cells_of(before), cells_of(after))),
        ("calls a second for each LUT", *(rounded(calls_for_area(example, store, version)) for version in ("as written", "faster"))),
    ]
    return steps(example) + table(("", "before", "after"), rows)


def span(cycles):
    low, high = min(cycles), max(cycles)
    return str(low) if low == high else f"{low} to {high}"


def blocks(example, store):
    """The blocks of a page, by the names of their markers."""
    found = {
        "source": ["```"] + example.source.splitlines() + ["```"],
        "circuit": circuit_block(example),
        "cycles": cycles_block(example),
        "run": run_block(example),
        "area": area_block(example, store),
    }
    if example.circuit.plan.arbiters:
        found["apart"] = apart_block(example)
    if example.faster:
        found["faster"] = faster_block(example, store)
    return found


def by_hand_cell(example, store):
    figures = store.by_hand(example) if example.by_hand() else None
    return f"{figures.cycle} cycles, {figures.luts:,} LUTs, {clock_of(figures)} MHz" if figures else ""


def secret_cell(example):
    """The parameters of which the time tells nothing, as `safl-time` finds them."""
    public = PUBLIC.get(example.name, ())
    if example.name in ALL_PUBLIC or len(public) == len(example.program.main.params):
        return ""
    return f"all but {', '.join(f'`{name}`' for name in public)}" if public else "all"


def blocks_cell(figures):
    """The LUTs and the DSP blocks in one cell."""
    luts, _, blocks = dsp_cells(figures.dsp) if figures and figures.dsp else ("", "", "")
    return f"{luts} and {blocks}" if blocks else luts


def index_block(examples, store):
    """The table of all examples by subject."""
    by_name = {example.name: example for example in examples}
    lines = []
    for subject, names in SUBJECTS.items():
        rows = []
        for name in names:
            example = by_name[name]
            figures = store.figures(name, "as written", example.source)
            luts, flops, mhz = cells_of(figures)
            shared = ", ".join(f"`{example.circuit.unit_name(group)}`" for group in sorted(example.circuit.plan.arbiters))
            title, cycles = f"[{example.title}]({name}/README.md)", span([row.cycle for row in example.rows])
            spans = span([row.span for row in example.rows])
            rows.append((title, shared, cycles, spans, secret_cell(example), luts, flops, blocks_cell(figures), mhz, by_hand_cell(example, store)))
        head = ("circuit", "shared unit", "cycles", "span", "constant time for", "LUTs", "flip-flops", "LUTs and DSP blocks", "MHz", "by hand")
        lines += [f"### {subject}", ""] + table(head, rows) + [""]
    what = f"LUTs and DSP blocks are those on an {DSP_DEVICE_NAME}, which has {DSP_BLOCKS} such blocks, of the circuits that take any."
    time = "The span is the cycle in which a circuit would be done if no call waited; with a constant time the cycle tells nothing of these arguments."
    return lines + [f"{tools_line(store)} {what} {time}"]


def explored_block():
    """The table of what safl-explore finds, with a row for each circuit for which it finds something."""
    every, rows, without, left = faster.found(), [], [], []
    for name in (name for names in SUBJECTS.values() for name in names):
        kept = every.get(name)
        best = kept and faster.best(kept)
        if best:
            pairs = [f"{point[figure]:,}" for figure in ("cycles", "luts") for point in (kept["points"][0], best)]
            rows.append((f"[{name}]({name}/README.md)", faster.in_words(best["steps"]), *pairs, f"{best['calls for area']:.2f}"))
        else:
            (without if kept else left).append(name)
    head = ("circuit", "steps", "cycles of all runs", "after", "LUTs", "after", "calls a cycle for each LUT, times")
    return table(head, rows) + ["", f"Nothing better was found for {listed(without)}."] + [f"Not looked at: {listed(left)}."] * bool(left)


def listed(names):
    return f"{', '.join(names[:-1])} and {names[-1]}" if len(names) > 1 else "".join(names)


def picture_of(example, name):
    return os.path.relpath(f"{example.folder}/{name}", TOP)
