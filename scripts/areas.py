#!/usr/bin/env python3
"""What circuits cost on chips, by two programs: for a change of what `build` writes.

    areas.py take PROGRAM OUT [--seeds N [--most LUTS]] [--sources FOLDER].. [--jobs J] [NAME..]
                        builds each source with --opt, has Yosys count the cells for three families of chips, places the circuit on an
                        iCE40 HX8K with the seeds 1 to N (0 if it is left out: no placement; with --most only the circuits with so many
                        LUTs at most), and keeps the figures in OUT (JSON), each as it comes. Figures that OUT has of the same text are
                        not taken again
    areas.py compare BEFORE AFTER
                        prints the figures of the circuits whose text differs side by side, and what they come to
    areas.py page [--check]
                        writes that of docs/guide/areas_before.json and areas_after.json into docs/AREAS.md, or says whether the page has another one

The sources are the examples, the tuned ones of examples/by_hand, those of docs/guide, and all of the folders that are named.
"""
import concurrent.futures
import glob
import hashlib
import json
import os
import re
import statistics
import sys
import tempfile

from files import TOP, read, text, write
from given import a_file, a_number, a_program, parser
from program import ended
import yosys

sys.path.insert(0, f"{TOP}/tools")
import safl_place  # noqa: E402

PATTERNS = ("examples/*.safl", "examples/*/*.safl", "docs/guide/*.safl")
CHIP = "hx8k"
# How the cells of each family are counted.
LUTS = {"ice40": r"SB_LUT4", "ecp5": r"LUT4", "xilinx": r"LUT[1-6]"}
FLOPS = {"ice40": r"SB_DFF\w*", "ecp5": r"TRELLIS_FF", "xilinx": r"FD[RSCP]E"}
FAMILIES = tuple(LUTS)
NAMES = {"ice40": "iCE40", "ecp5": "ECP5", "xilinx": "Xilinx"}


def sources(folders, names):
    """The path of each source, by its name."""
    patterns = [f"{TOP}/{pattern}" for pattern in PATTERNS] + [f"{folder}/*.safl" for folder in folders]
    found = {os.path.basename(path).removesuffix(".safl"): path for pattern in patterns for path in sorted(glob.glob(pattern))}
    unknown = [name for name in names if name not in found]
    if unknown:
        sys.exit(f"areas: there is no source {unknown[0]}")
    return {name: path for name, path in found.items() if not names or name in names}


def cells(stat, pattern):
    """How many cells there are whose kind the pattern fits, by what Yosys' `stat` prints."""
    return sum(int(count) for count in re.findall(rf"^\s+{pattern}\s+(\d+)$", stat, re.M))


def counted(file, family):
    """The LUTs and flip-flops of a built file for a family, or nothing if Yosys refuses it."""
    with tempfile.TemporaryDirectory() as room:
        if not yosys.run(f'read_verilog {file}; synth_{family} -top safl; tee -q -o {room}/stat stat'):
            return None
        stat = read(f"{room}/stat")
    return {"luts": cells(stat, LUTS[family]), "flip-flops": cells(stat, FLOPS[family])}


def clocks(file, seeds):
    """The clock in MHz that a placement with each seed can have, of one synthesis."""
    device = safl_place.DEVICES[CHIP]
    with tempfile.TemporaryDirectory() as room:
        module = safl_place.synthesised([file], "safl", device.family, room)
        design = safl_place.in_harness(module, "safl", device.family, room)
        return [safl_place.placed(design, device, room, safl_place.Options(), seed)[0] for seed in range(1, seeds + 1)]


def lacking(row, given):
    """What the row of a circuit has no figures of, and how they are taken."""
    for family in FAMILIES:
        if not row.get(family):
            yield family, counted, family
    if given.seeds > len(row["mhz"]) and row.get("ice40") and row["ice40"]["luts"] <= given.most:
        yield "mhz", clocks, given.seeds


def take(given):
    """Takes the figures of all sources: the cells first, then the clocks, small files first. They are written as they come."""
    kept = json.loads(read(given.out)) if os.path.exists(given.out) else {}
    with tempfile.TemporaryDirectory() as folder:
        texts = {}
        for name, path in sources(given.sources, given.names).items():
            file = f"{folder}/{name}.v"
            ended([given.program, "build", path, file, "--opt"], (0,))
            texts[name] = read(file)
            digest = hashlib.sha256(texts[name].encode()).hexdigest()[:16]
            if kept.get(name, {}).get("digest") != digest:
                kept[name] = {"digest": digest, "mhz": []}
        for is_clock in (False, True):
            missing = [(name, *each) for name in sorted(texts, key=lambda name: len(texts[name])) for each in lacking(kept[name], given)]
            run([each for each in missing if (each[1] == "mhz") == is_clock], folder, kept, given)


def run(missing, folder, kept, given):
    """Takes these figures, some at once."""
    with concurrent.futures.ThreadPoolExecutor(given.jobs) as pool:
        running = {pool.submit(how, f"{folder}/{name}.v", word): (name, what) for name, what, how, word in missing}
        for done in concurrent.futures.as_completed(running):
            name, what = running[done]
            kept[name][what] = done.result()
            write(given.out, json.dumps(kept, indent=1, sort_keys=True) + "\n")
            print(f"areas: {name}, {what}", flush=True)


def percent(before, after):
    return "" if not before else f"{100 * (after - before) / before:+.1f} %"


def clock(row):
    """The median clock, or nothing if there was no placement."""
    return statistics.median(row["mhz"]) if row["mhz"] and None not in row["mhz"] else None


def luts(row, family):
    """The LUTs on a family, or nothing if they were not counted."""
    return row[family]["luts"] if row.get(family) else None


def row_of(name, before, after):
    """A row of the table: LUTs of each family, flip-flops of the first, and the clock, each before and after."""
    found = [name]
    for family in FAMILIES:
        one, other = (luts(row, family) for row in (before, after))
        found += [f"{one:,}", f"{other:,}", percent(one, other)] if one and other else ["", "", ""]
    found += [f"{row['ice40']['flip-flops']:,}" for row in (before, after)]
    one, other = clock(before), clock(after)
    return found + ([f"{one:.0f}", f"{other:.0f}", f"{other / one:.2f}"] if one and other else ["", "", ""])


def worse(before, after, names):
    """What each circuit loses that has more than one percent and more than two LUTs more in a family."""
    for name in names:
        for family in FAMILIES:
            one, other = (luts(rows[name], family) for rows in (before, after))
            if one and other and other - one > 2 and other > 1.01 * one:
                yield f"{name} {other - one:,} on {NAMES[family]} ({percent(one, other)})"


def listed(names):
    return f"{', '.join(names[:-1])} and {names[-1]}" if len(names) > 1 else "".join(names) or "none"


def told(before, after):
    """The table of the circuits whose text has changed, those that gain most first, and what it comes to."""
    both = [name for name in before if name in after and luts(before[name], "ice40") and luts(after[name], "ice40")]
    changed = [name for name in both if before[name]["digest"] != after[name]["digest"]]
    changed.sort(key=lambda name: (after[name]["ice40"]["luts"] / max(1, before[name]["ice40"]["luts"]), name))
    head = ["circuit", *(f"{NAMES[family]} {which}" for family in FAMILIES for which in ("LUTs", "after", "change"))]
    head += ["flip-flops", "after", "MHz", "after", "times"]
    rows = [head, ["---"] * len(head), *(row_of(name, before[name], after[name]) for name in changed)]
    yield from (f"| {' | '.join(row)} |" for row in rows)
    yield ""
    for family in FAMILIES:
        counted_in_both = [name for name in changed if luts(before[name], family) and luts(after[name], family)]
        sums = [sum(luts(rows[name], family) for name in counted_in_both) for rows in (before, after)]
        yield f"- LUTs of {len(counted_in_both)} circuits on {NAMES[family]}: {sums[0]:,} before, {sums[1]:,} after, {percent(*sums)}."
    yield f"- With more than one percent and more than two LUTs more: {'; '.join(worse(before, after, changed)) or 'none'}."
    ratios = {name: clock(after[name]) / clock(before[name]) for name in changed if clock(before[name]) and clock(after[name])}
    if ratios:
        low, high = (choose(ratios, key=ratios.get) for choose in (min, max))
        yield (f"- The clock (the median of {min(len(after[name]['mhz']) for name in ratios)} seeds) is {statistics.median(ratios.values()):.3f} times"
               f" the one before in the median of {len(ratios)} circuits; from {ratios[low]:.2f} ({low}) to {ratios[high]:.2f} ({high}).")
        yield f"- Without a clock: {listed(sorted(set(changed) - set(ratios)))}."
    missing = sorted({*before, *after} - {*both})
    if missing:
        yield f"- Not in both: {listed(missing)}."


def page(is_check):
    """Writes the table of the page, or says whether it has another one."""
    there, (before, after) = text("docs/AREAS.md"), (json.loads(text(f"docs/guide/areas_{name}.json")) for name in ("before", "after"))
    begin, end = "<!-- areas -->\n", "<!-- end of areas -->\n"
    head, rest = there.split(begin)
    wanted = head + begin + "\n".join(told(before, after)) + "\n" + end + rest.split(end)[1]
    if not is_check:
        write(f"{TOP}/docs/AREAS.md", wanted)
    elif wanted != there:
        sys.exit("areas: docs/AREAS.md has another table")


def main():
    reader = parser(__doc__)
    kinds = reader.add_subparsers(dest="kind", required=True)
    taking = kinds.add_parser("take")
    taking.add_argument("program", type=a_program, metavar="PROGRAM")
    taking.add_argument("out", metavar="OUT")
    taking.add_argument("names", nargs="*", metavar="NAME")
    taking.add_argument("--seeds", type=a_number, default=0)
    taking.add_argument("--most", type=a_number, default=10**6, metavar="LUTS")
    taking.add_argument("--jobs", type=a_number, default=os.cpu_count())
    taking.add_argument("--sources", action="append", default=[], metavar="FOLDER")
    comparing = kinds.add_parser("compare")
    comparing.add_argument("before", type=a_file, metavar="BEFORE")
    comparing.add_argument("after", type=a_file, metavar="AFTER")
    kinds.add_parser("page").add_argument("--check", action="store_true")
    given = reader.parse_args()
    if given.kind == "take":
        take(given)
    elif given.kind == "compare":
        print("\n".join(told(*(json.loads(read(path)) for path in (given.before, given.after)))))
    else:
        page(given.check)


if __name__ == "__main__":
    main()
