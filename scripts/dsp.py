#!/usr/bin/env python3
"""The table of docs/GUIDE.md on multipliers and DSP blocks: a shared multiplier against one for each call, with DSP blocks and without.

    dsp.py                       writes the table from the figures that are kept in docs/guide/dsp.json
    dsp.py --check               says whether the page has another table (status 1), and which figures are still to be taken
    dsp.py --measure P [NAME..]  takes the figures that are missing or of another file, of all circuits or of those that are named, with the
                                 program P; each is kept at once, so this may be interrupted

A circuit is measured as it is written, with one multiplier, and after `safl reshape --copy` until no unit has an arbiter. Cycles are
those of the longest run of its page. LUTs, DSP blocks and the clock on the iCE40 UP5K, the median of three placements, are those of
tools/safl-place, with `--dsp` and without; a circuit that does not fit has no clock. For the ECP5 Yosys counts alone, with `synth_ecp5`
and `synth_ecp5 -nodsp`.
"""
import hashlib
import json
import os
import re
import sys
import tempfile

import yosys
from files import TOP, read, text, write
from gallery import PAGES
from given import a_program, parser
from program import told

sys.path.insert(0, f"{TOP}/tools")
import safl_place  # noqa: E402
from safl_tools.ending import Refusal  # noqa: E402

PAGE, STORE = f"{TOP}/docs/GUIDE.md", f"{TOP}/docs/guide/dsp.json"
CIRCUITS = ("fir", "biquad", "butterfly", "complex", "pid", "mandelbrot")
COMPLEX = (str((3 << 16) + 4), str((5 << 16) + 65534))  # 3 + 4i and 5 - 2i
SHARED, COPIED = "shared", "copied"
DEVICE, SEEDS, LIMIT, STEPS = safl_place.DEVICES["up5k"], 3, "100000", 64
LUTS = 5280  # so many has the device
REFUSED = "refused"  # what Yosys says where it gives no counts
ECP5 = {"without": "synth_ecp5 -nodsp", "with": "synth_ecp5"}


def fail(line):
    sys.exit(f"dsp: {line}")


def printed(*words):
    ran = told(list(words))
    if ran.returncode:
        fail(f"{' '.join(words[:3])}: {ran.stderr.strip()}")
    return ran.stdout


def path_of(name):
    return f"{TOP}/docs/guide/{name}.safl" if name == "complex" else f"{TOP}/examples/{name}/{name}.safl"


def runs_of(name):
    """The arguments of the circuit's runs."""
    if name == "complex":
        return [COMPLEX]
    answer, values = PAGES[name]
    return [tuple(map(str, answer(*each)[1])) for each in values]


def with_copies(program, path, folder):
    """The source with copies of its functions until no unit has an arbiter."""
    text = read(path)
    for _ in range(STEPS):
        write(f"{folder}/copied.safl", text)
        report = printed(program, "report", f"{folder}/copied.safl")
        shared = re.findall(r"^function (\w+) sites \d+ arbiter yes$", report, re.M)
        if not shared:
            return f"{folder}/copied.safl"
        site = re.search(rf"^site (\d+) {shared[0]} in", report, re.M)[1]
        printed(program, "reshape", f"{folder}/copied.safl", f"{folder}/next.safl", "--copy", site)
        text = read(f"{folder}/next.safl")
    return fail(f"{path}: an arbiter is left")


def synthesised(script, folder):
    """The netlist of the folder's file built.v."""
    safl_place.yosys(f"read_verilog built.v; {script} -top safl -json module.json", folder)
    return json.loads(read(f"{folder}/module.json"))["modules"]["safl"]


def counted(file, way, folder):
    """LUTs and DSP blocks on the UP5K, or how Yosys ends without them."""
    try:
        counts = safl_place.measured([file], DEVICE, options=safl_place.Options(dsp=way == "with"), clock=False)[0]
    except Refusal as refusal:
        print(f"dsp: no counts: {refusal.line}", flush=True)
        return {REFUSED: refusal.line.removeprefix("yosys: ")}
    return {"luts": counts.luts, "dsps": counts.dsps}


def counted_for_ecp5(file, way, folder):
    counts = safl_place.counts_of(synthesised(ECP5[way], folder))
    return {"ecp5": counts.luts, "ecp5 dsps": counts.dsps}


def placed(file, way, folder):
    """The median clock of placements on the UP5K; 0 if the circuit does not fit."""
    try:
        return {"mhz": safl_place.measured([file], DEVICE, options=safl_place.Options(seeds=SEEDS, dsp=way == "with"))[1]}
    except Refusal as refusal:
        print(f"dsp: no clock: {refusal.line}", flush=True)
        return {"mhz": 0}


# what is measured, in this order: the figure, and how; each for both ways
PASSES = (("luts", counted), ("mhz", placed), ("ecp5", counted_for_ecp5))


def built(program, name, version, folder):
    """The file of a version of a circuit, its digest, and the cycle of its longest run."""
    path = path_of(name) if version == SHARED else with_copies(program, path_of(name), folder)
    cycles = [int(re.search(r"^cycle (\d+)$", printed(program, "sim", path, "--cycles", LIMIT, *run), re.M)[1]) for run in runs_of(name)]
    printed(program, "build", path, f"{folder}/built.v", "--opt")
    return f"{folder}/built.v", digest_of(read(f"{folder}/built.v")), max(cycles)


def digest_of(text):
    return hashlib.sha256(text.encode()).hexdigest()[:16]


def store():
    return json.loads(read(STORE)) if os.path.exists(STORE) else {"tools": {}, "circuits": {}}


def tools():
    nextpnr = told(["nextpnr-ice40", "--version"])
    return {"Yosys": yosys.version(), "nextpnr-ice40": re.search(r"Version ([^)\s]+)", nextpnr.stdout + nextpnr.stderr)[1]}


def measure(program, names):
    """Takes what is missing, and keeps each figure at once."""
    lacking = yosys.lacks("yosys", "nextpnr-ice40")
    if lacking:
        fail(f"{lacking} is missing")
    for wanted, taken in PASSES:
        for name in names or CIRCUITS:
            for version in (SHARED, COPIED):
                with tempfile.TemporaryDirectory() as folder:
                    measure_one(built(program, name, version, folder), (name, version), wanted, taken, folder)


def measure_one(made, place, wanted, taken, folder):
    """Takes a figure of a version of a circuit, with DSP blocks and without, where it is missing or of another file."""
    file, digest, cycle = made
    name, version = place
    for way in ECP5:
        figures = store()["circuits"].get(name, {}).get(version, {})
        if figures.get("digest") == digest and (wanted in figures[way] or REFUSED in figures[way] and taken is not counted_for_ecp5):
            continue
        print(f"dsp: measures {name}, {version}, {way} DSP blocks: {wanted}", flush=True)
        fits = wanted != "mhz" or figures[way]["luts"] <= LUTS and figures[way]["dsps"] <= DEVICE.dsps
        found, kept = taken(file, way, folder) if fits else {"mhz": 0}, store()
        versions = kept["circuits"].setdefault(name, {})
        if versions.get(version, {}).get("digest") != digest:
            versions[version] = {"digest": digest, "cycle": cycle, "with": {}, "without": {}}
        versions[version][way].update(found)
        kept["tools"] = tools()
        write(STORE, json.dumps(kept, indent=1, sort_keys=True) + "\n")


def why_no_clock(each):
    """Why a version has no clock on the UP5K."""
    if REFUSED in each:
        return f"none: {yosys.reason(each[REFUSED])}"
    if each["dsps"] > DEVICE.dsps:
        return f"none: {each['dsps']} blocks of {DEVICE.dsps}"
    return f"none: {each['luts']:,} LUTs of {LUTS:,}" if each["luts"] > LUTS else "none: nextpnr finds no place"


def cells(each):
    """LUTs, DSP blocks and MHz on the UP5K, and LUTs and DSP blocks of the ECP5. What has not been measured is empty."""
    found = ["" if key not in each else f"{each[key]:,.0f}" for key in ("luts", "dsps", "mhz", "ecp5", "ecp5 dsps")]
    luts, dsps, megahertz = ["none", "none", "0"] if REFUSED in each else found[:3]
    return [luts, dsps, why_no_clock(each) if megahertz == "0" else megahertz, *found[3:]]


def lines(kept):
    """The table."""
    found = ["| circuit | multipliers | cycle | DSP blocks | UP5K: LUTs | blocks | MHz | ECP5: LUTs | blocks |", "|---|---|---|---|---|---|---|---|---|"]
    for name in CIRCUITS:
        for version in (SHARED, COPIED):
            figures = kept["circuits"].get(name, {}).get(version)
            if not figures:
                print(f"dsp: SKIPPED {name}, {version}: --measure still has to take it")
                continue
            what = "one, shared" if version == SHARED else "one for each call"
            for way in ECP5:
                first = [name if version == SHARED else "", what, f"{figures['cycle']:,}"] if way == "without" else ["", "", ""]
                found.append(f"| {' | '.join([*first, way, *cells(figures[way])])} |")
    return found


def with_table(page, table):
    begin, end = "<!-- dsp -->\n", "<!-- end of dsp -->\n"
    head, rest = page.split(begin)
    return head + begin + "\n".join(table) + "\n" + end + rest.split(end)[1]


def stale(program, kept):
    """The circuits that are built otherwise by this program than when they were measured."""
    for name in CIRCUITS:
        figures = kept["circuits"].get(name, {}).get(SHARED)
        with tempfile.TemporaryDirectory() as folder:
            printed(program, "build", path_of(name), f"{folder}/built.v", "--opt")
            if figures and figures["digest"] != digest_of(read(f"{folder}/built.v")):
                yield name


def main():
    reader = parser(__doc__)
    reader.add_argument("--check", action="store_true", help="write nothing, say what differs")
    reader.add_argument("--measure", metavar="P", type=a_program, help="take the figures with this program")
    reader.add_argument("--built-by", metavar="P", type=a_program, help="with --check: say which circuits this program builds otherwise")
    reader.add_argument("names", metavar="NAME", nargs="*", help="the circuits to measure: " + ", ".join(CIRCUITS))
    given = reader.parse_args()
    if set(given.names) - set(CIRCUITS):
        reader.error("there is no such circuit")
    try:
        if given.measure:
            measure(given.measure, given.names)
    except Refusal as refusal:
        fail(refusal.line)
    kept, page = store(), text("docs/GUIDE.md")
    for name in stale(given.built_by, kept) if given.built_by else ():
        print(f"dsp: {name} is built otherwise now: its figures are old")
    wanted = with_table(page, lines(kept))
    if not given.check:
        write(PAGE, wanted)
    elif page != wanted:
        print("dsp: docs/GUIDE.md has another table")
    sys.exit(1 if given.check and page != wanted else 0)


if __name__ == "__main__":
    main()
