#!/usr/bin/env python3
"""The table of examples/by_hand/README.md: what a circuit costs as written in SAFL, tuned in SAFL, and by hand in Verilog.

    by_hand.py                       writes the tables from the figures that are kept in examples/by_hand/figures.json
    by_hand.py --check               says whether the page has other tables (status 1), and which figures are still to be taken
    by_hand.py --measure P [NAME..]  takes the figures that are missing or of an older text, or all of the circuits that are named, with
                                     the program P. Cycles are those of `safl sim` and, by hand, of Icarus Verilog; LUTs and
                                     flip-flops are counted after Yosys, and the clock is that of a placement by nextpnr-ice40
                                     (tools/safl-place). With --counts there is no placement, and so no clock

A figure has the digest of the Verilog file that was measured, so a change of the source and one of the compiler are both seen. The
files are built by the program, crates/safl/out/safl or the one that SAFL names; without one the figures are taken as they are.
"""
import argparse
import functools
import hashlib
import json
import os
import re
import subprocess
import sys
import tempfile

import yosys
from files import TOP, read, text, write, written
from program import PROGRAM, is_there, told

sys.path.insert(0, f"{TOP}/tools")
import safl_place  # noqa: E402
from safl_bench import bench  # noqa: E402
from safl_tools.ending import Refusal  # noqa: E402

FOLDER = f"{TOP}/examples/by_hand"
PAGE, STORE = f"{FOLDER}/README.md", f"{FOLDER}/figures.json"
DEVICE, DEVICE_NAME, SEED = "hx8k", "iCE40 HX8K", 1
LIMIT = 1000  # cycles of a run
PLAIN, TUNED, HAND = "as written", "tuned", "by hand"
VERSIONS = (PLAIN, TUNED, HAND)
CYCLES_MORE, LUTS_TIMES, CLOCK_TIMES = 2, 1.3, 1.2  # what is wanted of the tuned source against the file by hand
ARGUMENTS = {
    "multiply": ("255", "255"),
    "gcd": ("1071", "462"),
    "isqrt": ("1000000000000000000",),
    "divide": ("18446744073709551615", "10"),
    "crc32": ("65392825175610104412735799271089255690",),
    "xtea": ("4702111234474983745", "5233100606242806050955395731361295"),
    "aes": ("5233100606242806050955395731361295", "88962710306127702866241727433142015"),
    "ghash": ("0", "4979866387932366862903413117310042744", "136792598789324718765670228683992083246"),
    "viterbi": ("5628060998392814238509416781057528230",),
    "float_div": ("1065353216", "1077936128"),
}


def path_of(name, version):
    """The file of a version of a circuit."""
    if version == PLAIN:
        alone = f"{TOP}/examples/{name}.safl"
        return alone if os.path.exists(alone) else f"{TOP}/examples/{name}/{name}.safl"
    return f"{FOLDER}/{name}{'_tuned.safl' if version == TUNED else '.v'}"


def versions_of(name):
    """The versions of a circuit: one that is written by the advice of docs/GUIDE.md from the beginning has no tuned source."""
    return [version for version in VERSIONS if os.path.exists(path_of(name, version))]


@functools.cache
def digest_of(name, version, program):
    """The digest of the Verilog file of a version: the one by hand, or the one that the program builds; nothing without a program."""
    path = path_of(name, version)
    if version == HAND:
        return hashlib.sha256(read(path).encode()).hexdigest()[:16]
    if not is_there(program):
        return None
    with tempfile.TemporaryDirectory() as folder:
        checked(told([program, "build", path, f"{folder}/built.v", "--opt"]), "build")
        return hashlib.sha256(read(f"{folder}/built.v").encode()).hexdigest()[:16]


def store():
    return json.loads(read(STORE)) if os.path.exists(STORE) else {"tools": {}, "circuits": {}}


def fail(line):
    sys.exit(f"by_hand: {line}")


def checked(ran, what):
    """What a command printed, if it succeeded."""
    if ran.returncode:
        fail(f"{what}: {(ran.stderr or ran.stdout).strip().splitlines()[0]}")
    return ran.stdout


def ended(printed, what):
    """Result and cycle in what a simulation printed."""
    found = re.fullmatch(r"result (\d+)\ncycle (\d+)\n", printed)
    if not found:
        fail(f"{what} prints {printed.strip()}")
    return found[1], int(found[2])


def run_by_hand(path, arguments, folder):
    test = written(folder, "bench.v", bench(read(path), LIMIT, arguments))
    checked(told(["iverilog", "-o", f"{folder}/simulated", test, path]), "iverilog")
    printed = checked(told(["vvp", "-n", f"{folder}/simulated"]), "vvp")
    return ended("\n".join(re.findall(r"^(?:result|cycle) \d+$", printed, re.M)) + "\n", path)


def measured(program, name, version, has_clock):
    """The figures of a version."""
    path, arguments = path_of(name, version), ARGUMENTS[name]
    with tempfile.TemporaryDirectory() as folder:
        if version == HAND:
            file, (result, cycle) = path, run_by_hand(path, arguments, folder)
        else:
            file = f"{folder}/built.v"
            checked(told([program, "build", path, file, "--opt"]), "build")
            ran = checked(told([program, "sim", path, "--cycles", str(LIMIT), *arguments]), "sim")
            result, cycle = ended(ran, path)
        counts, clock = safl_place.measured([file], safl_place.DEVICES[DEVICE], options=safl_place.Options(seed=SEED), clock=has_clock)
    figures = {"digest": digest_of(name, version, program), "result": result, "cycle": cycle, "luts": counts.luts, "flip-flops": counts.flops}
    return figures | ({"mhz": clock} if has_clock else {})


def tools():
    """The versions of the tools."""
    nextpnr = told(["nextpnr-ice40", "--version"])
    found = re.search(r"Version ([^)\s]+)", nextpnr.stdout + nextpnr.stderr)
    return {"Yosys": yosys.version(), "nextpnr-ice40": found[1], "device": DEVICE_NAME, "seed": SEED}


def figures_of(kept, name, version):
    """The figures of a version, or nothing if they are missing or were taken of another file."""
    there = kept["circuits"].get(name, {}).get(version)
    return there if there and digest_of(name, version, PROGRAM) in (None, there["digest"]) else {}


def to_take(kept, wanted="mhz"):
    """The versions that have no such figure."""
    return [(name, version) for name in ARGUMENTS for version in versions_of(name) if wanted not in figures_of(kept, name, version)]


def measure(program, names, has_clock):
    if not is_there(program):
        fail(f"there is no program {program}")
    lacking = yosys.lacks("yosys", "nextpnr-ice40", "iverilog")
    if lacking:
        fail(f"{lacking} is missing")
    chosen = [(name, version) for name in names for version in versions_of(name)] or to_take(store(), "mhz" if has_clock else "luts")
    for name, version in chosen:
        print(f"by_hand: measures {name}, {version}", flush=True)
        figures, kept = measured(program, name, version, has_clock), store()
        kept["tools"] = tools()
        versions = kept["circuits"].setdefault(name, {})
        versions[version] = figures
        write(STORE, json.dumps(kept, indent=1, sort_keys=True) + "\n")
        if len({each["result"] for each in versions.values()}) > 1:
            fail(f"the versions of {name} have different results")


def against(name, tuned, hand):
    """The row of a tuned source against the file by hand. What is not as wanted is bold."""
    cells = []
    for key, most in (("cycle", CYCLES_MORE), ("luts", LUTS_TIMES), ("mhz", CLOCK_TIMES), ("flip-flops", None)):
        if key not in tuned or key not in hand:
            cells.append("")
            continue
        value = {"cycle": tuned[key] - hand[key], "mhz": hand[key] / tuned[key]}.get(key, tuned[key] / hand[key])
        cell = f"{value:+d}" if key == "cycle" else f"{value:.2f}"
        cells.append(cell if most is None or value <= most else f"**{cell}**")
    return f"| {name} | {' | '.join(cells)} |"


def cell(figures, key):
    return "" if key not in figures else f"{figures[key]:,.0f}"


def tables(kept):
    """What stands between the marker lines."""
    used = kept["tools"]
    lines = ["| circuit | version | cycle | LUTs | flip-flops | MHz |", "|---|---|---|---|---|---|"]
    for name in ARGUMENTS:
        for version in versions_of(name):
            cells = [cell(figures_of(kept, name, version), key) for key in ("cycle", "luts", "flip-flops", "mhz")]
            lines.append(f"| {name if version == PLAIN else ''} | {version} | {' | '.join(cells)} |")
    lines += ["", "Tuned, or as written where there is no tuned source, against by hand:", ""]
    lines += ["| circuit | cycles more | LUTs, times | MHz by hand, times | flip-flops, times |", "|---|---|---|---|---|"]
    best = {name: TUNED if TUNED in versions_of(name) else PLAIN for name in ARGUMENTS}
    lines += [against(name, figures_of(kept, name, best[name]), figures_of(kept, name, HAND)) for name in ARGUMENTS]
    lines += ["", f"LUTs and flip-flops of the module alone, by Yosys {used['Yosys']} (`synth_ice40`); the clock is that of a placement"
              f" on an {used['device']} by nextpnr-ice40 {used['nextpnr-ice40']} with the seed {used['seed']} (`tools/safl-place`)."]
    return lines


def with_tables(page, lines):
    begin, end = "<!-- figures -->\n", "<!-- end of figures -->\n"
    if page.count(begin) != 1 or page.count(end) != 1:
        fail("the page has no marker lines of figures")
    head, rest = page.split(begin)
    return head + begin + "\n".join(lines) + "\n" + end + rest.split(end)[1]


def write_page(is_check):
    kept, page = store(), read(PAGE)
    missing, wanted = to_take(kept), with_tables(page, tables(kept))
    if missing:
        print(f"by_hand: SKIPPED figures that --measure still has to take: {'; '.join(', '.join(each) for each in missing)}")
    if not is_check:
        write(PAGE, wanted)
    elif page != wanted:
        print("by_hand: the page has other tables")
    count = sum(len(versions_of(name)) for name in ARGUMENTS)
    print(f"by_hand: {len(ARGUMENTS)} circuits, {count - len(missing)} versions with all figures")
    return 1 if is_check and page != wanted else 0


def main():
    parser = argparse.ArgumentParser(description="Circuits in SAFL, tuned, and by hand: the tables of examples/by_hand.")
    parser.add_argument("--check", action="store_true", help="write nothing, say what differs")
    parser.add_argument("--measure", metavar="PROGRAM", help="take the figures anew with this program")
    parser.add_argument("--counts", action="store_true", help="with --measure: no placement")
    parser.add_argument("names", metavar="NAME", nargs="*", help="the circuits to measure: " + ", ".join(ARGUMENTS))
    chosen = parser.parse_args()
    if not chosen.measure and (chosen.names or chosen.counts):
        parser.error("NAME and --counts go with --measure only")
    unknown = [name for name in chosen.names if name not in ARGUMENTS]
    if unknown:
        parser.error(f"{unknown[0]} is no circuit that was written by hand")
    if chosen.measure and chosen.check:
        parser.error("--check and --measure exclude each other")
    try:
        if chosen.measure:
            measure(os.path.abspath(chosen.measure), chosen.names, not chosen.counts)
    except Refusal as refusal:
        fail(str(refusal))
    return write_page(chosen.check)


if __name__ == "__main__":
    sys.exit(main())
