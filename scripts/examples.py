#!/usr/bin/env python3
"""The gallery in examples/: works out every number that its pages and its cases hold, and writes them there.

    examples.py                     writes crates/safl_cases/data/examples.case and what stands between the marker lines of the pages
    examples.py --check             writes nothing, says what differs, and ends with 1 where something does
    examples.py --rows              prints a line for each example and arguments: name, limit of cycles, arguments
    examples.py --report X          prints the report of an example: its functions, sites and registers
    examples.py --random P [COUNT [SEED]]  compares the program P with the libraries on drawn arguments, and with the bound 2n - l
    examples.py --units             draws the units of each example with Graphviz, to units.svg in its folder
    examples.py --waves P [--check] draws the run of each page from what the program P writes: the chart run.svg (tools/safl-look)
                                    and the waveforms waves.svg, and those of shared.safl; with --check it says which differ
    examples.py --measure P [X..]   has Yosys and nextpnr place the examples that have no figures of what the program P builds, or those
                                    that are named (tools/safl-place), and writes examples/measured.json

Results come from scripts/references/, that is from Python's own libraries, from published vectors, or from the same said in another
way; cycles, numbers of calls, arbiters, kept sites and registers from scripts/oracle, which works by docs/ alone. A result of the
oracle that isn't the library's is an error. Figures that other tools make are read from examples/measured.json.
"""
import argparse
import difflib
import os
import random
import re
import subprocess
import sys
import tempfile
import threading

import measured
import pages
import units
from example import CALLS_MAX, Example, meaning
from files import TOP, read, write, written
from gallery import DRAWS, PAGES, SUBJECTS, WAVES
from program import ended, told
from safl_waves import Trace, drawing

CASES = f"{TOP}/crates/safl_cases/data/examples.case"
INDEX = f"{TOP}/examples/README.md"
PASSES = [(version, has_clock) for has_clock in (False, True) for version in ("as written", "by hand", "faster", "copies")]
OTHER_FOLDERS = {"by_hand", "faster", "board", "cipher_stream", "coprocessor"}  # those that are no examples of their own
LOOK = os.environ.get("SAFL_LOOK", f"{TOP}/tools/safl-look")
SHARED = "start in$a go$1 go$2 run$f arg$f$x res$f ret$1 ret$2 keep$1 run$main done result".split()  # the signals of shared.svg


def with_blocks(text, blocks, path):
    """The page with these blocks between its marker lines."""
    for name, lines in blocks.items():
        begin, end = f"<!-- {name} -->\n", f"<!-- end of {name} -->\n"
        if text.count(begin) != 1 or text.count(end) != 1:
            sys.exit(f"{path}: no marker lines of {name}")
        head, rest = text.split(begin)
        text = head + begin + "\n".join(lines) + "\n" + end + rest.split(end)[1]
    return text


class Target:
    """A file that is written, or only compared."""

    def __init__(self, is_check):
        self.is_check, self.differing = is_check, 0

    def put(self, path, text):
        there = read(path) if os.path.exists(path) else ""
        if there == text:
            return
        self.differing += 1
        if self.is_check:
            name = os.path.relpath(path, TOP)
            print("\n".join(difflib.unified_diff(there.splitlines(), text.splitlines(), name, "worked out", lineterm="", n=0)))
        else:
            write(path, text)

    @property
    def status(self):
        return 1 if self.is_check and self.differing else 0

    @property
    def done(self):
        return "differ" if self.is_check else "written"


def page_text(path):
    if not os.path.exists(path):
        sys.exit(f"{path} is missing")
    return read(path)


def cases_text(examples):
    lines = ["// The examples of the gallery, as they stand in examples/. scripts/examples.py writes this file."]
    for example in examples:
        lines += [""] + example.case_lines()
    return "\n".join(lines) + "\n"


def write_pages(examples, target):
    store = measured.Store()
    for example in examples:
        target.put(example.page, with_blocks(page_text(example.page), pages.blocks(example, store), example.page))
    blocks = {"index": pages.index_block(examples, store), "explored": pages.explored_block()}
    target.put(INDEX, with_blocks(page_text(INDEX), blocks, INDEX))
    target.put(CASES, cases_text(examples))
    cases = sum(example.case_count() for example in examples)
    print(f"examples: {len(examples)} sources, {cases} cases, {target.differing} files {target.done}")


def missing_folders():
    """What folders, names and figures there are in one place only."""
    folders = {name for name in os.listdir(f"{TOP}/examples") if os.path.isdir(f"{TOP}/examples/{name}")} - OTHER_FOLDERS
    listed = [name for names in SUBJECTS.values() for name in names]
    for name in sorted(folders ^ set(PAGES)):
        yield f"{name} is {'in scripts/gallery.py' if name in PAGES else 'a folder'} only"
    for name in sorted(set(listed) ^ set(PAGES)):
        yield f"{name} is {'in PAGES' if name in PAGES else 'in SUBJECTS'} only"


def figures_wanted(examples):
    """Each version of each example that the pages have figures of."""
    for example in examples:
        for version, text, _ in pages.versions_of(example):
            yield example, version, text
        if example.by_hand():
            yield example, measured.BY_HAND, read(example.by_hand())


def stale_pictures(examples):
    """The pictures that are missing, and those of units that show other units."""
    for example in examples:
        for name in ["units.svg", "run.svg"] + ["waves.svg"] * (example.name in WAVES):
            if not os.path.exists(f"{example.folder}/{name}"):
                yield f"{pages.picture_of(example, name)} is missing"
        picture = f"{example.folder}/units.svg"
        if os.path.exists(picture) and sorted(re.findall(r"<text[^>]*>([^<]*)</text>", read(picture))) != labels(example):
            yield f"{pages.picture_of(example, 'units.svg')} shows other units"


def labels(example):
    """The texts of the picture of an example's units."""
    graph = units.graph(units_text(example).splitlines())
    found = [part for text in re.findall(r'\blabel="([^"]*)"', graph) for part in text.split("\\n")]
    return sorted(found)


def slower(examples, store):
    """The faster sources that make fewer calls a second for their LUTs."""
    for example in examples:
        if example.faster:
            before, after = (pages.calls_for_area(example, store, version) for version in ("as written", "faster"))
            if before and after and before >= after:
                yield f"{example.name}: the faster source makes no more calls a second for each LUT"


def check(examples):
    """Whether everything that needs no tool is as it should be. Figures that are still to be made are empty cells, and no fault."""
    target, store = Target(True), measured.Store()
    write_pages(examples, target)
    faults = list(stale_pictures(examples)) + list(slower(examples, store))
    for fault in faults:
        print(f"examples: {fault}")
    missing = [f"{each.name} {version}" for each, version, text in figures_wanted(examples) if not store.figures(each.name, version, text)]
    if missing:
        print(f"examples: SKIPPED figures that --measure still has to make: {', '.join(missing)}")
    return 1 if target.status or faults else 0


def measure_one(program, example, version, text, has_clock):
    print(f"examples: {'places' if has_clock else 'synthesises'} {example.name}, {version}", flush=True)
    if version == measured.BY_HAND:
        return measured.placed_by_hand(example.by_hand(), example.longest.args, example.limit, has_clock)
    return measured.placed_source(program, text, has_clock)


def is_known(store, program, example, version, text, has_clock):
    """Whether there are figures of what the program builds now, with a clock if it is wanted."""
    there = store.figures(example.name, version, text)
    if not there or has_clock and there.fits is None:
        return False
    return version == measured.BY_HAND or measured.is_built_so(there, program, text)


def measure(examples, program, names):
    """Places or synthesises what has no figures yet, or all versions of the examples that are named, in the order of PASSES."""
    store, wanted = measured.Store(), list(figures_wanted(examples))
    for chosen, has_clock in PASSES:
        for example, version, text in wanted:
            asked = example.name in names if names else version == chosen and not is_known(store, program, example, version, text, has_clock)
            if version == chosen and asked:
                store.put(example.name, version, measure_one(program, example, version, text, has_clock))
    store.keep({(example.name, version) for example, version, _ in wanted})
    return 0


def units_text(example):
    """The report with the tail calls, for scripts/units.py."""
    return "\n".join(example.report() + [f"tail {callee} in {caller}" for caller, callee in example.tails()]) + "\n"


def draw_units(examples):
    for example in examples:
        with tempfile.TemporaryDirectory() as room:
            words = [f"{TOP}/scripts/units.py", written(room, "report", units_text(example)), f"{example.folder}/units.svg"]
            subprocess.run(words, check=True, stdout=subprocess.DEVNULL)
    print(f"examples: {len(examples)} pictures of units")
    return 0


def drawn(program, source, limit, args, names, first=0, last=None):
    """The picture of the trace that the program writes of a run: these signals, in all cycles or in some of them."""
    with tempfile.TemporaryDirectory() as room:
        words = [program, "sim", source, "--cycles", str(limit), "--vcd", f"{room}/trace.vcd"] + [str(a) for a in args]
        ended(words, (0,))
        trace = Trace(read(f"{room}/trace.vcd"))
    numbers = range(first, trace.end if last is None else last + 1)
    return drawing(trace, names, numbers, list(numbers))


def chart(example, program):
    """The chart of the run of the page."""
    with tempfile.TemporaryDirectory() as room:
        args = [str(a) for a in example.shown.args]
        found = told([sys.executable, LOOK, "--safl", program, "--chart", f"{room}/run.svg", example.path, *args])
        if found.returncode:
            sys.exit(f"examples: {found.stderr.strip()}")
        return read(f"{room}/run.svg")


def draw_runs(examples, program, target):
    """The charts and the waveforms; without safl-look only the waveforms."""
    has_look = os.path.exists(LOOK)
    for example in examples:
        if has_look:
            target.put(f"{example.folder}/run.svg", chart(example, program))
        if example.name in WAVES:
            names, first, last = WAVES[example.name][0], *pages.waves_range(example)
            picture = drawn(program, example.path, example.limit, example.shown.args, names, first, last)
            target.put(f"{example.folder}/waves.svg", picture)
    target.put(f"{TOP}/examples/shared.svg", drawn(program, f"{TOP}/examples/shared.safl", 100, [5], SHARED))
    count = len(WAVES) + 1 + len(examples) * has_look
    without = "" if has_look else ", the charts SKIPPED: there is no tools/safl-look"
    print(f"examples: {count} pictures of runs, {target.differing} {target.done}{without}")
    return target.status


def compare_drawn(examples, program, count, seed):
    """Whether the program's results are the libraries' for so many drawn arguments of each example, by cycle 2n - l."""
    drawing_from, tried, wrong = random.Random(seed), 0, 0
    for example in examples:
        for _ in range(count if example.name in DRAWS else 0):
            answer, _ = PAGES[example.name]
            title, args, result = answer(*DRAWS[example.name](drawing_from))
            latest = meaning(example.program, args, CALLS_MAX).latest
            words = [program, "sim", example.path, "--cycles", str(latest + 1)] + [str(a) for a in args]
            printed = told(words).stdout.splitlines()
            tried += 1
            if printed[:1] != [f"result {result}"]:
                wrong += 1
                print(f"examples: {example.name}, {title}: the library gives {result:#x}, the program {printed}")
    print(f"examples: {tried} drawn arguments compared, {wrong} differ")
    return 1 if wrong else 0


def print_rows(examples):
    for example in examples:
        for row in example.rows:
            print(example.name, example.limit, *row.args)
    return 0


class Words(argparse.ArgumentParser):
    """The words of the command line; a wrong one is told in one line."""

    def error(self, message):
        sys.exit(f"examples: {message}")


def given(words):
    parser = Words(description="Works out the numbers of the gallery.", allow_abbrev=False)
    what = parser.add_mutually_exclusive_group()
    what.add_argument("--rows", action="store_true", help="print the arguments of all examples")
    what.add_argument("--report", metavar="EXAMPLE", choices=PAGES, help="print the report of an example")
    what.add_argument("--random", nargs="+", metavar="WORD", help="PROGRAM [COUNT [SEED]]: compare on drawn arguments")
    what.add_argument("--units", action="store_true", help="draw the units")
    what.add_argument("--waves", metavar="PROGRAM", help="draw the runs")
    what.add_argument("--measure", nargs="+", metavar="WORD", help="PROGRAM [EXAMPLE..]: place the examples")
    parser.add_argument("--check", action="store_true", help="write nothing, and say what differs")
    chosen = parser.parse_args(words)
    if chosen.check and (chosen.rows or chosen.report or chosen.random or chosen.units or chosen.measure):
        parser.error("--check goes alone or with --waves")
    if chosen.random and (len(chosen.random) > 3 or not all(word.isdecimal() for word in chosen.random[1:])):
        parser.error("--random takes PROGRAM [COUNT [SEED]]")
    for name in chosen.measure[1:] if chosen.measure else ():
        if name not in PAGES:
            parser.error(f"there is no example {name}")
    return chosen


def run(chosen):
    for fault in missing_folders():
        sys.exit(f"examples: {fault}")
    examples = [Example(name) for name in PAGES]
    if chosen.rows:
        return print_rows(examples)
    if chosen.report:
        print("\n".join(next(e for e in examples if e.name == chosen.report).report()))
        return 0
    if chosen.random:
        count, seed = [int(word) for word in chosen.random[1:]] + [20, 1][len(chosen.random) - 1:]
        return compare_drawn(examples, os.path.abspath(chosen.random[0]), count, seed)
    if chosen.units:
        return draw_units(examples)
    if chosen.waves:
        return draw_runs(examples, os.path.abspath(chosen.waves), Target(chosen.check))
    if chosen.measure:
        return measure(examples, os.path.abspath(chosen.measure[0]), chosen.measure[1:])
    if chosen.check:
        return check(examples)
    write_pages(examples, Target(False))
    return 0


def main():
    """Runs on a thread with a large stack, since expressions may be nested deeply; a fault ends with its line and status 1."""
    status = []

    def work():
        try:
            status.append(run(chosen))
        except SystemExit as end:
            status.append(end.code)

    chosen = given(sys.argv[1:])
    sys.setrecursionlimit(1_000_000)
    threading.stack_size(512 * 1024 * 1024)
    thread = threading.Thread(target=work)
    thread.start()
    thread.join()
    sys.exit(status[0] if status else 2)


if __name__ == "__main__":
    main()
