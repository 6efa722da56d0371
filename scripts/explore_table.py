#!/usr/bin/env python3
"""Compares what safl-explore finds by itself with what a designer would try, and with what it found before:

    explore_table.py [--more FOLDER] [--jobs J] [NAME..]

For each circuit of examples/ (or those that are named), and for each NAME.safl of FOLDER that has its calls in NAME.calls, the
table has cycles and area (ANDs, and eight for each register bit; functions that main does not need are left out) of the source,
of the best of all sets of functions that are written out everywhere, each with and without `and main`, of the points that
safl-explore found when it took single steps only (explore_before.json has their steps; before.json those of FOLDER), and of the
points that it finds now. Where there are several points that no other one beats, the cell has the fastest and the smallest. A
circuit falls short if one of the others has fewer cycles or less area than all points of now that are as good in the other.
Then the status is 1.
"""
import argparse
import glob
import itertools
import json
import os
import re
import sys
import tempfile
import time

from files import TOP, examples, read, written
from gallery import calls_of
from program import PROGRAM, lacks, told

sys.path.insert(0, f"{TOP}/tools")
from safl_explore import tree  # noqa: E402

CALLS = {"multiply": "5 3\n255 255\n", "shared": "5\n", "even_odd": "3\n10\n", "seven": "\n"}


def cases(more):
    """The name, the source, the calls and the steps of before of each circuit."""
    before = json.loads(read(f"{TOP}/scripts/explore_before.json"))
    tuned = [(os.path.basename(path).removesuffix(".safl"), path) for path in sorted(glob.glob(f"{TOP}/examples/by_hand/*.safl"))]
    for name, path in examples() + tuned:
        yield name, path, CALLS.get(name.removesuffix("_tuned")) or calls_of(name.removesuffix("_tuned")), before.get(name, [])
    if more:
        before = json.loads(read(f"{more}/before.json"))
        for path in sorted(glob.glob(f"{more}/*.safl")):
            name = os.path.basename(path).removesuffix(".safl")
            yield f"{name} (more)", path, read(f"{more}/{name}.calls"), before.get(name, [])


class Circuit:
    """A source whose relatives are measured in a folder."""

    def __init__(self, folder, path, calls):
        self.folder, self.path, self.calls = folder, path, written(folder, "calls", calls)

    def run(self, *words):
        ran = told([PROGRAM, *map(str, words)])
        if ran.returncode:
            sys.exit(f"explore_table: {self.path}: safl {words[0]}: {ran.stderr.strip()}")
        return ran.stdout

    def cost(self, text):
        """The cycles and the area of a source, and what it replies."""
        shorter = written(self.folder, "short.safl", tree.text_of(tree.read(text).without_unreached()))
        rows = [line.split() for line in self.run("session", shorter, self.calls, "--cycles", 1000000).splitlines()[:-1]]
        built, circuit = f"{self.folder}/short.v", f"{self.folder}/short.aag"
        self.run("build", shorter, built, "--opt")
        self.run("aig", built, circuit)
        _, _, _, latches, _, ands = read(circuit).split("\n")[0].split()
        return sum(int(cycle) for _, cycle in rows), int(ands) + 8 * int(latches)

    def reshaped(self, steps):
        """The source after steps, as "unfold 1 copy 2"."""
        path = written(self.folder, "steps.safl", read(self.path))
        words = steps.split()
        for kind, site in zip(words[::2], words[1::2]):
            self.run("reshape", path, path, f"--{kind}", site)
        return read(path)

    def written_out(self, names):
        """The source with all calls of these functions written out."""
        path = written(self.folder, "out.safl", read(self.path))
        while True:
            found = re.search(rf"^site (\d+) ({'|'.join(names) or '-'}) in", self.run("report", path), re.M)
            if not found:
                return read(path)
            self.run("reshape", path, path, "--unfold", found[1])

    def designs(self):
        """What a designer would try: sets of functions written out, with and without `and main`."""
        program = tree.read(read(self.path))
        names = [name for name in dict.fromkeys(callee for callee, _ in program.sites) if name not in program.loops]
        for number in range(len(names) + 1):
            for chosen in itertools.combinations(names, number):
                text = tree.text_of(tree.read(self.written_out(chosen)).without_unreached())
                yield text
                joined = text.replace("fun main (", "and main (")
                if joined != text and not told([PROGRAM, "check", written(self.folder, "joined.safl", joined)]).returncode:
                    yield joined

    def found(self, jobs):
        """The points that safl-explore finds, how many it built, and the seconds of processor time."""
        words = [f"{TOP}/tools/safl-explore", self.path, "--calls", self.calls, "--jobs", str(jobs), "--out", self.folder]
        begun = sum(os.times()[:4])
        ran = told([*words, "--safl", PROGRAM])
        if ran.returncode:
            sys.exit(f"explore_table: {self.path}: {ran.stderr.strip()}")
        points = json.loads(read(f"{self.folder}/points.json"))
        built = int(re.search(r"^(\d+) built", ran.stdout, re.M)[1])
        return points, built, sum(os.times()[:4]) - begun


def front(points):
    """The points that no other beats, the fastest first."""
    return [one for one in sorted(set(points)) if not any(other != one and other[0] <= one[0] and other[1] <= one[1] for other in points)]


def cell(points):
    best = front(points)
    return ", ".join(f"{cycles:,} / {area:,}" for cycles, area in dict.fromkeys([best[0], best[-1]])) if best else ""


def row(name, path, calls, before, jobs):
    """The cells of a circuit, and whether it falls short."""
    with tempfile.TemporaryDirectory() as folder:
        circuit = Circuit(folder, path, calls)
        source, begun = circuit.cost(read(path)), time.monotonic()
        points, built, seconds = circuit.found(jobs)
        took, now = time.monotonic() - begun, [(point["cycles"], point["area"]) for point in points if point["unbeaten"]]
        tried, earlier = [circuit.cost(text) for text in circuit.designs()], [circuit.cost(circuit.reshaped(steps)) for steps in before]
    short = [one for one in front(tried + earlier) if not any(other[0] <= one[0] and other[1] <= one[1] for other in now)]
    cells = [name, cell([source]), cell(tried), cell(earlier), cell(now), str(built), f"{seconds:.1f}", f"{took:.0f}", cell(short)]
    return cells, bool(short)


def main():
    words = argparse.ArgumentParser(description=__doc__.split("\n")[0])
    words.add_argument("--more", metavar="FOLDER")
    words.add_argument("--jobs", type=int, default=os.cpu_count())
    words.add_argument("names", metavar="NAME", nargs="*")
    chosen, fell = words.parse_args(), []
    if lacks(PROGRAM):
        return 0
    heads = ["circuit", "source", "sets of functions", "before", "now", "built", "processor s", "s", "falls short of"]
    print(f"| {' | '.join(heads)} |\n|{'---|' * len(heads)}")
    for name, *case in cases(chosen.more):
        if chosen.names and name not in chosen.names:
            continue
        cells, short = row(name, *case, chosen.jobs)
        print(f"| {' | '.join(cells)} |", flush=True)
        fell += [name] * short
    print(f"\n{len(fell)} fall short: {', '.join(fell)}" if fell else "\nnone falls short")
    return 1 if fell else 0


if __name__ == "__main__":
    sys.exit(main())
