#!/usr/bin/env python3
"""How much of a circuit's count of LUTs is chance: the same circuit by two programs, with its assignments in random orders.

    orders.py take BEFORE AFTER [--orders N] [--sources FOLDER].. [--jobs J] NAME:FAMILY..
                        builds each source with --opt by both programs, puts the assignments of each file into N orders (5 if it is left
                        out; drawn by the seeds 1 to N), has Yosys count the LUTs for the family, and puts the counts into
                        docs/guide/areas_orders.json. A family is ice40, ecp5 or xilinx
    orders.py page [--check]
                        writes the table of these counts into docs/AREAS.md, or says whether the page has another one

The order of assignments says nothing about a circuit, but what Yosys finds in it depends on it.
"""
import argparse
import concurrent.futures
import json
import os
import random
import statistics
import sys
import tempfile

from areas import FAMILIES, NAMES, counted, percent, sources
from files import TOP, read, text, write
from given import a_number, a_program, parser
from program import ended

DATA = f"{TOP}/docs/guide/areas_orders.json"
BEGIN, END = "<!-- orders -->\n", "<!-- end of orders -->\n"


def a_choice(word):
    """The name of a source and a family."""
    name, _, family = word.partition(":")
    if not name or family not in FAMILIES:
        raise argparse.ArgumentTypeError(f"{word} is no name with a family, as in stack:ecp5")
    return name, family


def shuffled(verilog, seed):
    """The text with its assignments in another order."""
    lines = verilog.splitlines(keepends=True)
    places = [at for at, line in enumerate(lines) if line.lstrip().startswith("assign ")]
    order = random.Random(seed).sample(places, len(places))
    moved = dict(zip(places, order))
    return "".join(lines[moved.get(at, at)] for at in range(len(lines)))


def luts(verilog, seed, family):
    """The LUTs of a text in the order of a seed."""
    with tempfile.TemporaryDirectory() as folder:
        write(f"{folder}/shuffled.v", shuffled(verilog, seed))
        found = counted(f"{folder}/shuffled.v", family)
    if found is None:
        sys.exit("orders: Yosys refuses a file")
    return found["luts"]


def built(program, path):
    with tempfile.TemporaryDirectory() as folder:
        ended([program, "build", path, f"{folder}/built.v", "--opt"], (0,))
        return read(f"{folder}/built.v")


def take(given):
    """Takes the counts of each source and family: those of both programs, order by order."""
    paths = sources(given.sources, [name for name, _ in given.choices])
    rows = [row for row in (json.loads(read(DATA)) if os.path.exists(DATA) else []) if (row["circuit"], row["family"]) not in given.choices]
    with concurrent.futures.ThreadPoolExecutor(given.jobs) as pool:
        for name, family in given.choices:
            texts = {"before": built(given.before, paths[name]), "after": built(given.after, paths[name])}
            running = {which: [pool.submit(luts, verilog, seed, family) for seed in range(1, given.orders + 1)] for which, verilog in texts.items()}
            rows.append({"circuit": name, "family": family, **{which: sorted(each.result() for each in runs) for which, runs in running.items()}})
            write(DATA, json.dumps(sorted(rows, key=lambda row: (row["circuit"], row["family"])), indent=1) + "\n")
            print(f"orders: {name}, {family}", flush=True)


def row_of(row):
    medians = [statistics.median(row[which]) for which in ("before", "after")]
    spans = [f"{row[which][0]:,} to {row[which][-1]:,}" for which in ("before", "after")]
    return [row["circuit"], NAMES[row["family"]], f"{medians[0]:,.0f}", f"{medians[1]:,.0f}", percent(*medians), *spans]


def told(rows):
    head = ["circuit", "family", "LUTs", "after", "change", "least and most", "after"]
    yield from (f"| {' | '.join(row)} |" for row in [head, ["---"] * len(head), *map(row_of, rows)])


def page(is_check):
    """Writes the table of the page, or says whether it has another one."""
    there, rows = text("docs/AREAS.md"), json.loads(read(DATA))
    head, rest = there.split(BEGIN)
    wanted = head + BEGIN + "\n".join(told(rows)) + "\n" + END + rest.split(END)[1]
    if not is_check:
        write(f"{TOP}/docs/AREAS.md", wanted)
    elif wanted != there:
        sys.exit("orders: docs/AREAS.md has another table")


def main():
    reader = parser(__doc__)
    kinds = reader.add_subparsers(dest="kind", required=True)
    taking = kinds.add_parser("take")
    taking.add_argument("before", type=a_program, metavar="BEFORE")
    taking.add_argument("after", type=a_program, metavar="AFTER")
    taking.add_argument("choices", nargs="+", type=a_choice, metavar="NAME:FAMILY")
    taking.add_argument("--orders", type=a_number, default=5, metavar="N")
    taking.add_argument("--sources", action="append", default=[], metavar="FOLDER")
    taking.add_argument("--jobs", type=a_number, default=os.cpu_count())
    kinds.add_parser("page").add_argument("--check", action="store_true")
    given = reader.parse_args()
    if given.kind == "take":
        take(given)
    else:
        page(given.check)


if __name__ == "__main__":
    main()
