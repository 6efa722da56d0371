#!/usr/bin/env python3
"""Has Yosys count the cells of circuits, and prints them as a table.

The circuits are the examples, those of examples/by_hand, and units with 4, 16, 64 and 256 call sites, or those that are named; as
`build` writes them, with --opt if the program knows it, and by hand. What is counted is said in scripts/yosys.py. The program is
crates/safl/out/safl, or SAFL names it. The status is 1 if Yosys refuses a file.
"""
import concurrent.futures
import os
import sys
import tempfile

import yosys
from files import TOP
from given import a_program, parser
from measure import table
from program import PROGRAM, ended, knows, lacks
from speed_sources import with_units


def row_of(file):
    """The numbers of a circuit's row, or nothing if Yosys refuses the file."""
    made = yosys.synthesised(file)
    if not made:
        return None
    numbers = (made.flops, made.gates, made.choices, made.xors, made.ands, made.and_path, made.path)
    ends = f"`{made.ends[0]}` to `{made.ends[-1]}`" if made.ends else ""
    return *(f"{number:,}" for number in numbers), ends


def circuits(folder, program, chosen):
    """The names of circuits, how they are made, and their files."""
    for number, (name, path) in enumerate(with_units(folder)):
        if chosen and name not in chosen:
            continue
        plain, optimised = (os.path.join(folder, f"{number}{kind}.v") for kind in ("", "_opt"))
        ended([program, "build", path, plain], (0,))
        yield name, "`build`", plain
        if knows(["build", path, optimised, "--opt"], program):
            yield name, "`build --opt`", optimised
        if os.path.exists(f"{TOP}/examples/by_hand/{name}.v"):
            yield name, "by hand", f"{TOP}/examples/by_hand/{name}.v"


def main():
    reader = parser(__doc__)
    reader.add_argument("program", nargs="?", type=a_program, metavar="PROGRAM")
    reader.add_argument("names", nargs="*", metavar="NAME")
    given = reader.parse_args()
    program = given.program or PROGRAM
    if lacks(program):
        return 0
    with tempfile.TemporaryDirectory() as folder:
        made = list(circuits(folder, program, given.names))
        with concurrent.futures.ThreadPoolExecutor(os.cpu_count()) as pool:
            rows = list(pool.map(row_of, [file for *_, file in made]))
    refused = [f"{name}, {how}" for (name, how, _), row in zip(made, rows) if not row]
    head = ("circuit", "made by", "flip-flops", "gates", "multiplexers", "XORs", "ANDs", "path in ANDs", "longest path", "from .. to")
    table("Cells", head, [(name, how, *row) for (name, how, _), row in zip(made, rows) if row])
    for what in refused:
        print(f"cells: Yosys refuses {what}")
    return 1 if refused else 0


if __name__ == "__main__":
    sys.exit(main())
