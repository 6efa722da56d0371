#!/usr/bin/env python3
"""Prints what circuits cost as a table.

The circuits are those of the named sources, or those of the examples and of units with 4, 16, 64 and 256 call sites. A row has the
call sites, the signals, the longest path of cells in the file as it is written, and, if Yosys is there, the flip-flops, the ANDs of
two inputs (with inverters for nothing) and the longest path of these that it makes of the file. The path of cells counts each cell
once, however wide; copies, constants, slices and joined words not at all. The program is crates/safl/out/safl, or SAFL names it.
"""
import os
import re
import tempfile

import yosys
from files import read
from given import a_file, parser
from measure import depth_of, signals_of, table
from program import PROGRAM, ended, lacks
from speed_sources import with_units


def sites_of(path):
    """How many call sites the circuit of a built file has."""
    return len(re.findall(r"^  wire \[0:0\] want\$", read(path), re.M))


def row_of(built, name, source):
    ended([PROGRAM, "build", source, built], (0,))
    made = None if yosys.lacks("yosys") else yosys.synthesised(built)
    numbers = (made.flops, made.ands, made.and_path) if made else ("-", "-", "-")
    return name, sites_of(built), signals_of(built), depth_of(built), *numbers


def main():
    reader = parser(__doc__)
    reader.add_argument("sources", nargs="*", type=a_file, metavar="FILE.safl")
    given = reader.parse_args()
    if lacks(PROGRAM):
        return
    with tempfile.TemporaryDirectory() as folder:
        named = [(os.path.basename(path), path) for path in given.sources]
        rows = [row_of(os.path.join(folder, "built.v"), *each) for each in named or with_units(folder)]
    head = ("circuit", "sites", "signals", "longest path, in cells", "flip-flops", "ANDs", "path in ANDs")
    table("Paths", head, rows)


if __name__ == "__main__":
    main()
