#!/usr/bin/env python3
"""Prints for each ASCII AIGER file its name and the number of ANDs on its longest path to a latch or an output."""
import sys

from files import read
from given import a_file, parser


def longest(text):
    lines = [[int(word) for word in line.split() if word.isdigit()] for line in text.split("\n")]
    inputs, latches, outputs, ands = lines[0][1:5]
    latch, output = 1 + inputs, 1 + inputs + latches
    first = output + outputs
    above = {}
    for own, left, right in lines[first:first + ands]:
        above[own // 2] = 1 + max(above.get(left // 2, 0), above.get(right // 2, 0))
    ends = [line[1] for line in lines[latch:output]] + [line[0] for line in lines[output:first]]
    return max((above.get(end // 2, 0) for end in ends), default=0)


def main():
    reader = parser(__doc__)
    reader.add_argument("files", nargs="+", type=a_file, metavar="FILE.aag", help="what `safl aig` wrote")
    for path in reader.parse_args().files:
        text = read(path)
        if not text.startswith("aag "):
            sys.exit(f"and_paths: {path} is no ASCII AIGER file")
        print(path, longest(text))


if __name__ == "__main__":
    main()
