#!/usr/bin/env python3
"""Compares a trace of the program with one that Icarus Verilog wrote in the bench of tools/safl-bench.

Every signal of the first has to have the same value in the second one in every cycle, and the second may have no other signals.
The status is 1 if one differs, and the first difference is printed.
"""
import sys

from files import read
from given import a_file, parser
from safl_waves import Trace

PERIOD, FIRST = 2, 2  # the values of cycle c stand at time PERIOD * c + FIRST in the bench


def difference(own, other):
    """The first difference between the program's trace and the other one."""
    if set(own.widths) != set(other.widths):
        return f"signals differ: {' '.join(sorted(set(own.widths) ^ set(other.widths)))}"
    for cycle in range(own.end):
        for name in own.widths:
            values = own.value(name, cycle), other.value(name, PERIOD * cycle + FIRST)
            if values[0] != values[1] or values[0] is None:
                return f"{name} in cycle {cycle}: {values[0]} and {values[1]}"
    return None


def main():
    reader = parser(__doc__)
    reader.add_argument("trace", type=a_file, metavar="TRACE.vcd")
    reader.add_argument("icarus", type=a_file, metavar="ICARUS.vcd")
    given = reader.parse_args()
    found = difference(*(Trace(read(path)) for path in (given.trace, given.icarus)))
    if found:
        print(f"same_traces: {found}")
    return 1 if found else 0


if __name__ == "__main__":
    sys.exit(main())
