#!/usr/bin/env python3
"""Makes a program of a Verilog file with Verilator, at its highest level of optimisation.

OUT CYCLES [ARG..] simulates the circuit as tools/safl-bench does, two evaluations a cycle, and prints the same lines.
"""
import os
import re
import shutil
import subprocess
import sys
import tempfile

from files import read, written
from given import a_file, parser

MAIN = """#include "Vsafl.h"
#include <cstddef>
#include <cstdio>
#include <cstdlib>

template <class T> void put(T& port, unsigned long long number) { port = number; }
template <std::size_t N> void put(VlWide<N>& port, unsigned long long number) {
    for (std::size_t i = 0; i < N; i++) port[i] = i < 2 ? number >> (32 * i) : 0;
}
template <class T> unsigned long long got(const T& port) { return port; }
template <std::size_t N> unsigned long long got(const VlWide<N>& port) { return port[0] | (unsigned long long)port[1] << 32; }

static void edge(Vsafl& circuit) {
    circuit.clk = 1;
    circuit.eval();
    circuit.clk = 0;
}

int main(int count, char** words) {
    Vsafl circuit;
    const long long limit = atoll(words[1]);
    circuit.clk = 0;
    circuit.rst = 1;
    circuit.eval();
    edge(circuit);
    circuit.rst = 0;
    circuit.start = 1;
GIVEN
    for (long long cycle = 0; cycle < limit; cycle++) {
        circuit.eval();
        if (circuit.done) {
            printf("result %llu\\ncycle %lld\\n", got(circuit.result), cycle);
            return 0;
        }
        edge(circuit);
        circuit.start = 0;
ZEROS
    }
    printf("no result in %lld cycles\\n", limit);
    return 6;
}
"""


def main_text(text):
    """The program around the circuit of a file, whose arguments have at most 64 bits."""
    names = [name for name in re.findall(r"^  input \[\d+:0\] (\S+);", text, re.M) if name != "start"]
    ports = [name.replace("$", "__024") for name in names]
    given = "".join(f"    put(circuit.{port}, strtoull(words[{i}], nullptr, 10));\n" for i, port in enumerate(ports, 2))
    zeros = "".join(f"        put(circuit.{port}, 0);\n" for port in ports)
    return MAIN.replace("GIVEN\n", given).replace("ZEROS\n", zeros)


def verilate(path, out, jobs=os.cpu_count()):
    """Whether Verilator and the C++ compiler make the program."""
    with tempfile.TemporaryDirectory() as room:
        main = written(room, "main.cpp", main_text(read(path)))
        words = ["verilator", "--cc", "--exe", "--build", "-O3", "--x-assign", "fast", "--x-initial", "fast", "--noassert"]
        words += ["-Wno-fatal", "-Wno-lint", "--top-module", "safl", "--prefix", "Vsafl", "--Mdir", f"{room}/made"]
        words += ["--output-split", "20000", "-j", str(jobs), "-MAKEFLAGS", "OPT_FAST=-O3 OPT_SLOW=-O1 OPT_GLOBAL=-O2"]
        ended = subprocess.run(words + ["-o", "made", os.path.abspath(path), main], capture_output=True, text=True, check=False)
        if ended.returncode != 0:
            print(ended.stderr[-2000:], file=sys.stderr)
            return False
        shutil.copy(f"{room}/made/made", out)
    return True


def main():
    reader = parser(__doc__)
    reader.add_argument("file", type=a_file, metavar="FILE")
    reader.add_argument("out", metavar="OUT")
    given = reader.parse_args()
    sys.exit(0 if verilate(given.file, given.out) else 1)


if __name__ == "__main__":
    main()
