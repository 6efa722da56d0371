#!/usr/bin/env python3
"""The figures in docs/GUIDE.md: what the sources cost that its tables name.

    guide.py P           writes them into the tables: cycles by `sim`, register bits by `report`, ANDs by `aigstat`, with the program P
    guide.py P --check   writes nothing, says what differs, and ends with 1 if something does; empty cells are no difference
    guide.py P --luts    counts LUTs too, by Yosys (tools/safl-place), where they are missing

A row names a source and arguments, those above 64 bits in hexadecimal: | title | [name](file) | arguments | cycle | register bits | ANDs | LUTs |
The table of registers, between its marker lines, is worked out by scripts/oracle.
"""
import argparse
import collections
import difflib
import os
import re
import sys
import tempfile

import yosys
from files import TOP, examples, read, write
from program import is_there, told

sys.path[:0] = [f"{TOP}/tools", f"{TOP}/scripts/oracle"]
import language  # noqa: E402
import safl_place  # noqa: E402
from safl_tools.numbers import decimal  # noqa: E402
from circuit import Circuit  # noqa: E402

PAGE = f"{TOP}/docs/GUIDE.md"
ROW = re.compile(r"^\| ([^|]*) \| (\[[^|]*\]\(([^|)]*\.safl)\)) \| ([\da-fx ]*) \|" + r" ([\d,]*) \|" * 4 + "$")
LIMIT, DEVICE = "100000", "hx8k"


def fail(line):
    sys.exit(f"guide: {line}")


def printed(*words):
    ran = told(list(words))
    if ran.returncode:
        fail(f"{' '.join(words[:3])}: {ran.stderr.strip()}")
    return ran.stdout


def figures(program, path, arguments):
    """Cycle, bits of registers, and ANDs of the circuit that `build --opt` writes."""
    with tempfile.TemporaryDirectory() as folder:
        ran = printed(program, "sim", path, "--cycles", LIMIT, *map(decimal, arguments))
        report = printed(program, "report", path)
        printed(program, "build", path, f"{folder}/built.v", "--opt")
        printed(program, "aig", f"{folder}/built.v", f"{folder}/built.aag")
        counts = printed(program, "aigstat", f"{folder}/built.aag")
    found = re.search(r"^cycle (\d+)$", ran, re.M), re.search(r" bits (\d+)$", report, re.M), re.search(r"^ands (\d+)$", counts, re.M)
    return [f"{int(each[1]):,}" for each in found]


def luts(program, path):
    with tempfile.TemporaryDirectory() as folder:
        printed(program, "build", path, f"{folder}/built.v", "--opt")
        counts, _ = safl_place.measured([f"{folder}/built.v"], safl_place.DEVICES[DEVICE], clock=False)
    return f"{counts.luts:,}"


def kind_of(register):
    """What a register holds, by its name."""
    if register.startswith("arg$"):
        return "arguments of main" if register.startswith("arg$main$") else "arguments of other functions"
    return {"res": "results", "keep": "kept values"}.get(register.split("$")[0], "control")


def registers_lines():
    """The table of the registers of all sources of the gallery, by what they hold."""
    bits, sources = collections.Counter(), [path for _, path in examples() if os.path.dirname(path) != f"{TOP}/examples"]
    for path in sources:
        for name, width in Circuit(language.accept(read(path).encode())).registers():
            bits[kind_of(name)] += width
    total = sum(bits.values())
    lines = [f"The {len(sources)} circuits of the gallery have {total:,} bits of registers:", "", "| registers | bits | share |", "|---|---|---|"]
    return lines + [f"| {kind} | {count:,} | {100 * count / total:.0f} % |" for kind, count in bits.most_common()]


def with_registers(page):
    """The page with today's table of registers."""
    begin, end = "<!-- registers -->\n", "<!-- end of registers -->\n"
    head, rest = page.split(begin)
    return head + begin + "\n".join(registers_lines()) + "\n" + end + rest.split(end)[1]


def row(line, program, with_luts, is_check):
    """The line, with the figures of today if it is a row of a source. For a check empty cells stay empty."""
    found = ROW.match(line)
    if not found:
        return line
    title, link, file, arguments, *there, counted = found.groups()
    path = os.path.normpath(f"{TOP}/docs/{file}")
    if not os.path.exists(path):
        print(f"guide: SKIPPED {file}, which is missing")
        return line
    cells = figures(program, path, arguments.split())
    if is_check:
        cells = [there[i] and cell for i, cell in enumerate(cells)]
    counted = luts(program, path) if with_luts and not counted else counted or ""
    print(f"guide: {file}: {', '.join(cells)}", flush=True)
    return f"| {title} | {link} | {arguments} | {' | '.join(cells)} | {counted} |"


def main():
    parser = argparse.ArgumentParser(description="Works out the figures of docs/GUIDE.md.")
    parser.add_argument("program", metavar="PROGRAM", help="the program safl")
    parser.add_argument("--check", action="store_true", help="write nothing, say what differs")
    parser.add_argument("--luts", action="store_true", help="count missing LUTs with Yosys")
    chosen = parser.parse_args()
    program = os.path.abspath(chosen.program)
    if not is_there(program):
        fail(f"there is no program {program}")
    if chosen.luts and yosys.lacks("yosys"):
        fail("yosys is missing")
    page = read(PAGE)
    lines = with_registers(page).splitlines()
    today = [row(line, program, chosen.luts, chosen.check) for line in lines]
    differing = list(difflib.unified_diff(page.splitlines(), today, "docs/GUIDE.md", "worked out", lineterm="", n=0))
    if not chosen.check:
        write(PAGE, "\n".join(today) + "\n")
    for line in differing if chosen.check else []:
        print(line)
    print(f"guide: {sum(bool(ROW.match(line)) for line in today)} rows, the page {'is another one' if differing else 'is as worked out'}")
    return 1 if chosen.check and differing else 0


if __name__ == "__main__":
    sys.exit(main())
