#!/usr/bin/env python3
"""Draws the functions of a program and their calls.

REPORT is a text of these lines; other lines are passed over:

    function NAME sites N arbiter yes|no
    site K CALLEE in CALLER kept yes|no
    tail CALLEE in CALLER
    registers R bits B

Each function is a box, with a double border if its unit has an arbiter. Each site is an arrow from its caller to its callee,
thick if its value is kept. Each tail call is a dashed arrow. Graphviz makes the picture; if it is missing, its text is written to OUT.dot instead.
"""
import re
import shutil
import subprocess

from files import read, write
from given import a_file, parser


def graph(report):
    """The picture as a text for Graphviz."""
    lines = [
        "digraph units {", '  rankdir=LR; fontname="monospace"; fontsize=11;',
        '  node [shape=box, fontname="monospace", fontsize=12]; edge [fontname="monospace", fontsize=10];',
    ]
    for text in report:
        function = re.fullmatch(r"function (\w+) sites (\d+) arbiter (yes|no)", text)
        site = re.fullmatch(r"site (\d+) (\w+) in (\w+) kept (yes|no)", text)
        tail = re.fullmatch(r"tail (\w+) in (\w+)", text)
        registers = re.fullmatch(r"registers (\d+) bits (\d+)", text)
        if function:
            name, _, arbiter = function.groups()
            label, borders = (f"{name}\\narbiter", 2) if arbiter == "yes" else (name, 1)
            lines.append(f'  "{name}" [label="{label}", peripheries={borders}];')
        elif site:
            number, callee, caller, kept = site.groups()
            look = f'label="{number} kept", penwidth=2.5' if kept == "yes" else f'label="{number}"'
            lines.append(f'  "{caller}" -> "{callee}" [{look}];')
        elif tail:
            lines.append(f'  "{tail[2]}" -> "{tail[1]}" [style=dashed];')
        elif registers:
            lines.append(f'  label="{registers[1]} registers, {registers[2]} bits"; labelloc=b;')
    return "\n".join(lines + ["}"]) + "\n"


def main():
    reader = parser(__doc__)
    reader.add_argument("report", type=a_file, metavar="REPORT")
    reader.add_argument("out", metavar="OUT.svg")
    given = reader.parse_args()
    text, out = graph(read(given.report).splitlines()), given.out
    if shutil.which("dot"):
        subprocess.run(["dot", "-Tsvg", "-o", out], input=text, text=True, check=True)
    else:
        out = out.removesuffix(".svg") + ".dot"
        write(out, text)
    print(f"units: {out} is written")


if __name__ == "__main__":
    main()
