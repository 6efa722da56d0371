"""Files that `safl build` wrote: the name of the module, main's parameters and the width of its result.

A file may have been written with --opt, and its module may have another name. Every other change is refused.
"""
import os
import re
from dataclasses import dataclass

from safl_tools import files
from safl_tools.ending import Refusal

NO_MODULE = 7  # the status of `safl` for a file that is none of its own

NAME = r"[A-Za-z_][A-Za-z0-9_$]*"
HEADER = re.compile(rf"module ({NAME}) \(clk, rst, start((?:, in\$\w+)*), done, result\);")
PORT = re.compile(rf"  (input|output) \[(\d+):0\] ({NAME});")
LINE = re.compile(
    rf"  (?:(?:reg|wire) \[\d+:0\] {NAME};|assign {NAME} = [^;]+;"
    rf"|always @\(posedge clk\) if \(rst\) {NAME} <= \d+'d0; else {NAME} <= {NAME};)"
)


@dataclass(frozen=True)
class Port:
    name: str
    width: int


@dataclass(frozen=True)
class Module:
    """A module that was built: its file's name, its own name, the ports of main's parameters, and the width of the result."""

    file: str
    name: str
    inputs: tuple
    result: int


def shown(path):
    """A file's name without its folder, as it can stand in a comment."""
    return "".join(c if c.isprintable() else "?" for c in os.path.basename(path))


def refuse(path, number):
    raise Refusal(NO_MODULE, f"{path}:{number}: this is no file that safl build wrote")


def port(path, number, line, kind, name):
    """The port that this line declares, which has to be of this kind and name."""
    found = PORT.fullmatch(line)
    if not found or (found[1], found[3]) != (kind, name) or int(found[2]) > 127:
        refuse(path, number)
    return Port(name, int(found[2]) + 1)


def module(path):
    """The module in a file. Its ports are read, and each other line has to be of a form that `safl build` writes."""
    lines = files.read(path).split("\n")
    header = HEADER.fullmatch(lines[0])
    if not header:
        refuse(path, 1)
    names = [("input", name) for name in ["start", *header[2].split(", ")[1:]]] + [("output", "done"), ("output", "result")]
    for number, line in ((2, "  input clk;"), (3, "  input rst;")):
        if lines[number - 1:number] != [line]:
            refuse(path, number)
    ports = [port(path, number, "".join(lines[number - 1:number]), *each) for number, each in enumerate(names, 4)]
    for number, line in enumerate(lines[3 + len(names):-2], 4 + len(names)):
        if not LINE.fullmatch(line):
            refuse(path, number)
    if lines[-2:] != ["endmodule", ""]:
        refuse(path, len(lines))
    return Module(shown(str(path)), header[1], tuple(ports[1:-2]), ports[-1].width)


def renamed(text, name):
    """The text of a built file, with this name for its module."""
    first, _, rest = text.partition("\n")
    return f"module {name} ({first.partition(' (')[2]}\n{rest}"
