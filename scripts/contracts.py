#!/usr/bin/env python3
"""Prints how long contracts and proofs are: clauses above 160 characters, functions with more than nine clauses, lines of proofs
above 200 characters; then clauses above 120 characters and functions with seven parameters, which are wanted to be few; and the
lines of src, specs and proofs, and how many of the proofs' lines are imports.

A clause is a `requires` or an `ensures` with all its lines, without the spaces before each."""
import collections
import glob
import re

import files
from given import parser

CLAUSE_MAX, CLAUSES_MAX, LINE_MAX = 160, 9, 200
CLAUSE_LONG, PARAMETERS_MANY = 120, 7
FUNCTION = re.compile(r"^\s*(?:pub )?(?:const )?fn (\w+)")
HEAD = re.compile(r"\bfn (\w+)(?:<[^(]*>)?\(")
IMPORT = re.compile(r"^(?:pub )?use ", re.M)
BEGINS = re.compile(r"^\s*(requires|ensures)\b")


def clauses_of(lines):
    """For each function with clauses its name, its line, and its clauses."""
    name, number, clauses = None, 0, []
    for place, line in enumerate(lines, 1):
        stripped = line.strip()
        if found := FUNCTION.match(line):
            if clauses:
                yield name, number, clauses
            name, number, clauses = found[1], place, []
        elif BEGINS.match(line):
            clauses.append(stripped)
        elif clauses and stripped == "{" or stripped.startswith(("}", "ghost ")):
            yield name, number, clauses
            clauses = []
        elif clauses and not stripped.startswith("//"):
            clauses[-1] += " " + stripped
    if clauses:
        yield name, number, clauses


def parameters_of(text):
    """For each function its name and the number of its parameters."""
    for found in HEAD.finditer(text):
        depth, end = 1, found.end()
        commas = 0
        while depth and end < len(text):
            depth += {"(": 1, "[": 1, "<": 1, ")": -1, "]": -1}.get(text[end], 0) - (text[end] == ">" and text[end - 1] != "-")
            commas += text[end] == "," and depth == 1
            end += 1
        inside = text[found.end():end - 1].strip()
        yield found[1], commas + (inside != "" and not inside.endswith(","))


def files_by_kind():
    """The files of src, specs and proofs: kind, path, text."""
    for path in sorted(glob.glob("crates/*/*/**", root_dir=files.TOP, recursive=True)):
        kind = path.split("/")[2] if path.count("/") > 2 else ""
        if kind in ("src", "specs", "proofs") and path.endswith((".rt", ".antt")):
            yield kind, path, files.text(path)


def main():
    reader = parser(__doc__)
    reader.add_argument("--list", action="store_true", help="also name each such clause and function")
    listing = reader.parse_args().list
    long, many, wide, lines, imports, crowded = [], [], 0, collections.Counter(), 0, []
    for kind, path, text in files_by_kind():
        lines[kind] += text.count("\n")
        if kind == "proofs":
            wide += sum(len(line) > LINE_MAX for line in text.splitlines())
            imports += len(IMPORT.findall(text))
        if path.endswith(".rt"):
            crowded += [(count, f"{path} {name}") for name, count in parameters_of(text) if count >= PARAMETERS_MANY]
            for name, number, clauses in clauses_of(text.splitlines()):
                long += [(len(clause), f"{path}:{number} {name}") for clause in clauses if len(clause) > CLAUSE_LONG]
                if len(clauses) > CLAUSES_MAX:
                    many.append((len(clauses), f"{path}:{number} {name}"))
    if listing:
        for size, place in sorted(long, reverse=True):
            print(f"{size:5} {place}")
        for size, place in sorted(many, reverse=True):
            print(f"{size:5} clauses {place}")
        for size, place in sorted(crowded, reverse=True):
            print(f"{size:5} parameters {place}")
    too_long = sum(size > CLAUSE_MAX for size, _ in long)
    print(f"clauses above {CLAUSE_MAX}: {too_long}; functions with more than {CLAUSES_MAX} clauses: {len(many)}; lines of proofs above {LINE_MAX}: {wide}")
    print(f"clauses above {CLAUSE_LONG}: {len(long)}; functions with {PARAMETERS_MANY} parameters: {len(crowded)}")
    print("lines: " + ", ".join(f"{kind} {lines[kind]:,}" for kind in ("src", "specs", "proofs"))
          + f"; imports {imports:,}, {100 * imports / lines['proofs']:.1f} % of the proofs")


main()
