#!/usr/bin/env python3
"""Checks that the documents have the numbers that the repository has, and no other ones: a row of docs/CRATES.md for each crate; the
cases by file, in docs/CASES.md, and of all, there and in README.md; the definitions that the contract of
`run` reaches, in docs/TRUSTED.md, as scripts/trusted.py prints them, and their number in README.md; how much the clauses reach that are a
sentence for one command each, in docs/THEOREMS.md and README.md; and README.md's figures of size and speed, which have to be those of the
tables of docs/SPEED.md and of examples/by_hand/figures.json. Also checks that no link leads nowhere (scripts/links.py). --write
puts the numbers into the documents; what is then still missing is printed."""
import json
import re
import sys

import links
import trusted
from files import TOP, text, write
from given import parser

# the figures of README.md: what they are, how they are written, and for each number the column and the row of docs/SPEED.md
FIGURES = [
    ("`build` of 900 functions with calls", "{} for {} signals", [("`build`", ["900 functions with calls"]), ("signals", ["900 functions with calls"])]),
    ("a cycle of `sim`, one multiplication without an end", "{} ns", [("`sim`, ns a cycle", ["one multiplication without an end"])]),
    ("a cycle of `sim`, 900 functions with calls", "{} ns", [("`sim`, ns a cycle", ["900 functions with calls"])]),
]
BY_HAND = (("circuits against Verilog by hand, tuned", "tuned"), ("the same circuits, as written first", "as written"))


def crates():
    return re.findall(r"^(safl\w*):", text("crates.txt"), re.M)


def cases():
    """The number of cases of each file, and of all."""
    found = text("crates/safl_cases/stdout")
    return [(name, f"{int(n):,}") for name, n in re.findall(r"^(\w+\.case): (\d+) cases", found, re.M)], int(re.search(r"^all: (\d+) cases", found, re.M)[1])


def cells_of(line):
    return [cell.strip() for cell in re.split(r"(?<!\\)\|", line.strip().strip("|"))]


def in_table(page, name, number):
    """Whether a row of the page has the name and, in its next cell, the number at the same place in the list."""
    for row in page.splitlines():
        cells = [cell.split(", ") for cell in cells_of(row)]
        if len(cells) >= 2 and name in cells[0]:
            return cells[1][cells[0].index(name)] == number
    return False


def with_cases(page):
    """The rows of a table of case files, with the numbers of their cases."""
    numbers = dict(cases()[0])
    for row in page.splitlines():
        names = cells_of(row)[0].split(", ")
        if row.startswith("| ") and set(names) <= numbers.keys():
            cells = row.split(" | ")
            row = " | ".join([cells[0], ", ".join(numbers[name] for name in names), *cells[2:]])
        yield row


def measured(page, column, row):
    """The cell in this column and in the row that begins with these cells, in the first table that has both."""
    for table in re.findall(r"(?:^\|.*\n)+", page, re.M):
        head, *rows = [cells_of(line) for line in table.splitlines()]
        for cells in rows:
            if column in head and cells[:len(row)] == row:
                return cells[head.index(column)]
    return None


def figures(page):
    """What each of README.md's figures is, and its line by docs/SPEED.md."""
    for what, form, found in FIGURES:
        yield what, f"| {what} | {form.format(*(measured(page, *place) for place in found))} |"
    for what, version in BY_HAND:
        yield what, f"| {what} | {against_hand(version)} |"


def against_hand(version):
    """What a version of the circuits of examples/by_hand costs against the files by hand, from the least to the most."""
    kept = json.loads(text("examples/by_hand/figures.json"))["circuits"].values()
    circuits = [each for each in kept if {"as written", "tuned", "by hand"} <= each.keys()]
    more = [each[version]["cycle"] - each["by hand"]["cycle"] for each in circuits]
    luts, flops = ([each[version][what] / each["by hand"][what] for each in circuits] for what in ("luts", "flip-flops"))
    return (f"{min(more)} to {max(more)} cycles more, {min(luts):.2f} to {max(luts):.2f} times the LUTs,"
            f" {min(flops):.1f} to {max(flops):.1f} times the flip-flops")


def definitions(readme, page):
    for table in trusted.tables():
        if table not in page:
            yield "docs/TRUSTED.md does not have the tables of scripts/trusted.py (scripts/trusted.py --write mends it)"
            break
    if trusted.in_words() not in readme:
        yield f"README.md does not say '{trusted.in_words()}'"


def said_of_clauses():
    """For README.md and docs/THEOREMS.md the pattern and the text of each number of lines that a clause of `run` reaches."""
    rows = re.findall(r"^\| `(\w+)` \| \S+ \| (\S+) \| (\S+) \|$", trusted.tables()[1], re.M)
    reached = {name: (lines, files) for name, lines, files in rows}
    lines, files = reached["headline"]
    yield "README.md", r"[\d,]+( lines for the promise on `build`)", rf"{lines}\1"
    yield "docs/THEOREMS.md", r"in [\d,]+ lines of \d+ files( \(`scripts/trusted.py --of headline`)", rf"in {lines} lines of {files} files\1"
    for name in ("check", "sim", "session", "aig"):
        yield "docs/THEOREMS.md", rf"^(\| `{name}` \|.*\|) [\d,]+ \|$", rf"\1 {reached[name][0]} |"


def lines_by_subject(page):
    """The sum of the lines that the table of the headline has for each subject."""
    table = re.search(r"^\| what \| definitions \| what they say \| lines \|\n\|.*\n((?:\|.*\n)+)", page, re.M)[1]
    return sum(int(cells_of(row)[-1]) for row in table.splitlines())


def of_clauses():
    for name, pattern, wanted in said_of_clauses():
        said = re.search(pattern, text(name), re.M)
        if not said or said.expand(wanted) != said[0]:
            yield f"{name} has another number of lines than a clause reaches: '{said[0] if said else pattern}' (--write mends it)"
    total = f"{lines_by_subject(text('docs/THEOREMS.md')):,}"
    if f"in {total} lines of" not in text("docs/THEOREMS.md"):
        yield f"docs/THEOREMS.md: the lines of the headline by subject are {total} in all"


def missing():
    readme, rows, page = text("README.md"), text("docs/CRATES.md"), text("docs/CASES.md")
    by_file, total = cases()
    for crate in crates():
        if f"\n| {crate} |" not in rows:
            yield f"docs/CRATES.md has no row for {crate}"
    for name, where in (("README.md", readme), ("docs/CASES.md", page)):
        if f"{total:,} cases" not in where:
            yield f"{name} does not say '{total:,} cases'"
    for name, number in by_file:
        if not in_table(page, name, number):
            yield f"docs/CASES.md does not say that {name} has {number} cases"
    yield from definitions(readme, text("docs/TRUSTED.md"))
    yield from of_clauses()
    for _, line in figures(text("docs/SPEED.md")):
        if line not in readme:
            yield f"README.md does not say '{line}', as the figures are"
    yield from links.broken()


def put():
    """Puts the numbers into the documents."""
    trusted.put()
    for name, pattern, wanted in said_of_clauses():
        write(f"{TOP}/{name}", re.sub(pattern, wanted, text(name), flags=re.M))
    readme, total = text("README.md"), f"{cases()[1]:,} cases"
    for what, line in figures(text("docs/SPEED.md")):
        readme = re.sub(rf"^\| {re.escape(what)} \|.*$", lambda _, line=line: line, readme, flags=re.M)
    write(f"{TOP}/README.md", re.sub(r"[\d,]+ cases\b", total, readme))
    page = re.sub(r"There are \d+ files with [\d,]+ cases", f"There are {len(cases()[0])} files with {total}", text("docs/CASES.md"))
    write(f"{TOP}/docs/CASES.md", "\n".join(with_cases(page)) + "\n")


def main():
    reader = parser(__doc__)
    reader.add_argument("--write", action="store_true", help="put the numbers into the documents")
    if reader.parse_args().write:
        put()
    found = list(missing())
    for line in found:
        print(f"numbers: {line}")
    if not found:
        print(f"numbers: the documents have {len(crates())} crates, {cases()[1]:,} cases, {trusted.in_words()} and {len(FIGURES) + len(BY_HAND)} figures")
    sys.exit(1 if found else 0)


if __name__ == "__main__":
    main()
