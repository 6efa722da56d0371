"""An example of the gallery: its source, its circuit by scripts/oracle, and what the runs of its page give."""
import os
import re
import sys
from dataclasses import dataclass
from functools import cached_property

from files import TOP, read

sys.path.insert(0, f"{TOP}/scripts/oracle")
import aiger  # noqa: E402
import language  # noqa: E402
from circuit import Circuit, meaning  # noqa: E402
from gallery import PAGES, SHOWN  # noqa: E402

CALLS_MAX = 1_000_000
CASE_ROWS, CASE_CYCLES = 3, 400  # the runs that are cases of safl_cases: so many of each page, with so many cycles at most


@dataclass(frozen=True)
class Row:
    """A run: its title, main's arguments, the result, the numbers of calls and of tail calls, the span, and the cycle of done."""

    title: str
    args: list
    result: int
    calls: int
    tails: int
    span: int
    cycle: int

    @property
    def bound(self):
        return 2 * self.calls - self.tails


@dataclass(frozen=True)
class Variant:
    """Another way to build an example: its source, and its circuit."""

    name: str
    source: str
    circuit: Circuit

    @property
    def bits(self):
        return sum(width for _, width in self.circuit.registers())


def variant(name, source):
    return Variant(name, source, Circuit(language.accept(source.encode())))


def result_of(circuit, args, cycles):
    """The result and the cycle of done, which has to come before so many cycles."""
    found = circuit.run(args, cycles)
    if found is None:
        raise ValueError(f"not done in {cycles} cycles")
    return found


class Example:
    """A source, its circuit, and the runs of its page."""

    def __init__(self, name):
        self.name = name
        self.folder = f"{TOP}/examples/{name}"
        self.source_name = f"examples/{name}/{name}.safl"
        self.path, self.page = f"{TOP}/{self.source_name}", f"{self.folder}/README.md"
        self.faster_path = f"{TOP}/examples/faster/{name}_faster.safl"
        self.source = read(self.path)
        try:
            self.program = language.accept(self.source.encode())
        except language.Fault as fault:
            sys.exit(language.fault_line(self.path, self.source.encode(), fault))
        self.circuit = Circuit(self.program)
        answer, values = PAGES[name]
        self.rows = [self.row(*answer(*each)) for each in values]
        self.limit = 100
        while self.limit <= self.longest.cycle:
            self.limit *= 10

    def row(self, title, args, result):
        meant = meaning(self.program, args, CALLS_MAX)
        found, cycle = result_of(self.circuit, args, meant.latest + 1)
        row = Row(title, args, result, meant.calls, meant.tails, meant.span, cycle)
        if (meant.value, found) != (result, result) or not row.span <= cycle <= row.bound:
            given = f"the library gives {result:#x}, the meaning {meant.value:#x}, the circuit {found:#x} in cycle {cycle}"
            sys.exit(f"{self.name}, {title}: {given}")
        return row

    @property
    def longest(self):
        return max(self.rows, key=lambda row: row.cycle)

    @property
    def shown(self):
        """The run whose command and pictures stand on the page."""
        return self.rows[SHOWN.get(self.name, 1)]

    @property
    def title(self):
        return read(self.page).splitlines()[0].removeprefix("# ")

    @property
    def bits(self):
        return sum(width for _, width in self.circuit.registers())

    def report(self):
        program, plan = self.program, self.circuit.plan
        sites = program.sites[1:]
        lines = []
        for f in program.functions:
            count = sum(site.callee is f for site in sites)
            lines.append(f"function {f.name} sites {count} arbiter {'yes' if f.group in plan.arbiters else 'no'}")
        for k, site in enumerate(sites, 1):
            lines.append(f"site {k} {site.callee.name} in {site.caller.name} kept {'yes' if k in plan.kept else 'no'}")
        return lines + [f"registers {len(self.circuit.registers())} bits {self.bits}"]

    def tails(self):
        """Which member of a group calls which one in tail position."""
        found = []
        for f in self.program.functions:
            for e in language.all_parts(f.body):
                if e.kind == "call" and not e.site and (f.name, e.callee.name) not in found:
                    found.append((f.name, e.callee.name))
        return found

    @cached_property
    def apart(self):
        """The source with a copy of its own for each site that conflicts with another one, what was copied, and the cycles of done."""
        program, plan = self.program, self.circuit.plan
        clashing = {k for pair in plan.conflicts for k in pair}
        edits, copies, named = [], {}, []
        for f in program.functions:
            sites = [k for k in range(1, len(program.sites)) if k in clashing and program.sites[k].callee is f]
            for i, k in enumerate(sites[1:], 2):
                edits.append((program.sites[k].text_place, f"{f.name}_{i}"))
                copies.setdefault(f.name, []).append(f"{f.name}_{i}")
            if sites:
                named.append(f"`{f.name}` for each of its {len(sites)} sites that may be called at once")
        text = self.source
        for place, name in sorted(edits, reverse=True):
            text = text[:place] + name + text[place + name.rindex("_"):]
        for name, others in copies.items():
            definition = re.search(rf"^fun {name}\(.*?(?=^(?:fun|//))", self.source, re.M | re.S)[0]
            added = "".join(re.sub(rf"\b{name}\(", f"{other}(", definition) for other in others)
            text = text.replace(definition, definition + added)
        found = variant("with copies", text)
        if found.circuit.plan.arbiters:
            sys.exit(f"{self.name}: an arbiter is left in\n{text}")
        return found, " and of ".join(named), self.cycles_of(found)

    @cached_property
    def faster(self):
        """The faster source, if there is one (scripts/faster.py), and the cycle of done of each run."""
        if not os.path.exists(self.faster_path):
            return None
        found = variant("faster", read(self.faster_path))
        return found, self.cycles_of(found)

    def cycles_of(self, other):
        """The cycle of done of each run in the circuit of another source, which has to give the same results."""
        cycles = []
        for row in self.rows:
            result, cycle = result_of(other.circuit, row.args, 2 * row.calls + 1)
            if result != row.result:
                sys.exit(f"{self.name}, {row.title}: {other.name} gives {result:#x}")
            cycles.append(cycle)
        return cycles

    def case_rows(self):
        return [row for row in self.rows if row.cycle <= CASE_CYCLES][:CASE_ROWS]

    def case_lines(self):
        rows = [f"    {' '.join(str(a) for a in row.args)} -> 0 result {row.result}, cycle {row.cycle}" for row in self.case_rows()]
        counts = f"functions {len(self.program.functions)}, sites {len(self.program.sites) - 1}"
        lines = [f"# {self.name}", "file p"] + [f"    {line}" for line in self.source.splitlines()]
        lines += ["words:", f"    check p -> 0 {counts}", f"words: sim p --cycles {self.limit}"] + rows
        lines += ["safl build p o --opt -> 0", f"words: run o --cycles {self.limit}"] + rows
        lines += ["safl build p v -> 0", f"words: run v --cycles {self.limit}"] + rows
        places = ", ".join(aiger.Blasted.of_circuit(self.circuit).counts())
        return lines + ["safl aig v a -> 0", "words:", f"    aigstat a -> 0 {places}, ands .."]

    def case_count(self):
        return 5 + 3 * len(self.case_rows())

    def by_hand(self):
        """The same by hand, if it is there."""
        path = f"{TOP}/examples/by_hand/{self.name}.v"
        return path if os.path.exists(path) else None
