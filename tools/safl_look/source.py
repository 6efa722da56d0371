"""What is known of a program before it runs: its functions, units and call sites, from its text and from `safl report`."""
import re
from dataclasses import dataclass

from safl_look.expressions import Reader, Tree, number_sites, sites_in
from safl_tools.ending import TOOL_FAILED, Refusal

FUNCTION = re.compile(r"function (\w+) sites \d+ arbiter (yes|no)")
SITE = re.compile(r"site (\d+) (\w+) in (\w+) kept (yes|no)")
REGISTERS = re.compile(r"registers (\d+) bits (\d+)")


@dataclass
class Site:
    """A call site: the call, the numbers of the sites in its arguments, and whether its value is kept."""

    number: int
    callee: str
    caller: str
    call: Tree
    inside: list
    kept: bool = False


class Program:
    """The functions by name, the sites (site k is sites[k - 1]), the units with an arbiter, and the size of the registers."""

    def __init__(self, text, report):
        self.text = text
        self.functions = Reader(text).functions()
        numbered = number_sites(self.functions)
        self.sites = [Site(call.site, call.word, caller, call, sites_in(call.parts)) for call, caller in numbered]
        self.units = list(dict.fromkeys(function.unit for function in self.functions.values()))
        self.by_unit, self.into, self.out_of = ({unit: [] for unit in self.units} for _ in range(3))
        self.add_names()
        self.loops = {function.unit for function in self.functions.values() if self.has_tail_call(function.body, function.unit)}
        self.arbiters = {self.functions[name].unit for name, answer in FUNCTION.findall(report) if answer == "yes"}
        self.registers, self.bits = (int(word) for word in REGISTERS.search(report).groups())
        self.add_plan(SITE.findall(report))

    def add_names(self):
        """For each unit its functions, the sites that call it, and the sites in its bodies."""
        for function in self.functions.values():
            self.by_unit[function.unit].append(function.name)
        for site in self.sites:
            self.into[self.unit_of(site.number)].append(site.number)
            self.out_of[self.caller_of(site.number)].append(site.number)

    def add_plan(self, lines):
        """Takes over which sites are kept. The sites of the report are those of the text."""
        told = [(int(number), callee, caller) for number, callee, caller, _ in lines]
        if told != [(site.number, site.callee, site.caller) for site in self.sites]:
            raise Refusal(TOOL_FAILED, "the sites that safl reports are not those of the source")
        for site, (*_, kept) in zip(self.sites, lines):
            site.kept = kept == "yes"

    def has_tail_call(self, tree, unit):
        """Whether an expression calls a function of this unit, its own."""
        is_own = tree.kind == "call" and self.functions[tree.word].unit == unit
        return is_own or any(self.has_tail_call(part, unit) for part in tree.parts)

    def members(self, unit):
        return self.by_unit[unit]

    def unit_of(self, number):
        """The unit that a site calls; site 0 is the call of main from outside."""
        return self.functions[self.sites[number - 1].callee if number else "main"].unit

    def caller_of(self, number):
        """The unit that makes the call of a site."""
        return self.functions[self.sites[number - 1].caller].unit

    def sites_called_by(self, unit):
        return self.out_of[unit]

    def sites_of(self, unit):
        """The sites that call a unit."""
        return self.into[unit]
