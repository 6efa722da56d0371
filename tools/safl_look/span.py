"""The span of a run's evaluation: the cycle of its result if no call had to wait for a unit.

It is 2 and the longest chain of main's body. An operator takes as long as the longest of its operands, and so do the arguments of
a call and the bindings of a let; an if takes its condition and the branch that was taken; a call adds 2 and the body of its
function, and a tail call 1 and the next body. Which branches were taken is seen by the calls that were made.
"""
import heapq
from array import array

from safl_look.expressions import sites_in


def longest(parts):
    found = [part for part in parts if part]
    return (lambda calls: max(part(calls) for part in found)) if len(found) > 1 else found[0] if found else None


def in_turn(parts):
    found = [part for part in parts if part]
    return (lambda calls: sum(part(calls) for part in found)) if len(found) > 1 else found[0] if found else None


def chain(tree):
    """How the span of an expression follows from those of its calls, by site: a function, or nothing if there are no calls in it.
    A branch that was not taken has made none."""
    parts = [chain(part) for part in tree.parts]
    if tree.kind in ("if", "case"):
        return in_turn([parts[0], longest(parts[1:])])
    if tree.kind == "let":
        return in_turn([longest(parts[:-1]), parts[-1]])
    made = (lambda calls: calls.get(tree.site, 0)) if tree.site else None
    return in_turn([longest(parts), made])


class Made:
    """The calls of some sites in order, with their spans: which of them are over."""

    def __init__(self, run, spans):
        self.ended, self.spans, self.next = run.ended, spans, dict.fromkeys(spans, 0)

    def before(self, cycle, sites):
        """The spans of the calls that ended before this cycle and were not asked for yet, by site: those of one body."""
        found = {}
        for site in sites:
            i = self.next[site]
            if i < len(self.spans[site]) and self.ended[site][i] < cycle:
                found[site] = self.spans[site][i]
                self.next[site] = i + 1
        return found


class Bodies:
    """The bodies of a unit's functions: how their spans follow from those of the calls in them, and the sites of these."""

    def __init__(self, run, unit, spans):
        program = run.program
        self.chains = {name: chain(program.functions[name].body) for name in program.members(unit)}
        self.sites = {name: sites_in([program.functions[name].body]) for name in self.chains}
        self.made = Made(run, {site: spans[site] for sites in self.sites.values() for site in sites})

    def span(self, name, end):
        """The span of a body that ends in this cycle."""
        return self.chains[name](self.made.before(end, self.sites[name])) if self.sites[name] else 0


def tail_calls(run, unit):
    """The tail calls of a unit in order: the cycle of the first, how many follow each other, and the function that is called."""
    names = run.program.members(unit)
    return heapq.merge(*([(begin, end - begin, name) for begin, end in run.loops(name)] for name in names))


def spans_of(run, unit, spans):
    """The spans of a unit's calls, but for one without an end, from those of the calls that they make."""
    program, calls = run.program, run.calls[unit]
    if not program.sites_called_by(unit):
        return array("I", (call.ended - call.accepted + 1 for call in calls if call.ended is not None))
    bodies, tails, found = Bodies(run, unit, spans), tail_calls(run, unit), array("I")
    tail = next(tails, None)
    for call in calls:
        if call.ended is None:
            break
        name, span = program.sites[call.site - 1].callee if call.site else "main", 2
        while tail and tail[0] < call.ended:
            begin, count, after = tail
            span += bodies.span(name, begin) + count
            name, tail = after, next(tails, None)
        found.append(span + bodies.span(name, call.ended))
    return found


def span_of(run):
    """The span of main's evaluation, or nothing if the run has no result."""
    spans = {site: array("I") for site in run.accepted}
    for unit in run.program.units:
        for site, span in zip(run.calls[unit].site, spans_of(run, unit, spans)):
            spans[site].append(span)
    return spans[0][0] if spans[0] else None
