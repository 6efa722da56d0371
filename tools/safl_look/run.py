"""What happened in a run: which call each unit ran when, what calls waited for and for whom, and how many calls there were."""
import heapq
from array import array
from bisect import bisect_left, bisect_right
from functools import cached_property
from typing import NamedTuple, Optional

from safl_look.span import span_of

ARBITER, ARGUMENT = "arbiter", "argument"
KINDS = (ARBITER, ARGUMENT)


class Call(NamedTuple):
    """A call that a unit accepted: its site (0 is main's call from outside), the cycle in which it was accepted, and the cycle
    in which its value was there, or nothing if that is not in the trace. The unit runs it in the cycles after `accepted` up to
    `ended`, and delivers the value in the next one."""

    site: int
    accepted: int
    ended: Optional[int] = None


class Wait(NamedTuple):
    """The cycles from `begin` to before `end` in which a call of a site waited for the arbiter or for an argument, and for whom:
    sites, each with the number of these cycles. For the arbiter they are the sites whose calls had the unit or were given it; for
    an argument those whose values had not come. Sites of the second kind may be waited for at the same time."""

    site: int
    kind: str
    begin: int
    end: int
    holders: tuple


class Calls:
    """The calls of a unit in order. They do not overlap."""

    def __init__(self):
        self.site, self.accepted, self.ended = array("I"), array("I"), array("I")

    def add(self, site, accepted, ended):
        self.site.append(site)
        self.accepted.append(accepted)
        self.ended.append(ended or 0)

    def __len__(self):
        return len(self.site)

    def __iter__(self):
        return (Call(site, accepted, ended or None) for site, accepted, ended in zip(self.site, self.accepted, self.ended))

    def holding(self, begin, end):
        """The calls that the unit runs or accepts in these cycles: their sites, and in how many of the cycles."""
        for i in range(max(0, bisect_right(self.accepted, begin) - 1), bisect_left(self.accepted, end)):
            last = min(end, self.ended[i] + 1) if self.ended[i] else end
            if last > begin:
                yield self.site[i], last - max(begin, self.accepted[i])


class Waits:
    """The waits of a unit's calls, in the order in which they begin. The kinds are places in KINDS; those whom a wait is for are
    the ones in `holder` up to `last`, from where those of the wait before end, with their cycles in `held`."""

    def __init__(self, waits):
        self.site, self.kind, self.begin, self.end = (array("I") for _ in range(4))
        self.last, self.holder, self.held = (array("I") for _ in range(3))
        for wait in waits:
            for column, value in zip((self.site, self.begin, self.end), (wait.site, wait.begin, wait.end)):
                column.append(value)
            self.kind.append(KINDS.index(wait.kind))
            for site, cycles in wait.holders:
                self.holder.append(site)
                self.held.append(cycles)
            self.last.append(len(self.holder))

    def __len__(self):
        return len(self.site)

    def __getitem__(self, i):
        first, last = self.last[i - 1] if i else 0, self.last[i]
        holders = tuple(zip(self.holder[first:last], self.held[first:last]))
        return Wait(self.site[i], KINDS[self.kind[i]], self.begin[i], self.end[i], holders)

    def spans(self, kind):
        """The spans of the waits of a kind."""
        number = KINDS.index(kind)
        return ((begin, end) for each, begin, end in zip(self.kind, self.begin, self.end) if each == number)


def is_watched(name):
    """Whether a signal of the dump is needed to tell what happened."""
    return name.startswith(("want$", "go$", "end$", "loop$"))


class Run:
    """The calls, waits and working cycles of each unit."""

    def __init__(self, program, dump):
        self.program, self.dump, self.cycles = program, dump, dump.cycles
        self.wanted = {site.number: dump.watched[f"want${site.number}"].rises() for site in program.sites}
        self.accepted = {site.number: dump.watched[f"go${site.number}"].rises() for site in program.sites}
        self.accepted[0] = dump.watched["go$main"].rises()
        self.ended = {site: array("I") for site in self.accepted}
        self.calls = {unit: self.calls_of(unit) for unit in program.units}
        self.waits = {unit: self.waits_of(unit) for unit in program.units}

    def calls_of(self, unit):
        """The calls of a unit. It accepts one after it has ended the one before."""
        found, sites = Calls(), [*self.program.sites_of(unit), *[0] * (unit == self.program.unit_of(0))]
        accepted = heapq.merge(*([(cycle, site) for cycle in self.accepted[site]] for site in sites))
        ends = heapq.merge(*(self.dump.watched[f"end${name}"].rises() for name in self.program.members(unit)))
        for cycle, site in accepted:
            end = next(ends, None)
            found.add(site, cycle, end)
            if end:
                self.ended[site].append(end)
        return found

    def waits_of(self, unit):
        sites = self.program.sites_of(unit)
        return Waits(heapq.merge(*(self.waits_at(self.program.sites[site - 1]) for site in sites), key=lambda wait: (wait.begin, wait.site)))

    def waits_at(self, site):
        """A call waits for its arguments from the cycle in which a call in them is wanted until it is wanted itself; from then
        on it waits until it is accepted."""
        wanted, accepted = self.wanted[site.number], self.accepted[site.number]
        calls = self.calls[self.program.unit_of(site.number)]
        first = array("I", heapq.merge(*(self.wanted[number] for number in site.inside)))
        before = -1
        for i in range(len(wanted) + 1):
            ready = wanted[i] if i < len(wanted) else self.cycles
            place = bisect_right(first, before)
            if place < len(first) and first[place] < ready:
                yield Wait(site.number, ARGUMENT, first[place], ready, self.awaited(site, first[place], ready))
            if i < len(wanted):
                before = accepted[i] if i < len(accepted) else self.cycles
                if ready < before:
                    yield Wait(site.number, ARBITER, ready, before, summed(calls.holding(ready, before)))

    def awaited(self, site, begin, end):
        """The sites in a call's arguments whose values are awaited in these cycles, by when that begins."""
        found = []
        for number in site.inside:
            wanted, ended = self.wanted[number], self.ended[number]
            for i in range(max(0, bisect_right(wanted, begin) - 1), bisect_left(wanted, end)):
                last = min(end, ended[i] + 1) if i < len(ended) else end
                if last > begin:
                    found.append((max(begin, wanted[i]), number, last - max(begin, wanted[i])))
        return summed((number, count) for _, number, count in sorted(found))

    def loops(self, name):
        """The spans of cycles in which a tail call of a function is taken."""
        return self.dump.watched[f"loop${name}"].spans(self.cycles)

    def busy(self, unit):
        """The spans of cycles in which the unit runs."""
        return ((call.accepted + 1, self.cycles if call.ended is None else call.ended + 1) for call in self.calls[unit])

    def working(self, unit):
        """The spans of cycles in which the unit runs and does not only wait for calls: it ends, goes on, or has a call accepted."""
        pieces = [self.loops(name) for name in self.program.members(unit)]
        pieces.append((call.ended, call.ended + 1) for call in self.calls[unit] if call.ended is not None)
        pieces += (((cycle, cycle + 1) for cycle in self.accepted[site]) for site in self.program.sites_called_by(unit))
        return joined(heapq.merge(*pieces))

    def waiting(self):
        """The spans of cycles in which a wanted call waits for a unit: a `want` wire is 1 and its `go` is 0."""
        return joined(heapq.merge(*(waits.spans(ARBITER) for waits in self.waits.values())))

    def waited(self, kind):
        """How many cycles the calls of each site waited for this, by site."""
        found, number = dict.fromkeys(range(len(self.program.sites) + 1), 0), KINDS.index(kind)
        for waits in self.waits.values():
            for site, each, begin, end in zip(waits.site, waits.kind, waits.begin, waits.end):
                if each == number:
                    found[site] += end - begin
        return found

    def longest_waits(self, most):
        """The longest waits of all, the longest first."""
        rows = (
            (begin - end, begin, site, i, unit)
            for unit, waits in self.waits.items() for i, (begin, end, site) in enumerate(zip(waits.begin, waits.end, waits.site))
        )
        return [self.waits[unit][i] for *_, i, unit in heapq.nsmallest(most, rows)]

    @cached_property
    def waiting_cycles(self):
        return sum(end - begin for begin, end in self.waiting())

    @cached_property
    def span(self):
        return span_of(self)

    @cached_property
    def tail_calls(self):
        return sum(end - begin for name in self.program.functions for begin, end in self.loops(name))

    @cached_property
    def all_calls(self):
        """The number of calls, tail calls and the call of main counted."""
        return sum(len(calls) for calls in self.calls.values()) + self.tail_calls


def summed(pairs):
    """Sites with numbers of cycles, the numbers of one site added."""
    found = {}
    for site, count in pairs:
        found[site] = found.get(site, 0) + count
    return tuple(found.items())


def joined(spans):
    """Sorted spans, with those that touch or overlap in one."""
    spans = iter(spans)
    for first, last in spans:
        for begin, end in spans:
            if begin > last:
                yield first, last
                first, last = begin, end
            last = max(last, end)
        yield first, last
