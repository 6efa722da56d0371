"""Units, call sites, the plan and the cycles of a program's circuit. Written from docs/CIRCUIT.md alone."""
from dataclasses import dataclass

from language import all_parts, apply


def operator_value(e, values):
    widths = [part.bits for part in e.parts]
    return apply(e.name if e.kind == "op" else e.kind, e.bits, values, widths, e.hi, e.lo)


class Plan:
    """Which sites conflict, which units have an arbiter, and which sites keep their value."""

    def __init__(self, program):
        self.program = program
        self.groups_reach = []
        for members in program.groups:
            self.groups_reach.append(set().union(*(self.reach(f.body) for f in members)))
        self.conflicts, self.sequential = set(), True
        for f in program.functions:
            for e in all_parts(f.body):
                self.parallel(e)
        self.arbiters = {self.unit(k) for k, _ in self.conflicts}
        self.kept = set()
        for f in program.functions:
            self.keep(f)

    def unit(self, k):
        return self.program.sites[k].callee.group

    def reach(self, e):
        found = set()
        for part in all_parts(e):
            if part.kind == "call" and part.site:
                found.add(part.site)
                found |= self.groups_reach[part.callee.group]
        return found

    def parallel(self, e):
        if e.kind == "let":
            sides = [self.reach(b[3]) for b in e.binds]
        elif e.kind in ("op", "cat", "call"):
            sides = [self.reach(part) for part in e.parts]
        else:
            return
        if sum(map(bool, sides)) > 1:
            self.sequential = False
        for i, left in enumerate(sides):
            for right in sides[:i]:
                for k in left:
                    for other in right:
                        if k != other and self.unit(k) == self.unit(other):
                            self.conflicts |= {(k, other), (other, k)}

    def others(self, k):
        return {j for j in range(1, len(self.program.sites)) if j != k and self.unit(j) == self.unit(k)}

    def keep(self, g):
        """The sites in the body of g that are kept."""
        whole = self.reach(g.body)
        conditions, bindings = [], []
        self.feeds(g.body, {}, conditions, bindings)
        for k in range(1, len(self.program.sites)):
            if self.program.sites[k].caller is not g:
                continue
            others = self.others(k)
            if any((k, j) in self.conflicts for j in others):
                self.kept.add(k)
            if any(k in feeds for feeds in conditions) and others & whole:
                self.kept.add(k)
            for feeds, name, body in bindings:
                if k in feeds and is_free(name, body) and others & self.reach_past(body):
                    self.kept.add(k)

    def reach_past(self, body):
        if body.kind == "call" and body.site:
            return set().union(*(self.reach(part) for part in body.parts))
        return self.reach(body)

    def feeds(self, e, scope, conditions, bindings):
        """The sites that e's value may be made from; the conditions of the ifs on the way, and the bindings of the lets."""
        if e.kind == "let":
            inner = dict(scope)
            for name, _, _, value in e.binds:
                inner[name] = self.feeds(value, scope, conditions, bindings)
                bindings.append((inner[name], name, e.parts[0]))
            return self.feeds(e.parts[0], inner, conditions, bindings)
        found = [self.feeds(part, scope, conditions, bindings) for part in e.parts]
        if e.kind == "if":
            conditions.append(found[0])
        if e.kind == "call":
            return {e.site} if e.site else set()
        if e.kind == "var":
            return scope.get(e.name, set())
        return set().union(*found)


def is_free(name, e):
    if e.kind == "var":
        return e.name == name
    if e.kind == "let":
        if any(is_free(name, value) for _, _, _, value in e.binds):
            return True
        return all(bound != name for bound, _, _, _ in e.binds) and is_free(name, e.parts[0])
    return any(is_free(name, part) for part in e.parts)


class Circuit:
    """The registers of a program's circuit by name, and what they become from cycle to cycle."""

    def __init__(self, program):
        self.program = program
        self.plan = Plan(program)
        self.sites = range(1, len(program.sites))

    def unit_name(self, group):
        return self.program.groups[group][0].name

    def inputs(self):
        return [("start", 1)] + [(f"in${name}", width) for name, _, width in self.program.main.params]

    def registers(self):
        found = []
        for group, members in enumerate(self.program.groups):
            u = self.unit_name(group)
            found += [(f"run${u}", 1), (f"fin${u}", 1), (f"res${u}", members[0].width)]
            for f in members:
                if len(members) > 1:
                    found.append((f"at${f.name}", 1))
                found += [(f"arg${f.name}${name}", width) for name, _, width in f.params]
        for k in self.sites:
            found += [(f"sent${k}", 1), (f"got${k}", 1)]
            if k in self.plan.kept:
                found.append((f"keep${k}", self.program.sites[k].callee.width))
        return found

    def named_wires(self):
        found = []
        for f in self.program.functions:
            found += [f"end${f.name}", f"loop${f.name}"]
        for k in self.sites:
            found += [f"want${k}", f"ret${k}"]
            if self.plan.unit(k) in self.plan.arbiters:
                found.append(f"arb${k}")
            found.append(f"go${k}")
        return found + ["go$main"]

    def run(self, args, cycles):
        """The result and the cycle of the first done below so many cycles, or nothing."""
        found = self.call(self.reset(), args, cycles)
        return found[:2] if found else None

    def reset(self):
        return {name: 0 for name, _ in self.registers()}

    def call(self, registers, args, cycles):
        """The same from these registers, with the registers after that cycle."""
        u, waited = self.unit_name(self.program.main.group), False
        for number in range(cycles):
            cycle = Cycle(self, registers, 1 if number == 0 else 0, args if number == 0 else [0] * len(args))
            after, waited = cycle.edge(), waited or cycle.waits()
            if registers[f"fin${u}"]:
                self.check_cycle(args, registers[f"res${u}"], number, waited)
                return registers[f"res${u}"], number, after
            if after == registers and number > 0:
                return None
            registers = after
        return None

    def check_cycle(self, args, result, cycle, waited):
        """Fails unless main has this value, by n calls of which l are tail calls, and done came by cycle 2n - l, and in no cycle before
        the span: just then if no call waited, and in a sequential program just in cycle 2n - l."""
        found = meaning(self.program, args, len(self.program.functions) * (cycle + 1))
        if not found or found.value != result:
            raise AssertionError(f"{result} in cycle {cycle}, where main has {found}")
        exact = {found.latest} if self.plan.sequential else {found.span} if not waited else range(found.span, found.latest + 1)
        if cycle not in exact or not found.span <= cycle <= found.latest:
            raise AssertionError(f"{result} in cycle {cycle}, where main has {found}")


class Cycle:
    """The named wires of one cycle, and the edge at its end."""

    def __init__(self, circuit, registers, start, args):
        self.circuit, self.r, self.args = circuit, registers, args
        self.program = circuit.program
        self.ret = {k: self.fin_of(k) and registers[f"sent${k}"] and not registers[f"got${k}"] for k in circuit.sites}
        self.wants, self.loops, self.ends = {}, {}, {}
        for f in self.program.functions:
            u = circuit.unit_name(f.group)
            several = len(self.program.groups[f.group]) > 1
            if registers[f"run${u}"] and (not several or registers[f"at${f.name}"]):
                scope = {name: (True, registers[f"arg${f.name}${name}"]) for name, _, _ in f.params}
                ready, value = self.part(f.body, scope)
                if ready:
                    self.ends[f.name] = value
        self.go = {k: self.is_accepted(k) for k in circuit.sites}
        self.go_main = start and not registers[f"run${circuit.unit_name(self.program.main.group)}"]

    def fin_of(self, k):
        return self.r[f"fin${self.circuit.unit_name(self.circuit.plan.unit(k))}"]

    def is_accepted(self, k):
        if k not in self.wants:
            return False
        unit = self.circuit.plan.unit(k)
        if unit not in self.circuit.plan.arbiters:
            return True
        lower = [j for j in self.wants if j < k and self.circuit.plan.unit(j) == unit]
        return not self.r[f"run${self.circuit.unit_name(unit)}"] and not lower

    def waits(self):
        """Whether a call that is wanted is not accepted."""
        return any(not self.go[k] for k in self.wants)

    def part(self, e, scope):
        """Whether a part with its path at 1 is ready, and its value."""
        if e.kind in ("num", "sized"):
            return True, e.value
        if e.kind == "var":
            return scope[e.name]
        if e.kind == "if":
            ready, value = self.part(e.parts[0], scope)
            return self.part(e.parts[1 if value == 1 else 2], scope) if ready else (False, 0)
        if e.kind == "let":
            values = {name: self.part(value, scope) for name, _, _, value in e.binds}
            if not all(ready for ready, _ in values.values()):
                return False, 0
            return self.part(e.parts[0], {**scope, **values})
        parts = [self.part(part, scope) for part in e.parts]
        ready = all(ready for ready, _ in parts)
        values = [value for _, value in parts]
        if e.kind == "call":
            return self.call(e, ready, values)
        return (True, operator_value(e, values)) if ready else (False, 0)

    def call(self, e, ready, values):
        if not e.site:
            if ready and e.callee.name not in self.loops:
                self.loops[e.callee.name] = values
            return False, 0
        k = e.site
        if ready and not self.r[f"sent${k}"]:
            self.wants[k] = values
        if self.ret[k] or self.r[f"got${k}"]:
            kept = k in self.circuit.plan.kept and not self.ret[k]
            return True, self.r[f"keep${k}" if kept else f"res${self.circuit.unit_name(e.callee.group)}"]
        return False, 0

    def start(self, after, f, values):
        members = self.program.groups[f.group]
        if values is not None:
            for (name, _, _), value in zip(f.params, values):
                after[f"arg${f.name}${name}"] = value
        for other in members:
            if len(members) > 1:
                after[f"at${other.name}"] = int(other is f)

    def edge(self):
        """The registers of the next cycle."""
        after, program, circuit = dict(self.r), self.program, self.circuit
        loaded = set()
        for group in range(len(program.groups)):
            after[f"fin${circuit.unit_name(group)}"] = 0
        if self.go_main:
            self.start(after, program.main, self.args)
            after[f"run${circuit.unit_name(program.main.group)}"] = 1
            loaded.add(program.main.name)
        for k in circuit.sites:
            if self.ret[k]:
                after[f"got${k}"] = 1
                if k in circuit.plan.kept:
                    after[f"keep${k}"] = self.r[f"res${circuit.unit_name(circuit.plan.unit(k))}"]
            if self.go[k]:
                callee = program.sites[k].callee
                self.start(after, callee, None if callee.name in loaded else self.wants[k])
                loaded.add(callee.name)
                after[f"run${circuit.unit_name(callee.group)}"] = 1
                after[f"sent${k}"] = 1
        for name, values in self.loops.items():
            f = program.by_name[name]
            self.start(after, f, None if name in loaded else values)
            self.clear(after, f.group)
        for name, value in self.ends.items():
            f = program.by_name[name]
            u = circuit.unit_name(f.group)
            after[f"res${u}"], after[f"fin${u}"], after[f"run${u}"] = value, 1, 0
            self.clear(after, f.group)
        return after

    def clear(self, after, group):
        for k in self.circuit.sites:
            if self.program.sites[k].caller.group == group:
                after[f"sent${k}"] = after[f"got${k}"] = 0


@dataclass
class Evaluation:
    """An evaluation of main: its value, how many calls it makes, how many of these are tail calls, and its span."""

    value: int
    calls: int
    tails: int
    span: int

    @property
    def latest(self):
        return 2 * self.calls - self.tails


def meaning(program, args, budget):
    """The evaluation of main, or nothing if it makes more calls than the budget.

    The span is worked out as the cycle in which each part is ready if no call waits: a part gets the cycle from which it is
    evaluated, and gives the one in which it is ready. Operands, arguments and bindings begin together; a call adds two cycles and a
    tail call one.
    """
    counts = [0, 0]

    def value_of(e, scope, now):
        if e.kind in ("num", "sized"):
            return e.value, now
        if e.kind == "var":
            return scope[e.name], now
        if e.kind == "if":
            condition, ready = value_of(e.parts[0], scope, now)
            return value_of(e.parts[1 if condition == 1 else 2], scope, ready)
        if e.kind == "let":
            bound = {name: value_of(value, scope, now) for name, _, _, value in e.binds}
            values = {name: value for name, (value, _) in bound.items()}
            return value_of(e.parts[0], {**scope, **values}, max(ready for _, ready in bound.values()))
        parts = [value_of(part, scope, now) for part in e.parts]
        values, ready = [value for value, _ in parts], max((cycle for _, cycle in parts), default=now)
        if e.kind != "call":
            return operator_value(e, values), ready
        if e.site:
            return called(e.callee, values, ready + 2)
        raise TailCall(e.callee, values, ready + 1)

    def called(f, values, now):
        while True:
            counts[0] += 1
            if counts[0] > budget:
                raise OverflowError
            try:
                return value_of(f.body, {name: value for (name, _, _), value in zip(f.params, values)}, now)
            except TailCall as tail:
                counts[1] += 1
                f, values, now = tail.callee, tail.values, tail.now

    try:
        value, span = called(program.main, args, 2)
    except OverflowError:
        return None
    return Evaluation(value, counts[0], counts[1], span)


class TailCall(Exception):
    def __init__(self, callee, values, now):
        super().__init__()
        self.callee, self.values, self.now = callee, values, now
