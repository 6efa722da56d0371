"""The span of an evaluation, and what is called in it."""
from circuit import operator_value


class Evaluation:
    """Main's value on arguments, the numbers of calls and of tail calls, the span, and the functions that are called."""

    def __init__(self, program, args):
        self.calls, self.tails, self.called = 0, 0, set()
        self.value, self.span = self.call(program.main, args, 0, False)

    def call(self, f, values, begun, is_tail):
        """The value of a function, and the cycle in which it is there, if its arguments are there in cycle `begun`."""
        self.calls += 1
        self.tails += is_tail
        self.called.add(f.name)
        scope = {name: value for (name, _, _), value in zip(f.params, values)}
        return self.term(f.body, scope, begun + (1 if is_tail else 2))

    def term(self, e, scope, begun):
        if e.kind in ("num", "sized"):
            return e.value, begun
        if e.kind == "var":
            return scope[e.name], begun
        if e.kind == "if":
            test, tested = self.term(e.parts[0], scope, begun)
            return self.term(e.parts[1 if test == 1 else 2], scope, tested)
        if e.kind == "let":
            values, bound = self.together([value for _, _, _, value in e.binds], scope, begun)
            names = [name for name, _, _, _ in e.binds]
            return self.term(e.parts[0], {**scope, **dict(zip(names, values))}, bound)
        values, there = self.together(e.parts, scope, begun)
        if e.kind != "call":
            return operator_value(e, values), there
        return self.call(e.callee, values, there, not e.site)

    def together(self, parts, scope, begun):
        """The values of parts that begin in one cycle, and the cycle in which all of them are there."""
        found = [self.term(part, scope, begun) for part in parts]
        return [value for value, _ in found], max([begun] + [there for _, there in found])

    @property
    def latest(self):
        return 2 * self.calls - self.tails

    def is_exact(self, circuit):
        """Whether done comes in the cycle of the span, since nothing is called at a unit with an arbiter, or since it is the latest."""
        plan = circuit.plan
        shared = any(plan.unit(k) in plan.arbiters and circuit.program.sites[k].callee.name in self.called for k in circuit.sites)
        return not shared or self.span == self.latest


def timing_text(program, circuit, args):
    """What safl-time prints."""
    found = Evaluation(program, args)
    lines = [f"result {found.value}", f"calls {found.calls}", f"tail calls {found.tails}", f"span {found.span}", f"latest {found.latest}"]
    return "".join(line + "\n" for line in [*lines, f"exact {'yes' if found.is_exact(circuit) else 'no'}"])
