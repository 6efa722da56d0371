"""The call machine and its walks.

A unit is idle, runs a member for a site, or delivers a word to a site; a site's call is unsent, sent, or returned.
"""
from circuit import operator_value


class Machine:
    def __init__(self, program, args):
        self.program, self.args = program, args
        self.units = [None] * len(program.groups)  # None, ("runs", member, site, words) or ("delivers", site, word)
        self.sites = [None] * len(program.sites)  # None, "sent" or the word

    def answers(self):
        """For each unit that runs: the words of the sites that its body wants, and ("ready", word), ("loop", member, words) or None."""
        found = {}
        for u, mode in enumerate(self.units):
            if mode and mode[0] == "runs":
                wants = {}
                _, f, _, words = mode
                scope = {name: word for (name, _, _), word in zip(f.params, words)}
                found[u] = (wants, self.part(f.body, scope, wants))
        return found

    def part(self, e, scope, wants):
        if e.kind in ("num", "sized"):
            return ("ready", e.value)
        if e.kind == "var":
            return ("ready", scope[e.name])
        if e.kind == "if":
            c = self.part(e.parts[0], scope, wants)
            return self.part(e.parts[1 if c[1] == 1 else 2], scope, wants) if c else None
        if e.kind == "let":
            values = {name: self.part(value, scope, wants) for name, _, _, value in e.binds}
            if not all(values.values()):
                return None
            return self.part(e.parts[0], {**scope, **{name: answer[1] for name, answer in values.items()}}, wants)
        parts = [self.part(part, scope, wants) for part in e.parts]
        if not all(parts):
            return self.returned(e) if e.kind == "call" and e.site else None
        words = [answer[1] for answer in parts]
        if e.kind != "call":
            return ("ready", operator_value(e, words))
        if not e.site:
            return ("loop", e.callee, words)
        if self.sites[e.site] is None:
            wants[e.site] = words
        return self.returned(e)

    def returned(self, e):
        word = self.sites[e.site]
        return ("ready", word) if isinstance(word, int) else None

    def unit_of(self, k):
        return self.program.main.group if k == 0 else self.program.sites[k].callee.group

    def enabled(self):
        """The events that may come: accepts, finishes, returns and loops, each by rising number. Main's call is number 0."""
        answers = self.answers()
        wanted = {0: self.args} if self.sites[0] is None else {}
        for wants, _ in answers.values():
            wanted.update(wants)
        accepts = [("accept", k, wanted[k]) for k in sorted(wanted) if self.units[self.unit_of(k)] is None]
        finishes, loops = [], []
        for f in self.program.functions:
            mode = self.units[f.group]
            answer = answers.get(f.group, (None, None))[1]
            if answer and answer[0] == "ready" and mode[1] is f:
                finishes.append(("finish", f.group, answer[1]))
            if answer and answer[0] == "loop" and answer[1] is f:
                loops.append(("loop", f.group, f, answer[2]))
        returns = sorted(("return", mode[1], mode[2]) for mode in self.units if mode and mode[0] == "delivers")
        return accepts + finishes + returns + loops

    def fire(self, event):
        kind = event[0]
        if kind == "accept":
            _, k, words = event
            callee = self.program.main if k == 0 else self.program.sites[k].callee
            self.units[callee.group] = ("runs", callee, k, words)
            self.sites[k] = "sent"
        elif kind == "finish":
            _, u, word = event
            self.units[u] = ("delivers", self.units[u][2], word)
            self.end_sites(u)
        elif kind == "return":
            _, k, word = event
            self.units[self.unit_of(k)] = None
            self.sites[k] = word
        else:
            _, u, f, words = event
            self.units[u] = ("runs", f, self.units[u][2], words)
            self.end_sites(u)

    def end_sites(self, u):
        for k in range(1, len(self.sites)):
            if self.program.sites[k].caller.group == u:
                self.sites[k] = None

    def busy(self):
        return sum(mode is not None for mode in self.units)


def walk(program, args, seed, steps):
    """Main's value or None, the number of events and the greatest number of busy units."""
    machine = Machine(program, args)
    number, units, events = seed, 0, 0
    while events < steps:
        found = machine.enabled()
        if not found:
            break
        number = (number * 1103515245 + 12345) % (1 << 31)
        machine.fire(found[number % len(found)])
        events += 1
        units = max(units, machine.busy())
    result = machine.sites[0]
    return (result if isinstance(result, int) else None), events, units
