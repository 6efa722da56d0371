"""Steps that `safl reshape` has no word for. They are made on the tree; what they keep is not proved, so replies are compared.

Each function here yields pairs: what the step is called, and the program after it.
"""
from collections import Counter
from dataclasses import replace

from safl_explore.tree import Program, Term, renamed
from safl_explore.widths import Widths

PLACES = 8  # if calls of a unit may meet at more places, none of these is tried alone


def text_steps(program):
    """All of them."""
    yield from joined(program)
    yield from parted(program)
    yield from own_units(program)
    yield from one_after_another(program)


def spelled(names):
    """Names in a sentence."""
    *most, last = names
    return f"{', '.join(most)} and {last}" if most else last


def names_of(group):
    return [function.name for function in group]


def as_tail(term):
    """The same term, in tail position, with `let x = E in x` as E: what is in E is then in tail position too."""
    if term.kind == "let":
        (name, _), *others = term.more
        if not others and term.parts[-1] == Term("var", name):
            return as_tail(term.parts[0])
        return replace(term, parts=(*term.parts[:-1], as_tail(term.parts[-1])))
    if term.kind in ("if", "case"):
        return replace(term, parts=(term.parts[0], *map(as_tail, term.parts[1:])))
    return term


def tails(term):
    """The terms in tail position."""
    if term.kind == "let":
        yield from tails(term.parts[-1])
    elif term.kind in ("if", "case"):
        for part in term.parts[1:]:
            yield from tails(part)
    else:
        yield term


def calls_in(terms, names):
    return sum(term.kind == "call" and term.word in names for term in terms)


def joined(program):
    """Where one group alone calls another, and in tail position only: the two as one group."""
    for group in program.groups:
        names = set(names_of(group))
        callers = {program.group_of[caller] for callee, caller in program.sites if callee in names}
        if len(callers) != 1:
            continue
        place = callers.pop()
        members = [replace(member, body=as_tail(member.body)) for member in program.groups[place]]
        if any(calls_in(tails(each.body), names) != calls_in(each.body.all(), names) for each in members):
            continue
        groups = [(*group, *members) if number == place else each for number, each in enumerate(program.groups) if each is not group]
        yield f"{spelled(names_of(members))} in the group of {spelled(names_of(group))}", Program(tuple(groups))


def components(program, group):
    """The members of a group, those together that tail calls connect."""
    parts = [{name} for name in names_of(group)]
    for name in names_of(group):
        for callee in program.calls[name]:
            touched = [part for part in parts if name in part or callee in part]
            if callee in names_of(group) and len(touched) > 1:
                parts = [part for part in parts if part not in touched] + [set().union(*touched)]
    return [tuple(member for member in group if member.name in part) for part in parts]


def parted(program):
    """Groups whose members never call some other members: as groups of their own."""
    for number, group in enumerate(program.groups):
        parts = sorted(components(program, group), key=lambda part: group.index(part[-1]))
        if len(parts) > 1:
            yield f"{' apart from '.join(spelled(names_of(part)) for part in parts)}", Program(
                (*program.groups[:number], *parts, *program.groups[number + 1:])
            )


def free_name(wanted, taken):
    """This name, or the first with a number that is not taken."""
    tries = [wanted, *(f"{wanted}_{number}" for number in range(2, len(taken) + 3))]
    return next(name for name in tries if name not in taken)


def own_units(program):
    """For each function that calls a group which others call too: a copy of the group for it alone."""
    for number, group in enumerate(program.groups):
        names = names_of(group)
        callers = dict.fromkeys(caller for callee, caller in program.sites if callee in names)
        for caller in list(callers)[1:]:
            yield f"a unit of {spelled(names)} for {caller}", with_copy(program, number, caller)


def with_copy(program, number, caller):
    """The program in which this caller has a copy of the group for itself."""
    taken, other = {function.name for function in program.functions}, {}
    for name in names_of(program.groups[number]):
        other[name] = free_name(f"{name}_{caller}"[:60], taken)
        taken.add(other[name])
    groups = []
    for place, group in enumerate(program.groups):
        groups.append(tuple(replace(each, body=renamed(each.body, other)) if each.name == caller else each for each in group))
        if place == number:
            groups.append(tuple(replace(each, name=other[each.name], body=renamed(each.body, other)) for each in group))
    return Program(tuple(groups))


def parallel(term):
    """The parts of a term that are evaluated in parallel."""
    if term.kind in ("op", "call", "form"):
        return term.parts
    return term.parts[:-1] if term.kind == "let" else ()


class Needs:
    """For each term, known by its identity, the units that its calls need; and at how many places parallel parts need the same.

    A unit has the name of its group's first member.
    """

    def __init__(self, program):
        self.program, self.widths, self.names = program, Widths(program), set()
        self.found, self.places, self.of_group = {}, Counter(), {}
        for function in program.functions:
            self.names |= {name for name, _ in function.parameters}
        for number, group in enumerate(program.groups):
            bodies = [self.walk(function.body, number) for function in group]
            self.of_group[number] = frozenset([group[0].name]).union(*bodies)

    def of(self, term):
        return self.found[id(term)]

    def walk(self, term, own):
        parts = [self.walk(part, own) for part in term.parts]
        if term.kind == "let":
            self.names |= {name for name, _ in term.more}
        called = self.program.group_of[term.word] if term.kind == "call" else own
        units = frozenset().union(*parts, self.of_group[called] if called != own else ())
        self.found[id(term)] = units
        users = Counter(unit for part in parallel(term) for unit in self.of(part))
        self.places.update(unit for unit, number in users.items() if number > 1)
        return units


class Order:
    """Puts parallel parts that need the same unit one after another by `let`, so that the unit needs no arbiter for them."""

    def __init__(self, needs, unit, backwards, place=None):
        self.needs, self.unit, self.backwards, self.place = needs, unit, backwards, place
        self.found, self.names = 0, set(needs.names)

    def ordered(self):
        groups = self.needs.program.groups
        return Program(tuple(tuple(replace(each, body=self.term(each.body)) for each in group) for group in groups))

    def term(self, term):
        if self.unit not in self.needs.of(term):
            return term
        users = [i for i, part in enumerate(parallel(term)) if self.unit in self.needs.of(part)]
        taken = False
        if len(users) > 1:
            self.found += 1
            taken = self.place in (None, self.found)
        inner = replace(term, parts=tuple(map(self.term, term.parts)))
        if not taken:
            return inner
        lets = []
        for i in users[:0:-1] if self.backwards else users[:-1]:
            name = free_name("first", self.names)
            self.names.add(name)
            lets.append((name, self.needs.widths.of(term.parts[i]), inner.parts[i]))
            inner = replace(inner, parts=(*inner.parts[:i], Term("var", name), *inner.parts[i + 1:]))
        for name, width, value in reversed(lets):
            inner = Term("let", "", (value, inner), ((name, width),))
        return inner


def one_after_another(program):
    """For each unit whose calls may meet: all of them one after another, from the first or from the last, and a few places alone."""
    needs = Needs(program)
    for unit, places in needs.places.items():
        for backwards in (False, True):
            how = ", the last first" if backwards else ""
            yield f"calls of {unit} one after another{how}", Order(needs, unit, backwards).ordered()
            for place in range(1, places + 1) if 1 < places <= PLACES else ():
                yield f"calls of {unit} one after another at place {place}{how}", Order(needs, unit, backwards, place).ordered()
