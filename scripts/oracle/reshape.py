"""Sources that are reshaped: a function is copied for one of its calls, or one call is replaced by its callee's body."""
import copy

import printing
from language import SOURCE_MAX, Expr, Fault, Function, Parser, accept, all_parts, rewritten

NAME_MAX = 64


class Reason(Exception):
    """Why a site is not reshaped."""


class Sites:
    """The groups of a program as it is written, and its call sites by number from 1."""

    def __init__(self, functions):
        self.functions = functions
        self.by_name = {f.name: f for f in functions}
        groups = -1
        for f in functions:
            groups += not f.joined
            f.group = groups
        calls = [(e.text_place, e, f) for f in functions for e in all_parts(f.body) if e.kind == "call"]
        calls.sort(key=lambda row: row[0])
        self.sites = [None] + [(e, f) for _, e, f in calls if self.by_name[e.name].group != f.group]

    def callee(self, k):
        if not 1 <= k < len(self.sites):
            raise Reason("no such site")
        return self.by_name[self.sites[k][0].name]

    def members(self, f):
        return [g for g in self.functions if g.group == f.group]


def site_count(functions):
    return len(Sites(functions).sites) - 1


def node_count(functions):
    return sum(len(all_parts(rewritten(f.body))) for f in functions)


def look_at_limits(functions):
    """The least limit that the program passes."""
    counts = (("functions", len(functions), 1000), ("sites", site_count(functions), 4000), ("nodes", node_count(functions), 50000))
    for name, count, most in counts:
        if count > most:
            raise Reason(f"limit: {name} {most}")


def copied(sites, k):
    f = sites.callee(k)
    if len(sites.members(f)) > 1:
        raise Reason("grouped")
    name = f"{f.name}_{k}"
    if len(name) > NAME_MAX:
        raise Reason("name too long")
    if name in sites.by_name:
        raise Reason("name taken")
    body = copy.deepcopy(f.body)
    for e in all_parts(body):
        if e.kind == "call" and e.name == f.name:
            e.name = name
    sites.sites[k][0].name = name
    place = next(i for i, g in enumerate(sites.functions) if g is f) + 1
    made = Function(name, f.place, f.params, f.width, body, False)
    return sites.functions[:place] + [made] + sites.functions[place:]


def unfolded(sites, k):
    f = sites.callee(k)
    own = {g.name for g in sites.members(f)}
    if any(e.kind == "call" and e.name in own for e in all_parts(f.body)):
        raise Reason("recursive")
    call = sites.sites[k][0]
    body = copy.deepcopy(f.body)
    if f.params:
        binds = [(name, 0, width, value) for (name, _, width), value in zip(f.params, call.parts)]
        body = Expr("let", call.place, [body], binds=binds)
    # the call itself becomes the expression
    call.kind, call.name, call.parts = "let", "", [Expr("var", call.place, name="r")]
    call.binds = [("r", call.place, f.width, body)]
    return sites.functions


def reshaped(source, change, k):
    """The text of the reshaped program of an accepted source."""
    sites = Sites(Parser(source).program())
    functions = copied(sites, k) if change == "copy" else unfolded(sites, k)
    look_at_limits(functions)
    text = printing.text_of(functions).encode()
    try:
        Parser(text).program()
    except Fault as fault:
        assert fault.rule == "E04"
        raise Reason("nesting too deep") from None
    if len(text) > SOURCE_MAX:
        raise Reason("text too long")
    accept(text)
    return text
