"""Which words of a run are joined by `cat`, and of what: for results and arguments, the widths of the parts and their texts."""
from safl_look.expressions import COMPARISONS, SHIFTS

TEXT_MOST = 30


class Joins:
    """The parts of each signal's word, the highest first: a text of the source and a width. Signals with one part are left out."""

    def __init__(self, program):
        self.text, self.functions = program.text, program.functions
        self.results, self.passed = {}, {}
        for function in self.functions.values():
            scope = {name: (width, []) for name, width in function.parameters.items()}
            self.results[function.name] = self.parts(function.body, scope)
        self.found = {name: agreed(found) for name, found in self.passed.items()}
        for unit in program.units:
            self.found[f"res${unit}"] = agreed([self.results[name] for name in program.members(unit)])
        for site in program.sites:
            self.found[f"keep${site.number}"] = self.results[site.callee]
        self.found["result"] = self.found[f"res${program.unit_of(0)}"]

    def parts(self, tree, scope):
        """The parts of an expression's word; one part alone if it is not joined, and none if that is not known. Looks at the
        arguments of calls on the way."""
        inner = self.in_let(tree, scope) if tree.kind == "let" else [self.parts(part, scope) for part in tree.parts]
        if tree.kind == "let":
            return inner
        if tree.kind == "cat":
            return inner[0] + inner[1] if all(inner) else []
        if tree.kind in ("if", "case"):
            return agreed(inner[1:])
        if tree.kind == "call":
            return self.of_call(tree, inner)
        width, parts = self.width(tree, inner, scope), scope.get(tree.word, (0, []))[1] if tree.kind == "name" else []
        return parts if len(parts) > 1 else [(self.named(tree), width)] if width else []

    def in_let(self, tree, scope):
        bound = {}
        for (name, width), part in zip(tree.names, tree.parts):
            parts = self.parts(part, scope)
            bound[name] = (width or sum(size for _, size in parts), parts)
        return self.parts(tree.parts[-1], {**scope, **bound})

    def of_call(self, tree, arguments):
        callee = self.functions[tree.word]
        for name, parts in zip(callee.parameters, arguments):
            self.passed.setdefault(f"arg${tree.word}${name}", []).append(parts)
        if not tree.site:
            return []  # a tail call's word is that of another branch
        parts = self.results[tree.word]
        return parts if len(parts) > 1 else [(self.named(tree), callee.width)]

    def width(self, tree, inner, scope):
        """The width of what is no call, no choice and no `cat`; 0 if the text does not say it."""
        if tree.kind == "operator":
            if COMPARISONS & set(tree.names):
                return 1
            operands = (sum(size for _, size in parts) for name, parts in zip(tree.names, inner) if name not in SHIFTS)
            return next(filter(None, operands), 0)
        return tree.width or (scope[tree.word][0] if tree.kind == "name" else 0)

    def named(self, tree):
        """The text of an expression, cut where it is long."""
        text = " ".join(self.text[tree.begin:tree.end].split())
        return text if len(text) <= TEXT_MOST else text[:TEXT_MOST - 1] + "\u2026"


def agreed(found):
    """The parts of a word that comes from several places: of what is known the most, without a text where the texts differ. A
    place of which nothing is known does not count."""
    found = [parts for parts in found if parts]
    longest = max(found, key=len, default=[])
    return [(text if all(parts[i:i + 1] == [(text, size)] for parts in found) else "", size) for i, (text, size) in enumerate(longest)]


def joins(program, widths):
    """The parts of the signals of a dump, as far as their widths agree."""
    found = Joins(program).found
    return {name: named(parts) for name, parts in found.items() if len(parts) > 1 and sum(size for _, size in parts) == widths.get(name)}


def named(parts):
    """The parts with a text each: which bits they are, where the source has no text for all."""
    found, above = [], sum(size for _, size in parts)
    for text, size in parts:
        found.append((text or (f"bits {above - 1} to {above - size}" if size > 1 else f"bit {above - 1}"), size))
        above -= size
    return found


def split(word, parts):
    """The parts with their texts, widths and words."""
    found = []
    for text, size in reversed(parts):
        found.append((text, size, word & (1 << size) - 1))
        word >>= size
    return found[::-1]
