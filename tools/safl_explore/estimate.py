"""Guesses the ANDs of a source's circuit by its text and the bits of its registers, without building it.

Only bits that may be 1 and that something reads are counted. A guess is only compared with guesses for sources that are like it:
it says which of them are worth building.
"""
from safl_explore.widths import Widths

REGISTER, LOAD = 3, 3  # ANDs for a register bit, and for each further source of one
SITE, ARBITRATED = 12, 2  # ANDs for a call site's control, and for its part of an arbiter
LOGIC = {"&": 1, "|": 1, "^": 3}  # for each bit that may be 1 on both sides
SUM, SUM_OF_NUMBER, EQUAL, EQUAL_OF_NUMBER, LESS, CHOICE, CHOICE_OF_NUMBER, PRODUCT = 7, 3, 3, 1, 3, 3, 1, 7.5


def is_number(term):
    return term.kind in ("num", "sized")


def value(term):
    return int(term.word.split("'d")[-1])


def below(mask):
    """All bits up to the highest of a mask."""
    return (1 << mask.bit_length()) - 1


def merge(into, masks):
    for name, mask in masks.items():
        into[name] = into.get(name, 0) | mask


class Ones:
    """For each term, known by its identity, the bits of its word that may be 1."""

    def __init__(self, program, widths):
        self.widths, self.found = widths, {}
        for function in program.functions:
            self.walk(function.body, {name: (1 << width) - 1 for name, width in function.parameters})

    def of(self, term):
        return self.found[id(term)]

    def walk(self, term, scope):
        full = (1 << self.widths.of(term)) - 1
        mask = full
        if term.kind == "let":
            inner = {name: self.walk(part, scope) for (name, _), part in zip(term.more, term.parts)}
            mask = self.walk(term.parts[-1], {**scope, **inner})
        else:
            parts = [self.walk(part, scope) for part in term.parts]
            if is_number(term):
                mask = value(term)
            elif term.kind == "var":
                mask = scope[term.word]
            elif term.kind == "op":
                mask = self.operator(term, parts, full)
            elif term.kind == "form":
                mask = self.form(term, parts)
            elif term.kind in ("if", "case"):
                mask = 0
                for part in parts[1:]:
                    mask |= part
        self.found[id(term)] = mask & full
        return mask & full

    def operator(self, term, parts, full):
        left, right = parts[0], parts[-1]
        if term.word == "&":
            return left & right
        if term.word in ("|", "^"):
            return left | right
        if term.word == "+":
            return below((left | right) << 1)
        if term.word == "*":
            return (1 << left.bit_length() + right.bit_length()) - 1
        if term.word in ("<<", ">>") and is_number(term.parts[1]):
            by = min(value(term.parts[1]), 128)
            return left << by if term.word == "<<" else left >> by
        return below(left) if term.word == ">>" else full

    def form(self, term, parts):
        if term.word == "cat":
            return parts[0] << self.widths.of(term.parts[1]) | parts[1]
        return parts[0] >> term.more[1] if term.word == "bits" else parts[0]


class Guess:
    """The guess for a program; `products` is the cost of a bit of a row of a product, 0 if a device has blocks for them."""

    def __init__(self, program, products=PRODUCT):
        self.program, self.products, self.widths = program, products, Widths(program)
        self.ones = Ones(program, self.widths)

    def ands(self, bits, arbitrated):
        """The ANDs of a circuit with so many bits of registers, and so many call sites with an arbiter."""
        bodies = sum(self.cost(function.body, (1 << function.width) - 1, {}) for function in self.program.functions)
        called = [name for names in self.program.calls.values() for name in names] + ["main"]
        loads = sum(
            width * max(0, called.count(function.name) - 1) for function in self.program.functions for _, width in function.parameters
        )
        return bodies + REGISTER * bits + LOAD * loads + SITE * len(self.program.sites) + ARBITRATED * arbitrated

    def full(self, term):
        return (1 << self.widths.of(term)) - 1

    def cost(self, term, wanted, uses):
        """What a term costs of which these bits are wanted; adds the bits of variables that are wanted then to `uses`."""
        wanted &= self.ones.of(term)
        if term.kind == "var":
            merge(uses, {term.word: wanted})
            return 0
        if term.kind == "let":
            return self.let(term, wanted, uses)
        parts, own = getattr(self, f"of_{term.kind}")(term, wanted)
        return own + sum(self.cost(part, bits, uses) for part, bits in zip(term.parts, parts))

    def let(self, term, wanted, uses):
        inner = {}
        found = self.cost(term.parts[-1], wanted, inner)
        bound = [inner.pop(name, 0) for name, _ in term.more]
        merge(uses, inner)
        return found + sum(self.cost(part, bits, uses) for part, bits in zip(term.parts, bound))

    def of_num(self, term, wanted):
        return (), 0

    of_sized = of_num

    def of_call(self, term, wanted):
        return [self.full(part) for part in term.parts], 0

    def of_form(self, term, wanted):
        if term.word == "cat":
            return (wanted >> self.widths.of(term.parts[1]), wanted & self.full(term.parts[1])), 0
        return (wanted << (term.more[1] if term.word == "bits" else 0),), 0

    def of_if(self, term, wanted):
        numbers = sum(map(is_number, term.parts[1:]))
        return (1, wanted, wanted), wanted.bit_count() * (CHOICE, CHOICE_OF_NUMBER, 0)[numbers]

    def of_case(self, term, wanted):
        choices = sum(CHOICE_OF_NUMBER if is_number(arm) else CHOICE for arm in term.parts[1:-1])
        tests = EQUAL_OF_NUMBER * self.widths.of(term.parts[0]) * len(term.more)
        return (self.full(term.parts[0]), *([wanted] * len(term.parts[1:]))), wanted.bit_count() * choices + tests

    def of_op(self, term, wanted):
        if len(term.parts) == 1:
            return (wanted,), 0
        left, right = (self.ones.of(part) for part in term.parts)
        numbers = any(map(is_number, term.parts))
        if term.word in LOGIC:
            parts = (wanted & right, wanted & left) if term.word == "&" else (wanted, wanted)
            return parts, 0 if numbers else LOGIC[term.word] * (wanted & left & right).bit_count()
        if term.word in ("<<", ">>"):
            return self.shift(term, wanted)
        low = below(wanted)
        if term.word in ("+", "-"):
            return (low, low), (SUM_OF_NUMBER if numbers else SUM) * (low & below(left | right)).bit_count()
        if term.word == "*":
            rows = (min(left.bit_length(), low.bit_length() - row) for row in range(min(right.bit_length(), low.bit_length())))
            return (low, low), self.products * sum(rows)
        compared = (left | right).bit_count() if wanted else 0
        each = EQUAL_OF_NUMBER if numbers else EQUAL if term.word in ("==", "!=") else LESS
        return tuple(self.full(part) if wanted else 0 for part in term.parts), each * compared

    def shift(self, term, wanted):
        left, right = term.parts
        if is_number(right):
            by = min(value(right), 128)
            return (wanted >> by if term.word == "<<" else wanted << by, 0), 0
        width = self.widths.of(term)
        return (self.full(left), self.full(right)), CHOICE * width * min(self.widths.of(right), width.bit_length()) if wanted else 0
