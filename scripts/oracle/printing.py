"""The text of a program: its tokens with a blank between them, a line for each definition, and as few parentheses as the grammar allows."""

LAYERS = (("|",), ("^",), ("&",), ("==", "!=", "<", "<=", ">", ">="), ("<<", ">>"), ("+", "-"), ("*",))
LAYER_OF = {name: layer for layer, names in enumerate(LAYERS) for name in names}
COMPARISONS, UNARY, PRIMARY = 3, len(LAYERS), len(LAYERS) + 1


def layer_of(e):
    """What the grammar derives the expression as: -1 for what only a whole expression is."""
    if e.kind in ("if", "let", "case"):
        return -1
    if e.kind == "op":
        return UNARY if e.name == "~" else LAYER_OF[e.name]
    return PRIMARY


def listed(items):
    """Lists of tokens with commas between them."""
    found = []
    for i, item in enumerate(items):
        found += ([","] if i else []) + item
    return found


class Printer:
    """The tokens of expressions and definitions."""

    def part(self, e, layer):
        """The tokens of an expression that stands where the grammar has this layer."""
        found = self.tokens(e)
        return found if layer_of(e) >= layer else ["("] + found + [")"]

    def whole(self, e):
        """Those of one that stands where the grammar has a whole expression."""
        return self.part(e, -1)

    def operator(self, e):
        if e.name == "~":
            return ["~"] + self.part(e.parts[0], UNARY)
        layer = LAYER_OF[e.name]
        left = layer + 1 if layer == COMPARISONS else layer
        return self.part(e.parts[0], left) + [e.name] + self.part(e.parts[1], layer + 1)

    def let(self, e):
        binds = []
        for name, _, width, value in e.binds:
            binds.append([name] + ([":", str(width)] if width is not None else []) + ["="] + self.whole(value))
        return ["let"] + listed(binds) + ["in"] + self.whole(e.parts[0])

    def case(self, e):
        found = ["case"] + self.whole(e.parts[0]) + ["{"]
        for label, arm in zip(e.labels, e.parts[1:]):
            found += self.tokens(label) + ["=>"] + self.whole(arm) + [","]
        return found + ["default", "=>"] + self.whole(e.parts[-1]) + ["}"]

    def number(self, e):
        return [str(e.value) if e.kind == "num" else f"{e.width}'d{e.value}"]

    def tokens(self, e):
        if e.kind in ("num", "sized"):
            return self.number(e)
        if e.kind == "var":
            return [e.name]
        if e.kind == "op":
            return self.operator(e)
        if e.kind == "if":
            c, a, b = e.parts
            return ["if"] + self.whole(c) + ["then"] + self.whole(a) + ["else"] + self.whole(b)
        if e.kind == "let":
            return self.let(e)
        if e.kind == "case":
            return self.case(e)
        behind = {"bits": [[str(e.hi)], [str(e.lo)]], "ext": [[str(e.width)]]}.get(e.kind, [])
        name = e.name if e.kind == "call" else e.kind
        return [name, "("] + listed([self.whole(part) for part in e.parts] + behind) + [")"]

    def definition(self, f):
        params = listed([[name, ":", str(width)] for name, _, width in f.params])
        head = ["and" if f.joined else "fun", f.name, "("] + params + [")", ":", str(f.width), "="]
        return head + self.whole(f.body)


def text_of(functions):
    return "".join(" ".join(Printer().definition(f)) + "\n" for f in functions)
