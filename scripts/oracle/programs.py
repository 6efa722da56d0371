"""Programs that are made at random from a number, with groups, loops that end, and every kind of expression.

They are accepted, and main gives a value; the number of its calls is small for most of them.
"""
from language import COMPARISONS, KEYS, Expr, Function
from printing import Printer

WIDTHS = (1, 2, 3, 4, 4, 5, 7, 8, 8, 8, 8, 12, 16, 33, 64, 128)
NAMES = ("f", "g", "h", "k", "e", "wire", "o2", "_m")
PARAMS = ("x", "y")
FUEL = ("n", 2)


class Dice:
    """Numbers from a seed: the state times an odd number, plus one, modulo 2^64, of which the high bits count."""

    def __init__(self, seed):
        self.state = seed * 0x9E3779B97F4A7C15 % 2**64
        for _ in range(4):
            self.below(2)

    def below(self, n):
        self.state = (self.state * 6364136223846793005 + 1442695040888963407) % 2**64
        return (self.state >> 33) % n

    def pick(self, items):
        return items[self.below(len(items))]

    def happens(self, part, whole):
        return self.below(whole) < part

    def word(self, width):
        """A number of so many bits; small ones and the greatest ones come often."""
        if self.happens(1, 3) or width > 16 and self.happens(2, 3):
            return self.below(min(10, 2**width))
        if self.happens(1, 5):
            return 2**width - 1
        number = 0
        for _ in range(0, width, 16):
            number = number << 16 | self.below(65536)
        return number % 2**width


def op(name, *parts):
    return Expr("op", 0, list(parts), name)


class Bodies:
    """Expressions of a function's body. `above` are the functions that it may call at a site."""

    def __init__(self, dice, above, widths):
        self.dice, self.above, self.widths = dice, above, widths
        self.sites = 0

    def expected(self, w, size, scope):
        """An expression of a width that is given."""
        if size <= 0:
            return self.leaf(w, scope) if self.dice.happens(1, 2) else Expr("num", 0, value=self.dice.word(w))
        form = self.dice.below(9)
        if form == 0:
            return op(self.dice.pick("+-*&|^"), self.expected(w, size - 1, scope), self.expected(w, size - 2, scope))
        if form == 1:
            return self.choice(self.expected(w, size - 1, scope), self.expected(w, size - 1, scope), size, scope)
        if form == 2:
            return self.let(w, size, scope, self.expected)
        if form == 3:
            return self.case(w, size, scope, self.expected)
        return self.rigid(w, size, scope)

    def leaf(self, w, scope):
        found = [name for name, width in scope.items() if width == w]
        if found and not self.dice.happens(1, 6):
            return Expr("var", 0, name=self.dice.pick(found))
        return self.resized(w, scope) or Expr("sized", 0, width=w, value=self.dice.word(w))

    def resized(self, w, scope):
        """A part of a wider variable, or a narrower one with zeros."""
        names = [name for name, width in scope.items() if width != w]
        if not names or self.dice.happens(1, 3):
            return None
        name = self.dice.pick(names)
        width, inner = scope[name], Expr("var", 0, name=name)
        if width < w:
            return Expr("ext", 0, [inner], width=w)
        lo = self.dice.below(width - w + 1)
        return Expr("bits", 0, [inner], hi=lo + w - 1, lo=lo)

    def rigid(self, w, size, scope):
        """One whose width can be found."""
        if size <= 0:
            return self.leaf(w, scope)
        if self.above and self.sites < 4 and self.dice.happens(2, 3):
            return self.call(w, size, scope)
        form = self.dice.below(10)
        if form == 0:
            return op("~", self.rigid(w, size - 1, scope))
        if form == 1:
            return op(self.dice.pick(("<<", ">>")), self.rigid(w, size - 1, scope), self.amount(w, size - 2, scope))
        if form == 2 and w == 1:
            return self.comparison(size, scope)
        if form == 3 and w > 1:
            u = 1 + self.dice.below(w - 1)
            return Expr("cat", 0, [self.rigid(u, size - 1, scope), self.rigid(w - u, size - 2, scope)])
        if form == 4:
            return self.slice(w, size, scope)
        if form == 5:
            return self.choice(self.rigid(w, size - 1, scope), self.expected(w, size - 1, scope), size, scope)
        if form == 6:
            return self.let(w, size, scope, self.rigid)
        if form == 7:
            return self.case(w, size, scope, self.rigid)
        return self.pair(self.dice.pick("+-*&|^"), w, size, scope)

    def pair(self, name, w, size, scope):
        a, b = self.rigid(w, size - 1, scope), self.expected(w, size - 2, scope)
        return op(name, a, b) if self.dice.happens(1, 2) else op(name, b, a)

    def amount(self, w, size, scope):
        """How far to shift: a small number, or a word of any width."""
        if self.dice.happens(1, 2):
            return Expr("num", 0, value=self.dice.below(min(w + 2, 2**w)))
        return self.rigid(self.dice.pick(self.widths), size, scope)

    def comparison(self, size, scope):
        return self.pair(self.dice.pick(COMPARISONS), self.dice.pick(self.widths), size, scope)

    def slice(self, w, size, scope):
        v = self.dice.pick(self.widths)
        if v < w:
            return Expr("ext", 0, [self.rigid(v, size - 1, scope)], width=w)
        lo = self.dice.below(v - w + 1)
        return Expr("bits", 0, [self.rigid(v, size - 1, scope)], hi=lo + w - 1, lo=lo)

    def choice(self, a, b, size, scope):
        return Expr("if", 0, [self.expected(1, size - 2, scope) if self.dice.happens(1, 4) else self.comparison(size - 1, scope), a, b])

    def let(self, w, size, scope, form):
        binds, inner, names = [], dict(scope), list("pqrs")
        for _ in range(1 + self.dice.happens(1, 3)):
            name = names.pop(self.dice.below(len(names)))
            width = self.dice.pick(self.widths)
            is_written = self.dice.happens(1, 2)
            value = (self.expected if is_written else self.rigid)(width, size - 1, scope)
            binds.append((name, 0, width if is_written else None, value))
            inner[name] = width
        return Expr("let", 0, [form(w, size - 1, inner)], binds=binds)

    def case(self, w, size, scope, form):
        v = self.dice.pick(self.widths)
        scrutinee, labels, arms = self.rigid(v, size - 1, scope), [], []
        for _ in range(1 + self.dice.happens(1, 3)):
            value = self.dice.word(v)
            labels.append(Expr("sized", 0, width=v, value=value) if self.dice.happens(1, 3) else Expr("num", 0, value=value))
            arms.append(form(w, size - 2, scope))
        return Expr("case", 0, [scrutinee] + arms + [form(w, size - 2, scope)], labels=labels)

    def call(self, w, size, scope):
        """A call at a site, of a function of this width or of another one's part."""
        callee = self.dice.pick([f for f in self.above if f.width == w] or self.above)
        self.sites += 1
        made = Expr("call", 0, [self.expected(width, size - 1 - self.dice.below(2), scope) for _, _, width in callee.params], name=callee.name)
        if callee.width == w:
            return made
        if callee.width < w:
            return Expr("ext", 0, [made], width=w)
        return Expr("bits", 0, [made], hi=w - 1, lo=0)


class Maker:
    """The definitions of a program, group by group."""

    def __init__(self, seed):
        self.dice = Dice(seed)
        self.widths = [self.dice.pick(WIDTHS) for _ in range(2)]
        self.functions = []
        self.names = list(NAMES)

    def program(self):
        for _ in range(1 + self.dice.below(2) + self.dice.happens(1, 4)):
            self.group(1 + self.dice.happens(1, 3), False)
        self.group(1 + self.dice.happens(1, 6), True)
        return self.functions

    def name(self):
        return self.names.pop(self.dice.below(len(self.names)))

    def group(self, count, is_last):
        """Members of a group. Those of a loop have fuel, of which each turn takes one."""
        loops = count > 1 or self.dice.happens(1, 3)
        names = [self.name() for _ in range(count - is_last)] + (["main"] if is_last else [])
        width = self.dice.pick(self.widths)
        members = []
        for i, name in enumerate(names):
            params = [(FUEL[0], 0, FUEL[1])] if loops else []
            params += [(x, 0, self.dice.pick(self.widths)) for x in PARAMS[:self.dice.below(3)]]
            members.append(Function(name, 0, params, width, None, i > 0))
        for f in members:
            bodies = Bodies(self.dice, list(self.functions), self.widths + [w for _, _, w in f.params])
            scope = {name: w for name, _, w in f.params}
            f.body = self.loop(bodies, members, width, scope) if loops else self.plain(bodies, width, scope)
        self.functions += members

    def plain(self, bodies, width, scope):
        """A body without own calls: two calls at once, one after the other, or any expression."""
        form = self.dice.below(5) if bodies.above else 4
        if form == 0:
            return op(self.dice.pick("+-*&|^"), bodies.call(width, 2, scope), bodies.call(width, 1, scope))
        if form == 1:
            value = bodies.call(width, 1, scope)
            body = op(self.dice.pick("+-*&|^"), bodies.call(width, 1, {**scope, "p": width}), bodies.rigid(width, 1, {**scope, "p": width}))
            return Expr("let", 0, [body], binds=[("p", 0, None, value)])
        if form == 2:
            test = op(self.dice.pick(COMPARISONS), bodies.call(width, 1, scope), bodies.expected(width, 0, scope))
            return Expr("if", 0, [test, bodies.call(width, 1, scope), bodies.expected(width, 1, scope)])
        return bodies.expected(width, 1 + self.dice.below(3), scope) if form == 4 else bodies.rigid(width, 2, scope)

    def loop(self, bodies, members, width, scope):
        """The body of a member that calls one of the group while it has fuel."""
        end = bodies.expected(width, 1 + self.dice.happens(1, 2), scope)
        turn = self.turn(bodies, members, scope)
        test = op("==", Expr("var", 0, name=FUEL[0]), Expr("num", 0, value=0))
        if self.dice.happens(1, 3):
            turn = bodies.choice(turn, self.turn(bodies, members, scope), 1, scope)
        elif self.dice.happens(1, 3):
            inner = self.dice.pick(self.widths)
            turn = Expr("let", 0, [self.turn(bodies, members, {**scope, "t": inner})], binds=[("t", 0, inner, bodies.expected(inner, 1, scope))])
        return Expr("if", 0, [test, end, turn])

    def turn(self, bodies, members, scope):
        callee = self.dice.pick(members)
        args = [op("-", Expr("var", 0, name=FUEL[0]), Expr("num", 0, value=1))]
        args += [bodies.expected(width, 1, scope) for _, _, width in callee.params[1:]]
        return Expr("call", 0, args, name=callee.name)


class Spelling(Printer):
    """Texts with parentheses that may be left out, and with numbers in every base."""

    def __init__(self, dice):
        self.dice = dice

    def part(self, e, layer):
        found = super().part(e, layer)
        return ["("] + found + [")"] if self.dice.happens(1, 12) else found

    def number(self, e):
        if e.kind == "num":
            return super().number(e)
        base = self.dice.pick("dhb" if e.width <= 8 else "dh")
        return [f"{e.width}'{base}{e.value:{base.replace('h', 'x')}}"]


def joined(tokens):
    """The tokens with as few blanks as a reader likes."""
    text, before = "", ""
    for token in tokens:
        is_call = token == "(" and before not in KEYS - {"cat", "bits", "ext"} and (before[:1].isalpha() or before[:1] == "_")
        tight = not before or before in ("(", "~", ":") or token in (")", ",", ":", ";") or is_call
        text += token if tight else " " + token
        before = token
    return text


def made(seed):
    """The source of a number, a line for each definition, and main's arguments."""
    maker = Maker(seed)
    functions = maker.program()
    spelling = Spelling(maker.dice)
    lines = [joined(spelling.definition(f)) for f in functions]
    return lines, [maker.dice.word(width) for _, _, width in functions[-1].params]
