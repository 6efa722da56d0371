"""SAFL: tokens, grammar, limits, checking, meaning. Written from docs/LANGUAGE.md alone."""
import functools
import re
from dataclasses import dataclass, field

KEYS = {"fun", "if", "then", "else", "let", "in", "case", "default", "cat", "bits", "ext", "and"}
SYMBOLS = ["=>", "==", "!=", "<=", ">=", "<<", ">>", "(", ")", "{", "}", ",", ":", ";", "=", "<", ">", "+", "-", "*", "&", "|", "^", "~"]
BASES = {"d": (10, "0123456789"), "h": (16, "0123456789abcdefABCDEF"), "b": (2, "01")}
LETTERS = "abcdefghijklmnopqrstuvwxyzABCDEFGHIJKLMNOPQRSTUVWXYZ_"
DIGITS = "0123456789"
SOURCE_MAX = 1_048_576
TEXTS = {
    "E01": "foreign byte", "E02": "unexpected token", "E03": "name or number too long", "E04": "nesting too deep",
    "E05": "bad width or range", "E06": "function defined twice", "E07": "name twice in one list", "E08": "unknown variable",
    "E09": "function not defined above", "E10": "own call outside tail position", "E11": "wrong number of arguments: {} and {}",
    "E12": "widths differ: {} and {}", "E13": "literal too large", "E14": "width not known", "E15": "last definition is not main",
    "E16": "limit: {} {}",
}


class Fault(Exception):
    """The first fault of a text: its rule, the place of its byte, and the numbers or the name that its text has."""

    def __init__(self, rule, place, *values):
        super().__init__(rule, place)
        self.rule, self.place, self.values = rule, place, values


def place_text(text, place):
    """LINE:COL of a place of a text of bytes."""
    before = text[:place]
    return f"{before.count(10) + 1}:{place - (before.rfind(10) + 1) + 1}"


def fault_line(name, text, fault):
    return f"{name}:{place_text(text, fault.place)}: {fault.rule} {TEXTS[fault.rule].format(*fault.values)}"


@dataclass
class Token:
    kind: str  # name, key, num, sized, symbol, end
    text: str
    place: int
    width: int = 0
    value: int = 0


@functools.lru_cache
def pattern_of(letters):
    return re.compile(f"[{re.escape(letters)}]*")


def run_of(text, at, letters):
    """Where a run of these letters ends that begins there."""
    return pattern_of(letters).match(text, at).end()


def tokens_of(source):
    """The tokens of the bytes, the end as the last one. E01 and E03 come at the first byte that makes them."""
    text = source.decode("latin-1")
    found, at = [], 0
    while at < len(text):
        c = text[at]
        if c in " \t\r\n":
            at = run_of(text, at, " \t\r\n")
        elif text.startswith("//", at):
            end = text.find("\n", at)
            at = len(text) if end < 0 else end
        elif c in LETTERS:
            end = run_of(text, at, LETTERS + DIGITS)
            if end - at > 64:
                raise Fault("E03", at)
            word = text[at:end]
            found.append(Token("key" if word in KEYS else "name", word, at))
            at = end
        elif c in DIGITS:
            at = number_at(text, at, found)
        else:
            symbol = next((s for s in SYMBOLS if text.startswith(s, at)), None)
            if symbol is None:
                raise Fault("E01", at)
            found.append(Token("symbol", symbol, at))
            at += len(symbol)
    found.append(Token("end", "", len(text)))
    return found


def number_at(text, at, found):
    end = run_of(text, at, DIGITS)
    digits = text[at:end]
    if end + 1 < len(text) and text[end] == "'" and text[end + 1] in BASES:
        base, allowed = BASES[text[end + 1]]
        stop = run_of(text, end + 2, allowed)
        if stop > end + 2:
            inner = text[end + 2:stop]
            if len(digits) > 128 or len(inner) > 128 or int(digits) >= 1 << 128 or int(inner, base) >= 1 << 128:
                raise Fault("E03", at)
            found.append(Token("sized", text[at:stop], at, int(digits), int(inner, base)))
            return stop
    if len(digits) > 128 or int(digits) >= 1 << 128:
        raise Fault("E03", at)
    found.append(Token("num", digits, at, 0, int(digits)))
    return end


@dataclass
class Expr:
    """An expression: its kind, its place, its parts, and what else its kind has."""

    kind: str  # num, sized, var, op, if, let, call, cat, bits, ext, case
    place: int
    parts: list = field(default_factory=list)
    name: str = ""  # operator, variable, called function
    width: int = 0  # of a sized literal, of ext
    value: int = 0
    binds: list = field(default_factory=list)  # of a let: (name, place, width or None, value)
    labels: list = field(default_factory=list)  # of a case
    hi: int = 0
    lo: int = 0
    depth: int = 1
    site: int = 0  # of a call that is no tail call
    bits: int = 0  # the width that was found or expected
    text_place: int = 0  # of a called name, whatever parentheses stand round the call


@dataclass
class Function:
    name: str
    place: int
    params: list  # (name, place, width)
    width: int
    body: Expr
    joined: bool
    group: int = 0


def deepest(parts):
    return max((part.depth for part in parts), default=0)


class Parser:
    """Reads the grammar with one token of look-ahead. E04 comes before E02, and E02 before E05, at one token."""

    def __init__(self, source):
        self.tokens = tokens_of(source)
        self.at = 0

    @property
    def token(self):
        return self.tokens[self.at]

    def next(self):
        token = self.token
        self.at += 1
        return token

    def is_(self, text):
        return self.token.text == text and self.token.kind in ("symbol", "key")

    def want(self, text):
        if not self.is_(text):
            raise Fault("E02", self.token.place)
        return self.next()

    def want_kind(self, kind):
        if self.token.kind != kind:
            raise Fault("E02", self.token.place)
        return self.next()

    def width(self):
        token = self.want_kind("num")
        if not 1 <= token.value <= 128:
            raise Fault("E05", token.place)
        return token.value

    def program(self):
        functions = []
        while self.token.kind != "end":
            if not self.is_("fun"):
                raise Fault("E02", self.token.place)
            self.next()
            functions.append(self.one(False))
            while self.is_("and"):
                self.next()
                functions.append(self.one(True))
            if self.is_(";"):
                self.next()
        return functions

    def one(self, joined):
        name = self.want_kind("name")
        self.want("(")
        params = []
        if not self.is_(")"):
            params.append(self.param())
            while self.is_(","):
                self.next()
                params.append(self.param())
        self.want(")")
        self.want(":")
        width = self.width()
        self.want("=")
        return Function(name.text, name.place, params, width, self.expr(1), joined)

    def param(self):
        name = self.want_kind("name")
        self.want(":")
        return (name.text, name.place, self.width())

    def expr(self, level):
        self.begins(level)
        if self.is_("if"):
            return self.if_(level)
        if self.is_("let"):
            return self.let(level)
        if self.is_("case"):
            return self.case(level)
        return self.chain(0, level)

    def begins(self, level):
        if level > 100:
            raise Fault("E04", self.token.place)

    def if_(self, level):
        place = self.next().place
        c = self.expr(level + 1)
        self.want("then")
        a = self.expr(level + 1)
        self.want("else")
        b = self.expr(level + 1)
        return Expr("if", place, [c, a, b], depth=1 + deepest([c, a, b]))

    def let(self, level):
        place = self.next().place
        binds = [self.bind(level)]
        while self.is_(","):
            self.next()
            binds.append(self.bind(level))
        self.want("in")
        body = self.expr(level + 1)
        return Expr("let", place, [body], binds=binds, depth=1 + deepest([b[3] for b in binds] + [body]))

    def bind(self, level):
        name = self.want_kind("name")
        width = None
        if self.is_(":"):
            self.next()
            width = self.width()
        self.want("=")
        return (name.text, name.place, width, self.expr(level + 1))

    def case(self, level):
        place = self.next().place
        scrutinee = self.expr(level + 1)
        self.want("{")
        labels, arms = [], []
        while not self.is_("default"):
            if self.token.kind not in ("num", "sized"):
                raise Fault("E02", self.token.place)
            labels.append(self.literal())
            self.want("=>")
            arms.append(self.expr(level + 2 + len(arms)))
            self.want(",")
        self.next()
        self.want("=>")
        arms.append(self.expr(level + 2 + len(arms)))
        self.want("}")
        depth = arms[-1].depth
        for arm in reversed(arms[:-1]):
            depth = 1 + max(2, arm.depth, depth)
        return Expr("case", place, [scrutinee] + arms, labels=labels, depth=1 + max(scrutinee.depth, depth))

    def literal(self):
        token = self.next()
        if token.kind == "sized":
            if not 1 <= token.width <= 128:
                raise Fault("E05", token.place)
            return Expr("sized", token.place, width=token.width, value=token.value)
        return Expr("num", token.place, value=token.value)

    LAYERS = [["|"], ["^"], ["&"], ["==", "!=", "<", "<=", ">", ">="], ["<<", ">>"], ["+", "-"], ["*"]]

    def chain(self, layer, level):
        if layer == len(self.LAYERS):
            return self.unary(level)
        left = self.chain(layer + 1, level)
        while self.token.kind == "symbol" and self.token.text in self.LAYERS[layer]:
            if left.depth >= 100:
                raise Fault("E04", self.token.place)
            op = self.next().text
            right = self.chain(layer + 1, level)
            left = Expr("op", left.place, [left, right], name=op, depth=1 + deepest([left, right]))
            if layer == 3:
                break
        return left

    def unary(self, level):
        if self.is_("~"):
            place = self.next().place
            self.begins(level + 1)
            inner = self.unary(level + 1)
            return Expr("op", place, [inner], name="~", depth=1 + inner.depth)
        return self.primary(level)

    def primary(self, level):
        token = self.token
        if token.kind in ("num", "sized"):
            return self.literal()
        if token.kind == "name":
            self.next()
            return self.call(token, level) if self.is_("(") else Expr("var", token.place, name=token.text)
        if self.is_("("):
            self.next()
            inner = self.expr(level + 1)
            self.want(")")
            inner.place = token.place
            return inner
        if token.kind == "key" and token.text in ("cat", "bits", "ext"):
            self.next()
            return self.word(token, level)
        raise Fault("E02", token.place)

    def call(self, name, level):
        self.next()
        args = []
        if not self.is_(")"):
            args.append(self.expr(level + 1))
            while self.is_(","):
                self.next()
                args.append(self.expr(level + 1))
        self.want(")")
        made = Expr("call", name.place, args, name=name.text, depth=1 + deepest(args))
        made.text_place = name.place
        return made

    def word(self, token, level):
        self.want("(")
        first = self.expr(level + 1)
        self.want(",")
        if token.text == "cat":
            second = self.expr(level + 1)
            made = Expr("cat", token.place, [first, second], depth=1 + deepest([first, second]))
        elif token.text == "bits":
            hi = self.bit()
            self.want(",")
            made = Expr("bits", token.place, [first], hi=hi, lo=self.bit(), depth=1 + first.depth)
        else:
            made = Expr("ext", token.place, [first], width=self.width(), depth=1 + first.depth)
        self.want(")")
        return made

    def bit(self):
        token = self.want_kind("num")
        if token.value > 127:
            raise Fault("E05", token.place)
        return token.value


def rewritten(e):
    """The expression with each case rewritten into a let and ifs."""
    parts = [rewritten(part) for part in e.parts]
    if e.kind != "case":
        made = Expr(e.kind, e.place, parts, e.name, e.width, e.value, hi=e.hi, lo=e.lo)
        made.binds = [(name, place, width, rewritten(value)) for name, place, width, value in e.binds]
        made.text_place = e.text_place
        return made
    scrutinee, arms = parts[0], parts[1:]
    body = arms[-1]
    for label, arm in reversed(list(zip(e.labels, arms))):
        test = Expr("op", label.place, [Expr("var", label.place, name="$case"), rewritten(label)], "==")
        body = Expr("if", e.place, [test, arm, body])
    return Expr("let", e.place, [body], binds=[("$case", e.place, None, scrutinee)])


def all_parts(e):
    """The expression and all in it; bindings before the body."""
    stack, found = [e], []
    while stack:
        now = stack.pop()
        found.append(now)
        stack.extend(reversed([b[3] for b in now.binds] + now.parts))
    return found


def is_flexible(e):
    if e.kind == "num":
        return True
    if e.kind == "op" and e.name in ("+", "-", "*", "&", "|", "^", "~"):
        return all(is_flexible(part) for part in e.parts)
    if e.kind == "if":
        return is_flexible(e.parts[1]) and is_flexible(e.parts[2])
    return e.kind == "let" and is_flexible(e.parts[0])


COMPARISONS = ("==", "!=", "<", "<=", ">", ">=")


class Checker:
    """Walks in the order of checking, and gives each expression its width. `self.members` are those of the group, by name."""

    def __init__(self, functions):
        self.functions = functions
        self.above = {}
        self.members = {}

    def check(self):
        self.limits()
        first = 0
        names = set()
        while first < len(self.functions):
            last = first + 1
            while last < len(self.functions) and self.functions[last].joined:
                last += 1
            self.group(self.functions[first:last], names)
            first = last
        if not self.functions or self.functions[-1].name != "main":
            raise Fault("E15", self.functions[-1].place if self.functions else 0)

    def limits(self):
        if len(self.functions) > 1000:
            raise Fault("E16", self.functions[1000].place, "functions", 1000)
        sites = nodes = 0
        group_names = self.names_of_groups()
        for f, own in zip(self.functions, group_names):
            if len(f.params) > 16:
                raise Fault("E16", f.params[16][1], "parameters", 16)
            parts = all_parts(f.body)
            lets = sorted((e for e in parts if len(e.binds) > 16), key=lambda e: e.place)
            if lets:
                raise Fault("E16", lets[0].binds[16][1], "bindings", 16)
            sites += sum(1 for e in parts if e.kind == "call" and e.name not in own)
            if sites > 4000:
                raise Fault("E16", f.place, "sites", 4000)
            nodes += len(parts)
            if nodes > 50000:
                raise Fault("E16", f.place, "nodes", 50000)

    def names_of_groups(self):
        groups, found = [], []
        for f in self.functions:
            if not f.joined:
                groups.append(set())
            f.group = len(groups) - 1
            groups[-1].add(f.name)
        for f in self.functions:
            found.append(groups[f.group])
        return found

    def group(self, members, names):
        for f in members:
            if f.name in names:
                raise Fault("E06", f.place)
            names.add(f.name)
            if f.width != members[0].width:
                raise Fault("E12", f.place, members[0].width, f.width)
            seen = set()
            for name, place, _ in f.params:
                if name in seen:
                    raise Fault("E07", place)
                seen.add(name)
        self.members = {f.name: f for f in members}
        for f in members:
            self.expected(f.body, f.width, {name: width for name, _, width in f.params}, True)
        self.above.update(self.members)

    def expected(self, e, w, scope, tail):
        e.bits = w
        if e.kind == "op" and e.name in ("+", "-", "*", "&", "|", "^", "~"):
            for part in e.parts:
                self.expected(part, w, scope, False)
        elif e.kind == "if":
            self.expected(e.parts[0], 1, scope, False)
            self.expected(e.parts[1], w, scope, tail)
            self.expected(e.parts[2], w, scope, tail)
        elif e.kind == "let":
            self.expected(e.parts[0], w, self.bindings(e, scope), tail)
        elif e.kind == "num":
            if e.value >= 1 << w:
                raise Fault("E13", e.place)
        else:
            found = self.found(e, scope, tail)
            if found != w:
                raise Fault("E12", e.place, w, found)

    def bindings(self, e, scope):
        seen = set()
        for name, place, _, _ in e.binds:
            if name in seen:
                raise Fault("E07", place)
            seen.add(name)
        inner = dict(scope)
        for name, place, width, value in e.binds:
            if width is not None:
                self.expected(value, width, scope, False)
                inner[name] = width
            else:
                inner[name] = self.found(value, scope, False)
        return inner

    def found(self, e, scope, tail=False):
        if is_flexible(e):
            raise Fault("E14", e.place)
        e.bits = self.found_rigid(e, scope, tail)
        return e.bits

    def pair(self, a, b, scope):
        if not is_flexible(a):
            w = self.found(a, scope)
            self.expected(b, w, scope, False)
        else:
            w = self.found(b, scope)
            self.expected(a, w, scope, False)
        return w

    def found_rigid(self, e, scope, tail):
        if e.kind == "op":
            return self.operator(e, scope)
        if e.kind == "if":
            self.expected(e.parts[0], 1, scope, False)
            return self.pair(e.parts[1], e.parts[2], scope)
        if e.kind == "let":
            return self.found(e.parts[0], self.bindings(e, scope))
        if e.kind == "sized":
            if e.value >= 1 << e.width:
                raise Fault("E13", e.place)
            return e.width
        if e.kind == "var":
            if e.name not in scope:
                raise Fault("E08", e.place)
            return scope[e.name]
        if e.kind == "call":
            return self.call(e, scope, tail)
        widths = [self.found(part, scope) for part in e.parts]
        if e.kind == "cat":
            if sum(widths) > 128:
                raise Fault("E05", e.place)
            return sum(widths)
        if e.kind == "bits":
            if not e.lo <= e.hi < widths[0]:
                raise Fault("E05", e.place)
            return e.hi - e.lo + 1
        if not widths[0] <= e.width:
            raise Fault("E05", e.place)
        return e.width

    def operator(self, e, scope):
        if e.name == "~":
            return self.found(e.parts[0], scope)
        a, b = e.parts
        if e.name in COMPARISONS:
            if is_flexible(a) and is_flexible(b):
                raise Fault("E14", e.place)
            self.pair(a, b, scope)
            return 1
        if e.name in ("<<", ">>"):
            w = self.found(a, scope)
            if is_flexible(b):
                self.expected(b, w, scope, False)
            else:
                self.found(b, scope)
            return w
        return self.pair(a, b, scope)

    def call(self, e, scope, tail):
        if e.name in self.members:
            if not tail:
                raise Fault("E10", e.place)
            callee = self.members[e.name]
        elif e.name in self.above:
            callee = self.above[e.name]
        else:
            raise Fault("E09", e.place)
        if len(e.parts) != len(callee.params):
            raise Fault("E11", e.place, len(callee.params), len(e.parts))
        for part, (_, _, width) in zip(e.parts, callee.params):
            self.expected(part, width, scope, False)
        return callee.width


class Program:
    """A checked program: functions, sites by number from 1, groups as lists of functions."""

    def __init__(self, functions):
        self.functions = functions
        self.by_name = {f.name: f for f in functions}
        self.groups = []
        for i, f in enumerate(functions):
            f.index = i
            if not f.joined:
                self.groups.append([])
            f.group = len(self.groups) - 1
            self.groups[-1].append(f)
        self.main = functions[-1]
        calls = []
        for f in functions:
            for e in all_parts(f.body):
                if e.kind == "call":
                    e.callee = self.by_name[e.name]
                    e.caller = f
                    e.is_tail = e.callee.group == f.group
                    if not e.is_tail:
                        calls.append(e)
        calls.sort(key=lambda e: e.text_place)
        self.sites = [None] + calls
        for number, e in enumerate(calls, 1):
            e.site = number


def accept(source):
    """The checked program of a source, or its first fault."""
    functions = Parser(source).program()
    for f in functions:
        f.body = rewritten(f.body)
    checker = Checker(functions)
    checker.check()
    return Program(functions)


def apply(name, width, values, operand_widths, hi=0, lo=0):
    """What an operator gives; `width` is that of the result."""
    a = values[0]
    b = values[1] if len(values) > 1 else 0
    mask = (1 << width) - 1
    w = operand_widths[0]
    results = {
        "+": lambda: a + b & mask, "-": lambda: a - b & mask, "*": lambda: a * b & mask,
        "&": lambda: a & b, "|": lambda: a | b, "^": lambda: a ^ b, "~": lambda: mask - a,
        "==": lambda: int(a == b), "!=": lambda: int(a != b), "<": lambda: int(a < b),
        "<=": lambda: int(a <= b), ">": lambda: int(a > b), ">=": lambda: int(a >= b),
        "<<": lambda: 0 if b >= w else a << b & mask, ">>": lambda: 0 if b >= w else a >> b,
        "cat": lambda: a << operand_widths[1] | b, "bits": lambda: a >> lo & mask, "ext": lambda: a,
    }
    return results[name]()
