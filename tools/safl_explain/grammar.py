"""The definitions of a source. What can't be parsed is a fault that says what is expected, and what is still open."""
from dataclasses import dataclass, field

from safl_explain import hints
from safl_explain.report import Fault, Spot, counted, listed
from safl_explain.tokens import parts_of

WIDTH_MOST, INDEX_MOST = 128, 127
COMPARISONS = ("==", "!=", "<", "<=", ">", ">=")
LEVELS = (("|",), ("^",), ("&",), COMPARISONS, ("<<", ">>"), ("+", "-"), ("*",))
EXPRESSION, OPERATOR, END = "an expression", "an operator", "the end of the definition"
AFTER = {"`fun`", "`and`", "`;`", "the end of the text"}  # what may follow a definition


@dataclass(eq=False)
class Node:
    """An expression: its kind, where it stands (with the parentheses around it), its parts, and what its token says."""

    kind: str
    place: int
    end: int
    parts: list = field(default_factory=list)
    text: str = ""
    width: int = None
    value: int = None
    names: list = field(default_factory=list)  # the bindings of a let: Binding


@dataclass(eq=False)
class Binding:
    """A parameter or a binding of a let: its name, its written width or None, and where its name is."""

    name: str
    place: int
    width: int = None

    @property
    def end(self):
        return self.place + len(self.name)


@dataclass(eq=False)
class Definition:
    """A function: its name, parameters, the width of its result and where that stands, its body, and where its group begins."""

    name: str
    place: int
    parameters: list
    width: int
    width_spot: Spot
    body: Node = None
    group: int = 0

    @property
    def end(self):
        return self.place + len(self.name)

    @property
    def head(self):
        return f"{self.name}({', '.join(f'{each.name}:{each.width}' for each in self.parameters)})"


class Parser:
    """Reads the grammar from left to right. Each question about the next token is noted, so that it is known what is expected."""

    def __init__(self, text, tokens):
        self.text, self.tokens, self.at = text, tokens, 0
        self.wanted, self.open, self.definitions = [], [], []

    @property
    def token(self):
        return self.tokens[self.at]

    @property
    def before(self):
        return self.tokens[self.at - 1] if self.at else None

    def is_next(self, *texts, what=None):
        """Whether the next token is one of these symbols or keywords."""
        self.wanted += [what] if what else [f"`{text}`" for text in texts]
        return self.token.text in texts and self.token.kind in ("symbol", "keyword")

    def next(self):
        self.at, self.wanted = self.at + 1, []
        return self.before

    def skip(self, text, what=None):
        return self.next() if self.is_next(text, what=what) else self.refuse()

    def kind(self, kind, what):
        self.wanted.append(what)
        return self.next() if self.token.kind == kind else self.refuse()

    def refuse(self):
        """E02 at the next token."""
        token, wanted = self.token, list(dict.fromkeys(self.wanted))
        if EXPRESSION in wanted:
            wanted = [word for word in wanted if word in (EXPRESSION, "`)`")]
        shown = [word for word in wanted if word not in AFTER] + ([END] if AFTER <= set(wanted) else [])
        label = f"{token.shown} can't come here: expected {listed(shown)}"
        row, advice = hints.unexpected(self, wanted)
        raise Fault("E02", token.place, token.end, label, self.unfinished(wanted), advice, row)

    def unfinished(self, wanted):
        """The innermost construct that is still open, and the token before, if the fault stands on a later line."""
        spots = [Spot(token.place, token.end, label) for token, label in self.open[-1:]]
        before = self.before
        if before and "\n" in self.text[before.end:self.token.place] and EXPRESSION in wanted:
            spots.append(Spot(before.place, before.end, "after this an expression is missing"))
        return spots

    def opened(self, label):
        self.open.append((self.before, label))

    def number(self, low, high, what):
        """A written width or index."""
        token = self.kind("num", what)
        _, value = parts_of(token)
        if not low <= value <= high:
            raise Fault("E05", token.place, token.end, f"{what} is {low} to {high}")
        return token, value

    def width(self):
        return self.number(1, WIDTH_MOST, "a width in bits")

    def program(self):
        while True:
            self.wanted.append("the end of the text")
            if self.token.kind == "end":
                return self.definitions
            self.skip("fun")
            group = len(self.definitions)
            self.definition(group)
            while self.is_next("and"):
                self.next()
                self.definition(group)
            if self.is_next(";"):
                self.next()

    def definition(self, group):
        name = self.kind("name", "a name")
        self.skip("(")
        self.opened("the list of parameters begins here")
        parameters = self.parameters()
        self.open.pop()
        self.skip(":", what="`:` and the width of the result")
        token, width = self.width()
        spot = Spot(token.place, token.end, f"the result of `{name.text}` has {counted(width, 'bit')}")
        found = Definition(name.text, name.place, parameters, width, spot, group=group)
        self.skip("=")
        found.body = self.expression()
        self.definitions.append(found)

    def parameters(self):
        found = []
        if self.is_next(")"):
            self.next()
            return found
        while True:
            name = self.kind("name", "a name")
            self.skip(":", what="`:` and a width")
            found.append(Binding(name.text, name.place, self.width()[1]))
            if self.is_next(","):
                self.next()
                continue
            self.skip(")")
            return found

    def expression(self):
        self.wanted.append(EXPRESSION)
        begin = {"if": self.choice, "let": self.let, "case": self.case}.get(self.token.text)
        return begin() if begin and self.token.kind == "keyword" else self.level(0)

    def choice(self):
        begin = self.skip("if")
        self.opened("this `if` is not complete: it has a `then` and an `else`")
        parts = [self.expression()]
        self.skip("then")
        parts.append(self.expression())
        self.skip("else")
        parts.append(self.expression())
        self.open.pop()
        return Node("if", begin.place, parts[-1].end, parts)

    def let(self):
        begin, names, parts = self.skip("let"), [], []
        self.opened("this `let` is not complete: it has an `in`")
        while True:
            name, width = self.kind("name", "a name"), None
            if self.is_next(":"):
                self.next()
                width = self.width()[1]
            self.skip("=")
            names.append(Binding(name.text, name.place, width))
            parts.append(self.expression())
            if not self.is_next(","):
                break
            self.next()
        self.skip("in")
        parts.append(self.expression())
        self.open.pop()
        return Node("let", begin.place, parts[-1].end, parts, names=names)

    def case(self):
        begin = self.skip("case")
        self.opened("this `case` is not complete: it ends with a `default` and `}`")
        parts = [self.expression()]
        self.skip("{")
        while not self.is_next("default"):
            self.wanted.append("a number")
            if self.token.kind not in ("num", "sized"):
                self.refuse()
            parts.append(self.literal())
            self.skip("=>")
            parts.append(self.expression())
            self.skip(",")
        self.next()
        self.skip("=>")
        parts.append(self.expression())
        end = self.skip("}")
        self.open.pop()
        return Node("case", begin.place, end.end, parts)

    def level(self, level):
        """The operators of a level and of those that bind more tightly."""
        if level == len(LEVELS):
            return self.unary()
        left = self.level(level + 1)
        while self.is_next(*LEVELS[level], what=OPERATOR):
            symbol = self.next()
            self.wanted.append(EXPRESSION)
            right = self.level(level + 1)
            left = Node("op", left.place, right.end, [left, right], symbol.text)
            if LEVELS[level] == COMPARISONS:
                break
        return left

    def unary(self):
        self.wanted.append(EXPRESSION)
        if self.token.text == "~" and self.token.kind == "symbol":
            begin = self.next()
            part = self.unary()
            return Node("not", begin.place, part.end, [part], "~")
        return self.primary()

    def primary(self):
        token = self.token
        if token.kind in ("num", "sized"):
            return self.literal()
        if token.kind == "name":
            self.next()
            return self.call(token) if self.token.text == "(" else Node("var", token.place, token.end, text=token.text)
        if token.text == "(":
            return self.grouped()
        build = {"cat": self.cat, "bits": self.bits, "ext": self.ext}.get(token.text)
        return build() if build and token.kind == "keyword" else self.refuse()

    def literal(self):
        token = self.next()
        width, value = parts_of(token)
        if width is not None and not 1 <= width <= WIDTH_MOST:
            raise Fault("E05", token.place, token.end, f"a width in bits is 1 to {WIDTH_MOST}, and {width} is none")
        return Node(token.kind, token.place, token.end, text=token.text, width=width, value=value)

    def grouped(self):
        begin = self.skip("(")
        self.opened("this parenthesis is not closed")
        found = self.expression()
        end = self.skip(")")
        self.open.pop()
        found.place, found.end = begin.place, end.end
        return found

    def call(self, name):
        self.skip("(")
        self.opened(f"the arguments of `{name.text}` begin here")
        found = Node("call", name.place, name.end, text=name.text)
        if not self.is_next(")"):
            found.parts.append(self.expression())
            while self.is_next(","):
                self.next()
                found.parts.append(self.expression())
        found.end = self.skip(")").end
        self.open.pop()
        return found

    def word(self, form):
        begin = self.next()
        self.skip("(")
        self.opened(f"it is written `{form}`")
        return begin

    def closed(self, node):
        node.end = self.skip(")").end
        self.open.pop()
        return node

    def cat(self):
        found = Node("cat", self.word("cat(a, b)").place, 0, text="cat")
        found.parts.append(self.expression())
        self.skip(",")
        found.parts.append(self.expression())
        return self.closed(found)

    def bits(self):
        found = Node("bits", self.word("bits(a, HIGHEST, LOWEST)").place, 0, text="bits")
        found.parts.append(self.expression())
        self.skip(",")
        _, found.value = self.number(0, INDEX_MOST, "the number of a bit")
        self.skip(",")
        _, found.width = self.number(0, INDEX_MOST, "the number of a bit")
        return self.closed(found)

    def ext(self):
        found = Node("ext", self.word("ext(a, WIDTH)").place, 0, text="ext")
        found.parts.append(self.expression())
        self.skip(",")
        _, found.width = self.width()
        return self.closed(found)
