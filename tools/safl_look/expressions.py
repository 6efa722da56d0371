"""The bodies of a checked source as trees: what is evaluated beside what, what after what, and which words are joined by `cat`.

Operators are not ordered by their precedence: all operands of an expression are evaluated at the same time anyway.
"""
from dataclasses import dataclass, field

from safl_explore.definitions import tokens

COMPARISONS = {"==", "!=", "<", "<=", ">", ">="}
SHIFTS = {"<<", ">>"}
OPERATORS = COMPARISONS | SHIFTS | set("+-*&|^")


@dataclass
class Tree:
    """An expression: its kind, its parts, and where it begins and ends in the text.

    A `let` has its bindings and then its body; a `case` what it selects by and then its arms. The word is a name, the digits of a
    literal, or the operators between the parts; the width is one that is written, and the names are those of bindings.
    """

    kind: str
    begin: int
    end: int = 0
    parts: list = field(default_factory=list)
    word: str = ""
    width: int = None
    names: list = field(default_factory=list)
    site: int = 0


@dataclass
class Function:
    """A function: its name, the first function of its group, its parameters with their widths, its own width, and its body."""

    name: str
    unit: str
    parameters: dict
    width: int
    body: Tree


class Reader:
    """Reads the words of a checked source from left to right."""

    def __init__(self, text):
        self.words, self.at = [*tokens(text), ("", len(text))], 0

    @property
    def word(self):
        return self.words[self.at][0]

    @property
    def place(self):
        return self.words[self.at][1]

    def taken(self, count=1):
        """The next word; as many words are left behind."""
        word = self.word
        self.at += count
        return word

    def ended(self, tree):
        """The tree, which ends with the last word that was taken."""
        word, place = self.words[self.at - 1]
        tree.end = place + len(word)
        return tree

    def functions(self):
        """All functions, by name, in text order."""
        found, unit = {}, None
        while self.word in ("fun", "and"):
            begins = self.taken() == "fun"
            name = self.taken()
            unit = name if begins else unit
            found[name] = self.function(name, unit)
            self.at += self.word == ";"
        return found

    def function(self, name, unit):
        parameters = {}
        while self.taken() != ")":  # ( or , before a parameter
            if self.word != ")":
                parameter = self.taken(2)
                parameters[parameter] = int(self.taken())
        self.at += 1
        width = int(self.taken(2))
        return Function(name, unit, parameters, width, self.expression())

    def expression(self):
        tree = Tree(self.word, self.place)
        if tree.kind == "if":
            tree.parts = [self.after() for _ in ("if", "then", "else")]
        elif tree.kind == "let":
            self.bindings(tree)
        elif tree.kind == "case":
            self.arms(tree)
        else:
            return self.operands()
        return self.ended(tree)

    def after(self):
        """The expression after the next word."""
        self.at += 1
        return self.expression()

    def bindings(self, tree):
        while self.taken() != "in":  # let or , before a binding
            name, width = self.taken(), None
            if self.word == ":":
                self.at += 1
                width = int(self.taken())
            tree.names.append((name, width))
            tree.parts.append(self.after())
        tree.parts.append(self.expression())

    def arms(self, tree):
        tree.parts.append(self.after())
        while self.word != "}":  # { or , before an arm
            self.at += 2
            tree.parts.append(self.after())
        self.at += 1

    def operands(self):
        tree = Tree("operator", self.place, parts=[self.operand()], names=[""])
        while self.word in OPERATORS:
            tree.names.append(self.taken())
            tree.parts.append(self.operand())
        return self.ended(tree) if len(tree.parts) > 1 else tree.parts[0]

    def operand(self):
        while self.word == "~":
            self.at += 1
        tree = Tree("name", self.place, word=self.taken())
        if tree.word == "(":
            inner = self.expression()
            self.at += 1
            return inner
        if tree.word[0].isdigit():
            tree.kind, (width, tick, _) = "literal", tree.word.partition("'")
            tree.width = int(width) if tick else None
        elif self.word == "(":
            tree.kind = tree.word if tree.word in ("cat", "bits", "ext") else "call"
            self.arguments(tree)
        return self.ended(tree)

    def arguments(self, tree):
        """What is between the parentheses of a call, or of `cat`, `bits` or `ext`."""
        while self.taken() != ")":  # ( or , before an argument
            if self.word != ")":
                tree.parts.append(self.expression())
        if tree.kind == "bits":
            high, low = (int(part.word) for part in tree.parts[1:])
            tree.width, tree.parts = high - low + 1, tree.parts[:1]
        elif tree.kind == "ext":
            tree.width, tree.parts = int(tree.parts[1].word), tree.parts[:1]


def number_sites(functions):
    """Numbers the calls of functions of other groups, in text order. Gives them with the names of their callers."""
    found = []

    def walk(tree, caller):
        if tree.kind == "call" and functions[tree.word].unit != caller.unit:
            found.append((tree, caller.name))
            tree.site = len(found)
        for part in tree.parts:
            walk(part, caller)

    for function in functions.values():
        walk(function.body, function)
    return found


def sites_in(trees):
    """The numbers of all sites in these trees."""
    return [number for tree in trees for number in [tree.site] * (tree.site > 0) + sites_in(tree.parts)]
