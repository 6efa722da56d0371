"""The tree of a source that `safl check` accepts: how it is read, how it is written, and the few questions that steps ask of it."""
from dataclasses import dataclass, replace
from functools import cached_property

from safl_explore.definitions import tokens

LAYERS = (("|",), ("^",), ("&",), ("==", "!=", "<", "<=", ">", ">="), ("<<", ">>"), ("+", "-"), ("*",))
LAYER_OF = {word: layer for layer, words in enumerate(LAYERS) for word in words}
COMPARISONS, UNARY, PRIMARY = 3, len(LAYERS), len(LAYERS) + 1
BASES = {"d": 10, "h": 16, "b": 2}
FORMS = {"cat": 2, "bits": 1, "ext": 1}  # how many of its arguments are terms; the others are numbers


@dataclass(frozen=True)
class Term:
    """A term: its kind, its word (the number, the name, the operator), its parts, and what else it has.

    The kinds are num, sized, var, call, op, form (cat, bits and ext, whose numbers are in `more`), if, let (whose names and written
    widths are in `more`, and whose body is the last part) and case (whose labels are in `more`, and whose default is the last part).
    """

    kind: str
    word: str = ""
    parts: tuple = ()
    more: tuple = ()

    def all(self):
        """The term and all terms in it, in the order of the text."""
        yield self
        for part in self.parts:
            yield from part.all()


@dataclass(frozen=True)
class Function:
    """A function: its name, the names and widths of its parameters, the width of its result, and its body."""

    name: str
    parameters: tuple
    width: int
    body: Term


@dataclass(frozen=True)
class Program:
    """The groups of a source in text order, each of some functions."""

    groups: tuple

    @cached_property
    def functions(self):
        return tuple(function for group in self.groups for function in group)

    @cached_property
    def group_of(self):
        """The number of each function's group."""
        return {function.name: number for number, group in enumerate(self.groups) for function in group}

    @cached_property
    def calls(self):
        """For each function the names that its body calls, in the order of the text."""
        return {function.name: [term.word for term in function.body.all() if term.kind == "call"] for function in self.functions}

    @cached_property
    def sites(self):
        """The call sites, as `safl report` numbers them from 1: the called function and the calling one."""
        return [
            (callee, function.name) for function in self.functions for callee in self.calls[function.name]
            if self.group_of[callee] != self.group_of[function.name]
        ]

    @cached_property
    def loops(self):
        """The names of the functions that are a loop, or in a group that is one: their calls cannot be written out."""
        called = [(self.group_of[name], self.group_of[callee]) for name, callees in self.calls.items() for callee in callees]
        return {function.name for caller, callee in called if caller == callee for function in self.groups[callee]}

    @cached_property
    def reached(self):
        """The names of the functions that main needs, with those of their groups."""
        found = {"main"}
        for group in reversed(self.groups):
            names = {function.name for function in group}
            if names & found:
                found |= names | {callee for name in names for callee in self.calls[name]}
        return found

    def without_unreached(self):
        """The program without the groups that main does not need."""
        return Program(tuple(group for group in self.groups if group[0].name in self.reached))


class Reader:
    """Reads the tokens of a source that was checked, so no fault is looked for."""

    def __init__(self, text):
        self.words = [word for word, _ in tokens(text)] + [""]
        self.place = 0

    def next(self):
        self.place += 1
        return self.words[self.place - 1]

    def skip(self, word):
        """Whether the next word is this one, which is then taken."""
        found = self.words[self.place] == word
        self.place += found
        return found

    def program(self):
        groups = []
        while self.words[self.place]:
            if self.next() == "fun":
                groups.append([])
            groups[-1].append(self.function())
            self.skip(";")
        return Program(tuple(map(tuple, groups)))

    def function(self):
        name, parameters = self.next(), []
        self.next()
        while not self.skip(")"):
            parameters.append(self.parameter())
            self.skip(",")
        self.next()
        width = int(self.next())
        self.next()
        return Function(name, tuple(parameters), width, self.whole())

    def parameter(self):
        name = self.next()
        return name, int(self.next()) if self.skip(":") else None

    def whole(self):
        """A whole expression."""
        for kind in ("if", "let", "case"):
            if self.skip(kind):
                return getattr(self, f"read_{kind}")()
        return self.layer(0)

    def read_if(self):
        parts = [self.whole()]
        for _ in ("then", "else"):
            self.next()
            parts.append(self.whole())
        return Term("if", "", tuple(parts))

    def read_let(self):
        names, parts = [], []
        while not names or self.skip(","):
            names.append(self.parameter())
            self.next()
            parts.append(self.whole())
        self.next()
        return Term("let", "", (*parts, self.whole()), tuple(names))

    def read_case(self):
        parts, labels = [self.whole()], []
        self.next()
        while not self.skip("default"):
            labels.append(number(self.next()).word)
            self.next()
            parts.append(self.whole())
            self.next()
        self.next()
        parts.append(self.whole())
        self.next()
        return Term("case", "", tuple(parts), tuple(labels))

    def layer(self, layer):
        """An expression whose operators bind at least as tightly as this layer's."""
        if layer == UNARY:
            return Term("op", "~", (self.layer(UNARY),)) if self.skip("~") else self.primary()
        left = self.layer(layer + 1)
        while self.words[self.place] in LAYERS[layer]:
            word = self.next()
            left = Term("op", word, (left, self.layer(layer + 1)))
        return left

    def primary(self):
        word = self.next()
        if word == "(":
            inner = self.whole()
            self.next()
            return inner
        if word[0].isdigit():
            return number(word)
        if word not in FORMS and self.words[self.place] != "(":
            return Term("var", word)
        parts = []
        self.next()
        while not self.skip(")"):
            parts.append(self.whole())
            self.skip(",")
        if word not in FORMS:
            return Term("call", word, tuple(parts))
        terms = FORMS[word]
        return Term("form", word, tuple(parts[:terms]), tuple(int(part.word) for part in parts[terms:]))


def number(word):
    """A literal in decimal."""
    if "'" not in word:
        return Term("num", str(int(word)))
    width, digits = word.split("'")
    return Term("sized", f"{int(width)}'d{int(digits[1:], BASES[digits[0]])}")


def read(text):
    """The program of a source that was checked."""
    return Reader(text).program()


def layer_of(term):
    """What the grammar derives the term as: -1 for what only a whole expression is."""
    if term.kind in ("if", "let", "case"):
        return -1
    if term.kind == "op":
        return UNARY if len(term.parts) == 1 else LAYER_OF[term.word]
    return PRIMARY


def placed(term, layer):
    """The text of a term that stands where the grammar has this layer."""
    return written(term) if layer_of(term) >= layer else f"( {written(term)} )"


def written(term):
    """The text of a term: a blank between two tokens, and as few parentheses as the grammar allows."""
    parts = term.parts
    if term.kind in ("num", "sized", "var"):
        return term.word
    if term.kind == "op" and len(parts) == 1:
        return f"~ {placed(parts[0], UNARY)}"
    if term.kind == "op":
        layer = LAYER_OF[term.word]
        return f"{placed(parts[0], layer + (layer == COMPARISONS))} {term.word} {placed(parts[1], layer + 1)}"
    texts = [placed(part, -1) for part in parts]
    if term.kind == "if":
        return "if {} then {} else {}".format(*texts)
    if term.kind == "let":
        heads = [f"{name} : {width} =" if width else f"{name} =" for name, width in term.more]
        return f"let {' , '.join(f'{head} {text}' for head, text in zip(heads, texts))} in {texts[-1]}"
    if term.kind == "case":
        arms = [f"{label} => {text} ," for label, text in zip(term.more, texts[1:])]
        return " ".join(["case", texts[0], "{", *arms, "default =>", texts[-1], "}"])
    inside = " , ".join([*texts, *map(str, term.more)])
    return f"{term.word} ( {inside} )" if inside else f"{term.word} ( )"


def text_of(program):
    """The source of a program, a line for each function, as `safl reshape` writes it."""
    lines = []
    for group in program.groups:
        for head, function in zip(["fun"] + ["and"] * len(group), group):
            parameters = " , ".join(f"{name} : {width}" for name, width in function.parameters)
            inside = f"( {parameters} )" if parameters else "( )"
            lines.append(f"{head} {function.name} {inside} : {function.width} = {written(function.body)}\n")
    return "".join(lines)


def renamed(term, names):
    """The term with calls of other functions."""
    parts = tuple(renamed(part, names) for part in term.parts)
    return replace(term, parts=parts, word=names.get(term.word, term.word) if term.kind == "call" else term.word)


def plain(program):
    """The text with the functions numbered in text order: sources that differ in names of functions alone have the same."""
    names = {function.name: f"f{number}" for number, function in enumerate(program.functions)}
    groups = [[replace(each, name=names[each.name], body=renamed(each.body, names)) for each in group] for group in program.groups]
    return text_of(Program(tuple(map(tuple, groups))))
