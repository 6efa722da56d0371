"""The width of every term of a program that was checked."""

SAME = ("+", "-", "*", "&", "|", "^", "~")  # operators whose operands are as wide as their result
COMPARED = ("==", "!=", "<", "<=", ">", ">=")


def flexible(term):
    """Whether the term has no width of its own."""
    if term.kind == "op":
        return term.word in SAME and all(map(flexible, term.parts))
    if term.kind == "let":
        return flexible(term.parts[-1])
    if term.kind in ("if", "case"):
        return all(map(flexible, term.parts[1:]))
    return term.kind == "num"


class Widths:
    """The widths of the terms of a program, each term known by its identity: the program is to be one that was just read."""

    def __init__(self, program):
        self.functions = {function.name: function for function in program.functions}
        self.found = {}
        for function in program.functions:
            self.walk(function.body, dict(function.parameters), function.width)

    def of(self, term):
        return self.found[id(term)]

    def walk(self, term, scope, expected=None):
        """Finds the widths of a term and of all terms in it, and returns the term's."""
        width = getattr(self, f"of_{term.kind}")(term, scope, expected)
        self.found[id(term)] = width
        return width

    def alike(self, terms, scope, expected):
        """Terms of one width: the one that is expected, or else that of the first that has one of its own."""
        if expected is None:
            expected = self.walk(next(term for term in terms if not flexible(term)), scope)
        for term in terms:
            self.walk(term, scope, expected)
        return expected

    def of_num(self, term, scope, expected):
        return expected

    def of_sized(self, term, scope, expected):
        return int(term.word.split("'")[0])

    def of_var(self, term, scope, expected):
        return scope[term.word]

    def of_call(self, term, scope, expected):
        called = self.functions[term.word]
        for part, (_, width) in zip(term.parts, called.parameters):
            self.walk(part, scope, width)
        return called.width

    def of_form(self, term, scope, expected):
        inner = [self.walk(part, scope) for part in term.parts]
        if term.word == "cat":
            return sum(inner)
        return term.more[0] - term.more[1] + 1 if term.word == "bits" else term.more[0]

    def of_op(self, term, scope, expected):
        if term.word in SAME:
            return self.alike(term.parts, scope, expected)
        if term.word in COMPARED:
            self.alike(term.parts, scope, None)
            return 1
        left, right = term.parts
        width = self.walk(left, scope)
        self.walk(right, scope, width if flexible(right) else None)
        return width

    def of_if(self, term, scope, expected):
        self.walk(term.parts[0], scope, 1)
        return self.alike(term.parts[1:], scope, expected)

    def of_case(self, term, scope, expected):
        self.walk(term.parts[0], scope)
        return self.alike(term.parts[1:], scope, expected)

    def of_let(self, term, scope, expected):
        inner = {name: self.walk(value, scope, width) for (name, width), value in zip(term.more, term.parts)}
        return self.walk(term.parts[-1], {**scope, **inner}, expected)
