"""Reads the definitions of a source by the rules of widths, in the order of `safl check`, and says why each width is expected."""
from safl_explain.grammar import Binding, Node
from safl_explain.hints import nearest
from safl_explain.report import Fault, Spot, counted

ARITHMETIC, SHIFTS = ("+", "-", "*", "&", "|", "^"), ("<<", ">>")
MOST = {"functions": 1000, "parameters": 16, "bindings": 16}
WIDTH_MOST = 128
CASE = "$case"


def is_flexible(node):
    """Whether an expression takes its width from its context."""
    if node.kind == "num":
        return True
    if node.kind == "op":
        return node.text in ARITHMETIC and all(map(is_flexible, node.parts))
    if node.kind == "not":
        return is_flexible(node.parts[0])
    if node.kind == "if":
        return all(map(is_flexible, node.parts[1:]))
    return node.kind == "let" and is_flexible(node.parts[-1])


def rewritten(node):
    """A case as a let and ifs; other expressions as they are, with their parts rewritten."""
    node.parts = [rewritten(part) for part in node.parts]
    if node.kind != "case":
        return node
    value, *arms, last = node.parts
    found = last
    for label, arm in reversed(list(zip(arms[::2], arms[1::2]))):
        test = Node("op", label.place, label.end, [Node("var", label.place, label.end, text=CASE), label], "==")
        found = Node("if", node.place, node.end, [test, arm, found], "case")
    return Node("let", node.place, node.end, [value, found], "case", names=[Binding(CASE, value.place)])


def nodes(node):
    """An expression and all its parts, in text order."""
    yield node
    for part in node.parts:
        yield from nodes(part)


def reshaped(text, node, width, wanted):
    """What to write to give an expression the width that is wanted."""
    own = text[node.place:node.end]
    own = own if len(own) <= 32 and "\n" not in own else ".."
    if wanted == 1:
        return [f"for a condition write `{own} != 0`"]
    if width < wanted:
        return [f"to extend it with zeros write `ext({own}, {wanted})`"]
    return [f"to cut it write `bits({own}, {wanted - 1}, 0)`, or make what it meets {counted(width, 'bit')} wide"]


class Checker:
    """The first fault of a program, as an exception. Why a width is expected is a spot, and so is what is done with a value."""

    def __init__(self, text, definitions, ends):
        self.text, self.definitions, self.ends, self.known, self.group = text, definitions, ends, {}, []

    def end_of(self, place):
        """The end of the token at a place."""
        return self.ends.get(place, place + 1)

    def refuse(self, rule, spot, label, *others, hints=(), row=""):
        raise Fault(rule, spot.place, spot.end, label, [each for each in others if each], hints, row)

    def check(self):
        self.limits()
        for definition in self.definitions:
            definition.body = rewritten(definition.body)
        for number in dict.fromkeys(each.group for each in self.definitions):
            self.group = [each for each in self.definitions if each.group == number]
            for member in self.group:
                self.head(member)
            for member in self.group:
                self.body(member)
        self.last()

    def limits(self):
        most = MOST["functions"]
        if len(self.definitions) > most:
            self.refuse("E16", self.definitions[most], f"this is function {most + 1:,}; {most:,} are the most")
        for each in self.definitions:
            self.limit(each.parameters, "parameters", "parameter")
            lets = sorted((node for node in nodes(each.body) if node.kind == "let"), key=lambda node: node.place)
            for let in lets:
                self.limit(let.names, "bindings", "binding")

    def limit(self, names, what, one):
        most = MOST[what]
        if len(names) > most:
            self.refuse("E16", names[most], f"this is {one} {most + 1}; {most} are the most", hints=["join several words by `cat`"])

    def head(self, own):
        other = self.known.get(own.name)
        if other:
            first = Spot(other.place, other.end, "it is defined here first")
            self.refuse("E06", own, f"`{own.name}` is defined a second time", first, row="E06, E07")
        lead = self.group[0]
        if own.width != lead.width:
            self.refuse("E12", own, f"its result has {counted(own.width, 'bit')}", lead.width_spot,
                        hints=["all members of a group have results of one width"])
        self.known[own.name] = own
        self.twice(own.parameters, "parameter")

    def twice(self, names, what):
        seen = {}
        for each in names:
            if each.name in seen:
                first = Spot(seen[each.name].place, seen[each.name].end, "it stands here first")
                self.refuse("E07", each, f"a second {what} of the name `{each.name}`", first, row="E06, E07")
            seen[each.name] = each

    def body(self, own):
        scope = {each.name: (each.width, each) for each in own.parameters}
        self.expect(own.body, own.width, scope, own.width_spot, None)

    def expect(self, node, width, scope, why, use):
        """An expression of which a width is expected. `use` is what is done with its value, or nothing in tail position."""
        if node.kind == "op" and node.text in ARITHMETIC or node.kind == "not":
            for part in node.parts:
                self.expect(part, width, scope, why, self.used(node, part))
        elif node.kind == "if":
            self.condition(node, scope)
            for part in node.parts[1:]:
                self.expect(part, width, scope, why, use)
        elif node.kind == "let":
            inner = self.bindings(node, scope)
            self.expect(node.parts[-1], width, inner, why, use)
        elif node.kind == "num":
            if node.value >= 2**width:
                self.too_large(node, width, why)
        else:
            found = self.find(node, scope, use)
            if found != width:
                self.differ(node, width, found, why)

    def differ(self, node, wanted, found, why):
        """E12."""
        if wanted == 1:
            row = "E12 `widths differ: 1 and 8`"
        elif found == 1:
            row = "E12 `widths differ: 8 and 1`"
        else:
            row = "E12 `widths differ: 8 and 4`"
        label = f"this has {counted(found, 'bit')}, and {counted(wanted, 'bit')} {'is' if wanted == 1 else 'are'} expected"
        self.refuse("E12", node, label, why, hints=reshaped(self.text, node, found, wanted), row=row)

    def too_large(self, node, width, why):
        label = f"{counted(width, 'bit')} can hold 0 to {2**width - 1:,}"
        needed = max(1, node.value.bit_length())
        self.refuse("E13", node, label, why, hints=[f"{node.value} needs {counted(needed, 'bit')}"] if node.value < 2**WIDTH_MOST else [])

    def used(self, node, part):
        """What is done with the value of a part of this expression."""
        if node.kind == "op":
            return f"its value is an operand of `{node.text}`"
        return {"not": "its value is inverted by `~`", "cat": "its value is joined by `cat`", "bits": "`bits` takes a part of its value",
                "ext": "its value is extended by `ext`", "call": f"its value is an argument of `{node.text}`"}[node.kind]

    def condition(self, node, scope):
        place = node.place
        if node.text == "case":  # the test of a label
            self.expect(node.parts[0], 1, scope, None, "its value is compared")
            return
        why = Spot(place, self.end_of(place), "the condition of this `if` has one bit")
        self.expect(node.parts[0], 1, scope, why, "its value is the condition of an `if`")

    def bindings(self, node, scope):
        """The scope of a let's body."""
        self.twice(node.names, "binding")
        inner, use = dict(scope), "its value is bound by a `let`"
        if node.text == "case":
            use = "its value selects an arm of a `case`"
        for name, part in zip(node.names, node.parts):
            siblings = {**scope, None: (0, node)}
            if name.width is None:
                width = self.find(part, siblings, use, binding=name)
            else:
                width = name.width
                why = Spot(name.place, name.end, f"`{name.name}` has {counted(width, 'bit')}")
                self.expect(part, width, siblings, why, use)
            inner[name.name] = (width, name)
        return inner

    def find(self, node, scope, use, binding=None):
        """The width that an expression has of its own."""
        if is_flexible(node):
            self.unknown_width(node, binding)
        return getattr(self, f"find_{node.kind}")(node, scope, use)

    def unknown_width(self, node, binding):
        """E14."""
        own = self.text[node.place:node.end]
        own = own if len(own) <= 32 and "\n" not in own else ".."
        advice = []
        if binding and binding.name != CASE:
            advice.append(f"write `let {binding.name}:8 = {own}`, with the width that `{binding.name}` shall have")
        if node.kind == "num":
            advice.append(f"write `8'd{own}`, with the width that it shall have")
        self.refuse("E14", node, "nothing says how wide this is", hints=advice)

    def pair(self, node, left, right, scope, use=None):
        """The width of two parts that are equally wide."""
        rigid, other = (right, left) if is_flexible(left) else (left, right)
        uses = [use or self.used(node, part) for part in (rigid, other)] if node.kind != "if" else [use, use]
        width = self.find(rigid, scope, uses[0])
        what = f"the other operand of `{node.text}`" if node.kind == "op" else "the other branch"
        why = Spot(rigid.place, rigid.end, f"{what} has {counted(width, 'bit')}")
        if rigid.text == CASE:
            why = None
        self.expect(other, width, scope, why, uses[1])
        return width

    def find_op(self, node, scope, use):
        left, right = node.parts
        if node.text in SHIFTS:
            width = self.find(left, scope, self.used(node, left))
            if is_flexible(right):
                why = Spot(left.place, left.end, f"what is shifted has {counted(width, 'bit')}, and so has the number")
                self.expect(right, width, scope, why, self.used(node, right))
            else:
                self.find(right, scope, self.used(node, right))
            return width
        if node.text in ARITHMETIC:
            return self.pair(node, left, right, scope)
        if is_flexible(left) and is_flexible(right):
            self.refuse("E14", node, "nothing says how wide the two sides of this comparison are", hints=["give one of them a width, as in `8'd5`"])
        self.pair(node, left, right, scope)
        return 1

    def find_not(self, node, scope, use):
        return self.find(node.parts[0], scope, self.used(node, node.parts[0]))

    def find_if(self, node, scope, use):
        self.condition(node, scope)
        return self.pair(node, *node.parts[1:], scope, use)

    def find_let(self, node, scope, use):
        return self.find(node.parts[-1], self.bindings(node, scope), use)

    def find_sized(self, node, scope, use):
        if node.value >= 2**node.width:
            self.too_large(node, node.width, None)
        return node.width

    def find_var(self, node, scope, use):
        if node.text in scope:
            return scope[node.text][0]
        advice, others = [], []
        if None in scope and node.text in {each.name for each in scope[None][1].names}:
            other = next(each for each in scope[None][1].names if each.name == node.text)
            others = [Spot(other.place, other.end, "the bindings of one `let` do not see each other")]
            advice = [f"write a second `let` inside the first: `let {node.text} = .. in let .. in ..`"]
        elif node.text in self.known:
            others = [Spot(self.known[node.text].place, self.known[node.text].end, "this is a function")]
            advice = [f"a call has parentheses: `{self.known[node.text].head}`"]
        else:
            meant = nearest(node.text, [name for name in scope if name and name != CASE])
            advice = [f"did you mean `{meant}`?"] if meant else []
            others = [self.declared(scope[meant][1])] if meant else []
        return self.refuse("E08", node, f"there is no `{node.text}` here", *others, hints=advice)

    @staticmethod
    def declared(name):
        return Spot(name.place, name.end, "this one is there")

    def find_cat(self, node, scope, use):
        widths = [self.find(part, scope, self.used(node, part)) for part in node.parts]
        if sum(widths) > WIDTH_MOST:
            self.refuse("E05", node, f"{widths[0]} and {widths[1]} bits are {sum(widths)}; a word has at most {WIDTH_MOST}")
        return sum(widths)

    def find_bits(self, node, scope, use):
        width, high, low = self.find(node.parts[0], scope, self.used(node, node.parts[0])), node.value, node.width
        if low > high:
            self.refuse("E05", node, f"the highest bit comes first: {high} is below {low}", hints=[f"write `bits(.., {low}, {high})`"])
        if high >= width:
            self.refuse("E05", node, f"this word has {counted(width, 'bit')}, 0 to {width - 1}: there is no bit {high}")
        return high - low + 1

    def find_ext(self, node, scope, use):
        width = self.find(node.parts[0], scope, self.used(node, node.parts[0]))
        if node.width < width:
            own = self.text[node.parts[0].place:node.parts[0].end]
            self.refuse("E05", node, f"`ext` does not cut: the word has {width} bits already",
                        hints=[f"`bits({own if len(own) <= 32 else '..'}, {node.width - 1}, 0)` cuts it to {counted(node.width, 'bit')}"])
        return node.width

    def find_call(self, node, scope, use):
        callee, name = self.known.get(node.text), Spot(node.place, self.end_of(node.place))
        if callee in self.group and use:
            self.refuse("E10", name, f"`{node.text}` calls {'itself' if len(self.group) == 1 else 'a member of its group'} here, but {use}",
                        hints=["the call must be the last thing that is done: carry the value in a further parameter"])
        if not callee:
            self.no_function(node, scope, name)
        given, wanted = len(node.parts), len(callee.parameters)
        if given != wanted:
            self.refuse("E11", name, f"`{callee.name}` takes {counted(wanted, 'argument')}, and {given or 'none'} {'is' if given < 2 else 'are'} given",
                        Spot(callee.place, callee.end, f"`{callee.head}`"))
        for part, parameter in zip(node.parts, callee.parameters):
            label = f"`{parameter.name}` of `{callee.name}` has {counted(parameter.width, 'bit')}"
            self.expect(part, parameter.width, scope, Spot(parameter.place, parameter.end, label), self.used(node, part))
        return callee.width

    def no_function(self, node, scope, name):
        """E09."""
        below = next((each for each in self.definitions if each.name == node.text), None)
        if below:
            self.refuse("E09", name, f"`{node.text}` is defined below, and a function calls those above it",
                        Spot(below.place, below.end, "it is defined here"),
                        hints=["move that definition up; if the two call each other in tail position, write `and` in place of the second `fun`"])
        if node.text in scope:
            other = scope[node.text][1]
            self.refuse("E09", name, f"there is no function `{node.text}`", Spot(other.place, other.end, "this is a word, and no function"))
        meant = nearest(node.text, [*self.known, "cat", "bits", "ext"])
        found = self.known.get(meant)
        others = [Spot(found.place, found.end, f"`{found.head}`")] if found else []
        self.refuse("E09", name, f"there is no function `{node.text}`", *others, hints=[f"did you mean `{meant}`?"] if meant else [])

    def last(self):
        """E15."""
        if not self.definitions:
            self.refuse("E15", Spot(0, 1), "there is no definition", hints=["the least source is `fun main():8 = 7`"])
        own = self.definitions[-1]
        if own.name == "main":
            return
        main = self.known.get("main")
        if main:
            self.refuse("E15", own, "this stands after `main`", Spot(main.place, main.end, "`main` is to be the last definition"),
                        hints=["move what `main` does not need out, and the rest above `main`"])
        meant = nearest("main", self.known)
        advice = f"add `fun main(..) = ..`, which calls `{own.name}`: it is what is called from outside"
        self.refuse("E15", own, "the last definition is this, and not `main`", hints=[f"write `main` in place of `{meant}`" if meant else advice])
