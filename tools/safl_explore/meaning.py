"""Evaluates main: its value, how long it takes if no call waits for a unit, how often each function is called, and the greatest words.

The span of an evaluation is the cycle of `done` if nothing waits for a unit. Each call of main has one, whatever is shared.
"""
import operator
from collections import Counter
from dataclasses import dataclass

from safl_explore.widths import Widths

OPERATORS = {
    "+": operator.add, "-": operator.sub, "*": operator.mul, "&": operator.and_, "|": operator.or_, "^": operator.xor,
    "==": operator.eq, "!=": operator.ne, "<": operator.lt, "<=": operator.le, ">": operator.gt, ">=": operator.ge,
    ">>": lambda a, b: a >> b if b < 128 else 0, "<<": lambda a, b: a << b if b < 128 else 0,
}


class TooLong(Exception):
    """An evaluation takes more calls than it may."""


@dataclass(frozen=True)
class Tail:
    """A tail call: the function and the words that it is called with."""

    name: str
    words: tuple


class Evaluation:
    """Functions of Python that evaluate the terms of a program: each gives the value of its term and its span."""

    def __init__(self, program, most):
        self.program, self.widths, self.left = program, Widths(program), most
        self.calls, self.greatest = Counter(), {}
        self.made = {}
        for function in program.functions:
            self.made[function.name] = [name for name, _ in function.parameters], self.term(function.body, function.name)

    def main(self, words):
        """The value of main and its span."""
        value, span = self.call("main", words)
        return value, 2 + span

    def call(self, name, words):
        """The value of a function's body for these words, and its span, tail calls included."""
        span = 0
        while True:
            self.counted(name, words)
            names, body = self.made[name]
            value, more = body(dict(zip(names, words)))
            span += more
            if not isinstance(value, Tail):
                return value, span
            name, words, span = value.name, value.words, span + 1

    def counted(self, name, words):
        self.left -= 1
        if self.left < 0:
            raise TooLong
        self.calls[name] += 1
        before = self.greatest.get(name, words)
        self.greatest[name] = tuple(map(max, before, words))

    def term(self, term, caller):
        return getattr(self, f"of_{term.kind}")(term, caller)

    def of_num(self, term, caller):
        value = int(term.word.split("'d")[-1])
        return lambda scope: (value, 0)

    of_sized = of_num

    def of_var(self, term, caller):
        name = term.word
        return lambda scope: (scope[name], 0)

    def together(self, terms, caller):
        """The values of terms that are evaluated in parallel, and the longest of their spans."""
        made = [self.term(term, caller) for term in terms]

        def run(scope):
            found = [part(scope) for part in made]
            return [value for value, _ in found], max((span for _, span in found), default=0)

        return run

    def of_op(self, term, caller):
        parts, mask = self.together(term.parts, caller), (1 << self.widths.of(term)) - 1
        if len(term.parts) == 1:
            combined = operator.invert
        else:
            combined = OPERATORS[term.word]

        def run(scope):
            values, span = parts(scope)
            return combined(*values) & mask, span

        return run

    def of_form(self, term, caller):
        parts, mask = self.together(term.parts, caller), (1 << self.widths.of(term)) - 1
        if term.word == "cat":
            low = self.widths.of(term.parts[1])
            combined = lambda a, b: a << low | b  # noqa: E731
        else:
            low = term.more[1] if term.word == "bits" else 0
            combined = lambda a: a >> low  # noqa: E731

        def run(scope):
            values, span = parts(scope)
            return combined(*values) & mask, span

        return run

    def of_if(self, term, caller):
        condition, *branches = (self.term(part, caller) for part in term.parts)

        def run(scope):
            value, span = condition(scope)
            chosen, more = branches[0 if value else 1](scope)
            return chosen, span + more

        return run

    def of_case(self, term, caller):
        chosen, *arms = (self.term(part, caller) for part in term.parts)
        labels = {}
        for label, arm in zip(term.more, arms):
            labels.setdefault(int(label.split("'d")[-1]), arm)

        def run(scope):
            value, span = chosen(scope)
            found, more = labels.get(value, arms[-1])(scope)
            return found, span + more

        return run

    def of_let(self, term, caller):
        names = [name for name, _ in term.more]
        bound, body = self.together(term.parts[:-1], caller), self.term(term.parts[-1], caller)

        def run(scope):
            values, span = bound(scope)
            value, more = body({**scope, **dict(zip(names, values))})
            return value, span + more

        return run

    def of_call(self, term, caller):
        parts, name = self.together(term.parts, caller), term.word
        tail = self.program.group_of[name] == self.program.group_of[caller]

        def run(scope):
            values, span = parts(scope)
            if tail:
                return Tail(name, tuple(values)), span
            value, more = self.call(name, tuple(values))
            return value, span + 2 + more

        return run


MOST_CALLS = 20_000  # evaluations of more calls are given up


class Least:
    """What the calls of a script come to in any program that gives the same replies."""

    def __init__(self, calls):
        self.calls = [tuple(map(int, line.split())) for line in calls.splitlines()]

    def evaluated(self, program):
        """The evaluation of all calls, and the sum of their spans; nothing if they are too long."""
        evaluation = Evaluation(program, MOST_CALLS)
        try:
            return evaluation, sum(evaluation.main(words)[1] for words in self.calls)
        except (TooLong, RecursionError):
            return None, None

    def span(self, program):
        """The cycles that all calls take at least, whatever is copied; nothing if that is not known."""
        return self.evaluated(program)[1]

    def greatest(self, program):
        """For each function that is called the greatest word of each parameter."""
        evaluation, _ = self.evaluated(program)
        return evaluation.greatest if evaluation else {}
