"""The faults of sources: the second reading, and what is told if it does not come to the fault that `safl` reports."""
import sys

from safl_explain import hints
from safl_explain.checker import Checker
from safl_explain.grammar import Parser
from safl_explain.report import Fault, Report, Spot
from safl_explain.tokens import NAME_MOST, is_too_long, tokens

sys.setrecursionlimit(20000)


def definitions(text):
    """The definitions of a text that has no fault of tokens or grammar."""
    found, _ = tokens(text)
    return Parser(text, found).program()


def reading(text):
    """The first fault of a source, or nothing. Levels of nesting and the numbers of sites and nodes are not looked at."""
    found, _ = tokens(text)
    try:
        Checker(text, Parser(text, found).program(), {token.place: token.end for token in found}).check()
    except Fault as fault:
        return fault.report
    return None


def plain(text, rule, place, label=""):
    """What is told of a fault that is not looked into: the token at its place."""
    found, _ = tokens(text)
    end = next((token.end for token in found if token.place == place), place + 1)
    return Report(rule, Spot(place, max(end, place + 1), label), row=rule)


def too_long(text, place):
    """E03."""
    found, _ = tokens(text)
    token = next(token for token in found if token.place == place and is_too_long(token))
    what = f"a name has at most {NAME_MOST} bytes, and this one has {len(token.text)}" if token.kind == "name" else "a number is below 2^128"
    return Report("E03", Spot(place, token.end, what), row="E03")


def explained(data, rule, place):
    """What is told about a fault of a source, by its rule and place."""
    text = data.decode("latin-1")
    if rule == "E01":
        label, length, advice = hints.foreign(text, place)
        return Report(rule, Spot(place, place + length, label), hints=advice, row="E01")
    if rule == "E03":
        return too_long(text, place)
    if rule == "E04":
        return plain(text, rule, place, "here an expression would be at level 101, or too deep")
    found = reading(text)
    if found and (found.rule, found.spot.place) == (rule, place):
        return found
    return plain(text, rule, place)
