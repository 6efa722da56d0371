"""Writes every call of some functions out, by `safl reshape --unfold`, and then leaves out what nothing calls any more."""
from safl_explore import tree
from safl_explore.points import timed
from safl_explore.reshapings import Reshaping
from safl_tools.ending import DIFFERENT, WRONG_USE, Refusal


def called_from_few(program, fewer):
    """The functions that are no loop and that fewer than so many sites call."""
    called = [callee for callee, _ in program.sites]
    straight = [function.name for function in program.functions if function.name not in program.loops]
    return [name for name in straight if 0 < called.count(name) < fewer]


def refuse_names(program, chosen):
    """Refuses a name that is no function, or one of a function whose calls cannot be written out."""
    for name in chosen:
        if name not in program.group_of:
            raise Refusal(WRONG_USE, f"there is no function {name}")
        if name == "main":
            raise Refusal(WRONG_USE, "nothing calls main but main itself, so it cannot be written out")
        if name in program.loops:
            raise Refusal(WRONG_USE, f"{name} calls itself or its group, so its calls cannot be written out")


def same_replies(safl, text, wanted, task, what):
    """The cycles of all calls, if the values are those that are wanted."""
    told = timed(safl, text, task)
    if told["replies"] != wanted:
        raise Refusal(DIFFERENT, f"the source {what} gives other replies; please report this")
    return told["cycles"]


def inlined(safl, text, chosen, task):
    """The source without these functions: its text, the steps, the names left out, and its cycles after those of the first."""
    refuse_names(tree.read(text), chosen)
    first = timed(safl, text, task)
    reshaping = Reshaping(safl, text)
    reshaping.unfold(chosen)
    same_replies(safl, reshaping.text, first["replies"], task, "with its calls written out")
    program = tree.read(reshaping.text)
    shorter = program.without_unreached()
    gone = [function.name for function in program.functions if function not in shorter.functions]
    after = tree.text_of(shorter) if gone else reshaping.text
    cycles = same_replies(safl, after, first["replies"], task, "without what nothing calls")
    return after, reshaping.chain, gone, first["cycles"], cycles
