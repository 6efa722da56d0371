"""What is told about each way in which `safl` can refuse, by the status and the line with which it ends."""
import os
import re
from dataclasses import dataclass

from safl_explain import arguments, running, source, system, usage, verilog
from safl_explain.report import Fault, Report, Spot
from safl_explain.text import Page
from safl_tools.documents import cited
from safl_tools.ending import CANNOT_READ, CANNOT_WRITE, WRONG_USE

SOURCE, MEMORY, NO_RESULT, VERILOG, ARGUMENTS, PROBE, LENGTH, AIGER, WEIGHT, SITE, RESET, NAMES = 1, 5, 6, 7, 8, 9, 10, 11, 12, 13, 14, 20
SITES = {
    "no such site": "`safl report IN` lists the sites",
    "grouped": "a member of a group can't be copied alone",
    "recursive": "a function that calls itself is a loop, and has no body that could be put in place of a call",
    "name too long": "the copy's name would have more than 64 bytes: give the function a shorter name",
    "name taken": "there is a function of the copy's name already: give it another name",
    "nesting too deep": "the new source would pass the limits on levels of nesting",
    "text too long": "the new source would have more than 1,048,576 bytes",
}


@dataclass
class Ended:
    """How a command ended: its words, what it read, its status, and its line."""

    words: list
    inputs: object
    status: int
    line: str
    safl: str


def command(ended, place, label, hints=()):
    """The command, with a mark below a word."""
    shown = arguments.Command(ended.words)
    return shown.page, Report(spot=shown.spot(place, label), hints=list(hints))


def form_of(ended):
    try:
        return usage.checked(ended.words)
    except usage.Wrong:
        return None


def wrong_use(ended):
    try:
        line = usage.checked(ended.words)
    except usage.Wrong as wrong:
        page, report = command(ended, wrong.place, wrong.why, wrong.hints)
        verb = ended.words[0] if ended.words and ended.words[0] in usage.FORMS else None
        if verb:
            report.hints.insert(0, f"usage: {usage.usage(verb)}")
        return [(page, report)]
    return [(None, Report(hints=[f"usage: {usage.usage(line.verb)}"]))]


def located(ended):
    """The file that a line names, its text, the place, the rule and the text of the rule."""
    found = re.match(r"(.*?):(\d+):(\d+): ([EV]\d\d) (.*)", ended.line, re.S)
    data = found and ended.inputs.data(found[1])
    if data is None:
        return None
    page = Page(data)
    return page, page.place_of(int(found[2]), int(found[3])), found[4], found[5]


def source_fault(ended):
    found = located(ended)
    if not found:
        return [(None, Report(hints=["the text is not at hand any more: it came through a pipe"]))]
    page, place, rule, _ = found
    return [(page, source.explained(page.data, rule, place))]


def verilog_fault(ended):
    found = located(ended)
    if found:
        page, place, rule, text = found
        return [(page, verilog.explained(page.data, rule, place, text))]
    name, _, names = ended.line.partition(": V09 combinational loop: ")
    data = ended.inputs.data(name)
    return [(Page(data), verilog.loop(data, names.split()))] if data and names else []


def unreadable(ended):
    return file_fault(ended, ended.line.removeprefix("cannot read "), system.unreadable)


def unwritable(ended):
    name = ended.line.removeprefix("cannot write ")
    if name == "output":
        return [(None, Report(hints=["standard output is closed, nobody reads it any more, or the device is full"]))]
    return file_fault(ended, name, system.unwritable)


def file_fault(ended, name, reason):
    label, hints = reason(name)
    place = next((at for at, word in enumerate(ended.words) if word == name or word.endswith(f"={name}")), len(ended.words))
    return [command(ended, place, label, hints)]


def wrong_arguments(ended):
    line = form_of(ended)
    if not line:
        return []
    first = ended.words[line.plain[0]]
    parameters = arguments.parameters_of(ended.inputs.data(first) or b"", line.verb == "run")
    if line.verb == "session":
        data = ended.inputs.data(ended.words[line.plain[1]])
        return [arguments.of_script(data, ended.line, parameters)] if data is not None else []
    return [arguments.of_command(ended.words, line.plain[1:], ended.line, parameters)]


def no_result(ended):
    line = form_of(ended)
    if not line or line.verb == "bench":
        return []
    limit = int(line.values.get("cycles", line.values.get("steps"))[1])
    words = [ended.words[place] for place in line.plain]
    data = ended.inputs.data(words[0])
    if line.verb == "run":
        return [(None, Report(hints=running.with_more(ended.safl, ("run", words[0], "--cycles"), limit, ("--", *words[1:]))))]
    if data is None:
        return []
    if line.verb == "session":
        lines = (ended.inputs.data(words[1]) or b"").decode("utf-8", "replace").split("\n")
        return [(Page(data), running.of_script(ended.safl, words[0], words[1], data, limit, lines)[1])]
    return [(Page(data), running.of_source(ended.safl, words[0], data, limit, words[1:]))]


def too_long(ended):
    name = ended.line.partition(" is longer than ")[0]
    size = os.path.getsize(name) if os.path.isfile(name) else None
    return [(None, Report(hints=[f"it has {size:,} bytes" if size else "what came through the pipe is longer", "make several circuits of it"]))]


def aiger_fault(ended):
    found = re.match(r"(.*?):(\d+): ", ended.line)
    data = found and ended.inputs.data(found[1])
    if data is None:
        return []
    page = Page(data)
    place = page.place_of(int(found[2]), 1)
    end = data.find(b"\n", place)
    is_verilog = data.lstrip().startswith(b"module")
    hint = "this looks like Verilog: `safl aig FILE OUT` makes an AIGER file of it" if is_verilog else cited("docs/AIGER.md has the profile")
    return [(page, Report(spot=Spot(place, end if end > place else place + 1), hints=[hint]))]


def no_reshape(ended):
    found, line = re.match(r"site (\d+): (.*)", ended.line), form_of(ended)
    data = line and ended.inputs.data(ended.words[line.plain[0]])
    if not found or data is None:
        return []
    reason = found[2]
    hint = [SITES.get(reason, "the new program would pass this limit")]
    try:
        sites = running.Sites(data.decode("latin-1"))
    except Fault:
        return [(None, Report(hints=hint))]
    node, caller = sites.calls.get(int(found[1]), (None, None))
    if not node:
        count = len(sites.calls)
        return [(None, Report(hints=[f"there {'is 1 site' if count == 1 else f'are {count:,} sites'}; a call of a member of the own group is none", *hint]))]
    spot = Spot(node.place, node.place + len(node.text), f"site {found[1]}: the call of `{node.text}` in `{caller.name}`")
    callee = sites.functions[node.text]
    return [(Page(data), Report(spot=spot, others=[Spot(callee.place, callee.end, "the function that is called")], hints=hint))]


def no_reset(ended):
    name = re.match(r"register (\S+) does not", ended.line)[1]
    return [(None, Report(hints=[f"a bit-level circuit begins with zeros, and the `always` of `{name}` has another word"]))]


def not_text(ended):
    wrong = [at for at, word in enumerate(ended.words) if not is_text(word)]
    return [command(ended, wrong[0], "this word is not UTF-8", ["rename the file"])] if wrong else []


def is_text(word):
    try:
        word.encode("utf-8")
    except UnicodeEncodeError:
        return False
    return True


def said(*lines):
    return lambda ended: [(None, Report(hints=list(lines)))]


TELLERS = {
    SOURCE: source_fault, WRONG_USE: wrong_use, CANNOT_READ: unreadable, CANNOT_WRITE: unwritable,
    MEMORY: said("close other programs, raise `ulimit -v`, or make several circuits of the source"),
    NO_RESULT: no_result, VERILOG: verilog_fault, ARGUMENTS: wrong_arguments, PROBE: said("this should never happen: please report it"), LENGTH: too_long,
    AIGER: aiger_fault, WEIGHT: said(cited("a bit-level circuit may have a weight of 1,000,000: products and shifts of wide words weigh most (docs/AIGER.md)")),
    SITE: no_reshape, RESET: no_reset, NAMES: not_text,
}


def sections(ended):
    """What is told: texts with places, each with a report, or reports alone."""
    if ended.status < 0:
        return [(None, Report(hints=[f"a signal ended the program ({-ended.status}); the deepest sources need 2.1 MB of stack (`ulimit -s`)"]))]
    teller = TELLERS.get(ended.status)
    return [section for section in (teller(ended) if teller else []) if section]
