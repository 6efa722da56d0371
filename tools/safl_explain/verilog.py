"""The faults of Verilog files: what the name or the token at the place is, and where it is declared or assigned."""
import re

from safl_explain.hints import nearest
from safl_explain.report import Report, Spot, counted, listed
from safl_tools.documents import cited

TOKEN = re.compile(r"[A-Za-z_][\w$]*|\d+'[dhb][0-9a-fA-F]+|\d+|==|!=|<=|>=|<<|>>|\S", re.ASCII)
COMMENT = re.compile(r"//[^\n]*|/\*.*?\*/", re.S)
DECLARED = re.compile(r"\b(input|output|reg|wire)\s*(?:\[\s*(\d+)\s*:\s*0\s*\])?\s*([A-Za-z_][\w$]*)\s*;", re.ASCII)
ASSIGNED = re.compile(r"\bassign\s+([A-Za-z_][\w$]*)\s*=\s*([^;]*);", re.ASCII)
UPDATED = re.compile(r"\belse\s+([A-Za-z_][\w$]*)\s*<=", re.ASCII)
PORTS = {"clk": "an input of one bit", "rst": "an input of one bit", "start": "an input of one bit", "done": "an output of one bit", "result": "an output"}
OUTSIDE = {
    "negedge": "registers change at `posedge clk` only", "initial": "registers have no initial values: they are reset",
    "begin": "there are no blocks: each register has an `always` of its own", "(": "an expression is one operator on names: name each part by a wire",
    "!": "`!a` is not read; compare with a wire that is 0", "/": "there is no division", "%": "there is no remainder",
}
SUBSET = cited("only what `safl build` writes is read, and a little more: see docs/VERILOG.md")


def blanked(text):
    """The text with blanks in the place of its comments."""
    return COMMENT.sub(lambda found: re.sub(r"[^\n]", " ", found[0]), text)


def token_at(text, place):
    found = TOKEN.match(text, place)
    return found[0] if found else ""


class File:
    """The declarations and the assignments of a Verilog file, as far as it can be read."""

    def __init__(self, text):
        self.text = blanked(text)
        self.declared = {}
        for found in DECLARED.finditer(self.text):
            self.declared.setdefault(found[3], found)

    def width(self, name):
        found = self.declared.get(name)
        return int(found[2] or 0) + 1 if found else None

    def declaration(self, name):
        found = self.declared.get(name)
        return Spot(found.start(3), found.end(3), f"this {found[1]} has {counted(self.width(name), 'bit')}") if found else None

    def first(self, pattern, name, before, label):
        """The first place before this one where the name is assigned."""
        for found in pattern.finditer(self.text, 0, before):
            if found[1] == name:
                return Spot(found.start(1), found.end(1), label)
        return None


def foreign(file, place, _):
    byte = file.text[place] if place < len(file.text) else ""
    hint = ["`$` stands inside of names only"] if byte == "$" else ["this comment has no end"] if file.text[place:place + 2] == "/*" else [SUBSET]
    return f"`{byte}` begins nothing here" if byte.isprintable() else "this byte begins nothing here", [], hint


def unexpected(file, place, _):
    word = token_at(file.text, place)
    if re.match(r"\s*fun\b", file.text):
        return "", [], ["this looks like a source in SAFL: `safl sim` simulates one, and `safl build` makes a Verilog file of it"]
    label = f"`{word}` can't come here" if word else "the text ends too early"
    if re.match(r"\d+'", word):
        return label, [], ["operands are names: give the number to a wire of its own, as in `assign n$0 = 4'd1;`"]
    return label, [], [OUTSIDE.get(word, SUBSET)]


def twice(file, place, _):
    word = token_at(file.text, place)
    return f"a second `{word}`", [Spot(found.start(3), found.end(3), "it is declared here first") for found in DECLARED.finditer(file.text)
                                  if found[3] == word and found.start(3) < place][:1], []


def unknown(file, place, _):
    word = token_at(file.text, place)
    own = file.declaration(word)
    if own:
        return f"`{word}` can't stand here", [own], ["an output is no operand; `clk` and `rst` stand in an `always` only"]
    meant = nearest(word, file.declared)
    return f"there is no `{word}`", [file.declaration(meant)] if meant else [], [f"did you mean `{meant}`?"] if meant else []


def differ(file, place, text):
    word, found = token_at(file.text, place), re.search(r"differ: (\d+) and (\d+)", text)
    if not file.declared.get(word) or not found:
        return "a range is `[n:0]`, with n at most 127", [], []
    label = f"this has {counted(int(found[1]), 'bit')}, and what it gets has {found[2]}"
    if found[2] == "0":
        label = f"this has {counted(int(found[1]), 'bit')}, and what it gets has no width: the operands' widths do not fit"
    own = file.declaration(word)
    return label, [own] if own.place != place else [], []


def bad_literal(file, place, _):
    word = token_at(file.text, place)
    width, _, digits = word.partition("'d")
    if digits.isdigit() and width.isdigit() and int(width) <= 128:
        return f"{counted(int(width), 'bit')} can hold 0 to {2**int(width) - 1:,}", [], []
    return "a width is 1 to 128, and a number is below 2^128", [], []


def unassigned(file, place, _):
    word = token_at(file.text, place)
    other = file.first(ASSIGNED, word, place, "it is assigned here")
    if other:
        return f"`{word}` is assigned a second time", [other], []
    own = file.declared.get(word)
    if own and own.start(3) == place:
        return f"`{word}` is never assigned", [], []
    return f"`{word}` is an output, so what it gets is a plain name", [], ["put the operation on a wire of its own"]


def not_updated(file, place, _):
    word = token_at(file.text, place)
    own = file.declared.get(word)
    if own and own.start(3) == place:
        return f"the register `{word}` is never updated", [], ["always @(posedge clk) if (rst) R <= 0 of its width; else R <= NAME;"]
    other = file.first(UPDATED, word, place, "it is updated here")
    return f"`{word}` is updated a second time" if other else f"`{word}` can't stand here", [other] if other else [], [
        "the form is: always @(posedge clk) if (rst) R <= 4'd0; else R <= NAME;"]


def missing(file, place, _):
    word = token_at(file.text, place)
    if place == 0:
        wrong = [name for name, what in PORTS.items() if not fits(file, name, what)]
        return "", [], [f"the module needs {listed([f'`{name}`, {PORTS[name]}' for name in wrong], 'and')}"]
    declared = file.declaration(word)
    if declared and declared.place == place:
        return f"`{word}` is not in the list of ports", [], []
    return f"`{word}` is in the list of ports, but no input or output declares it", [], []


def fits(file, name, what):
    found = file.declared.get(name)
    return found and what.startswith(f"an {found[1]}") and ("one bit" not in what or file.width(name) == 1)


RULES = {"V01": foreign, "V02": unexpected, "V03": twice, "V04": unknown, "V05": differ, "V06": bad_literal, "V07": unassigned,
         "V08": not_updated, "V10": missing}


def explained(data, rule, place, text):
    """What is told about a fault of a Verilog file, by its rule, its place and its text."""
    file = File(data.decode("latin-1"))
    label, others, advice = RULES[rule](file, place, text)
    word = token_at(file.text, place)
    return Report(rule, Spot(place, place + max(1, len(word)), label), [each for each in others if each], advice)


def loop(data, names):
    """What is told about a combinational loop: where its first wires are assigned."""
    file, shown = File(data.decode("latin-1")), names[:8]
    spots = [file.first(ASSIGNED, name, len(file.text), f"it needs {'`' + after + '`'}") for name, after in zip(shown, [*names[1:], names[0]])]
    spots = [each for each in spots if each] or [Spot(0, 1)]
    more = [f"{len(names) - len(shown):,} more wires are in the loop"] if len(names) > len(shown) else []
    return Report("V09", spots[0], spots[1:], ["each of these wires waits for the next one in the same cycle: put a register in between", *more])
