"""Arguments of main that are refused: in the words of a command, or in a line of a script."""
import re
import shlex

from safl_explain import verilog
from safl_explain.grammar import Binding
from safl_explain.report import Fault, Report, Spot, counted
from safl_explain.source import definitions
from safl_explain.text import Page
from safl_tools.numbers import decimal, is_hexadecimal


class Command:
    """The words of a command as a text, and where each of them is."""

    def __init__(self, words):
        self.words, self.spans, text = words, [], "safl"
        for word in words:
            shown = shlex.quote(word)
            begin = len(text.encode("utf-8", "replace")) + 1
            text += f" {shown}"
            self.spans.append((begin, begin + len(shown.encode("utf-8", "replace"))))
        self.page = Page(text.encode("utf-8", "replace"), numbered=False)

    def spot(self, place, label):
        """The spot of a word; a word that is missing is expected at the end."""
        if place < len(self.spans):
            return Spot(*self.spans[place], label)
        end = len(self.page.data) + 1
        return Spot(end, end + 1, label)


def parameters_of(data, is_verilog):
    """The parameters of main, or those of a module; nothing if they can't be read."""
    text = data.decode("latin-1")
    if is_verilog:
        file = verilog.File(text)
        return [Binding(name, 0, file.width(name)) for name, found in file.declared.items() if found[1] == "input" and name not in ("clk", "rst", "start")]
    try:
        return definitions(text)[-1].parameters
    except (Fault, IndexError):
        return []


def shown(parameters):
    """What main takes, in a line."""
    if not parameters:
        return "main takes no arguments"
    return "main takes " + ", ".join(f"{each.name} (0 to {2**each.width - 1:,})" for each in parameters)


def why_no_number(word, parameter):
    """Why a word is no number of a parameter's width."""
    width = parameter.width
    if is_hexadecimal(word):
        value = int(decimal(word))
        return f"this is no decimal number: write `{value}`" if value < 2**width else f"this is {value:,}, and `{parameter.name}` has {counted(width, 'bit')}"
    if not (word.isascii() and word.isdigit()):
        return f"this is no decimal number; `{parameter.name}` has {counted(width, 'bit')}"
    if len(word) > 39:
        return "an argument has at most 39 digits"
    return f"this needs {counted(int(word).bit_length(), 'bit')}; `{parameter.name}` has {width}, for 0 to {2**width - 1:,}"


def of_command(words, places, told, parameters):
    """What is told about arguments that are refused: `places` are those of the arguments among the words."""
    command = Command(words)
    wrong = re.match(r"argument (\d+) is no number", told)
    if wrong:
        number = int(wrong[1]) - 1
        if number >= min(len(places), len(parameters)):
            return command.page, Report(spot=command.spot(len(words), ""))
        return command.page, Report(spot=command.spot(places[number], why_no_number(words[places[number]], parameters[number])), hints=[shown(parameters)])
    at, label = miscounted(places, len(words), parameters)
    return command.page, Report(spot=command.spot(at, label), hints=[shown(parameters)])


def miscounted(places, end, parameters):
    """The place of the first word that is missing or too many, and what is said of it."""
    if len(places) < len(parameters):
        missing = parameters[len(places)]
        return end, f"`{missing.name}`, {counted(missing.width, 'bit')}, is missing"
    return (places[len(parameters)] if len(places) > len(parameters) else end), "no parameter takes this"


def of_script(data, told, parameters):
    """What is told about a line of a script."""
    number = int(re.match(r"line (\d+): ", told)[1])
    page = Page(data)
    begin = page.place_of(number, 1)
    line = data[begin:].split(b"\n", 1)[0]
    words = [(begin + found.start(), begin + found.end(), found[0].decode("utf-8", "replace")) for found in re.finditer(rb"[^ ]+", line)]
    hints = [shown(parameters), *separators(line)]
    wrong = re.search(r"argument (\d+) is no number", told)
    if wrong and int(wrong[1]) <= len(words):
        first, end, word = words[int(wrong[1]) - 1]
        return page, Report(spot=Spot(first, end, why_no_number(word, parameters[int(wrong[1]) - 1])), hints=hints)
    at, label = miscounted([first for first, _, _ in words], begin + len(line), parameters)
    end = next((end for first, end, _ in words if first == at), at + 1)
    return page, Report(spot=Spot(at, end, label), hints=hints)


def separators(line):
    """A hint if a line has other separators than spaces."""
    for byte, name in ((b"\t", "a tab"), (b",", "a comma"), (b"\r", "a carriage return, as Windows ends lines"), (b"//", "a comment")):
        if byte in line:
            return [f"words of a script are separated by spaces only, and this line has {name}"]
    return []
