"""Scripts of calls, and the replies of a circuit to them, one call after another. Written from docs/COMMANDS.md alone."""
SCRIPT_MAX = 1_048_576


class ScriptFault(Exception):
    """The text after `line J: `."""

    def __init__(self, line, text):
        super().__init__(f"line {line}: {text}")


def lines_of(script):
    lines = script.split(b"\n")
    return lines[:-1] if not lines[-1] else lines


def is_argument(word, width):
    return 1 <= len(word) <= 39 and word.isdigit() and int(word) < 1 << width


def calls_of(script, widths):
    """The words of each line."""
    calls = []
    for number, line in enumerate(lines_of(script), 1):
        words = [word for word in line.split(b" ") if word]
        if len(words) != len(widths):
            raise ScriptFault(number, f"main takes {len(widths)} arguments, {len(words)} given")
        for place, (word, width) in enumerate(zip(words, widths), 1):
            if not is_argument(word, width):
                raise ScriptFault(number, f"argument {place} is no number of {width} bits")
        calls.append([int(word) for word in words])
    return calls


def replies(circuit, calls, limit):
    """The result and the cycle of each call up to the first without one."""
    registers, found = circuit.reset(), []
    for args in calls:
        reply = circuit.call(registers, args, limit)
        if not reply:
            break
        result, cycle, registers = reply
        found.append((result, cycle))
    return found
