"""Bit-level circuits and their ASCII AIGER text: the reader with its faults, the writer, weights and runs."""
import re
from dataclasses import dataclass, field

from language import Fault

FILE_MAX = 536_870_912
WEIGHT_MAX = 1_000_000
TEXTS = {"B01": "bad header", "B02": "bad line", "B03": "bad literal", "B04": "bad symbol"}


def fault_line(name, fault):
    return f"{name}:{fault.place}: {fault.rule} {TEXTS[fault.rule]}"


def numbers_of(line):
    """The decimals of 1 to 10 digits below 2^31 with single spaces between them that a line is, or None."""
    words = line.split(b" ")
    if all(re.fullmatch(rb"[0-9]{1,10}", word) and int(word) < 1 << 31 for word in words):
        return [int(word) for word in words]
    return None


@dataclass
class Bits:
    """Inputs, latches with their next literals, outputs, and ANDs of two literals."""
    inputs: int = 0
    nexts: list = field(default_factory=list)
    outputs: list = field(default_factory=list)
    ands: list = field(default_factory=list)
    names: dict = field(default_factory=dict)

    def counts(self):
        return [f"inputs {self.inputs}", f"latches {len(self.nexts)}", f"outputs {len(self.outputs)}", f"ands {len(self.ands)}"]

    def cycle(self, state, given):
        """The bits of the outputs and the next ones of the latches, where latches and inputs have these."""
        values = [0] + given + state
        for a, b in self.ands:
            values.append(on(values, a) & on(values, b))
        return [on(values, l) for l in self.outputs], [on(values, l) for l in self.nexts]


def on(values, literal):
    return values[literal // 2] ^ literal % 2


def written(bits):
    first = bits.inputs + len(bits.nexts)
    lines = [f"aag {first + len(bits.ands)} {bits.inputs} {len(bits.nexts)} {len(bits.outputs)} {len(bits.ands)}"]
    lines += [f"{2 * v}" for v in range(1, bits.inputs + 1)]
    lines += [f"{2 * (bits.inputs + 1 + i)} {l}" for i, l in enumerate(bits.nexts)]
    lines += [f"{l}" for l in bits.outputs]
    lines += [f"{2 * (first + 1 + i)} {a} {b}" for i, (a, b) in enumerate(bits.ands)]
    text = "".join(line + "\n" for line in lines).encode()
    for letter, count in (("i", bits.inputs), ("l", len(bits.nexts)), ("o", len(bits.outputs))):
        for place in range(count):
            name = bits.names.get((letter, place), b"")
            if name:
                text += f"{letter}{place} ".encode() + name + b"\n"
    return text


def read(text):
    """The circuit that a text is; else its first fault, with the number of its line as the place."""
    lines = text.split(b"\n")
    if lines[-1] == b"":
        lines.pop()
    header = lines[0] if lines else b""
    counts = numbers_of(header[4:]) if header.startswith(b"aag ") else None
    if counts is None or len(counts) != 5 or counts[0] != counts[1] + counts[2] + counts[4]:
        raise Fault("B01", 1)
    most, inputs, latches, outputs, ands = counts
    bits, at = Bits(inputs), 1
    own = 2
    for kind, count in (("i", inputs), ("l", latches), ("o", outputs), ("a", ands)):
        for _ in range(count):
            found = numbers_of(lines[at]) if at < len(lines) else None
            at += 1
            if found is None or len(found) != {"i": 1, "l": 2, "o": 1, "a": 3}[kind]:
                raise Fault("B02", at)
            rest = found if kind == "o" else found[1:]
            if kind != "o" and found[0] != own or any(l > 2 * most + 1 for l in rest) or kind == "a" and any(l >= own for l in rest):
                raise Fault("B03", at)
            own += 0 if kind == "o" else 2
            {"i": lambda ls: None, "l": bits.nexts.extend, "o": bits.outputs.extend, "a": lambda ls: bits.ands.append(tuple(ls))}[kind](rest)
    places = {"i": inputs, "l": latches, "o": outputs}
    for number, line in enumerate(lines[at:], at + 1):
        if line == b"c":
            break
        match = re.fullmatch(rb"([ilo])(0|[1-9][0-9]*) (.+)", line, re.DOTALL)
        if not match or int(match[2]) >= places[match[1].decode()]:
            raise Fault("B04", number)
        key = match[1].decode(), int(match[2])
        if key in bits.names:
            raise Fault("B04", number)
        bits.names[key] = match[3]
    return bits


class Blasted:
    """What is known of the bit-level circuit of a netlist: its places, their names, and how heavy the netlist is."""

    def __init__(self, inputs, registers, outputs, net=None):
        self.signals = {"i": inputs, "l": registers, "o": outputs}
        self.net = net

    @staticmethod
    def of_netlist(net):
        declared = [d for d in net.file.declarations if d.name not in ("clk", "rst")]
        return Blasted(*([(d.name, d.width) for d in declared if d.kind == kind] for kind in ("input", "reg", "output")), net)

    @staticmethod
    def of_circuit(circuit):
        return Blasted(circuit.inputs(), circuit.registers(), [("done", 1), ("result", circuit.program.main.width)])

    def fault(self):
        """The first register that does not reset to 0, or the weight if it is too great."""
        if self.net is None:
            return None
        for name, _ in self.signals["l"]:
            if self.net.updates[name][0]:
                return 14, f"register {name} does not reset to 0"
        weight = self.weight()
        return (12, f"circuit too large: weight {weight}") if weight > WEIGHT_MAX else None

    def weight(self):
        return sum(width for signals in self.signals.values() for _, width in signals) + sum(self.cell_weight(cell) for cell in self.net.cells.values())

    def cell_weight(self, cell):
        width, widths = self.net.cell_width(cell), [self.net.width(token.text) for token in cell.names]
        if cell.kind == "*":
            return width * width
        if cell.kind in ("<<", ">>"):
            return 8 * width + widths[1]
        return max([width] + widths)

    def names(self, letter):
        return [f"{name}[{bit}]" for name, width in self.signals[letter] for bit in range(width)]

    def counts(self):
        """How many inputs, latches and outputs there are; how many ANDs is left open."""
        inputs, latches, outputs = (len(self.names(letter)) for letter in "ilo")
        return [f"inputs {inputs}", f"latches {latches}", f"outputs {outputs}"]

    def symbols(self):
        return [f"{letter}{place} {name}" for letter in "ilo" for place, name in enumerate(self.names(letter))]
