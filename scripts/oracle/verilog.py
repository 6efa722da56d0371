"""The profile of Verilog: its reader with all faults, and the netlist that is run. Written from docs/VERILOG.md alone."""
from dataclasses import dataclass, field

from language import BASES, DIGITS, LETTERS, Fault, apply, place_text, run_of

KEYS = {"module", "endmodule", "input", "output", "reg", "wire", "assign", "always", "posedge", "if", "else"}
SYMBOLS = ["==", "!=", "<=", ">=", "<<", ">>"] + list("()[]{},;:?@=~+-*&|^<>")
OPERATORS = ["+", "-", "*", "&", "|", "^", "==", "!=", "<", "<=", ">", ">=", "<<", ">>"]
FILE_MAX = 67_108_864
TEXTS = {
    "V01": "foreign byte", "V02": "unexpected token", "V03": "name twice", "V04": "unknown name", "V05": "widths differ: {} and {}",
    "V06": "bad literal", "V07": "wire without exactly one assign", "V08": "register without exactly one update", "V10": "port missing",
}


class Loop(Exception):
    def __init__(self, names):
        super().__init__()
        self.names = names


def fault_line(name, text, fault):
    return f"{name}:{place_text(text, fault.place)}: {fault.rule} {TEXTS[fault.rule].format(*fault.values)}"


@dataclass
class Token:
    kind: str  # id, key, num, sized, symbol, end
    text: str
    place: int
    fault: bool = False  # a number by the rule V06
    width: int = 0
    value: int = 0


def tokens_of(source):
    text = source.decode("latin-1")
    found, at = [], 0
    while at < len(text):
        c = text[at]
        if c in " \t\r\n":
            at = run_of(text, at, " \t\r\n")
        elif text.startswith("//", at):
            end = text.find("\n", at)
            at = len(text) if end < 0 else end
        elif text.startswith("/*", at):
            end = text.find("*/", at + 2)
            if end < 0:
                raise Fault("V01", at)
            at = end + 2
        elif c in LETTERS:
            end = run_of(text, at, LETTERS + DIGITS + "$")
            word = text[at:end]
            if len(word) > 200:
                raise Fault("V01", at)
            found.append(Token("key" if word in KEYS else "id", word, at))
            at = end
        elif c in DIGITS:
            at = number_at(text, at, found)
        else:
            symbol = next((s for s in SYMBOLS if text.startswith(s, at)), None)
            if symbol is None:
                raise Fault("V01", at)
            found.append(Token("symbol", symbol, at))
            at += len(symbol)
    found.append(Token("end", "", len(text)))
    return found


def number(digits, base):
    """The value of a run of digits, and whether it is too long or too great."""
    value = int(digits, base)
    return value, len(digits) > 128 or value >= 1 << 128


def number_at(text, at, found):
    end = run_of(text, at, DIGITS)
    first, is_bad = number(text[at:end], 10)
    if end + 1 < len(text) and text[end] == "'" and text[end + 1] in BASES:
        base, allowed = BASES[text[end + 1]]
        stop = run_of(text, end + 2, allowed)
        if stop > end + 2:
            value, is_bad_value = number(text[end + 2:stop], base)
            is_bad = is_bad or is_bad_value or not 1 <= first <= 128 or value >= 1 << first
            found.append(Token("sized", text[at:stop], at, is_bad, first, value))
            return stop
    found.append(Token("num", text[at:end], at, is_bad, 0, first))
    return end


@dataclass
class Declaration:
    kind: str
    name: str
    place: int
    range: tuple = None  # tokens

    @property
    def width(self):
        return self.range[0].value + 1 if self.range else 1


@dataclass
class Cell:
    kind: str  # lit, copy, ~, an operator, ?, cat, slice
    names: list = field(default_factory=list)  # identifier tokens
    numbers: list = field(default_factory=list)  # number tokens


class Parser:
    def __init__(self, source):
        self.tokens = tokens_of(source)
        self.at = 0
        self.header, self.declarations, self.statements = [], [], []

    @property
    def token(self):
        return self.tokens[self.at]

    def is_(self, text):
        return self.token.kind in ("key", "symbol") and self.token.text == text

    def take(self, *texts):
        for text in texts:
            if not self.is_(text):
                raise Fault("V02", self.token.place)
            self.at += 1

    def kind(self, kind):
        if self.token.kind != kind:
            raise Fault("V02", self.token.place)
        self.at += 1
        return self.tokens[self.at - 1]

    def file(self):
        self.take("module")
        self.kind("id")
        self.take("(")
        self.header.append(self.kind("id"))
        while self.is_(","):
            self.take(",")
            self.header.append(self.kind("id"))
        self.take(")", ";")
        while self.token.kind == "key" and self.token.text in ("input", "output", "reg", "wire"):
            self.declaration()
        while self.is_("assign") or self.is_("always"):
            self.statement()
        self.take("endmodule")
        self.kind("end")
        return self

    def declaration(self):
        kind = self.kind("key").text
        bounds = None
        if self.is_("["):
            self.take("[")
            high = self.kind("num")
            self.take(":")
            bounds = (high, self.kind("num"))
            self.take("]")
        name = self.kind("id")
        self.take(";")
        self.declarations.append(Declaration(kind, name.text, name.place, bounds))

    def statement(self):
        if self.is_("assign"):
            self.take("assign")
            target = self.kind("id")
            self.take("=")
            cell = self.cell()
            self.take(";")
            self.statements.append(("assign", target, cell))
            return
        self.take("always", "@", "(", "posedge")
        clock = self.kind("id")
        self.take(")", "if", "(")
        reset = self.kind("id")
        self.take(")")
        first = self.kind("id")
        self.take("<=")
        literal = self.kind("sized")
        self.take(";", "else")
        second = self.kind("id")
        self.take("<=")
        following = self.kind("id")
        self.take(";")
        self.statements.append(("always", clock, reset, first, literal, second, following))

    def cell(self):
        if self.token.kind == "sized":
            return Cell("lit", numbers=[self.kind("sized")])
        if self.is_("~"):
            self.take("~")
            return Cell("~", [self.kind("id")])
        if self.is_("{"):
            self.take("{")
            left = self.kind("id")
            self.take(",")
            right = self.kind("id")
            self.take("}")
            return Cell("cat", [left, right])
        first = self.kind("id")
        if self.is_("?"):
            self.take("?")
            left = self.kind("id")
            self.take(":")
            return Cell("?", [first, left, self.kind("id")])
        if self.is_("["):
            self.take("[")
            high = self.kind("num")
            self.take(":")
            low = self.kind("num")
            self.take("]")
            return Cell("slice", [first], [high, low])
        if self.token.kind == "symbol" and self.token.text in OPERATORS:
            operator = self.kind("symbol").text
            return Cell(operator, [first, self.kind("id")])
        return Cell("copy", [first])


class Netlist:
    """What a file reads as, or its first fault."""

    def __init__(self, source):
        file = Parser(source).file()
        self.declared = {}
        self.file = file
        self.numbers()
        self.names()
        self.ports()
        self.cells, self.updates, self.shown = {}, {}, {}
        for statement in file.statements:
            (self.assign if statement[0] == "assign" else self.always)(*statement[1:])
        for d in sorted(file.declarations, key=lambda d: d.place):
            if d.kind == "wire" and d.name not in self.cells or d.kind == "output" and d.name not in self.shown:
                raise Fault("V07", d.place)
            if d.kind == "reg" and d.name not in self.updates:
                raise Fault("V08", d.place)
        self.order = self.ordered()

    def numbers(self):
        """V05 and V06 of declarations, slices and literals."""
        faults = []
        for d in self.file.declarations:
            if d.range:
                high, low = d.range
                faults += [("V06", token.place) for token in d.range if token.fault]
                if low.value != 0 or high.value > 127:
                    faults.append(("V05", high.place))
        for statement in self.file.statements:
            tokens = statement[2].numbers if statement[0] == "assign" else [statement[4]]
            faults += [("V06", token.place) for token in tokens if token.fault]
        if faults:
            rule, place = min(faults, key=lambda fault: (fault[1], -int(fault[0][1:])))
            raise Fault(rule, place, *([0, 0] if rule == "V05" else []))

    def names(self):
        twice = []
        for places in (self.file.header, self.file.declarations):
            seen = set()
            for it in places:
                name = it.name if isinstance(it, Declaration) else it.text
                if name in seen:
                    twice.append(it.place)
                seen.add(name)
        if twice:
            raise Fault("V03", min(twice))
        self.declared = {d.name: d for d in self.file.declarations}

    def ports(self):
        for token in self.file.header:
            d = self.declared.get(token.text)
            if d is None or d.kind not in ("input", "output"):
                raise Fault("V10", token.place)
        listed = {token.text for token in self.file.header}
        for d in self.file.declarations:
            if d.kind in ("input", "output") and d.name not in listed:
                raise Fault("V10", d.place)
        for name, kind, width in (("clk", "input", 1), ("rst", "input", 1), ("start", "input", 1), ("done", "output", 1), ("result", "output", None)):
            d = self.declared.get(name)
            if d is None or d.kind != kind or width not in (None, d.width):
                raise Fault("V10", 0)

    def is_fit(self, name):
        d = self.declared.get(name)
        return d is not None and d.kind != "output" and name not in ("clk", "rst")

    def width(self, name):
        return self.declared[name].width

    def assign(self, target, cell):
        d = self.declared.get(target.text)
        if d is None or d.kind not in ("wire", "output"):
            raise Fault("V04", target.place)
        if target.text in self.cells or target.text in self.shown or d.kind == "output" and cell.kind != "copy":
            raise Fault("V07", target.place)
        for token in cell.names:
            if not self.is_fit(token.text):
                raise Fault("V04", token.place)
        found = self.cell_width(cell)
        if found != d.width:
            raise Fault("V05", target.place, d.width, found)
        if d.kind == "wire":
            self.cells[target.text] = cell
        else:
            self.shown[target.text] = cell.names[0].text

    def cell_width(self, cell):
        """The width of a cell, or 0 if its operands' widths have no row."""
        widths = [self.width(token.text) for token in cell.names]
        if cell.kind == "lit":
            return cell.numbers[0].width
        if cell.kind in ("copy", "~", "<<", ">>"):
            return widths[0]
        if cell.kind == "cat":
            return sum(widths) if sum(widths) <= 128 else 0
        if cell.kind == "slice":
            high, low = (token.value for token in cell.numbers)
            return high - low + 1 if low <= high < widths[0] else 0
        if cell.kind == "?":
            return widths[1] if widths[0] == 1 and widths[1] == widths[2] else 0
        if widths[0] != widths[1]:
            return 0
        return 1 if cell.kind in ("==", "!=", "<", "<=", ">", ">=") else widths[0]

    def always(self, clock, reset, first, literal, second, following):
        d = self.declared.get(first.text)
        for fails, token in (
            (clock.text != "clk", clock), (reset.text != "rst", reset), (d is None or d.kind != "reg", first),
            (second.text != first.text, second), (first.text in self.updates, first),
        ):
            if fails:
                raise Fault("V08", token.place)
        if not self.is_fit(following.text):
            raise Fault("V04", following.place)
        for token, width in ((literal, literal.width), (following, self.width(following.text))):
            if width != d.width:
                raise Fault("V05", token.place, d.width, width)
        self.updates[first.text] = (literal.value, following.text)

    def ordered(self):
        """The wires, each after its operands; or a loop of wires, from its least wire on."""
        numbers = {d.name: i for i, d in enumerate(d for d in self.file.declarations if d.kind == "wire")}
        done, order = set(), []
        for name in numbers:
            path, stack = [], [(name, False)]
            while stack:
                now, is_left = stack.pop()
                if is_left:
                    path.pop()
                    done.add(now)
                    order.append(now)
                elif now in path:
                    loop = path[path.index(now):]
                    first = min(range(len(loop)), key=lambda i: numbers[loop[i]])
                    raise Loop(loop[first:] + loop[:first])
                elif now not in done:
                    path.append(now)
                    stack.append((now, True))
                    stack += [(token.text, False) for token in self.cells[now].names if token.text in numbers and token.text not in done]
        return order

    def arguments(self):
        """The widths of the inputs that hold arguments, in order."""
        return [d.width for d in self.file.declarations if d.kind == "input" and d.name not in ("clk", "rst", "start")]

    def run(self, args, cycles):
        registers = {name: init for name, (init, _) in self.updates.items()}
        inputs = [d.name for d in self.file.declarations if d.kind == "input" and d.name not in ("clk", "rst", "start")]
        for cycle in range(cycles):
            values = dict(registers)
            values["start"] = int(cycle == 0)
            values.update(zip(inputs, args if cycle == 0 else [0] * len(args)))
            for name in self.order:
                values[name] = self.value(self.cells[name], values)
            if values[self.shown["done"]]:
                return values[self.shown["result"]], cycle
            registers = {name: values[following] for name, (_, following) in self.updates.items()}
        return None

    def value(self, cell, values):
        words = [values[token.text] for token in cell.names]
        if cell.kind == "lit":
            return cell.numbers[0].value
        if cell.kind == "copy":
            return words[0]
        if cell.kind == "?":
            return words[1] if words[0] else words[2]
        widths = [self.width(token.text) for token in cell.names]
        high, low = (token.value for token in cell.numbers) if cell.kind == "slice" else (0, 0)
        name = "bits" if cell.kind == "slice" else cell.kind
        return apply(name, self.cell_width(cell), words, widths, high, low)


def written_lines(circuit):
    """The lines of the text that `build` writes which docs/VERILOG.md fixes: all but the temporaries' and the registers' updates."""
    main = circuit.program.main
    inputs = circuit.inputs()
    outputs = [("done", 1), ("result", main.width)]
    ports = ["clk", "rst"] + [name for name, _ in inputs + outputs]
    lines = [f"module safl ({', '.join(ports)});", "  input clk;", "  input rst;"]
    for kind, signals in (("input", inputs), ("output", outputs), ("reg", circuit.registers()), ("wire", [(name, 1) for name in circuit.named_wires()])):
        lines += [f"  {kind} [{width - 1}:0] {name};" for name, width in signals]
    u = circuit.unit_name(main.group)
    return lines, [f"  assign done = fin${u};", f"  assign result = res${u};"]
