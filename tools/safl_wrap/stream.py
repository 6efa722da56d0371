"""The shape of a wrapper with valid and ready on both sides: its ports, and what is transferred.

The words of a call are taken in the order of main's parameters, the lowest bits first. Each word is extended to a multiple of the
width of a transfer; if all words go in one transfer, they are extended to bytes with the names of AXI-Stream, and else not at all.
"""
from dataclasses import dataclass

from safl_tools.ending import WRONG_USE, Refusal
from safl_wrap import stream_text

WIDTH_MAX = 128  # no word is wider, and each has transfers of its own


@dataclass(frozen=True)
class Names:
    """The ports of a wrapper."""

    clock: str
    reset: str
    in_valid: str
    in_ready: str
    in_data: str
    in_last: str
    out_valid: str
    out_ready: str
    out_data: str
    out_last: str
    error: str


PLAIN = Names(
    "clk", "rst", "in_valid", "in_ready", "in_data", "in_last", "out_valid", "out_ready", "out_data", "out_last", "frame_error"
)
AXI = Names(
    "aclk", "aresetn", "s_axis_tvalid", "s_axis_tready", "s_axis_tdata", "s_axis_tlast",
    "m_axis_tvalid", "m_axis_tready", "m_axis_tdata", "m_axis_tlast", "frame_error",
)


def extended(width, unit):
    """The width, rounded up to a multiple of the unit."""
    return -(-width // unit) * unit


@dataclass(frozen=True)
class Field:
    """A parameter of main: its port, its width, and its lowest bit among all bits of a call."""

    port: str
    width: int
    low: int


class Stream:
    """A wrapper's name and ports, and how many transfers of which width a call and a result take."""

    def __init__(self, module, name, core, width=None, axi=False, framed=False):
        if axi and width and width % 8:
            raise Refusal(WRONG_USE, f"--width {width} does not fit: with --axi a transfer has whole bytes")
        unit = width or (8 if axi else 1)
        self.module, self.name, self.core = module, name, core
        self.axi, self.is_shifted, self.is_framed = axi, bool(width), framed
        self.names = AXI if axi else PLAIN
        self.fields, bits = [], 0
        for port in module.inputs:
            self.fields.append(Field(port.name, port.width, bits))
            bits += extended(port.width, unit)
        self.in_width = (width or bits) if bits else 0
        self.in_count = bits // self.in_width if bits else 1
        self.out_width = width or extended(module.result, unit)
        self.out_count = extended(module.result, unit) // self.out_width
        self.has_last = axi or self.is_shifted

    def text(self):
        """The wrapper's file."""
        return stream_text.text(self)

    def transfers_in(self, arguments):
        """The words that are transferred for a call."""
        whole = sum(word << field.low for field, word in zip(self.fields, arguments))
        return [whole >> self.in_width * i & (1 << self.in_width) - 1 for i in range(self.in_count)]

    def transfers_out(self, result):
        """The words that are transferred for a result."""
        return [result >> self.out_width * i & (1 << self.out_width) - 1 for i in range(self.out_count)]

    def ports(self):
        """The ports of the wrapper in order: each with its direction, its width, and what it is called in benches and proofs."""
        names = self.names
        yield "input", 1, names.clock, "clk"
        yield "input", 1, names.reset, "~rst" if self.axi else "rst"
        yield "input", 1, names.in_valid, "in_valid"
        yield "output", 1, names.in_ready, "in_ready"
        if self.fields:
            yield "input", self.in_width, names.in_data, "in_data"
        if self.is_framed:
            yield "input", 1, names.in_last, "in_last"
            yield "output", 1, names.error, "frame_error"
        yield "output", 1, names.out_valid, "out_valid"
        yield "input", 1, names.out_ready, "out_ready"
        yield "output", self.out_width, names.out_data, "out_data"
        if self.has_last:
            yield "output", 1, names.out_last, "out_last"

    def sides(self):
        """The inputs and the outputs of the two sides, as they are called in proofs."""
        found = {"input": [], "output": []}
        for direction, _, _, name in self.ports():
            if name not in ("clk", "rst", "~rst"):
                found[direction].append(name)
        return found["input"], found["output"]
