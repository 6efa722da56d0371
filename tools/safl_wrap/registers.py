"""The shape of a wrapper with registers on AXI4-Lite: its ports, the addresses of its registers, and the C header that names them."""
from dataclasses import dataclass

from safl_wrap import registers_text
from safl_wrap.verilog import commented

CONTROL, STATUS, ARGUMENTS = 0x00, 0x04, 0x10  # the addresses of the first registers
BYTES, BITS = 4, 32  # of a word of the bus


@dataclass(frozen=True)
class Register:
    """A word of an argument or of the result: its address, its name in the header, and the bits of the signal that it has."""

    address: int
    name: str
    signal: str
    width: int
    low: int

    @property
    def bits(self):
        """How many bits of the signal are in this word."""
        return min(BITS, self.width - self.low)


def words_of(address, name, signal, width):
    """The words of a signal, the lowest bits first."""
    return [Register(address + low // 8, name, signal, width, low) for low in range(0, width, BITS)]


class Registers:
    """A wrapper's name, ports and registers."""

    def __init__(self, module, name, core):
        self.module, self.name, self.core = module, name, core
        self.fields = module.inputs
        self.arguments, address = [], ARGUMENTS
        for number, port in enumerate(module.inputs):
            found = words_of(address, "IN_" + port.name.removeprefix("in$"), f"argument_{number}", port.width)
            self.arguments += found
            address += BYTES * len(found)
        self.results = words_of(address, "RESULT", "result", module.result)
        self.size = address + BYTES * len(self.results)
        self.address_bits = (self.size - 1).bit_length()

    def text(self):
        """The wrapper's file."""
        return registers_text.text(self)

    def ports(self):
        """The ports in order: each with its direction, its width, and its name."""
        address = self.address_bits
        yield from (("input", 1, "aclk"), ("input", 1, "aresetn"))
        yield from (("input", 1, "s_axi_awvalid"), ("output", 1, "s_axi_awready"), ("input", address, "s_axi_awaddr"))
        yield from (("input", 1, "s_axi_wvalid"), ("output", 1, "s_axi_wready"), ("input", BITS, "s_axi_wdata"))
        yield from (("input", BYTES, "s_axi_wstrb"), ("output", 1, "s_axi_bvalid"), ("input", 1, "s_axi_bready"))
        yield from (("output", 2, "s_axi_bresp"), ("input", 1, "s_axi_arvalid"), ("output", 1, "s_axi_arready"))
        yield from (("input", address, "s_axi_araddr"), ("output", 1, "s_axi_rvalid"), ("input", 1, "s_axi_rready"))
        yield from (("output", BITS, "s_axi_rdata"), ("output", 2, "s_axi_rresp"), ("output", 1, "irq"))

    def sides(self):
        """The inputs and the outputs of the bus."""
        found = {"input": [], "output": []}
        for direction, _, name in self.ports():
            if name not in ("aclk", "aresetn"):
                found[direction].append(name)
        return found["input"], found["output"]

    def header(self):
        """A header in C: the addresses of the registers, and the bits of control and status."""
        prefix = self.name.upper()
        found = [
            ("CONTROL", CONTROL, ""), ("CONTROL_START", 1, ""), ("CONTROL_INTERRUPT", 2, ""),
            ("STATUS", STATUS, ""), ("STATUS_BUSY", 1, ""), ("STATUS_DONE", 2, ""),
        ]
        for register in (*self.arguments, *self.results):
            if not register.low:
                found.append((register.name, register.address, f" /* {register.width} bits, the lowest ones first */"))
        found.append(("SIZE", self.size, ""))
        lines = commented([f"The registers of {self.name}: addresses in bytes, and bits of CONTROL and of STATUS. Written by safl-wrap."])
        lines = [f"/* {line.removeprefix('// ')} */" for line in lines] + [f"#ifndef {prefix}_H", f"#define {prefix}_H"]
        lines += [f"#define {prefix}_{name} 0x{value:02x}u{more}" for name, value, more in found]
        return "\n".join([*lines, "#endif", ""])
