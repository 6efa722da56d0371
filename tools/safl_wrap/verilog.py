"""Pieces of Verilog text."""
import re

KEYWORDS = frozenset(
    """always and assign automatic begin buf bufif0 bufif1 case casex casez cell cmos config deassign default defparam design
    disable edge else end endcase endconfig endfunction endgenerate endmodule endprimitive endspecify endtable endtask event for
    force forever fork function generate genvar highz0 highz1 if ifnone incdir include initial inout input instance integer join
    large liblist library localparam macromodule medium module nand negedge nmos nor noshowcancelled not notif0 notif1 or output
    parameter pmos posedge primitive pull0 pull1 pulldown pullup pulsestyle_ondetect pulsestyle_onevent rcmos real realtime reg
    release repeat rnmos rpmos rtran rtranif0 rtranif1 scalared showcancelled signed small specify specparam strong0 strong1
    supply0 supply1 table task time tran tranif0 tranif1 tri tri0 tri1 triand trior trireg unsigned use uwire vectored wait wand
    weak0 weak1 while wire wor xnor xor""".split()
)


def is_name(name):
    """Whether a module, in Verilog as in C++, can have this name."""
    return name not in KEYWORDS and re.fullmatch(r"[A-Za-z][A-Za-z0-9_]*", name)


def plural(count, what):
    return f"{count} {what}" if count == 1 else f"{count} {what}s"


def vector(width):
    """The range of a signal: of a number of bits, or of one that an expression gives."""
    if width == 1:
        return ""
    return f"[{width - 1}:0] " if isinstance(width, int) else f"[{width} - 1:0] "


def part(name, whole, high, low):
    """Some bits of a vector of this width."""
    if whole == 1:
        return name
    return f"{name}[{high}]" if high == low else f"{name}[{high}:{low}]"


def listed(items, blanks):
    """The items of a list, each in a line of its own."""
    return [" " * blanks + item + "," * (i < len(items)) for i, item in enumerate(items, 1)]


def commented(lines):
    return [f"// {line}".rstrip() for line in lines]


def file_of(head, module):
    """The text of a file: a comment and a module, in which no name is declared by being used."""
    return "\n".join([*commented(head), "`default_nettype none", *module, "`default_nettype wire", ""])


def instance(core, given):
    """The module inside, with what its ports are joined to."""
    return [f"  {core} circuit (", *listed([f".{port}({signal})" for port, signal in given], 4), "  );"]
