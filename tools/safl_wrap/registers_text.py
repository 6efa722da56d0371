"""The text of a wrapper with registers on AXI4-Lite."""
from safl_wrap import registers as shapes
from safl_wrap.verilog import file_of, instance, listed, part, plural, vector


def table(wrapper):
    """The registers, as lines."""
    rows = [
        (shapes.CONTROL, "CONTROL   bit 0: writing 1 starts a run, unless one goes on. Bit 1: interrupts are enabled"),
        (shapes.STATUS, "STATUS    bit 0: a run goes on. Bit 1: a result has come since the last start; writing 1 clears it"),
    ]
    for register in (*wrapper.arguments, *wrapper.results):
        top = register.low + register.bits - 1
        rows.append((register.address, f"{register.name:9} {part('', register.width, top, register.low) or 'bit 0'}"))
    return [f"  0x{address:02x}  {what}" for address, what in rows]


def head(wrapper):
    """The comment above the module."""
    return [
        f"{wrapper.name}: the module {wrapper.core}, from {wrapper.module.file}, behind registers on AXI4-Lite.",
        "Written by safl-wrap, which also writes a C header with the addresses (--header), and properties that can be proved (--formal).",
        "",
        *table(wrapper),
        "",
        "Words have 32 bits. All other addresses below the next power of two read as 0, and higher bits of an address are ignored.",
        "Arguments may be written while a run goes on: it has its own copy. The result stays until the next run is done.",
        f"{plural(wrapper.address_bits, 'address bit')} of ADDRESS_WIDTH are used. Responses are always OKAY.",
        "irq is 1 while bit 1 of STATUS and bit 1 of CONTROL are.",
        "",
        "aresetn is synchronous and active low. One rising edge at which it is 0 is needed first, and is enough.",
    ]


def header(wrapper):
    lines = []
    for direction, width, name in wrapper.ports():
        lines.append(f"{direction} wire {vector('ADDRESS_WIDTH' if name.endswith('addr') else width)}{name}")
    return [
        f"module {wrapper.name} #(", f"  parameter ADDRESS_WIDTH = {wrapper.address_bits}", ") (", *listed(lines, 2), ");",
    ]


def number(wrapper, address):
    """The number of a word, as a literal."""
    return f"{wrapper.address_bits - 2}'d{address // shapes.BYTES}"


def writes(wrapper):
    """The channels of writes."""
    high = wrapper.address_bits - 1
    return [
        "  wire rst = ~aresetn;",
        "  // A write is made when its address and its data are there, and the response before it has been taken.",
        "  reg has_address;",
        "  reg has_data;",
        "  reg responds;",
        f"  reg {vector(wrapper.address_bits - 2)}word;",
        "  reg [31:0] data;",
        "  reg [3:0] strobes;",
        "  assign s_axi_awready = ~rst & ~has_address;",
        "  assign s_axi_wready = ~rst & ~has_data;",
        "  assign s_axi_bvalid = ~rst & responds;",
        "  assign s_axi_bresp = 2'b00;",
        "  wire write = has_address & has_data & ~responds;",
        "  wire [31:0] mask = {{8{strobes[3]}}, {8{strobes[2]}}, {8{strobes[1]}}, {8{strobes[0]}}};",
        "  always @(posedge aclk) begin",
        f"    if (s_axi_awready) word <= s_axi_awaddr[{high}:2];",
        "    if (s_axi_wready) data <= s_axi_wdata;",
        "    if (s_axi_wready) strobes <= s_axi_wstrb;",
        "    has_address <= ~rst & (has_address ? ~write : s_axi_awvalid);",
        "    has_data <= ~rst & (has_data ? ~write : s_axi_wvalid);",
        "    responds <= ~rst & (write | (responds & ~s_axi_bready));",
        "  end",
    ]


def control(wrapper):
    """The registers of control, status and arguments, and the circuit."""
    arguments = [f"  reg {vector(port.width)}argument_{place};" for place, port in enumerate(wrapper.fields)]
    given = [(port.name, f"argument_{place}") for place, port in enumerate(wrapper.fields)]
    joined = [("clk", "aclk"), ("rst", "rst"), ("start", "start"), *given, ("done", "done"), ("result", "result")]
    return [
        "  reg busy;",
        "  reg finished;",
        "  reg enabled;",
        *arguments,
        f"  wire control = write & strobes[0] & word == {number(wrapper, shapes.CONTROL)};",
        f"  wire clear = write & mask[1] & data[1] & word == {number(wrapper, shapes.STATUS)};",
        "  wire start = ~rst & control & data[0] & ~busy;",
        "  assign irq = ~rst & finished & enabled;",
        "  wire done;",
        f"  wire {vector(wrapper.module.result)}result;",
        *instance(wrapper.core, joined),
    ]


def edge(wrapper):
    """What happens to the registers at a rising edge of the clock."""
    changed = [
        "      busy <= start | (busy & ~done);",
        "      finished <= done | (finished & ~start & ~clear);",
        "      if (control) enabled <= data[1];",
    ]
    for register in wrapper.arguments:
        old = part(register.signal, register.width, register.low + register.bits - 1, register.low)
        data, mask = (part(name, shapes.BITS, register.bits - 1, 0).replace("[31:0]", "") for name in ("data", "mask"))
        changed += [f"      if (write & word == {number(wrapper, register.address)}) {old} <= ({old} & ~{mask}) | ({data} & {mask});"]
    cleared = ["busy", "finished", "enabled"]
    cleared = [f"      {name} <= 1'b0;" for name in cleared]
    cleared += [f"      argument_{place} <= {port.width}'d0;" for place, port in enumerate(wrapper.fields)]
    return ["  always @(posedge aclk)", "    if (rst) begin", *cleared, "    end else begin", *changed, "    end"]


def extended(register):
    """The word of a register, with zeros above it."""
    found = part(register.signal, register.width, register.low + register.bits - 1, register.low)
    return found if register.bits == shapes.BITS else f"{{{shapes.BITS - register.bits}'d0, {found}}}"


def reads(wrapper):
    """The channels of reads."""
    rows = [(shapes.CONTROL, "{30'd0, enabled, 1'b0}"), (shapes.STATUS, "{30'd0, finished, busy}")]
    rows += [(register.address, extended(register)) for register in (*wrapper.arguments, *wrapper.results)]
    return [
        "  reg has_read;",
        "  reg [31:0] read;",
        "  reg [31:0] value;",
        "  assign s_axi_arready = ~rst & ~has_read;",
        "  assign s_axi_rvalid = ~rst & has_read;",
        "  assign s_axi_rdata = read;",
        "  assign s_axi_rresp = 2'b00;",
        "  always @*",
        f"    case (s_axi_araddr[{wrapper.address_bits - 1}:2])",
        *[f"      {number(wrapper, address)}: value = {word};" for address, word in rows],
        "      default: value = 32'd0;",
        "    endcase",
        "  always @(posedge aclk) begin",
        "    if (s_axi_arready) read <= value;",
        "    has_read <= ~rst & (has_read ? ~s_axi_rready : s_axi_arvalid);",
        "  end",
    ]


def text(wrapper):
    """The wrapper's file."""
    body = []
    for section in (writes, control, edge, reads):
        body += ["", *section(wrapper)] if body else section(wrapper)
    unused = "  wire unused = &{1'b0, s_axi_awaddr, s_axi_araddr}; // the bits that choose a byte, and those above"
    return file_of(head(wrapper), [*header(wrapper), *body, "", unused, "endmodule"])
