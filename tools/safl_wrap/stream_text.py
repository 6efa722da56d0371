"""The text of a wrapper with valid and ready on both sides.

With --width the width of a transfer is a parameter of the module. What depends on it is said by expressions in it, so the text
is the same for every width, but for the comment above it and the parameter's own value.
"""
from safl_wrap.verilog import file_of, instance, listed, part, plural, vector


def places(stream):
    """Where each argument of a call is, in what is transferred."""
    for field in stream.fields:
        top = field.low + field.width - 1
        if not stream.is_shifted:
            yield part(stream.names.in_data, stream.in_width, top, field.low), field
            continue
        first, last = field.low // stream.in_width, top // stream.in_width
        yield f"transfer {first}" if first == last else f"transfers {first} to {last}", field


def order_of_words(stream):
    """What is transferred, as lines."""
    names, found = stream.names, list(places(stream))
    column = max([len(where) for where, _ in found], default=0) + 2
    lines = [f"A transfer has WIDTH bits. With WIDTH = {stream.out_width}:"] if stream.is_shifted else []
    if found:
        lines += [f"A call takes {plural(stream.in_count, 'transfer')}:"]
        lines += [f"  {where:{column}}{field.port}, {plural(field.width, 'bit')}" for where, field in found]
    else:
        lines += [f"main has no parameters, so there is no {names.in_data}: each transfer asks for a result."]
    lines += [f"A result of {plural(stream.module.result, 'bit')} takes {plural(stream.out_count, 'transfer')}."]
    if stream.is_shifted:
        lines += ["The transfers of a word begin with its lowest bits."]
    if stream.has_last:
        lines += [f"{names.out_last} is 1 in the last transfer of a result."]
    if sum(field.width for field in stream.fields) < stream.in_width * stream.in_count:
        lines += [f"Bits of {names.in_data} that belong to no argument are ignored."]
    if stream.module.result < stream.out_width * stream.out_count:
        lines += [f"Bits of {names.out_data} above the result are 0."]
    return lines + framing(stream)


def framing(stream):
    """What happens to frames, as lines."""
    if not stream.is_framed:
        return []
    names = stream.names
    return [
        "",
        f"A call is a frame, and {names.in_last} is 1 in its last transfer. A frame with fewer or more transfers than a call is",
        f"dropped: it has no result, and {names.error} is 1 in the cycle after its last transfer. The next frame is a call again.",
    ]


def head(stream):
    """The comment above the module."""
    names, module = stream.names, stream.module
    level, one = ("low", 0) if stream.axi else ("high", 1)
    return [
        f"{stream.name}: calls of the module {stream.core}, from {module.file}, with valid and ready on both sides.",
        "Written by safl-wrap, which also writes test benches for it (--bench), and properties that can be proved (--formal).",
        "",
        f"A transfer happens at a rising edge of {names.clock} at which valid and ready of its side are both 1.",
        "Results come in the order of the calls. A call may begin while the result before it is offered.",
        "",
        *order_of_words(stream),
        "",
        f"{names.reset} is synchronous and active {level}. One rising edge at which it is {one} is needed before the first",
        f"transfer, and is enough. It drops all calls. While it is {one}, {names.in_ready} and {names.out_valid} are 0.",
    ]


def header(stream):
    """The first lines of the module, to the end of its ports."""
    lines = []
    for direction, width, name, _ in stream.ports():
        is_data = name in (stream.names.in_data, stream.names.out_data)
        lines.append(f"{direction} wire {vector('WIDTH' if is_data and stream.is_shifted else width)}{name}")
    if not stream.is_shifted:
        return [f"module {stream.name} (", *listed(lines, 2), ");"]
    return [f"module {stream.name} #(", f"  parameter WIDTH = {stream.out_width}", ") (", *listed(lines, 2), ");"]


def counts(stream):
    """How many transfers a call and a result take, if the width is a parameter; and which is the first one of each argument."""
    if not stream.is_shifted:
        return []
    lines, before = [], "0"
    for number, field in enumerate(stream.fields):
        lines.append(f"  localparam FIRST_{number} = {before}; // {field.port}")
        before = f"FIRST_{number} + ({field.width} + WIDTH - 1) / WIDTH"
    if stream.fields:
        lines.append(f"  localparam IN = {before};")
    return [*lines, f"  localparam OUT = ({stream.module.result} + WIDTH - 1) / WIDTH;", ""]


def registers(stream):
    kept = "WIDTH * OUT" if stream.is_shifted else stream.out_width
    return [
        "  // From the cycle after a start to the one in which the result moves on, busy is 1.",
        "  // If the result cannot move on at once, waiting is 1 from the cycle after done to the one in which it does.",
        "  reg busy;",
        "  reg waiting;",
        "  // Whether a result is offered, and what of it has not been taken yet.",
        "  reg full;",
        f"  reg {vector(kept)}kept;",
        *["  // What is left of the frame belongs to no call.", "  reg too_long;", "  reg wrong;"] * stream.is_framed,
    ]


def takes_parts(stream):
    """Whether a call may take several transfers."""
    return stream.is_shifted and bool(stream.fields)


def calls(stream):
    """The side of the calls."""
    names = stream.names
    lines = [f"  wire rst = ~{names.reset};"] if stream.axi else []
    if takes_parts(stream):
        lines += [
            "  // The last transfer of a call starts the circuit, so it waits until the circuit is free.",
            "  wire last_in;",
            "  wire [WIDTH * IN - 1:0] words;",
        ]
        ready = "~(last_in & busy)"
    else:
        lines += ["  // A transfer starts the circuit, so it waits until the circuit is free."]
        ready = "~busy"
    if not stream.is_framed:
        lines += [f"  assign {names.in_ready} = ~rst & {ready};", f"  wire moves_in = {names.in_valid} & {names.in_ready};"]
        return lines + ["  wire start = moves_in" + " & last_in" * takes_parts(stream) + ";", *shift_in(stream)]
    fits = "~too_long" + " & last_in" * takes_parts(stream) + f" & {names.in_last}"
    goes_on = f"~{names.in_last}" + " & (too_long | last_in)" * takes_parts(stream)
    return [
        *lines,
        f"  assign {names.in_ready} = ~rst & (too_long | {ready});",
        f"  wire moves_in = {names.in_valid} & {names.in_ready};",
        f"  wire start = moves_in & {fits};",
        f"  wire next_too_long = moves_in ? {goes_on} : too_long;",
        f"  assign {names.error} = wrong;",
        *shift_in(stream),
    ]


def shift_in(stream):
    """What keeps the transfers of a call until its last one."""
    if not takes_parts(stream):
        return []
    names = stream.names
    ends = f"too_long | last_in | {names.in_last}" if stream.is_framed else "last_in"
    return [
        "  generate",
        "    if (IN == 1) begin : whole_in",
        "      assign last_in = 1'b1;",
        f"      assign words = {names.in_data};",
        "    end else begin : parts_in",
        "      // How many transfers of the next call have been taken, and what they brought.",
        "      localparam LAST = IN - 1;",
        "      reg [$clog2(IN) - 1:0] count;",
        "      reg [WIDTH * (IN - 1) - 1:0] held;",
        "      assign last_in = count == LAST[$clog2(IN) - 1:0];",
        f"      assign words = {{{names.in_data}, held}};",
        f"      always @(posedge {names.clock})",
        "        if (rst) count <= 0;",
        "        else if (moves_in) begin",
        f"          count <= ({ends}) ? 0 : count + 1;".replace("(last_in)", "last_in"),
        "          held <= words[WIDTH * IN - 1:WIDTH];",
        "        end",
        "    end",
        "  endgenerate",
    ]


def circuit(stream):
    """The module inside."""
    if stream.is_shifted:
        given = [(field.port, f"words[WIDTH * FIRST_{number} +: {field.width}]") for number, field in enumerate(stream.fields)]
    else:
        given = [
            (field.port, part(stream.names.in_data, stream.in_width, field.low + field.width - 1, field.low))
            for field in stream.fields
        ]
    joined = [("clk", stream.names.clock), ("rst", "rst"), ("start", "start"), *given, ("done", "done"), ("result", "result")]
    return ["  wire done;", f"  wire {vector(stream.module.result)}result;", *instance(stream.core, joined)]


def results(stream):
    """The side of the results."""
    names = stream.names
    lines = [
        "  // The circuit keeps its result until the next run is done. Until then there is room for it here.",
        f"  assign {names.out_valid} = ~rst & full;",
        f"  wire moves_out = {names.out_valid} & {names.out_ready};",
    ]
    if stream.is_shifted:
        lines += [
            "  wire last_out;",
            "  wire over = moves_out & last_out;",
            f"  assign {names.out_data} = kept[WIDTH - 1:0];",
            f"  assign {names.out_last} = last_out;",
            *shift_out(stream),
        ]
    else:
        lines += ["  wire over = moves_out;", f"  assign {names.out_data} = kept;"]
        lines += [f"  assign {names.out_last} = 1'b1;"] * stream.has_last
    return lines + ["  wire moves_on = (done | waiting) & (~full | over);"]


def shift_out(stream):
    """What counts the transfers of a result."""
    return [
        "  generate",
        "    if (OUT == 1) begin : whole_out",
        "      assign last_out = 1'b1;",
        "    end else begin : parts_out",
        "      localparam LAST = OUT - 1;",
        "      reg [$clog2(OUT) - 1:0] count;",
        "      assign last_out = count == LAST[$clog2(OUT) - 1:0];",
        f"      always @(posedge {stream.names.clock})",
        "        if (rst) count <= 0;",
        "        else if (moves_out) count <= last_out ? 0 : count + 1;",
        "    end",
        "  endgenerate",
    ]


def edge(stream):
    """What happens at a rising edge of the clock."""
    width, result = stream.out_width * stream.out_count, stream.module.result
    if stream.is_shifted:
        low = f"[{result - 1}:0]" if result > 1 else "[0]"
        kept = [
            "      if (moves_on) begin", "        kept <= {WIDTH * OUT{1'b0}};", f"        kept{low} <= result;",
            "      end else if (moves_out) kept <= kept >> WIDTH;",
        ]
    else:
        whole = f"{{{width - result}'d0, result}}" if width > result else "result"
        kept = [f"      if (moves_on) kept <= {whole};"]
    return [
        f"  always @(posedge {stream.names.clock})",
        "    if (rst) begin",
        "      busy <= 1'b0;",
        "      waiting <= 1'b0;",
        "      full <= 1'b0;",
        *["      too_long <= 1'b0;", "      wrong <= 1'b0;"] * stream.is_framed,
        "    end else begin",
        "      busy <= start | (busy & ~moves_on);",
        "      waiting <= (done | waiting) & ~moves_on;",
        "      full <= moves_on | (full & ~over);",
        *kept,
        *["      too_long <= next_too_long;", f"      wrong <= moves_in & {stream.names.in_last} & ~start;"] * stream.is_framed,
        "    end",
    ]


def text(stream):
    """The wrapper's file."""
    body = [*counts(stream), *registers(stream)]
    for section in (calls, circuit, results, edge):
        body += ["", *section(stream)]
    return file_of(head(stream), [*header(stream), *body, "endmodule"])
