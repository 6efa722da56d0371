"""Properties of a wrapper, for a prover: a file that is read in place of the circuit's own.

The circuit is replaced by one whose outputs are free, but for what is proved of every circuit that `safl build` writes.
"""
from safl_wrap.registers import Registers
from safl_wrap.templates import filled
from safl_wrap.verilog import listed, part, vector


def circuit(shape):
    """The module that stands for the circuit."""
    module = shape.module
    ports = ["input wire clk", "input wire rst", "input wire start"]
    ports += [f"input wire {vector(port.width)}{port.name}" for port in module.inputs]
    ports += ["output wire done", f"output wire {vector(module.result)}result"]
    return filled("formal_circuit.sv", {
        "core": shape.core, "ports": "\n".join(listed(ports, 2)), "result_range": vector(module.result),
    }).rstrip()


def signal(width, name):
    """A signal inside the wrapper."""
    return f"  (* hierconn *) wire {vector(width)}\\dut.{name} ;"


def signals(shape):
    """What a proof sees inside every wrapper."""
    result = shape.module.result
    yield from (signal(1, name) for name in ("circuit.start", "circuit.done", "circuit.runs", "busy"))
    yield from (signal(result, name) for name in ("circuit.result", "circuit.latest"))
    yield from (signal(port.width, f"circuit.{port.name}") for port in shape.module.inputs)


def stream_signals(stream):
    yield from signals(stream)
    yield from (signal(1, name) for name in ("waiting", "full"))
    yield signal(stream.out_width * stream.out_count, "kept")
    if stream.is_framed:
        yield signal(1, "too_long")
    if stream.in_count > 1:
        yield signal("$clog2(IN)", "parts_in.count")
        yield signal("IN_WIDTH * (IN - 1)", "parts_in.held")
    if stream.out_count > 1:
        yield signal("$clog2(OUT)", "parts_out.count")


def stream_relations(stream):
    """What relates the registers of the wrapper to the properties."""
    if stream.in_count > 1:
        yield r"counts_in: assert (\dut.parts_in.count == (taken == IN ? 0 : taken));"
        yield r"held: assert (\dut.parts_in.held == past[IN_WIDTH * IN - 1:IN_WIDTH]);"
    yield r"frames: assert (\dut.too_long == (taken == IN));" if stream.is_framed else "frames: assert (taken != IN);"
    if stream.out_count > 1:
        yield r"counts_out: assert (\dut.parts_out.count == sent);"


def lines(*found, blanks=4):
    return "".join(" " * blanks + line + "\n" for line in found)


def stream_pieces(stream):
    """What is not in the properties of every wrapper with valid and ready."""
    joined = [f".{port}({wire})" for _, _, port, wire in stream.ports() if wire != "clk"]
    arguments = [f"\\dut.circuit.{field.port} == words[{field.low} +: {field.width}]" for field in stream.fields]
    stays = "      past <= {\\dut.parts_in.held , {IN_WIDTH{1'b0}}}; // what was transferred before is not known\n"
    return {
        "joined": "\n".join(listed(joined, 4)) + "\n",
        "free_last": "  (* anyseq, keep *) wire in_last;\n" if stream.is_framed else "",
        "in_last": "" if stream.is_framed else "  wire in_last = taken == IN - 1;\n",
        "tied": "" if stream.has_last else "  assign out_last = 1;\n",
        "inside": "".join(line + "\n" for line in stream_signals(stream)),
        "past_at_reset": stays if stream.in_count > 1 else "",
        "arguments": lines(f"if (start) arguments: assert ({' && '.join(arguments)});") if arguments else "",
        "error": lines("wrong_frames_are_told: assert (frame_error == wrong);") if stream.is_framed else "",
        "relations": lines(*stream_relations(stream)),
    }


def stream_text(stream, names):
    """The properties of a wrapper with valid and ready on both sides."""
    return filled("formal_stream.sv", {
        **stream_pieces(stream), **names, "clock": stream.names.clock, "result_range": vector(stream.module.result),
        "in_count": stream.in_count, "out_count": stream.out_count, "in_width": max(1, stream.in_width),
        "out_width": stream.out_width,
    })


def register_signals(wrapper):
    yield from signals(wrapper)
    yield from (signal(1, name) for name in ("has_address", "has_data", "responds", "has_read", "finished", "enabled"))
    yield signal(wrapper.address_bits - 2, "word")
    yield from (signal(width, name) for name, width in (("data", 32), ("read", 32), ("strobes", 4)))
    yield from (signal(port.width, f"argument_{place}") for place, port in enumerate(wrapper.fields))


def bits(register):
    """The bits of a signal that a word has."""
    return part(register.signal, register.width, register.low + register.bits - 1, register.low)


def register_pieces(wrapper):
    """What is not in the properties of every wrapper with registers."""
    inputs, outputs = wrapper.sides()
    widths = {name: width for _, width, name in wrapper.ports()}
    joined = [".aclk(clk)", ".aresetn(~rst)", *(f".{name}({name})" for name in (*inputs, *outputs))]
    places = list(enumerate(wrapper.fields))
    written = [
        f"if (write && word == {each.address // 4}) {bits(each)} <= ({bits(each)} & ~mask) | (data & mask);" for each in wrapper.arguments
    ]
    values = [f"{each.address // 4}: value = {bits(each)};" for each in (*wrapper.arguments, *wrapper.results)]
    given = " && ".join(f"\\dut.circuit.{port.name} == argument_{place}" for place, port in places)
    held = " && ".join(f"\\dut.argument_{place} == argument_{place}" for place, _ in places)
    return {
        "free": lines(*(f"(* anyseq, keep *) wire {vector(widths[name])}{name};" for name in inputs), blanks=2).rstrip(),
        "outputs": lines(*(f"wire {vector(widths[name])}{name};" for name in outputs), blanks=2).rstrip(),
        "joined": "\n".join(listed(joined, 4)), "inside": "\n".join(register_signals(wrapper)),
        "word_high": wrapper.address_bits - 3,
        "shadows": lines(*(f"reg {vector(port.width)}argument_{place};" for place, port in places),
                         f"wire {vector(wrapper.module.result)}result = \\dut.circuit.result ;", blanks=2).rstrip(),
        "cleared": lines(*(f"argument_{place} <= 0;" for place, _ in places), blanks=6).rstrip("\n"),
        "written": lines(*written, blanks=6).rstrip("\n"), "values": lines(*values, blanks=6).rstrip("\n"),
        "arguments": lines(f"if (start) arguments: assert ({given});").rstrip("\n") if places else "",
        "relations": lines(f"held: assert ({held});").rstrip("\n") if places else "",
    }


def text(wrapper, top, out, file):
    """The properties of a wrapper, with the names of their module and of the files."""
    names = {"wrapper": wrapper.name, "top": top, "file": file, "out": out, "circuit": circuit(wrapper)}
    if isinstance(wrapper, Registers):
        return filled("formal_registers.sv", {**register_pieces(wrapper), **names})
    return stream_text(wrapper, names)
