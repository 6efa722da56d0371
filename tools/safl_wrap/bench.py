"""Test benches of a wrapper: the calls of a script, compared with the replies of `safl session`.

The templates bench.v and bench.cpp are the same bench, step by step: with the same seed they do the same in each cycle.
"""
from safl_wrap.templates import filled
from safl_wrap.verilog import plural

STALLS_MAX = 90
SPARE = 1000  # random pauses of so many cycles hardly ever come
AFTER = 100


FRAMES_NOTE = "// Some frames have too few transfers or too many. Each of them has to be told, and to have no result.\n"


def common(stream, calls, name, paths, seed, stalls):
    """The values of both templates."""
    return {
        "bench": name, "wrapper": stream.name, "script": calls.script, "files": " ".join(paths),
        "calls": plural(len(calls.results), "call"), "count": len(calls.results),
        "in_count": stream.in_count, "out_count": stream.out_count, "out_width": stream.out_width,
        "patience": max(calls.cycles) + SPARE, "after": AFTER,
        "span": 2 * (stream.in_count + stream.out_count) + calls.cycles[0], "seed": seed, "stalls": stalls,
        "framed": int(stream.is_framed), "frames_note": FRAMES_NOTE if stream.is_framed else "",
    }


def assignments(memory, width, words, first):
    return [f"    {memory}[{place}] = {width}'h{word:x};" for place, word in enumerate(words, first)]


def memories(stream, calls):
    """What is transferred, as statements of Verilog."""
    for call, (arguments, result) in enumerate(zip(calls.arguments, calls.results)):
        yield f"    // call {call + 1}"
        if stream.fields:
            yield from assignments("given", stream.in_width, stream.transfers_in(arguments), call * stream.in_count)
        yield from assignments("wanted", stream.out_width, stream.transfers_out(result), call * stream.out_count)


def verilog(stream, calls, name, paths, seed, stalls):
    """A bench for Icarus Verilog."""
    width = max(1, stream.in_width)
    return filled("bench.v", {
        **common(stream, calls, name, paths, seed, stalls),
        "in_high": width - 1, "out_high": stream.out_width - 1, "whole_high": stream.out_width * stream.out_count - 1,
        "unknown": f"{{{width}{{1'bx}}}}", "words": "\n".join(memories(stream, calls)),
        "ports": ",\n".join(f"    .{port}({wire})" for _, _, port, wire in stream.ports()),
        "tied": "" if stream.has_last else "  assign out_last = 1;\n",
    })


def rows(numbers, count):
    """A table with a row of words of 32 bits for each number, the lowest word first."""
    words = [[number >> 32 * i & 0xFFFFFFFF for i in range(count)] for number in numbers]
    return ",\n".join("    {" + ", ".join(f"0x{word:x}" for word in row) + "}" for row in words)


def cpp(stream, calls, name, paths, seed, stalls):
    """A bench for Verilator."""
    names = stream.names
    in_words, out_words = max(1, -(-stream.in_width // 32)), -(-stream.out_width // 32)
    given = [word for arguments in calls.arguments for word in stream.transfers_in(arguments)]
    wanted = [word for result in calls.results for word in stream.transfers_out(result)]
    return filled("bench.cpp", {
        **common(stream, calls, name, paths, seed, stalls), **vars(names),
        "reset_value": "!rst" if stream.axi else "rst",
        "in_words": in_words, "out_words": out_words, "given": rows(given, in_words), "wanted": rows(wanted, out_words),
        "put_data": f"put(top.{names.in_data}, offered && !wrong ? given[sent] : noise);" if stream.fields else "(void)noise;",
        "put_last": f"top.{names.in_last} = offered ? place == length - 1 : random >> 16 & 1;" if stream.is_framed else "",
        "frame_error": f"top.{names.error}" if stream.is_framed else "false",
        "is_last": f"top.{names.out_last}" if stream.has_last else "true",
    })
