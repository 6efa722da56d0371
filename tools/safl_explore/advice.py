"""What the source and the calls show that no step does."""
from safl_explore.estimate import is_number

LINES = 5  # so many functions are told at most


def advice(program, least, products):
    """A line for each piece of advice; `products` is what products cost, 0 with DSP blocks."""
    if products:
        yield from blocks(program)
    yield from narrower(program, least)


def narrower(program, least):
    """Functions with parameters of which no call fills three quarters, those that spare most first.

    Nothing is changed: other calls may need all bits.
    """
    greatest, found = least.greatest(program), []
    for function in program.functions:
        words = greatest.get(function.name)
        if function.name == "main" or not words:
            continue
        needs = [(name, width, max(1, word.bit_length())) for (name, width), word in zip(function.parameters, words)]
        narrow = [each for each in needs if each[2] <= each[1] * 3 // 4]
        words = [f"{most} of the {width} bits of {name}" for name, width, most in narrow]
        found.append((sum(width - most for _, width, most in narrow), f"in these calls {function.name} needs {', '.join(words)}"))
    for spared, line in sorted(found, key=lambda pair: -pair[0])[:LINES]:
        if spared:
            yield f"{line} (only advice: other calls may need more)"


def blocks(program):
    """Functions that multiply and that are shared: a DSP block for each call costs no LUTs."""
    called = [callee for callee, _ in program.sites]
    for function in program.functions:
        multiplies = any(term.word == "*" and not any(map(is_number, term.parts)) for term in function.body.all() if term.kind == "op")
        if multiplies and called.count(function.name) > 1:
            yield f"{function.name} multiplies: with DSP blocks its calls need not share it (--luts --device up5k --dsp counts so)"
