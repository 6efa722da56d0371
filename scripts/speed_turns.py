#!/usr/bin/env python3
"""Compares the program with another one, BEFORE, on the sources of speed.py: a table with a row for each source and command.

A figure is the difference between the least times of a long run and of a short one, for each cycle, event or call that lies
between them; for `build` it is the least time of the whole run. The runs of both programs take turns in an order that is drawn
anew each time, so that what disturbs one disturbs the other as well. Parts:

    build      the time of `build`
    sim        a cycle of `sim`
    vcd        a cycle of `sim --vcd`
    session    a call of a session, with its cycles
    walk       an event of `walk`
    nets       a cycle of the nets of safl_bench, set-up counted in; it needs --bench, and BENCH if it isn't built

All parts are done if none is named. SAFL names the program if it is not where `rt` builds it.
"""
import os
import random
import re
import tempfile

import speed_sources
from files import TOP, examples, read, written
from given import a_number, a_program, parser
from measure import LIMIT_MAX, SECONDS_ENOUGH, as_time, cycles_of, table
from program import PROGRAM, ended, lacks, program_of

BENCH = program_of("BENCH", "safl_bench")
PARTS = ("build", "sim", "vcd", "session", "walk", "nets")
CALLS = (100, 10_000)


def least(commands, runs):
    """The least seconds of each of these commands, whose runs take turns."""
    found = [[] for _ in commands]
    for _ in range(runs):
        for i in random.sample(range(len(commands)), len(commands)):
            found[i].append(ended(commands[i]).seconds)
    return [min(each) for each in found]


def turns_of(words, limit):
    """How many cycles or events a run with this limit goes; a walk goes to its limit."""
    return limit if words[1] == "walk" else cycles_of(words, limit)


def long_limit(words_of):
    """A limit with which a run of the first program takes long enough."""
    limit = 1_000
    while ended(words_of(limit)).seconds < SECONDS_ENOUGH and limit < LIMIT_MAX:
        limit *= 4
    return limit


def each_turn(programs, words_of, runs):
    """The seconds that a cycle or an event takes with each program."""
    limits = (1, long_limit(lambda limit: words_of(programs[0], limit)))
    short, long = (turns_of(words_of(programs[0], limit), limit) for limit in limits)
    times = least([words_of(program, limit) for program in programs for limit in limits], runs)
    return [(times[2 * i + 1] - times[2 * i]) / (long - short) for i in range(len(programs))]


def as_nanoseconds(value):
    return f"{value * 1e9:,.1f} ns"


def row(source, what, times, shown=as_nanoseconds):
    before, after = times
    return source, what, shown(before), shown(after), f"{(after / before - 1) * 100:+.1f} %"


def sources():
    return [*speed_sources.sized(), speed_sources.products(), speed_sources.busy(), speed_sources.work()]


def build(folder, programs, runs):
    for source in sources():
        path, out = written(folder, "source.safl", source.text), os.path.join(folder, "built.v")
        yield row(source.name, "`build`", least([[program, "build", path, out] for program in programs], runs), as_time)


def cycles(folder, programs, runs, some, what, *options):
    for source in some:
        path = written(folder, "source.safl", source.text)
        words = lambda program, limit: [program, "sim", path, "--cycles", str(limit), *options, *source.args]
        yield row(source.name, what, each_turn(programs, words, runs))


def sim(folder, programs, runs):
    return cycles(folder, programs, runs, sources(), "a cycle of `sim`")


def vcd(folder, programs, runs):
    some = [speed_sources.calls(100), speed_sources.sums(50), speed_sources.products(), speed_sources.work()]
    return cycles(folder, programs, runs, some, "a cycle of `sim --vcd`", "--vcd", os.path.join(folder, "trace.vcd"))


def session(folder, programs, runs):
    path = dict(examples())["multiply"]
    scripts = [written(folder, f"script{calls}", "255 255\n" * calls) for calls in CALLS]
    times = least([[program, "session", path, script, "--cycles", "1000"] for program in programs for script in scripts], runs)
    each = [(times[2 * i + 1] - times[2 * i]) / (CALLS[1] - CALLS[0]) for i in range(len(programs))]
    yield row("multiply of the gallery", "a call of a session", each)


def walk(folder, programs, runs):
    for source in [*map(speed_sources.calls, (100, 300, 900)), speed_sources.sites(), *sources()[-3:]]:
        path = written(folder, "source.safl", source.text)
        words = lambda program, limit: [program, "walk", path, "--order", "1", "--steps", str(limit), *source.args]
        yield row(source.name, "an event of `walk`", each_turn(programs, words, runs))


def nets(programs, runs):
    lines = [line for line in read(f"{TOP}/crates/safl_bench/stdout").splitlines() if " wires of " in line]
    for number, line in enumerate(lines, 1):
        wires, width, turns = map(int, re.findall(r"\d+", line)[:3])
        times = least([[program, "sim", str(number)] for program in programs], min(runs, 9))
        yield row(f"{wires:,} wires of {width} bits", "a cycle of the net", [each / turns for each in times])


def rows(words):
    programs = (words.before, PROGRAM)
    with tempfile.TemporaryDirectory() as folder:
        for part in words.parts or PARTS:
            if part != "nets":
                yield from globals()[part](folder, programs, words.runs)
            elif words.bench and not lacks(BENCH):
                yield from nets((words.bench, BENCH), words.runs)


def main():
    reader = parser(__doc__)
    reader.add_argument("before", type=a_program, metavar="BEFORE")
    reader.add_argument("parts", nargs="*", choices=[*PARTS, []], metavar="PART")
    reader.add_argument("--bench", type=a_program, metavar="BEFORE_BENCH", help="another program of safl_bench")
    reader.add_argument("--runs", type=a_number, default=40, metavar="RUNS", help="how many runs each figure is the least of")
    words = reader.parse_args()
    if not lacks(PROGRAM):
        table(f"Before and after, the least of {words.runs} runs", ("source", "what", "before", "after", "difference"), rows(words))


if __name__ == "__main__":
    main()
