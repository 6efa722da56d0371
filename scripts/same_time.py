#!/usr/bin/env python3
"""Looks at the control of runs whose secret arguments differ: same_time.py PROGRAM [--time SAFL_TIME] [--pairs N] [--seed S] [NAME..]

For each example, scripts/gallery.py has the parameters of main that have to be public for the others to be secret. Runs with the same public
arguments and random secret ones are compared with the first: `run`, `fin`, `sent`, `got` and `done` have to be the same in every cycle
(of `at` only what a running unit shows is promised, so it is left out). Where no parameter can be secret, a pair of runs with other
control is looked for among as many. If the program `safl-time` is given, it has to say the same of each source.

The status is 1 if two runs differ that should not, or `safl-time` says something else.
"""
import concurrent.futures
import hashlib
import os
import random
import re
import sys
import tempfile

from files import TOP, examples, tuned
from gallery import ALL_PUBLIC, PUBLIC
from given import a_number, a_program, parser
from program import NO_RESULT, told

sys.path.insert(0, f"{TOP}/scripts/oracle")
import language  # noqa: E402

CONTROL = re.compile(rb"(run|fin|sent|got)\$|done$")
CYCLES = 200_000
SMALL = 12  # public counters and arguments of circuits without a bound on their time are drawn below it


class Source:
    """An example, with the widths of main's parameters and which of them are public."""

    def __init__(self, name, path):
        self.name, self.path = name, path
        with open(path, "rb") as file:
            params = language.accept(file.read()).main.params
        self.widths = {param: width for param, _, width in params}
        self.public = tuple(self.widths) if name in ALL_PUBLIC else PUBLIC.get(name, ())
        self.secret = tuple(param for param in self.widths if param not in self.public)

    def drawn(self, dice, public):
        """Arguments whose public ones are given."""
        return [public.get(param, dice.getrandbits(width)) for param, width in self.widths.items()]


def control(dump):
    """What a dump says of the control signals, as a digest."""
    found, names = hashlib.sha256(), set()
    with open(dump, "rb") as lines:
        for line in lines:
            words = line.split()
            if words[:1] == [b"$var"]:
                names |= {words[3]} if CONTROL.match(words[4]) else set()
            elif line[:1] == b"#" or line[:1] in b"01" and line[1:].strip() in names or line[:1] == b"b" and words[1] in names:
                found.update(line)
    return found.hexdigest()


def run(program, source, args):
    """The cycle in which a run ends, or that it does not, and the digest of its control."""
    with tempfile.TemporaryDirectory() as folder:
        dump = f"{folder}/dump"
        ended = told([program, "sim", source.path, "--cycles", str(CYCLES), "--vcd", dump, *map(str, args)])
        if ended.returncode not in (0, NO_RESULT):
            sys.exit(f"same_time: {source.name}: {ended.stderr.strip()}")
        return ended.stdout.splitlines()[-1], control(dump)


def compared(program, source, count, seed):
    """How many of so many runs have another control than the first, with the arguments of the first such pair."""
    dice = random.Random(f"{seed} {source.name}")
    held = {} if source.name in ALL_PUBLIC else {param: dice.randrange(min(SMALL, 2 ** source.widths[param])) for param in source.public}
    first = source.drawn(dice, held)
    wanted, other, pair = run(program, source, first), 0, None
    for _ in range(count):
        args = source.drawn(dice, held)
        if run(program, source, args) != wanted:
            other += 1
            pair = pair or (first, args)
    return other, pair


def says(program, source):
    """Whether `safl-time` finds that time tells nothing of the secret parameters; of all, if none can be secret."""
    names = source.secret or tuple(source.widths)
    return told([program, source.path, "--secret", ",".join(names)]).stdout.startswith("constant time")


def line_of(source, count, other, pair):
    if source.secret:
        return f"{source.name}: {count - other} of {count} pairs have the same control, secret {', '.join(source.secret)}"
    if pair:
        return f"{source.name}: control depends on its arguments: {' '.join(map(str, pair[0]))} and {' '.join(map(str, pair[1]))}"
    return f"{source.name}: no pair with other control was found in {count}"


def tried(given, source):
    """The line of a source, and whether all is as it should be."""
    other, pair = compared(given.program, source, given.pairs, given.seed)
    line, is_well = line_of(source, given.pairs, other, pair), not source.secret or not other
    if given.time and says(given.time, source) != bool(source.secret):
        line, is_well = line + "; safl-time says something else", False
    return line, is_well


def main():
    reader = parser(__doc__)
    reader.add_argument("program", type=a_program, metavar="PROGRAM")
    reader.add_argument("names", nargs="*", metavar="NAME")
    reader.add_argument("--time", type=a_program, metavar="SAFL_TIME")
    reader.add_argument("--pairs", type=a_number, default=200)
    reader.add_argument("--seed", type=a_number, default=1)
    reader.add_argument("--jobs", type=a_number, default=os.cpu_count())
    given = reader.parse_args()
    chosen = [Source(name, path) for name, path in examples() + tuned() if not given.names or name in given.names]
    chosen = [source for source in chosen if source.widths]
    with concurrent.futures.ThreadPoolExecutor(given.jobs) as pool:
        found = list(pool.map(lambda source: tried(given, source), chosen))
    print("\n".join(line for line, _ in found))
    wrong = sum(not is_well for _, is_well in found)
    print(f"same_time: {len(found)} sources, {wrong} are not as they should be")
    return 1 if wrong else 0


if __name__ == "__main__":
    sys.exit(main())
