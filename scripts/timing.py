#!/usr/bin/env python3
"""Compares what safl-time prints with scripts/oracle and with the runs of `safl sim`, on the runs of the gallery's pages and on COUNT
generated programs, from SEED on.

What is printed has to be what the oracle works out; done has to come from the span to the latest cycle, and at the span where it is
exact. SAFL and SAFL_TIME name the programs, if they are not those that the gate leaves."""
import sys
import tempfile

from files import TOP, written
from given import a_number, parser
from program import TIMER, built, told

sys.path.insert(0, f"{TOP}/scripts/oracle")
import generator  # noqa: E402
import language  # noqa: E402
from circuit import Circuit  # noqa: E402
from gallery import PAGES  # noqa: E402
from span import timing_text  # noqa: E402

CYCLES = 1_000_000
FUNCTIONS_MAX = 30


def runs(seed, count, folder):
    """Files of sources, and arguments of main."""
    for name, (answer, values) in PAGES.items():
        for each in values:
            _, args, _ = answer(*each)
            yield f"{TOP}/examples/{name}/{name}.safl", args
    for number in range(seed, seed + count):
        functions = number % FUNCTIONS_MAX + 1
        text = "\n".join(generator.source_lines(number, functions)) + "\n"
        yield written(folder, f"{number}.safl", text), generator.arguments(number, functions)


def figures(text):
    return dict(line.rsplit(" ", 1) for line in text.splitlines())


class Comparison:
    """The differences that were found, and the runs that were compared."""

    def __init__(self, program):
        self.program, self.differences, self.runs, self.exact, self.sooner = program, 0, 0, 0, 0
        self.circuits = {}

    def differs(self, path, args, what):
        self.differences += 1
        print(f"{path} {' '.join(args)}: {what}")

    def circuit(self, path):
        if path not in self.circuits:
            with open(path, "rb") as file:
                program = language.accept(file.read())
            self.circuits[path] = program, Circuit(program)
        return self.circuits[path]

    def compare(self, path, numbers):
        args = [str(number) for number in numbers]
        timed = told([TIMER, path, *args])
        wanted = timing_text(*self.circuit(path), numbers)
        self.runs += 1
        if (timed.returncode, timed.stdout) != (0, wanted):
            self.differs(path, args, f"{timed.returncode} {timed.stdout!r}{timed.stderr!r}, and not {wanted!r}")
            return
        run = told([self.program, "sim", path, "--cycles", str(CYCLES), *args])
        if run.returncode:
            self.differs(path, args, f"sim ends with {run.returncode}")
            return
        self.check(path, args, figures(timed.stdout), figures(run.stdout))

    def check(self, path, args, timed, run):
        cycle, span, latest = int(run["cycle"]), int(timed["span"]), int(timed["latest"])
        if timed["result"] != run["result"]:
            self.differs(path, args, f"result {timed['result']}, and sim gives {run['result']}")
        if not span <= cycle <= latest or timed["exact"] == "yes" and cycle != span:
            self.differs(path, args, f"done in cycle {cycle}, span {span}, latest {latest}, exact {timed['exact']}")
        self.exact += timed["exact"] == "yes"
        self.sooner += cycle < latest


def main():
    reader = parser(__doc__)
    reader.add_argument("--seed", metavar="SEED", type=a_number, default=1)
    reader.add_argument("--count", metavar="COUNT", type=a_number, default=200)
    given = reader.parse_args()
    sys.setrecursionlimit(100_000)
    found = Comparison(built())
    with tempfile.TemporaryDirectory() as folder:
        for path, args in runs(given.seed, given.count, folder):
            found.compare(path, args)
    print(f"timing: {found.runs} runs, {found.exact} of them exact, {found.sooner} done before the latest cycle; {found.differences} differ")
    return found.differences > 0


if __name__ == "__main__":
    sys.exit(main())
