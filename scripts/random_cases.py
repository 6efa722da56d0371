#!/usr/bin/env python3
"""Writes the cases of programs that are made at random: crates/safl_cases/data/random_1.case and so on.
With --compare it writes nothing: COUNT more programs are made, from SEED on, and given to a program, and what differs is printed.

Each program is reshaped at a site, and the text, the numbers and the result of what comes out are compared. Those of the first files
are also reported, walked, built and run. scripts/oracle makes the programs from a number, and works out all answers.
"""
import sys
import tempfile

from files import TOP, write
from given import a_number, a_program, parser
from program import told

sys.path.insert(0, f"{TOP}/scripts/oracle")
import commands  # noqa: E402
import expect  # noqa: E402
import programs  # noqa: E402

FILES, PROGRAMS, WHOLE_FILES = 4, 100, 2
# the most bytes of a program, and of one with a group
TEXT_MAX, GROUP_TEXT_MAX = 260, 400
CYCLES = 1000


class Program:
    """A program of a seed, with its files, as they are after the calls."""

    def __init__(self, seed):
        self.dice = programs.Dice(seed + 1_000_000)
        self.drawn = self.dice.below(100)
        self.seed, (self.lines, args) = seed, programs.made(seed)
        self.args = "".join(f" {arg}" for arg in args)
        self.files = {"p": ("\n".join(self.lines) + "\n").encode()}
        self.found, self.calls = [], []

    def call(self, words):
        status, lines = commands.call(expect.words_of(words), self.files)
        self.found.append(f"    {words} -> {expect.row_text(status, lines)}")
        self.calls.append((words, status, "".join(line + "\n" for line in lines)))
        return status

    def sites(self):
        return len(commands.accept(self.files, "p").sites) - 1

    def is_taken(self, number):
        """Whether it is short enough to be read, and can be reshaped; every second one has a group of several members."""
        has_group = any(line.startswith("and ") for line in self.lines)
        is_short = len(self.files["p"]) <= (GROUP_TEXT_MAX if has_group else TEXT_MAX)
        return is_short and (has_group or number % 2 == 0) and any(self.fits("copy") + self.fits("unfold"))

    def fits(self, change):
        """The sites at which it can be reshaped so, from a drawn one on."""
        start, sites = self.drawn, self.sites()
        turns = [(start + turn) % sites + 1 for turn in range(sites)]
        return [k for k in turns if commands.call(["reshape", "p", "q", f"--{change}", str(k)], dict(self.files))[0] == 0]

    def whole(self):
        """The calls that read, build and run the program."""
        self.call("report p")
        self.call(f"walk p --order {self.seed} --steps {CYCLES}{self.args}")
        for build in ("build p v", "build p o --opt"):
            self.call(build)
        for run in ("run v", "run o"):
            self.call(f"{run} --cycles {CYCLES}{self.args}")

    def reshaped(self):
        """The calls that reshape it, at a site where that can be done for the most part."""
        changes = ["copy", "unfold"][::self.dice.pick((1, -1))]
        fitting = [(change, k) for change in changes for k in self.fits(change)[:1]]
        change, k = fitting[0] if fitting else ("copy", 1)
        if self.dice.happens(1, 12):
            change, k = self.dice.pick(changes), self.dice.below(self.sites() + 2)
        if self.call(f"reshape p q --{change} {k}") == 0:
            self.call("check q")
            self.call(f"sim q --cycles {CYCLES}{self.args}")

    def simulated(self):
        if self.call(f"sim p --cycles {CYCLES}{self.args}") == 0:
            meant = commands.meant(self.files["p"], self.args.split())
            assert f" {meant}," in self.found[-1], "the circuit gives something else than the meaning"

    def case(self, is_whole):
        self.simulated()
        if is_whole:
            self.whole()
        self.reshaped()
        found = [f"# {self.seed}", "file p"] + [f"    {line}" for line in self.lines] + ["words:"] + self.found
        if "q" in self.files:
            found += ["is q"] + [f"    {line}" for line in self.files["q"].decode().splitlines()]
        return found + [""]


def write_cases():
    seed = 0
    for number in range(1, FILES + 1):
        is_whole = number <= WHOLE_FILES
        calls = "all commands" if is_whole else "`reshape`, `check` and `sim`"
        lines = [f"// Programs that are made at random, with {calls}. scripts/random_cases.py writes this file.", ""]
        count = 0
        while count < PROGRAMS:
            seed += 1
            program = Program(seed)
            if program.is_taken(count):
                count += 1
                lines += program.case(is_whole)
        write(f"{TOP}/crates/safl_cases/data/random_{number}.case", "\n".join(lines[:-1]) + "\n")
    print(f"{FILES * PROGRAMS} programs of the first {seed} numbers")
    return 0


def differing(program, made, folder):
    """The calls of a program of this folder that end in another way than they should, and the reshaped file if it is another one."""
    found = []
    with open(f"{folder}/p", "wb") as file:
        file.write(made.files["p"])
    for words, status, text in made.calls:
        ended = told([program, *words.split()], folder)
        outputs = (ended.stdout, ended.stderr) if status in expect.PRINTING else (ended.stderr, ended.stdout)
        if (ended.returncode, *outputs) != (status, text, ""):
            found.append(f"{words}: {status} {text!r} is wanted, and {ended.returncode} {ended.stdout!r} {ended.stderr!r} comes")
    if "q" in made.files and not found:
        with open(f"{folder}/q", "rb") as file:
            text = file.read()
        if text != made.files["q"]:
            found.append(f"the reshaped source is {text}, and should be {made.files['q']}")
    return found


def compare(program, count, first):
    tried = wrong = 0
    for seed in range(first, first + count):
        made = Program(seed)
        if not made.sites():
            continue
        tried += 1
        made.simulated()
        made.whole()
        made.reshaped()
        with tempfile.TemporaryDirectory() as folder:
            found = differing(program, made, folder)
        wrong += bool(found)
        print("\n".join([f"program {seed}:"] + found) + "\n" if found else "", end="")
    print(f"{tried} programs compared, {wrong} differ")
    return 1 if wrong else 0


def main(words):
    reader = parser(__doc__)
    reader.add_argument("--compare", type=a_program, metavar="PROGRAM")
    reader.add_argument("count", nargs="?", type=a_number, default=200, metavar="COUNT")
    reader.add_argument("seed", nargs="?", type=a_number, default=1_000_000, metavar="SEED")
    given = reader.parse_args(words)
    if given.compare:
        return compare(given.compare, given.count, given.seed)
    if words:
        reader.error("numbers need --compare")
    return write_cases()


if __name__ == "__main__":
    sys.setrecursionlimit(1_000_000)
    sys.exit(main(sys.argv[1:]))
