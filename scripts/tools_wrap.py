#!/usr/bin/env python3
"""Tests tools/safl-wrap on all examples: tools_wrap.py [--all]

Wraps what `build` and `build --opt` write, with words in one transfer and in several, and with both kinds of port names. The
benches make the calls of the example's page in Icarus Verilog, first without pauses and then with random pauses on both sides.
They compare with the session; what they print has to be the results of scripts/gallery.py too, in order. Benches of some
examples, with --all of every one, are also run in Verilator, where they have to take as many cycles. Benches of faulty wrappers
have to fail, and wrong words have to be refused in one line. SAFL names the program (else crates/safl/out/safl, which is built
if it is missing).
"""
import argparse
import os
import re
import shutil
import subprocess
import sys
import tempfile
from dataclasses import dataclass, field

from files import TOP, examples, read, write, written
from gallery import PAGES
from program import built, told
from wrapper_faults import OF_REGISTERS, OF_STREAM, planted

WRAP = [sys.executable, f"{TOP}/tools/safl-wrap"]
WITHOUT_PAGE = {
    "even_odd": [([3], 0), ([200], 1)], "multiply": [([5, 3], 15), ([255, 255], 1)], "seven": [([], 7)], "shared": [([5], 13)],
}
WIDTHS = (1, 5, 8, 13, 16, 64, 128)  # of transfers with plain names; each example has one of them
PAUSES = ((1, 0), (2, 50), (3, 85))  # seeds, and in how many cycles of 100 each side pauses
IN_VERILATOR = {
    "seven": (), "even_odd": ("--width", "1"), "chacha20": ("--axi", "--width", "32", "--last"), "sha256": (), "gcd": ("--axi-lite",),
}  # some of all sizes
VERILATOR = ["verilator", "--cc", "--exe", "--build", "--top-module", "wrapper"]
VERILATOR += ["-MAKEFLAGS", "OPT_FAST=-O0 OPT_SLOW=-O0 OPT_GLOBAL=-O0"]
SEEDS = 24  # of the pauses with which benches look for a fault


@dataclass(frozen=True)
class Example:
    name: str
    path: str
    rows: list = field(compare=False)  # arguments and result of each call


def rows_of(name):
    if name not in PAGES:
        return WITHOUT_PAGE[name]
    answer, values = PAGES[name]
    return [answer(*each)[1:] for each in values]


def bench_words(seed, stalls):
    return ["vvp", "-n", "bench", f"+seed={seed}", f"+stalls={stalls}"]


class Test:
    """A folder, the program, and how much was tried."""

    def __init__(self, folder, program):
        self.folder, self.program = folder, program
        self.failed = self.wrappers = self.icarus = self.verilator = self.faults = self.refusals = 0

    def say(self, text):
        print(f"tools_wrap: {text}", flush=True)
        self.failed += 1

    def here(self, name):
        return os.path.join(self.folder, name)

    def build(self, example, option):
        """Builds the circuit, and writes the script of its calls, every other one in hexadecimal."""
        lines = (" ".join(map((hex, str)[row % 2], arguments)) for row, (arguments, _) in enumerate(example.rows))
        write(self.here("calls"), "".join(f"{line}\n" for line in lines))
        if told([self.program, "build", example.path, self.here("built.v"), *option]).returncode:
            self.say(f"build {' '.join(option)} of {example.name} fails")

    def wrap(self, example, kind, ending, words):
        """Whether the wrapper and its bench are written."""
        bench = ["--bench", kind, "--bench-out", "bench" + ending, "--source", example.path, "--script", "calls"]
        out = ["--out", "wrapped.v", "--module", "wrapper"]
        done = told([*WRAP, "built.v", *out, "--safl", self.program, *bench, *words], self.folder)
        self.wrappers += 1
        if done.returncode or done.stdout or done.stderr:
            self.say(f"{example.name} {' '.join(words)}: status {done.returncode}, {done.stderr.strip()}")
        return done.returncode == 0

    def compiled(self):
        """What Icarus Verilog says of the files, warnings too."""
        words = ["iverilog", "-g2005", "-Wall", "-s", "bench", "-o", "bench", "bench.v", "wrapped.v", "built.v"]
        return told(words, self.folder).stderr

    def cycles(self, what, example, words):
        """How many cycles a bench takes, which has to print the results."""
        lines = told(words, self.folder).stdout.splitlines()
        last = re.fullmatch(r"bench: \d+ calls?, results and order as in the session, (\d+) cycles", lines[-1] if lines else "")
        shown = [] if "--axi-lite" in what else [str(result) for _, result in example.rows]
        if not last or lines[:-1] != shown:
            self.say(f"{what}: {lines[-3:]}")
            return None
        return int(last[1])

    def in_icarus(self, what, example, pauses):
        """The cycles that the bench takes with each of these seeds and pauses."""
        found = []
        for seed, stalls in pauses:
            self.icarus += 1
            found.append(self.cycles(f"{what}, seed {seed}, {stalls} %", example, [*bench_words(seed, stalls), "+show"]))
        return found

    def compare(self, example, option, words):
        what = " ".join([example.name, *option, *words])
        if not self.wrap(example, "verilog", ".v", words):
            return
        complaint = self.compiled()
        if complaint:
            self.say(f"{what}: Icarus Verilog says {complaint}")
        self.in_icarus(what, example, PAUSES)

    def in_verilator(self, example, words):
        """Compares the two kinds of bench."""
        if not self.wrap(example, "cpp", ".cpp", words):
            return
        done = told([*VERILATOR, "bench.cpp", "wrapped.v", "built.v"], self.folder)
        if done.returncode:
            self.say(f"{example.name}: Verilator says {done.stderr.strip()}")
            return
        what, found = f"{example.name} {' '.join(words)} in Verilator", []
        for seed, stalls in PAUSES:
            self.verilator += 1
            found.append(self.cycles(what, example, ["obj_dir/Vwrapper", str(seed), str(stalls), "show"]))
        shutil.rmtree(self.here("obj_dir"))
        if shutil.which("iverilog") and self.wrap(example, "verilog", ".v", words) and not self.compiled():
            wanted = self.in_icarus(what, example, PAUSES)
            if found != wanted:
                self.say(f"{what} takes {found} cycles, {wanted} in Icarus Verilog")

    def fault(self, text, what, old, new):
        """Whether a bench finds a change of the wrapper."""
        self.faults += 1
        faulty = planted(text, old, new)
        if not faulty:
            self.say(f"the wrapper has no {old!r}")
            return
        write(self.here("wrapped.v"), faulty)
        if self.compiled():
            self.say(f"Icarus Verilog refuses {new!r}")
        pauses = [(seed, stalls) for seed in range(SEEDS) for stalls in (45, 90)]
        if not any("FAILED" in told(bench_words(*each), self.folder).stdout for each in pauses):
            self.say(f"no bench finds that {what}: {new!r} in place of {old!r}")

    def refuse(self, words, status, line):
        """Whether words are refused with a status and a line, and write nothing; without any program, if one has to be missing."""
        self.refusals += 1
        environment = {"PATH": "/nonexistent"} if "is missing" in line else {**os.environ, "SAFL": self.program}
        before = sorted(os.listdir(self.folder))
        done = subprocess.run([*WRAP, *words], cwd=self.folder, env=environment, capture_output=True, text=True, check=False)
        got = (done.returncode, done.stdout, done.stderr)
        if got != (status, "", f"safl-wrap: {line}\n") or sorted(os.listdir(self.folder)) != before:
            self.say(f"{' '.join(words)}: {got}")


def on_examples(test, found):
    """All examples in Icarus Verilog."""
    for number, example in enumerate(found):
        for place, option in enumerate(((), ("--opt",))):
            test.build(example, option)
            narrow = ("--width", str(WIDTHS[number % len(WIDTHS)]))
            shapes = ((), ("--axi", "--width", "32", "--last"), ("--axi-lite",)), (("--axi", "--last"), narrow)
            for words in shapes[(number + place) % 2]:
                test.compare(example, option, words)


def in_verilator(test, found, with_all):
    """Some or all examples in Verilator."""
    for number, example in enumerate(found):
        if with_all or example.name in IN_VERILATOR:
            words = ("--axi",), ("--width", str(WIDTHS[number % len(WIDTHS)])), ("--axi", "--width", "32")
            test.build(example, ())
            test.in_verilator(example, IN_VERILATOR.get(example.name, words[number % len(words)]))


def on_faults(test, example):
    """Faulty wrappers."""
    for words, faults in ((("--width", "8", "--last"), OF_STREAM), (("--axi-lite",), OF_REGISTERS)):
        test.build(example, ())
        test.wrap(example, "verilog", ".v", words)
        text = read(test.here("wrapped.v"))
        for each in faults:
            test.fault(text, *each)


def on_widths(test, example):
    """The width of a transfer is a parameter: two wrappers differ in its value alone, but for the comments above them."""
    test.build(example, ())
    bodies = []
    for width in ("8", "13"):
        printed = told([*WRAP, "built.v", "--width", width, "--last"], test.folder).stdout
        bodies.append(printed.partition("`default_nettype none")[2].replace(f"WIDTH = {width}", "WIDTH = W"))
    if bodies[0] != bodies[1] or "WIDTH = W" not in bodies[0]:
        test.say("wrappers of two widths differ in more than a parameter")


def on_two(test, first, second):
    """Two circuits with wrappers in one design: each bench has to pass beside the other's modules."""
    files = []
    for name, example, words in (("one", first, ("--axi",)), ("two", second, ("--axi-lite", "--header", "two.h"))):
        test.build(example, ())
        outs = ["--core", name, "--out", f"{name}_wrapper.v", "--bench", "verilog", "--bench-out", f"{name}_bench.v"]
        told([*WRAP, "built.v", *outs, "--source", example.path, "--script", "calls", "--safl", test.program, *words], test.folder)
        files += [f"{name}.v", f"{name}_wrapper.v", f"{name}_bench.v"]
    for name in ("one", "two"):
        test.icarus += 1
        complaint = told(["iverilog", "-g2005", "-Wall", "-s", f"{name}_bench", "-o", "bench", *files], test.folder).stderr
        printed = told(["vvp", "-n", "bench"], test.folder).stdout
        if complaint or "results and order as in the session" not in printed:
            test.say(f"two circuits in one design, {name}: {complaint or printed}")
    if shutil.which("gcc") and told(["gcc", "-Wall", "-Werror", "-fsyntax-only", "-x", "c", "two.h"], test.folder).returncode:
        test.say("gcc refuses the header")


def refusals(source, lines):
    """Wrong words, each with the status and the line that refuse them."""
    bench = ["built.v", "--out", "o.v", "--bench", "verilog", "--bench-out", "b.v"]
    calls = [*bench, "--source", source, "--script"]
    cpp = [word.replace("verilog", "cpp").replace("b.v", "b.cpp") for word in calls]
    loop = [*bench[1:], "--source", "loop.safl"]
    itself = "the copy for --core would be built.v itself: choose another name, or another folder for --out"
    foreign, taken = "this is no file that safl build wrote", "is read or written already, so nothing is written to it"
    return [
        ([], 2, "the following arguments are required: FILE (try --help)"),
        (["built.v", "--wide"], 2, "unrecognized arguments: --wide (try --help)"),
        (["built.v", "more"], 2, "unrecognized arguments: more (try --help)"),
        (["built.v", "--width", "129"], 2, "argument --width: 129 is no width from 1 to 128 (try --help)"),
        (["built.v", "--axi", "--width", "12"], 2, "--width 12 does not fit: with --axi a transfer has whole bytes"),
        (["built.v", "--module", "begin"], 2, "begin is no name for a module"),
        (["built.v", "--module", "safl"], 2, "the module inside is called safl already (name the wrapper with --module)"),
        (["built.v", "--out", "./built.v"], 2, f"./built.v {taken}"),
        (["built.v", "--run"], 2, "--run needs --bench or --formal (try --help)"),
        (["built.v", "--bench-out", "b.v"], 2, "--bench is missing: verilog or cpp (try --help)"),
        (["built.v", "--axi-lite", "--width", "8", "--out", "o.v"], 2, "--width does not go with --axi-lite (try --help)"),
        (["built.v", "--header", "o.h", "--out", "o.v"], 2, "--header needs --axi-lite too (try --help)"),
        (["built.v", "--formal", "p.sv"], 2, "--formal needs --out too (try --help)"),
        (["built.v", "--core", "c"], 2, "--core needs --out too (try --help)"),
        (["built.v", "--out", "o.v", "--core", "o"], 2, f"o.v {taken}"),
        (["built.v", "--out", "o.v", "--core", "built"], 2, itself),
        (["built.v", "--out", "o.v", "--core", "wire"], 2, "wire is no name for a module"),
        (["built.v", "--out", "o.v", "--formal", "p.v"], 2, "the name p.v does not end with .sv (try --help)"),
        (["built.v", "--out", "o.v", "--formal", "safl.sv"], 2, "safl is no name for a module: choose another --formal"),
        (bench, 2, "--bench needs --source too (try --help)"),
        ([*calls, "wrong", "--out", "wrong"], 2, f"wrong {taken}"),
        ([*calls, "empty"], 2, "empty has no call"),
        ([*cpp, "wrong", "--bench", "verilog"], 2, "the name b.cpp does not end with .v (try --help)"),
        (["built.v", *loop, "--script", "wrong"], 2, "built.v was not built from loop.safl: the ports differ"),
        (["none.v"], 3, "cannot read none.v"),
        ([*calls, "none"], 3, "cannot read none"),
        (["built.v", "--out", "none/o.v"], 4, "cannot write none/o.v"),
        (["loop.v", *loop, "--script", "bytes", "--cycles", "9"], 6, "bytes: line 2: no result in 9 cycles"),
        (["wrong"], 7, f"wrong:1: {foreign}"),
        (["cut.v"], 7, f"cut.v:{lines - 1}: {foreign}"),
        (["other.v"], 7, f"other.v:{lines}: {foreign}"),
        ([*calls, "wrong"], 8, "wrong: line 2: main takes 2 arguments, 1 given"),
        ([*calls, "odd"], 8, "odd: line 1: argument 2 is no number of 64 bits"),
        ([*calls, "wrong", "--safl", "none"], 30, "there is no program none (name it with --safl PROGRAM)"),
        ([*calls, "wrong", "--run"], 30, "the program iverilog is missing (Debian: apt install iverilog)"),
        (["built.v", "--out", "o.v", "--formal", "p.sv", "--run"], 30, "the program yosys is missing (Debian: apt install yosys)"),
        ([*cpp, "wrong", "--run"], 30, "the program verilator is missing (Debian: apt install verilator)"),
    ]


def on_refusals(test, example):
    test.build(example, ())
    text = read(test.here("built.v"))
    lines = text.count("\n")
    written(test.folder, "cut.v", text[:text.rindex("else")])
    written(test.folder, "other.v", text.replace("endmodule", "  initial safl = 1;\nendmodule"))
    for name, content in (("wrong", "48 36\n5\n"), ("odd", "0x30 0x\n"), ("empty", ""), ("bytes", "7\n8\n")):
        written(test.folder, name, content)
    loop = written(test.folder, "loop.safl", "fun main(x:8):8 = if x == 7 then x else main(x)\n")
    told([test.program, "build", loop, test.here("loop.v")])
    for words, status, line in refusals(example.path, lines):
        test.refuse(words, status, line)


def main():
    parser = argparse.ArgumentParser(description="Tests tools/safl-wrap on all examples.")
    parser.add_argument("--all", action="store_true", help="run a bench of every example in Verilator, which takes minutes")
    given = parser.parse_args()
    found = [Example(name, path, rows_of(name)) for name, path in examples()]
    named = {example.name: example for example in found}
    has = {name: shutil.which(name) for name in ("iverilog", "verilator")}
    with tempfile.TemporaryDirectory() as folder:
        test = Test(folder, built())
        on_refusals(test, named["gcd"])
        if has["iverilog"]:
            on_faults(test, named["gcd"])
            on_two(test, named["gcd"], named["multiply"])
            on_widths(test, named["divide"])
            on_examples(test, found)
        if has["verilator"]:
            in_verilator(test, found, given.all)
    for name in [name for name, path in has.items() if not path]:
        print(f"tools_wrap: SKIPPED, {name} is missing")
    print(
        f"tools_wrap: {len(found)} examples, {test.wrappers} wrappers, {test.icarus} runs in Icarus Verilog and"
        f" {test.verilator} in Verilator, {test.faults} faults of a wrapper, {test.refusals} refusals, {test.failed} differences"
    )
    return 1 if test.failed else 0


if __name__ == "__main__":
    sys.exit(main())
