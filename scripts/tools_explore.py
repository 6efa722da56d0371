#!/usr/bin/env python3
"""Runs safl-explore and safl-place as a user would, and compares what they print and write with what is known:

    tools_explore.py [PART..]

The fewest cycles of some examples are known, and that their sources reply as the library or the vectors of scripts/gallery.py
say. Steps that are made by text are compared with texts by hand. A cluster of two workers has to find the same points, though
one of them is killed. Wrong uses have to end with a line and a status, and an interrupt has to keep what was found. Two circuits
are placed, and the design of examples/board is simulated. A part whose tool is missing is SKIPPED. PART names some of them, as
known_points. The program is crates/safl/out/safl, or SAFL names it. The status is 1 if something differs.
"""
import json
import os
import pty
import re
import select
import shlex
import shutil
import signal
import subprocess
import sys
import tempfile
import time
from contextlib import contextmanager

from files import TOP, read, written
from gallery import PAGES
from program import PROGRAM, TIMER, lacks, told

sys.path.insert(0, f"{TOP}/tools")
from safl_explore import meaning, text_steps, tree  # noqa: E402

SHARED = f"{TOP}/examples/shared.safl"
EXPLORE, PLACE = f"{TOP}/tools/safl-explore", f"{TOP}/tools/safl-place"
SYSTEM_PYTHON = "/usr/bin/python3"
KNOWN = {"sha256": (196, 68), "crc32": (52, 19), "xtea": (324, 67), "modexp": (55, 39)}  # the source's cycles, and the fewest
REGISTERS = r"(an input|an output|the (argument|result|control|value that is kept) (\w+ )?(of|for) [\w ]+)"
PATH = rf"[\d.]+ ns from {REGISTERS}( through the arbiter of site \d+)* to {REGISTERS}"
# Sources, and their steps by text, some with the source after them
STEPS = (
    (
        "fun f(x:8):8 = if x == 0 then x else f(x - 1) fun main(a:8):8 = let r = f(a) in r",
        {
            "main in the group of f":
                "fun f ( x : 8 ) : 8 = if x == 0 then x else f ( x - 1 )\nand main ( a : 8 ) : 8 = f ( a )\n",
        },
    ),
    ("fun f(x:8):8 = if x == 0 then x else f(x - 1) fun main(a:8):8 = f(a) + 1", {}),
    (
        "fun f(x:8):8 = if x == 0 then x else f(x - 1) fun g(x:8):8 = if x > 9 then f(x) else 9 fun main(a:8):8 = g(a) + 1",
        {
            "g in the group of f":
                "fun f ( x : 8 ) : 8 = if x == 0 then x else f ( x - 1 )\n"
                "and g ( x : 8 ) : 8 = if x > 9 then f ( x ) else 9\nfun main ( a : 8 ) : 8 = g ( a ) + 1\n",
        },
    ),
    (
        "fun f(x:8):8 = x + 1 fun main(a:8):8 = f(a) + f(2)",
        {
            "calls of f one after another":
                "fun f ( x : 8 ) : 8 = x + 1\nfun main ( a : 8 ) : 8 = let first : 8 = f ( a ) in first + f ( 2 )\n",
            "calls of f one after another, the last first":
                "fun f ( x : 8 ) : 8 = x + 1\nfun main ( a : 8 ) : 8 = let first : 8 = f ( 2 ) in f ( a ) + first\n",
        },
    ),
    (
        "fun f(x:8):8 = x + 1 and g(x:8):8 = x + 2 fun main(a:8):8 = f(a) + 1",
        {"f apart from g": "fun f ( x : 8 ) : 8 = x + 1\nfun g ( x : 8 ) : 8 = x + 2\nfun main ( a : 8 ) : 8 = f ( a ) + 1\n"},
    ),
    (
        "fun f(x:8):8 = x + 1 fun g(x:8):8 = f(x) fun main(a:8):8 = f(a) & 1",
        {
            "a unit of f for main":
                "fun f ( x : 8 ) : 8 = x + 1\nfun f_main ( x : 8 ) : 8 = x + 1\nfun g ( x : 8 ) : 8 = f ( x )\n"
                "fun main ( a : 8 ) : 8 = f_main ( a ) & 1\n",
        },
    ),
)


class Checks:
    """How many things were compared, what differed, and what is skipped."""

    def __init__(self):
        self.tried, self.failed, self.skipped = 0, 0, []

    def same(self, what, wanted, got):
        self.tried += 1
        if wanted != got:
            self.failed += 1
            print(f"tools_explore: {what}: {wanted!r} is right, not {got!r}")

    def true(self, what, holds):
        self.same(what, True, bool(holds))

    def skip(self, name):
        if f"SKIPPED {name}" not in self.skipped:
            self.skipped.append(f"SKIPPED {name}")


def has_library(name):
    """Whether this Python or the system's has a library."""
    pythons = [python for python in (sys.executable, SYSTEM_PYTHON) if os.path.exists(python)]
    return any(told([python, "-c", f"import {name}"]).returncode == 0 for python in pythons)


def explore(*words):
    return told([EXPLORE, *words, "--safl", PROGRAM])


def source_of(name):
    return f"{TOP}/examples/{name}/{name}.safl"


def calls_of(name):
    """The calls of an example's page, as lines of a script, and the results that a library or a vector gives."""
    answer, values = PAGES[name]
    rows = [answer(*each) for each in values]
    return "".join(" ".join(map(str, args)) + "\n" for _, args, _ in rows), [result for *_, result in rows]


def first_call(folder, name):
    """A script of the first call of an example's page."""
    return written(folder, f"{name}.one", calls_of(name)[0].split("\n")[0] + "\n")


def five(folder):
    """A script with one call, for examples/shared.safl."""
    return written(folder, "five", "5\n")


def replies(path, script):
    """The values and the cycles that a session gives."""
    lines = told([PROGRAM, "session", path, script, "--cycles", "100000"]).stdout.splitlines()[:-1]
    return [int(line.split()[0]) for line in lines], sum(int(line.split()[1]) for line in lines)


def points_of(folder):
    return json.loads(read(f"{folder}/points.json"))


def without_comments(text):
    return "".join(line for line in text.splitlines(True) if not line.startswith("//"))


def follows(checks, output, folder):
    """Where a point is made by commands alone, they make the source that was written, but for the functions that are left out."""
    for part in re.findall(r"^point \d+:\n((?:\S.*\n)+)", output, re.M):
        *commands, last = part.splitlines()
        gone = re.match(r"by text, replies compared: without ([\w, ]+), as nothing calls", last)
        commands += [] if gone else [last]
        if any(command.startswith("by text") for command in commands):
            continue
        target, other = commands[-1].split()[3], f"{folder}/again.safl"
        for command in commands:
            words = [other if word == target else word for word in command.split()]
            checks.same(command, 0, told([PROGRAM, *words[1:]]).returncode)
        names = gone[1].split(", ") if gone else []
        left = [line for line in read(other).splitlines(True) if line.split()[1] not in names]
        checks.same(f"the source {target}", "".join(left), without_comments(read(target)))


def known_points(checks, folder):
    """The fewest cycles of four examples, for the first call of each page, and that all their sources reply as they should."""
    for name, (before, after) in KNOWN.items():
        text, results = calls_of(name)
        one = first_call(folder, name)
        every = written(folder, f"{name}.calls", text)
        begun = time.monotonic()
        ran = explore(source_of(name), "--calls", one, "--out", f"{folder}/{name}")
        print(f"tools_explore: {name} is explored in {time.monotonic() - begun:.1f} s", flush=True)
        checks.same(f"status for {name}: {ran.stderr}", 0, ran.returncode)
        first, *others = points_of(f"{folder}/{name}")
        checks.same(f"cycles of {name}", before, first["cycles"])
        checks.same(f"fewest cycles of {name}", after, min(point["cycles"] for point in others))
        for point in others:
            values, _ = replies(point["source"], every)
            checks.same(f"replies of {point['source']}", results, values)
            checks.same(f"cycles of {point['source']}", point["cycles"], replies(point["source"], one)[1])
            checks.same(f"bits of {point['source']}", str(point["bits"]), told([PROGRAM, "report", point["source"]]).stdout.split()[-1])
        follows(checks, ran.stdout, folder)


def shared_point(checks, folder):
    """The two calls of examples/shared.safl without their unit: 2 cycles, and no area for the unit that nothing calls any more."""
    ran = explore(SHARED, "--calls", five(folder), "--out", f"{folder}/shared")
    first, best, *_ = points_of(f"{folder}/shared")
    checks.same("cycles of shared", (6, 2), (first["cycles"], best["cycles"]))
    by_hand = written(folder, "by_hand.safl", "fun main(a:8):8 = (a + 1) + (a + 1 + 1)\n")
    checks.same("area of shared", ands_and_bits(folder, by_hand), (best["ands"], best["bits"]))
    checks.same("functions of shared", 1, without_comments(read(best["source"])).count("\n"))
    checks.true("the end of shared", "nothing else promises to be better" in ran.stdout)
    page = read(f"{TOP}/man/safl-explore.1").replace("\\-", "-").replace("\\(en", "-")
    shown = ran.stdout.replace(f"{TOP}/examples/", "").replace(f"{folder}/shared/", "")
    checks.true("the manual page shows what is printed", shown in page)


def ands_and_bits(folder, path):
    """The size of the circuit of a source."""
    told([PROGRAM, "build", path, f"{folder}/size.v", "--opt"])
    told([PROGRAM, "aig", f"{folder}/size.v", f"{folder}/size.aag"])
    _, _, _, latches, _, ands = read(f"{folder}/size.aag").split("\n")[0].split()
    return int(ands), int(latches)


def joined_with_main(checks, folder):
    """The loop of gcd is entered by main alone: by hand, with `and main`, it has the figures of the point that is found."""
    calls = first_call(folder, "gcd")
    explore(source_of("gcd"), "--calls", calls, "--out", f"{folder}/joined")
    point = points_of(f"{folder}/joined")[1]
    other = written(folder, "joined.safl", read(source_of("gcd")).replace("fun main", "and main"))
    values, cycles = replies(other, calls)
    checks.same("the steps of gcd", ["main in the group of gcd"], point["steps"])
    checks.same("replies with `and main`", calls_of("gcd")[1][:1], values)
    checks.same("gcd with `and main`", (cycles, *ands_and_bits(folder, other)), (point["cycles"], point["ands"], point["bits"]))


def texts(checks, folder):
    """The tree of each example is written as safl writes it; spans are those of the circuits in which nothing waits."""
    for name in PAGES:
        out = f"{folder}/text.safl"
        if told([PROGRAM, "reshape", source_of(name), out, "--unfold", "1"]).returncode == 0:
            checks.same(f"the text of {name}", read(out), tree.text_of(tree.read(read(out))))
        again = written(folder, "again.safl", tree.text_of(tree.read(read(source_of(name)))))
        checks.same(f"the report of {name}", *(told([PROGRAM, "report", path]).stdout for path in (source_of(name), again)))
        calls, results = calls_of(name)
        evaluation = meaning.Evaluation(tree.read(read(again)), 10**6)
        values, spans = zip(*(evaluation.main(tuple(map(int, line.split()))) for line in calls.splitlines()))
        checks.same(f"values of {name}", results, list(values))
        cycles = replies(again, written(folder, f"{name}.calls", calls))[1]
        arbiters = "arbiter yes" in told([PROGRAM, "report", again]).stdout
        checks.true(f"spans of {name}", sum(spans) <= cycles if arbiters else sum(spans) == cycles)


def by_text(checks, folder):
    """Steps by text of small sources: their names, and a few of the texts."""
    for source, wanted in STEPS:
        found = {how: tree.text_of(program) for how, program in text_steps.text_steps(tree.read(source))}
        checks.same(f"steps of {source}", list(wanted), list(found))
        for how, text in wanted.items():
            if text:
                checks.same(f"{how} in {source}", text, found[how])
        for text in found.values():
            checks.same(f"{text} is accepted", 0, told([PROGRAM, "check", written(folder, "step.safl", text)]).returncode)


def inlined(checks, folder):
    """Functions without their units: named ones, and those that few places call."""
    text, results = calls_of("xtea")
    calls = written(folder, "xtea.all", text)
    for number, words in enumerate((["--inline", "mix,word"], ["--inline-below", "3"])):
        out = f"{folder}/inlined{number}.safl"
        ran = explore(source_of("xtea"), "--calls", calls, *words, "--source", out)
        checks.same(f"status of {words}: {ran.stderr}", 0, ran.returncode)
        checks.same(f"replies after {words}", (results, 68 * len(results)), replies(out, calls))
        checks.same(f"functions after {words}", ["left", "right", "main"], re.findall(r"^(?:fun|and) (\w+)", read(out), re.M))
    out, step = f"{folder}/shorter.safl", f"{folder}/step.safl"
    told([PROGRAM, "reshape", source_of("crc32"), step, "--unfold", "1"])
    explore(step, "--calls", first_call(folder, "crc32"), "--inline-below", "1", "--source", out)
    checks.same("what nothing calls is left out", ["bytes", "main"], re.findall(r"^fun (\w+)", read(out), re.M))


def wrong_uses(checks, folder):
    call = five(folder)
    copy = written(folder, "copy.safl", read(SHARED))
    fault = written(folder, "fault.safl", "fun main(x:8):8 = y\n")
    two, empty = written(folder, "two", "5 6\n"), written(folder, "empty", "")
    missing = f"there is no program {folder}/none (name it with --safl PROGRAM)"
    number = "x is no number of points from 1 to 1,000,000"
    inline, out = ["--inline", "f", "--source"], f"{folder}/g"
    apart = "--source OUT goes with --inline or --inline-below, and neither without it"
    of_main = "nothing calls main but main itself, so it cannot be written out"
    ands = "--front goes with --luts or --place, and not with DSP blocks, as ANDs do not tell what those spare"
    cases = (
        ([], 2, "the following arguments are required: IN, --calls (try --help)"),
        ([SHARED, "--calls", f"{folder}/none"], 3, f"cannot read {folder}/none"),
        ([f"{folder}/none", "--calls", call], 3, f"cannot read {folder}/none"),
        ([fault, "--calls", call], 1, f"{fault}:1:19: E08 unknown variable"),
        ([SHARED, "--calls", two], 8, "the calls: line 1: main takes 1 arguments, 2 given"),
        ([SHARED, "--calls", empty], 2, f"{empty} has no call"),
        ([SHARED, "--calls", call, "--cycles", "3"], 6, "the calls: no result in 3 cycles"),
        ([SHARED, "--calls", call, "--points", "x"], 2, f"argument --points: {number} (try --help)"),
        ([SHARED, "--calls", call, "--point", "5"], 2, "unrecognized arguments: --point 5 (try --help)"),
        ([SHARED, "--calls", call, "--plot", "a.gif"], 2, "the picture a.gif does not end with .svg, .png or .pdf"),
        ([SHARED, "--calls", call, "--inline", "g", "--source", out], 2, "there is no function g"),
        ([SHARED, "--calls", call, "--inline", "f"], 2, apart),
        ([copy, "--calls", call, *inline, copy], 2, f"{copy} is read or written already, so nothing is written to it"),
        ([SHARED, "--calls", call, "--inline", "main", "--source", out], 2, of_main),
        ([SHARED, "--calls", call, "--dsp"], 2, "--device, --dsp and --seed go with --luts or --place"),
        ([SHARED, "--calls", call, "--luts", "--dsp"], 2, "hx8k has no DSP blocks; up5k and u4k have"),
        ([SHARED, "--calls", call, "--front"], 2, ands),
        ([SHARED, "--calls", call, "--luts", "--front", "--device", "ecp5"], 2, ands),
        ([SHARED, "--calls", call, "--luts", "--seeds", "3"], 2, "--seeds goes with --place: there is no clock without"),
        ([SHARED, "--calls", call, "--known", fault], 3, f"{fault} is no file of --known"),
        ([SHARED, "--calls", call, "--safl", f"{folder}/none"], 30, missing),
    )
    for words, status, line in cases:
        ran = told([EXPLORE, "--safl", PROGRAM, *words])
        checks.same(f"safl-explore {words}", (status, f"safl-explore: {line}\n", ""), (ran.returncode, ran.stderr, ran.stdout))
    checks.same("the input is as it was", read(SHARED), read(copy))


def wrong_uses_of_place(checks, folder):
    fault = written(folder, "fault.safl", "fun main(x:8):8 = y\n")
    cases = (
        ([], 2, "the following arguments are required: FILE, --device (try --help)"),
        ([SHARED, "--device", "hx8k", "--bits", f"{folder}/b"], 2, "--bits needs --pins: a bit stream is for a board"),
        ([f"{folder}/none", "--device", "hx8k"], 3, f"cannot read {folder}/none"),
        ([fault, "--device", "hx8k"], 1, f"{fault}:1:19: E08 unknown variable"),
    )
    for words, status, line in cases if shutil.which("yosys") and shutil.which("nextpnr-ice40") else cases[:2]:
        ran = told([PLACE, "--safl", PROGRAM, *words])
        checks.same(f"safl-place {words}", (status, f"safl-place: {line}\n", ""), (ran.returncode, ran.stderr, ran.stdout))


def not_ignored():
    """A shell has its background programs ignore interrupts, and those that they start too."""
    signal.signal(signal.SIGINT, signal.SIG_DFL)


def interrupted(checks, folder):
    """After some points, an interrupt: what was found is printed and written."""
    calls, out = written(folder, "seconds", "951782400\n"), f"{folder}/interrupted"
    master, slave = pty.openpty()
    words = [EXPLORE, source_of("clock"), "--calls", calls, "--points", "1000000", "--out", out, "--safl", PROGRAM]
    with subprocess.Popen(words, stdout=subprocess.PIPE, stderr=slave, text=True, preexec_fn=not_ignored) as running:
        os.close(slave)
        seen, end = b"", time.monotonic() + 60
        while not re.search(rb"[3-9] points", seen) and time.monotonic() < end:
            seen += os.read(master, 1000) if select.select([master], [], [], 1)[0] else b""
        running.send_signal(signal.SIGINT)
        output = running.communicate(timeout=60)[0]
        told_last = os.read(master, 1000)
    os.close(master)
    checks.same("status of an interrupt", 130, running.returncode)
    checks.true("the line of an interrupt", b"safl-explore: interrupted: what is above was found until then" in told_last)
    checks.true("points after an interrupt", re.match(r" *point  cycles", output))
    checks.same("the source's cycles after an interrupt", replies(source_of("clock"), calls)[1], points_of(out)[0]["cycles"])


def workers_of(address):
    """How many workers a scheduler has."""
    asked = "import sys, distributed; print(len(distributed.Client(sys.argv[1]).nthreads()))"
    return told([SYSTEM_PYTHON, "-c", asked, address]).stdout.strip()


@contextmanager
def workers(folder):
    """The address of a scheduler with two workers, and the three processes."""
    quiet = {"cwd": folder, "stdout": subprocess.DEVNULL, "stderr": subprocess.DEVNULL}
    contact = f"{folder}/scheduler.json"
    start = [SYSTEM_PYTHON, "-m", "distributed.cli.dask_scheduler", "--scheduler-file", contact, "--no-dashboard"]
    running = [subprocess.Popen([*start, "--host", "127.0.0.1", "--port", "0"], **quiet)]
    try:
        end = time.monotonic() + 60
        while not os.path.exists(contact) and time.monotonic() < end:
            time.sleep(0.1)
        start = [SYSTEM_PYTHON, "-m", "distributed.cli.dask_worker", "--scheduler-file", contact, "--no-dashboard"]
        start += ["--nthreads", "1", "--no-nanny"]
        running += [subprocess.Popen([*start, "--name", name], **quiet) for name in ("one", "two")]
        address = json.loads(read(contact))["address"]
        while workers_of(address) != "2" and time.monotonic() < end + 60:
            pass
        yield address, running
    finally:
        for each in running:
            each.terminate()
        for each in running:
            each.wait()


def on_cluster(checks, folder):
    """A cluster finds the same points, also if a worker is killed meanwhile."""
    slow = written(folder, "slow", f'#!/bin/sh\n[ "$1" = aig ] && : >"$0.begun" && sleep 0.5\nexec {shlex.quote(PROGRAM)} "$@"\n')
    os.chmod(slow, 0o755)
    words = [EXPLORE, source_of("fir"), "--calls", first_call(folder, "fir"), "--points", "9", "--safl", slow]
    with workers(folder) as (address, running):
        with subprocess.Popen(
            [*words, "--out", f"{folder}/cluster", "--scheduler", address], stdout=subprocess.PIPE, stderr=subprocess.PIPE, text=True,
        ) as exploring:
            end = time.monotonic() + 120
            while not os.path.exists(f"{slow}.begun") and exploring.poll() is None and time.monotonic() < end:
                time.sleep(0.05)
            running[-1].kill()
            _, lines = exploring.communicate(timeout=300)
    checks.same(f"status on a cluster: {lines}", 0, exploring.returncode)
    checks.true(f"a lost worker is told: {lines}", "1 of 2 workers lost: their points are tried again" in lines)
    told([*words, "--out", f"{folder}/alone"])
    found, known = (points_of(f"{folder}/{name}") for name in ("cluster", "alone"))
    for point in found + known:
        point.pop("source")
    checks.same("points of a cluster", known, found)


def known_before(checks, folder):
    """What a file has of an earlier run is not built again: there is no program that could."""
    words = [SHARED, "--calls", five(folder), "--known", f"{folder}/known.json"]
    first = explore(*words)
    lame = written(folder, "lame", f'#!/bin/sh\n[ "$1" = aig ] && exit 1\nexec {shlex.quote(PROGRAM)} "$@"\n')
    os.chmod(lame, 0o755)
    figures = json.loads(read(f"{folder}/known.json"))
    checks.same("figures of an earlier run", 2, len(figures))
    checks.same("the same from a file", first.stdout, explore(*words).stdout)
    hexadecimal = [written(folder, "five in hexadecimal", "0x5") if word == words[2] else word for word in words]
    checks.same("the same for a call in hexadecimal", first.stdout, explore(*hexadecimal).stdout)
    checks.true("another program has other figures", told([EXPLORE, *words, "--safl", lame]).returncode)


def pictures(checks, folder):
    """The same points give the same picture, and it is one."""
    drawn = []
    for name in ("once.svg", "twice.svg"):
        words = ["--calls", first_call(folder, "crc32"), "--points", "2", "--plot", f"{folder}/{name}"]
        ran = explore(source_of("crc32"), *words)
        checks.same(f"status of --plot: {ran.stderr}", 0, ran.returncode)
        drawn.append(read(f"{folder}/{name}"))
    checks.true("a picture", drawn[0].startswith("<?xml") and "no other beats it" in drawn[0])
    checks.same("the picture twice", drawn[0], drawn[1])


def place(*words):
    return told([PLACE, *words, "--safl", PROGRAM])


def counted(checks, folder):
    """LUTs are those that Yosys counts in the module, and safl-explore has the same."""
    built = f"{folder}/multiply.v"
    told([PROGRAM, "build", f"{TOP}/examples/multiply.safl", built, "--opt"])
    stat = told(["yosys", "-p", f"read_verilog {built}; synth_ice40 -top safl; stat"]).stdout
    luts = re.findall(r"SB_LUT4\s+(\d+)", stat)[-1]
    flops = sum(int(number) for number in re.findall(r"SB_DFF\w*\s+(\d+)", stat[stat.rindex("Number of cells"):]))
    ran = place(built, "--device", "hx8k", "--counts")
    checks.same("counts of multiply", f"luts {luts}\nflip-flops {flops}\n", ran.stdout)
    calls = written(folder, "product", "5 3\n")
    explore(f"{TOP}/examples/multiply.safl", "--calls", calls, "--luts", "--points", "1", "--out", f"{folder}/luts")
    point = points_of(f"{folder}/luts")[0]
    checks.same("safl-explore --luts", (int(luts), flops), (point["luts"], point["flops"]))
    checks.same("synthesis for ECP5", 0, place(built, "--device", "ecp5", "--counts").returncode)


def front(checks, folder):
    """The unbeaten points of a search by ANDs, with the LUTs that Yosys counts."""
    calls = first_call(folder, "crc32")
    for out, words in (("ands", []), ("front", ["--luts", "--front"])):
        explore(source_of("crc32"), "--calls", calls, *words, "--out", f"{folder}/{out}")
    by_ands, by_luts = points_of(f"{folder}/ands"), points_of(f"{folder}/front")
    checks.same("points of the front", [point["steps"] for point in by_ands], [point["steps"] for point in by_luts])
    for point in by_luts:
        counts = place(point["source"], "--device", "hx8k", "--counts").stdout
        checks.same(f"counts of {point['source']}", f"luts {point['luts']}\nflip-flops {point['flops']}\n", counts)
    best = max(by_luts, key=lambda point: 1 / point["luts"] / (point["cycles"] + 1))
    checks.same("the most calls for the area", max(point["calls for area"] for point in by_luts), best["calls for area"])


def refused(checks, folder):
    """A point that Yosys refuses is left out and told; if Yosys refuses the source itself, nothing is left to tell."""
    fault, calls = "yosys: ERROR: an assertion failed", five(folder)
    for tells, status, line in (("! grep", 0, "1 source left out, the first for: "), ("grep", 31, "safl-explore: ")):
        has_unit = f'{tells} -q "res[$]f" file0.v'
        lame = f'#!/bin/sh\nif {has_unit}; then echo "{fault.removeprefix("yosys: ")}" >&2; exit 1; fi\nexec {shutil.which("yosys")} "$@"\n'
        os.chmod(written(folder, "yosys", lame), 0o755)
        ran = told(["env", f"PATH={folder}:{os.environ['PATH']}", EXPLORE, SHARED, "--calls", calls, "--luts", "--safl", PROGRAM])
        checks.same("the status if Yosys refuses a source", status, ran.returncode)
        checks.same("its last line", f"{line}{fault}", (ran.stdout + ran.stderr).splitlines()[-1])


def placed(checks, folder):
    """Two circuits, one of them twice."""
    printed = {}
    for name, device in (("multiply", "hx8k"), ("shared", "up5k"), ("shared", "up5k")):
        ran = place(f"{TOP}/examples/{name}.safl", "--device", device, "--cycles", "6")
        found = re.fullmatch(r"luts (\d+)\nflip-flops \d+\nmhz ([\d.]+)\ncalls (\d+) a second\nlongest path (.*)\n", ran.stdout)
        checks.true(f"place of {name}: {ran.stderr}", found)
        checks.true(f"calls a second of {name}", found and abs(int(found[3]) - float(found[2]) * 1e6 / 7) < 1000)
        checks.true(f"longest path of {name}: {ran.stdout}", found and re.fullmatch(PATH, found[4]))
        checks.same(f"place of {name} once more", printed.setdefault(name, ran.stdout), ran.stdout)
    full = place(source_of("xtea"), "--device", "lp1k")
    checks.true("a circuit that does not fit", full.returncode == 31 and full.stderr.startswith("safl-place: nextpnr-ice40: ERROR"))


def board(folder):
    """The command that makes something of examples/board, in a copy of it."""
    for name in ("crc32", "gcd", "isqrt"):
        shutil.copytree(f"{TOP}/examples/{name}", f"{folder}/crc32.copy/{name}", dirs_exist_ok=True)
    shutil.copytree(f"{TOP}/examples/board", f"{folder}/crc32.copy/board", dirs_exist_ok=True)
    return ["make", "-C", f"{folder}/crc32.copy/board", f"SAFL={PROGRAM}", f"WRAP={TOP}/tools/safl-wrap", f"PLACE={PLACE}"]


def simulated(checks, folder):
    """The design of examples/board answers as Python does."""
    ran = told([*board(folder), "test"])
    checks.same(f"the test of examples/board: {ran.stderr}", 0, ran.returncode)


def streamed(checks, folder):
    """The design of examples/board has a bit stream."""
    ran = told(board(folder))
    checks.same(f"the bit stream of examples/board: {ran.stderr}", 0, ran.returncode)
    checks.true("its length", os.path.getsize(f"{folder}/crc32.copy/board/board.bin") > 100000)


def installed(checks, folder):
    """What `make install` puts into its folders runs."""
    ran = told(["make", "-C", TOP, "install", f"PREFIX={folder}/to", f"PROGRAM={PROGRAM}", f"TIMER={TIMER}"])
    checks.same(f"make install: {ran.stderr}", 0, ran.returncode)
    for name in ("safl-explore", "safl-place"):
        checks.same(f"{name} --help", 0, told([f"{folder}/to/bin/{name}", "--help"]).returncode)
    words = [f"{folder}/to/bin/safl-explore", SHARED, "--calls", five(folder), "--points", "1"]
    ran = told(["env", "-u", "SAFL", "PATH=/usr/bin:/bin", *words])
    checks.same(f"the installed safl-explore finds safl: {ran.stderr}", 0, ran.returncode)


PARTS = (
    (known_points, ()), (shared_point, ()), (joined_with_main, ()), (texts, ()), (by_text, ()), (inlined, ()), (known_before, ()),
    (wrong_uses, ()), (wrong_uses_of_place, ()), (interrupted, ()),
    (installed, ("make",)), (on_cluster, ("distributed",)), (pictures, ("matplotlib",)), (counted, ("yosys",)), (front, ("yosys",)), (refused, ("yosys",)),
    (placed, ("yosys", "nextpnr-ice40")), (simulated, ("make", "iverilog")),
    (streamed, ("make", "yosys", "nextpnr-ice40", "icepack")),
)
LIBRARIES = ("distributed", "matplotlib")


def missing(needed):
    """The first tool or library of these that is missing."""
    return next((name for name in needed if not (has_library(name) if name in LIBRARIES else shutil.which(name))), None)


def main():
    unknown = [word for word in sys.argv[1:] if word not in [part.__name__ for part, _ in PARTS]]
    if unknown:
        sys.exit(f"tools_explore: there is no part {unknown[0]}")
    if lacks(PROGRAM):
        return 0
    checks = Checks()
    with tempfile.TemporaryDirectory() as folder:
        for part, needed in PARTS:
            if sys.argv[1:] and part.__name__ not in sys.argv[1:]:
                continue
            lacking, begun = missing(needed), time.monotonic()
            if lacking:
                checks.skip(lacking)
                continue
            part(checks, folder)
            print(f"tools_explore: {part.__name__}, {time.monotonic() - begun:.1f} s", flush=True)
    print(", ".join([f"tools_explore: {checks.tried} checks, {checks.failed} differences", *checks.skipped]))
    return 1 if checks.failed else 0


if __name__ == "__main__":
    sys.exit(main())
