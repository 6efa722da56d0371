#!/usr/bin/env python3
"""Runs the programs of tools/ where names, files, outputs, signals and the system are out of the ordinary:

    tools_edges.py [--jobs J] [--tool TOOL] [--modules N] [PART..]

Each run has to end with the status and the line that are wanted. It leaves no temporary file, no process, no file that is half
written, and no input that is changed; what stands in a name is never run. For a small call of each program system calls are
refused in turn (scripts/refuse_calls.c), and the run may only end with a status that says so; of those by which Python loads a
module only each tenth, or each N-th, as they are alike. Each status has to be in the
program's manual page. A program of tools/ that has no calls here is a fault. PART names some parts, as signals, and TOOL one
program, as safl-wrap. The program `safl` is crates/safl/out/safl, or SAFL names it. Runs are made side by side. The last line says
how many there were, how much time they took by the clock and of processors, and what is SKIPPED.
"""
import argparse
import compileall
import concurrent.futures
import glob
import itertools
import os
import re
import shlex
import shutil
import signal
import sys
import tempfile
import time
from dataclasses import dataclass

from files import TOP, read, text, write
from given import a_number, parser
from program import PROGRAM, lacks, told
from tool_runs import HANG_UP, MARK, Link, Run, can_mount, ended, has_library

WRONG_USE, CANNOT_READ, CANNOT_WRITE, NO_MEMORY, TOO_LONG = 2, 3, 4, 5, 10
NOT_THERE, TOOL_FAILED, FAULT, INTERRUPTED = 30, 31, 33, 130
REFUSED = (0, CANNOT_READ, CANNOT_WRITE, NO_MEMORY, NOT_THERE, TOOL_FAILED, FAULT)  # what may come of a refused system call
LIBRARIES = ("jinja2", "matplotlib")
EXPLAINS = "safl-explain"  # its first line is that of `safl`, and more lines follow
OPTIONAL = ("dot",)  # without it a part is left out
SOURCE = "fun f(x:8):8 = x + 1\nfun main(a:8):8 = f(a)\n"
TOP_MODULE = "module top (input clk, output reg o); always @(posedge clk) o <= ~o; endmodule\n"
INPUTS = {"p.safl": SOURCE, "calls": "5\n", "top.v": TOP_MODULE, "pins": "set_io clk 21\nset_io o 22\n"}
LIMITS = {"p.safl": 1 << 20, "calls": 1 << 20, "p.v": 1 << 26}
OLD = "an old file\n"
OF_KNOWN = {"known.json": "{}\n"}  # a file that is read before it is written
NETLIST = '{"modules": {"safl": {"ports": {}, "cells": {"lut": {"type": "SB_LUT4"}}}}}'
SYNTHESISED = f"#!/bin/sh\necho '{NETLIST}' >module.json\n"  # in place of Yosys, which takes long
LONG = "takes long"


@dataclass(frozen=True)
class Call:
    """A call: its program and its words, with < before an input and > before an output; the programs and libraries that it needs;
    and what it finds in place of Yosys, or that it takes LONG, so that it is tried in fewer ways."""

    tool: str
    words: str
    needs: tuple = ()
    more: str = ""

    @property
    def is_long(self):
        return self.more == LONG

    def names(self, mark):
        return re.findall(rf"(?:^|[ =]){mark}(\S+)", self.words)

    def line(self, change=lambda mark, name: shlex.quote(name), begin="exec "):
        """The line for bash, in which each name of a file is changed to a text of bash."""
        words = []
        for word in self.words.split():
            option, mark, name = re.fullmatch(r"((?:-[\w-]+=)?)([<>]?)(.*)", word).groups()
            words.append(option + change(mark, name) if mark else word)
        return f'{begin}"$P" "$T" {" ".join(words)}'

    def run(self, line=None, files=(), given=(), sent=None):
        """A run of a line, which is that of the call if none is given. What is in place of Yosys is there twice, as one may not be found."""
        files, given = dict(files), dict(given)
        if self.more == SYNTHESISED:
            files = {"bin/yosys": self.more, "again/yosys": self.more, **files}
            given = {"PATH": f"@/bin:@/again:{os.environ.get('PATH', os.defpath)}", **given}
        return Run(self.tool, line or self.line(), files, given, sent)


# The calls of each program. The first is the small one, of which each system call is refused.
CALLS = [
    Call(tool, *rest)
    for tool, calls in {
        "safl-bench": [("--cycles=9 --out=>w.v -- <p.v 5",), ("--cycles=9 -- <p.v 5",)],
        "safl-explain": [("check -- <p.safl",), ("sim --cycles 100 -- <p.safl 0x5",)],
        "safl-explore": [
            ("--calls=<calls --points=2 --jobs=1 --out=>d -- <p.safl",),
            ("--calls=<calls --inline=f --source=>o -- <p.safl",),
            ("--calls=<calls --points=2 --known=>known.json -- <p.safl",),
            ("--calls=<calls --points=2 --plot=>o.svg -- <p.safl", ("matplotlib",), LONG),
            ("--calls=<calls --points=1 --luts -- <p.safl", ("yosys",), LONG),
        ],
        "safl-look": [
            ("--chart=>o.svg -- <p.safl 5",),
            ("--page=>o.html -- <p.safl 5", ("jinja2", "dot")),
            ("--chart=>o.png -- <p.safl 5", ("rsvg-convert",)),
            ("--chart=>o.pdf -- <p.safl 5", ("rsvg-convert",), LONG),
        ],
        "safl-place": [
            ("--device=hx1k --counts -- <p.v", (), SYNTHESISED),
            ("--device=hx1k --counts -- <p.safl", (), SYNTHESISED),
            ("--device=hx1k --counts -- <p.v", ("yosys",), LONG),
            ("--device=hx1k -- <p.v", ("yosys", "nextpnr-ice40"), LONG),
            ("--device=hx1k --top=top --pins=<pins --bits=>o -- <top.v", ("yosys", "nextpnr-ice40", "icepack"), LONG),
        ],
        "safl-waves": [
            ("--out=>o.svg -- <dump",),
            ("--out=>o.png -- <dump", ("rsvg-convert",)),
            ("--text -- <dump",),
        ],
        "safl-wrap": [
            ("--out=>w.v -- <p.v",),
            ("-- <p.v",),
            ("--out=>w.v --bench=verilog --bench-out=>b.v --source=<p.safl --script=<calls --run -- <p.v", ("iverilog", "vvp")),
            ("--out=>w.v --core=c --axi -- <p.v",),
            ("--out=>w.v --formal=>b.sv --run -- <p.v", ("yosys", "yosys-smtbmc", "z3"), LONG),
            ("--out=>w.v --bench=cpp --bench-out=>b.cpp --source=<p.safl --script=<calls --run -- <p.v", ("verilator",), LONG),
        ],
    }.items()
    for rest in calls
]

# Names that a shell, a script of Yosys, HTML, a template or matplotlib would read as more than names.
NAMES = (
    '"; exec -- touch x; "', "$(touch x)", "`touch x`", "x;touch x;", "'\"", r"$\frac$", "{{7*7}}", "<b>", "a\nb", "a\udcff", "-p",
    " a  b ", "a\\",
)
HERE = f'"${MARK}"'  # the folder of a run, in bash
TOUCH = f"#!/bin/sh\n: >{HERE}/touched\n"
KILLED = "#!/bin/sh\nkill -9 $$\n"
FAILS = "#!/bin/sh\necho no\nexit 1\n"
NO_PROGRAM = "#!/nowhere\n"
ASKED = f"#!/bin/sh\n: >{HERE}/asked\nexit 1\n"
# A program that ends by no signal but SIGKILL, nor does the one that it starts.
HANGS = f"#!/bin/sh\ntrap '' HUP INT TERM QUIT\nsleep 1000 &\n: >{HERE}/began\nwait\nsleep 1000\n"
FEW = 7  # how many calls of `safl` go well before memory runs out
RUNS_OUT = f"""#!/bin/sh
echo >>{HERE}/asked
if [ "$(wc -l <{HERE}/asked)" -gt {FEW} ]; then echo out of memory >&2; exit {NO_MEMORY}; fi
exec {shlex.quote(PROGRAM)} "$@"
"""
KILLED_LATER = RUNS_OUT.replace(f"-gt {FEW}", "-gt 1").replace(f"echo out of memory >&2; exit {NO_MEMORY}", "kill -9 $$")
CLOSINGS = [" ".join(some) for count in (1, 2, 3) for some in itertools.combinations(("<&-", ">&-", "2>&-"), count)]
CLOSINGS += [">/dev/full", "2>/dev/full", ">/dev/full 2>/dev/full", ">&3 3>&-"]
NO_READER = "mkfifo q; exec 4<>q 3>q 4<&-; rm q; "  # descriptor 3 is a pipe without a reader
SIGNALS = (signal.SIGINT, signal.SIGTERM, signal.SIGHUP, signal.SIGQUIT, HANG_UP)
BEGINNINGS = {".svg": b"<", ".png": b"\x89PNG", ".pdf": b"%PDF"}


@dataclass
class Trial:
    """A run, and what is wanted of it; None leaves a part open. The line is a pattern; the files are those that are new or changed,
    by name: what is in them, or None for anything."""

    run: Run
    status: int = None
    line: str = None
    out: bytes = None
    files: dict = None
    is_silent: bool = False  # nothing can be told
    refuses: Call = None  # a system call of this call is refused


def renamed(names):
    """Changes these names of files to others."""
    return lambda mark, name: shlex.quote(names.get(name, name))


def refusal(run, status, line):
    """A run that is refused with this line, and prints and writes nothing."""
    return Trial(run, status, re.escape(line), b"", {})


def without(usual, closing):
    """The status, the line and the output of a call that ended so before these descriptors were closed or full."""
    if not re.search(r"(?<!2)>", closing):
        return usual.status, None, usual.out
    if usual.out:
        return CANNOT_WRITE, "cannot write output", b""
    return usual.status, None, b""


def closed(kit, call):
    """Standard descriptors that are closed or full, and a pipe without a reader."""
    usual = kit.usual[call]
    for closing in () if call.is_long else CLOSINGS:
        run = call.run(NO_READER * (">&3" in closing) + call.line() + f" {closing}")
        yield Trial(run, *without(usual, closing), kit.files(call), "2>" in closing)


def of_name(name):
    """The name for a file in a folder that has an odd name, with that name before its own. A bench's own name is a module's."""
    return lambda plain: f"{name}/{plain}" if plain.startswith("b.") else f"{name}/{name}{plain}"


def names(kit, call):
    """All files of a call have names that look like more, in a folder of such a name: they are names all the same."""
    for name in NAMES[:1] if call.is_long else NAMES:
        if call.tool == EXPLAINS and "\udcff" in name:
            continue  # the names are words of `safl`, which takes no others than UTF-8
        odd = of_name(name)
        files = {odd(plain): kit.inputs[plain] for plain in call.names("<")}
        left = {odd(plain) if plain in call.names(">") else f"{name}/{plain}" for plain in kit.files(call)}
        if "d" in call.names(">"):
            left = {f"{name}/{name}{plain.replace('p.', f'{name}p.')}" for plain in kit.files(call)}
        run = call.run(call.line(lambda mark, plain: shlex.quote(odd(plain))), {"bin/touch": TOUCH, name: None, **files})
        yield Trial(run, 0, files=dict.fromkeys(left))


def pipes(kit, call):
    """Inputs that are pipes, of which one comes in pieces, and standard input."""
    first = call.names("<")[0]
    if call.tool == "safl-place" and first.endswith(".safl"):
        return  # what it is follows from its name

    def through(reader):
        return call.line(lambda mark, name: f"<({reader} {name})" if mark == "<" else name)

    standard = call.line(renamed({first: "/dev/stdin"}), "")
    lines = (through("cat"), through("dd bs=7 status=none <"), f"{standard} <{first}", f"cat {first} | {standard}")
    for line in () if call.is_long else lines:
        yield Trial(call.run(line), kit.usual[call].status)


def kept(kit, call):
    """An output that is an input, by its name or by a link, is refused."""
    for source, target in itertools.product(call.names("<"), call.names(">")):
        ending, content = os.path.splitext(target)[1], kit.inputs[source]
        same, files = f"same{ending}", {f"same{ending}": content}
        soft, hard = f"soft{ending}", f"hard{ending}"
        ways = [(same, files), (soft, {**files, soft: Link(same)}), (hard, {**files, hard: Link(same, True)})]
        if target == "d":
            same, ways = source, [("d/points.json", {"d/points.json": Link(source, is_hard)}) for is_hard in (False, True)]
        for other, files in ways:
            line = call.line(renamed({source: same, target: "d" if target == "d" else other}))
            yield refusal(call.run(line, files), WRONG_USE, f"{other} is read or written already, so nothing is written to it")
        if target != "d":
            line = call.line(renamed({source: "/dev/stdin", target: same})) + f" <{same}"
            yield refusal(call.run(line, ways[0][1]), WRONG_USE, f"{same} is read or written already, so nothing is written to it")


def links(kit, call):
    """In a folder, links of the names that are written are replaced, and what they lead to is as it was."""
    if "d" in call.names(">"):
        files = {"other": OLD, "d/points.json": Link("other"), "d/p.1.safl": Link("other")}
        yield Trial(call.run(None, files), 0, files=kit.files(call))


def old(kit, call):
    """A file stays as it was if `safl` or the file system fails."""
    files = {name: OF_KNOWN.get(name, OLD) for name in call.names(">") if name != "d"}
    if not files:
        return
    if "p.safl" in call.names("<"):
        yield refusal(call.run(None, {**files, "bin/safl": FAILS}, {"SAFL": "@/bin/safl"}), 1, "no")
    yield Trial(call.run(call.line(begin="ulimit -f 0; exec "), files), CANNOT_WRITE, files={})


def early(kit, call):
    """An output that can't be opened is refused before `safl` is asked for anything."""
    asked = {"bin/safl": ASKED}, {"SAFL": "@/bin/safl"}
    for target in call.names(">"):
        for bad in ("p.v/" + target, "/proc/" + target, "p.safl" if target == "d" else "nowhere/" + target):
            if bad not in call.names("<"):
                yield refusal(call.run(call.line(renamed({target: bad})), *asked), CANNOT_WRITE, f"cannot write {bad}")
        if target != "d":
            yield refusal(call.run(None, {**asked[0], target: None}, asked[1]), CANNOT_WRITE, f"cannot write {target}")


def pictures(kit, call):
    """The name of a picture says of which kind it is."""
    for target in call.names(">"):
        begin = BEGINNINGS.get(os.path.splitext(target)[1])
        if begin:
            wrong = call.line(renamed({target: "o.gif"}))
            yield refusal(call.run(wrong), WRONG_USE, "the picture o.gif does not end with .svg, .png or .pdf")
            yield Trial(call.run(f"{call.line(begin='')} >log; head -c {len(begin)} {target}"), 0, out=begin)


def appended(kit, call):
    """What stood in a file that standard output goes to stays there."""
    for target in call.names(">"):
        if target in ("o", "o.html", "w.v") and "--core" not in call.words and not call.is_long:
            others = [name for name in call.names(">") if name != target]
            line = call.line(renamed({target: "/dev/stdout"}), "") + " >>log && head -n 1 log && [ $(wc -l <log) -gt 1 ]"
            yield Trial(call.run(line, {"log": OLD}), 0, None, OLD.encode(), dict.fromkeys(["log", *others]))


def long(kit, call):
    """Inputs that are too long, or that do not end."""
    for source in () if call.is_long else filter(LIMITS.get, call.names("<")):
        most, other = LIMITS[source], f"long{os.path.splitext(source)[1]}"
        line = f"truncate -s {most + 1} {other}; {call.line(renamed({source: other}))}"
        yield Trial(call.run(line), TOO_LONG, f"{other} is longer than {most} bytes", b"", {other: None})
        run = call.run(call.line(renamed({source: "/dev/zero"})))
        yield Trial(run, TOO_LONG, r"/dev/zero is longer than \d+ bytes", b"", {})


def gone(kit, call):
    """Files and folders that are not there, also the one where a call is made, and the one for temporary files."""
    for source, bad in itertools.product(call.names("<"), ("nowhere", ".", "p.v/p.v")):
        yield refusal(call.run(call.line(renamed({source: bad}))), CANNOT_READ, f"cannot read {bad}")
    if call.tool != EXPLAINS:
        run = call.run(given={"TMPDIR": "@/nowhere"})
        yield Trial(run, CANNOT_WRITE, "cannot write .*/nowhere, the folder for temporary files", b"", {})
    begin = "mkdir gone; cd gone; rmdir ../gone; exec "
    yield Trial(call.run(call.line(begin=begin)), CANNOT_READ, "cannot read .*", b"")
    if not call.is_long:
        whole = call.line(lambda mark, name: f"{HERE}/{name}", begin)
        yield Trial(call.run(whole), kit.usual[call].status, files=dict.fromkeys(kit.files(call)))


def programs(call):
    """The programs that a call needs."""
    return ["safl"] * ("p.safl" in call.names("<")) + [name for name in call.needs if name not in LIBRARIES]


def instead(name, program):
    """The files and variables by which a call finds this program instead."""
    return {f"bin/{name}": program}, {"SAFL": "@/bin/safl"} if name == "safl" else {}


def missing(kit, call):
    """Programs and libraries that are not there, or can't be started."""
    for name in programs(call):
        run = call.run(None, *instead(name, NO_PROGRAM))
        yield Trial(run, NOT_THERE, f"cannot run {name}: No such file or directory", b"")
        others = {f"bin/{other}": Link(shutil.which(other)) for other in programs(call) if other not in (name, "safl")}
        line, given = rf"the program {name} is missing( \(Debian: apt install [\w-]+\))?", {"PATH": "@/bin"}
        if name == "safl":
            line, given = r"there is no program .*/nowhere \(name it with --safl PROGRAM\)", {"SAFL": "@/nowhere"}
        if name not in OPTIONAL:
            yield Trial(call.run(None, others, given), NOT_THERE, line, b"", {})
    for name in set(call.needs) & set(LIBRARIES):
        run = call.run(None, {f"lib/{name}.py": "raise ImportError\n"}, {"PYTHONPATH": "@/lib"})
        yield refusal(run, NOT_THERE, f"the Python library {name} is missing (Debian: apt install python3-{name})")


def killed(kit, call):
    """Programs that are ended by a signal, or that fail."""
    for name in programs(call):
        yield Trial(call.run(None, *instead(name, KILLED)), TOOL_FAILED, f"{name} was ended by signal 9")
        if name == "safl":
            yield Trial(call.run(None, *instead(name, KILLED_LATER)))
        elif name != "vvp":
            yield Trial(call.run(None, *instead(name, FAILS)), TOOL_FAILED, f"{name}(: no| ends with 1)")


def signals(kit, call):
    """Requests to end, while a program runs that does not end by itself. One that is ignored at first is no request."""
    for name in programs(call):
        for number in SIGNALS[:1] if call.is_long else SIGNALS:
            yield Trial(call.run(None, *instead(name, HANGS), number), INTERRUPTED, "interrupted")
        if not call.is_long:
            line = f'trap "" HUP; {call.line(begin="")} & until [ -e began ]; do sleep 0.05; done; kill -HUP $!; sleep 0.5; '
            line += r'[ -n "$(tr -d "\0" </proc/$!/cmdline)" ] || exit 99; kill -TERM $!; wait $!'
            yield Trial(call.run(line, *instead(name, HANGS)), INTERRUPTED, "interrupted")


def full(kit, call):
    """File systems that are full: for temporary files, and for outputs, which stay as they were."""
    if not kit.can_mount:
        kit.skip("full file systems")
        return
    begin = 'mkdir small; mount -t tmpfs -o size={} none small || exit 1; trap "umount -l small" EXIT; '
    fill, here = "cat /dev/zero >small/fill 2>&-; ", call.line(begin="TMPDIR=small ")
    if call.tool != EXPLAINS:
        yield Trial(call.run(begin.format("4k") + fill + here), CANNOT_WRITE)
        yield Trial(call.run(begin.format("12k") + here))
    for target in call.names(">"):
        before = OF_KNOWN.get(target, OLD).strip()
        first = f"echo '{before}' >small/{target}; " * (target != "d")
        end = f'; s=$?; [ "$(cat small/{target})" = "{before}" ] || s=99; exit $s' * (target != "d")
        line = begin.format("8k") + first + fill + call.line(renamed({target: f"small/{target}"}), "") + end
        yield Trial(call.run(line), CANNOT_WRITE, f"cannot write small/{target}.*")


def sooner(kit, call):
    """What was found before memory ran out is printed and written."""
    if "d" in call.names(">"):
        line = call.line(begin="").replace("--points=2", "--points=60") + "; s=$?; [ -s d/points.json ] || s=99; exit $s"
        run = call.run(line, {"bin/safl": RUNS_OUT}, {"SAFL": "@/bin/safl"})
        yield Trial(run, NO_MEMORY, ".*out of memory: what is above was found until then")


def refused(kit, call):
    """Refuses each system call of the small call of a program, one in each run; of those that load modules, some."""
    if call not in kit.small:
        return
    if not kit.shim:
        kit.skip("refused system calls: no C compiler")
        return
    kinds = kit.kinds(call)
    if not kinds:
        kit.skip(f"refused system calls of {call.tool}")
    for number in (number for number, kind in enumerate(kinds, 1) if kind == "c" or number % kit.step == 0):
        yield Trial(call.run(call.line(begin=kit.refusing(number))), refuses=call)


PARTS = {
    part.__name__: part
    for part in (
        closed, names, pipes, kept, links, old, early, pictures, appended, long, gone, missing, killed, signals, full, sooner, refused,
    )
}


def statuses(tool):
    """The statuses that the manual page has; for a program that passes on all of `safl`, those too."""
    section = text(f"man/{tool}.1").split(".SH EXIT STATUS\n")[1].split(".SH ")[0]
    found = re.findall(r"^\.B (\d+)$", section, re.M)
    return {*map(int, found), *(statuses("safl") if tool == EXPLAINS else ())}


def told_lines(trial, now):
    """The lines on standard error. Of those of safl-explain only the first counts: it is that of `safl`, and more may follow."""
    lines = now.err.decode(errors="replace").splitlines()
    return lines[:now.status != 0] if trial.run.tool == EXPLAINS else lines


def common_faults(kit, trial, now):
    """What no run may do."""
    tool, lines = trial.run.tool, told_lines(trial, now)
    wanted = 0 if trial.is_silent or now.status == 0 else 1
    is_named = tool == EXPLAINS or all(line.startswith(f"{tool}: ") for line in lines)
    odd = [name for name in now.changed if "/.safl-" in f"/{name}" or name in ("touched", *kit.inputs)]
    if len(lines) != wanted or not is_named or b"Traceback" in now.err:
        yield f"{now.err!r} on standard error with status {now.status}"
    if now.status not in kit.statuses[tool] | {trial.status}:
        yield f"status {now.status}"
    if now.temporary or now.living or odd:
        yield f"left: {now.temporary} {now.living} {odd}"


def faults_of(trial, now):
    """What a run does otherwise than wanted."""
    line = "\n".join(told_lines(trial, now)).removeprefix(f"{trial.run.tool}: ")
    if trial.status not in (None, now.status):
        yield f"status {now.status}, not {trial.status}"
    if trial.line is not None and not trial.is_silent and not re.fullmatch(trial.line, line):
        yield f"the line {line!r}, not {trial.line!r}"
    if trial.out not in (None, now.out):
        yield f"printed {now.out!r}, not {trial.out!r}"
    if trial.files is not None and not same_files(trial.files, now.changed):
        yield f"files {shortened(now.changed)}"


def shortened(changed):
    """The names of files, with how they begin."""
    return {name: content[:40] if isinstance(content, bytes) else content for name, content in changed.items()}


def same_files(wanted, changed):
    return wanted.keys() == changed.keys() and all(content in (None, changed[name]) for name, content in wanted.items())


def inputs(folder):
    """The files that the calls read."""
    source, built, dump = (f"{folder}/{name}" for name in ("p.safl", "p.v", "dump"))
    write(source, SOURCE)
    for words in (["build", source, built], ["sim", source, "--cycles", "9", "--vcd", dump, "5"]):
        if told([PROGRAM, *words]).returncode:
            sys.exit(f"tools_edges: {PROGRAM} does not {words[0]}")
    return {**INPUTS, "p.v": read(built), "dump": read(dump)}


def shim_in(folder):
    """The library that refuses a system call; nothing without a C compiler."""
    words = [os.environ.get("CC", "cc"), "-O1", "-shared", "-fPIC", "-o", f"{folder}/refuse.so", f"{TOP}/scripts/refuse_calls.c", "-ldl"]
    return words[-3] if shutil.which(words[0]) and not told(words).returncode else None


class Kit:
    """The inputs, the calls that can be made here, how they usually end, and what was found."""

    def __init__(self, folder, jobs, tool=None, step=1):
        self.pool, self.inputs, self.shim = concurrent.futures.ThreadPoolExecutor(jobs), inputs(folder), shim_in(folder)
        self.skipped, self.runs, self.faults, self.can_mount, self.step = [], 0, 0, can_mount(), step
        self.statuses = {call.tool: statuses(call.tool) for call in CALLS}
        calls = [call for call in CALLS if tool in (None, call.tool) and not self.lacks(call.needs)]
        self.calls = sorted(calls, key=lambda call: not call.is_long)  # what takes long begins first
        self.small = {call.tool: call for call in reversed(calls)}.values()
        self.usual = dict(zip(self.calls, self.pool.map(lambda call: ended(call.run(), self.inputs), self.calls)))
        for call, now in self.usual.items():
            self.judge("usual", Trial(call.run(), 0), now)

    def lacks(self, needed):
        """The programs and libraries of these that are missing."""
        missed = [name for name in needed if not (has_library(name) if name in LIBRARIES else shutil.which(name))]
        for name in missed:
            self.skip(name)
        return missed

    def skip(self, what):
        if what not in self.skipped:
            self.skipped.append(what)

    def files(self, call):
        """The files that a call writes. A PDF has a date."""
        return {name: None if name.endswith(".pdf") else content for name, content in self.usual[call].changed.items()}

    def refusing(self, number):
        """The words before those of a program of which a system call is refused, or with 0 all are counted."""
        return f"LD_PRELOAD={self.shim} REFUSE_CALL={number} REFUSE_REPORT={HERE}/refused exec "

    def kinds(self, call):
        """A letter for each system call of a call."""
        return ended(call.run(call.line(begin=self.refusing(0))), self.inputs).changed.get("refused", b"").decode()

    def try_parts(self, parts):
        """Makes the trials of these parts side by side, and says of each call how many there were."""
        trials = [(call, part, trial) for call in self.calls for part in parts for trial in PARTS[part](self, call)]
        found = zip(trials, self.pool.map(lambda each: ended(each[2].run, self.inputs), trials))
        for call, group in itertools.groupby(found, lambda each: each[0][0]):
            count = 0
            for count, ((_, part, trial), now) in enumerate(group, 1):
                self.judge(part, trial, now)
            print(f"tools_edges: {call.tool} {call.words}: {count} runs", flush=True)

    def judge(self, part, trial, now):
        """Says what is wrong with a run."""
        self.runs += 1
        name = now.changed.pop("refused", b"").decode()
        of_refused = refused_faults(self.usual[trial.refuses], now) if trial.refuses else ()
        wrong = [*common_faults(self, trial, now), *faults_of(trial, now), *of_refused]
        if wrong:
            self.faults += 1
            what = " ".join(filter(None, (part, name)))
            print(f"tools_edges: {what}: {trial.run.tool}: {trial.run.line!r}: {'; '.join(wrong)}", flush=True)


def a_part(word):
    """The name of a part."""
    if word not in PARTS:
        raise argparse.ArgumentTypeError(f"there is no part {word}")
    return word


def refused_faults(usual, now):
    """What a call with a refused system call may not do: end with a status that says something else, or leave a part of a file."""
    if now.status not in REFUSED:
        yield f"status {now.status}"
    if now.status == 0 and (now.out, now.changed) != (usual.out, usual.changed) and b"left out" not in now.out:
        yield f"another end: {now.out!r}, {shortened(now.changed)}"
    single = {name: content for name, content in now.changed.items() if not name.startswith("d/")}  # a folder may have fewer points
    if now.status and not single.items() <= usual.changed.items():
        yield f"half written: {shortened(now.changed)}"


def main():
    words = parser(__doc__)
    words.add_argument("--jobs", type=a_number, default=os.cpu_count(), help="how many runs at once (one for each processor)")
    words.add_argument("--tool", choices=sorted({call.tool for call in CALLS}), help="this program alone")
    words.add_argument("--modules", type=a_number, default=10, metavar="N", help="refuse each N-th call that loads a module (10)")
    words.add_argument("parts", metavar="PART", nargs="*", type=a_part, help=f"one of {', '.join(PARTS)}")
    chosen = words.parse_args()
    there, known = {os.path.basename(path) for path in glob.glob(f"{TOP}/tools/safl-*")}, {call.tool for call in CALLS}
    if there != known:
        sys.exit(f"tools_edges: only one of tools/ and the calls here has {', '.join(sorted(there ^ known))}")
    if lacks(PROGRAM):
        return 0
    begun = time.monotonic()
    for number in SIGNALS[:-1]:
        signal.signal(number, signal.default_int_handler)  # one that is ignored here would be ignored in all runs
    compileall.compile_dir(f"{TOP}/tools", quiet=2)  # so that no run does it, and each makes the same calls
    with tempfile.TemporaryDirectory() as folder:
        kit = Kit(folder, chosen.jobs, chosen.tool, max(1, chosen.modules))
        kit.try_parts(list(dict.fromkeys(chosen.parts)) or list(PARTS))
    skipped = "".join(f", SKIPPED {what}" for what in kit.skipped)
    used = os.times().children_user + os.times().children_system
    print(f"tools_edges: {kit.runs} runs, {kit.faults} faults, {time.monotonic() - begun:.0f} s, {used:.0f} s of processors{skipped}")
    return 1 if kit.faults else 0


if __name__ == "__main__":
    sys.exit(main())
