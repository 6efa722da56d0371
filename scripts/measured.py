"""Figures of the gallery that other tools make: LUTs, flip-flops and the clock, by tools/safl-place.

They stand in examples/measured.json, so that the pages can be written and checked without the tools. Each has the digest of the
text that was measured, so a figure of another text is seen, and that of the file that was built of it, so that one of another program
is seen too.
"""
import hashlib
import json
import os
import re
import subprocess
import sys
import tempfile
from dataclasses import asdict, dataclass, replace

import yosys
from files import TOP, read, write, written
from program import told
from safl_bench import bench

STORE = f"{TOP}/examples/measured.json"
PLACE = os.environ.get("SAFL_PLACE", f"{TOP}/tools/safl-place")
DEVICE, DEVICE_NAME, SEED = "hx8k", "iCE40 HX8K", 1
DSP_DEVICE, DSP_DEVICE_NAME, DSP_BLOCKS = "up5k", "iCE40 UP5K", 8
TOOL_FAILED = 31
BY_HAND, NONE = "by hand", "none"


@dataclass(frozen=True)
class Figures:
    """Cells of the module, and the clock in MHz, if it was measured and the design fits the device."""

    digest: str
    luts: int
    flip_flops: int
    mhz: float = None
    fits: bool = None
    cycle: int = None  # that of done in the page's longest run, where no other program can tell it
    built: str = None  # the digest of the built file
    dsp: dict = None  # LUTs, flip-flops and DSP blocks on a device that has them, where the circuit multiplies by any, or why Yosys counts none


def digest_of(text):
    return hashlib.sha256(text.encode()).hexdigest()[:12]


def versions():
    """The versions of the tools."""
    yosys = told(["yosys", "-V"]).stdout.split()[1]
    nextpnr = told(["nextpnr-ice40", "--version"])
    return {"Yosys": yosys, "nextpnr-ice40": re.search(r"Version ([^)\s]+)", nextpnr.stdout + nextpnr.stderr)[1]}


class Store:
    """The figures by circuit and version."""

    def __init__(self):
        self.content = json.loads(read(STORE)) if os.path.exists(STORE) else {"tools": {"Yosys": "", "nextpnr-ice40": ""}, "circuits": {}}

    @property
    def tools(self):
        return self.content["tools"]

    def figures(self, circuit, version, text):
        """The figures of a version, or nothing if they are missing or are those of another text."""
        found = self.content["circuits"].get(circuit, {}).get(version)
        return Figures(**found) if found and found["digest"] == digest_of(text) else None

    def by_hand(self, example):
        return self.figures(example.name, BY_HAND, read(example.by_hand()))

    def put(self, circuit, version, figures):
        given = {name: value for name, value in asdict(figures).items() if value is not None}
        self.content["circuits"].setdefault(circuit, {})[version] = given
        self.content["tools"] = versions()
        self.save()

    def keep(self, wanted):
        """Forgets the versions that no page has any more."""
        kept = {circuit: {version: each[version] for version in each if (circuit, version) in wanted}
                for circuit, each in self.content["circuits"].items()}
        self.content["circuits"] = {circuit: each for circuit, each in kept.items() if each}
        self.save()

    def save(self):
        write(STORE, json.dumps(self.content, indent=1, sort_keys=True) + "\n")


def placed(path, digest, has_clock):
    """What safl-place finds of a file: the cells, and the clock if it is asked for."""
    words = [sys.executable, PLACE, path, "--device", DEVICE]
    found = told(words + (["--seed", str(SEED)] if has_clock else ["--counts"]))
    if has_clock and found.returncode == TOOL_FAILED:
        return replace(placed(path, digest, False), fits=False)
    if found.returncode:
        sys.exit(f"examples: {found.stderr.strip()}")
    value = dict(re.findall(r"^([\w-]+) ([\d.]+)$", found.stdout, re.M))
    figures = Figures(digest, int(value["luts"]), int(value["flip-flops"]))
    return replace(figures, mhz=round(float(value["mhz"]), 1), fits=True) if has_clock else figures


def built(program, source, room):
    """The file that the program builds of a source."""
    path = f"{room}/built.v"
    ended = told([program, "build", written(room, "source.safl", source), path, "--opt"])
    if ended.returncode:
        sys.exit(f"examples: {ended.stderr.strip()}")
    return path


def is_built_so(figures, program, source):
    """Whether the figures are those of the file that this program builds of the source."""
    with tempfile.TemporaryDirectory() as room:
        return figures.built == digest_of(read(built(program, source, room)))


def placed_source(program, source, has_clock):
    """That of the file that the program builds of a source."""
    with tempfile.TemporaryDirectory() as room:
        path = built(program, source, room)
        dsp = with_dsp(path) if "*" in source else None
        return replace(placed(path, digest_of(source), has_clock), built=digest_of(read(path)), dsp=dsp)


def with_dsp(path):
    """The cells on a device with DSP blocks, if the circuit takes any of them, or why Yosys counts none."""
    found = told([sys.executable, PLACE, path, "--device", DSP_DEVICE, "--dsp", "--counts"])
    if found.returncode == TOOL_FAILED:
        return {NONE: yosys.reason(found.stderr)}
    if found.returncode:
        sys.exit(f"examples: {found.stderr.strip()}")
    value = dict(re.findall(r"^(luts|flip-flops|dsp blocks) (\d+)$", found.stdout, re.M))
    return {name: int(each) for name, each in value.items()} if "dsp blocks" in value else None


def placed_by_hand(path, args, limit, has_clock):
    """That of a file that was written by hand, with its cycle of done by Icarus Verilog."""
    with tempfile.TemporaryDirectory() as room:
        test = written(room, "bench.v", bench(read(path), limit, args))
        subprocess.run(["iverilog", "-o", f"{room}/simulated", test, path], check=True)
        cycle = re.search(r"^cycle (\d+)$", told(["vvp", "-n", f"{room}/simulated"]).stdout, re.M)
    return replace(placed(path, digest_of(read(path)), has_clock), cycle=int(cycle[1]))
