"""What Yosys and ABC make of Verilog files and bit-level circuits. No library of a technology is used."""
import re
import shutil
import subprocess
import tempfile

from files import read

STEPS = (
    "read_verilog {file}; synth -flatten -top safl; tee -q -o {room}/gates stat; tee -q -o {room}/path ltp -noff;"
    " abc -g AND; opt_clean; tee -q -o {room}/ands stat; tee -q -o {room}/and_path ltp -noff"
)


def lacks(*tools):
    """The first of the tools that is missing, or nothing."""
    return next((tool for tool in tools if not shutil.which(tool)), None)


def version():
    return subprocess.run(["yosys", "-V"], capture_output=True, text=True, check=True).stdout.split()[1]


def reason(line):
    """Why Yosys comes to no end, in words, by the line that it prints."""
    found = re.search(r"Assert .* failed in \S*/(\w+)_pm\.h", line)
    return f"Yosys ends at an assertion of `{found[1]}`" if found else "Yosys ends with an error"


def run(script):
    """Whether Yosys comes to the end of a script."""
    return subprocess.run(["yosys", "-q", "-p", script], capture_output=True, check=False).returncode == 0


def abc(script, seconds=None):
    """What ABC prints, without its colours. It has so many seconds."""
    ran = subprocess.run(["berkeley-abc", "-c", script], capture_output=True, text=True, check=False, timeout=seconds)
    return re.sub(r"\x1b\[[\d;]*m", "", ran.stdout)


def counts(stat):
    """How many cells of each kind there are, by what `stat` prints."""
    return {kind: int(count) for kind, count in re.findall(r"^\s+\$_(\w+)_\s+(\d+)$", stat, re.M)}


def path_length(text):
    return int(re.search(r"\(length=(-?\d+)\)", text)[1])


class Synthesis:
    """What Yosys makes of a file. Gates have at most two inputs, multiplexers three; multiplexers (choices) and XORs are among the
    gates. Then the same is mapped to ANDs of two inputs and to inverters alone, for a measure that depends less on what gates
    there are. A path is as long as the gates on it, or as the ANDs and inverters.
    """

    def __init__(self, gates, path, ands, and_path):
        kinds = counts(gates)
        self.flops = sum(count for kind, count in kinds.items() if "DFF" in kind)
        self.gates = sum(kinds.values()) - self.flops
        self.choices, self.xors = kinds.get("MUX", 0), kinds.get("XOR", 0) + kinds.get("XNOR", 0)
        self.ands = counts(ands).get("AND", 0)
        self.path, self.and_path = path_length(path), path_length(and_path)
        self.ends = [name.replace("\\", "") for name in re.findall(r"^ +(?:\d+|ff): (\S+)", path, re.M)]


def synthesised(file):
    """What Yosys makes of a file, or nothing if it refuses it."""
    with tempfile.TemporaryDirectory() as room:
        if run(STEPS.format(file=file, room=room)):
            return Synthesis(*(read(f"{room}/{name}") for name in ("gates", "path", "ands", "and_path")))
    return None
