"""The longest path of a placed design between two registers, in words for the names of the source."""
import json
import re

REGISTER = re.compile(r"^(arg|res|keep|sent|got|run|fin|at)\$(\w+)(?:\$(\w+))?$")
WORDS = {
    "arg": "the argument {1} of {0}", "res": "the result of {0}", "keep": "the value that is kept for site {0}",
    "sent": "the control of site {0}", "got": "the control of site {0}",
    "run": "the control of {0}", "fin": "the control of {0}", "at": "the control of {0}",
}
OF_HARNESS = {"held": "an input", "serial": "an input", "some": "an output"}  # registers around the module that is measured
PACKED = ("_DFFLC", "_LC")  # what nextpnr puts behind the name of a cell


def plain(name):
    """The name of a net without the bit, and without the names of the modules that it is in."""
    return re.sub(r"\[\d+\]$", "", name).split(".")[-1]


def register_words(name):
    """What a register is in the source; nothing for a name that is no register's."""
    found = REGISTER.match(plain(name))
    if found:
        return WORDS[found[1]].format(found[2], found[3])
    return next((words for begin, words in OF_HARNESS.items() if re.match(rf"{begin}\d*$", plain(name))), None)


class Netlist:
    """The cells and nets of the design that was placed."""

    def __init__(self, module):
        self.cells, self.names = module["cells"], {}
        for name, net in module["netnames"].items():
            for place, bit in enumerate(net["bits"]):
                self.names.setdefault(bit, []).append(f"{name}[{place}]")

    def register(self, cell):
        """The words for the register that nextpnr has in a cell."""
        for behind in PACKED:
            cell = cell.removesuffix(behind)
        found = self.cells.get(cell)
        if not found:
            return None
        ends = found["connections"]
        outputs = ends.get("Q", [])
        if not outputs:  # a LUT, whose output goes to the register in the same cell
            fed = ends.get("O") or ends.get("Z") or [None]
            flops = [other["connections"] for other in self.cells.values() if "Q" in other["connections"]]
            outputs = [flop["Q"][0] for flop in flops if (flop.get("D") or flop.get("DI")) == fed]
        names = [name for bit in outputs for name in self.names.get(bit, [])]
        return next(filter(None, map(register_words, names)), None)


def longest(report, module):
    """The words for the longest path between two registers in nextpnr's report on this module, and its nanoseconds."""
    paths = [path["path"] for path in report.get("critical_paths", []) if "<async>" not in (path["from"], path["to"])]
    if not paths:
        return None
    path = max(paths, key=lambda steps: sum(step["delay"] for step in steps))
    netlist, nets = Netlist(module), [step["net"] for step in path if step.get("net")]
    begin = next(filter(None, map(register_words, nets[:1])), None) or netlist.register(path[0]["to"]["cell"])
    end = netlist.register(path[-1]["to"]["cell"])
    arbiters = [found[1] for found in (re.match(r"arb\$(\d+)", plain(net)) for net in nets) if found]
    through = [f"through the arbiter of site {site}" for site in dict.fromkeys(arbiters)]
    ways = [f"from {begin or 'a register'}", *through, f"to {end or 'a register'}"]
    return f"{sum(step['delay'] for step in path):.2f} ns {' '.join(ways)}"


def read(report, design, top):
    """The same for the files of the report and of the design."""
    with open(report, encoding="utf-8") as file:
        told = json.load(file)
    with open(design, encoding="utf-8") as file:
        return longest(told, json.load(file)["modules"][top])
