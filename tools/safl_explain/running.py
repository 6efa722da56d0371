"""Runs without a result: whether a higher limit would do, and otherwise what the circuit still waits for."""
import os
import re
import subprocess

from safl_explain.checker import nodes
from safl_explain.report import Fault, Report, Spot, counted
from safl_explain.source import definitions
from safl_tools import temporary

NO_RESULT = 6
MORE, MOST, TRACED = 1000, 1_000_000, 5_000  # times the limit; the highest limit that is tried; the most cycles with a trace
PATIENCE = 10  # seconds


class Dump:
    """The values of a dump in its last cycle, in decimal, and the last cycle in which one has changed."""

    def __init__(self, path):
        names, codes, self.changed, now = {}, {}, 0, 0
        with open(path, encoding="utf-8") as file:
            for line in file:
                words = line.split()
                if words[0] == "$var":
                    codes[words[3]] = words[4]
                elif words[0][0] == "#":
                    now = int(words[0][1:])
                elif words[0][0] == "b":
                    names[words[1]], self.changed = int(words[0][1:], 2), now
                elif words[0][0] in "01":
                    names[words[0][1:]], self.changed = int(words[0][0]), now
        self.values = {codes[code]: value for code, value in names.items()}
        self.cycles = now

    def is_one(self, name):
        return self.values.get(name) == 1


def told(safl, *words):
    """What a command prints, or nothing if it takes too long."""
    try:
        done = subprocess.run([safl, *map(str, words)], stdin=subprocess.DEVNULL, capture_output=True, text=True, timeout=PATIENCE, check=False)
    except subprocess.TimeoutExpired:
        return None
    return done


def with_more(safl, command, limit, arguments):
    """A hint if the run has a result with a higher limit."""
    most = min(max(limit * MORE, 10_000), MOST)
    if most <= limit:
        return []
    done = told(safl, *command, most, *arguments)
    found = done and re.match(r"result \d+\ncycle (\d+)\n", done.stdout)
    if found:
        return [f"the result comes in cycle {int(found[1]):,}: give a limit of {int(found[1]) + 1} or more"]
    return [f"with a limit of {most:,} there is no result either"] if done else []


class Sites:
    """The call sites of a source by number, and the functions by name."""

    def __init__(self, text):
        self.functions = {each.name: each for each in definitions(text)}
        self.calls = {}
        for own in self.functions.values():
            group = {each.name for each in self.functions.values() if each.group == own.group}
            for node in nodes(own.body):
                if node.kind == "call" and node.text not in group:
                    self.calls[len(self.calls) + 1] = (node, own)

    def unit(self, name):
        """The name of a function's unit: that of the first member of its group."""
        group = self.functions[name].group
        return next(each.name for each in self.functions.values() if each.group == group)


def waiting(sites, dump):
    """The call sites that wait, from main on: numbers of calls that are wanted or sent and have not returned, and the unit at the end."""
    found, unit = [], sites.unit("main")
    while True:
        own = [number for number, (_, caller) in sites.calls.items() if sites.unit(caller.name) == unit]
        pending = [number for number in own if dump.is_one(f"want${number}") or dump.is_one(f"sent${number}") and not dump.is_one(f"got${number}")]
        pending = [number for number in pending if number not in found]
        if not pending:
            return found, unit
        found.append(pending[0])
        unit = sites.unit(sites.calls[pending[0]][0].text)


def arguments_of(function, dump):
    """The parameters of a function with their values."""
    values = [(each.name, dump.values.get(f"arg${function.name}${each.name}")) for each in function.parameters]
    return ", ".join(f"{name} is {value}" for name, value in values if value is not None)


def stuck(text, dump):
    """What is told about the last cycle of a run."""
    sites = Sites(text)
    chain, unit = waiting(sites, dump)
    members = [each for each in sites.functions.values() if sites.unit(each.name) == unit]
    own = next((each for each in members if dump.is_one(f"at${each.name}")), members[0])
    last = dump.cycles - 1
    values = arguments_of(own, dump)
    label = f"`{own.name}` still runs in cycle {last:,}" + (f": {values}" if values else "")
    others = []
    for number in chain:
        node, caller = sites.calls[number]
        what = "is wanted, but not accepted yet" if dump.is_one(f"want${number}") else "has not returned"
        others.append(Spot(node.place, node.place + len(node.text), f"site {number}: this call in `{caller.name}` {what}"))
    return Report(spot=Spot(own.place, own.end, label), others=others, hints=progress(dump))


def progress(dump):
    if dump.changed < dump.cycles - 1:
        return [f"nothing has changed since cycle {dump.changed:,}, so this run never ends"]
    return ["look for a tail call whose arguments do not come closer to the end of the loop"]


def of_source(safl, path, data, limit, arguments):
    """What is told about a run of a source that has no result."""
    more = with_more(safl, ("sim", path, "--cycles"), limit, ("--", *arguments))
    if more and "comes in cycle" in more[0]:
        return Report(hints=more)
    with temporary.folder() as folder:
        trace = os.path.join(folder, "vcd")
        done = told(safl, "sim", path, "--cycles", min(limit, TRACED), "--vcd", trace, "--", *arguments)
        if not done or done.returncode != NO_RESULT:
            return Report(hints=more)
        try:
            report = stuck(data.decode("latin-1"), Dump(trace))
        except (Fault, KeyError, ValueError):
            return Report(hints=more)
    report.hints += more
    return report


def of_script(safl, path, script, data, limit, lines):
    """What is told about a session, by its first call without a result."""
    done = told(safl, "session", path, script, "--cycles", limit)
    if not done or done.returncode != NO_RESULT:
        return 0, Report()
    number = done.stdout.count("\n")
    report = of_source(safl, path, data, limit, lines[number - 1].split())
    report.hints.insert(0, f"call {number}, with {' '.join(lines[number - 1].split()) or 'no arguments'}, is the first without a result; "
                           f"{counted(number - 1, 'call')} before it had one")
    return number, report
