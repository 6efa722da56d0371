"""Steps that are chains of `safl reshape`: what is proved of one holds for the chain."""
import os

from safl_explore import tree
from safl_tools import files, temporary
from safl_tools.ending import Refusal

CANNOT_BE_RESHAPED = 13


class Reshaping:
    """Takes steps from a source, and remembers them."""

    def __init__(self, safl, text):
        self.safl, self.text, self.chain = safl, text, ()

    def step(self, kind, site):
        """Takes a step; whether it could be taken."""
        with temporary.folder() as folder:
            path = os.path.join(folder, "point.safl")
            files.write(path, self.text)
            told = self.safl.told("reshape", path, path, f"--{kind}", site)
            if told.status == CANNOT_BE_RESHAPED:
                return False
            if told.status:
                raise Refusal(told.status, told.err.strip())
            self.text, self.chain = files.read(path), (*self.chain, (kind, site))
            return True

    def unfold(self, names):
        """Writes all calls of these functions out."""
        while True:
            site = next((number for number, (callee, _) in enumerate(tree.read(self.text).sites, 1) if callee in names), None)
            if site is None:
                return bool(self.chain)
            if not self.step("unfold", site):
                return False

    def copy(self, name):
        """Gives each site of a function, but the first, a copy of it."""
        while True:
            program = tree.read(self.text)
            sites = [number for number, (callee, caller) in enumerate(program.sites, 1) if callee == name and caller in program.reached]
            if len(sites) < 2:
                return bool(self.chain)
            if not self.step("copy", sites[-1]):
                return False


def everywhere(program):
    """The functions that can be written out everywhere: no loops, and called."""
    called = {callee for callee, caller in program.sites if caller in program.reached}
    return [function.name for function in program.functions if function.name in called and function.name not in program.loops]


def subsets(names, most):
    """Sets of functions to write out: all of them if there are few; or else one, all, all but one, and two, at most so many."""
    if 2 ** len(names) - 1 <= most:
        found = [[name for place, name in enumerate(names) if bits >> place & 1] for bits in range(1, 2 ** len(names))]
        return sorted(found, key=len)
    ones = [[name] for name in names]
    pairs = [[names[i], other] for i in range(len(names)) for other in names[i + 1:]]
    return [*ones, names, *([other for other in names if other != name] for name in names), *pairs][:most]


def reshape_steps(program, copies):
    """The steps that may change the circuit: what they are called, the method of Reshaping, and its arguments."""
    alive = [(number, callee, caller) for number, (callee, caller) in enumerate(program.sites, 1) if caller in program.reached]
    called = [callee for _, callee, _ in alive]
    for name in everywhere(program):
        yield f"unfold {name}", "unfold", ({name},)
    for number, callee, caller in alive:
        if callee not in program.loops and called.count(callee) > 1:
            yield f"unfold {callee} in {caller}", "step", ("unfold", number)
    if not copies:
        return
    for name in dict.fromkeys(called):
        if called.count(name) > 2:
            yield f"copy {name}", "copy", (name,)
    for number, callee, caller in alive:
        if called.count(callee) > 1:
            yield f"copy {callee} in {caller}", "step", ("copy", number)
