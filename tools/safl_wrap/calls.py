"""The calls of a script, and what `safl session` replies to them."""
import os

from safl_tools import temporary
from safl_tools.ending import WRONG_USE, Refusal
from safl_wrap.module import module, shown

NO_RESULT, NO_CALL = 6, 8  # statuses of `safl`


class Calls:
    """For each call of a script its arguments, its result, and the cycle of the result."""

    def __init__(self, safl, source, script, cycles):
        self.script = shown(script.name)
        pairs = [tuple(map(int, reply.split())) for reply in replies(safl, source, script, cycles)]
        lines = script.text.split("\n")[:len(pairs)]
        self.arguments = [[int(word) for word in line.split(" ") if word] for line in lines]
        self.results, self.cycles = [result for result, _ in pairs], [cycle for _, cycle in pairs]
        if not pairs:
            raise Refusal(WRONG_USE, f"{script} has no call")


def replies(safl, source, script, cycles):
    """The lines of a session but for the last one, which has the number of calls."""
    told = safl.told("session", source, script, "--cycles", cycles)
    lines = told.out.splitlines()
    if told.status == NO_RESULT:
        raise Refusal(NO_RESULT, f"{script}: line {len(lines)}: {lines[-1]}")
    if told.status:
        line = told.err.strip() or f"safl session ends with {told.status}"
        raise Refusal(told.status, f"{script}: {line}" if told.status == NO_CALL else line)
    return lines[:-1]


def same_ports(safl, source, built):
    """Refuses a module that is not built from this source, as far as its ports show it."""
    with temporary.folder() as folder:
        path = os.path.join(folder, "built.v")
        safl.text("build", source, path)
        other = module(path)
    if (other.inputs, other.result) != (built.inputs, built.result):
        raise Refusal(WRONG_USE, f"{built.file} was not built from {source}: the ports differ")
