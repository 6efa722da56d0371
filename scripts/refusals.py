#!/usr/bin/env python3
"""Refuses each allocation of the program in turn, in each command on three sources, until a run asks for no further one.

Each run must end with its usual status or with 5 (or 20, if the words can't be had), what it prints and writes must be a
prefix of the usual text, and a run with the usual status must be the usual one. The last line says how many refusals were tried.
It needs a C compiler. The program is built if it isn't there; SAFL names another one.
"""
import os
import sys
import tempfile

from files import written
from given import parser
from program import built, ended
from refuse import Refuser, refuse_all

SOURCES = {
    "two sites of one unit": (["5"], "fun f(x:8):8 = x + 1\nfun main(a:8):8 = f(a) + f(a + 1)\n"),
    "two callers of one unit": (
        ["5"],
        "fun f(x:8):8 = x + 1\nfun g(x:8):8 = f(x)\nfun h(x:8):8 = f(x + 1)\nfun main(a:8):8 = g(a) + h(a)\n",
    ),
    "two functions with a let": (
        ["1", "1"],
        "fun f0(x:16, y:16):16 = let p = x ^ y, q = x & 15 in p + q\nfun main(a:16, b:16):16 = f0(a, b)\n",
    ),
}
COMMANDS = {
    "check": ["check", "p"],
    "build": ["build", "p", "v"],
    "build --opt": ["build", "p", "v", "--opt"],
    "report": ["report", "p"],
    "reshape --copy": ["reshape", "p", "v", "--copy", "1"],
    "reshape --unfold": ["reshape", "p", "v", "--unfold", "1"],
    "sim": ["sim", "p", "--cycles", "100"],
    "sim with traces": ["sim", "p", "--cycles", "100", "--vcd", "t", "--starts", "s", "--toggles", "g"],
    "walk": ["walk", "p", "--order", "1", "--steps", "100"],
    "run": ["run", "built", "--cycles", "100"],
    "session": ["session", "p", "script", "--cycles", "100"],
    "aig": ["aig", "built", "v"],
    "aigstat": ["aigstat", "bits"],
}
MAKERS = {
    "gen": ["gen", "1", "3"],
    "bench": ["bench", "1", "3", "--cycles", "100"],
}
WITH_ARGUMENTS = ("sim", "sim with traces", "walk", "run")
OUTPUTS = ("v", "t", "s", "g")
NO_MEMORY, NO_WORDS = 5, 20


def begins(text, usual):
    """Whether a file is missing, or has a prefix of its usual text."""
    return text is None or usual is not None and usual.startswith(text)


def is_right(now, usual):
    """Whether a run with a refused allocation ended as it may."""
    status, out, err, files = now
    if status == usual[0]:
        return now == usual
    are_prefixes = usual[1].startswith(out) and all(map(begins, files, usual[3]))
    return status in (NO_MEMORY, NO_WORDS) and are_prefixes and b"out of memory\n".startswith(err)


def bytes_of(path):
    """What is in a file, or None if there is none."""
    if not os.path.exists(path):
        return None
    with open(path, "rb") as file:
        return file.read()


class Command:
    """A command of the program in a folder, by words that name it in what is printed."""

    def __init__(self, refuser, title, words):
        self.refuser, self.title, self.words = refuser, title, words
        self.usual, _ = self.run(0)

    def run(self, number):
        """The status, what is printed, told and written, and whether the allocation of this number was asked for."""
        outputs = [os.path.join(self.refuser.room, name) for name in OUTPUTS]
        for path in filter(os.path.exists, outputs):
            os.remove(path)
        ran, is_refused = self.refuser.run(self.words, number)
        return (ran.returncode, ran.stdout, ran.stderr, [bytes_of(path) for path in outputs]), is_refused

    def fault(self, number, now, is_refused):
        """Whether a run ended wrongly; a line says so."""
        if is_right(now, self.usual) if is_refused else now == self.usual:
            return False
        print(f"refusals: {self.title}, allocation {number}: status {now[0]}, printed {now[1]!r}, told {now[2]!r}")
        return True

    def refuse_all(self):
        return refuse_all(self.run, self.fault)


def refuse_commands(refuser, program, title, commands, args):
    """How many refusals were tried in these commands, and how many ended wrongly; a line says how many were tried in each."""
    counts, wrong = {}, 0
    for name, words in commands.items():
        given = args if name in WITH_ARGUMENTS else []
        counts[name], more = Command(refuser, f"{name}, {title}", [program, *words, *given]).refuse_all()
        wrong += more
    print(f"refusals: {title}: {', '.join(f'{name} {count}' for name, count in counts.items())}", flush=True)
    return sum(counts.values()), wrong


def main():
    parser(__doc__).parse_args()
    program = built()
    with tempfile.TemporaryDirectory() as room:
        refuser = Refuser(room)
        found = [refuse_commands(refuser, program, "three functions from a number", MAKERS, [])]
        for title, (args, source) in SOURCES.items():
            path = written(room, "p", source)
            written(room, "script", f"{' '.join(args)}\n" * 2)
            ended([program, "build", path, f"{room}/built"], (0,))
            ended([program, "aig", f"{room}/built", f"{room}/bits"], (0,))
            found.append(refuse_commands(refuser, program, title, COMMANDS, args))
    tried, wrong = (sum(column) for column in zip(*found))
    print(f"refusals: {tried} tried, {wrong} ended wrongly")
    sys.exit(1 if wrong else 0)


if __name__ == "__main__":
    main()
