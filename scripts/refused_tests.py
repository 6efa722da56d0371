#!/usr/bin/env python3
"""Refuses each allocation in the tests of libraries in turn, until a test asks for no further one.

A test whose allocation is refused must pass or end by saying that memory ran out: another answer in place of that is wrong.
The last line says how many refusals were tried. It needs a C compiler. `rt test` builds the tests of a crate if they
aren't there.
"""
import os
import subprocess
import sys
import tempfile

from files import TOP
from given import parser
from program import made
from refuse import Refuser, refuse_all

NO_MEMORY = (b"out of memory", b"NoMemory", b"AllocError")


def program_of(crate):
    return made(f"{TOP}/crates/{crate}/out/{crate}_tests", crate, ["test"])


def tests_of(program):
    listed = subprocess.run([program, "--list"], capture_output=True, text=True, check=True).stdout
    return [line.removesuffix(": test") for line in listed.splitlines() if line.endswith(": test")]


def refuse_test(refuser, program, test):
    """How many refusals were tried, and how many ended wrongly."""

    def run(number):
        ran, is_refused = refuser.run([program, test], number)
        return (ran.returncode, ran.stdout + ran.stderr), is_refused

    def fault(number, came, is_refused):
        status, told = came
        if status == 0 or is_refused and any(word in told for word in NO_MEMORY):
            return False
        print(f"refused_tests: {test}, allocation {number}: status {status}, told {told!r}")
        return True

    if run(0)[0][0] != 0:
        print(f"refused_tests: {test} fails with memory enough")
        return 0, 1
    return refuse_all(run, fault)


def main():
    reader = parser(__doc__)
    reader.add_argument("crates", nargs="+", metavar="CRATE", choices=sorted(os.listdir(f"{TOP}/crates")))
    given = reader.parse_args()
    tried = wrong = 0
    with tempfile.TemporaryDirectory() as room:
        refuser = Refuser(room)
        for crate in given.crates:
            program = program_of(crate)
            for test in tests_of(program):
                found = refuse_test(refuser, program, test)
                tried, wrong = tried + found[0], wrong + found[1]
                print(f"refused_tests: {crate}, {test}: {found[0]}", flush=True)
    print(f"refused_tests: {tried} tried, {wrong} ended wrongly")
    sys.exit(1 if wrong else 0)


if __name__ == "__main__":
    main()
