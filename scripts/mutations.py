#!/usr/bin/env python3
"""Tries the mutations that the gate leaves out, or checks in seconds that all mutations still apply.

mutations.py CRATE [WORD]        tries all mutations of a crate; with a WORD, of those outside the gate only the ones whose name has it
mutations.py --all [--lanes N] [--proved]
                                 tries all mutations of all crates, lowest first, up to ten in one check of a crate, and counts
                                 those of each crate; it works at N crates at a time (as many as there are processors). With
                                 --proved no crate is checked as it stands first: the gate has just passed on these files
mutations.py --check             proves nothing: does each old text stand exactly once in its file?

mutation_files.py says where mutations stand, mutation_checks.py how several are tried in one check. With a CRATE each is tried
alone, by `rt must-fail`; while that runs, those of more.md lie beside the others as *.edit.
"""
import contextlib
import subprocess
import sys

import files
from given import a_number, parser
from mutation_checks import processors, try_all
from mutation_files import TOP, crates, faults_of, left_out, mutations_of


def check():
    """Prints each mutation that does not apply, or how many do."""
    gate = more = 0
    faults = []
    for crate in crates():
        found, tried, left = faults_of(crate)
        faults += found
        gate, more = gate + tried, more + left
    for fault in faults:
        print(fault)
    if not faults:
        print(f"mutations: {gate} in the gate and {more} beside it apply, each old text once")
    return 1 if faults else 0


@contextlib.contextmanager
def laid_out(crate, word=""):
    """While this lasts, the mutations that the gate leaves out lie beside those that it tries."""
    made = []
    try:
        for mutation in left_out(crate):
            path = crate / "must-fail" / f"{mutation.name}.edit"
            if word in mutation.name and not path.exists():
                made.append(path)
                files.write(path, mutation.text)
        yield
    finally:
        for path in made:
            path.unlink()


def try_crate(name, word):
    """Tries the mutations of a crate, and lets rt tell of each."""
    crate = TOP / "crates" / name
    if crate not in crates():
        sys.exit(f"mutations.py: no crate of this name has mutations: {name}")
    if word and not any(word in mutation.name for mutation in mutations_of(crate)):
        sys.exit(f"mutations.py: no mutation of {name} has this word in its name: {word}")
    with laid_out(crate, word):
        return subprocess.run(["rt", "must-fail", name], cwd=TOP, check=False).returncode


def main():
    reader = parser(__doc__)
    reader.add_argument("crate", nargs="?", metavar="CRATE")
    reader.add_argument("word", nargs="?", metavar="WORD", default="")
    reader.add_argument("--all", action="store_true")
    reader.add_argument("--lanes", type=a_number, metavar="N", default=processors())
    reader.add_argument("--proved", action="store_true")
    reader.add_argument("--check", action="store_true")
    given = reader.parse_args()
    if [given.crate is not None, given.all, given.check].count(True) != 1:
        reader.error("give a CRATE, --all or --check")
    if given.check:
        sys.exit(check())
    sys.exit(try_all(max(given.lanes, 1), given.proved) if given.all else try_crate(given.crate, given.word))


if __name__ == "__main__":
    main()
