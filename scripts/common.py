#!/usr/bin/env python3
"""Writes proofs/Common.antt of crates: it passes on the names that several proof files of a crate cite from elsewhere, so that a
file takes them by one import.

    scripts/common.py CRATE..      # writes these anew, and the imports of the crates' proof files with them
    scripts/common.py --check      # ends with 1 if a Common.antt passes on what no file takes, or is not as it should be

A file takes the names of a module from Common if it has fewer lines that way, and if Common passes on all that the file cites
of that module. A name is passed on if at least two files take it. These are not: lemmas of the crate itself, names that a
file of the crate unfolds (antt looks for them in the module of their definition), and names that the crate's proofs cite from
two modules. A crate in which fewer than WORTH lines would go has no Common.antt. A second run changes nothing."""
import collections
import pathlib
import re
import sys

import files
from dead import crates_of
from given import parser

WIDTH, WORTH = 140, 10
ABOUT = "-- What several proofs of this crate cite from elsewhere.\n"
USE = re.compile(r"use (?P<module>\S+)\.\{(?P<names>[^{}]*)\}")
PASSED = re.compile(r"^pub (use .*)$", re.M)
UNFOLDED = re.compile(r"^ *unfolding (.*)$", re.M)


def imports(text):
    """The imports of a text by names, as (line, module, names). One that gives a name another one is left out."""
    for line in text.split("\n"):
        if match := USE.fullmatch(line):
            names = match["names"].split(", ")
            if not any(" as " in name for name in names):
                yield line, match["module"], names


def lines_of(lead, names):
    """The lines `lead.{names}`, none of them wider than WIDTH if it has several names."""
    lines, row = [], []
    for name in sorted(names):
        if row and len(f"{lead}.{{{', '.join([*row, name])}}}") > WIDTH:
            lines.append(row)
            row = []
        row.append(name)
    return [f"{lead}.{{{', '.join(row)}}}" for row in lines + [row] if row]


class Crate:
    """The proofs of a crate: its files as if there were no Common, and what Common is to pass on."""

    def __init__(self, folder):
        self.name, self.proofs = folder.name, folder / "proofs"
        self.common = f"Rattle.{self.name}.proofs.Common"
        self.place = self.proofs / "Common.antt"
        self.origin = {}
        self.now = self.place.read_text() if self.place.exists() else ""
        for _, module, names in imports("\n".join(PASSED.findall(self.now))):
            self.origin.update((name, module) for name in names)
        self.texts = {path: path.read_text() for path in sorted(self.proofs.rglob("*.antt"))
                      if path != self.place and path.name != "Lib.antt"}
        self.cited = {path: self.cited_in(text) for path, text in self.texts.items()}
        self.unfolded = {name for text in self.texts.values() for words in UNFOLDED.findall(text) for name in words.split()}

    def taken_in(self, text):
        """The names that a file takes from Common."""
        return [name for _, module, names in imports(text) if module == self.common for name in names]

    def cited_in(self, text):
        """The names that a file cites, by the modules that define them."""
        cited = collections.defaultdict(set)
        for _, module, names in imports(text):
            for name in names:
                cited[self.origin[name] if module == self.common else module].add(name)
        return cited

    def may_pass(self):
        """The names that Common may pass on."""
        modules = collections.defaultdict(set)
        for cited in self.cited.values():
            for module, names in cited.items():
                for name in names:
                    modules[name].add(module)
        own = f"Rattle.{self.name}.proofs."
        return {name for name, those in modules.items()
                if len(those) == 1 and name not in self.unfolded and not min(those).startswith(own)}

    def choice(self, passed):
        """For each file the modules of which it takes all from Common: those with which it has the fewest lines."""
        taken = {}
        for path, cited in self.cited.items():
            whole = sorted((module for module, names in cited.items() if names <= passed),
                           key=lambda module: (len(", ".join(cited[module])), module))
            sizes = [len(lines_of(f"use {self.common}", self.names(path, whole[:count]))) - count for count in range(len(whole) + 1)]
            taken[path] = whole[:sizes.index(min(sizes))]
        return taken

    def names(self, path, modules):
        """The names that a file cites of these modules."""
        return {name for module in modules for name in self.cited[path][module]}

    def settle(self):
        """The modules that each file takes from Common, and how many files take each name: at least two."""
        passed = self.may_pass()
        while True:
            taken = self.choice(passed)
            takers = collections.Counter(name for path, modules in taken.items() for name in self.names(path, modules))
            left = {name for name in passed if takers[name] > 1}
            if left == passed:
                return taken, takers
            passed = left

    def common_text(self, takers):
        """The text of Common."""
        by_module = collections.defaultdict(set)
        for cited in self.cited.values():
            for module, names in cited.items():
                by_module[module] |= {name for name in names if takers[name]}
        rows = [line for module in sorted(by_module, key=lambda module: (not module.startswith("Rattle.std."), module))
                for line in lines_of(f"pub use {module}", by_module[module])]
        return ABOUT + "".join(f"{row}\n" for row in rows) if rows else ""

    def file_text(self, path, modules):
        """The text of a file that takes these modules from Common, and what it took before and takes no more from elsewhere."""
        before = collections.defaultdict(set)
        for name in self.taken_in(self.texts[path]):
            before[self.origin[name]].add(name)
        back = {module: names for module, names in before.items() if module not in modules}
        gone = {line for line, module, _ in imports(self.texts[path]) if module == self.common or module in {*modules, *back}}
        new = lines_of(f"use {self.common}", self.names(path, modules))
        for module in sorted(back):
            new += lines_of(f"use {module}", self.cited[path][module])
        lines = self.texts[path].split("\n")
        at = next((number for number, line in enumerate(lines) if line.startswith("use ")), 0)
        return "\n".join([*lines[:at], *new, *(line for line in lines[at:] if line not in gone)])

    def listed(self, is_there):
        """The text of the list of modules, with Common first in it or not at all."""
        lines = [line for line in (self.proofs / "Lib.antt").read_text().split("\n") if line != "mod Common"]
        at = next((number for number, line in enumerate(lines) if line.startswith(("mod ", "pub mod "))), 0)
        return "\n".join([*lines[:at], *["mod Common"] * is_there, *lines[at:]])

    def choose(self):
        """The same as `settle`, or nothing where it is not worth its lines."""
        taken, takers = self.settle()
        gain = sum(len(modules) - len(lines_of(f"use {self.common}", self.names(path, modules))) for path, modules in taken.items())
        if gain - self.common_text(takers).count("\n") >= WORTH:
            return taken, takers
        return {path: [] for path in taken}, collections.Counter()

    def written(self):
        """The texts of the files by their paths, as they should be. That of a Common that is not worth its lines is empty."""
        taken, takers = self.choose()
        common = self.common_text(takers)
        texts = {path: self.file_text(path, modules) for path, modules in taken.items()}
        return {**texts, self.place: common, self.proofs / "Lib.antt": self.listed(common != "")}

    def faults(self):
        """What is wrong with Common and with the files that take from it."""
        taken = {name for text in self.texts.values() for name in self.taken_in(text)}
        passed = [name for _, _, names in imports("\n".join(PASSED.findall(self.now))) for name in names]
        if self.listed(self.now != "") != (self.proofs / "Lib.antt").read_text():
            yield "Common is not the first module of Lib.antt"
        yield from (f"{name} is passed on twice" for name in sorted(set(passed)) if passed.count(name) > 1)
        yield from (f"{name} is passed on and no file takes it" for name in sorted(set(passed) - taken))
        yield from (f"{name} is taken and not passed on" for name in sorted(taken - set(passed)))
        yield from (f"{name} is passed on and a file unfolds it" for name in sorted(set(passed) & self.unfolded))


def write(crate):
    """Writes the files of a crate anew that are not as they should be, and gives how many lines there were and are."""
    before, after = crate.now.count("\n"), 0
    before += sum(text.count("\n") for text in crate.texts.values())
    for path, text in crate.written().items():
        after += text.count("\n") if path.name != "Lib.antt" else 0
        if not text:
            path.unlink(missing_ok=True)
        elif not path.exists() or path.read_text() != text:
            path.write_text(text)
    return before, after


def main():
    given = parser(__doc__)
    given.add_argument("crates", nargs="*", metavar="CRATE")
    given.add_argument("--check", action="store_true", help="end with 1 if a Common.antt is not as it should be")
    options = given.parse_args()
    if not options.crates and not options.check:
        given.error("give the names of crates, or --check")
    wrong = 0
    for folder in crates_of(options.crates):
        if not (folder / "proofs" / "Lib.antt").exists():
            continue
        crate = Crate(folder)
        if options.check:
            for fault in crate.faults():
                wrong += 1
                print(f"{crate.name}: {fault}")
        else:
            before, after = write(crate)
            print(f"{crate.name}: {before:,} lines of proofs, now {after:,}")
    if options.check:
        print(f"Common: {wrong} faults")
    return 1 if wrong else 0


if __name__ == "__main__":
    sys.exit(main())
