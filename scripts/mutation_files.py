"""The mutations of the crates: where they stand, what each changes, and whether it still applies.

A mutation is a file crates/CRATE/must-fail/NAME.edit, which the gate tries, or stands in more.md beside it: a heading with
the name, and then the lines of the edit, indented.
"""
import collections
import dataclasses
import pathlib
import re

import files

TOP = pathlib.Path(files.TOP)
ENTRY = re.compile(r"^## (\w+)\n\n((?:    .*\n)+)", re.M)
HEADING = re.compile(r"^## .*$", re.M)
OUTCOME = re.compile(r"^rt: must-fail \w+/(\w+)\.edit: (refused, as it must be|NOT REFUSED|BAD EDIT|NOT TRIED)(.*)")


@dataclasses.dataclass(frozen=True)
class Mutation:
    """The lines of an edit, and where they stand."""

    place: pathlib.Path
    name: str
    text: str

    def pieces(self):
        """The file, the old text and the new text of each change."""
        file, old = None, None
        for line in self.text.splitlines():
            word, _, rest = line.partition(": ")
            if word == "file":
                file = rest
            elif word == "old":
                old = rest
            elif word == "new":
                yield file, old, rest

    def fault(self, crate):
        """Why it does not apply to the files of its crate, or nothing."""
        return self.applied(crate, {})[1]

    def applied(self, crate, texts):
        """The texts of files after it, if these were the texts before, and why it does not apply, or nothing."""
        texts, changes = dict(texts), list(self.pieces())
        if not changes:
            return texts, "changes nothing"
        for file, old, new in changes:
            if file is None or old is None:
                return texts, "a new text without a file or an old text"
            if file not in texts:
                path = crate / file
                if not path.is_file():
                    return texts, f"there is no {file}"
                texts[file] = files.read(path)
            count = texts[file].count(old)
            if count != 1:
                return texts, f"stands {count} times in {file}: {old.strip()}"
            texts[file] = texts[file].replace(old, new)
        return texts, None


def crates():
    """The folders of the crates that have mutations, lowest first."""
    names = re.findall(r"^(\w+):", files.text("crates.txt"), re.M)
    return [TOP / "crates" / name for name in names if (TOP / "crates" / name / "must-fail").is_dir()]


def tried_by_gate(crate):
    """The mutations of a crate that the gate tries."""
    for path in sorted((crate / "must-fail").glob("*.edit")):
        yield Mutation(path, path.stem, files.read(path))


def more_text(crate):
    """The text of more.md, or nothing."""
    path = crate / "must-fail" / "more.md"
    return files.read(path) if path.exists() else ""


def left_out(crate):
    """The mutations of a crate that the gate leaves out."""
    path = crate / "must-fail" / "more.md"
    for name, lines in ENTRY.findall(more_text(crate)):
        yield Mutation(path, name, "".join(line[4:] + "\n" for line in lines.splitlines()))


def mutations_of(crate):
    """All mutations of a crate."""
    return [*tried_by_gate(crate), *left_out(crate)]


def faults_of(crate):
    """What is wrong with the mutations of a crate, and how many the gate tries and leaves out."""
    gate, more = list(tried_by_gate(crate)), list(left_out(crate))
    faults = [f"{m.place.relative_to(TOP)}: {m.name}: {m.fault(crate)}" for m in gate + more if m.fault(crate)]
    names = collections.Counter(m.name for m in gate + more)
    faults += [f"crates/{crate.name}/must-fail: {name} stands twice" for name in names if names[name] > 1]
    if len(HEADING.findall(more_text(crate))) != len(more):
        faults.append(f"crates/{crate.name}/must-fail/more.md: a heading without an edit below it")
    return faults, len(gate), len(more)
