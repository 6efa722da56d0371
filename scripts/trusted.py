#!/usr/bin/env python3
"""Prints the definitions that the contract of `run` reaches, by name, as the table of docs/TRUSTED.md: a row for each file of
specs/ with the lines of its reached definitions (with the comments above them), the lines of the whole file, and the names.
A row stands below those of the files that it reads, and else the lower crate stands first. A second table has how much each
clause of `run` reaches, and a third how much of `ends` and `follows` is about each command alone, with the refusal of all
other words. With --of WORDS it prints the first table for what these clauses alone reach. With --twice it prints the names that
more than one of these definitions has, with their files: a reader should meet few of them.

A definition reaches each definition whose name stands in it; the name of a case stands for its list of cases. Types that the
code declares and definitions of the standard library are not listed."""
import collections
import dataclasses
import functools
import pathlib
import re

from given import parser

ROOT = pathlib.Path(__file__).resolve().parent.parent
TOP = ROOT / "crates/safl_tool/src/top.rt"
PAGE, README = ROOT / "docs/TRUSTED.md", ROOT / "README.md"
TASK = re.compile(r"command_task \((\w+)")
COMMANDS = {
    "check": ["Check"],
    "build": ["Build"],
    "build --opt": ["Optimise"],
    "sim": ["Sim"],
    "run": ["Run"],
    "walk": ["Walk"],
    "report": ["Report"],
    "gen": ["Gen"],
    "bench": ["Bench"],
    "reshape": ["CopySite", "UnfoldSite"],
    "session": ["Session"],
    "aig": ["Aig"],
    "aigstat": ["Aigstat"],
}
COMMAND_CLAUSES = ("ends", "follows")
USE = re.compile(r"use Rattle\.(safl_\w+)\.specs\.([\w.]+?)(?:\.\{(.*)\}| as (\w+))?;?$")
HEAD = re.compile(r"(?:(?:abbrev|unfoldable|total|pub|record|data) )+([^\s:]+)|mutual$")
MEMBER = re.compile(r"\s+((?:(?:abbrev|unfoldable|pub|record|data) )*)(?!λ)([^\W\d][^\s:]*)(?: [({].*)? :")
COMMENT = re.compile(r"(?:^|\s)--\s.*")
WORD = re.compile(r"[^\s(){}\[\],;.]+(?:\.[^\s(){}\[\],;.]+)?")


@dataclasses.dataclass
class Item:
    """A definition, or a group of definitions of each other, with the comment above: from a line up to another."""
    first: int
    end: int
    is_group: bool
    is_record: bool
    has_members: bool
    names: list


class File:
    """A file of definitions: its items, by name the item that defines it, and the files and names that it imports."""

    def __init__(self, path):
        self.lines = without_module(path.read_text().splitlines())
        self.imports, self.aliases = imports_of(self.lines)
        self.items, self.owner, self.fields = [], {}, set()
        comment = None
        for at, line in enumerate(self.lines):
            comment = self.take(at, line, comment)

    def take(self, at, line, comment):
        """Reads a line, below a comment that begins at this line; gives the comment that stands above the next one."""
        if line.startswith("--"):
            return at if comment is None else comment
        if begins := HEAD.match(line):
            name = begins[1] if begins[1] != "mutual" else None
            is_record, is_data = (f" {word} " in f" {line}" for word in ("record", "data"))
            self.items.append(Item(at if comment is None else comment, at + 1, name is None, is_record, is_record or is_data or name is None, []))
            if name:
                self.define(name, True)
        elif line and not line.startswith("use ") and self.items:
            self.items[-1].end = at + 1
            if self.items[-1].has_members and (member := MEMBER.match(line)):
                self.define(member[2], self.items[-1].is_group and "pub" in member[1])
        return None

    def define(self, name, is_listed):
        name, item = name.replace("◌", ""), self.items[-1]
        self.owner.setdefault(name, len(self.items) - 1)
        if is_listed:
            item.names.append(name)
        elif item.is_record:
            self.fields.add(name)

    def words(self, item, others):
        """The words of an item, without the names that it gives to its fields, and without the tasks of other commands."""
        found, is_other = set(), False
        for line in self.lines[self.items[item].first:self.items[item].end]:
            if not line.startswith(" "):
                task = TASK.match(line)
                is_other = task is not None and task[1] in others
            if not is_other:
                field = self.items[item].is_record and MEMBER.match(line)
                found.update(WORD.findall(COMMENT.sub("", line[field.end(2):] if field else line)))
        return found

    def size(self, items):
        return sum(self.items[i].end - self.items[i].first for i in items)


def without_module(lines):
    """The lines, where those of a module with parameters stand as those outside of it."""
    inside, found = False, []
    for line in lines:
        inside = line.startswith("module ") or inside and line[:1] in ("", " ")
        found.append("" if line.startswith("module ") else line[2:] if inside else line)
    return found


def imports_of(lines):
    """What each imported name means, as crate, file and name; and what each name of a file means."""
    names, files = {}, {}
    for line in lines:
        if not (use := USE.search(line)):
            continue
        crate, module, listed, alias = use.groups()
        for name in listed.split(",") if listed else []:
            there, _, here = name.strip().replace("◌", "").partition(" as ")
            names[here or there] = (crate, module, there)
        if not listed:
            files[alias or module.split(".")[-1]] = (crate, module)
    return names, files


def meaning(file, crate, module, word):
    """The crate, file and name that a word means in a file, if it is one of a definition. The name of a field alone reaches
    nothing: who has a field has named the record."""
    head, _, tail = word.partition(".")
    if tail and head in file.aliases:
        return (*file.aliases[head], tail)
    if head in file.owner and head not in file.fields:
        return crate, module, head
    return file.imports.get(head)


def clauses():
    """The clauses of `run`, each with the definitions that it names."""
    text = TOP.read_text()
    imports, _ = imports_of(text.splitlines())
    contract = re.search(r"^pub fn run\b.*?^\{", text, re.M | re.S)[0]
    _, *parts = re.split(r"\bensures (\w+) ", re.sub(r"//.*", "", contract))
    return {name: [imports[word] for word in WORD.findall(term) if word in imports] for name, term in zip(parts[::2], parts[1::2])}


def reached(files, names, commands):
    """The items that these clauses of `run` reach for these commands, by file."""
    found, left = {}, [root for name in names for root in clauses()[name]]
    others = {name for command in COMMANDS if command not in commands for name in COMMANDS[command]}
    while left:
        crate, module, name = target = left.pop()
        file = files.get((crate, module))
        if file is None or name not in file.owner:
            continue
        if file.owner[name] in found.setdefault((crate, module), set()):
            continue
        found[crate, module].add(file.owner[name])
        left += read_by(file, crate, module, [file.owner[name]], others)
    return found


def read_by(file, crate, module, items, others=()):
    """The definitions whose names stand in these items of a file, without the tasks of other commands."""
    words = sorted(set().union(*(file.words(i, others) for i in items)))
    return [target for word in words if (target := meaning(file, crate, module, word))]


def in_order(files, found):
    """The reached files, each after those that its reached items read."""
    order, seen = [], set()

    def visit(key):
        if key in seen:
            return
        seen.add(key)
        for crate, module, _ in read_by(files[key], *key, found[key]):
            if (crate, module) in found:
                visit((crate, module))
        order.append(key)

    crates = re.findall(r"^(safl\w*):", (ROOT / "crates.txt").read_text(), re.M)
    for key in sorted(found, key=lambda key: (crates.index(key[0]), key[1])):
        visit(key)
    return order


def names_in(file, items):
    return [name for i in sorted(items) for name in file.items[i].names]


def sums(files, found):
    """The definitions in these items of files, their lines, and the files."""
    return (sum(len(names_in(files[key], items)) for key, items in found.items()),
            sum(files[key].size(items) for key, items in found.items()), len(found))


def table_of_files(files, found):
    """A row for each reached file, with its reached definitions."""
    rows = ["| crate | file | lines | of | definitions |", "|---|---|---|---|---|"]
    for crate, module in in_order(files, found):
        file, items = files[crate, module], found[crate, module]
        names = ", ".join(f"`{name}`" for name in names_in(file, items))
        rows.append(f"| {crate} | {module} | {file.size(items)} | {len(file.lines)} | {names} |")
    return "\n".join(rows) + "\n"


def table_of_sums(files, what, found):
    """A row for each of these, with how much it reaches."""
    rows = [f"| {what} | definitions | lines | files |", "|---|---|---|---|"]
    return "\n".join(rows + ["| {} | {:,} | {:,} | {} |".format(name, *sums(files, items)) for name, items in found.items()]) + "\n"


def definitions():
    return {(p.parent.parent.name, p.stem): File(p) for p in ROOT.glob("crates/*/specs/*.antt")}


@functools.cache
def tables():
    """The three tables of docs/TRUSTED.md."""
    files = definitions()
    found = reached(files, clauses(), COMMANDS)
    by_clause = {f"`{name}`": reached(files, [name], COMMANDS) for name in clauses()}
    by_command = {command: reached(files, COMMAND_CLAUSES, [command]) for command in COMMANDS}
    return (table_of_files(files, found), table_of_sums(files, "clause", {**by_clause, "all clauses": found}),
            table_of_sums(files, "command", by_command))


def twice():
    """The names that more than one definition has which `run` reaches, with the files of these."""
    files = definitions()
    places = collections.defaultdict(list)
    for (crate, module), items in reached(files, clauses(), COMMANDS).items():
        for name in names_in(files[crate, module], items):
            places[name].append(f"{crate} {module}")
    return {name: sorted(found) for name, found in sorted(places.items()) if len(found) > 1}


def in_words():
    """How many definitions these are, with how many lines in how many files, as README.md says it."""
    return "{} definitions with {} lines in {} files".format(*re.search(r"^\| all clauses \| (.*) \| (.*) \| (.*) \|$", tables()[1], re.M).groups())


def put():
    """Puts the tables into docs/TRUSTED.md, and their sum into README.md."""
    page = PAGE.read_text()
    for table in tables():
        head = re.escape(table.splitlines()[0])
        page = re.sub(rf"^{head}\n(?:\|.*\n)+", lambda _, table=table: table, page, flags=re.M)
    PAGE.write_text(page)
    README.write_text(re.sub(r"[\d,]+ definitions with [\d,]+ lines in [\d,]+ files", in_words(), README.read_text()))


def main():
    reader = parser(__doc__)
    reader.add_argument("--of", nargs="+", choices=clauses(), metavar="CLAUSE", help="print what these clauses of `run` alone reach")
    reader.add_argument("--twice", action="store_true", help="print the names that more than one of the definitions has")
    reader.add_argument("--write", action="store_true", help="put the tables into docs/TRUSTED.md and their sum into README.md")
    given = reader.parse_args()
    if given.of:
        files = definitions()
        print(table_of_files(files, reached(files, given.of, COMMANDS)), end="")
    elif given.twice:
        print("".join(f"{name}: {', '.join(found)}\n" for name, found in twice().items()) + f"{len(twice())} names")
    elif given.write:
        put()
    else:
        print("\n".join(tables()), end="")


if __name__ == "__main__":
    main()
