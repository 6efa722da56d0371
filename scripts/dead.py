#!/usr/bin/env python3
"""Names that nothing uses: imports of .rt and .antt files, and definitions that stand in one place alone.

    scripts/dead.py                   # how many, by crate
    scripts/dead.py --list [CRATE..]  # and which
    scripts/dead.py --drop CRATE..    # takes the dead imports and definitions of these crates out of their files
    scripts/dead.py --check           # ends with 1 if any import of a .rt file or any definition is dead

`rt tidy` drops the unused imports of .antt files alone, and only those that antt itself finds unused. This script also
looks at the `ghost use` and `use` lines of .rt files, of which no command speaks, and at definitions of proofs/ and
specs/. It reads words, so a name that stands in a comment only counts as dead, and one that is used under the same
name for something else counts as alive. Worked examples are left out.
After --drop read the changes (a comment above a definition goes with it), and run `rt fmt` and
`rt check` in the crate: the check decides.
"""
import collections
import pathlib
import re
import sys

import files
from given import parser

TOP = pathlib.Path(files.TOP)
NAME = r"[^\s.,;:(){}\[\]`\"@]+"
IMPORT = re.compile(r"^(?P<lead>[ \t]*(?:pub )?(?:ghost )?use )(?P<path>[^\s{;]+?)\.?(?:\.\{(?P<names>[^}]*)\})?"
                    r"(?: as (?P<alias>" + NAME + r"))?(?P<end>;?)[ \t]*$", re.M)
DEFINED = re.compile(r"(?P<indent> *)(?:abbrev |unfoldable )*(?:pub )?(?:(?:record|data) (?P<type>" + NAME + r")|(?P<name>" + NAME + r") : )")
WORDS = re.compile(r"[^\s.,;:(){}\[\]`\"@]+")
PLAIN = re.compile(r"[^\W\d][\w'-]*")
# files of worked examples, whose statements nothing has to use
EXAMPLES = ("Worked", "Even")
# a block of definitions that has none
EMPTY_BLOCK = re.compile(r"^( *)module _[^\n]*\bwhere\n(?!\1 )(?:\n(?!\1 )|(?=\S)|\Z)", re.M)
OPERATOR = re.compile(r"◌")


def without_comments(text, mark):
    """The text with the comments of its lines blanked."""
    return re.sub(r"(?m)(^|\s)" + re.escape(mark) + r".*$", r"\1", text)


def words_of(text):
    """How often each word stands in a text. A word with an operator in it counts for its parts too, and a plain one twice."""
    return collections.Counter(WORDS.findall(text)) + collections.Counter(PLAIN.findall(text))


def bare(item):
    """The name under which an import brings an item in."""
    return item.split(" as ")[-1].strip()


def stands(name, text, counts):
    """Whether a name is used in a text without its import lines."""
    if OPERATOR.search(name):
        return all(part in text for part in name.split("◌") if part)
    if name == "[]":
        return "[]" in text
    return counts[name] > 0


def dead_imports(path):
    """The dead names of each import of a file, as (match, names, dead names)."""
    text = path.read_text()
    is_code = path.suffix == ".rt"
    # the matches are taken in the text as it stands, and uses are looked for without comments
    body = IMPORT.sub("", without_comments(text, "//" if is_code else "--"))
    counts = words_of(body)
    found = []
    for match in IMPORT.finditer(text):
        lead = match["lead"]
        if "pub " in lead or (is_code and "ghost" not in lead):
            continue
        if match["names"] is None:
            names = [match["alias"] or match["path"].split(".")[-1]]
        else:
            names = [item.strip() for item in match["names"].split(",") if item.strip()]
        if names == ["*"] or "*" in names:
            continue
        dead = [item for item in names if not stands(bare(item), body, counts)]
        if dead:
            found.append((match, names, dead))
    return text, found


def dropped(text, found):
    """The text without its dead imports."""
    for match, names, dead in reversed(found):
        left = [item for item in names if item not in dead]
        if left and match["names"] is not None:
            line = f"{match['lead']}{match['path']}.{{{', '.join(left)}}}{match['end']}"
            text = text[:match.start()] + line + text[match.end():]
        else:
            end = match.end() + (text[match.end():match.end() + 1] == "\n")
            text = text[:match.start()] + text[end:]
    return text


def files_of(crate):
    """The files of a crate that imports stand in."""
    for part in ("src", "specs", "proofs"):
        yield from sorted((crate / part).rglob("*.rt" if part == "src" else "*.antt"))


def all_words(crates):
    """How often each word stands in all files of the repository."""
    counts = collections.Counter()
    for crate in crates:
        for path in files_of(crate):
            mark = "//" if path.suffix == ".rt" else "--"
            counts.update(words_of(without_comments(path.read_text(), mark)))
    return counts


def generated(path):
    """Whether a file answers goals: its names are the toolchain's."""
    return path.name in ("Answers.antt", "Invariants.antt", "Proof.antt")


def dead_definitions(crate, counts):
    """The definitions of a crate that no other line names, as (path, line, name)."""
    for part in ("specs", "proofs"):
        for path in sorted((crate / part).rglob("*.antt")):
            if not path.name.startswith(EXAMPLES):
                yield from dead_in(path, counts)


def dead_in(path, counts):
    """The definitions of a file that nothing but their own lines names. Fields of records are not looked at."""
    text = without_comments(path.read_text(), "--")
    fields = None
    for number, line in enumerate(text.split("\n"), 1):
        match = DEFINED.match(line)
        if line.strip() and fields is not None and len(line) - len(line.lstrip()) <= fields:
            fields = None
        if not match or fields is not None:
            continue
        name = match["type"] or match["name"]
        if match["type"] and line.rstrip().endswith("where"):
            fields = len(match["indent"])
        if "◌" in name or (generated(path) and "pub " in match[0]):
            continue
        own = own_uses(text.split("\n"), number, name)
        if own and counts[name] <= own:
            yield path, number, name


def goes_on(lines, at, indent, name):
    """Whether the definition of a name goes on at this line: deeper, with a bracket, or with one of its clauses. A `where` may
    have blank lines below it."""
    if at < len(lines) and not lines[at].strip():
        at += 1
        if at < len(lines) and not lines[at].startswith(" " * (indent + 4)):
            return False
    return at < len(lines) and bool(re.match(" " * indent + r"(?: |unfolding |" + re.escape(name) + r"[\s=]|[\])}])", lines[at]))


def without(lines, number, name):
    """The lines without the definition whose signature is this one, its clauses and the comment right above it."""
    first, last = number - 1, number
    indent = len(lines[first]) - len(lines[first].lstrip())
    while goes_on(lines, last, indent, name):
        last += 1
    while first > 0 and lines[first - 1].startswith(" " * indent + "-- ") and "-- ----" not in lines[first - 1]:
        first -= 1
    if last < len(lines) and not lines[last].strip() and (first == 0 or not lines[first - 1].strip()):
        last += 1
    return lines[:first] + lines[last:]


def drop_definitions(crate):
    """Takes the dead definitions out of a crate's files, until none is left, and gives how many they were."""
    number = 0
    while dead := list(dead_definitions(crate, all_words(crates_of([])))):
        number += len(dead)
        for path, line, name in reversed(dead):
            left = "\n".join(without(path.read_text().split("\n"), line, name)).rstrip("\n") + "\n"
            path.write_text(EMPTY_BLOCK.sub("", left))
    return number


def own_uses(lines, number, name):
    """How often a definition, from the line of its signature on, names itself at the beginning of its lines."""
    first, last = number - 1, number
    indent = len(lines[first]) - len(lines[first].lstrip())
    while goes_on(lines, last, indent, name):
        last += 1
    starts = re.compile(r" *(?:abbrev |unfoldable )*(?:pub )?(?:record |data )?" + re.escape(name) + r"(?=[\s:(={]|$)")
    return sum(words_of(line)[name] for line in lines[first:last] if starts.match(line))


def crates_of(names):
    """The folders of these crates, or of all."""
    folder = TOP / "crates"
    known = sorted(path for path in folder.iterdir() if (path / "src").is_dir())
    for name in names:
        if folder / name not in known:
            sys.exit(f"dead.py: no crate {name}")
    return [folder / name for name in names] if names else known


def main():
    given = parser(__doc__)
    given.add_argument("crates", nargs="*", metavar="CRATE")
    given.add_argument("--list", action="store_true", help="print each dead name")
    given.add_argument("--drop", action="store_true", help="take the dead imports out of the files of CRATE..")
    given.add_argument("--check", action="store_true", help="end with 1 if an import of a .rt file or a definition is dead")
    options = given.parse_args()
    if options.drop and not options.crates:
        given.error("--drop wants the names of crates")
    if options.drop:
        for crate in crates_of(options.crates):
            print(f"{crate.name}: {drop_definitions(crate)} definitions dropped")
    counts = all_words(crates_of([]))
    total, lines = collections.Counter(), 0
    for crate in crates_of(options.crates):
        here = collections.Counter()
        for path in files_of(crate):
            text, found = dead_imports(path)
            names = [bare(item) for _, _, dead in found for item in dead]
            here["src" if path.suffix == ".rt" else "antt"] += len(names)
            here["whole"] += sum(len(dead) == len(every) for _, every, dead in found)
            if names and options.list:
                print(f"{path.relative_to(TOP)}: {', '.join(names)}")
            if found and options.drop:
                path.write_text(dropped(text, found))
        for path, line, name in dead_definitions(crate, counts):
            here["defined"] += 1
            if options.list:
                print(f"{path.relative_to(TOP)}:{line}: {name} is named nowhere else")
        total.update(here)
        if any(here.values()):
            print(f"{crate.name}: imports {here['src']} in src, {here['antt']} in specs and proofs, "
                  f"{here['whole']} whole lines; definitions {here['defined']}")
    print(f"all: imports {total['src']} in src, {total['antt']} in specs and proofs, {total['whole']} whole lines; "
          f"definitions {total['defined']}")
    return 1 if options.check and (total["src"] or total["defined"]) else 0


if __name__ == "__main__":
    sys.exit(main())
